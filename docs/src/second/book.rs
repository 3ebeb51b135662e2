//! Reading a rule book (document 02, T-03): 50 for the whole, then lines from the top,
//! and in a line 53, 51, 52, then the text's own refusal.

use crate::limits::{LONGEST_BOOK, MOST_RULES};
use crate::reader::read;
use crate::table::Table;
use std::ffi::OsStr;
use std::fs::File;
use std::io::Read;

pub struct Rule {
    pub number: u16,
    pub on: bool,
    pub pass: bool,
    pub table: Table,
}

#[derive(Clone, Copy, Debug, PartialEq, Eq)]
pub struct Refused {
    pub number: u8,
    /// Counted from 1; 0 for 50, which is no line's.
    pub line: usize,
}

/// What stands in a file; one byte more than the longest book has is enough to tell 50.
pub fn bytes_of(file: &OsStr) -> std::io::Result<Vec<u8>> {
    let mut book = Vec::new();
    File::open(file)?.take(LONGEST_BOOK as u64 + 1).read_to_end(&mut book)?;
    Ok(book)
}

pub fn read_book(book: &[u8]) -> Result<Vec<Rule>, Refused> {
    if book.len() > LONGEST_BOOK {
        return Err(Refused { number: 50, line: 0 });
    }
    let mut rules: Vec<Rule> = Vec::new();
    // Bytes behind the last LF are a line too.
    for line in book.split_inclusive(|byte| *byte == b'\n') {
        match read_rule(line, &rules) {
            Ok(rule) => rules.push(rule),
            Err(number) => return Err(Refused { number, line: rules.len() + 1 }),
        }
    }
    Ok(rules)
}

/// The rule of a line that stands behind these, or the line's refusal.
fn read_rule(line: &[u8], before: &[Rule]) -> Result<Rule, u8> {
    if before.len() == MOST_RULES {
        return Err(53);
    }
    let Form { number, on, pass, text } = form(line).ok_or(51)?;
    if before.last().is_some_and(|last| number <= last.number) {
        return Err(52);
    }
    // A rule that is off is read, too.
    let table = read(text).map_err(|refusal| refusal.number)?;
    Ok(Rule { number, on, pass, table })
}

struct Form<'a> {
    number: u16,
    on: bool,
    pass: bool,
    text: &'a [u8],
}

/// A line with its LF; `None` is the wrong form. The text is all behind the third tab.
fn form(line: &[u8]) -> Option<Form<'_>> {
    let line = line.strip_suffix(b"\n")?;
    let mut columns = line.splitn(4, |byte| *byte == b'\t');
    let number = rule_number(columns.next()?)?;
    let on = either(columns.next()?, b"on", b"off")?;
    let pass = either(columns.next()?, b"pass", b"hold")?;
    let text = columns.next()?;
    Some(Form { number, on, pass, text })
}

fn either(word: &[u8], yes: &[u8], no: &[u8]) -> Option<bool> {
    if word == yes {
        return Some(true);
    }
    (word == no).then_some(false)
}

/// 1 to 65535 without leading zeros.
fn rule_number(digits: &[u8]) -> Option<u16> {
    // More than five digits are too great, so that nothing wraps.
    if !(1..=5).contains(&digits.len()) || digits[0] == b'0' {
        return None;
    }
    let mut number = 0u32;
    for digit in digits {
        number = 10 * number + char::from(*digit).to_digit(10)?;
    }
    u16::try_from(number).ok()
}
