//! What changed between two books (document 02, T-10).
//!
//! For each number that stands in either book, rising, its line; of a refused book, the first
//! if both are, one line alone.

use crate::book::{bytes_of, read_book, Refused, Rule};
use std::collections::BTreeSet;
use std::ffi::OsStr;
use std::io::{Result, Write};

/// Both books are opened and read before anything is written: without one of them nothing is,
/// also where the other is refused.
pub fn compare_files(first: &OsStr, second: &OsStr, mut output: impl Write) -> Result<()> {
    let (Ok(first), Ok(second)) = (bytes_of(first), bytes_of(second)) else {
        return Ok(());
    };
    output.write_all(compare(&first, &second).as_bytes())?;
    output.flush()
}

/// All that is written for two books.
pub fn compare(first: &[u8], second: &[u8]) -> String {
    match (read_book(first), read_book(second)) {
        (Err(refused), _) => refusal("first", refused),
        (_, Err(refused)) => refusal("second", refused),
        (Ok(first), Ok(second)) => changes(&first, &second),
    }
}

fn refusal(book: &str, refused: Refused) -> String {
    format!("{book}\t{}\t{}\n", refused.number, refused.line)
}

/// The number alone decides which rules belong together.
fn changes(first: &[Rule], second: &[Rule]) -> String {
    let numbers: BTreeSet<u16> = first.iter().chain(second).map(|rule| rule.number).collect();
    numbers.into_iter().map(|number| line(number, of(first, number), of(second, number))).collect()
}

fn of(rules: &[Rule], number: u16) -> Option<&Rule> {
    rules.iter().find(|rule| rule.number == number)
}

/// The line of one number with its LF; nothing for a rule alike in all three parts.
fn line(number: u16, first: Option<&Rule>, second: Option<&Rule>) -> String {
    match (first, second) {
        (Some(_), None) => format!("old\t{number}\n"),
        (None, Some(_)) => format!("new\t{number}\n"),
        (Some(first), Some(second)) => match &unlike(first, second)[..] {
            [] => String::new(),
            parts => format!("changed\t{number}\t{}\n", parts.join(",")),
        },
        (None, None) => String::new(),
    }
}

/// The parts that differ. Tables are compared, not texts: a table has many spellings, and its
/// house text may be too long to be written.
fn unlike(first: &Rule, second: &Rule) -> Vec<&'static str> {
    let parts = [
        ("state", first.on != second.on),
        ("action", first.pass != second.pass),
        ("text", first.table != second.table),
    ];
    parts.into_iter().filter(|(_, differs)| *differs).map(|(part, _)| part).collect()
}
