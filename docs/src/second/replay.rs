//! Replay of a night: a trace decided line by line by one book (document 02, T-05).
//!
//! The book is read once and its tables are made ready. A line is read into the room of the
//! one before; of a line that is too long no more is kept than tells it.

use crate::book::{bytes_of, read_book, Rule};
use crate::quick::Ready;
use crate::trace::{Line, LONGEST_LINE};
use std::ffi::OsStr;
use std::io::{BufRead, BufReader, Read, Result, Write};

const ROOM: usize = 1 << 18;

/// Without a book that can be opened and read nothing is written, and the trace is not read.
pub fn replay_file(book: &OsStr, input: impl Read, output: impl Write) -> Result<()> {
    match bytes_of(book) {
        Ok(book) => replay(&book, BufReader::with_capacity(ROOM, input), output),
        Err(_) => Ok(()),
    }
}

/// Writes each line's number and answer and then the totals; for a refused book one line.
pub fn replay(book: &[u8], mut input: impl BufRead, mut output: impl Write) -> Result<()> {
    let rules: Vec<Kept> = match read_book(book) {
        Ok(rules) => rules.iter().filter(|rule| rule.on).map(Kept::new).collect(),
        Err(refused) => {
            writeln!(output, "book\t{}\t{}", refused.number, refused.line)?;
            return output.flush();
        }
    };
    let nobody = Answer::new(Kind::Hold, 0);
    let bad = Answer::new(Kind::Bad, 0);
    let mut totals = [0u64; 3];
    let mut number = 0u64;
    let mut text = Vec::with_capacity(LONGEST_LINE + 1);
    let mut line = Line::default();
    while next_line(&mut input, &mut text)? {
        number += 1;
        let answer = match line.read(&text) {
            Some(()) => decide(&rules, &line).unwrap_or(&nobody),
            None => &bad,
        };
        totals[answer.kind as usize] += 1;
        write!(output, "{number}\t{}", answer.text)?;
    }
    let [passes, holds, bad] = totals;
    writeln!(output, "total\t{passes}\t{holds}\t{bad}")?;
    output.flush()
}

/// In the order of the totals.
#[derive(Clone, Copy)]
enum Kind {
    Pass,
    Hold,
    Bad,
}

struct Answer {
    kind: Kind,
    /// What stands behind the line's number, with its LF.
    text: String,
}

impl Answer {
    fn new(kind: Kind, rule: u16) -> Answer {
        let word = match kind {
            Kind::Pass => "pass",
            Kind::Hold => "hold",
            Kind::Bad => "bad",
        };
        Answer { kind, text: format!("{word}\t{rule}\n") }
    }
}

/// A rule that is on.
struct Kept {
    table: Ready,
    answer: Answer,
}

impl Kept {
    fn new(rule: &Rule) -> Kept {
        let kind = if rule.pass { Kind::Pass } else { Kind::Hold };
        Kept { table: Ready::new(&rule.table), answer: Answer::new(kind, rule.number) }
    }
}

/// The answer of the deciding rule; `None` if there is none or the packet is refused.
fn decide<'a>(rules: &'a [Kept], line: &Line) -> Option<&'a Answer> {
    let message = line.message()?;
    let deciding = rules.iter().find(|rule| rule.table.has_placement(&message))?;
    Some(&deciding.answer)
}

/// The next line without its LF; false behind the last. Of a longer line than may be, the
/// first bytes, one more than may be.
fn next_line(input: &mut impl BufRead, line: &mut Vec<u8>) -> Result<bool> {
    line.clear();
    let most = LONGEST_LINE as u64 + 1;
    if input.take(most).read_until(b'\n', line)? == 0 {
        return Ok(false);
    }
    if line.last() == Some(&b'\n') {
        line.pop();
    } else if line.len() > LONGEST_LINE {
        input.skip_until(b'\n')?;
    }
    Ok(true)
}
