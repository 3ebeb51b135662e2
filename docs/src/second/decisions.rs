//! Decisions, a line each: `client` or `server`; packet; map; decoded buffer; book.
//!
//! The first four columns are those of a case; the book is hex pairs, `-` if empty.

use crate::book::{read_book, Refused};
use crate::case::{hex_pairs, parse_map};
use crate::guard::decide;
use crate::message::Map;
use std::io::{Result, Write};

/// Twice what the longest book is in hex, so that books beyond 50 and any packet have room.
pub const LONGEST_LINE: usize = 262_144;

pub struct Asked {
    pub from_client: bool,
    pub packet: Vec<u8>,
    pub map: Map,
    pub decoded: Vec<u8>,
    pub book: Vec<u8>,
}

/// `None` is a line of another form.
pub fn parse_asked(line: &[u8]) -> Option<Asked> {
    if line.len() > LONGEST_LINE {
        return None;
    }
    // The fifth column is everything behind the fourth tab.
    let mut columns = line.splitn(5, |byte| *byte == b'\t');
    let from_client = match columns.next()? {
        b"client" => true,
        b"server" => false,
        _ => return None,
    };
    let packet = hex_pairs(columns.next()?)?;
    let map = parse_map(columns.next()?)?;
    let decoded = hex_pairs(columns.next()?)?;
    let book = hex_pairs(columns.next()?)?;
    Some(Asked { from_client, packet, map, decoded, book })
}

pub fn answer_decision(line: &[u8]) -> Vec<u8> {
    let Some(asked) = parse_asked(line) else {
        return b"bad".to_vec();
    };
    let Asked { from_client, packet, map, decoded, book } = asked;
    let answer = match decide(&book, &packet, &decoded, &map, from_client) {
        Err(refused) => format!("refused {} {}", refused.number, refused.line),
        Ok(decision) if decision.pass => format!("pass {}", decision.rule),
        Ok(decision) => format!("hold {}", decision.rule),
    };
    answer.into_bytes()
}

/// `ok` and the number of rules, or the refusal and its line.
pub fn write_judgement(book: &[u8], mut output: impl Write) -> Result<()> {
    match read_book(book) {
        Ok(rules) => writeln!(output, "ok\t{}", rules.len())?,
        Err(refused) => write_refused(refused, &mut output)?,
    }
    output.flush()
}

pub fn write_refused(refused: Refused, mut output: impl Write) -> Result<()> {
    writeln!(output, "{}\t{}", refused.number, refused.line)?;
    output.flush()
}
