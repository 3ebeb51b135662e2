//! One line of a trace (document 02, T-05): `client` or `server`, tab, packet, tab, map,
//! tab, decoded buffer.

use crate::message::{Map, Message, Span};
use crate::table::Field;
use std::io::BufRead;

/// Before its LF.
pub const LONGEST_LINE: usize = 16_384;

/// What a line says. Each line is read into the room of the one before.
#[derive(Default)]
pub struct Line {
    pub from_client: bool,
    pub packet: Vec<u8>,
    pub map: Map,
    pub decoded: Vec<u8>,
}

impl Line {
    /// `None` is a line of another form; what is held then means nothing.
    pub fn read(&mut self, line: &[u8]) -> Option<()> {
        if line.len() > LONGEST_LINE {
            return None;
        }
        let mut left = line;
        self.from_client = match column(&mut left)? {
            b"client" => true,
            b"server" => false,
            _ => return None,
        };
        read_pairs(column(&mut left)?, &mut self.packet)?;
        read_map(column(&mut left)?, &mut self.map)?;
        // A fourth tab would be no digit.
        read_pairs(left, &mut self.decoded)
    }

    /// `None` is a packet refused with 30 to 35.
    pub fn message(&self) -> Option<Message<'_>> {
        Message::new(&self.packet, &self.decoded, &self.map, self.from_client).ok()
    }
}

/// What stands before the next tab, which must be there; behind it the line goes on.
fn column<'a>(left: &mut &'a [u8]) -> Option<&'a [u8]> {
    let line = *left;
    let taken = left.skip_until(b'\t').ok()?;
    line[..taken].strip_suffix(b"\t")
}

/// The number of each digit, of either case; over 15 for a byte that is none.
const DIGITS: [u8; 256] = digits();
const NO_DIGIT: u8 = 0xF0;

const fn digits() -> [u8; 256] {
    let mut table = [NO_DIGIT; 256];
    let mut number = 0;
    while number < 16 {
        table[b"0123456789abcdef"[number] as usize] = number as u8;
        table[b"0123456789ABCDEF"[number] as usize] = number as u8;
        number += 1;
    }
    table
}

/// Hex pairs, `-` if empty.
fn read_pairs(column: &[u8], bytes: &mut Vec<u8>) -> Option<()> {
    if column == b"-" {
        bytes.clear();
        return Some(());
    }
    if column.is_empty() || column.len() % 2 == 1 {
        return None;
    }
    bytes.resize(column.len() / 2, 0);
    let mut seen = 0;
    for (byte, pair) in bytes.iter_mut().zip(column.chunks_exact(2)) {
        let (high, low) = (DIGITS[usize::from(pair[0])], DIGITS[usize::from(pair[1])]);
        seen |= high | low;
        *byte = high << 4 | low;
    }
    (seen < 16).then_some(())
}

/// Entries such as `uri:0+12` parted by commas, each field at most once; `-` if empty.
fn read_map(column: &[u8], map: &mut Map) -> Option<()> {
    map.entries.clear();
    if column == b"-" {
        return Some(());
    }
    for entry in column.split(|byte| *byte == b',') {
        let (name, span) = parted(entry, b':')?;
        let (start, length) = parted(span, b'+')?;
        let field = match name {
            b"body" => Field::Body,
            b"banner" => Field::Banner,
            b"file" => Field::File,
            b"uri" => Field::Uri,
            b"header" => Field::Header,
            b"host" => Field::Host,
            _ => return None,
        };
        if map.span(field).is_some() {
            return None;
        }
        map.entries.push((field, Span { start: number(start)?, length: number(length)? }));
    }
    Some(())
}

/// What stands before the first `mark`, and what behind it.
fn parted(bytes: &[u8], mark: u8) -> Option<(&[u8], &[u8])> {
    let at = bytes.iter().position(|byte| *byte == mark)?;
    Some((&bytes[..at], &bytes[at + 1..]))
}

/// 0 to 65535 in one or more digits; leading zeros count for nothing.
fn number(digits: &[u8]) -> Option<usize> {
    if digits.is_empty() {
        return None;
    }
    let mut number = 0;
    for digit in digits {
        if !digit.is_ascii_digit() {
            return None;
        }
        number = number * 10 + usize::from(digit - b'0');
        // Judged at every digit, so that nothing wraps.
        if number > 65535 {
            return None;
        }
    }
    Some(number)
}
