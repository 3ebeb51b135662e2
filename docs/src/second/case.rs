//! One line of a file of cases: six columns parted by tabs.
//!
//! `client` or `server`; packet; map; decoded buffer; ask; signature text.
//! A packet is hex pairs, `-` if empty; a map is `uri:0+12,body:3+4`, `-` if empty;
//! an ask is `all`, `first` or an earlier placement such as `(2,9)`.

use crate::limits::MOST_PATTERNS;
use crate::message::{Map, Span};
use crate::table::Field;
use crate::words::CONTEXTS;

pub struct Case<'a> {
    pub from_client: bool,
    pub packet: Vec<u8>,
    pub map: Map,
    pub decoded: Vec<u8>,
    pub ask: Ask,
    pub text: &'a [u8],
}

#[derive(Clone, Debug)]
pub enum Ask {
    All,
    First,
    Next(Vec<u64>),
}

pub const LONGEST_LINE: usize = 16_384;

/// `None` is a line of another form.
pub fn parse_case(line: &[u8]) -> Option<Case<'_>> {
    if line.len() > LONGEST_LINE {
        return None;
    }
    // The sixth column is everything behind the fifth tab.
    let mut columns = line.splitn(6, |byte| *byte == b'\t');
    let from_client = match columns.next()? {
        b"client" => true,
        b"server" => false,
        _ => return None,
    };
    let packet = hex_pairs(columns.next()?)?;
    let map = parse_map(columns.next()?)?;
    let decoded = hex_pairs(columns.next()?)?;
    let ask = parse_ask(columns.next()?)?;
    let text = columns.next()?;
    Some(Case { from_client, packet, map, decoded, ask, text })
}

pub fn hex_pairs(column: &[u8]) -> Option<Vec<u8>> {
    if column == b"-" {
        return Some(Vec::new());
    }
    if column.is_empty() || column.len() % 2 == 1 {
        return None;
    }
    column.chunks(2).map(|pair| Some(hex_digit(pair[0])? * 16 + hex_digit(pair[1])?)).collect()
}

pub fn hex_digit(byte: u8) -> Option<u8> {
    char::from(byte).to_digit(16).map(|digit| digit as u8)
}

pub fn parse_map(column: &[u8]) -> Option<Map> {
    let mut map = Map::default();
    if column == b"-" {
        return Some(map);
    }
    for entry in column.split(|byte| *byte == b',') {
        let (name, span) = cut(entry, b':')?;
        let (start, length) = cut(span, b'+')?;
        let (_, field) = CONTEXTS.iter().find(|(word, _)| word.as_bytes() == name)?;
        // The payload itself is no entry, and each field stands at most once.
        if *field == Field::Packet || map.span(*field).is_some() {
            return None;
        }
        let span = Span { start: small(start)?, length: small(length)? };
        map.entries.push((*field, span));
    }
    Some(map)
}

fn parse_ask(column: &[u8]) -> Option<Ask> {
    match column {
        b"all" => return Some(Ask::All),
        b"first" => return Some(Ask::First),
        b"()" => return Some(Ask::Next(Vec::new())),
        _ => {}
    }
    let inner = column.strip_prefix(b"(")?.strip_suffix(b")")?;
    let starts: Option<Vec<u64>> = inner.split(|byte| *byte == b',').map(decimal).collect();
    starts.filter(|starts| starts.len() <= MOST_PATTERNS).map(Ask::Next)
}

/// The parts before and behind the first `mark`.
fn cut(bytes: &[u8], mark: u8) -> Option<(&[u8], &[u8])> {
    let at = bytes.iter().position(|byte| *byte == mark)?;
    Some((&bytes[..at], &bytes[at + 1..]))
}

fn small(bytes: &[u8]) -> Option<usize> {
    decimal(bytes).filter(|number| *number <= 65535).map(|number| number as usize)
}

/// One or more digits whose number fits 64 bits.
fn decimal(bytes: &[u8]) -> Option<u64> {
    if bytes.is_empty() {
        return None;
    }
    let mut number = 0u64;
    for byte in bytes {
        let digit = byte.is_ascii_digit().then(|| u64::from(byte - b'0'))?;
        number = number.checked_mul(10)?.checked_add(digit)?;
    }
    Some(number)
}
