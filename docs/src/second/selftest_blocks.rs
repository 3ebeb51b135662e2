//! Records through the kept book against the same packets one by one, each with its own
//! reading of the book.

use crate::blocks::{answer_blocks, FIELDS};
use crate::decisions::{parse_asked, Asked};
use crate::generate_block::record;
use crate::generate_decision::decision;
use crate::generate_measured;
use crate::guard::decide;
use crate::message::{Map, Span};
use crate::random::Random;
use std::io::{Read, Result as Written};

/// One book, its own packet, and those of two other lines.
pub fn generated(random: &mut Random) -> Result<(), String> {
    let lines: Vec<Vec<u8>> = (0..3).map(|_| decision(random)).collect();
    let asked: Vec<Asked> = lines.iter().filter_map(|line| parse_asked(line)).collect();
    let Some(book) = asked.first().map(|asked| asked.book.clone()) else { return Ok(()) };
    let records: Vec<Vec<u8>> = asked.iter().map(printed).collect();
    agree(random, &book, &asked, &records)
}

/// Records and books for measuring: none of the rules decides, or always the first.
pub fn measured(random: &mut Random) -> Result<(), String> {
    let first_decides = random.chance(50);
    let rules = random.between(1, 64);
    let book = generate_measured::book(random.next(), rules, first_decides);
    let records: Vec<Vec<u8>> = (0..5).map(|_| record(random, first_decides)).collect();
    let asked: Vec<Asked> = records.iter().map(|record| parsed(record)).collect();
    agree(random, &book, &asked, &records)?;
    let first: u16 = String::from_utf8_lossy(&book)
        .split('\t')
        .next()
        .and_then(|number| number.parse().ok())
        .unwrap_or(0);
    let wanted = if first_decides { first } else { 0 };
    for Asked { from_client, packet, map, decoded, .. } in &asked {
        let rule = decide(&book, packet, decoded, map, *from_client).map(|decision| decision.rule);
        if rule != Ok(wanted) {
            return Err(format!("rule {wanted} should decide, not {rule:?}"));
        }
    }
    Ok(())
}

/// The last record is sent again, cut short, and must get no answer.
fn agree(
    random: &mut Random,
    book: &[u8],
    asked: &[Asked],
    records: &[Vec<u8>],
) -> Result<(), String> {
    let mut stream = records.concat();
    if let Some(last) = records.last() {
        stream.extend(&last[..random.index(last.len())]);
    }
    let parts = random.pick(&[1, 7, 30, 100, 1000, 100_000]);
    let mut answers = Vec::new();
    let written = answer_blocks(book, Parts { bytes: &stream, most: parts }, &mut answers);
    let mut wanted = Vec::new();
    for Asked { from_client, packet, map, decoded, .. } in asked {
        match decide(book, packet, decoded, map, *from_client) {
            Ok(decision) => {
                wanted.push(u8::from(decision.pass));
                wanted.extend(decision.rule.to_be_bytes());
            }
            Err(refused) => {
                wanted = format!("{}\t{}\n", refused.number, refused.line).into_bytes();
                break;
            }
        }
    }
    if written.is_err() || answers != wanted {
        return Err(format!("blocks gives {answers:?}, one by one {wanted:?}"));
    }
    Ok(())
}

/// A reader that gives so many bytes at most.
pub struct Parts<'a> {
    pub bytes: &'a [u8],
    pub most: usize,
}

impl Read for Parts<'_> {
    fn read(&mut self, room: &mut [u8]) -> Written<usize> {
        let most = self.most.min(room.len());
        self.bytes.read(&mut room[..most])
    }
}

fn printed(asked: &Asked) -> Vec<u8> {
    let mut record = vec![if asked.from_client { 0 } else { 255 }, 0xC0];
    record.extend((asked.packet.len() as u16).to_be_bytes());
    record.extend((asked.decoded.len() as u16).to_be_bytes());
    for (place, field) in FIELDS.into_iter().enumerate() {
        let span = asked.map.span(field);
        record[1] |= u8::from(span.is_some()) << place;
        // An absent field's numbers are ignored.
        let Span { start, length } = span.unwrap_or(Span { start: 9, length: 65535 });
        record.extend((start as u16).to_be_bytes());
        record.extend((length as u16).to_be_bytes());
    }
    [record, asked.packet.clone(), asked.decoded.clone()].concat()
}

fn parsed(record: &[u8]) -> Asked {
    let number = |at: usize| usize::from(record[at]) * 256 + usize::from(record[at + 1]);
    let mut map = Map::default();
    for (place, field) in FIELDS.into_iter().enumerate() {
        if record[1] & (1 << place) != 0 {
            let span = Span { start: number(6 + 4 * place), length: number(8 + 4 * place) };
            map.entries.push((field, span));
        }
    }
    let (packet, decoded) = record[30..].split_at(number(2));
    Asked {
        from_client: record[0] == 0,
        packet: packet.to_vec(),
        map,
        decoded: decoded.to_vec(),
        book: Vec::new(),
    }
}
