//! A stream of packet records decided by one book, which is read once.
//!
//! A record: direction (0 is client), present fields by bit, length of the packet and of
//! the decoded buffer, start and length of body, banner, file, uri, header and host, each of
//! two bytes, big end first; then the packet and the decoded buffer. An answer: 1 for pass or
//! 0 for hold, then the rule's number in two bytes.

use crate::book::read_book;
use crate::decisions::write_refused;
use crate::guard::HOLD;
use crate::message::{Map, Message, Span};
use crate::quick::Ready;
use crate::table::Field;
use std::io::{Read, Result, Write};

pub const HEAD: usize = 30;
pub const FIELDS: [Field; 6] =
    [Field::Body, Field::Banner, Field::File, Field::Uri, Field::Header, Field::Host];

/// More than the longest record, which has 131,100 bytes.
const ROOM: usize = 1 << 20;

pub fn answer_blocks(book: &[u8], mut input: impl Read, mut output: impl Write) -> Result<()> {
    let rules = match read_book(book) {
        Ok(rules) => rules,
        Err(refused) => return write_refused(refused, output),
    };
    let rules: Vec<Kept> = rules
        .iter()
        .filter(|rule| rule.on)
        .map(|rule| Kept { answer: answer(rule.pass, rule.number), table: Ready::new(&rule.table) })
        .collect();
    let mut room = vec![0; ROOM];
    let mut held = 0;
    let mut map = Map::default();
    let mut answers = Vec::new();
    loop {
        let more = input.read(&mut room[held..])?;
        if more == 0 {
            break;
        }
        held += more;
        let mut at = 0;
        while let Some(record) = next_record(&room[at..held], &mut map) {
            answers.extend(decide(&rules, &record, &map));
            at += record.length();
        }
        room.copy_within(at..held, 0);
        held -= at;
        output.write_all(&answers)?;
        answers.clear();
    }
    output.flush()
}

struct Kept {
    answer: [u8; 3],
    table: Ready,
}

fn answer(pass: bool, rule: u16) -> [u8; 3] {
    let [high, low] = rule.to_be_bytes();
    [u8::from(pass), high, low]
}

fn decide(rules: &[Kept], record: &Record, map: &Map) -> [u8; 3] {
    let nobody = answer(HOLD.pass, HOLD.rule);
    let message = Message::new(record.packet, record.decoded, map, record.from_client);
    let Ok(message) = message else { return nobody };
    let deciding = rules.iter().find(|rule| rule.table.has_placement(&message));
    deciding.map_or(nobody, |rule| rule.answer)
}

struct Record<'a> {
    from_client: bool,
    packet: &'a [u8],
    decoded: &'a [u8],
}

impl Record<'_> {
    fn length(&self) -> usize {
        HEAD + self.packet.len() + self.decoded.len()
    }
}

/// The first record, if it is whole; its fields are put into the map.
fn next_record<'a>(bytes: &'a [u8], map: &mut Map) -> Option<Record<'a>> {
    let (head, rest) = bytes.split_at_checked(HEAD)?;
    let number = |at: usize| usize::from(u16::from_be_bytes([head[at], head[at + 1]]));
    let (packet, rest) = rest.split_at_checked(number(2))?;
    let decoded = rest.get(..number(4))?;
    map.entries.clear();
    for (place, field) in FIELDS.into_iter().enumerate() {
        if head[1] >> place & 1 == 1 {
            let start = number(6 + 4 * place);
            let length = number(8 + 4 * place);
            map.entries.push((field, Span { start, length }));
        }
    }
    Some(Record { from_client: head[0] == 0, packet, decoded })
}
