//! Tables aimed at one message, so that most of them are met or nearly met.

use crate::generate_byte_test;
use crate::generate_item::sign;
use crate::message::{pair, Message};
use crate::random::Random;
use crate::search::{lies_at, Placed};
use crate::table::*;
use crate::tests;
use crate::words::{CONTEXTS, OPERATORS, SIZED_FIELDS};

/// Most patterns are short, so that they lie at many places.
pub const SHORT: &[usize] = &[1, 1, 1, 1, 2, 2, 3];

/// A table of so many patterns over the letters of `alphabet`, of these lengths.
pub fn table(
    random: &mut Random,
    message: &Message,
    alphabet: &[u8],
    patterns: usize,
    lengths: &[usize],
) -> Table {
    let count = random.pick(&[0, 0, 0, 1, 1, 2, 3]);
    let mut is_pattern = vec![true; patterns];
    is_pattern.resize(patterns + count, false);
    random.shuffle(&mut is_pattern);
    let mut items = Vec::new();
    let mut last: Option<Placed> = None;
    for drawn in is_pattern {
        if drawn {
            let (pattern, start) = pattern(random, message, alphabet, lengths, last.as_ref());
            if !pattern.negated {
                let end = start + pattern.bytes.len() as u64;
                last = Some(Placed { field: pattern.context, start, end });
            }
            let positive = !pattern.negated;
            items.push(Item::Pattern(pattern));
            if positive && random.chance(12) {
                let test = generate_byte_test::near(random, message, last.as_ref());
                items.push(Item::Test(test));
            }
        } else {
            items.push(Item::Test(aimed_test(random, message, last.as_ref())));
        }
    }
    let same = random.chance(90) == message.from_client;
    let flow = if same { Flow::FromClient } else { Flow::FromServer };
    let flow = random.chance(25).then_some(flow);
    let other = random.below(256);
    let protocol = if random.chance(96) { u64::from(message.protocol()) } else { other };
    Table { name: b"n".to_vec(), protocol, flow, items }
}

/// Most hold, if the last positive pattern lies where it was aimed at.
fn aimed_test(random: &mut Random, message: &Message, last: Option<&Placed>) -> Test {
    let mut test = near_test(random, message, last);
    for _ in 0..8 {
        // Many that count bytes and do not hold stay: they show the other side of the number.
        let percent = match test {
            Test::DataAt { .. } => 50,
            Test::ByteTest { .. } => 40,
            _ => 8,
        };
        if tests::holds(&test, message, last) || random.chance(percent) {
            break;
        }
        test = near_test(random, message, last);
    }
    test
}

/// A test whose number lies at or near the message's own.
fn near_test(random: &mut Random, message: &Message, last: Option<&Placed>) -> Test {
    let datagram = message.datagram;
    match random.below(18) {
        0 | 1 => {
            let side = random.pick(&[Side::Source, Side::Destination]);
            let start = if side == Side::Source { 12 } else { 16 };
            let count = random.pick(&[1, 1, 2, 3]);
            let list =
                (0..count).map(|_| near_address(random, &datagram[start..start + 4])).collect();
            Test::Address { side, negated: random.chance(30), list }
        }
        2 => Test::SameIp,
        3 if random.chance(70) => Test::ip_id(near(random, pair(datagram, 4)).min(65535)),
        3 | 4 => {
            let (what, value) = random.pick(&[
                (Plain::IpTos, u64::from(datagram[1])),
                (Plain::SrcPort, pair(message.transport, 0)),
                (Plain::DstPort, pair(message.transport, 2)),
            ]);
            Test::Equal { what, value: near(random, value).min(what.limit()) }
        }
        5 => {
            let value = near(random, u64::from(datagram[8])).min(255);
            Test::Ttl { compare: sign(random), value }
        }
        6 | 7 => {
            let (field, value) = random.pick(&[
                (HeaderField::TotalLength, pair(datagram, 2)),
                (HeaderField::Id, pair(datagram, 4)),
                (HeaderField::Checksum, pair(datagram, 10)),
                (HeaderField::Ttl, u64::from(datagram[8])),
            ]);
            let masks = [field.limit(), field.limit(), 0xFF, 0x0F, 0xF0, 0, 1];
            let mask = random.pick(&masks);
            let compare = random.pick(&OPERATORS).1;
            let value = near(random, value & mask).min(field.limit());
            Test::Header { field, mask, compare, value }
        }
        8 | 9 => {
            let field = random.pick(&SIZED_FIELDS).1;
            let length = message.field(field).map_or(0, <[u8]>::len) as u64;
            Test::DataSize { compare: sign(random), value: near(random, length), field }
        }
        10 | 11 => {
            let relative = random.chance(60);
            let start = last.filter(|_| relative);
            let field = start.map_or(Field::Packet, |last| last.field);
            let length = message.field(field).map_or(0, <[u8]>::len) as u64;
            let following = length.saturating_sub(start.map_or(0, |last| last.end));
            let at = random.below(following + 2);
            Test::DataAt { at: random.pick(&[following, following + 1, at, at / 2]), relative }
        }
        _ => generate_byte_test::near(random, message, last),
    }
}

fn near(random: &mut Random, number: u64) -> u64 {
    match random.below(6) {
        0 => number + 1,
        1 => number.saturating_sub(1),
        2 => random.below(300),
        _ => number,
    }
}

fn near_address(random: &mut Random, address: &[u8]) -> Address {
    let mut numbers = [0u8; 4];
    numbers.copy_from_slice(address);
    let place = random.index(4);
    numbers[place] ^= random.pick(&[0, 0, 1, 0x80]);
    Address { numbers, prefix: random.pick(&[32, 32, 24, 31, 25, 16, 8, 1, 0]) }
}

/// A pattern and the start it was aimed at.
fn pattern(
    random: &mut Random,
    message: &Message,
    alphabet: &[u8],
    lengths: &[usize],
    last: Option<&Placed>,
) -> (Pattern, u64) {
    let context = context(random, message, last);
    let field = message.field(context).unwrap_or(b"");
    let negated = random.chance(22);
    let length = random.pick(lengths).min(field.len().max(1));
    let end = last.filter(|last| last.field == context).map_or(0, |last| last.end as usize);
    let from = if end + length <= field.len() && random.chance(60) { end } else { 0 };
    let start = from + random.index((field.len() + 1).saturating_sub(from + length));
    let long = length > 3;
    // Of a negated pattern the bytes are any; of a long one often those of the field.
    let percent = match (negated, long) {
        (false, _) => 93,
        (true, true) => 40,
        (true, false) => 0,
    };
    let from_field = random.chance(percent);
    let there = field.get(start..start + length).filter(|_| from_field);
    let mut bytes = match there {
        Some(bytes) => bytes.to_vec(),
        None => (0..length).map(|_| random.pick(alphabet)).collect(),
    };
    if long && random.chance(7) {
        // A long pattern that is nearly there: another byte somewhere, often the last.
        let at = if random.chance(50) { length - 1 } else { random.index(length) };
        bytes[at] = random.pick(alphabet);
    }
    let no_case = random.chance(25);
    if no_case {
        for byte in &mut bytes {
            // Another byte than a letter has no second case, whatever this bit says; in a
            // long pattern one of them would nearly always be changed.
            let letter = byte.is_ascii_alphabetic();
            let percent = match (letter, long) {
                (true, _) => 50,
                (false, true) => 0,
                (false, false) => 8,
            };
            if random.chance(percent) {
                *byte ^= 0x20;
            }
        }
    }
    let mut pattern = Pattern { negated, bytes, context, no_case, distance: None, within: None };
    if random.chance(60) {
        ranges(random, &mut pattern, field.len() as i64, start as i64, last);
    }
    // A negated pattern that would fail is mostly made to hold.
    let last_end = last.map(|last| last.end);
    if negated && !lies_at(&pattern, field, last_end).is_empty() && random.chance(80) {
        let other = random.pick(b"qaXb");
        pattern.bytes.push(other);
    }
    (pattern, start as u64)
}

/// Mostly a present field, often that of the pattern before.
fn context(random: &mut Random, message: &Message, last: Option<&Placed>) -> Field {
    if let Some(last) = last.filter(|_| random.chance(60)) {
        return last.field;
    }
    let drawn = random.pick(&CONTEXTS).1;
    let present = message.field(drawn).is_some_and(|bytes| !bytes.is_empty());
    if present || random.chance(4) {
        drawn
    } else {
        Field::Packet
    }
}

/// A window round the aimed start, now and then any window.
fn ranges(
    random: &mut Random,
    pattern: &mut Pattern,
    field: i64,
    start: i64,
    last: Option<&Placed>,
) {
    let mut usable = vec![Reference::Context];
    if pattern.context == Field::Packet {
        usable.push(Reference::Packet);
    }
    if last.is_none_or(|last| last.field == pattern.context) {
        usable.extend([Reference::Match; 3]);
    }
    let reference = random.pick(&usable);
    let end = last.map_or(0, |last| last.end as i64);
    let r = if reference == Reference::Match { end } else { 0 };
    let slack = random.pick(&[0, 0, 1, 2, 3, 5, 9]);
    let mut s = start - slack;
    let given = random.chance(70);
    if given {
        let reverse = reference != Reference::Match && random.chance(35);
        let amount = match random.below(20) {
            0 => random.pick(&[200, 65535]) * if reverse { 1 } else { -1 },
            1 => random.below(9) as i64,
            _ if reverse => (field - s).max(0),
            _ => s - r,
        };
        s = if reverse { field - amount } else { r + amount };
        pattern.distance = Some(Distance { amount, reference, reverse });
    } else {
        s = r;
    }
    if !given || random.chance(60) {
        let needed = start + pattern.bytes.len() as i64 - s;
        let amount = match random.below(20) {
            0 => random.pick(&[200, 65535, 0]),
            1 | 2 => needed - 1,
            _ => needed + random.pick(&[0, 0, 1, 2, 3, 6]),
        };
        pattern.within = Some(Within { amount: amount.clamp(0, 65535), reference });
    }
}
