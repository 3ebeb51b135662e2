//! One small change to a table, so that it becomes another: a byte, a number, a part of a
//! test, the order of the items.

use crate::generate_item::{address, byte, number, pattern, sign, test};
use crate::random::Random;
use crate::table::*;
use crate::words::{BYTE_OPERATORS, CONTEXTS, OPERATORS, REFERENCES, SIZED_FIELDS};

/// May leave the table as it is, or make one that no text reads as.
pub fn edit(random: &mut Random, table: &mut Table) {
    match random.below(10) {
        0 => edit_name(random, &mut table.name),
        1 => table.protocol = near(random, table.protocol, 255),
        2 => table.flow = random.pick(&[None, Some(Flow::FromClient), Some(Flow::FromServer)]),
        3 | 4 => edit_order(random, &mut table.items),
        5 => cut_otherwise(random, &mut table.items),
        _ => {
            let last = table.items.len().saturating_sub(1);
            let at = if random.chance(30) { last } else { random.index(table.items.len()) };
            match table.items.get_mut(at) {
                Some(Item::Pattern(pattern)) => edit_pattern(random, pattern),
                Some(Item::Test(test)) => edit_test(random, test),
                None => table.items.push(Item::Test(test(random))),
            }
        }
    }
}

/// Another number: a neighbour, one alike but for one bit, an end, or any.
fn near(random: &mut Random, old: u64, limit: u64) -> u64 {
    let bit = 1 << random.below(32);
    let drawn = number(random, limit);
    let new = random.pick(&[old + 1, old.saturating_sub(1), old ^ bit, old ^ bit, drawn]);
    if new > limit {
        old.saturating_sub(1)
    } else {
        new
    }
}

/// One byte of these, the first and the last among them, or one more or less.
fn edit_bytes(random: &mut Random, bytes: &mut Vec<u8>, drawn: u8) {
    let last = bytes.len().saturating_sub(1);
    let any = random.index(bytes.len());
    let at = random.pick(&[0, last, any]);
    match random.below(6) {
        0 => bytes.push(drawn),
        1 => bytes.insert(at, drawn),
        2 if last > 0 => drop(bytes.remove(at)),
        3 if last > 0 => bytes.swap(at, last),
        _ => bytes[at] = drawn,
    }
}

fn edit_name(random: &mut Random, name: &mut Vec<u8>) {
    if random.chance(20) {
        let at = random.index(name.len());
        // A letter in its other case.
        name[at] ^= if name[at].is_ascii_alphabetic() { 0x20 } else { 0 };
    } else {
        let drawn = random.pick(b"abXY. |");
        edit_bytes(random, name, drawn);
    }
}

fn edit_order(random: &mut Random, items: &mut Vec<Item>) {
    let length = items.len();
    if length == 0 {
        return items.push(Item::Test(test(random)));
    }
    let (at, other) = (random.index(length), random.index(length));
    match random.below(7) {
        0 | 1 => items.swap(at, other),
        2 => items.insert(other, items[at].clone()),
        3 => drop(items.remove(at)),
        4 => drop(items.pop()),
        5 => items.insert(at, Item::Test(test(random))),
        _ => items.push(Item::Pattern(pattern(random, None, false))),
    }
}

/// The last byte of a pattern becomes the first of the next, or turned round.
fn cut_otherwise(random: &mut Random, items: &mut [Item]) {
    let mut patterns: Vec<&mut Pattern> = Vec::new();
    for item in items {
        if let Item::Pattern(pattern) = item {
            patterns.push(pattern);
        }
    }
    if patterns.len() < 2 {
        return;
    }
    let at = random.index(patterns.len() - 1);
    let (before, behind) = patterns.split_at_mut(at + 1);
    let (one, next) = (&mut before[at].bytes, &mut behind[0].bytes);
    if one.len() > 1 && random.chance(50) {
        next.splice(0..0, one.pop());
    } else if next.len() > 1 {
        one.push(next.remove(0));
    }
}

fn edit_pattern(random: &mut Random, pattern: &mut Pattern) {
    match random.below(10) {
        0..=2 => {
            // Zero is what unused room holds, bit 0x20 the case of a letter.
            let any = byte(random);
            let drawn = random.pick(&[0, any, pattern.bytes[0] ^ 0x20]);
            edit_bytes(random, &mut pattern.bytes, drawn);
        }
        3 => pattern.negated = !pattern.negated,
        4 => pattern.no_case = !pattern.no_case,
        5 => pattern.context = random.pick(&CONTEXTS).1,
        6 | 7 => edit_distance(random, &mut pattern.distance),
        8 => edit_within(random, &mut pattern.within),
        _ => {
            // Of both ranges, since they must be alike.
            let reference = random.pick(&REFERENCES).1;
            pattern.distance.iter_mut().for_each(|distance| distance.reference = reference);
            pattern.within.iter_mut().for_each(|within| within.reference = reference);
        }
    }
}

fn edit_distance(random: &mut Random, distance: &mut Option<Distance>) {
    let Some(given) = distance else {
        let amount = random.pick(&[0, 0, 1, -1, 65535]);
        *distance = Some(Distance { amount, reference: Reference::Match, reverse: false });
        return;
    };
    match random.below(5) {
        0 => *distance = None,
        1 => given.amount = -given.amount,
        2 => given.reverse = !given.reverse,
        3 => given.reference = random.pick(&REFERENCES).1,
        _ => {
            let size = near(random, given.amount.unsigned_abs(), 65535) as i64;
            given.amount = if given.amount < 0 { -size } else { size };
        }
    }
}

fn edit_within(random: &mut Random, within: &mut Option<Within>) {
    let Some(given) = within else {
        let amount = random.pick(&[0, 0, 1, 65535]);
        *within = Some(Within { amount, reference: Reference::Match });
        return;
    };
    match random.below(4) {
        0 => *within = None,
        1 => given.reference = random.pick(&REFERENCES).1,
        _ => given.amount = near(random, given.amount.unsigned_abs(), 65535) as i64,
    }
}

fn edit_test(random: &mut Random, test: &mut Test) {
    let part = random.below(6);
    match test {
        Test::Address { side, negated, list } => match part {
            0 => *side = random.pick(&[Side::Source, Side::Destination]),
            1 => *negated = !*negated,
            _ => edit_addresses(random, list),
        },
        Test::SameIp => *test = crate::generate_item::test(random),
        Test::Equal { what, value } => match part {
            0 => *what = random.pick(&[Plain::SrcPort, Plain::DstPort, Plain::IpTos]),
            _ => *value = near(random, *value, what.limit()),
        },
        Test::Ttl { compare, value } => match part {
            0..=2 => *compare = sign(random),
            _ => *value = near(random, *value, 255),
        },
        Test::Header { field, mask, compare, value } => match part {
            0 => {
                *field = random.pick(&[
                    HeaderField::TotalLength,
                    HeaderField::Id,
                    HeaderField::Checksum,
                    HeaderField::Ttl,
                ]);
            }
            1 | 2 => *compare = random.pick(&OPERATORS).1,
            3 => *mask = near(random, *mask, field.limit()),
            4 => std::mem::swap(mask, value),
            _ => *value = near(random, *value, field.limit()),
        },
        Test::DataSize { compare, value, field } => match part {
            0 | 1 => *compare = sign(random),
            2 | 3 => *field = random.pick(&SIZED_FIELDS).1,
            _ => *value = near(random, *value, 65535),
        },
        Test::DataAt { at, relative } => match part {
            0..=2 => *relative = !*relative,
            _ => *at = near(random, *at, 65535),
        },
        Test::ByteTest { count, compare, value, offset, relative, little } => match part {
            0 => *count = random.pick(&[1, 2, 4]),
            1 => *compare = random.pick(&BYTE_OPERATORS).1,
            2 => *value = near(random, *value, 0xFFFF_FFFF),
            3 => *offset = near(random, *offset, 65535),
            4 => *relative = !*relative,
            _ => *little = !*little,
        },
    }
}

/// The last address often, since it is the one most easily left out.
fn edit_addresses(random: &mut Random, list: &mut Vec<Address>) {
    let last = list.len() - 1;
    let any = random.index(list.len());
    let at = random.pick(&[last, any]);
    match random.below(8) {
        0 => list.swap(0, at),
        1 => list.push(list[at]),
        2 => list.push(Address { numbers: [0; 4], prefix: 0 }),
        3 if last > 0 => drop(list.remove(at)),
        4 => list[at] = address(random),
        5 => list[at].prefix = near(random, list[at].prefix, 32),
        _ => {
            let part = random.index(4);
            list[at].numbers[part] = near(random, u64::from(list[at].numbers[part]), 255) as u8;
        }
    }
}
