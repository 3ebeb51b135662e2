//! Patterns and tests of every kind, with numbers at and near their limits.

use crate::generate_byte_test;
use crate::random::Random;
use crate::table::*;
use crate::words::{CONTEXTS, OPERATORS, REFERENCES, SIZED_FIELDS};

/// A number from 0 to the limit, often one of the two.
pub fn number(random: &mut Random, limit: u64) -> u64 {
    match random.below(10) {
        0 => 0,
        1 => 1,
        2 => limit - 1,
        3 => limit,
        4..=7 => random.between(0, limit.min(300)),
        _ => random.between(0, limit),
    }
}

pub fn test(random: &mut Random) -> Test {
    match random.below(15) {
        0 | 1 => addresses(random, 4),
        2 => Test::SameIp,
        3 if random.chance(70) => Test::ip_id(number(random, 65535)),
        3 | 4 => {
            let what = random.pick(&[Plain::SrcPort, Plain::DstPort, Plain::IpTos]);
            Test::Equal { what, value: number(random, what.limit()) }
        }
        5 => Test::Ttl { compare: sign(random), value: number(random, 255) },
        6..=8 => {
            let field = random.pick(&[
                HeaderField::TotalLength,
                HeaderField::Id,
                HeaderField::Checksum,
                HeaderField::Ttl,
            ]);
            let limit = field.limit();
            let mask = if random.chance(50) { limit } else { number(random, limit) };
            let compare = random.pick(&OPERATORS).1;
            Test::Header { field, mask, compare, value: number(random, limit) }
        }
        9 => {
            let field = random.pick(&SIZED_FIELDS).1;
            Test::DataSize { compare: sign(random), value: number(random, 65535), field }
        }
        10 | 11 => Test::DataAt { at: number(random, 65535), relative: random.chance(50) },
        _ => generate_byte_test::any(random),
    }
}

pub fn sign(random: &mut Random) -> Compare {
    random.pick(&[Compare::Equal, Compare::Less, Compare::Greater])
}

pub fn addresses(random: &mut Random, most: u64) -> Test {
    let side = random.pick(&[Side::Source, Side::Destination]);
    let count = if random.chance(50) { 1 } else { random.between(1, most) };
    let list = (0..count).map(|_| address(random)).collect();
    Test::Address { side, negated: random.chance(30), list }
}

pub fn address(random: &mut Random) -> Address {
    let mut numbers = [0u8; 4];
    for part in &mut numbers {
        *part = number(random, 255) as u8;
    }
    let prefix = random.pick(&[32, 32, 32, 0, 1, 8, 24, 31, 17]);
    Address { numbers, prefix }
}

/// One of the five bytes, a byte on either side of the printable ones, or a letter.
pub fn byte(random: &mut Random) -> u8 {
    match random.below(10) {
        0 => random.pick(b"\";\\|:"),
        1 => random.pick(&[0x00, 0x0A, 0x1F, 0x7F, 0x80, 0xFF]),
        2 => random.pick(b" ~!()-[]"),
        3 => random.below(256) as u8,
        _ => random.pick(b"abcXYZ0189"),
    }
}

/// A pattern behind a last positive pattern in this context, if there is one.
/// With `wild` its references are drawn freely, so that many can't be used.
pub fn pattern(random: &mut Random, last_positive: Option<Field>, wild: bool) -> Pattern {
    let length = random.pick(&[1, 1, 2, 3, 4, 7, 12]);
    let bytes = (0..length).map(|_| byte(random)).collect();
    let context = match last_positive {
        Some(context) if random.chance(50) => context,
        _ if random.chance(40) => Field::Packet,
        _ => random.pick(&CONTEXTS).1,
    };
    let mut pattern = Pattern {
        negated: random.chance(25),
        bytes,
        context,
        no_case: random.chance(25),
        distance: None,
        within: None,
    };
    ranges(random, &mut pattern, last_positive, wild);
    pattern
}

fn ranges(random: &mut Random, pattern: &mut Pattern, last: Option<Field>, wild: bool) {
    let mut usable = vec![Reference::Context];
    if pattern.context == Field::Packet {
        usable.push(Reference::Packet);
    }
    if last.is_none_or(|context| context == pattern.context) {
        usable.push(Reference::Match);
        usable.push(Reference::Match);
    }
    let reference = random.pick(&usable);
    let drawn = |random: &mut Random| {
        if wild && random.chance(50) {
            random.pick(&REFERENCES).1
        } else {
            reference
        }
    };
    if random.chance(50) {
        let reference = drawn(random);
        let reverse = random.chance(40) && (wild || reference != Reference::Match);
        let size = number(random, 65535) as i64;
        let minus = random.chance(30) && (wild || !reverse);
        pattern.distance =
            Some(Distance { amount: if minus { -size } else { size }, reference, reverse });
    }
    if random.chance(50) {
        pattern.within =
            Some(Within { amount: number(random, 65535) as i64, reference: drawn(random) });
    }
}
