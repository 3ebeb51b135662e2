//! Byte tests: any, and such as are aimed at the bytes of a message.

use crate::generate_item::number as any_number;
use crate::message::Message;
use crate::random::Random;
use crate::search::Placed;
use crate::table::{Compare, Field, Test};
use crate::tests::{following, number};
use crate::words::BYTE_OPERATORS;

const GREATEST: u64 = 0xFFFF_FFFF;

/// The value near the greatest of one, two or four bytes, which may be more than the count's.
pub fn any(random: &mut Random) -> Test {
    let greatest = random.pick(&[255, 65535, GREATEST, GREATEST]);
    Test::ByteTest {
        count: random.pick(&[1, 2, 4]),
        compare: random.pick(&BYTE_OPERATORS).1,
        value: any_number(random, greatest),
        offset: any_number(random, 65535),
        relative: random.chance(50),
        little: random.chance(50),
    }
}

/// Before, at or past the end of what follows the starting point, which is mostly that of
/// the last match, where there is one.
pub fn near(random: &mut Random, message: &Message, last: Option<&Placed>) -> Test {
    let count = random.pick(&[1, 1, 2, 2, 2, 4, 4]);
    let relative = random.chance(if last.is_some() { 75 } else { 35 });
    let little = random.chance(40);
    let bytes = following(relative, message, last).unwrap_or(b"");
    let room = bytes.len();
    let fits = (room + 1).saturating_sub(count);
    let any = random.index(fits);
    // Behind the end of another field its buffer may go on.
    let elsewhere = relative && last.is_some_and(|last| last.field != Field::Packet);
    let offset = match random.below(if elsewhere { 12 } else { 20 }) {
        0..=2 => fits.saturating_sub(1),
        3 | 4 => fits,
        5 => random.pick(&[room, room + 1, any + 256, 65535]),
        _ => any,
    };
    let there = bytes.get(offset..).and_then(|bytes| bytes.get(..count));
    let (compare, value) = match there {
        Some(there) => compared(random, there, little),
        None => random.pick(&[
            (Compare::NotEqual, 1),
            (Compare::NotEqual, GREATEST),
            (Compare::Less, GREATEST),
            (Compare::Equal, 0),
        ]),
    };
    Test::ByteTest { count: count as u64, compare, value, offset: offset as u64, relative, little }
}

/// A value at or near the number of these bytes, or what a wrong reading would make of it.
fn compared(random: &mut Random, bytes: &[u8], little: bool) -> (Compare, u64) {
    let there = number(bytes, little);
    let value = match random.below(10) {
        0 | 1 => there + 1,
        2 | 3 => there.saturating_sub(1),
        4 => number(bytes, !little),
        5 => there + 256u64.pow(bytes.len() as u32),
        6 => any_number(random, GREATEST),
        _ => there,
    };
    let value = value.min(GREATEST);
    let mut compare = random.pick(&BYTE_OPERATORS).1;
    // By chance alone less than half would hold.
    while !compare.holds(there, value) && random.chance(50) {
        compare = random.pick(&BYTE_OPERATORS).1;
    }
    (compare, value)
}
