//! Damage to a text's bytes.

use crate::random::Random;

/// Bytes that mean something in a text, and those round the allowed ones.
const TELLING: &[u8] = b"--\"\";;))(||\\:,,!/.[]<>=&09afxX  _~";
const OUTSIDE: &[u8] = &[0x1F, 0x7F, 0x80, 0xFF, 0x00, b'\r', b'\t', 0x20, 0x7E];

/// One to three small damages.
pub fn damage(random: &mut Random, text: &mut Vec<u8>) {
    for _ in 0..random.pick(&[1, 1, 1, 2, 3]) {
        damage_once(random, text);
    }
}

fn damage_once(random: &mut Random, text: &mut Vec<u8>) {
    if text.is_empty() {
        return;
    }
    let at = random.index(text.len());
    match random.below(12) {
        0..=2 => {
            text.remove(at);
        }
        3 | 4 => text.insert(at, text[at]),
        5 => {
            let next = (at + 1).min(text.len() - 1);
            text.swap(at, next);
        }
        6 | 7 => text[at] = random.pick(TELLING),
        8 | 9 => text.insert(at, random.pick(TELLING)),
        10 => text.truncate(at),
        _ => {
            let end = (at + random.index(12)).min(text.len());
            text.drain(at..end);
        }
    }
}

/// A byte on either side of 0x20..0x7E, put in or in another's place.
pub fn outside_byte(random: &mut Random, text: &mut Vec<u8>) {
    let at = random.index(text.len() + 1);
    let byte = random.pick(OUTSIDE);
    match text.get_mut(at) {
        Some(place) if random.chance(50) => *place = byte,
        _ => text.insert(at, byte),
    }
}
