//! Traces: mixed traffic with refused packets and bad lines, and nights of good lines alone.

use crate::blocks::{FIELDS, HEAD};
use crate::generate_bad_line::bad_line;
use crate::generate_block::{bytes, record};
use crate::generate_case::{map, print_map};
use crate::generate_packet;
use crate::limits::{LONGEST_DECODED, LONGEST_PACKET};
use crate::message::{Map, Span};
use crate::random::Random;
use crate::trace::{Line, LONGEST_LINE};
use crate::words::{word, CONTEXTS};
use std::io::{Result, Write};

/// So many lines; by the seed the last one lacks its LF.
pub fn write_trace(seed: u64, count: u64, mut output: impl Write) -> Result<()> {
    let mut random = Random::new(seed);
    for left in (0..count).rev() {
        let line = line(&mut random);
        output.write_all(&line)?;
        // An empty line is none without its LF.
        if left > 0 || line.is_empty() || random.chance(60) {
            output.write_all(b"\n")?;
        }
    }
    output.flush()
}

pub fn line(random: &mut Random) -> Vec<u8> {
    let line = match random.below(1000) {
        0..=49 => bad_line(random),
        50..=64 => about_longest(random),
        _ => good_line(random),
    };
    debug_assert!(!line.contains(&b'\n'));
    line
}

fn good_line(random: &mut Random) -> Vec<u8> {
    columns(random).join(&b'\t')
}

/// The four columns of a line of the right form.
pub fn columns(random: &mut Random) -> [Vec<u8>; 4] {
    let Line { from_client, packet, map, decoded } = drawn(random);
    let map = print_map(random, &map).into_bytes();
    [side(from_client), spelled_hex(random, &packet), map, spelled_hex(random, &decoded)]
}

/// Any message: about one in eight is refused.
pub fn drawn(random: &mut Random) -> Line {
    if random.below(60) == 0 {
        return of_record(&record(random, false));
    }
    let longest = random.pick(&[0, 12, 30, 30, 60, 60, 60, 200]);
    let length = random.below(longest + 1) as usize;
    let payload = bytes(random, length);
    let mut decoded = Vec::new();
    if random.chance(55) {
        let length = random.below(50) as usize;
        decoded = bytes(random, length);
    }
    let mut map = map(random, payload.len(), decoded.len());
    // Of many no field is named, though the bytes are there.
    if random.chance(30) {
        map.entries.clear();
    }
    let mut packet = generate_packet::packet(random, &payload);
    match random.below(100) {
        0..=8 => generate_packet::damage(random, &mut packet),
        9 if random.chance(40) => packet.resize(LONGEST_PACKET + random.index(3), b'a'),
        10 if random.chance(30) => decoded.resize(LONGEST_DECODED + random.index(3), b'b'),
        11 | 12 => past_its_buffer(random, &mut map),
        13 => packet.clear(),
        _ => {}
    }
    Line { from_client: random.chance(55), packet, map, decoded }
}

fn past_its_buffer(random: &mut Random, map: &mut Map) {
    let at = random.index(map.entries.len());
    if let Some((_, span)) = map.entries.get_mut(at) {
        let far = random.pick(&[1, 1, 1, 200, 65535]);
        *span = random.pick(&[
            Span { start: span.start, length: (span.length + far).min(65535) },
            Span { start: (span.start + span.length + far).min(65535), length: 0 },
        ]);
    }
}

/// A few bytes to either side of the longest line, now and then much longer; good but for that.
fn about_longest(random: &mut Random) -> Vec<u8> {
    let [side, packet, map, decoded] = columns(random);
    let map = if map == b"-" { b"uri:0+0".to_vec() } else { map };
    let near = LONGEST_LINE as u64 - 2 + random.pick(&[0, 1, 2, 2, 2, 3, 3, 3, 4]);
    let far = random.between(near, 3 * near);
    let length = if random.chance(85) { near } else { far } as usize;
    // Leading zeros of one of the map's numbers.
    let marks: Vec<usize> = (0..map.len()).filter(|at| matches!(map[*at], b':' | b'+')).collect();
    let behind = if marks.is_empty() { 0 } else { random.pick(&marks) + 1 };
    let without = side.len() + packet.len() + map.len() + decoded.len() + 3;
    let zeros = vec![b'0'; length.saturating_sub(without)];
    let map = [&map[..behind], &zeros, &map[behind..]].concat();
    [side, packet, map, decoded].join(&b'\t')
}

/// A line for measuring: a packet of 40 to 1,400 bytes that is not refused.
pub fn night_line(random: &mut Random) -> Vec<u8> {
    let Line { from_client, packet, map, decoded } = of_record(&record(random, false));
    let map = print_plain(&map);
    [side(from_client), hex(&packet), map, hex(&decoded)].join(&b'\t')
}

/// The message of a record of `generate_block`.
pub fn of_record(record: &[u8]) -> Line {
    let number = |at: usize| usize::from(u16::from_be_bytes([record[at], record[at + 1]]));
    let mut map = Map::default();
    for (place, field) in FIELDS.into_iter().enumerate() {
        if record[1] >> place & 1 == 1 {
            let span = Span { start: number(6 + 4 * place), length: number(8 + 4 * place) };
            map.entries.push((field, span));
        }
    }
    let (packet, decoded) = record[HEAD..].split_at(number(2));
    Line { from_client: record[0] == 0, packet: packet.to_vec(), map, decoded: decoded.to_vec() }
}

fn side(from_client: bool) -> Vec<u8> {
    if from_client {
        b"client".to_vec()
    } else {
        b"server".to_vec()
    }
}

/// Entries in the order of the fields, no leading zeros.
fn print_plain(map: &Map) -> Vec<u8> {
    if map.entries.is_empty() {
        return b"-".to_vec();
    }
    let mut text = String::new();
    for (field, span) in &map.entries {
        let comma = if text.is_empty() { "" } else { "," };
        let name = word(&CONTEXTS, *field);
        text += &format!("{comma}{name}:{}+{}", span.start, span.length);
    }
    text.into_bytes()
}

fn hex(bytes: &[u8]) -> Vec<u8> {
    if bytes.is_empty() {
        return b"-".to_vec();
    }
    let digit = |number: u8| b"0123456789abcdef"[usize::from(number)];
    bytes.iter().flat_map(|byte| [digit(byte >> 4), digit(byte & 15)]).collect()
}

/// Small letters, capitals or both.
fn spelled_hex(random: &mut Random, bytes: &[u8]) -> Vec<u8> {
    let mut text = hex(bytes);
    match random.below(10) {
        0 | 1 => text.make_ascii_uppercase(),
        2 => {
            for digit in &mut text {
                if random.chance(50) {
                    digit.make_ascii_uppercase();
                }
            }
        }
        _ => {}
    }
    text
}
