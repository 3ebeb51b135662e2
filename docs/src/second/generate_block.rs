//! Packet records for measuring: 40 to 1,400 bytes, none refused.
//!
//! Every payload holds the marker at a drawn place, and neither it nor a decoded buffer a
//! `q` or `Q`, so that a book can be met by all of them or by none.

use crate::blocks::{FIELDS, HEAD};
use crate::message::{ICMP, TCP, UDP};
use crate::random::Random;
use crate::table::Field;

pub const MARKER: &[u8] = b"~Zz!";

pub const WORDS: [&str; 16] = [
    "GET ",
    "POST ",
    "HTTP/1.1\r\n",
    "Host: ",
    "the ",
    "node ",
    "set",
    "point=",
    "/index",
    ".html",
    "temp ",
    "valve",
    "\r\n",
    "0000",
    "Content-Length: ",
    "and ",
];

pub fn record(random: &mut Random, tcp_alone: bool) -> Vec<u8> {
    let protocol = match random.below(100) {
        _ if tcp_alone => TCP,
        0..=74 => TCP,
        75..=91 => UDP,
        92..=95 => ICMP,
        _ => random.pick(&[47, 253]),
    };
    let packet = packet(random, protocol);
    let decoded = if random.chance(40) { decoded(random) } else { Vec::new() };
    let payload = packet.len() - headers_length(&packet);
    let mut record = vec![u8::from(random.chance(40)), 0];
    record.extend((packet.len() as u16).to_be_bytes());
    record.extend((decoded.len() as u16).to_be_bytes());
    for (place, field) in FIELDS.into_iter().enumerate() {
        let in_payload = matches!(field, Field::Body | Field::Banner | Field::File);
        let room = if in_payload { payload } else { decoded.len() };
        let present = if in_payload { random.chance(25) } else { !decoded.is_empty() };
        let start = random.index(room + 1);
        let length = random.index(room - start + 1);
        let (start, length) = random.pick(&[(0, room), (start, length), (start, room - start)]);
        record[1] |= u8::from(present) << place;
        record.extend((start as u16).to_be_bytes());
        record.extend((length as u16).to_be_bytes());
    }
    debug_assert_eq!(record.len(), HEAD);
    [record, packet, decoded].concat()
}

/// IP header without options; TCP now and then with some.
fn packet(random: &mut Random, protocol: u8) -> Vec<u8> {
    let drawn = random.between(40, 1400) as usize;
    let words = if drawn > 80 && random.chance(20) { random.between(6, 15) as u8 } else { 5 };
    let mut packet = vec![0x45, random.pick(&[0, 16]), 0, 0];
    packet.extend(random.next().to_be_bytes()[..2].to_vec());
    packet.extend([random.pick(&[0, 0x40]), 0, random.between(1, 255) as u8, protocol]);
    packet.extend(random.next().to_be_bytes()[..2].to_vec());
    packet.extend([10, 10, random.below(4) as u8, random.below(256) as u8]);
    packet.extend([192, 168, 0, random.below(256) as u8]);
    let port = |random: &mut Random| random.pick(&[80u16, 443, 53, 502, 20000]).to_be_bytes();
    match protocol {
        TCP => {
            packet.extend([port(random), port(random)].concat());
            packet.extend([0, 0, 0, 1, 0, 0, 0, 2, words * 16, 0x18, 1, 0, 0, 0, 0, 0]);
            packet.resize(20 + 4 * usize::from(words), 1);
        }
        UDP => packet.extend([port(random), port(random), [0, 8], [0, 0]].concat()),
        ICMP => packet.extend([8, 0, 0, 0, 0, 1, 0, 1]),
        _ => {}
    }
    // The shortest packets have no room for the marker, and get a few bytes more.
    let total = drawn.max(packet.len() + MARKER.len());
    let room = total - packet.len();
    let mut payload = bytes(random, room - MARKER.len());
    let at = random.index(payload.len() + 1);
    payload.splice(at..at, MARKER.iter().copied());
    packet.extend(payload);
    packet[2..4].copy_from_slice(&(total as u16).to_be_bytes());
    packet
}

/// Of the packets made here.
fn headers_length(packet: &[u8]) -> usize {
    match packet[9] {
        TCP => 20 + 4 * usize::from(packet[32] >> 4),
        UDP | ICMP => 28,
        _ => 20,
    }
}

fn decoded(random: &mut Random) -> Vec<u8> {
    let length = random.between(10, 400) as usize;
    bytes(random, length)
}

/// Like text, or any bytes.
pub fn bytes(random: &mut Random, length: usize) -> Vec<u8> {
    let mut bytes = Vec::new();
    let like_text = random.chance(60);
    while bytes.len() < length {
        match random.below(3) {
            _ if !like_text => bytes.extend(random.next().to_be_bytes()),
            0 => bytes.extend(random.pick(&WORDS).as_bytes()),
            _ => bytes.push(random.pick(b"abcdefghijklmnoprstuvwxyz ABCDEFGHIJ0123456789/=&.-%")),
        }
    }
    bytes.truncate(length);
    for byte in &mut bytes {
        if matches!(byte, b'q' | b'Q') {
            *byte = b'e';
        }
    }
    bytes
}
