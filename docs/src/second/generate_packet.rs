//! Packets of each protocol, and damage for each of refusals 30 to 34.

use crate::message::{ICMP, TCP, UDP};
use crate::random::Random;

/// A datagram of any protocol with this payload.
pub fn packet(random: &mut Random, payload: &[u8]) -> Vec<u8> {
    let protocol = random.pick(&[TCP, TCP, TCP, UDP, UDP, ICMP, 0, 47, 253, 255]);
    packet_of(random, protocol, payload)
}

/// Addresses, numbers and ports come from small sets.
pub fn packet_of(random: &mut Random, protocol: u8, payload: &[u8]) -> Vec<u8> {
    let option_words = if random.chance(20) { random.between(1, 10) as usize } else { 0 };
    let transport = transport(random, protocol);
    let header_length = 20 + 4 * option_words;
    let total_length = header_length + transport.len() + payload.len();
    let [length_high, length_low] = (total_length as u16).to_be_bytes();
    let flags = random.pick(&[0x00, 0x00, 0x40, 0x80]);
    let mut packet = vec![0x40 + 5 + option_words as u8, random.pick(&[0, 1, 16, 255])];
    packet.extend([length_high, length_low]);
    packet.extend(random.pick(&[[0x12, 0x37], [0, 0], [0, 5], [0xFF, 0xFF]]));
    packet.extend([flags, 0, random.pick(&[0, 1, 64, 128, 255]), protocol]);
    packet.extend(random.pick(&[[0, 0], [0xBE, 0xEF], [1, 0]]));
    packet.extend(ip_address(random));
    packet.extend(ip_address(random));
    packet.resize(header_length, random.pick(&[0, 1, b'a']));
    packet.extend(transport);
    packet.extend(payload);
    // Bytes behind the datagram are padding and must not matter.
    if random.chance(30) {
        let padding = random.between(1, 8);
        packet.extend((0..padding).map(|_| random.pick(b"abX\0")));
    }
    packet
}

fn ip_address(random: &mut Random) -> [u8; 4] {
    random.pick(&[
        [10, 10, 10, 255],
        [10, 10, 10, 0],
        [10, 10, 11, 0],
        [192, 168, 0, 1],
        [0, 0, 0, 0],
    ])
}

fn transport(random: &mut Random, protocol: u8) -> Vec<u8> {
    let ports = random.pick(&[[0, 80, 4, 0], [4, 0, 0, 80], [0, 53, 0, 53], [255, 255, 0, 0]]);
    match protocol {
        TCP => {
            let words = if random.chance(25) { random.between(5, 15) as u8 } else { 5 };
            let mut header = ports.to_vec();
            header.extend([0, 0, 0, 1, 0, 0, 0, 2, words * 16, 0x18, 1, 0, 0, 0, 0, 0]);
            header.resize(4 * usize::from(words), b'a');
            header
        }
        // The UDP length is not verified.
        UDP => [ports.to_vec(), vec![0, random.pick(&[0, 8, 20]), 0, 0]].concat(),
        ICMP => vec![8, 0, 0, 0, 0, 1, 0, 1],
        _ => Vec::new(),
    }
}

/// Brings a packet to one side or the other of a refusal.
pub fn damage(random: &mut Random, packet: &mut Vec<u8>) {
    if packet.len() < 20 {
        return;
    }
    let header_length = 4 * u16::from(packet[0] & 0x0F);
    let length = packet.len() as u16;
    match random.below(14) {
        0 => packet.truncate(random.pick(&[0, 1, 19, 20])),
        1 => packet[0] = packet[0] % 16 + 16 * random.pick(&[0, 3, 5, 6, 15]),
        2 => packet[0] = 0x40 + random.pick(&[0, 4, 5, 6, 15]),
        3 => set_total_length(
            packet,
            random.pick(&[0, header_length.saturating_sub(1), header_length, 20]),
        ),
        4 => set_total_length(packet, random.pick(&[length, length + 1, 65535])),
        5 | 6 => packet[6] = random.pick(&[0x20, 0x40, 0x80, 0x10, 0x01, 0xC0, 0x60]),
        7 => packet[7] = random.pick(&[1, 8, 128, 255]),
        8 | 9 => {
            let left = random.pick(&[0, 7, 8, 9, 12, 13, 19, 20, 21]);
            set_total_length(packet, (header_length + left).min(length));
        }
        10 | 11 => {
            let left = packet.len() - usize::from(header_length).min(packet.len());
            let exact = (left / 4).min(14) as u8;
            let offset = random.pick(&[0, 4, 5, 6, 15, exact, exact + 1]);
            if let Some(byte) = packet.get_mut(usize::from(header_length) + 12) {
                *byte = offset * 16;
            }
        }
        12 => packet[9] = random.pick(&[TCP, UDP, ICMP, 2]),
        _ => {
            let at = random.index(20);
            packet[at] = random.below(256) as u8;
        }
    }
}

fn set_total_length(packet: &mut [u8], length: u16) {
    packet[2..4].copy_from_slice(&length.to_be_bytes());
}
