//! When a test holds (document 01, "Meaning"; document 02, T-01 and T-04).

use crate::message::{pair, Message, TCP, UDP};
use crate::search::Placed;
use crate::table::*;

/// `last` is the last positive pattern before the test, where it is placed.
pub fn holds(test: &Test, message: &Message, last: Option<&Placed>) -> bool {
    match test {
        Test::Address { side, negated, list } => {
            let listed = list.iter().any(|address| covers(address, address_of(message, *side)));
            listed != *negated
        }
        Test::SameIp => address_of(message, Side::Source) == address_of(message, Side::Destination),
        Test::Equal { what, value } => plain(message, *what) == Some(*value),
        Test::Ttl { compare, value } => compare.holds(header(message, HeaderField::Ttl), *value),
        Test::Header { field, mask, compare, value } => {
            compare.holds(header(message, *field) & mask, *value)
        }
        // An absent field meets no test, not even `0` or `<1`.
        Test::DataSize { compare, value, field } => {
            message.field(*field).is_some_and(|bytes| compare.holds(bytes.len() as u64, *value))
        }
        // At least N bytes follow.
        Test::DataAt { at, relative } => {
            following(*relative, message, last).is_some_and(|bytes| bytes.len() as u64 >= *at)
        }
        // If one byte lies past the end it doesn't hold, not even `!`.
        Test::ByteTest { count, compare, value, offset, relative, little } => {
            let bytes = following(*relative, message, last);
            let bytes = bytes.and_then(|bytes| bytes.get(*offset as usize..));
            let bytes = bytes.and_then(|bytes| bytes.get(..*count as usize));
            bytes.is_some_and(|bytes| compare.holds(number(bytes, *little), *value))
        }
    }
}

fn address_of(message: &Message, side: Side) -> u32 {
    let start = match side {
        Side::Source => 12,
        Side::Destination => 16,
    };
    (pair(message.datagram, start) * 65536 + pair(message.datagram, start + 2)) as u32
}

/// Equal in the first n bits; with n = 0 every address is.
fn covers(listed: &Address, address: u32) -> bool {
    let behind_prefix = 32u64.saturating_sub(listed.prefix);
    let first_bits = |bits: u32| u64::from(bits) >> behind_prefix;
    first_bits(u32::from_be_bytes(listed.numbers)) == first_bits(address)
}

/// A port test holds on no other protocols than 6 and 17.
fn plain(message: &Message, what: Plain) -> Option<u64> {
    let has_ports = matches!(message.protocol(), TCP | UDP);
    match what {
        Plain::IpTos => message.datagram.get(1).map(|byte| u64::from(*byte)),
        Plain::SrcPort => has_ports.then(|| pair(message.transport, 0)),
        Plain::DstPort => has_ports.then(|| pair(message.transport, 2)),
    }
}

fn header(message: &Message, field: HeaderField) -> u64 {
    match field {
        HeaderField::TotalLength => pair(message.datagram, 2),
        HeaderField::Id => pair(message.datagram, 4),
        HeaderField::Checksum => pair(message.datagram, 10),
        HeaderField::Ttl => pair(message.datagram, 8) / 256,
    }
}

/// What follows the starting point of data_at and byte_test: the payload's start, or with
/// relative the end of the last positive pattern before, in its field, if there is one.
pub fn following<'a>(
    relative: bool,
    message: &Message<'a>,
    last: Option<&Placed>,
) -> Option<&'a [u8]> {
    let (field, from) = match last {
        Some(placed) if relative => (placed.field, placed.end),
        _ => (Field::Packet, 0),
    };
    message.field(field).and_then(|bytes| bytes.get(from as usize..))
}

/// The number of these bytes, big end first or little end first; it has no sign.
pub fn number(bytes: &[u8], little: bool) -> u64 {
    let add = |number: u64, byte: &u8| number * 256 + u64::from(*byte);
    if little {
        bytes.iter().rev().fold(0, add)
    } else {
        bytes.iter().fold(0, add)
    }
}
