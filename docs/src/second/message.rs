//! One packet with its fields, and refusals 30 to 35
//! (document 01, "Packet and fields", "Numbers of refusal").

use crate::limits::{LONGEST_DECODED, LONGEST_PACKET};
use crate::table::Field;

#[derive(Clone, Copy, Debug, PartialEq, Eq)]
pub struct Span {
    pub start: usize,
    pub length: usize,
}

/// The present fields; context packet is no entry, it is always present.
#[derive(Clone, Debug, Default)]
pub struct Map {
    pub entries: Vec<(Field, Span)>,
}

impl Map {
    pub fn span(&self, field: Field) -> Option<Span> {
        self.entries.iter().find(|(named, _)| *named == field).map(|(_, span)| *span)
    }
}

pub const TCP: u8 = 6;
pub const UDP: u8 = 17;
pub const ICMP: u8 = 1;

pub struct Message<'a> {
    /// The first total-length bytes of the packet; at least 20 of them.
    pub datagram: &'a [u8],
    /// The datagram behind the IP header.
    pub transport: &'a [u8],
    pub payload: &'a [u8],
    pub from_client: bool,
    /// The bytes of each present field, at the field's place in the enum.
    fields: [Option<&'a [u8]>; 7],
}

impl<'a> Message<'a> {
    /// The message, or the first of 30 to 35 that is due.
    pub fn new(
        packet: &'a [u8],
        decoded: &'a [u8],
        map: &Map,
        from_client: bool,
    ) -> Result<Message<'a>, u8> {
        if packet.len() > LONGEST_PACKET || decoded.len() > LONGEST_DECODED {
            return Err(30);
        }
        if packet.len() < 20 || packet[0] >> 4 != 4 {
            return Err(31);
        }
        let words = usize::from(packet[0] & 0x0F);
        let header_length = 4 * words;
        let total_length = pair(packet, 2) as usize;
        if words < 5 || header_length > total_length || total_length > packet.len() {
            return Err(32);
        }
        let datagram = &packet[..total_length];
        // The more-fragments bit and the 13 bits of the offset.
        if pair(datagram, 6) & 0x3FFF != 0 {
            return Err(33);
        }
        let transport = &datagram[header_length..];
        let transport_header = transport_header_length(datagram[9], transport).ok_or(34u8)?;
        let payload = &transport[transport_header..];
        let mut fields = [None; 7];
        fields[Field::Packet as usize] = Some(payload);
        for (field, span) in &map.entries {
            let buffer = if lies_in_payload(*field) { payload } else { decoded };
            let bytes = buffer.get(span.start..span.start + span.length).ok_or(35u8)?;
            fields[*field as usize] = Some(bytes);
        }
        Ok(Message { datagram, transport, payload, from_client, fields })
    }

    pub fn protocol(&self) -> u8 {
        self.datagram[9]
    }

    /// The bytes of a present field.
    pub fn field(&self, field: Field) -> Option<&'a [u8]> {
        self.fields[field as usize]
    }
}

/// Body, banner and file lie in the payload; uri, header and host in the decoded buffer.
fn lies_in_payload(field: Field) -> bool {
    matches!(field, Field::Packet | Field::Body | Field::Banner | Field::File)
}

/// Measured within the datagram; `None` is refusal 34.
fn transport_header_length(protocol: u8, transport: &[u8]) -> Option<usize> {
    match protocol {
        TCP => {
            let words = usize::from(*transport.get(12)? >> 4);
            let fits = transport.len() >= 20 && words >= 5 && 4 * words <= transport.len();
            fits.then_some(4 * words)
        }
        UDP | ICMP => (transport.len() >= 8).then_some(8),
        _ => Some(0),
    }
}

/// Two bytes in network order; missing ones count as 0.
pub fn pair(bytes: &[u8], at: usize) -> u64 {
    let byte = |at: usize| u64::from(bytes.get(at).copied().unwrap_or(0));
    byte(at) * 256 + byte(at + 1)
}
