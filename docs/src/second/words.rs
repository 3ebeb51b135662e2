//! The listed option names and keywords (document 01, table of section "Text"; document 02).
//!
//! Reader and writer share these lists, so that each word is spelled once.

use crate::table::{Compare, Field, Flow, HeaderField, Plain, Reference, Side};

#[derive(Clone, Copy, Debug, PartialEq, Eq)]
pub enum OptionName {
    Name,
    Protocol,
    Flow,
    Address(Side),
    SameIp,
    IpId,
    Equal(Plain),
    IpTtl,
    Header(HeaderField),
    DataSize,
    DataAt,
    Pattern,
    Context,
    NoCase,
    Distance,
    Within,
    ByteTest,
}

pub const OPTIONS: [(&str, OptionName); 23] = [
    ("name", OptionName::Name),
    ("protocol", OptionName::Protocol),
    ("flow", OptionName::Flow),
    ("src_addr", OptionName::Address(Side::Source)),
    ("dst_addr", OptionName::Address(Side::Destination)),
    ("same_ip", OptionName::SameIp),
    ("ip_id", OptionName::IpId),
    ("src_port", OptionName::Equal(Plain::SrcPort)),
    ("dst_port", OptionName::Equal(Plain::DstPort)),
    ("ip_tos", OptionName::Equal(Plain::IpTos)),
    ("ip_ttl", OptionName::IpTtl),
    ("ip.total_length", OptionName::Header(HeaderField::TotalLength)),
    ("ip.id", OptionName::Header(HeaderField::Id)),
    ("ip.checksum", OptionName::Header(HeaderField::Checksum)),
    ("ip.ttl", OptionName::Header(HeaderField::Ttl)),
    ("data_size", OptionName::DataSize),
    ("data_at", OptionName::DataAt),
    ("pattern", OptionName::Pattern),
    ("context", OptionName::Context),
    ("no_case", OptionName::NoCase),
    ("distance", OptionName::Distance),
    ("within", OptionName::Within),
    ("byte_test", OptionName::ByteTest),
];

pub const PROTOCOLS: [(&str, u64); 3] = [("tcp", 6), ("udp", 17), ("icmp", 1)];

pub const FLOWS: [(&str, Flow); 2] =
    [("from_client", Flow::FromClient), ("from_server", Flow::FromServer)];

pub const CONTEXTS: [(&str, Field); 7] = [
    ("packet", Field::Packet),
    ("uri", Field::Uri),
    ("header", Field::Header),
    ("body", Field::Body),
    ("banner", Field::Banner),
    ("host", Field::Host),
    ("file", Field::File),
];

pub const SIZED_FIELDS: [(&str, Field); 4] = [
    ("payload", Field::Packet),
    ("uri", Field::Uri),
    ("header", Field::Header),
    ("body", Field::Body),
];

pub const REFERENCES: [(&str, Reference); 3] =
    [("match", Reference::Match), ("packet", Reference::Packet), ("context", Reference::Context)];

pub const OPERATORS: [(&str, Compare); 6] = [
    ("!=", Compare::NotEqual),
    ("<=", Compare::LessOrEqual),
    (">=", Compare::GreaterOrEqual),
    ("=", Compare::Equal),
    ("<", Compare::Less),
    (">", Compare::Greater),
];

/// The operators of byte_test; its `!` is the `!=` of the field tests.
pub const BYTE_OPERATORS: [(&str, Compare); 4] = [
    (">", Compare::Greater),
    ("<", Compare::Less),
    ("=", Compare::Equal),
    ("!", Compare::NotEqual),
];

/// What a word means; option names and keywords ignore letter case.
pub fn meaning<T: Copy>(list: &[(&str, T)], word: &[u8]) -> Option<T> {
    let found = list.iter().find(|(text, _)| word.eq_ignore_ascii_case(text.as_bytes()));
    found.map(|(_, meaning)| *meaning)
}

/// Whether a word of the list begins with these bytes.
pub fn begins<T>(list: &[(&str, T)], bytes: &[u8]) -> bool {
    list.iter().any(|(text, _)| {
        let start = text.as_bytes().get(..bytes.len());
        start.is_some_and(|start| start.eq_ignore_ascii_case(bytes))
    })
}

/// The small-letter word of a meaning.
pub fn word<T: Copy + PartialEq>(list: &[(&'static str, T)], meaning: T) -> &'static str {
    list.iter().find(|(_, m)| *m == meaning).map_or("", |(text, _)| text)
}
