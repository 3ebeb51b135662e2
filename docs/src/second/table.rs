//! The table that a signature text is read into (document 01, "Text").
//!
//! Numbers are kept wider than their limits; the reader has judged the limits.

#[derive(Clone, Debug, PartialEq, Eq)]
pub struct Table {
    pub name: Vec<u8>,
    pub protocol: u64,
    pub flow: Option<Flow>,
    /// Patterns and tests in text order.
    pub items: Vec<Item>,
}

#[derive(Clone, Copy, Debug, PartialEq, Eq)]
pub enum Flow {
    FromClient,
    FromServer,
}

#[derive(Clone, Debug, PartialEq, Eq)]
pub enum Item {
    Pattern(Pattern),
    Test(Test),
}

/// A field of the message; `Packet` is the payload (context packet, field payload).
#[derive(Clone, Copy, Debug, PartialEq, Eq)]
pub enum Field {
    Packet,
    Uri,
    Header,
    Body,
    Banner,
    Host,
    File,
}

#[derive(Clone, Debug, PartialEq, Eq)]
pub struct Pattern {
    pub negated: bool,
    pub bytes: Vec<u8>,
    pub context: Field,
    pub no_case: bool,
    /// `distance 0` differs from no distance, so both ranges are optional.
    pub distance: Option<Distance>,
    pub within: Option<Within>,
}

#[derive(Clone, Copy, Debug, PartialEq, Eq)]
pub struct Distance {
    pub amount: i64,
    pub reference: Reference,
    pub reverse: bool,
}

#[derive(Clone, Copy, Debug, PartialEq, Eq)]
pub struct Within {
    pub amount: i64,
    pub reference: Reference,
}

#[derive(Clone, Copy, Debug, PartialEq, Eq)]
pub enum Reference {
    Match,
    Packet,
    Context,
}

#[derive(Clone, Debug, PartialEq, Eq)]
pub enum Test {
    Address {
        side: Side,
        negated: bool,
        list: Vec<Address>,
    },
    SameIp,
    /// src_port, dst_port and ip_tos: equal to a number.
    Equal {
        what: Plain,
        value: u64,
    },
    /// ip_ttl: `=` (no sign), `<` or `>` only.
    Ttl {
        compare: Compare,
        value: u64,
    },
    /// ip.total_length, ip.id, ip.checksum, ip.ttl: field AND mask, compared.
    Header {
        field: HeaderField,
        mask: u64,
        compare: Compare,
        value: u64,
    },
    /// `=`, `<` or `>` only.
    DataSize {
        compare: Compare,
        value: u64,
        field: Field,
    },
    DataAt {
        at: u64,
        relative: bool,
    },
    /// `>`, `<`, `=` or `!=` (written `!`) only; the count is 1, 2 or 4.
    ByteTest {
        count: u64,
        compare: Compare,
        value: u64,
        offset: u64,
        relative: bool,
        little: bool,
    },
}

#[derive(Clone, Copy, Debug, PartialEq, Eq)]
pub enum Side {
    Source,
    Destination,
}

#[derive(Clone, Copy, Debug, PartialEq, Eq)]
pub struct Address {
    pub numbers: [u8; 4],
    pub prefix: u64,
}

#[derive(Clone, Copy, Debug, PartialEq, Eq)]
pub enum Plain {
    SrcPort,
    DstPort,
    IpTos,
}

#[derive(Clone, Copy, Debug, PartialEq, Eq)]
pub enum HeaderField {
    TotalLength,
    Id,
    Checksum,
    Ttl,
}

#[derive(Clone, Copy, Debug, PartialEq, Eq)]
pub enum Compare {
    Equal,
    NotEqual,
    Less,
    Greater,
    LessOrEqual,
    GreaterOrEqual,
}

impl HeaderField {
    /// The limit of mask and number, which is also the full mask.
    pub fn limit(self) -> u64 {
        match self {
            HeaderField::Ttl => 255,
            _ => 65535,
        }
    }
}

impl Plain {
    pub fn limit(self) -> u64 {
        match self {
            Plain::IpTos => 255,
            _ => 65535,
        }
    }
}

impl Test {
    /// What `--ip_id N` is read as: `--ip.id = N` (document 02, T-09).
    pub fn ip_id(value: u64) -> Test {
        let field = HeaderField::Id;
        Test::Header { field, mask: field.limit(), compare: Compare::Equal, value }
    }
}

impl Compare {
    pub fn holds(self, left: u64, right: u64) -> bool {
        match self {
            Compare::Equal => left == right,
            Compare::NotEqual => left != right,
            Compare::Less => left < right,
            Compare::Greater => left > right,
            Compare::LessOrEqual => left <= right,
            Compare::GreaterOrEqual => left >= right,
        }
    }
}

impl Pattern {
    /// The references of the ranges that are given, distance first.
    pub fn references(&self) -> Vec<Reference> {
        let distance = self.distance.map(|d| d.reference);
        let within = self.within.map(|w| w.reference);
        distance.into_iter().chain(within).collect()
    }
}

impl Table {
    /// A placement has one start for each positive pattern.
    pub fn positive_patterns(&self) -> usize {
        let positive = |item: &&Item| matches!(item, Item::Pattern(p) if !p.negated);
        self.items.iter().filter(positive).count()
    }
}
