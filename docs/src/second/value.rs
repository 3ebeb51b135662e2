//! The value of each option (document 01, the table of section "Text"; document 02, T-01).

use crate::limits::LONGEST_NAME;
use crate::scan::Scan;
use crate::table::*;
use crate::words::*;

/// One option of the right form.
#[derive(Clone, Debug)]
pub enum Parsed {
    Name(Vec<u8>),
    Protocol(u64),
    Flow(Flow),
    Pattern { negated: bool, bytes: Vec<u8> },
    Test(Test),
    Context(Field),
    NoCase,
    Distance(Distance),
    Within(Within),
}

/// What is wrong with an option, and its place in the text.
pub enum Wrong {
    Form(usize),
    Limit(usize),
}

/// Judges an option from the end of its name to its `;`, which is taken too.
pub fn parse(option: OptionName, scan: &mut Scan) -> Result<Parsed, Wrong> {
    let Some(parsed) = form(option, scan) else {
        return Err(Wrong::Form(scan.at()));
    };
    match scan.beyond() {
        Some(place) => Err(Wrong::Limit(place)),
        None => Ok(parsed),
    }
}

fn form(option: OptionName, scan: &mut Scan) -> Option<Parsed> {
    if !matches!(option, OptionName::SameIp | OptionName::NoCase) {
        scan.due(b' ')?;
    }
    scan.spaces();
    let parsed = value(option, scan)?;
    scan.spaces();
    scan.due(b';')?;
    Some(parsed)
}

fn value(option: OptionName, scan: &mut Scan) -> Option<Parsed> {
    let parsed = match option {
        OptionName::Name => Parsed::Name(name(scan)?),
        OptionName::Protocol => Parsed::Protocol(protocol(scan)?),
        OptionName::Flow => Parsed::Flow(scan.listed(&FLOWS)?),
        OptionName::Address(side) => Parsed::Test(addresses(side, scan)?),
        OptionName::SameIp => Parsed::Test(Test::SameIp),
        OptionName::IpId => Parsed::Test(Test::ip_id(scan.number(HeaderField::Id.limit())?)),
        OptionName::Equal(what) => {
            Parsed::Test(Test::Equal { what, value: scan.number(what.limit())? })
        }
        OptionName::IpTtl => {
            let signs = [("<", Compare::Less), (">", Compare::Greater)];
            let compare = scan.listed(&signs).unwrap_or(Compare::Equal);
            Parsed::Test(Test::Ttl { compare, value: scan.number(255)? })
        }
        OptionName::Header(field) => Parsed::Test(header(field, scan)?),
        OptionName::DataSize => Parsed::Test(data_size(scan)?),
        OptionName::DataAt => Parsed::Test(data_at(scan)?),
        OptionName::Pattern => {
            let negated = scan.eat(b'!');
            Parsed::Pattern { negated, bytes: pattern(scan)? }
        }
        OptionName::Context => Parsed::Context(scan.listed(&CONTEXTS)?),
        OptionName::NoCase => Parsed::NoCase,
        OptionName::Distance => Parsed::Distance(distance(scan)?),
        OptionName::Within => Parsed::Within(within(scan)?),
        OptionName::ByteTest => Parsed::Test(byte_test(scan)?),
    };
    Some(parsed)
}

/// In a name every byte but `"` and `;` stands for itself.
fn name(scan: &mut Scan) -> Option<Vec<u8>> {
    let quote = scan.at();
    scan.due(b'"')?;
    let bytes = scan.run(|byte| byte != b'"' && byte != b';');
    if bytes.is_empty() {
        return None;
    }
    scan.due(b'"')?;
    if bytes.len() > LONGEST_NAME {
        scan.note_beyond(quote);
    }
    Some(bytes.to_vec())
}

fn protocol(scan: &mut Scan) -> Option<u64> {
    scan.number(255).or_else(|| scan.listed(&PROTOCOLS))
}

fn addresses(side: Side, scan: &mut Scan) -> Option<Test> {
    let negated = scan.eat(b'!');
    let bracketed = scan.eat(b'[');
    let mut list = vec![address(scan)?];
    if bracketed {
        while scan.eat(b',') {
            list.push(address(scan)?);
        }
        scan.due(b']')?;
    }
    Some(Test::Address { side, negated, list })
}

fn address(scan: &mut Scan) -> Option<Address> {
    let mut numbers = [0u8; 4];
    for (place, number) in numbers.iter_mut().enumerate() {
        if place > 0 {
            scan.due(b'.')?;
        }
        // A number over 255 is noted by the scan, so this cut is never kept.
        *number = scan.number(255)? as u8;
    }
    let prefix = if scan.eat(b'/') { scan.number(32)? } else { 32 };
    Some(Address { numbers, prefix })
}

/// Spaces are allowed between the tokens, and only here.
fn header(field: HeaderField, scan: &mut Scan) -> Option<Test> {
    let limit = field.limit();
    let mut mask = limit;
    if scan.eat(b'&') {
        scan.spaces();
        mask = scan.number_or_hex(limit)?;
        scan.spaces();
    }
    let compare = scan.listed(&OPERATORS)?;
    scan.spaces();
    Some(Test::Header { field, mask, compare, value: scan.number_or_hex(limit)? })
}

fn data_size(scan: &mut Scan) -> Option<Test> {
    let signs = [("<", Compare::Less), (">", Compare::Greater), ("=", Compare::Equal)];
    let compare = scan.listed(&signs).unwrap_or(Compare::Equal);
    let value = scan.number(65535)?;
    let field = if scan.eat(b',') { scan.listed(&SIZED_FIELDS)? } else { Field::Packet };
    Some(Test::DataSize { compare, value, field })
}

fn data_at(scan: &mut Scan) -> Option<Test> {
    let at = scan.number(65535)?;
    let relative = scan.eat(b',');
    if relative {
        scan.listed(&[("relative", ())])?;
    }
    Some(Test::DataAt { at, relative })
}

/// Any count of bytes is of the form; another than 1, 2 or 4 is beyond its limit.
fn byte_test(scan: &mut Scan) -> Option<Test> {
    let first_digit = scan.at();
    let count = scan.number(4)?;
    if matches!(count, 0 | 3) {
        scan.note_beyond(first_digit);
    }
    scan.due(b',')?;
    let compare = scan.listed(&BYTE_OPERATORS)?;
    scan.due(b',')?;
    let value = scan.number_or_hex(0xFFFF_FFFF)?;
    scan.due(b',')?;
    let offset = scan.number(65535)?;
    let (mut relative, mut little) = (false, false);
    if scan.eat(b',') {
        little = scan.listed(&[("relative", false), ("little", true)])?;
        relative = !little;
        // Only behind `relative` may another word stand.
        if relative && scan.eat(b',') {
            scan.listed(&[("little", ())])?;
            little = true;
        }
    }
    Some(Test::ByteTest { count, compare, value, offset, relative, little })
}

/// `" ; \ | :` are written only in hex blocks.
fn pattern(scan: &mut Scan) -> Option<Vec<u8>> {
    scan.due(b'"')?;
    let mut bytes = Vec::new();
    while bytes.is_empty() || !scan.eat(b'"') {
        if scan.eat(b'|') {
            bytes.extend(block(scan)?);
        } else {
            bytes.push(scan.take(|byte| !b"\";\\|:".contains(&byte))?);
        }
    }
    Some(bytes)
}

/// A block after its first `|`: pairs of hex digits, spaces round the pairs.
fn block(scan: &mut Scan) -> Option<Vec<u8>> {
    let mut bytes = Vec::new();
    scan.spaces();
    while bytes.is_empty() || !scan.eat(b'|') {
        let pair = scan.digit(16)? * 16 + scan.digit(16)?;
        bytes.push(pair as u8);
        scan.spaces();
    }
    Some(bytes)
}

fn distance(scan: &mut Scan) -> Option<Distance> {
    let minus = scan.eat(b'-');
    let number = signed(scan.number(65535)?);
    let amount = if minus { -number } else { number };
    let mut reverse = false;
    let mut reference = Reference::Match;
    if scan.eat(b',') {
        reference = scan.listed(&REFERENCES)?;
        // Only behind a reference may `reverse` stand.
        if scan.eat(b',') {
            scan.listed(&[("reverse", ())])?;
            reverse = true;
        }
    }
    Some(Distance { amount, reference, reverse })
}

fn within(scan: &mut Scan) -> Option<Within> {
    let amount = signed(scan.number(65535)?);
    let reference = if scan.eat(b',') { scan.listed(&REFERENCES)? } else { Reference::Match };
    Some(Within { amount, reference })
}

/// Numbers beyond the limit are refused later, so the greatest may stand in.
fn signed(number: u64) -> i64 {
    i64::try_from(number).unwrap_or(i64::MAX)
}
