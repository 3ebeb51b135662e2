//! Writing a table as its house text (document 01, "House text").

use crate::table::*;
use crate::words::*;

pub fn house_text(table: &Table) -> Vec<u8> {
    let mut text = b"F-SBID(".to_vec();
    let mut name = b"\"".to_vec();
    name.extend(&table.name);
    name.push(b'"');
    option(&mut text, "name", &name);
    option(&mut text, "protocol", table.protocol.to_string().as_bytes());
    if let Some(flow) = table.flow {
        option(&mut text, "flow", word(&FLOWS, flow).as_bytes());
    }
    for item in &table.items {
        match item {
            Item::Pattern(pattern) => write_pattern(&mut text, pattern),
            Item::Test(test) => write_test(&mut text, test),
        }
    }
    text.extend(b" )");
    text
}

/// One space, the option, `;`. An empty value is none.
fn option(text: &mut Vec<u8>, name: &str, value: &[u8]) {
    text.extend(b" --");
    text.extend(name.as_bytes());
    if !value.is_empty() {
        text.push(b' ');
        text.extend(value);
    }
    text.push(b';');
}

/// After a pattern: context, no_case, distance, within.
fn write_pattern(text: &mut Vec<u8>, pattern: &Pattern) {
    let mut value = Vec::new();
    if pattern.negated {
        value.push(b'!');
    }
    value.extend(quoted(&pattern.bytes));
    option(text, "pattern", &value);
    if pattern.context != Field::Packet {
        option(text, "context", word(&CONTEXTS, pattern.context).as_bytes());
    }
    if pattern.no_case {
        option(text, "no_case", b"");
    }
    if let Some(distance) = pattern.distance {
        let reverse = if distance.reverse { ",reverse" } else { "" };
        let value = format!("{}{}{}", distance.amount, reference(distance.reference), reverse);
        option(text, "distance", value.as_bytes());
    }
    if let Some(within) = pattern.within {
        let value = format!("{}{}", within.amount, reference(within.reference));
        option(text, "within", value.as_bytes());
    }
}

/// Reference match is left out. (With `reverse` it is never match.)
fn reference(reference: Reference) -> String {
    match reference {
        Reference::Match => String::new(),
        other => format!(",{}", word(&REFERENCES, other)),
    }
}

/// Printable bytes but the five stand as themselves; the rest in hex, capitals,
/// neighbours in one block.
fn quoted(bytes: &[u8]) -> Vec<u8> {
    let mut text = b"\"".to_vec();
    let mut in_block = false;
    for byte in bytes {
        let plain = (0x20..=0x7E).contains(byte) && !b"\";\\|:".contains(byte);
        if plain == in_block {
            text.push(b'|');
            in_block = !in_block;
        }
        if plain {
            text.push(*byte);
        } else {
            text.extend(format!("{byte:02X}").as_bytes());
        }
    }
    if in_block {
        text.push(b'|');
    }
    text.push(b'"');
    text
}

fn write_test(text: &mut Vec<u8>, test: &Test) {
    let (kind, value) = match test {
        Test::Address { side, negated, list } => {
            (OptionName::Address(*side), addresses(*negated, list))
        }
        Test::SameIp => (OptionName::SameIp, String::new()),
        Test::Equal { what, value } => (OptionName::Equal(*what), value.to_string()),
        Test::Ttl { compare, value } => (OptionName::IpTtl, format!("{}{value}", sign(*compare))),
        Test::Header { field, mask, compare, value } => {
            let full = *mask == field.limit();
            let mask = if full { String::new() } else { format!("& {mask} ") };
            let compared = format!("{mask}{} {value}", word(&OPERATORS, *compare));
            (OptionName::Header(*field), compared)
        }
        Test::DataSize { compare, value, field } => {
            let field = match field {
                Field::Packet => String::new(),
                other => format!(",{}", word(&SIZED_FIELDS, *other)),
            };
            (OptionName::DataSize, format!("{}{value}{field}", sign(*compare)))
        }
        Test::DataAt { at, relative } => {
            let relative = if *relative { ",relative" } else { "" };
            (OptionName::DataAt, format!("{at}{relative}"))
        }
        Test::ByteTest { count, compare, value, offset, relative, little } => {
            let operator = word(&BYTE_OPERATORS, *compare);
            let relative = if *relative { ",relative" } else { "" };
            let little = if *little { ",little" } else { "" };
            let value = format!("{count},{operator},{value},{offset}{relative}{little}");
            (OptionName::ByteTest, value)
        }
    };
    option(text, word(&OPTIONS, kind), value.as_bytes());
}

/// Of ip_ttl and data_size: no space behind it, and `=` is left out.
fn sign(compare: Compare) -> &'static str {
    match compare {
        Compare::Equal => "",
        other => word(&OPERATORS, other),
    }
}

fn addresses(negated: bool, list: &[Address]) -> String {
    let texts: Vec<String> = list.iter().map(address).collect();
    let joined = texts.join(",");
    let negation = if negated { "!" } else { "" };
    if list.len() == 1 {
        format!("{negation}{joined}")
    } else {
        format!("{negation}[{joined}]")
    }
}

fn address(address: &Address) -> String {
    let [a, b, c, d] = address.numbers;
    let prefix = if address.prefix == 32 { String::new() } else { format!("/{}", address.prefix) };
    format!("{a}.{b}.{c}.{d}{prefix}")
}
