//! Slips of the pen: valid texts with one byte of an option left out, written twice, put in
//! or put in another's place, at every place of the option.

use crate::table::Side::{Destination, Source};
use crate::table::{HeaderField, Plain};
use crate::words::{OptionName, OPTIONS};
use std::collections::HashSet;
use std::io::{Result, Write};

/// The bytes that are put in, taken in turn: each begins, ends, parts or goes on with
/// something in one form and is wrong in another.
const TELLING: &[u8] = b" ;\"),-09ax|!./=<[&_";

/// For each option its examples, each followed by its slips; no text of an option twice.
pub fn write_slips(mut output: impl Write) -> Result<()> {
    let mut telling = TELLING.iter().copied().cycle();
    for (name, option) in OPTIONS {
        let (before, after) = frame(option);
        let mut written = HashSet::new();
        for value in values(option) {
            for slip in slips(name, value, &mut telling) {
                let text = [before.as_bytes(), &slip, after.as_bytes(), b"\n"].concat();
                if written.insert(slip) {
                    output.write_all(&text)?;
                }
            }
        }
    }
    output.flush()
}

/// The option itself, then the slips at each of its places: fewer in the name, where
/// nearly every one is refusal 5.
fn slips(name: &str, value: &str, telling: &mut impl Iterator<Item = u8>) -> Vec<Vec<u8>> {
    let option = ["--", name, value].concat().into_bytes();
    let mut slips = vec![option.clone()];
    for place in 0..option.len() {
        let (before, from, after) = (&option[..place], &option[place..], &option[place + 1..]);
        slips.push([before, after].concat());
        slips.push([before, &from[..1], from].concat());
        let in_name = place < option.len() - value.len();
        let (put_in, changed) = if in_name { (1, 1) } else { (3, 2) };
        slips.extend(telling.take(put_in).map(|byte| [before, &[byte], from].concat()));
        slips.extend(telling.take(changed).map(|byte| [before, &[byte], after].concat()));
    }
    slips
}

/// What stands before and after an option, so that the whole text reads.
fn frame(option: OptionName) -> (&'static str, &'static str) {
    match option {
        OptionName::Name => ("F-SBID(", "--protocol 6;)"),
        OptionName::Protocol => ("F-SBID(--name \"n\";", ")"),
        OptionName::Context | OptionName::NoCase | OptionName::Distance | OptionName::Within => {
            ("F-SBID(--name \"n\";--protocol 6;--pattern \"a\";", ")")
        }
        _ => ("F-SBID(--name \"n\";--protocol 6;", ")"),
    }
}

/// What follows the name: together every part of the option's form, some numbers at
/// their limit.
fn values(option: OptionName) -> &'static [&'static str] {
    match option {
        OptionName::Name => &["  \"A|b: 1\" ;"],
        OptionName::Protocol => &[" tcp;", " UDP ;", "  icmp;", " 0255;"],
        OptionName::Flow => &[" from_client;", "  FROM_SERVER ;"],
        OptionName::Address(Source) => &[" ![10.0.0.255/032,1.2.3.4/8] ;"],
        OptionName::Address(Destination) => &[" !1.25.255.0/24;", " [5.6.7.8];"],
        OptionName::SameIp => &[" ;"],
        OptionName::IpId => &[" 65535;"],
        OptionName::Equal(Plain::SrcPort) => &["  6553 ;"],
        OptionName::Equal(Plain::DstPort) => &[" 065535;"],
        OptionName::Equal(Plain::IpTos) => &[" 255 ;"],
        OptionName::IpTtl => &[" <64;", " >255 ;", "  5;"],
        OptionName::Header(HeaderField::TotalLength) => &[" &65535>=0xFFFF;"],
        OptionName::Header(HeaderField::Id) => &[" & 0xFf != 65535 ;", " <5;"],
        OptionName::Header(HeaderField::Checksum) => &["  &  0 <= 0X0ffff;"],
        OptionName::Header(HeaderField::Ttl) => &[" &0XfF > 25;", " = 255;"],
        OptionName::DataSize => &[" <100,header;", " =65535,payload ;", " >0,uri;", " 7,BODY;"],
        OptionName::DataAt => &[" 65535,relative;", "  20 ;"],
        OptionName::Pattern => &[" !\"a)|4F 6b|b\";", " \"| 7C7c ||22|\" ;"],
        OptionName::Context => {
            &[" packet;", "  URI;", " header ;", " body;", " banner;", " host;", " file;"]
        }
        OptionName::NoCase => &[";", "  ;"],
        OptionName::Distance => &[" -65535,match;", " 10,packet,reverse;", "  0,CONTEXT ;"],
        OptionName::Within => &[" 65535,match;", " 10,packet ;", " 5,context;"],
        OptionName::ByteTest => &[
            " 2,>,0x1F,65535,relative,little;",
            "  04,!,4294967295,0,LITTLE ;",
            " 1,<,0XffFFffff,12;",
            " 2,=,700,3,Relative;",
        ],
    }
}
