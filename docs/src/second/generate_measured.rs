//! Books for measuring on the packets of `generate_block`: none of their rules is met, or
//! the first one always is.
//!
//! Each rule looks like the guides' examples. One of its items can't hold: a pattern with a
//! `q`, which those packets do not have, or a test past the end of every payload.

use crate::generate_block::MARKER;
use crate::random::Random;

pub fn book(seed: u64, rules: u64, first_decides: bool) -> Vec<u8> {
    let mut random = Random::new(seed);
    let mut book = String::new();
    let mut number = 0;
    for place in 0..rules {
        number += random.between(1, 900);
        let text = match place {
            0 if first_decides => marked(),
            // So that a book of one rule is some work for most packets.
            0 => plain(&mut random),
            _ => unmet(&mut random),
        };
        let action = random.pick(&["pass", "hold"]);
        book += &format!("{number}\ton\t{action}\t{text}\n");
    }
    book.into_bytes()
}

/// Met by every TCP packet, once the marker is found.
fn marked() -> String {
    let marker = String::from_utf8_lossy(MARKER);
    format!("F-SBID( --name \"Marked\"; --protocol tcp; --pattern \"{marker}\"; --ip_ttl >0; )")
}

fn plain(random: &mut Random) -> String {
    let absent = absent(random);
    let pattern = pattern(random, &absent, "packet");
    format!("F-SBID( --name \"Plain\"; --protocol tcp;{pattern} )")
}

fn unmet(random: &mut Random) -> String {
    let protocol = random.pick(&["tcp", "tcp", "tcp", "tcp", "tcp", "tcp", "udp", "udp", "icmp"]);
    let mut text = format!("F-SBID( --name \"Rule\"; --protocol {protocol};");
    text += random.pick(&["", "", "", " --flow from_client;", " --flow from_server;"]);
    // Facts of the header come before patterns, as in the guides, and many packets meet them.
    if protocol != "icmp" && random.chance(25) {
        text += random.pick(&[" --dst_port 80;", " --src_port 443;", " --dst_port 502;"]);
    }
    if random.chance(25) {
        text += random.pick(&[
            " --data_size >300;",
            " --data_size <1000;",
            " --data_at 100;",
            " --byte_test 1,>,64,0;",
            " --byte_test 2,<,32768,4,little;",
            " --ip.ttl > 20;",
            " --src_addr 10.10.0.0/16;",
            " --dst_addr ![192.168.1.0/24,10.0.0.0/8];",
        ]);
    }
    let absent = absent(random);
    text += &match random.below(10) {
        0..=2 => pattern(random, &absent, "packet"),
        3 | 4 => {
            let context = random.pick(&["uri", "header", "host", "body"]);
            pattern(random, &absent, context)
        }
        5 => {
            let context = random.pick(&["packet", "uri", "header"]);
            format!(" --pattern \"GET /\"; --context {context}; --distance 0,context;")
                + &pattern(random, &absent, context)
                + " --distance 0;"
        }
        6 | 7 => {
            let word = random.pick(&["HTTP/1.", "Host|3A|", "setpoint=", "/index.html", "node"]);
            let range = random.pick(&["--within 40", "--distance 1; --within 100", "--distance 4"]);
            format!(" --pattern \"{word}\"; --no_case;")
                + &pattern(random, &absent, "packet")
                + &format!(" {range};")
        }
        8 => {
            let word = random.pick(&["temp", "valve", "|00 00|", "|FF|"]);
            format!(" --pattern \"{word}\"; --byte_test 2,=,0x7171,0,relative;")
        }
        _ => " --pattern !\"qQ\"; --byte_test 4,>,16,65000;".to_string(),
    };
    text + " )"
}

fn pattern(random: &mut Random, bytes: &str, context: &str) -> String {
    let no_case = if random.chance(40) { " --no_case;" } else { "" };
    format!(" --pattern \"{bytes}\"; --context {context};{no_case}")
}

/// 3 to 20 bytes like those of the packets, but one.
fn absent(random: &mut Random) -> String {
    let length = random.between(3, 20) as usize;
    let mut bytes: Vec<char> =
        (0..length).map(|_| char::from(random.pick(b"abcdeghilmnorstGHTP/.-_= 0123"))).collect();
    let at = random.index(length);
    bytes[at] = random.pick(&['q', 'Q']);
    bytes.into_iter().collect()
}
