//! Lines of a trace with something wrong in their form, or nearly so.

use crate::damage::damage;
use crate::generate_trace::columns;
use crate::random::Random;

const SIDES: [&str; 16] = [
    "", "-", "Client", "CLIENT", "clien", "clients", " client", "client ", "Server", "SERVER",
    "serve", "servers", "node", "0", "client\r", "\0",
];

const MAPS: [&str; 64] = [
    "uri",
    "uri:",
    "uri:0",
    "uri:0+",
    "uri:+0",
    "uri:+",
    "uri0+0",
    "uri+0:0",
    "uri:0-0",
    "uri:0:0",
    "uri::0+0",
    "uri:0++0",
    "uri:0+0+0",
    ":0+0",
    "0+0",
    ",",
    ",uri:0+0",
    "uri:0+0,",
    "uri:0+0,,host:0+0",
    "-,uri:0+0",
    "uri:0+0,-",
    "-uri:0+0",
    "--",
    " -",
    "- ",
    "uri:0+0;host:0+0",
    "uri:0+0, host:0+0",
    "uri: 0+0",
    " uri:0+0",
    "uri:0+0 ",
    "URI:0+0",
    "Body:0+0",
    "HOST:0+0",
    "ur:0+0",
    "uris:0+0",
    "url:0+0",
    "bodyy:0+0",
    "packet:0+0",
    "packet:0+1",
    "payload:0+0",
    "uri:65535+0",
    "uri:65536+0",
    "uri:0+65535",
    "uri:0+65536",
    "body:65536+65536",
    "host:4294967296+0",
    "file:0+18446744073709551616",
    "header:999999999999999999999999999999+0",
    "uri:000000000000000000000000000000+0",
    "uri:000065536+0",
    "uri:-0+0",
    "uri:+0+0",
    "uri:0+-0",
    "uri:0x0+0",
    "uri:0+0a",
    "uri:a+0",
    "uri:0.0+0",
    "uri:0+0\0",
    "uri:0+0\r",
    "uri:0+0,uri:0+0",
    "body:0+0,host:0+0,body:0+0",
    "header:0+0,header:65535+65535",
    "file:0+0,banner:0+0,uri:0+0,host:0+0,header:0+0,body:0+0,file:0+0",
    "banner:0+0,Banner:0+0",
];

pub fn bad_line(random: &mut Random) -> Vec<u8> {
    let mut columns = columns(random).to_vec();
    let at = random.index(4);
    // Packet or decoded buffer, mostly one that is not empty.
    let pairs = if columns[3].len() > 1 { random.pick(&[1, 3]) } else { 1 };
    let place = random.index(columns[pairs].len());
    match random.below(20) {
        0 => return Vec::new(),
        1 => drop(columns.remove(at)),
        2 => columns.insert(random.index(5), b"-".to_vec()),
        3 => columns.insert(random.pick(&[0, 4]), Vec::new()),
        4 => columns[at].clear(),
        5 | 6 => columns[0] = random.pick(&SIDES).as_bytes().to_vec(),
        7 => drop(columns[pairs].remove(place)),
        8 => columns[pairs].insert(place, random.pick(b"0f-")),
        9 | 10 => columns[pairs][place] = random.pick(b"gG/:@`xX -\0\xFF\x10\xB0\r"),
        11 => columns[pairs] = around(random, &columns[pairs]),
        12..=15 => columns[2] = random.pick(&MAPS).as_bytes().to_vec(),
        16 => columns.swap(at, (at + 1) % 4),
        _ => return spoiled(random, &columns),
    }
    columns.join(&b'\t')
}

/// Something before or behind the pairs.
fn around(random: &mut Random, pairs: &[u8]) -> Vec<u8> {
    let before = random.pick(&["", "-", "0x", " ", "+", "|"]);
    let behind = random.pick(&["", "-", "--", " ", "\r", "h", "|", ","]);
    [before.as_bytes(), pairs, behind.as_bytes()].concat()
}

/// A whole line with bytes put in, another line behind it, or any damage.
fn spoiled(random: &mut Random, columns: &[Vec<u8>]) -> Vec<u8> {
    let mut line = columns.join(&b'\t');
    match random.below(8) {
        0 | 1 => line.push(random.pick(b"\r \t\0")),
        2 => line.insert(0, random.pick(b"\r \t\0#")),
        3 => line.insert(random.index(line.len() + 1), random.pick(b"\0\xFF \t\r")),
        4 => {
            let parted = random.pick(&["\r", " ", "", "\0", "\t", "\x0B", "\x0C"]);
            line = [&line, parted.as_bytes(), &line].concat();
        }
        5 => line.truncate(random.index(line.len())),
        _ => damage(random, &mut line),
    }
    line
}
