//! Books by whose rules a part of any trace or night is decided, each rule deciding some of
//! it, and a part is not.
//!
//! A rule is kept if, behind those before it, it decides some of the messages that are drawn
//! for a trial, of a trace as well as of a night: not too few, and not so many that too little
//! is left for the others.

use crate::generate_block::record;
use crate::generate_trace::{drawn, of_record};
use crate::message::Message;
use crate::quick::Ready;
use crate::random::Random;
use crate::reader::read;
use crate::trace::Line;

/// Messages for the trial, of a trace and of a night so many each.
const TRIED: usize = 300;
/// Of a hundred of them so many should be decided.
const DECIDED: usize = 80;

pub fn book(seed: u64, rules: u64) -> Vec<u8> {
    let mut random = Random::new(seed);
    let trace: Vec<Line> = (0..TRIED).map(|_| drawn(&mut random)).collect();
    let night: Vec<Line> = (0..TRIED).map(|_| of_record(&record(&mut random, false))).collect();
    // Those that are not refused, and no rule has decided yet.
    let mut left: [Vec<Message>; 2] =
        [&trace, &night].map(|lines| lines.iter().filter_map(Line::message).collect());
    let share = TRIED * DECIDED / 100 / rules.max(4) as usize;
    let mut book = Vec::new();
    let mut number = 0;
    for _ in 0..rules {
        number += random.between(1, 900);
        let (text, table) = rule(&mut random, &left, share);
        let on = random.chance(85);
        if on {
            left.iter_mut().for_each(|part| part.retain(|message| !table.has_placement(message)));
        }
        let state = if on { "on" } else { "off" };
        let action = random.pick(&["pass", "hold"]);
        book.extend(format!("{number}\t{state}\t{action}\t{text}\n").bytes());
    }
    book
}

/// A rule that decides about this share of each part, if one is found soon.
fn rule(random: &mut Random, left: &[Vec<Message>; 2], share: usize) -> (String, Ready) {
    let wanted = (share / 2).max(1)..=(2 * share).max(1);
    let mut tries = 0;
    loop {
        let text = text(random);
        tries += 1;
        let Ok(table) = read(text.as_bytes()) else { continue };
        let table = Ready::new(&table);
        let decides = |part: &Vec<Message>| {
            part.iter().filter(|message| table.has_placement(message)).count()
        };
        if tries > 1000 || left.iter().all(|part| wanted.contains(&decides(part))) {
            return (text, table);
        }
    }
}

/// Like the guides' examples; some do not read.
fn text(random: &mut Random) -> String {
    let protocol = random.pick(&["tcp", "tcp", "tcp", "tcp", "udp", "udp", "icmp", "47", "253"]);
    let mut text = format!("F-SBID( --name \"Mixed\"; --protocol {protocol};");
    text += random.pick(&["", "", "", " --flow from_client;", " --flow from_server;"]);
    for _ in 0..random.pick(&[0, 0, 1, 1, 2]) {
        text += &fact(random);
    }
    for _ in 0..random.pick(&[0, 1, 1, 1, 2, 2]) {
        text += &pattern(random);
        if random.chance(25) {
            text += &relative(random);
        }
    }
    text + " )"
}

/// A test that looks at no pattern.
fn fact(random: &mut Random) -> String {
    let byte = random.below(256);
    let part = random.below(4);
    let length = random.below(700);
    let port = random.pick(&[80, 443, 53, 502, 20000, 1024]);
    match random.below(17) {
        0 => format!(" --dst_port {port};"),
        1 => format!(" --src_port {port};"),
        2 => format!(" --ip_ttl <{byte};"),
        3 => format!(" --ip_ttl >{byte};"),
        4 => format!(" --ip.ttl & 0x{part:x} = {part};"),
        5 => format!(" --ip.id & 0x{part:x} != {part};"),
        6 => format!(" --ip_id {};", random.pick(&[0, 5, 4663, 65535])),
        7 => format!(" --ip.total_length > {length};"),
        8 => format!(" --ip.checksum & 3 = {part};"),
        9 => format!(" --ip_tos {};", random.pick(&[0, 1, 16, 255])),
        10 => format!(" --src_addr 10.10.{part}.0/24;"),
        11 => format!(" --dst_addr [192.168.0.{byte}/27,10.10.10.0/23];"),
        12 => format!(" --src_addr !10.10.{part}.{byte}/17;"),
        13 => format!(" --data_size >{};", length / 2),
        14 => {
            let field = random.pick(&["uri", "header", "body", "payload"]);
            format!(" --data_size <{},{field};", byte / 4)
        }
        15 => format!(" --data_at {};", length / 4),
        _ => byte_test(random, ""),
    }
}

fn relative(random: &mut Random) -> String {
    if random.chance(50) {
        format!(" --data_at {},relative;", random.below(60))
    } else {
        byte_test(random, ",relative")
    }
}

fn byte_test(random: &mut Random, relative: &str) -> String {
    let (count, greatest) = random.pick(&[(1, 127), (1, 255), (2, 65535), (4, 4_294_967_295)]);
    let operator = random.pick(&[">", "<", ">", "<", "=", "!"]);
    let value = random.below(greatest);
    let offset = random.below(12);
    let little = random.pick(&["", ",little"]);
    format!(" --byte_test {count},{operator},{value},{offset}{relative}{little};")
}

/// Parts of the words that payloads and decoded buffers are made of, and single bytes.
fn pattern(random: &mut Random) -> String {
    let bytes = random.pick(&[
        "GET",
        "POST ",
        "HTTP/1.1",
        "Host|3A|",
        "the",
        "node ",
        "set",
        "setpoint=",
        "point",
        "/in",
        "index",
        ".html",
        "temp",
        "valve",
        "|0D 0A|",
        "0000",
        "Length",
        "nd t",
        "a",
        "e",
        "x",
        "7",
        "%",
        "|00|",
        "|FF|",
        "|3A 20|",
        "AB",
        "io",
        "E",
        "no",
    ]);
    let negated = if random.chance(20) { "!" } else { "" };
    let context = random.pick(&[
        "packet", "packet", "packet", "packet", "uri", "header", "host", "body", "banner", "file",
    ]);
    let no_case = if random.chance(30) { " --no_case;" } else { "" };
    let reference = random.pick(&["match", "match", "context"]);
    let distance = random.below(30);
    let within = random.between(4, 80);
    let range = match random.below(8) {
        0 => format!(" --within {within},{reference};"),
        1 => format!(" --distance {distance},{reference};"),
        2 => format!(" --distance {distance},{reference}; --within {within},{reference};"),
        3 => format!(" --distance {within},context,reverse;"),
        _ => String::new(),
    };
    format!(" --pattern {negated}\"{bytes}\"; --context {context};{no_case}{range}")
}
