//! Cases: a message, a table aimed at it, and an ask, as one line.

use crate::case::LONGEST_LINE;
use crate::damage::damage;
use crate::generate_aimed::{self, SHORT};
use crate::generate_long;
use crate::generate_packet;
use crate::generate_text;
use crate::limits::{LONGEST_DECODED, LONGEST_PACKET};
use crate::message::{Map, Message, Span};
use crate::placements::print_one;
use crate::random::Random;
use crate::search::placements;
use crate::spell::Spell;
use crate::table::{Field, Table};
use crate::words::{word, CONTEXTS};

pub fn case(random: &mut Random) -> Vec<u8> {
    if random.below(400) == 0 {
        return long_list(random);
    }
    let mut patterns = random.pick(&[0, 1, 1, 1, 2, 2, 2, 3, 3, 4]);
    if random.chance(5) {
        patterns = random.between(5, 8) as usize;
    }
    // The more patterns, the shorter the fields: lists get long, yet no search does.
    let longest = [40, 40, 30, 20, 12, 7, 6, 5, 5][patterns];
    let alphabet: &[u8] = random.pick(&[
        &b"ab"[..],
        b"ab",
        b"abX",
        b"abX",
        b"aAb",
        b"aAb",
        b"aab",
        b"abcd",
        b"aB\0",
        b"a:\xFF",
        b"a[{",
        b"@`A",
        b"a\xC1\xE1",
    ]);
    let long = random.chance(3);
    let mut lengths = SHORT;
    let (payload, mut decoded) = if long {
        (patterns, lengths) = generate_long::patterns(random);
        generate_long::fields(random, alphabet)
    } else {
        (letters(random, alphabet, longest), letters(random, alphabet, longest))
    };
    let mut packet = generate_packet::packet(random, &payload);
    let map = map(random, payload.len(), decoded.len());
    let from_client = random.chance(50);
    let message = (&packet[..], &decoded[..], &map, from_client);
    let table = aimed_table(random, message, alphabet, patterns, lengths);
    let compact = long && random.chance(85);
    let mut spell = if compact { Spell::compact(random) } else { Spell::any(random) };
    let mut text = spell.text(&table);
    let mut ask = ask(random, &table, &packet, &decoded, &map, from_client);

    for _ in 0..random.pick(&[0, 0, 0, 0, 0, 0, 0, 0, 0, 0, 0, 0, 0, 1, 1, 1, 2]) {
        generate_packet::damage(random, &mut packet);
    }
    if random.below(400) == 0 {
        let length = LONGEST_PACKET + random.index(2);
        packet.resize(length, b'a');
    }
    if random.below(400) == 0 {
        let length = LONGEST_DECODED + random.index(2);
        decoded.resize(length, b'b');
    }
    match random.below(50) {
        0 => damage(random, &mut text),
        1 => text = generate_text::text(random),
        _ => {}
    }
    if random.chance(1) {
        ask = odd_ask(random);
    }
    let side = if from_client { "client" } else { "server" };
    let map = print_map(random, &map);
    let columns =
        format!("{side}\t{}\t{map}\t{}\t{ask}\t", hex(random, &packet), hex(random, &decoded));
    let mut line = [columns.into_bytes(), text].concat();
    if random.chance(1) {
        odd_line(random, &mut line);
    }
    line
}

/// Lists of about 1,000 placements: 10 * 10 * 10, 7 * 11 * 13, 31 * 32 and the like.
fn long_list(random: &mut Random) -> Vec<u8> {
    let counts =
        random.pick(&[[10, 10, 10], [7, 11, 13], [1, 31, 32], [1, 32, 32], [9, 9, 12], [8, 8, 16]]);
    let payload = vec![b'a'; 32];
    let packet = generate_packet::packet_of(random, 253, &payload);
    let [body, banner, file] = counts;
    let map = format!("body:0+{body},banner:1+{banner},file:0+{file}");
    let ask = random.pick(&["all", "all", "first", "(0,0,9)", "(6,10,11)"]);
    let text = "F-SBID(--name \"n\";--protocol 253;--pattern \"a\";--context body;\
        --pattern \"A\";--no_case;--context banner;--pattern \"a\";--context file;)";
    format!("client\t{}\t{map}\t-\t{ask}\t{text}", hex(random, &packet)).into_bytes()
}

pub fn letters(random: &mut Random, alphabet: &[u8], longest: u64) -> Vec<u8> {
    let length = if random.chance(50) {
        random.between(0, longest)
    } else {
        random.between(0, longest.min(12))
    };
    (0..length).map(|_| random.pick(alphabet)).collect()
}

/// Each field absent, whole, a part, empty, at the very end, or past the end.
pub fn map(random: &mut Random, payload: usize, decoded: usize) -> Map {
    let mut map = Map::default();
    for (_, field) in &CONTEXTS[1..] {
        if random.chance(45) {
            continue;
        }
        let in_payload = matches!(field, Field::Body | Field::Banner | Field::File);
        let room = if in_payload { payload } else { decoded };
        let start = random.index(room + 1);
        let (start, length) = match random.below(100) {
            0..=34 => (0, room),
            35..=74 => (start, random.index(room - start + 1)),
            75..=88 => (start, room - start),
            89..=93 => (start, 0),
            94..=98 => (room, 0),
            _ => {
                random.pick(&[(room, 1), (room + 1, 0), (start, room - start + 1), (65535, 65535)])
            }
        };
        map.entries.push((*field, Span { start, length }));
    }
    map
}

/// A table for this message; for one of no length where the message is refused.
pub fn aimed_table(
    random: &mut Random,
    (packet, decoded, map, from_client): (&[u8], &[u8], &Map, bool),
    alphabet: &[u8],
    patterns: usize,
    lengths: &[usize],
) -> Table {
    let whole = Message::new(packet, decoded, map, from_client);
    let bare = Map::default();
    match whole.or_else(|_| Message::new(packet, b"", &bare, from_client)) {
        Ok(message) => generate_aimed::table(random, &message, alphabet, patterns, lengths),
        Err(_) => crate::generate_table::table(random, false),
    }
}

fn ask(
    random: &mut Random,
    table: &Table,
    packet: &[u8],
    decoded: &[u8],
    map: &Map,
    from_client: bool,
) -> String {
    match random.below(100) {
        0..=44 => return "all".to_string(),
        45..=59 => return "first".to_string(),
        _ => {}
    }
    let list = match Message::new(packet, decoded, map, from_client) {
        Ok(message) => placements(table, &message, None, 40),
        Err(_) => Vec::new(),
    };
    let mut earlier = vec![0; table.positive_patterns()];
    if !list.is_empty() {
        earlier = random.pick(&list);
    }
    let near = random.index(earlier.len());
    match (random.below(10), earlier.get_mut(near)) {
        (0, Some(start)) => *start += 1,
        (1, Some(start)) => *start = start.saturating_sub(1),
        (2, Some(start)) => *start = random.pick(&[0, 9, 65536, u64::MAX - 1, u64::MAX]),
        (3, _) => earlier.iter_mut().for_each(|start| *start = random.below(6)),
        (4, _) if random.chance(40) => earlier.resize(random.index(9), 0),
        _ => {}
    }
    print_one(&earlier)
}

fn odd_ask(random: &mut Random) -> String {
    let asks = [
        "(18446744073709551615)",
        "(18446744073709551616)",
        "(1,2,3,4,5,6,7,8)",
        "(1,2,3,4,5,6,7,8,9)",
        "(,)",
        "(1,)",
        "(1, 2)",
        "All",
        "FIRST",
        "",
        "-",
        "(-1)",
        "(1",
        "1)",
        "next",
        "(000000000000000000000000001)",
    ];
    random.pick(&asks).to_string()
}

/// A line of another form, or nearly one.
pub fn odd_line(random: &mut Random, line: &mut Vec<u8>) {
    match random.below(8) {
        0 => line.clear(),
        1 => line[0] = line[0].to_ascii_uppercase(),
        2 => line.insert(7, random.pick(b"0g\t ")),
        3 => {
            let at = random.index(line.len());
            line.truncate(at);
        }
        4 => line.push(b'\r'),
        5 => line.insert(random.index(line.len()), b'\t'),
        6 if random.below(20) == 0 => line.resize(LONGEST_LINE + random.index(2), b' '),
        _ => {
            let at = random.index(line.len());
            line.remove(at);
        }
    }
}

pub fn hex(random: &mut Random, bytes: &[u8]) -> String {
    if bytes.is_empty() {
        return "-".to_string();
    }
    let text: String = bytes.iter().map(|byte| format!("{byte:02x}")).collect();
    if random.chance(30) {
        text.to_ascii_uppercase()
    } else {
        text
    }
}

pub fn print_map(random: &mut Random, map: &Map) -> String {
    if map.entries.is_empty() {
        return "-".to_string();
    }
    let zeros = if random.chance(5) { "00" } else { "" };
    let print = |(field, span): &(Field, Span)| {
        format!("{}:{zeros}{}+{}", word(&CONTEXTS, *field), span.start, span.length)
    };
    let mut entries: Vec<String> = map.entries.iter().map(print).collect();
    random.shuffle(&mut entries);
    if random.below(300) == 0 {
        entries.push(
            random
                .pick(&["uri:0+0", "host:0+65536", "packet:0+1", "Body:0+1", "uri:+1", "uri:1"])
                .to_string(),
        );
    }
    entries.join(",")
}
