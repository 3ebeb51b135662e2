//! Decisions: a message and a book of rules, many of them aimed at it, as one line.

use crate::generate_aimed::SHORT;
use crate::generate_book::{book, simple};
use crate::generate_case::{aimed_table, hex, letters, map, odd_line, print_map};
use crate::generate_long;
use crate::generate_packet;
use crate::generate_table;
use crate::limits::{LONGEST_DECODED, LONGEST_PACKET};
use crate::message::Message;
use crate::random::Random;
use crate::reader::read;
use crate::search::placements;
use crate::spell::Spell;

const ALPHABETS: [&[u8]; 5] = [b"ab", b"abX", b"aAb", b"aB\0", b"a[{"];

pub fn decision(random: &mut Random) -> Vec<u8> {
    let alphabet = random.pick(&ALPHABETS);
    let long = random.chance(4);
    let (payload, mut decoded) = if long {
        generate_long::fields(random, alphabet)
    } else {
        (letters(random, alphabet, 20), letters(random, alphabet, 20))
    };
    let mut packet = generate_packet::packet(random, &payload);
    let map = map(random, payload.len(), decoded.len());
    let from_client = random.chance(50);
    // In so many of a hundred a rule should not be met, so that a middle one or the last decides.
    let unmet = random.pick(&[10, 40, 70, 90]);
    let book = book(random, |random| {
        for _ in 0..20 {
            let mut drawn = (random.pick(&[0, 0, 1, 1, 1, 2, 2, 3]), SHORT);
            if long {
                drawn = generate_long::patterns(random);
            }
            let (patterns, lengths) = drawn;
            let message = (&packet[..], &decoded[..], &map, from_client);
            let mut table = aimed_table(random, message, alphabet, patterns, lengths);
            if random.chance(8) {
                table = generate_table::table(random, false);
            }
            let compact = random.chance(if long { 90 } else { 60 });
            let mut spell = if compact { Spell::compact(random) } else { Spell::any(random) };
            let text = spell.text(&table);
            let met = Message::new(&packet, &decoded, &map, from_client)
                .is_ok_and(|message| !placements(&table, &message, None, 1).is_empty());
            let wanted = !random.chance(unmet);
            // A refused message meets nothing: any text will do.
            if read(&text).is_ok() && (met == wanted || random.chance(15)) {
                return text;
            }
        }
        simple(random.pick(&[6, 6, 17, 1]))
    });
    for _ in 0..random.pick(&[0, 0, 0, 0, 0, 0, 0, 0, 1, 2]) {
        generate_packet::damage(random, &mut packet);
    }
    if random.below(200) == 0 {
        packet.resize(LONGEST_PACKET + random.index(2), b'a');
    }
    if random.below(200) == 0 {
        decoded.resize(LONGEST_DECODED + random.index(2), b'b');
    }
    let side = if from_client { "client" } else { "server" };
    let map = print_map(random, &map);
    let (packet, decoded) = (hex(random, &packet), hex(random, &decoded));
    let columns = format!("{side}\t{packet}\t{map}\t{decoded}\t{}", hex(random, &book));
    let mut line = columns.into_bytes();
    if random.chance(1) {
        odd_line(random, &mut line);
    }
    line
}
