//! A byte test judged in a second way, digit by digit; other tests as ever.

use crate::message::Message;
use crate::search::Placed;
use crate::table::*;
use crate::tests;

pub fn holds(test: &Test, message: &Message, last: Option<&Placed>) -> bool {
    let Test::ByteTest { count, compare, value, offset, relative, little } = test else {
        return tests::holds(test, message, last);
    };
    let (field, start) = match last {
        Some(last) if *relative => (message.field(last.field), last.end + offset),
        _ => (Some(message.payload), *offset),
    };
    let Some(field) = field else { return false };
    let mut pairs: Vec<String> = Vec::new();
    for place in start..start + count {
        let Some(byte) = field.get(place as usize) else { return false };
        pairs.push(format!("{byte:02x}"));
    }
    if *little {
        pairs.reverse();
    }
    // Numbers of eight digits each stand to one another as their digits do.
    let there = format!("{:0>8}", pairs.concat());
    let wanted = format!("{value:08x}");
    match compare {
        Compare::Greater => there > wanted,
        Compare::Less => there < wanted,
        Compare::Equal => there == wanted,
        Compare::NotEqual => there != wanted,
        Compare::LessOrEqual | Compare::GreaterOrEqual => false,
    }
}
