//! The decision of a book (document 02, T-03).

use crate::book::{read_book, Refused, Rule};
use crate::message::{Map, Message};
use crate::search::placements;

#[derive(Clone, Copy, Debug, PartialEq, Eq)]
pub struct Decision {
    pub pass: bool,
    /// The deciding rule's number, 0 if none decides.
    pub rule: u16,
}

pub const HOLD: Decision = Decision { pass: false, rule: 0 };

/// The book is judged before the packet; a packet refused with 30 to 35 is held.
pub fn decide(
    book: &[u8],
    packet: &[u8],
    decoded: &[u8],
    map: &Map,
    from_client: bool,
) -> Result<Decision, Refused> {
    let rules = read_book(book)?;
    let Ok(message) = Message::new(packet, decoded, map, from_client) else {
        return Ok(HOLD);
    };
    let has_placement = |rule: &Rule| !placements(&rule.table, &message, None, 1).is_empty();
    Ok(first_of(&rules, has_placement))
}

/// Numbers rise, so the first that decides is the lowest.
pub fn first_of(rules: &[Rule], has_placement: impl Fn(&Rule) -> bool) -> Decision {
    let deciding = rules.iter().find(|rule| rule.on && has_placement(rule));
    deciding.map_or(HOLD, |rule| Decision { pass: rule.pass, rule: rule.number })
}
