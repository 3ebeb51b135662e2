//! Whether a table has a placement, as quickly as plain code goes: tables are made ready
//! once, and nothing is listed.

use crate::message::Message;
use crate::pattern_find::Finder;
use crate::search::{window, Placed};
use crate::table::*;
use crate::tests;

pub struct Ready {
    protocol: u64,
    /// Whether it must come from the client, where flow is given.
    from_client: Option<bool>,
    items: Vec<ReadyItem>,
}

enum ReadyItem {
    Test(Test),
    Pattern(Pattern, Finder),
}

impl Ready {
    pub fn new(table: &Table) -> Ready {
        let ready = |item: &Item| match item {
            Item::Test(test) => ReadyItem::Test(test.clone()),
            Item::Pattern(pattern) => {
                let finder = Finder::new(&pattern.bytes, pattern.no_case);
                ReadyItem::Pattern(pattern.clone(), finder)
            }
        };
        Ready {
            protocol: table.protocol,
            from_client: table.flow.map(|flow| flow == Flow::FromClient),
            items: table.items.iter().map(ready).collect(),
        }
    }

    pub fn has_placement(&self, message: &Message) -> bool {
        self.protocol == u64::from(message.protocol())
            && self.from_client.is_none_or(|client| client == message.from_client)
            && hold(&self.items, message, None)
    }
}

/// Whether the items left can be met, `last` being the last positive pattern before them.
fn hold(items: &[ReadyItem], message: &Message, last: Option<&Placed>) -> bool {
    let Some((item, left)) = items.split_first() else {
        return true;
    };
    match item {
        ReadyItem::Test(test) => tests::holds(test, message, last) && hold(left, message, last),
        ReadyItem::Pattern(pattern, finder) => {
            let Some(field) = message.field(pattern.context) else { return false };
            let (from, end) = window(pattern, field.len() as i64, last.map(|placed| placed.end));
            // A negative start is raised only here, `within` being added already.
            let (from, end) = (from.max(0) as usize, end.max(0) as usize);
            if pattern.negated {
                return finder.find(field, from, end).is_none() && hold(left, message, last);
            }
            place(pattern, finder, (field, from, end), left, message)
        }
    }
}

/// Tries each start of a positive pattern in its window, not only the first.
fn place(
    pattern: &Pattern,
    finder: &Finder,
    (field, mut from, end): (&[u8], usize, usize),
    left: &[ReadyItem],
    message: &Message,
) -> bool {
    while let Some(start) = finder.find(field, from, end) {
        let stop = (start + pattern.bytes.len()) as u64;
        let placed = Placed { field: pattern.context, start: start as u64, end: stop };
        if hold(left, message, Some(&placed)) {
            return true;
        }
        from = start + 1;
    }
    false
}
