//! The list of placements (document 01, "Meaning").
//!
//! Items are taken in text order and starts in rising order, so placements come
//! up in the order of the first start that differs, each once.

use crate::message::Message;
use crate::table::*;
use crate::tests;

/// A positive pattern that lies somewhere.
pub struct Placed {
    pub field: Field,
    pub start: u64,
    pub end: u64,
}

/// The first `most` placements of the list, or of its part behind `earlier`.
pub fn placements(
    table: &Table,
    message: &Message,
    earlier: Option<&[u64]>,
    most: usize,
) -> Vec<Vec<u64>> {
    let mut search = Search { message, earlier, most, placed: Vec::new(), found: Vec::new() };
    let flow = match table.flow {
        None => true,
        Some(flow) => (flow == Flow::FromClient) == message.from_client,
    };
    if table.protocol == u64::from(message.protocol()) && flow {
        search.hold(&table.items);
    }
    search.found
}

struct Search<'a> {
    message: &'a Message<'a>,
    earlier: Option<&'a [u64]>,
    most: usize,
    placed: Vec<Placed>,
    found: Vec<Vec<u64>>,
}

impl Search<'_> {
    /// Goes on with the items left, those before them holding as placed.
    fn hold(&mut self, items: &[Item]) {
        if self.found.len() >= self.most || self.below_earlier() {
            return;
        }
        let Some((item, left)) = items.split_first() else {
            if self.behind_earlier() {
                self.found.push(self.starts());
            }
            return;
        };
        match item {
            Item::Test(test) => {
                if tests::holds(test, self.message, self.placed.last()) {
                    self.hold(left);
                }
            }
            Item::Pattern(pattern) => {
                // Negated or not, on an absent field a pattern doesn't hold.
                let Some(field) = self.message.field(pattern.context) else { return };
                let end = self.placed.last().map(|placed| placed.end);
                let starts = lies_at(pattern, field, end);
                if pattern.negated {
                    if starts.is_empty() {
                        self.hold(left);
                    }
                } else {
                    self.place(pattern, &starts, left);
                }
            }
        }
    }

    /// Tries each start of a positive pattern, not only its first.
    fn place(&mut self, pattern: &Pattern, starts: &[u64], left: &[Item]) {
        for start in starts {
            let end = start + pattern.bytes.len() as u64;
            self.placed.push(Placed { field: pattern.context, start: *start, end });
            self.hold(left);
            self.placed.pop();
        }
    }

    fn starts(&self) -> Vec<u64> {
        self.placed.iter().map(|placed| placed.start).collect()
    }

    /// Nothing that begins with these starts can lie behind the earlier placement.
    fn below_earlier(&self) -> bool {
        let starts = self.placed.iter().map(|placed| placed.start);
        self.earlier
            .is_some_and(|earlier| starts.lt(earlier.iter().copied().take(self.placed.len())))
    }

    fn behind_earlier(&self) -> bool {
        self.earlier.is_none_or(|earlier| self.starts().as_slice() > earlier)
    }
}

/// Every start at which a pattern lies in its window, in rising order;
/// `last_end` is the end of the last positive pattern before, if there is one.
pub fn lies_at(pattern: &Pattern, field: &[u8], last_end: Option<u64>) -> Vec<u64> {
    let (from, end) = window(pattern, field.len() as i64, last_end);
    let count = pattern.bytes.len() as i64;
    // At least 0 and s: a negative s is raised only after `within` was added.
    let starts = from.max(0)..=end - count;
    let equal = |p: &i64| {
        let bytes = &field[*p as usize..(*p + count) as usize];
        bytes == pattern.bytes || pattern.no_case && bytes.eq_ignore_ascii_case(&pattern.bytes)
    };
    starts.filter(equal).map(|p| p as u64).collect()
}

/// The window from s to its end, in signed numbers; the end is at most L.
pub fn window(pattern: &Pattern, length: i64, last_end: Option<u64>) -> (i64, i64) {
    let distance = pattern.distance.map(|distance| distance.reference);
    let within = pattern.within.map(|within| within.reference);
    // Where both are given they are alike.
    let Some(reference) = distance.or(within) else {
        return (0, length); // with neither range
    };
    let r = match reference {
        Reference::Match => last_end.unwrap_or(0) as i64,
        Reference::Packet | Reference::Context => 0,
    };
    let s = match pattern.distance {
        None => r,
        Some(distance) if distance.reverse => length - distance.amount,
        Some(distance) => r + distance.amount,
    };
    let end = match pattern.within {
        None => length,
        Some(within) => length.min(s + within.amount),
    };
    (s, end)
}
