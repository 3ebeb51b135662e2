//! Reading a text into its table (document 01, "Text", "Numbers of refusal").
//!
//! Order: 1, 2, 3; then options left to right, the first bad one deciding,
//! with its lowest number among 4 to 9 and 11; then 10 by pattern; then 12.
//! The places of 6 and 7 are those of document 02, T-02.

use crate::limits::{LONGEST_TEXT, MOST_ADDRESSES, MOST_PATTERNS, MOST_TESTS};
use crate::reference::usable;
use crate::scan::Scan;
use crate::table::*;
use crate::value::{parse, Parsed, Wrong};
use crate::words::{meaning, OPTIONS};

#[derive(Clone, Copy, Debug, PartialEq, Eq)]
pub struct Refusal {
    pub number: u8,
    /// Counted from 0, the text's first byte.
    pub place: usize,
}

const OPENING: &[u8] = b"F-SBID(";

fn refuse<T>(number: u8, place: usize) -> Result<T, Refusal> {
    Err(Refusal { number, place })
}

pub fn read(text: &[u8]) -> Result<Table, Refusal> {
    if text.is_empty() || text.len() > LONGEST_TEXT {
        return refuse(1, 0);
    }
    if let Some(place) = text.iter().position(|byte| !(0x20..=0x7E).contains(byte)) {
        return refuse(2, place);
    }
    if !text.starts_with(OPENING) {
        return refuse(3, 0);
    }
    let mut draft = Draft::default();
    let mut at = OPENING.len();
    loop {
        at += text[at..].iter().take_while(|byte| **byte == b' ').count();
        let rest = &text[at..];
        if rest == b")" {
            break;
        }
        if rest.starts_with(b")") {
            return refuse(4, at + 1);
        }
        if !rest.starts_with(b"--") {
            return refuse(4, at);
        }
        at = draft.option(text, at)?;
    }
    draft.judge_references()?;
    match (draft.name, draft.protocol) {
        (Some(name), Some(protocol)) => {
            Ok(Table { name, protocol, flow: draft.flow, items: draft.items })
        }
        _ => refuse(12, text.len()),
    }
}

/// What the options so far have given.
#[derive(Default)]
struct Draft {
    name: Option<Vec<u8>>,
    protocol: Option<u64>,
    flow: Option<Flow>,
    items: Vec<Item>,
    /// The first dash of each pattern.
    places: Vec<usize>,
    /// A spelled-out `context packet` counts as given for 8.
    context_given: bool,
}

impl Draft {
    /// Takes the option whose first dash is at `dash`; returns the place after its `;`.
    fn option(&mut self, text: &[u8], dash: usize) -> Result<usize, Refusal> {
        let mut scan = Scan::new(text, dash + 2);
        let name = scan.run(|byte| byte.is_ascii_alphanumeric() || matches!(byte, b'_' | b'.'));
        let Some(option) = meaning(&OPTIONS, name) else {
            return refuse(5, dash);
        };
        match parse(option, &mut scan) {
            Ok(parsed) => self.add(parsed, dash).or_else(|number| refuse(number, dash))?,
            Err(Wrong::Form(place)) => return refuse(6, place),
            Err(Wrong::Limit(place)) => return refuse(7, place),
        }
        Ok(scan.at())
    }

    /// Adds an option of the right form, or says 8, 9 or 11.
    fn add(&mut self, parsed: Parsed, dash: usize) -> Result<(), u8> {
        match parsed {
            Parsed::Name(name) => once(&mut self.name, name),
            Parsed::Protocol(protocol) => once(&mut self.protocol, protocol),
            Parsed::Flow(flow) => once(&mut self.flow, flow),
            Parsed::Pattern { negated, bytes } => self.add_pattern(negated, bytes, dash),
            Parsed::Test(test) => self.add_test(test),
            Parsed::Context(field) => {
                let given = self.context_given;
                let pattern = self.last_pattern()?;
                if given {
                    return Err(8);
                }
                pattern.context = field;
                self.context_given = true;
                Ok(())
            }
            Parsed::NoCase => {
                let pattern = self.last_pattern()?;
                if pattern.no_case {
                    return Err(8);
                }
                pattern.no_case = true;
                Ok(())
            }
            Parsed::Distance(distance) => once(&mut self.last_pattern()?.distance, distance),
            Parsed::Within(within) => once(&mut self.last_pattern()?.within, within),
        }
    }

    fn add_pattern(&mut self, negated: bool, bytes: Vec<u8>, dash: usize) -> Result<(), u8> {
        if self.patterns() == MOST_PATTERNS {
            return Err(11);
        }
        self.places.push(dash);
        self.context_given = false;
        self.items.push(Item::Pattern(Pattern {
            negated,
            bytes,
            context: Field::Packet,
            no_case: false,
            distance: None,
            within: None,
        }));
        Ok(())
    }

    fn add_test(&mut self, test: Test) -> Result<(), u8> {
        let tests = self.items.len() - self.patterns();
        let ninth_address =
            matches!(&test, Test::Address { list, .. } if list.len() > MOST_ADDRESSES);
        if tests == MOST_TESTS || ninth_address {
            return Err(11);
        }
        self.items.push(Item::Test(test));
        Ok(())
    }

    fn patterns(&self) -> usize {
        self.items.iter().filter(|item| matches!(item, Item::Pattern(_))).count()
    }

    /// The nearest pattern before a modifier; other options don't part them.
    fn last_pattern(&mut self) -> Result<&mut Pattern, u8> {
        let patterns = self.items.iter_mut().filter_map(|item| match item {
            Item::Pattern(pattern) => Some(pattern),
            Item::Test(_) => None,
        });
        patterns.last().ok_or(9)
    }

    /// Number 10, judged on each pattern's final modifiers.
    fn judge_references(&self) -> Result<(), Refusal> {
        let mut last_positive = None;
        let mut places = self.places.iter();
        for item in &self.items {
            if let Item::Pattern(pattern) = item {
                let place = places.next().copied().unwrap_or(0);
                if !usable(pattern, last_positive) {
                    return refuse(10, place);
                }
                if !pattern.negated {
                    last_positive = Some(pattern.context);
                }
            }
        }
        Ok(())
    }
}

fn once<T>(slot: &mut Option<T>, value: T) -> Result<(), u8> {
    if slot.is_some() {
        return Err(8);
    }
    *slot = Some(value);
    Ok(())
}
