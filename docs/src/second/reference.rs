//! The four causes of refusal 10 (document 01, below the table of refusals).

use crate::table::{Field, Pattern, Reference};

/// Whether a pattern's references can be used; `last_positive` is the context of
/// the last positive pattern before it, if there is one.
pub fn usable(pattern: &Pattern, last_positive: Option<Field>) -> bool {
    let references = pattern.references();
    let packet_elsewhere =
        references.contains(&Reference::Packet) && pattern.context != Field::Packet;
    // Compared by name; a reference left out counts as `match`.
    let unlike = references.iter().any(|reference| *reference != references[0]);
    let bad_reverse = pattern.distance.is_some_and(|distance| {
        distance.reverse && (distance.reference == Reference::Match || distance.amount < 0)
    });
    let match_elsewhere = references.contains(&Reference::Match)
        && last_positive.is_some_and(|context| context != pattern.context);
    !packet_elsewhere && !unlike && !bad_reverse && !match_elsewhere
}
