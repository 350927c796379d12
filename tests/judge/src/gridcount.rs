//! The program gridcount's output (document 01, "Known elements").

use crate::owners::{layout, KINDS};
use crate::payload::Sections;
use crate::plan::{check, Refusal, PAYLOAD_LENGTH, SPARE_BIT, UNKNOWN_OR_SHORT};

/// "a two-byte plan length, plan, payload": the counts, or "the plan's, 11 or 12".
pub fn gridcount_counts(input: &[u8]) -> Result<[usize; 9], Refusal> {
    // "an input without both length bytes, or with a plan shorter than they say, is 1 before any other check".
    let [high, low, rest @ ..] = input else { return Err(UNKNOWN_OR_SHORT) };
    let length = 256 * usize::from(*high) + usize::from(*low);
    if rest.len() < length {
        return Err(UNKNOWN_OR_SHORT);
    }
    let (plan, payload) = rest.split_at(length);
    let plan = check(plan)?;
    let layout = layout(&plan);
    let sections = Sections::new(&plan, &layout);
    if payload.len() != sections.length {
        return Err(PAYLOAD_LENGTH);
    }
    if sections.spare_bit_set(payload) {
        return Err(SPARE_BIT);
    }
    Ok(layout.counts())
}

/// The text that gridcount prints.
pub fn gridcount(input: &[u8]) -> String {
    match gridcount_counts(input) {
        Ok(counts) => KINDS.iter().zip(counts).map(|(name, count)| format!("{name} {count}\n")).collect(),
        Err(refusal) => format!("refused {refusal}\n"),
    }
}
