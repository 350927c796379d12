//! Samples: every string of three bytes. A case's number is the three bytes, the unit's first.

use crate::calls::Library;
use crate::found::{Answers, Found};
use judge::sample::sample_numbers;
use std::ops::Range;

pub const TRIPLES: u64 = 1 << 24;

fn compare(library: &Library, [byte, i, j]: [u8; 3], answers: &mut Answers) -> Result<(), String> {
    let expected = sample_numbers(byte, i, j);
    // SAFETY: the calls take plain bytes.
    let answer = unsafe {
        [(library.sample_kind)(byte, i, j), (library.sample_i)(byte, i, j), (library.sample_j)(byte, i, j)]
    };
    expected.iter().for_each(|number| answers.add(*number));
    if answer == expected {
        return Ok(());
    }
    let told = |[kind, i, j]: [i64; 3]| format!("kind {kind}, I {i} ({i:x}), J {j} ({j:x})");
    Err(format!(
        "sample of {byte:02x} {i:02x} {j:02x}\nexpected {}\nfound    {}",
        told(expected),
        told(answer)
    ))
}

pub fn run(library: &Library, _: u64, cases: Range<u64>, found: &mut Found) {
    for case in cases {
        let [.., byte, i, j] = case.to_be_bytes();
        let mut answers = Answers::default();
        let outcome = compare(library, [byte, i, j], &mut answers);
        found.add(case, &answers, outcome);
    }
}
