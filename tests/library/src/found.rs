//! What a run of cases found: the answers by number, and the differences.

use std::collections::BTreeMap;

/// So many differences of a section are told whole, those of the lowest numbers.
const TOLD: usize = 3;

/// The greatest refusal.
const REFUSALS: usize = 18;

/// How many calls have each expected answer: accepted, then by refusal.
#[derive(Clone, Debug, Default)]
pub struct Answers([u64; REFUSALS + 1]);

impl Answers {
    pub fn add(&mut self, expected: i64) {
        self.0[(-expected.min(0)) as usize] += 1;
    }

    pub fn merge(&mut self, other: &Answers) {
        self.0.iter_mut().zip(other.0).for_each(|(own, more)| *own += more);
    }

    pub fn accepted(&self) -> u64 {
        self.0[0]
    }

    pub fn refused(&self, refusal: usize) -> u64 {
        self.0[refusal]
    }

    pub fn text(&self) -> String {
        let mut text = format!("{} calls, accepted {}", self.0.iter().sum::<u64>(), self.0[0]);
        for (refusal, count) in self.0.iter().enumerate().skip(1).filter(|(_, count)| **count > 0) {
            text += &format!(", refused {refusal}: {count}");
        }
        text
    }
}

#[derive(Debug, Default)]
pub struct Found {
    pub cases: u64,
    pub answers: Answers,
    pub differences: u64,
    /// The texts of the first differences, by the number of the case.
    told: BTreeMap<u64, String>,
}

impl Found {
    /// Enters a case and what differs in it.
    pub fn add(&mut self, case: u64, answers: &Answers, outcome: Result<(), String>) {
        self.cases += 1;
        self.answers.merge(answers);
        if let Err(text) = outcome {
            self.differences += 1;
            self.tell(case, text);
        }
    }

    fn tell(&mut self, case: u64, text: String) {
        self.told.insert(case, text);
        if self.told.len() > TOLD {
            self.told.pop_last();
        }
    }

    pub fn merge(&mut self, other: Found) {
        self.cases += other.cases;
        self.answers.merge(&other.answers);
        self.differences += other.differences;
        other.told.into_iter().for_each(|(case, text)| self.tell(case, text));
    }

    /// The first differences, each with the command that repeats its case.
    pub fn text(&self, section: &str, seed: u64) -> String {
        let one = |(case, text): (&u64, &String)| {
            format!(
                "DIFFERENCE in case {case} of {section}, seed {seed}\n\
                 again: library case {section} {case} {seed}\n{text}\n"
            )
        };
        self.told.iter().map(one).collect()
    }
}
