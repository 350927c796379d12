//! A plan under test: each call's answer, buffers and guards against what the judge expects.

use crate::calls::{Library, OfPlan, Transfer};
use crate::found::Answers;
use crate::lent::{junk, Lent, SHIFTS};
use judge::harness::hex;
use judge::Refusal;
use std::fmt::Arguments;

/// The number that stands for an answer: the value, or minus the refusal's number.
pub fn number<T>(answer: &Result<T, Refusal>, value: impl Fn(&T) -> usize) -> i64 {
    match answer {
        Ok(answer) => value(answer) as i64,
        Err(refusal) => -i64::from(*refusal),
    }
}

/// What build and read give: the filled bytes and the count of user elements.
pub type Filled = Result<(Vec<u8>, usize), Refusal>;

pub struct Subject<'a> {
    library: &'a Library,
    plan: &'a [u8],
    lent: Lent,
    /// Gives the next buffer its distance from an aligned address, and its junk.
    turn: u64,
    pub answers: Answers,
}

impl<'a> Subject<'a> {
    /// The plan, lent for all calls of a case.
    pub fn new(library: &'a Library, plan: &'a [u8], case: u64) -> Subject<'a> {
        let lent = Lent::new(plan, case as usize % SHIFTS);
        Subject { library, plan, lent, turn: case.wrapping_mul(2531), answers: Answers::default() }
    }

    /// What differs, behind the plan.
    pub fn told(&self, outcome: Result<(), String>) -> Result<(), String> {
        outcome.map_err(|text| format!("plan: {}\n{text}", hex(self.plan)))
    }

    fn lend(&mut self, content: &[u8]) -> Lent {
        self.turn = self.turn.wrapping_mul(5).wrapping_add(3);
        Lent::new(content, self.turn as usize % SHIFTS)
    }

    /// The answer is the expected one and the plan is as it was.
    fn answered(&mut self, call: Arguments, answer: i64, expected: i64) -> Result<(), String> {
        self.answers.add(expected);
        if answer != expected {
            return Err(format!("{call}: expected {expected}, found {answer}"));
        }
        self.lent.holds("plan", self.plan).map_err(|text| format!("{call}: {text}"))
    }

    fn of_plan(&mut self, call: OfPlan, name: &str, expected: i64) -> Result<(), String> {
        // SAFETY: the plan is lent with its length.
        let answer = unsafe { call(self.lent.pointer(), self.lent.length()) };
        self.answered(format_args!("{name}"), answer, expected)
    }

    pub fn check(&mut self, expected: i64) -> Result<(), String> {
        self.of_plan(self.library.check, "check", expected)
    }

    pub fn grid_len(&mut self, expected: i64) -> Result<(), String> {
        self.of_plan(self.library.grid_len, "grid_len", expected)
    }

    pub fn payload_len(&mut self, expected: i64) -> Result<(), String> {
        self.of_plan(self.library.payload_len, "payload_len", expected)
    }

    pub fn owner(&mut self, s: usize, k: usize, port: usize, expected: i64) -> Result<(), String> {
        // SAFETY: the plan is lent with its length.
        let answer = unsafe { (self.library.owner)(self.lent.pointer(), self.lent.length(), s, k, port) };
        self.answered(format_args!("owner of s {s}, k {k}, port {port}"), answer, expected)
    }

    pub fn count(&mut self, kind: usize, expected: i64) -> Result<(), String> {
        // SAFETY: the plan is lent with its length.
        let answer = unsafe { (self.library.count)(self.lent.pointer(), self.lent.length(), kind) };
        self.answered(format_args!("count of kind {kind}"), answer, expected)
    }

    /// Builds into a grid of so many bytes of junk.
    pub fn build(&mut self, payload: &[u8], grid_length: usize, expected: &Filled) -> Result<(), String> {
        self.transfer(self.library.build, ["build", "payload", "grid"], payload, grid_length, expected)
    }

    /// Reads into a payload of so many bytes of junk.
    pub fn read(&mut self, grid: &[u8], payload_length: usize, expected: &Filled) -> Result<(), String> {
        self.transfer(self.library.read, ["read", "grid", "payload"], grid, payload_length, expected)
    }

    /// The filled buffer has every expected byte, or on refusal the junk of before; what is given stays.
    fn transfer(
        &mut self,
        call: Transfer,
        [name, name_given, name_filled]: [&str; 3],
        given: &[u8],
        length: usize,
        expected: &Filled,
    ) -> Result<(), String> {
        let before = junk(length, self.turn);
        let (lent, mut filled) = (self.lend(given), self.lend(&before));
        let (pointer, to_fill) = (lent.pointer(), filled.pointer_to_fill());
        // SAFETY: three buffers apart from each other, each lent with its length.
        let answer =
            unsafe { call(self.lent.pointer(), self.lent.length(), pointer, given.len(), to_fill, length) };
        self.answered(format_args!("{name}"), answer, number(expected, |(_, count)| *count))?;
        let after = expected.as_ref().map_or(&before, |(bytes, _)| bytes);
        let kept = lent.holds(name_given, given).and_then(|()| filled.holds(name_filled, after));
        kept.map_err(|text| format!("{name}, answer {answer}: {text}"))
    }
}
