//! Refusals: damaged plans, buffers of wrong lengths, spare bits set; among them calls that are accepted.

use crate::calls::Library;
use crate::found::Found;
use crate::lent::junk;
use crate::owners::FAR;
use crate::subject::{number, Subject};
use judge::generate::{
    commands, damage, damaged_plan, gridcount_case, right_payload, spare_set, wrong_length, Fixed, Random,
    HIS, USERS,
};
use judge::{check, payload_length};
use std::ops::Range;

/// The fixed fields; most cells are narrow, since the judge is slow on wide ones.
pub fn narrow(random: &mut Random) -> Fixed {
    let mut fixed = Fixed::random(random);
    if !random.one_in(16) {
        fixed.blocks = random.pick(&[6, 15, 25]);
    }
    fixed.fitted()
}

/// An accepted plan of a narrow cell, as the list of its commands.
fn accepted(random: &mut Random) -> Vec<Vec<u8>> {
    let fixed = narrow(random);
    let (how_his, how_users) = (random.pick(&HIS), random.pick(&USERS));
    commands(random, &fixed, how_his, how_users)
}

/// Bytes without sense, some behind CELL and FRAME.
fn raw(random: &mut Random) -> Vec<u8> {
    let head = if random.one_in(2) { narrow(random).commands().concat() } else { vec![] };
    let length = random.below(24);
    [head, random.bytes(length)].concat()
}

/// The plan of an input of gridcount; the longest ones have 65,535 bytes.
fn of_gridcount(random: &mut Random) -> Vec<u8> {
    let case = random.below(128) as u64;
    let input = gridcount_case(random.number(), case);
    let Some((length, rest)) = input.split_first_chunk() else { return input };
    rest[..rest.len().min(usize::from(u16::from_be_bytes(*length)))].to_vec()
}

fn plan(random: &mut Random) -> Vec<u8> {
    match random.below(20) {
        0..=8 => {
            let list = accepted(random);
            damage(random, &list)
        }
        9 => damaged_plan(random),
        10 => raw(random),
        11 => of_gridcount(random),
        _ => accepted(random).concat(),
    }
}

/// A buffer's length: the right one in about half of the cases.
fn some_length(random: &mut Random, right: usize) -> usize {
    if random.one_in(2) {
        return right;
    }
    random.pick(&[0, 1, 36, right / 2, right.saturating_sub(1), right + 1, right + 3, right + 36, 2 * right])
}

/// A payload for build: right, of a wrong length, or with a spare bit set. Any bytes for a refused plan.
fn some_payload(random: &mut Random, plan: &[u8]) -> Vec<u8> {
    let Some(right) = right_payload(random, plan) else {
        let length = random.below(100);
        return random.bytes(length);
    };
    match random.below(8) {
        0..=2 => wrong_length(random, &right),
        3..=5 => spare_set(random, plan).unwrap_or(right),
        _ => right,
    }
}

/// A number below a limit or a little above it, or one far outside.
fn about(random: &mut Random, limit: usize) -> usize {
    if random.one_in(16) {
        random.pick(&FAR)
    } else {
        random.below(limit + 1 + limit / 8)
    }
}

/// The calls that take nothing but the plan and numbers.
fn queries(subject: &mut Subject, random: &mut Random, plan: &[u8]) -> Result<(), String> {
    let checked = check(plan);
    subject.check(number(&checked, |_| 0))?;
    subject.grid_len(number(&judge::grid_length(plan), |length| *length))?;
    subject.payload_len(number(&payload_length(plan), |length| *length))?;
    let [symbols, subcarriers, ports] =
        checked.map_or([14, 180, 1], |plan| [plan.cell.symbols(), plan.cell.subcarriers(), plan.cell.ports]);
    let [s, k, port] = [about(random, symbols), about(random, subcarriers), about(random, ports)];
    subject.owner(s, k, port, number(&judge::owner(plan, s, k, port), |owner| usize::from(*owner)))?;
    let kind = about(random, 9);
    subject.count(kind, number(&judge::counts(plan), |counts| counts.get(kind).copied().unwrap_or(0)))
}

/// Build with some payload and grid; read of what was built or of junk, into a payload of some length.
fn transfers(subject: &mut Subject, random: &mut Random, plan: &[u8]) -> Result<(), String> {
    let right_grid = judge::grid_length(plan).unwrap_or(36);
    let payload = some_payload(random, plan);
    let length = some_length(random, right_grid);
    let built = judge::build(plan, &payload, length);
    subject.build(&payload, length, &built)?;

    let mut grid = match built {
        Ok((grid, _)) => grid,
        Err(_) => junk(right_grid, random.number()),
    };
    grid.resize(some_length(random, right_grid), random.byte());
    let length = some_length(random, payload_length(plan).unwrap_or(payload.len()));
    subject.read(&grid, length, &judge::read(plan, &grid, length))
}

pub fn run(library: &Library, seed: u64, cases: Range<u64>, found: &mut Found) {
    for case in cases {
        let mut random = Random::of_case(seed, case);
        let plan = plan(&mut random);
        let mut subject = Subject::new(library, &plan, case);
        let outcome = queries(&mut subject, &mut random, &plan)
            .and_then(|()| transfers(&mut subject, &mut random, &plan));
        found.add(case, &subject.answers, subject.told(outcome));
    }
}
