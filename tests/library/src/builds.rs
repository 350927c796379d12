//! Builds and reads: every combination of the fixed fields in turn, with HIs and users of every sort.

use crate::calls::Library;
use crate::found::Found;
use crate::subject::{number, Subject};
use judge::generate::{commands, right_payload, Fixed, Random, Users, COMBINATIONS, HIS, USERS};
use judge::read::Reader;
use std::ops::Range;

/// Case number `case`: an accepted plan and its payload.
fn plan_and_payload(seed: u64, case: u64) -> (Vec<u8>, Vec<u8>) {
    let mut random = Random::of_case(seed, case);
    let any = Fixed::random(&mut random);
    // 1801 has no divisor in common with the number of combinations.
    let at = seed.wrapping_add(case.wrapping_mul(1801)) % COMBINATIONS as u64;
    let mut fixed = Fixed::combination(at as usize, any.identity, any.frame);
    let mut how_users = random.pick(&USERS);
    if random.one_in(16) {
        // The only plans with null symbols have a user of one block at an edge of the centre 72.
        fixed =
            Fixed { blocks: random.pick(&[15, 25, 75]), prefix: 1, ports: 4, subframe: 0, ..fixed }.fitted();
        how_users = Users::Edge;
    }
    let how_his = random.pick(&HIS);
    let plan = commands(&mut random, &fixed, how_his, how_users).concat();
    let payload = right_payload(&mut random, &plan).expect("an accepted plan");
    (plan, payload)
}

fn compare(subject: &mut Subject, plan: &[u8], payload: &[u8]) -> Result<(), String> {
    let grid_length = judge::grid_length(plan).expect("an accepted plan");
    subject.check(0)?;
    subject.grid_len(grid_length as i64)?;
    subject.payload_len(number(&judge::payload_length(plan), |length| *length))?;
    let built = judge::build(plan, payload, grid_length);
    subject.build(payload, grid_length, &built)?;
    let (grid, count) = built.expect("an accepted payload");
    let read = Reader::new(plan).expect("an accepted plan").read(&grid, payload.len());
    assert_eq!(read, Ok((payload.to_vec(), count)), "the judge reads back what it built");
    subject.read(&grid, payload.len(), &read)
}

pub fn run(library: &Library, seed: u64, cases: Range<u64>, found: &mut Found) {
    for case in cases {
        let (plan, payload) = plan_and_payload(seed, case);
        let mut subject = Subject::new(library, &plan, case);
        let outcome = compare(&mut subject, &plan, &payload);
        found.add(case, &subject.answers, subject.told(outcome));
    }
}
