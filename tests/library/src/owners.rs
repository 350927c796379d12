//! Owners and counts: every N, prefix, P, g, CFI and PHICH duration in subframes 0, 1 and 5, each with identities of
//! every residue modulo 6 and twenty others; every place, every kind, and queries outside.

use crate::calls::Library;
use crate::found::Found;
use crate::subject::{number, Subject};
use judge::generate::{commands, Fixed, His, Random, Users, HIS, LONG_REGIONS};
use judge::owners::{layout, Layout};
use judge::plan::{check, Cell, OUTSIDE_GRID, WIDTHS};
use judge::Place;
use std::ops::Range;

const PORTS: [usize; 3] = [1, 2, 4];
const SIXTHS: [usize; 4] = [1, 3, 6, 12];
const SUBFRAMES: [usize; 3] = [0, 1, 5];
const RESIDUES: usize = 6;
const OTHERS: usize = 20;

/// Prefix, P, g, f.
const OF_REGION: usize = 2 * PORTS.len() * SIXTHS.len() * SUBFRAMES.len();

/// With N and CFI of the normal PHICH duration, then with those of the extended one.
const NORMAL: usize = WIDTHS.len() * 3 * OF_REGION;
const SETTINGS: usize = NORMAL + LONG_REGIONS.len() * OF_REGION;

/// The plans of this section.
pub const PLANS: u64 = (SETTINGS * (RESIDUES + OTHERS)) as u64;

/// The identities of a setting: one of each residue modulo 6, then twenty others.
fn identities(random: &mut Random) -> Vec<usize> {
    let mut all: Vec<usize> = (0..504).collect();
    random.shuffle(&mut all);
    let mut list = Vec::new();
    for residue in 0..RESIDUES {
        let at = all.iter().position(|c| c % RESIDUES == residue).expect("84 of each residue");
        list.push(all.remove(at));
    }
    list.extend(&all[..OTHERS]);
    list
}

/// Case number `case`; any row of cases goes over all fields.
fn fixed(seed: u64, case: u64) -> Fixed {
    // 7919 has no divisor in common with the number of plans.
    let number = (case.wrapping_mul(7919) % PLANS) as usize;
    let (setting, which) = (number % SETTINGS, number / SETTINGS);
    let long = setting >= NORMAL;
    let mut rest = if long { setting - NORMAL } else { setting };
    let mut digit = |base: usize| {
        let digit = rest % base;
        rest /= base;
        digit
    };
    let mut random = Random::of_case(seed, setting as u64);
    let (blocks, cfi) = if long { LONG_REGIONS[digit(7)] } else { (WIDTHS[digit(6)], 1 + digit(3)) };
    Fixed {
        identity: identities(&mut random)[which],
        blocks,
        prefix: digit(2),
        ports: PORTS[digit(3)],
        g: SIXTHS[digit(4)],
        duration: if long { Some(1) } else { (number % 11 == 0).then_some(0) },
        frame: random.below(1024),
        subframe: SUBFRAMES[digit(3)],
        cfi,
    }
}

/// The plan; most have few HIs, since each of the many queries checks them all.
fn plan(seed: u64, case: u64) -> Vec<u8> {
    let mut random = Random::of_case(seed, case);
    let how_his = if random.one_in(16) { random.pick(&HIS) } else { random.pick(&[His::None, His::One]) };
    let how_users = match random.below(16) {
        0 => Users::OneBlockEach,
        1..=4 => Users::Many,
        5 => Users::None,
        6..=8 => Users::Whole,
        9..=12 => Users::Edges,
        _ => Users::One,
    };
    commands(&mut random, &fixed(seed, case), how_his, how_users).concat()
}

/// Every place, the ports in turn; the four corners and the middle on every port.
fn places(subject: &mut Subject, cell: &Cell, layout: &Layout) -> Result<(), String> {
    let expected = |s: usize, k: usize| i64::from(layout.owner(Place { s, k }).number());
    let (symbols, subcarriers) = (cell.symbols(), cell.subcarriers());
    for s in 0..symbols {
        for k in 0..subcarriers {
            subject.owner(s, k, (s + k / 5) % cell.ports, expected(s, k))?;
        }
    }
    for s in [0, symbols / 2, symbols - 1] {
        for k in [0, subcarriers / 2, subcarriers - 1] {
            for port in 0..cell.ports {
                subject.owner(s, k, port, expected(s, k))?;
            }
        }
    }
    Ok(())
}

/// Numbers far outside, where a product or a sum of them would wrap.
pub const FAR: [usize; 6] = [1 << 16, 1 << 32, (1 << 32) + 1, 1 << 62, 1 << 63, usize::MAX];

/// Queries with s, k or port outside.
fn outside(subject: &mut Subject, cell: &Cell) -> Result<(), String> {
    let limits = [cell.symbols(), cell.subcarriers(), cell.ports];
    for which in 0..3 {
        let just = [limits[which], limits[which] + 1, 2 * limits[which]];
        for value in just.into_iter().chain(FAR) {
            for others in [0, 1] {
                let mut place = limits.map(|limit| others * (limit - 1));
                place[which] = value;
                let [s, k, port] = place;
                subject.owner(s, k, port, -i64::from(OUTSIDE_GRID))?;
            }
        }
    }
    let [s, k, port] = limits;
    subject.owner(s, k, port, -i64::from(OUTSIDE_GRID))
}

/// Every kind, and kinds beyond them, which have 0.
fn kinds(subject: &mut Subject, layout: &Layout) -> Result<(), String> {
    for (kind, count) in layout.counts().into_iter().enumerate() {
        subject.count(kind, count as i64)?;
    }
    [9, 10, 255, 256].into_iter().chain(FAR).try_for_each(|kind| subject.count(kind, 0))
}

fn compare(subject: &mut Subject, bytes: &[u8]) -> Result<(), String> {
    let plan = check(bytes).expect("an accepted plan");
    let layout = layout(&plan);
    subject.check(0)?;
    subject.payload_len(number(&judge::payload_length(bytes), |length| *length))?;
    kinds(subject, &layout)?;
    outside(subject, &plan.cell)?;
    places(subject, &plan.cell, &layout)
}

pub fn run(library: &Library, seed: u64, cases: Range<u64>, found: &mut Found) {
    for case in cases {
        let plan = plan(seed, case);
        let mut subject = Subject::new(library, &plan, case);
        let outcome = compare(&mut subject, &plan);
        found.add(case, &subject.answers, subject.told(outcome));
    }
}
