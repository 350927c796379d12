//! The calls of read_vectors: that every sort of grid is among them, and what the reference makes of them.

use judge::builds;
use judge::reads::{input, output, tests, Kind};
use judge::{build, check, read};
use std::sync::OnceLock;

static OUTPUT: OnceLock<String> = OnceLock::new();

/// The lines of the program's output, the numbers of the tests taken off.
fn lines() -> Vec<String> {
    let text = OUTPUT.get_or_init(|| output(&tests()));
    text.lines().map(|line| line.split_once(' ').expect("a number first").1.to_string()).collect()
}

#[test]
fn how_many() {
    let all = tests();
    let round_trips = builds::calls().len();
    assert!(all.len() > round_trips);
    assert!(input(&all).len() < 500_000);
    assert!(all.iter().all(|test| test.payload.len() < 19_999));
    let sweeps: Vec<usize> = all
        .iter()
        .filter(|test| test.kind == Kind::Sweep)
        .map(|test| check(&test.plan).expect("accepted").cell.blocks)
        .collect();
    assert_eq!(sweeps, [15, 15, 6]);
}

#[test]
fn answers_of_every_sort() {
    let lines = lines();
    let count = |start: &str| lines.iter().filter(|line| line.starts_with(start)).count();
    for refusal in [1, 2, 3, 4, 5, 6, 7, 18] {
        assert!(count(&format!("refused {refusal} ")) > 0, "no refusal {refusal}");
    }
    for (refusal, least) in [(10, 6), (11, 6), (13, 300)] {
        assert!(count(&format!("refused {refusal} ")) >= least, "too few refusals {refusal}");
    }
    // Read never looks at spare bits.
    assert_eq!(count("refused 12 "), 0);
}

/// Changed grids and sweeps with the extended PHICH duration, of one, two and four ports.
#[test]
fn extended_phich() {
    let changed = |kind: &Kind| matches!(kind, Kind::Calls { lists, .. } if lists.len() > 100);
    let of = |which: &dyn Fn(&Kind) -> bool| -> Vec<usize> {
        let plans = tests().into_iter().filter(|test| which(&test.kind)).map(|test| check(&test.plan));
        let cells = plans.map(|plan| plan.expect("accepted").cell).filter(|cell| cell.extended_phich);
        cells.map(|cell| cell.ports).collect()
    };
    assert_eq!(of(&changed), [2, 4, 1]);
    assert_eq!(of(&|kind| *kind == Kind::Sweep), [1]);
}

#[test]
fn what_build_wrote_is_read_back() {
    for call in builds::calls() {
        let length = check(&call.plan).map_or(36, |plan| plan.cell.grid_length());
        if let Ok((grid, count)) = build(&call.plan, &call.payload, length) {
            assert_eq!(read(&call.plan, &grid, call.payload.len()), Ok((call.payload, count)));
        }
    }
}

#[test]
fn sweeps_refuse_and_read() {
    let sweeps: Vec<String> = lines().into_iter().filter(|line| line.contains(" built ")).collect();
    let words: Vec<Vec<&str>> = sweeps.iter().map(|line| line.split(' ').collect()).collect();
    let read = |sweep: usize| words[sweep][3].parse::<usize>().expect("a count");
    // With one port a level turned round is another payload's; with two, the other port tells.
    assert!(read(0) > 2000 && read(2) > 500);
    assert_eq!(read(1), 0);
    assert!(words.iter().all(|line| line[3] == line[5]));
}
