//! The calls of build_vectors: that every sort of plan, payload and refusal is among them.

use judge::builds::{calls, digest, input, output, Call, Lent};
use judge::generate::null_symbol_plan;
use judge::owners::layout;
use judge::payload::Sections;
use judge::plan::Plan;
use judge::{check, read, Refusal};
use std::collections::BTreeSet;

struct Accepted {
    call: Call,
    plan: Plan,
    /// Each user's element count.
    counts: Vec<usize>,
    sections: Sections,
}

impl Accepted {
    /// Prefix and P.
    fn kind(&self) -> (bool, usize) {
        (self.plan.cell.extended, self.plan.cell.ports)
    }

    fn all_his(&self) -> usize {
        self.plan.cell.phich_groups() * self.plan.cell.phich_sequences()
    }
}

fn accepted() -> Vec<Accepted> {
    let of = |call: Call| {
        call.answer().0.ok()?;
        let plan = check(&call.plan).expect("accepted");
        let layout = layout(&plan);
        let counts = layout.users.iter().map(Vec::len).collect();
        let sections = Sections::new(&plan, &layout);
        Some(Accepted { call, plan, counts, sections })
    };
    calls().into_iter().filter_map(of).collect()
}

fn refused() -> Vec<(Call, Refusal)> {
    calls().into_iter().filter_map(|call| call.answer().0.err().map(|refusal| (call, refusal))).collect()
}

/// What the calls have of something.
fn set<T: Ord>(list: &[Accepted], of: impl Fn(&Accepted) -> Option<T>) -> BTreeSet<T> {
    list.iter().filter_map(of).collect()
}

/// All pairs.
fn pairs<A: Copy + Ord, B: Copy + Ord>(a: &[A], b: &[B]) -> BTreeSet<(A, B)> {
    a.iter().flat_map(|a| b.iter().map(move |b| (*a, *b))).collect()
}

const WIDTHS: [usize; 6] = [6, 15, 25, 50, 75, 100];
const KINDS: [(bool, usize); 6] = [(false, 1), (false, 2), (false, 4), (true, 1), (true, 2), (true, 4)];

#[test]
fn how_many() {
    let (accepted, refused) = (accepted(), refused());
    assert_eq!((accepted.len(), refused.len()), (209, 40));
    // The program's buffer.
    assert!(input(&calls()).len() < 400_000);
    assert!(accepted.iter().all(|a| a.call.lent == Lent::AsWanted));
    assert!(calls().iter().all(|call| call.grid_length() <= 201_601));
    assert!(calls().iter().any(|call| call.grid_length() == 201_601));
    assert!(calls().iter().any(|call| call.grid_length() == 2591));
}

#[test]
fn always_the_same() {
    assert_eq!(calls(), calls());
}

#[test]
fn every_width_prefix_and_ports() {
    let list = accepted();
    let every = pairs(&WIDTHS, &KINDS);
    let width = |a: &Accepted| (a.plan.cell.blocks, a.kind());
    let whole = |a: &Accepted| a.plan.users.len() == 1 && a.plan.users[0].count == a.plan.cell.blocks;
    assert_eq!(set(&list, |a| whole(a).then(|| width(a))), every);
    assert_eq!(set(&list, |a| (a.plan.users.len() > 1).then(|| width(a))), every);
}

#[test]
fn every_field() {
    let list = accepted();
    assert_eq!(set(&list, |a| Some((a.plan.cell.g, a.kind()))), pairs(&[1, 3, 6, 12], &KINDS));
    assert_eq!(set(&list, |a| Some((a.plan.frame.cfi, a.kind()))), pairs(&[1, 2, 3], &KINDS));
    assert_eq!(set(&list, |a| Some(a.plan.frame.subframe)), (0..10).collect());
    // Subframes 0, 5 and another with every prefix and P.
    let sort = |a: &Accepted| [0, 5].iter().position(|f| *f == a.plan.frame.subframe).unwrap_or(2);
    assert_eq!(set(&list, |a| Some((sort(a), a.kind()))), pairs(&[0, 1, 2], &KINDS));
    // PBCH: the four quarters of its scrambling.
    let quarter = |a: &Accepted| (a.plan.frame.subframe == 0).then(|| (a.plan.frame.frame % 4, a.kind()));
    assert_eq!(set(&list, quarter), pairs(&[0, 1, 2, 3], &KINDS));
}

/// Six blocks: every CFI, prefix and P in subframes 0, 5 and another; every order, and HIs, with every prefix and P;
/// identities of every residue that a rule goes by, 6 of the reference signals, 12 groups of symbol 0, 8 of them left.
#[test]
fn six_blocks() {
    let list = accepted();
    let six = |a: &Accepted| (a.plan.cell.blocks == 6).then_some(a.plan.frame);
    let sort = |subframe: usize| [0, 5].iter().position(|f| *f == subframe).unwrap_or(2);
    let regions = set(&list, |a| six(a).map(|frame| (frame.cfi, (sort(frame.subframe), a.kind()))));
    assert_eq!(regions, pairs(&[1, 2, 3], &Vec::from_iter(pairs(&[0, 1, 2], &KINDS))));
    for bits in [2, 4, 6, 8] {
        let has = |a: &Accepted| a.plan.users.iter().any(|user| user.bits == bits);
        assert_eq!(
            set(&list, |a| six(a).filter(|_| has(a)).map(|_| a.kind())),
            BTreeSet::from(KINDS),
            "{bits} bits"
        );
    }
    assert_eq!(set(&list, |a| six(a).map(|_| (a.plan.cell.g, a.kind()))), pairs(&[1, 3, 6, 12], &KINDS));
    let his = |a: &Accepted| six(a).filter(|_| !a.plan.his.is_empty()).map(|_| a.kind());
    assert_eq!(set(&list, his), BTreeSet::from(KINDS));
    for residues in [6, 8, 12] {
        let residue = |a: &Accepted| six(a).map(|_| a.plan.cell.identity % residues);
        assert_eq!(set(&list, residue), (0..residues).collect(), "residues of {residues}");
    }
}

/// The extended PHICH duration: every N, prefix and P; at six blocks with CFI 2 and 3; with no HI, some and all of them;
/// in subframes 0, 5 and another; in a plan of as many users as blocks. And CELLX of the normal duration.
#[test]
fn extended_phich() {
    let list = accepted();
    let long = |a: &Accepted| a.plan.cell.extended_phich;
    let width = |a: &Accepted| (a.plan.cell.blocks, a.kind());
    assert_eq!(set(&list, |a| long(a).then(|| width(a))), pairs(&WIDTHS, &KINDS));
    let six = |a: &Accepted| (long(a) && a.plan.cell.blocks == 6).then(|| (a.plan.frame.cfi, a.kind()));
    assert_eq!(set(&list, six), pairs(&[2, 3], &KINDS));
    let his = |a: &Accepted| if a.plan.his.len() == a.all_his() { 2 } else { a.plan.his.len().min(1) };
    assert_eq!(set(&list, |a| long(a).then(|| (his(a), a.kind()))), pairs(&[0, 1, 2], &KINDS));
    let sort = |a: &Accepted| [0, 5].iter().position(|f| *f == a.plan.frame.subframe).unwrap_or(2);
    assert_eq!(set(&list, |a| long(a).then(|| (sort(a), a.plan.cell.ports))), pairs(&[0, 1, 2], &[1, 2, 4]));
    assert_eq!(set(&list, |a| long(a).then_some(a.plan.cell.g)), BTreeSet::from([1, 3, 6, 12]));
    assert!(list.iter().any(|a| long(a) && a.plan.users.len() == 100));
    assert!(list.iter().any(|a| long(a) && a.plan.cell.blocks == 100 && a.plan.his.len() > 100));
    // About a third of all plans has CELLX.
    let cellx = |a: &&Accepted| a.call.plan[0] == 0x12;
    assert!((60..85).contains(&list.iter().filter(cellx).count()));
    let normal = |a: &Accepted| cellx(&a) && !long(a);
    assert_eq!(set(&list, |a| normal(a).then_some(a.plan.cell.ports)), BTreeSet::from([1, 2, 4]));
}

#[test]
fn identities() {
    let list = accepted();
    let identity = |a: &Accepted| a.plan.cell.identity;
    assert!(set(&list, |a| Some(identity(a))).len() > 80);
    assert!(set(&list, |a| Some(identity(a))).is_superset(&BTreeSet::from([0, 503])));
    let kinds = pairs(&[0, 1, 2, 3, 4, 5], &[1, 2, 4]);
    assert_eq!(set(&list, |a| Some((identity(a) % 6, a.plan.cell.ports))), kinds);
    // The three primary marks in both of their subframes.
    let mark = |a: &Accepted| {
        let subframe = a.plan.frame.subframe;
        [0, 5].contains(&subframe).then(|| (identity(a) % 3, subframe))
    };
    assert_eq!(set(&list, mark), pairs(&[0, 1, 2], &[0, 5]));
}

#[test]
fn acknowledgements() {
    let list = accepted();
    let every = BTreeSet::from(KINDS);
    assert_eq!(set(&list, |a| (a.plan.his.len() == a.all_his()).then(|| a.kind())), every);
    assert_eq!(set(&list, |a| a.plan.his.is_empty().then(|| a.kind())), every);
    let some = |a: &Accepted| (1..a.all_his()).contains(&a.plan.his.len());
    assert_eq!(set(&list, |a| some(a).then(|| a.kind())), every);
    // The most that there can be: 25 groups of eight, 50 of four.
    let most = |a: &Accepted| a.plan.cell.g * a.plan.cell.blocks == 1200 && a.plan.his.len() == 200;
    assert!(list.iter().any(most));
}

#[test]
fn users() {
    let list = accepted();
    for bits in [2, 4, 6, 8] {
        let has = |a: &Accepted| a.plan.users.iter().any(|user| user.bits == bits);
        assert_eq!(set(&list, |a| has(a).then(|| a.kind())), BTreeSet::from(KINDS), "{bits} bits");
        // An odd element count, which only one port has.
        let mut counts = list.iter().flat_map(|a| a.plan.users.iter().zip(&a.counts));
        assert!(counts.any(|(user, count)| user.bits == bits && count % 2 == 1));
    }
    // As long as a section gets, with either prefix.
    let longest = |a: &Accepted| a.plan.users.iter().any(|user| user.bits == 8 && user.count == 100);
    assert_eq!(set(&list, |a| longest(a).then_some(a.plan.cell.extended)), BTreeSet::from([false, true]));
    // The longest payload of any plan: 13 symbols of 1200 subcarriers, less 200 references in three of them, and 200 HIs.
    assert_eq!(list.iter().map(|a| a.sections.length).max(), Some(13 * 1200 - 3 * 200 + 200 / 8));
    let each =
        |blocks: usize| move |a: &Accepted| a.plan.users.len() == blocks && a.plan.cell.blocks == blocks;
    assert!([6, 15, 100].iter().all(|blocks| list.iter().any(each(*blocks))));
    assert!(list
        .iter()
        .any(|a| a.plan.users.is_empty() && a.plan.his.is_empty() && a.call.payload.is_empty()));
    // Gaps, and blocks not in ascending order.
    let ends = |a: &Accepted| -> Vec<(usize, usize)> {
        a.plan.users.iter().map(|user| (user.first, user.first + user.count)).collect()
    };
    assert!(list.iter().any(|a| ends(a).windows(2).any(|two| two[0].1 < two[1].0)));
    assert!(list.iter().any(|a| ends(a).windows(2).any(|two| two[1].1 < two[0].0)));
    // Null symbols.
    assert!(list.iter().any(|a| a.call.plan == null_symbol_plan()));
    let null = |a: &Accepted| a.plan.cell.ports == 4 && a.counts.iter().any(|count| count % 4 == 2);
    assert!(list.iter().filter(|a| null(a)).count() > 3);
}

/// 256QAM with every prefix and P: alone, and with other orders in subframes 0, 5 and another; and on every P each order
/// before itself and before every other.
#[test]
fn orders() {
    let list = accepted();
    let alone = |a: &Accepted| a.plan.users.len() == 1 && a.plan.users[0].bits == 8;
    assert_eq!(set(&list, |a| alone(a).then(|| a.kind())), BTreeSet::from(KINDS));
    let orders = |a: &Accepted| -> Vec<usize> { a.plan.users.iter().map(|user| user.bits).collect() };
    let mixed = |a: &Accepted| orders(a).contains(&8) && orders(a).iter().any(|bits| *bits != 8);
    let sort = |a: &Accepted| [0, 5].iter().position(|f| *f == a.plan.frame.subframe).unwrap_or(2);
    assert_eq!(set(&list, |a| mixed(a).then(|| (sort(a), a.kind()))), pairs(&[0, 1, 2], &KINDS));
    for ports in [1, 2, 4] {
        let mut neighbours = BTreeSet::new();
        for a in list.iter().filter(|a| a.plan.cell.ports == ports) {
            neighbours.extend(orders(a).windows(2).map(|two| (two[0], two[1])));
        }
        assert_eq!(neighbours, pairs(&[2, 4, 6, 8], &[2, 4, 6, 8]), "{ports} ports");
    }
}

#[test]
fn payloads() {
    let bits = |a: &Accepted| -> Vec<u8> {
        a.sections.all().iter().flat_map(|section| section.take(&a.call.payload)).collect()
    };
    let equal = |a: &Accepted, bit: u8| a.plan.users.len() == 1 && bits(a).iter().all(|b| *b == bit);
    let (mut zeros, mut ones, mut mixed) = (0, 0, 0);
    for a in accepted() {
        zeros += usize::from(equal(&a, 0));
        ones += usize::from(equal(&a, 1));
        mixed += usize::from(bits(&a).contains(&0) && bits(&a).contains(&1));
        let (answer, grid) = a.call.answer();
        assert_eq!(answer, Ok(a.counts.iter().sum()));
        // The grid has the payload, and nothing of what was there before.
        assert_eq!(read(&a.call.plan, &grid, a.call.payload.len()), Ok((a.call.payload, answer.unwrap())));
        assert!(!grid.contains(&165));
    }
    assert!(zeros >= 6 && ones >= 6 && mixed >= 60, "{zeros} {ones} {mixed}");
}

/// The plan's refusals.
const OF_PLAN: [Refusal; 8] = [1, 2, 3, 4, 5, 6, 7, 18];

#[test]
fn refusals_in_their_order() {
    let list = refused();
    let numbers: BTreeSet<Refusal> = list.iter().map(|(_, refusal)| *refusal).collect();
    assert_eq!(numbers, BTreeSet::from([1, 2, 3, 4, 5, 6, 7, 10, 11, 12, 18]));
    // Which of 10, 11 and 12 apply to a call, and which is given.
    let mut seen = BTreeSet::new();
    for (call, refusal) in &list {
        assert!(call.answer().1.iter().all(|byte| *byte == 165));
        let Ok(plan) = check(&call.plan) else {
            assert!(OF_PLAN.contains(refusal));
            continue;
        };
        let sections = Sections::new(&plan, &layout(&plan));
        let ten = call.lent != Lent::AsWanted;
        let eleven = call.payload.len() != sections.length;
        let twelve = call.payload.len() >= sections.length && sections.spare_bit_set(&call.payload);
        seen.insert((ten, eleven, twelve, *refusal));
    }
    let expected = [
        (true, false, false, 10),
        (true, true, false, 10),
        (true, false, true, 10),
        (true, true, true, 10),
        (false, true, false, 11),
        (false, true, true, 11),
        (false, false, true, 12),
    ];
    assert_eq!(seen, BTreeSet::from(expected));
    // A refused plan over a grid of each length, and with a payload.
    let of_plan = list.iter().filter(|(_, refusal)| OF_PLAN.contains(refusal));
    let lengths: BTreeSet<usize> = of_plan.map(|(call, _)| call.grid_length()).collect();
    assert_eq!(lengths, BTreeSet::from([35, 36, 37]));
}

#[test]
fn digests() {
    assert_eq!(digest(&[]), (1, 7));
    assert_eq!(digest(&[0]), (32, 924));
    assert_eq!(digest(&[255]), (287, 1179));
    assert_eq!(digest(&[1, 2]), (33 * 31 + 3, 925 * 131 + 9));
    // Long enough for the remainders to count.
    let (a, b) = digest(&[165; 36]);
    assert_eq!((a, b), (3_106_694_912, 2_866_538_346));
}

/// The input taken apart again, by its description.
#[test]
fn the_input() {
    let calls = calls();
    let mut rest = &input(&calls)[..];
    let mut next = |n: usize| {
        let (head, tail) = rest.split_at(n);
        rest = tail;
        (head.to_vec(), tail.len())
    };
    let mut number = 0;
    loop {
        let (head, _) = next(3);
        let (plan, _) = next(256 * usize::from(head[1]) + usize::from(head[2]));
        let (long, _) = next(4);
        let long = long.iter().fold(0, |sum, byte| 256 * sum + usize::from(*byte));
        let (payload, left) = next(long);
        let lent = [Lent::AsWanted, Lent::OneLess, Lent::OneMore][usize::from(head[0])];
        assert_eq!(calls[number], Call { lent, plan, payload });
        number += 1;
        if left == 0 {
            break;
        }
    }
    assert_eq!(number, calls.len());
}

#[test]
fn the_output() {
    let text = output(&calls());
    for (i, line) in text.lines().enumerate() {
        let words: Vec<&str> = line.split(' ').collect();
        assert_eq!(words[0], (i + 1).to_string());
        assert_eq!(words.len(), if words[1] == "refused" { 5 } else { 4 });
    }
    assert_eq!(text.lines().count(), calls().len());
    // CELL FRAME END alone; the first refused plan.
    assert!(text.lines().any(|line| line.starts_with("205 0 ")));
    assert!(text.lines().any(|line| line == "210 refused 1 3106694912 2866538346"));
}

#[test]
fn the_command_writes_both() {
    let directory = std::env::temp_dir().join(format!("judge-{}-builds", std::process::id()));
    let status =
        std::process::Command::new(env!("CARGO_BIN_EXE_judge")).arg("builds").arg(&directory).status();
    assert!(status.unwrap().success());
    assert_eq!(std::fs::read(directory.join("stdin")).unwrap(), input(&calls()));
    assert_eq!(std::fs::read(directory.join("stdout")).unwrap(), output(&calls()).into_bytes());
    std::fs::remove_dir_all(directory).unwrap();
}
