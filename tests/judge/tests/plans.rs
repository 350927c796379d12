//! Every refusal of the plan, and the boundaries beside it; and that all of these are among the plans of
//! plan_vectors.

use judge::generate::{
    any_commands, any_plan, commands, damaged_plan, Fixed, His, Random, Users, COMBINATIONS, HIS, USERS,
};
use judge::harness::unhex;
use judge::plan::Plan;
use judge::plans::{bytes, input, output, plans, LISTED};
use judge::{check, grid_length, gridcount, owner, payload_length, Refusal};
use std::collections::BTreeSet;

fn plan(text: &str) -> Result<Plan, Refusal> {
    check(&unhex(text).expect("hexadecimal digits"))
}

/// The refusal of a plan; 0 if it is accepted.
fn refusal(text: &str) -> Refusal {
    plan(text).err().unwrap_or(0)
}

const CELL: &str = "10 0000 0F 00 01 01 ";
const FRAME: &str = "11 0000 01 01 ";

fn after_frame(rest: &str) -> Refusal {
    refusal(&format!("{CELL}{FRAME}{rest}"))
}

#[test]
fn the_shortest_plan() {
    assert_eq!(after_frame("00"), 0);
    let plan = plan(&format!("{CELL}{FRAME}00")).unwrap();
    assert!(plan.his.is_empty() && plan.users.is_empty());
}

#[test]
fn one() {
    // Nothing at all, or no END: every earlier fault wins.
    assert_eq!(refusal(""), 1);
    assert_eq!(refusal(CELL), 1);
    assert_eq!(after_frame(""), 1);
    assert_eq!(after_frame("20 0000"), 1);
    assert_eq!(refusal("10 01F8 0F 00 01 01"), 3);
    // Unknown in any state before END.
    assert_eq!(refusal("01"), 1);
    assert_eq!(refusal(&format!("{CELL} FF")), 1);
    assert_eq!(after_frame("13"), 1);
    assert_eq!(after_frame("12"), 1);
    assert_eq!(after_frame("30 0001 02 00 01 21 00"), 1);
    // Cut off, whatever else is wrong with it.
    assert_eq!(refusal("10 FFFF 00 00 00"), 1);
    assert_eq!(refusal("20 00"), 1);
    assert_eq!(refusal("11 FFFF FF"), 1);
    assert_eq!(after_frame("10 0000 0F 00 01"), 1);
    assert_eq!(after_frame("30 0000 09 FF"), 1);
}

#[test]
fn two() {
    assert_eq!(refusal("00"), 2);
    assert_eq!(refusal(&format!("{CELL}00")), 2);
    assert_eq!(refusal(FRAME), 2);
    assert_eq!(refusal("20 0000"), 2);
    assert_eq!(refusal("30 0001 02 00 01"), 2);
    assert_eq!(refusal(&format!("{CELL}{CELL}")), 2);
    assert_eq!(refusal(&format!("{CELL}20 0000")), 2);
    assert_eq!(refusal(&format!("{CELL}30 0001 02 00 01")), 2);
    assert_eq!(after_frame(FRAME), 2);
    assert_eq!(after_frame(CELL), 2);
    assert_eq!(after_frame("30 0001 02 00 01 20 0000 00"), 2);
    // Misplaced with a bad field.
    assert_eq!(after_frame("10 FFFF 0F 00 01 01"), 2);
    assert_eq!(after_frame("11 FFFF FF FF"), 2);
    assert_eq!(after_frame("30 0001 02 00 01 20 FFFF 00"), 2);
    // After END: END, unknown, known, cut off.
    for tail in ["00", "99", "20 0000", "10", "30 00"] {
        assert_eq!(after_frame(&format!("00 {tail}")), 2, "{tail}");
    }
}

#[test]
fn three_cell_fields() {
    let cell = |text: &str| refusal(&format!("{text} {FRAME} 00"));
    assert_eq!(cell("10 01F7 0F 00 01 01"), 0); // C = 503
    assert_eq!(cell("10 01F8 0F 00 01 01"), 3); // C = 504
    assert_eq!(cell("10 FFFF 0F 00 01 01"), 3);
    for value in 0..=255u32 {
        let known = |list: &[u32]| if list.contains(&value) { 0 } else { 3 };
        assert_eq!(cell(&format!("10 0000 {value:02X} 00 01 01")), known(&[6, 15, 25, 50, 75, 100]));
        assert_eq!(cell(&format!("10 0000 0F {value:02X} 01 01")), known(&[0, 1]));
        assert_eq!(cell(&format!("10 0000 0F 00 {value:02X} 01")), known(&[1, 2, 4]));
        assert_eq!(cell(&format!("10 0000 0F 00 01 {value:02X}")), known(&[1, 3, 6, 12]));
    }
}

#[test]
fn four_frame_fields() {
    let frame = |text: &str| refusal(&format!("{CELL} {text} 00"));
    assert_eq!(frame("11 03FF 09 03"), 0);
    assert_eq!(frame("11 0400 09 03"), 4);
    assert_eq!(frame("11 FFFF 09 03"), 4);
    for value in 0..=255u32 {
        assert_eq!(frame(&format!("11 0000 {value:02X} 01")), if value <= 9 { 0 } else { 4 });
        assert_eq!(frame(&format!("11 0000 00 {value:02X}")), if [1, 2, 3].contains(&value) { 0 } else { 4 });
    }
}

/// "Command 12 CELLX has the operands of CELL and a duration u8 (0 normal, 1 extended), and stands in its place."
#[test]
fn cellx() {
    let plan = plan("12 0102 19 01 02 06 01  11 0000 01 03  00").unwrap();
    let cell = plan.cell;
    assert_eq!((cell.identity, cell.blocks, cell.extended, cell.ports, cell.g), (0x102, 25, true, 2, 6));
    assert!(cell.extended_phich);
    for value in 0..=255u32 {
        let duration = |frame: &str| refusal(&format!("12 0000 0F 00 01 01 {value:02X} {frame} 00"));
        assert_eq!(duration("11 0000 01 03"), if value <= 1 { 0 } else { 3 });
        // A duration above 1 is refused at CELLX, before FRAME.
        assert_eq!(duration(FRAME), [0, 18, 3][value.min(2) as usize]);
    }
    // CELL's other fields.
    for text in
        ["01F8 0F 00 01 01", "0000 07 00 01 01", "0000 0F 02 01 01", "0000 0F 00 03 01", "0000 0F 00 01 02"]
    {
        assert_eq!(refusal(&format!("12 {text} 01 11 0000 01 03 00")), 3, "{text}");
    }
    let whole = unhex("12 0000 0F 00 01 01 01 11 0000 01 03 00").unwrap();
    assert_eq!(check(&whole).err(), None);
    for length in 0..whole.len() {
        assert_eq!(check(&whole[..length]).err(), Some(1));
    }
    // Duration 0 means what CELL means.
    let mut random = Random::new(14);
    for _ in 0..60 {
        let list = any_commands(&mut random);
        if list[0][0] == 0x10 {
            let other = [&[0x12], &list[0][1..], &[0], &list[1..].concat()].concat();
            assert_eq!(check(&other), check(&list.concat()));
        }
    }
}

/// "18, at FRAME after 4, when duration is extended and the control region is shorter than three symbols".
#[test]
fn eighteen_short_regions() {
    for (blocks, least) in [("06", 2), ("0F", 3), ("19", 3), ("32", 3), ("4B", 3), ("64", 3)] {
        for cfi in 0..=255 {
            let frame = |duration: &str, f: &str| {
                refusal(&format!("12 0000 {blocks} 00 01 01 {duration} 11 0000 {f} {cfi:02X} 00"))
            };
            let known = (1..=3).contains(&cfi);
            let long = match known {
                false => 4,
                true if cfi < least => 18,
                true => 0,
            };
            assert_eq!(frame("01", "01"), long, "{blocks} CFI {cfi}");
            assert_eq!(frame("00", "01"), if known { 0 } else { 4 });
            // Another field of FRAME is judged first.
            assert_eq!(frame("01", "0A"), 4);
        }
    }
}

#[test]
fn five_hi() {
    // N = 15, g = 1: one group, eight sequences.
    assert_eq!(after_frame("20 0007 00"), 0);
    assert_eq!(after_frame("20 0008 00"), 5);
    assert_eq!(after_frame("20 0100 00"), 5);
    assert_eq!(after_frame("20 0001 20 0000 20 0001 00"), 5);
    // Extended: two groups (not units), four sequences.
    let extended = |rest: &str| refusal(&format!("10 0000 0F 01 01 01 {FRAME} {rest}"));
    assert_eq!(extended("20 0103 00"), 0);
    assert_eq!(extended("20 0203 00"), 5);
    assert_eq!(extended("20 0104 00"), 5);
    // N = 100, g = 12: 25 groups, extended 50.
    let large = |prefix: &str, rest: &str| refusal(&format!("10 0000 64 {prefix} 04 0C {FRAME} {rest}"));
    assert_eq!(large("00", "20 1807 00"), 0);
    assert_eq!(large("00", "20 1900 00"), 5);
    assert_eq!(large("01", "20 3103 00"), 0);
    assert_eq!(large("01", "20 3200 00"), 5);
    // N = 6: one group, with g = 12 two.
    let small = |g: &str, rest: &str| refusal(&format!("10 0000 06 00 04 {g} {FRAME} {rest}"));
    for g in ["01", "03", "06"] {
        assert_eq!(small(g, "20 0007 00"), 0);
        assert_eq!(small(g, "20 0100 00"), 5);
    }
    assert_eq!(small("0C", "20 0107 00"), 0);
    assert_eq!(small("0C", "20 0200 00"), 5);
}

#[test]
fn six_user() {
    let user = |text: &str| after_frame(&format!("30 {text} 00"));
    assert_eq!(user("0001 02 00 0F"), 0); // first + count = N
    assert_eq!(user("0001 02 01 0F"), 6); // N + 1
    assert_eq!(user("0001 02 00 10"), 6);
    assert_eq!(user("0001 02 0E 01"), 0);
    assert_eq!(user("0001 02 0F 01"), 6);
    assert_eq!(user("0001 02 0F 00"), 6);
    assert_eq!(user("0001 02 00 00"), 6);
    assert_eq!(user("0001 02 FF FF"), 6);
    assert_eq!(user("0001 02 FF 02"), 6); // 257 is not 1
    assert_eq!(user("0000 02 00 01"), 6);
    assert_eq!(user("FFFF 08 00 01"), 0);
    for value in 0..=255u32 {
        let expected = if [2, 4, 6, 8].contains(&value) { 0 } else { 6 };
        assert_eq!(user(&format!("0001 {value:02X} 00 01")), expected);
    }
    // A bad field and an RNTI used before.
    assert_eq!(after_frame("30 0001 02 00 01 30 0001 03 01 01 00"), 6);
    assert_eq!(after_frame("30 0001 02 00 01 30 0001 02 00 00 00"), 6);
}

#[test]
fn seven_used_before() {
    let second = |text: &str| after_frame(&format!("30 0001 02 05 03 30 {text} 00"));
    assert_eq!(second("0001 02 00 01"), 7);
    assert_eq!(second("0002 02 05 01"), 7);
    assert_eq!(second("0002 02 07 01"), 7);
    assert_eq!(second("0002 02 00 06"), 7);
    assert_eq!(second("0002 02 00 0F"), 7);
    assert_eq!(second("0002 02 00 05"), 0);
    assert_eq!(second("0002 02 08 07"), 0);
}

#[test]
fn the_first_fault_wins() {
    assert_eq!(refusal("10 01F8 0F 00 01 01 99"), 3);
    assert_eq!(refusal("99 10 01F8 0F 00 01 01"), 1);
    assert_eq!(refusal(&format!("{CELL} 11 0400 00 01 20 FFFF")), 4);
    assert_eq!(after_frame("20 FFFF 30 0000 00 00 00"), 5);
    assert_eq!(after_frame("30 0000 00 00 00 20 FFFF"), 6);
}

#[test]
fn eight_comes_after_the_plan() {
    let good = unhex(&format!("{CELL}{FRAME}00")).unwrap();
    assert_eq!(owner(&good, 13, 179, 0), Ok(513));
    assert_eq!(owner(&good, 14, 179, 0), Err(8));
    assert_eq!(owner(&good, 13, 180, 0), Err(8));
    assert_eq!(owner(&good, 13, 179, 1), Err(8));
    assert_eq!(owner(&good, usize::MAX, usize::MAX, usize::MAX), Err(8));
    assert_eq!(owner(&good[..5], 14, 0, 0), Err(1));
}

#[test]
fn lengths() {
    let good = unhex(&format!("{CELL}{FRAME}00")).unwrap();
    assert_eq!(grid_length(&good), Ok(36 * 15 * 14));
    assert_eq!(payload_length(&good), Ok(0));
    let bytes = |subframe: u8, prefix: u8| {
        payload_length(&[0x10, 0, 0, 15, prefix, 4, 1, 0x11, 0, 0, subframe, 1, 0])
    };
    assert_eq!(bytes(0, 0), Ok(480 / 8));
    assert_eq!(bytes(0, 1), Ok(432 / 8));
    assert_eq!(bytes(5, 0), Ok(0));
    // The shortest grid.
    assert_eq!(grid_length(&[0x10, 0, 0, 6, 1, 1, 1, 0x11, 0, 0, 1, 1, 0]), Ok(36 * 6 * 12));
}

#[test]
fn generated_plans_are_accepted() {
    let mut random = Random::new(11);
    for combination in 0..COMBINATIONS {
        let fixed = Fixed::combination(combination, random.below(504), random.below(1024));
        let (how_his, how_users) = (HIS[combination % HIS.len()], USERS[combination % USERS.len()]);
        let bytes = commands(&mut random, &fixed, how_his, how_users).concat();
        let plan = check(&bytes).expect("accepted");
        assert_eq!(plan.his.is_empty(), how_his == His::None);
        assert_eq!(plan.users.is_empty(), how_users == Users::None);
        if how_his == His::All {
            assert_eq!(plan.his.len(), plan.cell.phich_groups() * plan.cell.phich_sequences());
        }
        if how_users == Users::OneBlockEach {
            assert_eq!(plan.users.len(), fixed.blocks);
        }
    }
    let plans: Vec<Plan> = (0..500).map(|_| check(&any_plan(&mut random)).expect("accepted")).collect();
    assert!(plans.iter().flat_map(|plan| &plan.users).any(|user| user.rnti == 65535));
}

#[test]
fn damage_reaches_every_refusal() {
    let mut random = Random::new(12);
    let refusals: BTreeSet<Refusal> =
        (0..4000).map(|_| check(&damaged_plan(&mut random)).err().unwrap_or(0)).collect();
    assert_eq!(refusals, BTreeSet::from([0, 1, 2, 3, 4, 5, 6, 7, 18]));
}

#[test]
fn every_cut_is_refused_one() {
    let mut random = Random::new(13);
    for _ in 0..60 {
        let list = any_commands(&mut random);
        let plan = list.concat();
        for length in 0..plan.len() {
            assert_eq!(check(&plan[..length]).err(), Some(1));
        }
        assert_eq!(check(&[plan.clone(), vec![random.byte()]].concat()).err(), Some(2));
    }
}

#[test]
fn gridcount_framing() {
    assert_eq!(gridcount(&[]), "refused 1\n");
    assert_eq!(gridcount(&[0]), "refused 1\n");
    assert_eq!(gridcount(&[0, 0]), "refused 1\n"); // the empty plan
    assert_eq!(gridcount(&[0, 0, 0x10]), "refused 1\n");
    assert_eq!(gridcount(&[0, 1, 0]), "refused 2\n");
    assert_eq!(gridcount(&[0, 2, 0]), "refused 1\n"); // shorter than it says, before any other check
    let shortest = [0, 13, 0x10, 0, 0, 15, 0, 1, 1, 0x11, 0, 0, 1, 1, 0];
    assert!(gridcount(&shortest).starts_with("CRS 120\n"));
    assert_eq!(gridcount(&[&shortest[..], &[0]].concat()), "refused 11\n");
    let hi = [0, 16, 0x10, 0, 0, 15, 0, 1, 1, 0x11, 0, 0, 1, 1, 0x20, 0, 0, 0];
    assert_eq!(gridcount(&hi), "refused 11\n");
    assert!(gridcount(&[&hi[..], &[0x80]].concat()).starts_with("CRS 120\n"));
    assert_eq!(gridcount(&[&hi[..], &[0x40]].concat()), "refused 12\n");
    assert_eq!(gridcount(&[&hi[..], &[0x01]].concat()), "refused 12\n");
    assert_eq!(gridcount(&[&hi[..], &[0x80, 0]].concat()), "refused 11\n");
}

/// The plans of plan_vectors: those with a number worked out by hand.
#[test]
fn numbers_by_hand() {
    for (number, text, why) in LISTED {
        assert_eq!(check(&bytes(text)).err().unwrap_or(0), number, "{text}: {why}");
    }
}

#[test]
fn how_many_of_each() {
    let mut counts = [0; 19];
    for plan in plans() {
        counts[usize::from(check(&plan).err().unwrap_or(0))] += 1;
    }
    assert_eq!(counts[..8], [687, 1648, 1067, 1376, 814, 260, 363, 158]);
    assert_eq!((counts[18], counts[8..18].iter().sum()), (30, 0));
    assert_eq!(plans(), plans());
    // The program's buffer.
    assert!(input(&plans()).len() < 600_000);
}

#[test]
fn every_sort_is_accepted() {
    let accepted: Vec<Plan> = plans().iter().filter_map(|plan| check(plan).ok()).collect();
    let kinds: BTreeSet<(usize, bool, usize, usize)> = accepted
        .iter()
        .map(|plan| (plan.cell.blocks, plan.cell.extended, plan.cell.ports, plan.cell.g))
        .collect();
    assert!(kinds.len() > 100, "{}", kinds.len());
    // Of six blocks every prefix, P and CFI in subframes 0, 5 and another.
    let sort = |subframe: usize| [0, 5].iter().position(|f| *f == subframe).unwrap_or(2);
    let six = accepted.iter().filter(|plan| plan.cell.blocks == 6);
    let regions: BTreeSet<(bool, usize, usize, usize)> = six
        .map(|plan| (plan.cell.extended, plan.cell.ports, plan.frame.cfi, sort(plan.frame.subframe)))
        .collect();
    assert_eq!(regions.len(), 2 * 3 * 3 * 3);
    // The extended PHICH duration with every N, prefix and P.
    let long = accepted.iter().filter(|plan| plan.cell.extended_phich);
    let cells: BTreeSet<(usize, bool, usize)> =
        long.map(|plan| (plan.cell.blocks, plan.cell.extended, plan.cell.ports)).collect();
    assert_eq!(cells.len(), 6 * 2 * 3);
    let cellx = plans().iter().filter(|plan| plan.first() == Some(&0x12)).count();
    assert!(3 * cellx > plans().len(), "{cellx}");
    let frames: BTreeSet<(usize, usize)> =
        accepted.iter().map(|plan| (plan.frame.subframe, plan.frame.cfi)).collect();
    assert!(frames.len() > 25, "{}", frames.len());
    assert!(accepted.iter().any(|plan| plan.his.len() == 200));
    assert!(accepted.iter().any(|plan| plan.users.len() == 100));
    assert!(accepted.iter().any(|plan| !plan.his.is_empty() && plan.users.len() > 1));
}

/// The input taken apart again, by its description.
#[test]
fn the_input() {
    let (plans, bytes) = (plans(), input(&plans()));
    let (mut at, mut number) = (0, 0);
    while at < bytes.len() {
        let length = bytes[at..at + 4].iter().fold(0, |sum, byte| 256 * sum + usize::from(*byte));
        assert_eq!(bytes[at + 4..at + 4 + length], plans[number]);
        (at, number) = (at + 4 + length, number + 1);
    }
    assert_eq!(number, plans.len());
}

#[test]
fn the_output() {
    let text = output(&plans());
    let lines: Vec<&str> = text.lines().collect();
    assert_eq!(lines.len(), plans().len());
    assert_eq!(lines[0], "plan 1 0 cell 0 15 0 1 1 0 frame 0 1 1 hi 0 0 user 1 2 0 15");
    assert_eq!(lines[3], "plan 4 0 cell 503 100 1 4 12 0 frame 1023 9 3 hi 49 3 user 65535 8 99 1");
    assert_eq!(lines[18], "plan 19 1");
    // Behind the listed ones, which no list of another length has: END with bytes after it.
    assert_eq!(lines[LISTED.len() + 1], format!("plan {} 2", LISTED.len() + 2));
}

#[test]
fn the_command_writes_both() {
    let directory = std::env::temp_dir().join(format!("judge-{}-plans", std::process::id()));
    let status =
        std::process::Command::new(env!("CARGO_BIN_EXE_judge")).arg("plans").arg(&directory).status();
    assert!(status.unwrap().success());
    assert_eq!(std::fs::read(directory.join("stdin")).unwrap(), input(&plans()));
    assert_eq!(std::fs::read(directory.join("stdout")).unwrap(), output(&plans()).into_bytes());
    std::fs::remove_dir_all(directory).unwrap();
}
