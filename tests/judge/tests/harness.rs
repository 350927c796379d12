//! The harness itself: what it generates, and that it notices differences.

use judge::generate::{gridcount_case, COMBINATIONS, SIX_BLOCKS_CASES};
use judge::harness::{hex, run, unhex, Tally};
use judge::{check, gridcount};
use std::collections::BTreeSet;
use std::io::Write;
use std::process::Command;

#[test]
fn the_default_run_has_every_answer() {
    let mut tally = Tally::default();
    for case in 0..2000 {
        tally.add(&gridcount(&gridcount_case(1, case)));
    }
    println!("{}", tally.text());
    let refused = [1, 2, 3, 4, 5, 6, 7, 11, 12, 18].map(|number| format!("refused {number}"));
    let expected: Vec<String> = [vec!["accepted".to_string()], refused.to_vec()].concat();
    assert_eq!(tally.classes(), expected);
}

#[test]
fn cases_stand_alone() {
    for seed in [0, 1, u64::MAX] {
        for case in [0, 5, 12, 65, 66, 400, 100_000] {
            assert_eq!(gridcount_case(seed, case), gridcount_case(seed, case));
        }
    }
    assert_ne!(gridcount_case(1, 50), gridcount_case(2, 50));
    assert_ne!(gridcount_case(1, 50), gridcount_case(1, 51));
}

#[test]
fn special_inputs_come() {
    let inputs: Vec<Vec<u8>> = (0..2000).map(|case| gridcount_case(1, case)).collect();
    for length in [0, 1, 2] {
        assert!(inputs.iter().any(|input| input.len() == length));
    }
    let declared = |input: &Vec<u8>| input.len() >= 2 && input[..2] == [0xFF, 0xFF];
    assert!(inputs.iter().any(|input| declared(input) && input.len() == 65537));
    assert!(inputs.iter().any(|input| declared(input) && input.len() < 65537));
    assert_eq!(COMBINATIONS, 4320 + 1680);
}

/// Every run has six blocks with every CFI, prefix and P in subframes 0, 5 and another, and those of three control symbols or
/// more with the extended PHICH duration.
#[test]
fn six_blocks_come() {
    let (mut seen, mut long) = (BTreeSet::new(), BTreeSet::new());
    for case in SIX_BLOCKS_CASES {
        let input = gridcount_case(1, case);
        assert!(gridcount(&input).starts_with("CRS"));
        let plan = check(&input[2..][..usize::from(input[1])]).expect("an accepted plan");
        assert_eq!(plan.cell.blocks, 6);
        let sort = [0, 5].iter().position(|f| *f == plan.frame.subframe).unwrap_or(2);
        if plan.cell.extended_phich {
            long.insert((plan.cell.extended, plan.cell.ports, plan.frame.cfi));
        } else {
            seen.insert((plan.cell.extended, plan.cell.ports, plan.frame.cfi, sort));
        }
    }
    assert_eq!((seen.len(), long.len()), (2 * 3 * 3 * 3, 2 * 3 * 2));
}

#[test]
fn hexadecimal() {
    assert_eq!(hex(&[0, 255, 16]), "00ff10");
    assert_eq!(unhex("00 ff\n10"), Some(vec![0, 255, 16]));
    assert_eq!(unhex("0"), None);
    assert_eq!(unhex("0g"), None);
}

/// A small program of shell commands.
#[cfg(unix)]
fn script(name: &str, lines: &str) -> std::path::PathBuf {
    use std::os::unix::fs::PermissionsExt;
    let path = std::env::temp_dir().join(format!("judge-{}-{name}", std::process::id()));
    let mut file = std::fs::File::create(&path).unwrap();
    writeln!(file, "#!/bin/sh\n{lines}").unwrap();
    drop(file);
    std::fs::set_permissions(&path, std::fs::Permissions::from_mode(0o755)).unwrap();
    path
}

#[cfg(unix)]
#[test]
fn agreement_and_difference() {
    let judge = env!("CARGO_BIN_EXE_judge");
    let right = script("right", &format!("exec '{judge}' count"));
    let wrong = script("wrong", "echo refused 1");
    let last_line = |text: &[u8]| String::from_utf8_lossy(text).lines().last().unwrap_or("").to_string();

    let output =
        Command::new(judge).args(["gridcount", right.to_str().unwrap(), "40", "7"]).output().unwrap();
    assert!(output.status.success(), "{}", String::from_utf8_lossy(&output.stdout));
    assert!(output.stdout.starts_with(b"seed 7\n"));
    assert!(last_line(&output.stdout).starts_with("gridcount: 40 cases compared, 0 differences; expected "));

    let output =
        Command::new(judge).args(["gridcount", wrong.to_str().unwrap(), "40", "7"]).output().unwrap();
    assert_eq!(output.status.code(), Some(1));
    assert!(String::from_utf8_lossy(&output.stdout).contains("DIFFERENCE in case 0 of seed 7\n"));

    let one = |program: &std::path::Path| {
        Command::new(judge)
            .args(["gridcount", program.to_str().unwrap(), "--case", "0", "7"])
            .output()
            .unwrap()
    };
    assert_eq!(one(&right).status.code(), Some(0));
    assert_eq!(one(&wrong).status.code(), Some(1));

    // A crash is a difference; a program that is not there, too.
    let crash = script("crash", "kill -9 $$");
    assert!(run(crash.to_str().unwrap(), &[0; 70000]).unwrap_err().starts_with("crashed"));
    assert!(run("/nowhere/at/all", &[]).is_err());
    for path in [right, wrong, crash] {
        std::fs::remove_file(path).unwrap();
    }
}
