//! The judge's commands.

use judge::generate::{
    any_plan, damaged_plan, gridcount_case, input, right_payload, spare_set, wrong_length, Random,
};
use judge::harness::{gridcount_many, gridcount_one, hex, unhex};
use judge::owners::{layout, KINDS};
use judge::payload::Sections;
use judge::{build, check, gridcount, owner_numbers, read, sample};
use judge::{builds, plans, reads};
use std::io::Read;
use std::process::ExitCode;

const USAGE: &str = "\
judge gridcount PROGRAM [CASES] [SEED]   compare PROGRAM with the reference (2000 cases, seed 1)
judge gridcount PROGRAM --case K SEED    compare one case again
judge count                              what gridcount should print for standard input
judge input K SEED                       gridcount's input number K of a seed, in hex, and the expected output
judge show HEX                           what the reference says of a plan
judge expect DIRECTORY [CASES] [SEED]    write inputs, and the digests of all answers to them (200 cases, seed 1)
judge builds DIRECTORY                   write what build_vectors reads and must print: stdin, stdout
judge reads DIRECTORY                    write what read_vectors reads and must print: stdin, stdout
judge plans DIRECTORY                    write what plan_vectors reads and must print: stdin, stdout
judge samples                            the digest of all samples";

fn number(text: Option<&String>, otherwise: u64) -> Result<u64, String> {
    text.map_or(Ok(otherwise), |text| text.parse().map_err(|_| format!("{text} is no number")))
}

/// The FNV-1a digest, 64 bits.
struct Digest(u64);

impl Digest {
    fn new() -> Digest {
        Digest(0xCBF2_9CE4_8422_2325)
    }

    fn add(&mut self, bytes: &[u8]) {
        for byte in bytes {
            self.0 = (self.0 ^ u64::from(*byte)).wrapping_mul(0x0100_0000_01B3);
        }
    }

    fn of(bytes: &[u8]) -> String {
        let mut digest = Digest::new();
        digest.add(bytes);
        format!("{:016x}", digest.0)
    }
}

fn show(plan: &[u8]) {
    let plan = match check(plan) {
        Ok(plan) => plan,
        Err(refusal) => return println!("refused {refusal}"),
    };
    println!("{:?}\n{:?}", plan.cell, plan.frame);
    plan.his.iter().for_each(|hi| println!("{hi:?}"));
    let layout = layout(&plan);
    for (user, places) in plan.users.iter().zip(&layout.users) {
        println!("{user:?} elements {}", places.len());
    }
    println!("grid {} bytes", plan.cell.grid_length());
    println!("payload {} bytes", Sections::new(&plan, &layout).length);
    KINDS.iter().zip(layout.counts()).for_each(|(name, count)| println!("{name} {count}"));
}

/// One line of all answers to a plan and a payload. Numbers below 0 are refusals. Owners are digested as
/// 16-bit numbers, high byte first, s by s. The damaged grid is the built one with byte 7919·K mod its length
/// negated or, where that changes nothing, with its lowest bit turned over.
fn answers(case: u64, plan: &[u8], payload: &[u8]) -> String {
    let refused = |refusal: u8| -i64::from(refusal);
    let grid_length = judge::grid_length(plan).unwrap_or(0);
    let mut line = format!(
        "{case} check {} gridlen {} payloadlen {}",
        check(plan).map_or_else(refused, |_| 0),
        judge::grid_length(plan).map_or_else(refused, |length| length as i64),
        judge::payload_length(plan).map_or_else(refused, |length| length as i64)
    );
    if let Ok(owners) = owner_numbers(plan) {
        let bytes: Vec<u8> = owners.iter().flat_map(|owner| owner.to_be_bytes()).collect();
        line += &format!(" owners {}", Digest::of(&bytes));
    }
    let answer = |name: &str, answer: Result<(Vec<u8>, usize), u8>, what: &str| match answer {
        Ok((bytes, count)) => format!(" {name} {count} {what} {}", Digest::of(&bytes)),
        Err(refusal) => format!(" {name} {}", refused(refusal)),
    };
    let built = build(plan, payload, grid_length);
    line += &answer("build", built.clone(), "grid");
    if let Ok((mut grid, _)) = built {
        line += &answer("read", read(plan, &grid, payload.len()), "payload");
        let at = (7919 * case) as usize % grid.len();
        let negated = grid[at].wrapping_neg();
        grid[at] = if negated == grid[at] { grid[at] ^ 1 } else { negated };
        line += &answer("damaged", read(plan, &grid, payload.len()), "payload");
    }
    line
}

/// A plan and a payload, most of them right.
fn plan_and_payload(seed: u64, case: u64) -> (Vec<u8>, Vec<u8>) {
    let mut random = Random::of_case(seed, case);
    let plan = if random.one_in(4) { damaged_plan(&mut random) } else { any_plan(&mut random) };
    let right = right_payload(&mut random, &plan).unwrap_or_default();
    let payload = match random.below(10) {
        0 => wrong_length(&mut random, &right),
        1 => spare_set(&mut random, &plan).unwrap_or(right),
        _ => right,
    };
    (plan, payload)
}

/// Writes DIRECTORY/K.in (gridcount's form), K.out (gridcount's output) and expected.txt, a line for each K.
fn expect(directory: &str, cases: u64, seed: u64) -> Result<(), String> {
    println!("seed {seed}");
    let told = |error: std::io::Error| error.to_string();
    std::fs::create_dir_all(directory).map_err(told)?;
    let mut lines = format!("seed {seed}\n");
    for case in 0..cases {
        let (plan, payload) = plan_and_payload(seed, case);
        let whole = input(&plan, &payload);
        std::fs::write(format!("{directory}/{case}.in"), &whole).map_err(told)?;
        std::fs::write(format!("{directory}/{case}.out"), gridcount(&whole)).map_err(told)?;
        lines += &(answers(case, &plan, &payload) + "\n");
    }
    std::fs::write(format!("{directory}/expected.txt"), lines).map_err(told)
}

/// Writes DIRECTORY/stdin and DIRECTORY/stdout.
fn write_vectors(directory: &str, input: &[u8], output: &str) -> Result<(), String> {
    let told = |error: std::io::Error| error.to_string();
    std::fs::create_dir_all(directory).map_err(told)?;
    std::fs::write(format!("{directory}/stdin"), input).map_err(told)?;
    std::fs::write(format!("{directory}/stdout"), output).map_err(told)
}

/// All 2^24 elements in order, each as kind, I and J: 64-bit numbers, low byte first.
fn samples() {
    let mut digest = Digest::new();
    for byte in 0..=255 {
        for i in 0..=255 {
            for j in 0..=255 {
                for number in sample::sample_numbers(byte, i, j) {
                    digest.add(&number.to_le_bytes());
                }
            }
        }
    }
    println!("samples {:016x}", digest.0);
}

fn command(arguments: &[String]) -> Result<bool, String> {
    let words: Vec<&str> = arguments.iter().map(String::as_str).collect();
    match words.as_slice() {
        ["gridcount", program, "--case", _, _] => {
            let (case, seed) = (number(arguments.get(3), 0)?, number(arguments.get(4), 0)?);
            println!("seed {seed}");
            let answer = gridcount_one(program, seed, case);
            match &answer {
                Ok(expected) => println!("case {case} of seed {seed} agrees:\n{expected}"),
                Err(told) => print!("{told}"),
            }
            Ok(answer.is_ok())
        }
        ["gridcount", program, rest @ ..] if rest.len() <= 2 => {
            Ok(gridcount_many(program, number(arguments.get(2), 2000)?, number(arguments.get(3), 1)?))
        }
        ["count"] => {
            let mut input = Vec::new();
            std::io::stdin().read_to_end(&mut input).map_err(|error| error.to_string())?;
            print!("{}", gridcount(&input));
            Ok(true)
        }
        ["input", _, _] => {
            let input = gridcount_case(number(arguments.get(2), 0)?, number(arguments.get(1), 0)?);
            print!("{}\n{}", hex(&input), gridcount(&input));
            Ok(true)
        }
        ["show", rest @ ..] => {
            show(&unhex(&rest.concat()).ok_or("no hexadecimal digits")?);
            Ok(true)
        }
        ["expect", directory, rest @ ..] if rest.len() <= 2 => {
            expect(directory, number(arguments.get(2), 200)?, number(arguments.get(3), 1)?).map(|()| true)
        }
        ["builds", directory] => {
            let calls = builds::calls();
            write_vectors(directory, &builds::input(&calls), &builds::output(&calls)).map(|()| true)
        }
        ["reads", directory] => {
            let tests = reads::tests();
            write_vectors(directory, &reads::input(&tests), &reads::output(&tests)).map(|()| true)
        }
        ["plans", directory] => {
            let plans = plans::plans();
            write_vectors(directory, &plans::input(&plans), &plans::output(&plans)).map(|()| true)
        }
        ["samples"] => {
            samples();
            Ok(true)
        }
        _ => Err(USAGE.to_string()),
    }
}

fn main() -> ExitCode {
    let arguments: Vec<String> = std::env::args().skip(1).collect();
    match command(&arguments) {
        Ok(true) => ExitCode::SUCCESS,
        Ok(false) => ExitCode::from(1),
        Err(text) => {
            eprintln!("{text}");
            ExitCode::from(2)
        }
    }
}
