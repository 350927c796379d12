//! gridbuild and gridread: what they write on standard output, byte for byte, and the refusal's number on standard error. Inputs are a
//! two-byte plan length, the plan, and the payload or the grid.

use judge::generate::{
    any_plan, damaged_plan, gridcount_case, his, input, right_payload, Fixed, His, Random, SIX_BLOCKS_CASES,
};
use judge::harness::{hex, Tally};
use judge::plan::{Refusal, END, UNKNOWN_OR_SHORT, USER};
use std::fs::OpenOptions;
use std::io::{Read, Write};
use std::path::Path;
use std::process::{Command, Stdio};
use std::sync::mpsc::{channel, Receiver};
use std::thread::spawn;
use std::time::Duration;

const SEED: u64 = 1;
const INPUTS: u64 = 300;

/// The input with the longest payload; gridcount has special ones before it.
const LONGEST: u64 = SIX_BLOCKS_CASES.end;

/// A program that has not ended after so long is taken to hang.
const PATIENCE: Duration = Duration::from_secs(20);

/// More than any program reads.
const TOO_LONG: usize = 300_000;

/// The files that `rt ci` runs the programs on, and document 01's example.
const EXAMPLE: &[u8] = include_bytes!("../../gridcount/example.in");
const BUILD_IN: &[u8] = include_bytes!("../../../crates/gridbuild/stdin");
const BUILD_OUT: &[u8] = include_bytes!("../../../crates/gridbuild/stdout");
const READ_IN: &[u8] = include_bytes!("../../../crates/gridread/stdin");
const READ_OUT: &[u8] = include_bytes!("../../../crates/gridread/stdout");

/// What a program should write: bytes on standard output, or a refusal on standard error.
type Answer = Result<Vec<u8>, Refusal>;

/// A program, what the judge says of an input, and its inputs.
struct Program {
    name: &'static str,
    judged: fn(&[u8]) -> Answer,
    input: fn(u64) -> Vec<u8>,
}

const PROGRAMS: [Program; 2] = [
    Program { name: "gridbuild", judged: built, input: build_input },
    Program { name: "gridread", judged: read_back, input: read_input },
];

/// The plan and the rest; an input that is cut off before the plan's end is refused 1.
fn parts(input: &[u8]) -> Result<(&[u8], &[u8]), Refusal> {
    let [high, low, rest @ ..] = input else { return Err(UNKNOWN_OR_SHORT) };
    let length = usize::from(u16::from_be_bytes([*high, *low]));
    rest.split_at_checked(length).ok_or(UNKNOWN_OR_SHORT)
}

fn built(input: &[u8]) -> Answer {
    let (plan, payload) = parts(input)?;
    judge::build(plan, payload, judge::grid_length(plan)?).map(|(grid, _)| grid)
}

fn read_back(input: &[u8]) -> Answer {
    let (plan, grid) = parts(input)?;
    judge::read(plan, grid, judge::payload_length(plan)?).map(|(payload, _)| payload)
}

/// The plan with the longest payload of all: 200 HIs, and one user of 256QAM with 15,000 elements.
fn longest_plan() -> Vec<u8> {
    let (identity, duration) = (503, None);
    let fixed =
        Fixed { identity, blocks: 100, prefix: 0, ports: 1, g: 12, duration, frame: 0, subframe: 1, cfi: 1 };
    let his = his(&mut Random::new(SEED), &fixed.cell(), His::All);
    [fixed.commands().concat(), his.concat(), vec![USER, 0, 1, 8, 0, 100, END]].concat()
}

/// gridcount's inputs: accepted ones, damaged plans and payloads, inputs that are cut off; and the longest payload.
fn build_input(case: u64) -> Vec<u8> {
    if case == LONGEST {
        let plan = longest_plan();
        return input(&plan, &right_payload(&mut Random::new(SEED), &plan).expect("an accepted plan"));
    }
    let mut input = gridcount_case(SEED, case);
    if case % 60 == 7 {
        input.resize(TOO_LONG, 0);
    }
    input
}

fn read_input(case: u64) -> Vec<u8> {
    let mut random = Random::of_case(!SEED, case);
    if case == 0 {
        return READ_IN.to_vec();
    }
    if case == LONGEST {
        let plan = longest_plan();
        return input(&plan, &grid_of(&mut random, &plan));
    }
    if SIX_BLOCKS_CASES.contains(&case) {
        let whole = gridcount_case(SEED, case);
        let (plan, _) = parts(&whole).expect("a plan");
        let grid = grid_of(&mut random, plan);
        return input(plan, &if case % 2 == 0 { grid } else { changed(&mut random, plan, grid) });
    }
    let plan = any_plan(&mut random);
    let grid = grid_of(&mut random, &plan);
    match random.below(20) {
        0..=5 => input(&plan, &grid),
        6 => input(&plan, &wrong_length(&mut random, grid)),
        7 => {
            let whole = input(&plan, &grid);
            whole[..random.below(plan.len() + 2)].to_vec()
        }
        8..=11 => {
            let plan = damaged_plan(&mut random);
            let rest = if judge::check(&plan).is_ok() { grid_of(&mut random, &plan) } else { grid };
            input(&plan, &rest)
        }
        _ => input(&plan, &changed(&mut random, &plan, grid)),
    }
}

/// The grid of an accepted plan and any payload.
fn grid_of(random: &mut Random, plan: &[u8]) -> Vec<u8> {
    let payload = right_payload(random, plan).expect("an accepted plan");
    built(&input(plan, &payload)).expect("an accepted payload")
}

fn wrong_length(random: &mut Random, mut grid: Vec<u8>) -> Vec<u8> {
    let lengths =
        [0, grid.len() / 2, grid.len() - 3, grid.len() - 1, grid.len() + 1, 2 * grid.len(), TOO_LONG];
    grid.resize(random.pick(&lengths), 0);
    grid
}

/// The first byte of an element, of one that is silent or of one that is not.
fn element(random: &mut Random, grid: &[u8], silent: bool) -> usize {
    loop {
        let at = 3 * random.below(grid.len() / 3);
        // A grid may lack silent elements.
        if (grid[at] == 0) == silent || random.one_in(1000) {
            return at;
        }
    }
}

/// A grid with changes; some payload may still make it.
fn changed(random: &mut Random, plan: &[u8], mut grid: Vec<u8>) -> Vec<u8> {
    match random.below(7) {
        0 => {
            for _ in 0..1 + random.below(4) {
                let at = random.below(grid.len());
                grid[at] = random.byte();
            }
        }
        // A level or a unit by one, or negated.
        1 => {
            let at = element(random, &grid, false) + random.below(3);
            let byte = grid[at];
            grid[at] = random.pick(&[byte.wrapping_add(1), byte.wrapping_sub(1), byte.wrapping_neg()]);
        }
        2 => {
            let at = element(random, &grid, false);
            grid[at..at + 3].fill(0);
        }
        3 => {
            let (a, b) = (element(random, &grid, false), element(random, &grid, false));
            (0..3).for_each(|i| grid.swap(a + i, b + i));
        }
        4 => {
            let at = element(random, &grid, true) + random.below(3);
            grid[at] = 1 + random.byte() % 255;
        }
        // Up to some element as another payload makes it. With one port that is often a grid again.
        5 => {
            let other = grid_of(random, plan);
            let end = element(random, &grid, false);
            grid[..end].copy_from_slice(&other[..end]);
        }
        // The grid of another cell.
        _ => {
            let mut other = plan.to_vec();
            other[1..3].copy_from_slice(&(random.below(504) as u16).to_be_bytes());
            grid = grid_of(random, &other);
        }
    }
    grid
}

/// All that comes through a pipe.
fn collected(mut pipe: impl Read + Send + 'static) -> Receiver<Vec<u8>> {
    let (sender, receiver) = channel();
    spawn(move || {
        let mut bytes = Vec::new();
        let _ = pipe.read_to_end(&mut bytes);
        let _ = sender.send(bytes);
    });
    receiver
}

/// Standard output and standard error of a program, or why there is nothing to compare. Without `output` its standard output is a pipe.
fn run(program: &Path, input: &[u8], output: Option<Stdio>) -> Result<(Vec<u8>, Vec<u8>), String> {
    let mut child = Command::new(program)
        .stdin(Stdio::piped())
        .stdout(output.unwrap_or_else(Stdio::piped))
        .stderr(Stdio::piped())
        .spawn()
        .map_err(|error| format!("does not start: {error}"))?;
    let mut stdin = child.stdin.take().expect("a piped input");
    let input = input.to_vec();
    // A program may stop reading early; that alone is no fault.
    let writer = spawn(move || drop(stdin.write_all(&input)));
    let output = child.stdout.take().map(collected);
    let error = collected(child.stderr.take().expect("a piped standard error"));
    let output = output.map_or(Ok(vec![]), |output| output.recv_timeout(PATIENCE));
    let error = error.recv_timeout(PATIENCE);
    if output.is_err() || error.is_err() {
        let _ = child.kill();
    }
    let status = child.wait().map_err(|error| error.to_string())?;
    let _ = writer.join();
    match (output, error) {
        (Ok(_), Ok(_)) if status.code().is_none() => Err(format!("crashed: {status}")),
        (Ok(output), Ok(error)) => Ok((output, error)),
        _ => Err(format!("no end after {} seconds", PATIENCE.as_secs())),
    }
}

/// The number of a refusal's line, "refused N: " and a sentence.
fn refusal(line: &[u8]) -> Option<Refusal> {
    let line = std::str::from_utf8(line).ok()?.strip_prefix("refused ")?.strip_suffix('\n')?;
    let (number, sentence) = line.split_once(": ")?;
    let plain = !sentence.is_empty() && !sentence.contains('\n');
    number.parse().ok().filter(|_| plain)
}

/// Whether a program wrote what is expected; if not, what differs.
fn same(expected: &Answer, output: &[u8], error: &[u8]) -> Result<(), String> {
    let told = String::from_utf8_lossy(error);
    let told = told.trim_end();
    match expected {
        Ok(bytes) if !error.is_empty() => Err(format!("{} bytes expected, but: {told}", bytes.len())),
        Ok(bytes) if bytes == output => Ok(()),
        Ok(bytes) => {
            let first = bytes.iter().zip(output).take_while(|(expected, found)| expected == found).count();
            Err(format!("{} bytes expected, {} found; the first {first} agree", bytes.len(), output.len()))
        }
        Err(number) if !output.is_empty() => {
            Err(format!("refusal {number} expected, {} bytes found", output.len()))
        }
        Err(number) if refusal(error) == Some(*number) => Ok(()),
        Err(number) => Err(format!("refusal {number} expected, found: {told}")),
    }
}

/// A difference, with what reproduces it.
fn difference(name: &str, case: u64, input: &[u8], text: &str) {
    let rest = if input.len() > 1500 { ".." } else { "" };
    let shown = hex(&input[..input.len().min(1500)]);
    println!("DIFFERENCE of {name} in case {case}: {text}\ninput ({} bytes): {shown}{rest}", input.len());
}

/// The differences of one program on all its inputs.
fn compare_program(bin: &Path, program: &Program) -> usize {
    let (path, mut tally, mut differences) = (bin.join(program.name), Tally::default(), 0);
    for case in 0..INPUTS {
        let input = (program.input)(case);
        let expected = (program.judged)(&input);
        tally.add(&expected.as_ref().map_or_else(|number| format!("refused {number}"), |_| String::new()));
        let ran = run(&path, &input, None);
        if let Err(text) = ran.and_then(|(output, error)| same(&expected, &output, &error)) {
            differences += 1;
            difference(program.name, case, &input, &text);
        }
    }
    println!("{}: {INPUTS} inputs, {differences} differences; expected {}", program.name, tally.text());
    differences
}

/// Whether a program says so when its output cannot be written.
fn full_device(bin: &Path, name: &str, input: &[u8]) -> bool {
    let Ok(full) = OpenOptions::new().write(true).open("/dev/full") else { return true };
    let ran = run(&bin.join(name), input, Some(full.into()));
    let told = matches!(&ran, Ok((_, error)) if error == b"standard output is cut off\n");
    if !told {
        println!("DIFFERENCE of {name}: its output cannot be written, but: {ran:?}");
    }
    told
}

/// Prints a line for each program and gives the number of differences.
pub fn compare(bin: &Path) -> usize {
    let checks = [
        ("gridbuild's stdin is document 01's example", BUILD_IN == EXAMPLE),
        ("gridbuild's stdout is its grid", built(BUILD_IN) == Ok(BUILD_OUT.to_vec())),
        (
            "gridread's stdin is plan and grid",
            parts(EXAMPLE).is_ok_and(|(plan, _)| READ_IN == input(plan, BUILD_OUT)),
        ),
        ("gridread's stdout is the payload", parts(EXAMPLE).is_ok_and(|(_, payload)| READ_OUT == payload)),
        ("gridbuild to a full device", full_device(bin, "gridbuild", BUILD_IN)),
        ("gridread to a full device", full_device(bin, "gridread", READ_IN)),
    ];
    let failed =
        checks.iter().filter(|(_, right)| !right).inspect(|(text, _)| println!("NOT SO: {text}")).count();
    failed + PROGRAMS.iter().map(|program| compare_program(bin, program)).sum::<usize>()
}
