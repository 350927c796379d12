//! Runs programs and compares their answers with the library's.

use crate::generate::gridcount_case;
use crate::gridcount::gridcount;
use std::collections::BTreeMap;
use std::io::{Read, Write};
use std::process::{Command, Stdio};
use std::sync::mpsc;
use std::time::Duration;

/// A program that says nothing for so long is taken to hang.
const PATIENCE: Duration = Duration::from_secs(20);

/// What a program did: its standard output, or why there is none to compare.
pub fn run(program: &str, input: &[u8]) -> Result<Vec<u8>, String> {
    let mut child = Command::new(program)
        .stdin(Stdio::piped())
        .stdout(Stdio::piped())
        .stderr(Stdio::null())
        .spawn()
        .map_err(|error| format!("{program} does not start: {error}"))?;
    let mut stdin = child.stdin.take().expect("a piped input");
    let mut stdout = child.stdout.take().expect("a piped output");
    let input = input.to_vec();
    // A program may stop reading early; that alone is no fault.
    let writer = std::thread::spawn(move || drop(stdin.write_all(&input)));
    let (sender, receiver) = mpsc::channel();
    let reader = std::thread::spawn(move || {
        let mut output = Vec::new();
        let _ = stdout.read_to_end(&mut output);
        let _ = sender.send(output);
    });
    let output = receiver.recv_timeout(PATIENCE);
    if output.is_err() {
        let _ = child.kill();
    }
    let status = child.wait().map_err(|error| error.to_string())?;
    let _ = (writer.join(), reader.join());
    match output {
        Err(_) => Err(format!("no end after {} seconds", PATIENCE.as_secs())),
        // The papers fix no exit status, but a program that is killed by a signal has crashed.
        Ok(_) if status.code().is_none() => Err(format!("crashed: {status}")),
        Ok(output) => Ok(output),
    }
}

pub fn hex(bytes: &[u8]) -> String {
    bytes.iter().map(|byte| format!("{byte:02x}")).collect()
}

/// Bytes of a text of hexadecimal digits, blanks left out.
pub fn unhex(text: &str) -> Option<Vec<u8>> {
    let digits: Vec<u8> = text.bytes().filter(|byte| !byte.is_ascii_whitespace()).collect();
    if digits.len() % 2 == 1 {
        return None;
    }
    digits.chunks(2).map(|pair| u8::from_str_radix(std::str::from_utf8(pair).ok()?, 16).ok()).collect()
}

/// The class of an expected output: "accepted" or "refused N".
fn class(expected: &str) -> String {
    let line = expected.trim_end();
    if line.starts_with("refused") {
        line.to_string()
    } else {
        "accepted".to_string()
    }
}

/// Classes in order: accepted first, then by number.
fn rank(class: &str) -> u32 {
    class.strip_prefix("refused ").map_or(0, |number| number.parse().unwrap_or(u32::MAX))
}

/// How many cases of a run have each expected answer.
#[derive(Default)]
pub struct Tally(BTreeMap<(u32, String), usize>);

impl Tally {
    pub fn add(&mut self, expected: &str) {
        let class = class(expected);
        *self.0.entry((rank(&class), class)).or_default() += 1;
    }

    pub fn text(&self) -> String {
        let parts: Vec<String> =
            self.0.iter().map(|((_, class), count)| format!("{class}: {count}")).collect();
        parts.join(", ")
    }

    pub fn classes(&self) -> Vec<String> {
        self.0.keys().map(|(_, class)| class.clone()).collect()
    }
}

/// Compares one case; a difference is told with everything that reproduces it.
pub fn gridcount_one(program: &str, seed: u64, case: u64) -> Result<String, String> {
    let input = gridcount_case(seed, case);
    let expected = gridcount(&input);
    let told = match run(program, &input) {
        Ok(output) if output == expected.as_bytes() => return Ok(expected),
        Ok(output) => String::from_utf8_lossy(&output).into_owned(),
        Err(fault) => format!("({fault})"),
    };
    Err(format!(
        "DIFFERENCE in case {case} of seed {seed}\nagain: judge gridcount {program} --case {case} {seed}\n\
         expected:\n{expected}\nfound:\n{told}\ninput ({} bytes):\n{}\n",
        input.len(),
        hex(&input)
    ))
}

/// Compares the program on many cases; true if all agree.
pub fn gridcount_many(program: &str, cases: u64, seed: u64) -> bool {
    println!("seed {seed}");
    let (mut tally, mut differences) = (Tally::default(), 0);
    for case in 0..cases {
        match gridcount_one(program, seed, case) {
            Ok(expected) => tally.add(&expected),
            Err(told) => {
                differences += 1;
                tally.add(&gridcount(&gridcount_case(seed, case)));
                // The first ones say enough.
                if differences <= 10 {
                    print!("{told}");
                } else {
                    println!("DIFFERENCE in case {case} of seed {seed}");
                }
            }
        }
    }
    println!("gridcount: {cases} cases compared, {differences} differences; expected {}", tally.text());
    differences == 0
}
