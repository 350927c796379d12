//! The commands.

use library::calls::Library;
use library::sections::{named, Section, SECTIONS};
use std::process::ExitCode;
use std::sync::atomic::{AtomicU64, Ordering};
use std::time::Instant;

const USAGE: &str = "\
library part [SEED]                 a sample of every section (seed 1)
library all [SEED]                  everything
library case SECTION K SEED         one case again
library trace SECTION K L SEED      the cases K to L - 1, each told before it starts: finds one that crashes
sections: builds refusals grids samples owners";

fn number(text: &str) -> Result<u64, String> {
    text.parse().map_err(|_| format!("{text} is no number"))
}

fn section(name: &str) -> Result<&'static Section, String> {
    named(name).ok_or_else(|| format!("no section {name}\n{USAGE}"))
}

/// Tells how far a section is, at every tenth, on standard error: the output hangs on the seed alone.
struct Progress {
    name: &'static str,
    loud: bool,
    cases: u64,
    start: Instant,
    told: AtomicU64,
}

impl Progress {
    fn tell(&self, done: u64) {
        let tenths = 10 * done / self.cases;
        if self.loud && self.told.fetch_max(tenths, Ordering::Relaxed) < tenths {
            let seconds = self.start.elapsed().as_secs_f64();
            eprintln!("{}: {done} of {} cases, {seconds:.1} s", self.name, self.cases);
        }
    }
}

/// Runs so many cases of each section; true if nothing differs.
fn run(seed: u64, loud: bool, how_many: impl Fn(&Section) -> u64) -> bool {
    println!("seed {seed}");
    let (mut lines, mut right) = (String::new(), true);
    for section in &SECTIONS {
        let (name, cases) = (section.name, how_many(section));
        let progress = Progress { name, loud, cases, start: Instant::now(), told: AtomicU64::new(0) };
        let found = section.first(&Library::LINKED, seed, cases, |done| progress.tell(done));
        println!("{name}: {}", found.answers.text());
        print!("{}", found.text(name, seed));
        lines += &format!("{name}: {} cases, {} differences\n", found.cases, found.differences);
        right &= found.differences == 0;
    }
    print!("{lines}");
    right
}

fn one_case(section: &Section, case: u64, seed: u64) -> bool {
    let found = section.cases(&Library::LINKED, seed, case..case + 1);
    print!("{}", found.text(section.name, seed));
    if found.differences == 0 {
        println!("case {case} of {}, seed {seed}, agrees: {}", section.name, found.answers.text());
    }
    found.differences == 0
}

fn command(arguments: &[String]) -> Result<bool, String> {
    let words: Vec<&str> = arguments.iter().map(String::as_str).collect();
    match words.as_slice() {
        ["part"] => Ok(run(1, false, |section| section.part)),
        ["part", seed] => Ok(run(number(seed)?, false, |section| section.part)),
        ["all"] => Ok(run(1, true, |section| section.all)),
        ["all", seed] => Ok(run(number(seed)?, true, |section| section.all)),
        ["case", name, case, seed] => Ok(one_case(section(name)?, number(case)?, number(seed)?)),
        ["trace", name, first, end, seed] => {
            let (section, seed) = (section(name)?, number(seed)?);
            let mut right = true;
            for case in number(first)?..number(end)? {
                println!("case {case}");
                right &= one_case(section, case, seed);
            }
            Ok(right)
        }
        _ => Err(USAGE.to_string()),
    }
}

fn main() -> ExitCode {
    let arguments: Vec<String> = std::env::args().skip(1).collect();
    match command(&arguments) {
        Ok(true) => ExitCode::SUCCESS,
        Ok(false) => ExitCode::from(1),
        Err(text) => {
            eprintln!("{text}");
            ExitCode::from(2)
        }
    }
}
