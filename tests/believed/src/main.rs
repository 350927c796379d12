//! believed ROOT          the definitions that a reader of the public calls and of the theorems must believe
//! believed ROOT check N  how many lines they have; fails where the definitions, without the declared types, have more than N

use believed::{reach, report, Book, Module, Place};
use std::process::ExitCode;

/// The public calls, and the functions for C, which state the contracts of ten of them again; each contract is a statement.
const CALLS: [&str; 2] = ["crates/mapper/src/lib.rt", "crates/mapper_c/src/lib.rt"];

/// The theorems that docs/APPROVAL.md calls A, B and C, that no two answers meet read's promise, and what a call of read has to do with calls of build.
const THEOREMS: [(&str, &str); 9] = [
    ("crates/layout/proofs/OneOwner.antt", "one-owner"),
    ("crates/counts/proofs/AddUp.antt", "counts-add-up"),
    ("crates/counts/proofs/AddUp.antt", "kinds-add-up"),
    ("crates/subframe/proofs/TwoBuilds.antt", "two-builds"),
    ("crates/build/proofs/Apart.antt", "builds-apart"),
    ("crates/read/proofs/Once.antt", "once"),
    ("crates/read/proofs/Builds.antt", "returned-builds"),
    ("crates/read/proofs/Builds.antt", "none-builds"),
    ("crates/read/proofs/Builds.antt", "built-back"),
];

/// Laws that answer a sentence of document 01, or of document 02, of their own.
const FURTHER: [(&str, &str); 17] = [
    ("crates/known/proofs/Known.antt", "known-elements"),
    ("crates/known/proofs/Example.antt", "the-example"),
    ("crates/known/proofs/SixBlocks.antt", "six-blocks"),
    ("crates/known/proofs/Extended.antt", "extended-duration"),
    ("crates/plan/proofs/Valid.antt", "valid"),
    ("crates/plan/proofs/Known.antt", "limits"),
    ("crates/plan/proofs/Known.antt", "durations"),
    ("crates/plan/proofs/Known.antt", "cellx-normal"),
    ("crates/places/proofs/Listing.antt", "pcfich-exactly"),
    ("crates/places/proofs/Listing.antt", "phich-exactly"),
    ("crates/phich/proofs/Units.antt", "exactly"),
    ("crates/payload/proofs/EveryBit.antt", "exactly-once"),
    ("crates/payload/proofs/EveryBit.antt", "bit-owner"),
    ("crates/payload/proofs/EveryBit.antt", "spare-or-owned"),
    ("crates/payload/proofs/EveryBit.antt", "spare-not-owned"),
    ("crates/build/proofs/Answers.antt", "accepted-neither"),
    ("crates/mapper/proofs/BuiltElements.antt", "built-elements"),
];

/// Read's equation: the record `Reads`, which the calls promise beside it, leaves it no choice.
const DETERMINED: [(&str, &str); 2] =
    [("crates/read/specs/Equation.antt", "read_of"), ("crates/read/specs/Equation.antt", "payload_after")];

/// The definitions, laws and sources below a root.
fn book(root: &str) -> Result<Book, String> {
    let listed = |folder: &str| -> Vec<String> {
        let entries = std::fs::read_dir(format!("{root}/{folder}")).into_iter().flatten().flatten();
        entries.map(|entry| format!("{folder}/{}", entry.file_name().to_string_lossy())).collect()
    };
    let mut book = Book::new();
    for package in listed("crates") {
        let files = ["specs", "proofs", "src"].map(|folder| listed(&format!("{package}/{folder}")));
        for path in
            files.into_iter().flatten().filter(|path| path.ends_with(".antt") || path.ends_with(".rt"))
        {
            let text = std::fs::read_to_string(format!("{root}/{path}"))
                .map_err(|error| format!("{path}: {error}"))?;
            let module =
                if path.ends_with(".rt") { Module::of_rattle(&text) } else { Module::of_logic(&text) };
            book.insert(path, module);
        }
    }
    Ok(book)
}

/// Prints the table, or the total alone. Not well where the total is above the limit, or a word stands for nothing known.
fn run(root: &str, limit: Option<usize>) -> Result<bool, String> {
    let book = book(root)?;
    let place = |(path, name): (&str, &str)| -> Place { (path.into(), name.into()) };
    let mut statements: Vec<Place> = THEOREMS.map(place).to_vec();
    for path in CALLS {
        let calls = &book.get(path).ok_or(format!("no file {path}"))?.statements;
        statements.extend(calls.keys().map(|name| place((path, name))));
    }
    let reached = reach(&book, &statements, &DETERMINED.map(place))?;
    let further = reach(&book, &FURTHER.map(place), &[])?;
    let (total, types) = report::counts(&reached.definitions);
    match limit {
        None => print!("{}{}", report::table(&book, &reached), report::further(&book, &reached, &further)),
        Some(_) => println!("{total} lines of definitions, {types} of types"),
    }
    for ((path, name), word) in reached.unknown.iter().chain(&further.unknown) {
        eprintln!("{path}, {name}: {word} stands for nothing known");
    }
    Ok(reached.unknown.is_empty() && further.unknown.is_empty() && limit.is_none_or(|limit| total <= limit))
}

fn main() -> ExitCode {
    let arguments: Vec<String> = std::env::args().skip(1).collect();
    let result = match arguments.iter().map(String::as_str).collect::<Vec<&str>>()[..] {
        [root] => run(root, None),
        [root, "check", limit] => {
            limit.parse().map_err(|_| format!("{limit} is no number")).and_then(|n| run(root, Some(n)))
        }
        _ => Err("believed ROOT [check N]".into()),
    };
    match result {
        Ok(well) => ExitCode::from(u8::from(!well)),
        Err(message) => {
            eprintln!("{message}");
            ExitCode::from(2)
        }
    }
}
