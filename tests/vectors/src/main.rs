//! Prints expected vectors for the downlink mapper, written from TS 36.211,
//! TS 36.212 and documents 01 and 02 alone. One argument names the section.

mod crs;
mod gold;
mod interleaver;
mod modulation;
mod phich;
mod precoding;
mod sample;
mod sync;

use std::io::Write;
use std::process::ExitCode;

/// The lines of one section.
fn section(name: &str) -> Option<Vec<String>> {
    match name {
        "gold" => Some(gold::lines()),
        "modulation" => Some(modulation::lines()),
        "sync" => Some(sync::lines()),
        "crs" => Some(crs::lines()),
        "phich" => Some(phich::lines()),
        "precoding" => Some(precoding::lines()),
        "sample" => Some(sample::lines()),
        "interleaver" => Some(interleaver::lines()),
        _ => None,
    }
}

fn main() -> ExitCode {
    let args: Vec<String> = std::env::args().skip(1).collect();
    let lines = match args.as_slice() {
        [name] => section(name),
        _ => None,
    };
    let Some(lines) = lines else {
        eprintln!("usage: vectors gold|modulation|sync|crs|phich|precoding|sample|interleaver");
        return ExitCode::from(2);
    };
    let mut text = lines.join("\n");
    text.push('\n');
    match std::io::stdout().write_all(text.as_bytes()) {
        Ok(()) => ExitCode::SUCCESS,
        Err(error) => {
            eprintln!("vectors: {error}");
            ExitCode::FAILURE
        }
    }
}

#[cfg(test)]
mod tests {
    use super::section;

    const NAMES: [&str; 8] = [
        "gold",
        "modulation",
        "sync",
        "crs",
        "phich",
        "precoding",
        "sample",
        "interleaver",
    ];

    #[test]
    fn fields_are_separated_by_one_space() {
        for name in NAMES {
            for line in section(name).unwrap() {
                assert!(line.is_ascii());
                assert!(line.split(' ').all(|field| !field.is_empty()), "{line:?}");
                assert!(line.bytes().all(|b| (b' '..=b'~').contains(&b)));
            }
        }
    }

    #[test]
    fn line_counts() {
        // gold: 1 + 9 * 6 + 28; modulation: 340 + 4 * 33 * 33;
        // sync: 3 + 168 + 102 * 2; crs: 2 * 6 * 4 * 3 * 3;
        // phich: 2 * 24 * 4; precoding: 5 + 12 + 32 + 24 + 36 * (1 + 2 + 4);
        // sample: 9 + 9 * 33 + 256;
        // interleaver: 4 * (6 + 4 * 2 + 3 + 4 + 8 + 11 + 16 + 22 + 25).
        let counts = [83, 4696, 375, 432, 192, 325, 562, 412];
        for (name, count) in NAMES.iter().zip(counts) {
            assert_eq!(section(name).unwrap().len(), count, "{name}");
        }
    }

    #[test]
    fn unknown_section() {
        assert!(section("").is_none());
        assert!(section("Gold").is_none());
    }
}
