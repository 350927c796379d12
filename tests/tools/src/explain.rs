//! planexplain compared, line for line, with an explanation of plans written from document 01 ("Plan and payload", "Refusals") with
//! document 02's #102, #108 and #109.

use judge::generate::{any_commands, damaged_plan, Fixed, Random, OF_SIX_BLOCKS};
use judge::harness::{hex, run};
use std::collections::BTreeMap;
use std::path::Path;

/// A command of documents 01 and 02: its byte, its name, and its fields' names and bytes.
struct Sort {
    byte: u8,
    name: &'static str,
    fields: &'static [(&'static str, usize)],
}

const SORTS: [Sort; 6] = [
    Sort {
        byte: 0x10,
        name: "CELL",
        fields: &[("identity", 2), ("blocks", 1), ("prefix", 1), ("ports", 1), ("g", 1)],
    },
    Sort {
        byte: 0x12,
        name: "CELLX",
        fields: &[("identity", 2), ("blocks", 1), ("prefix", 1), ("ports", 1), ("g", 1), ("duration", 1)],
    },
    Sort { byte: 0x11, name: "FRAME", fields: &[("frame", 2), ("subframe", 1), ("CFI", 1)] },
    Sort { byte: 0x20, name: "HI", fields: &[("group", 1), ("sequence", 1)] },
    Sort {
        byte: 0x30,
        name: "USER",
        fields: &[("RNTI", 2), ("modulation", 1), ("first block", 1), ("count", 1)],
    },
    Sort { byte: 0x00, name: "END", fields: &[] },
];

impl Sort {
    fn size(&self) -> usize {
        1 + self.fields.iter().map(|(_, bytes)| bytes).sum::<usize>()
    }

    /// The fields' values, big-endian.
    fn values(&self, command: &[u8]) -> Vec<usize> {
        let mut at = 1;
        let mut values = Vec::new();
        for (_, bytes) in self.fields {
            values.push(command[at..at + bytes].iter().fold(0, |value, byte| 256 * value + *byte as usize));
            at += bytes;
        }
        values
    }
}

/// A refusal's number and what is said after the command's place.
type Fault = (u8, String);

/// A command that was read: its number, its byte of the plan and its fields' values.
struct Read {
    number: usize,
    at: usize,
    values: Vec<usize>,
}

impl Read {
    fn clash(&self) -> String {
        format!("used before; clashes with command {} at byte {}", self.number, self.at)
    }
}

/// What has been read so far, by name of command.
#[derive(Default)]
struct Before {
    names: Vec<&'static str>,
    cell: Vec<usize>,
    his: Vec<Read>,
    users: Vec<Read>,
}

fn field(number: u8, name: &str, value: usize, allowed: &str) -> Option<Fault> {
    Some((number, format!(", field {name}: {value}; {allowed}")))
}

fn cell_fault(v: &[usize]) -> Option<Fault> {
    if v[0] > 503 {
        return field(3, "identity", v[0], "0 to 503");
    }
    if ![6, 15, 25, 50, 75, 100].contains(&v[1]) {
        return field(3, "blocks", v[1], "6, 15, 25, 50, 75 or 100");
    }
    if ![0, 1].contains(&v[2]) {
        return field(3, "prefix", v[2], "0 (normal) or 1 (extended)");
    }
    if ![1, 2, 4].contains(&v[3]) {
        return field(3, "ports", v[3], "1, 2 or 4");
    }
    if ![1, 3, 6, 12].contains(&v[4]) {
        return field(3, "g", v[4], "1, 3, 6 or 12 sixths");
    }
    match v.get(5) {
        Some(duration) if *duration > 1 => field(3, "duration", *duration, "0 (normal) or 1 (extended)"),
        _ => None,
    }
}

fn frame_fault(v: &[usize], before: &Before) -> Option<Fault> {
    if v[0] > 1023 {
        return field(4, "frame", v[0], "0 to 1023");
    }
    if v[1] > 9 {
        return field(4, "subframe", v[1], "0 to 9");
    }
    if !(1..=3).contains(&v[2]) {
        return field(4, "CFI", v[2], "1 to 3");
    }
    // "18, at FRAME after 4, when duration is extended and the control region is shorter than three symbols".
    let region = if before.cell[1] == 6 { v[2] + 1 } else { v[2] };
    if before.cell.get(5) == Some(&1) && region < 3 {
        let needs = "the extended PHICH duration needs 3";
        return field(18, "CFI", v[2], &format!("symbols of the control region: {region}; {needs}"));
    }
    None
}

fn hi_fault(v: &[usize], before: &Before) -> Option<Fault> {
    // "PHICH: ceil(gN/48) groups (extended twice that)"; "sequences 0–7, extended 0–3".
    let extended = before.cell[2];
    let groups = (before.cell[4] * before.cell[1]).div_ceil(48) * (1 + extended);
    let sequences = [8, 4][extended];
    if v[0] >= groups {
        return field(5, "group", v[0], &format!("below {groups}"));
    }
    if v[1] >= sequences {
        return field(5, "sequence", v[1], &format!("below {sequences}"));
    }
    if let Some(other) = before.his.iter().find(|other| other.values == v) {
        let said =
            format!(", field group and sequence: {} and {}; the pair was {}", v[0], v[1], other.clash());
        return Some((5, said));
    }
    None
}

fn user_fault(v: &[usize], before: &Before) -> Option<Fault> {
    if v[0] == 0 {
        return field(6, "RNTI", v[0], "1 to 65535");
    }
    if ![2, 4, 6, 8].contains(&v[1]) {
        return field(6, "modulation", v[1], "2, 4, 6 or 8");
    }
    if v[3] == 0 {
        return field(6, "count", v[3], "at least 1");
    }
    let blocks = before.cell[1];
    if v[2] + v[3] > blocks {
        return field(6, "first block + count", v[2] + v[3], &format!("at most {blocks}"));
    }
    if let Some(other) = before.users.iter().find(|other| other.values[0] == v[0]) {
        return field(7, "RNTI", v[0], &other.clash());
    }
    let blocks = |u: &[usize]| u[2]..u[2] + u[3];
    if let Some(other) =
        before.users.iter().find(|other| blocks(v).any(|block| blocks(&other.values).contains(&block)))
    {
        let said =
            format!(", field first block and count: {} and {}; a block was {}", v[2], v[3], other.clash());
        return Some((7, said));
    }
    None
}

/// "Order: CELL, FRAME, any HIs, any USERs, END"; CELLX "stands in its place".
fn is_due(name: &str, names: &[&str]) -> bool {
    match name {
        "CELL" | "CELLX" => names.is_empty(),
        "FRAME" => names == ["CELL"] || names == ["CELLX"],
        "HI" => names.len() >= 2 && names[2..].iter().all(|other| *other == "HI"),
        _ => names.len() >= 2,
    }
}

/// The first fault of the command that the bytes begin with; the plan goes on to their end.
fn fault(bytes: &[u8], before: &Before) -> Option<Fault> {
    if before.names.last() == Some(&"END") {
        return Some((2, ": a byte after END; END is the last".into()));
    }
    let Some(sort) = SORTS.iter().find(|sort| sort.byte == bytes[0]) else {
        return Some((1, format!(": {:02x} is no command; 10, 12, 11, 20, 30 or 00", bytes[0])));
    };
    if bytes.len() < sort.size() {
        return Some((1, ": the plan ends before the command's operands".into()));
    }
    if !is_due(sort.name, &before.names) {
        return Some((2, ": out of order; CELL or CELLX, FRAME, any HIs, any USERs, END".into()));
    }
    let values = sort.values(bytes);
    match sort.name {
        "CELL" | "CELLX" => cell_fault(&values),
        "FRAME" => frame_fault(&values, before),
        "HI" => hi_fault(&values, before),
        "USER" => user_fault(&values, before),
        _ => None,
    }
}

/// A whole command's fields in words.
fn words(name: &str, v: &[usize]) -> String {
    let choice = |list: &[(usize, &str)], value: usize, other: String| {
        list.iter().find(|(key, _)| *key == value).map_or(other, |(_, text)| text.to_string())
    };
    match name {
        "CELL" | "CELLX" => {
            let prefix =
                choice(&[(0, "normal prefix"), (1, "extended prefix")], v[2], format!("prefix {}", v[2]));
            let ports = if v[3] == 1 { "port" } else { "ports" };
            let n_g = choice(&[(3, "1/2"), (6, "1"), (12, "2")], v[4], format!("{}/6", v[4]));
            let duration = match v.get(5) {
                None => String::new(),
                Some(0) => ", normal PHICH duration".into(),
                Some(1) => ", extended PHICH duration".into(),
                Some(other) => format!(", PHICH duration {other}"),
            };
            format!("identity {}, {} blocks, {prefix}, {} {ports}, N_g {n_g}{duration}", v[0], v[1], v[3])
        }
        "FRAME" => format!("frame {}, subframe {}, CFI {}", v[0], v[1], v[2]),
        "HI" => format!("group {}, sequence {}", v[0], v[1]),
        "USER" => {
            let names = [(2, "QPSK"), (4, "16QAM"), (6, "64QAM"), (8, "256QAM")];
            let modulation = choice(&names, v[1], format!("modulation {}", v[1]));
            let blocks = match v[3] {
                0 => format!("no block from {}", v[2]),
                1 => format!("block {}", v[2]),
                n => format!("blocks {} to {}", v[2], v[2] + n - 1),
            };
            format!("RNTI {}, {modulation}, {blocks}", v[0])
        }
        _ => String::new(),
    }
}

fn row(number: usize, at: usize, bytes: &[u8]) -> String {
    let (name, rest) = match SORTS.iter().find(|sort| sort.byte == bytes[0]) {
        None => (format!("{:02x}", bytes[0]), "no command".into()),
        Some(sort) if bytes.len() < sort.size() => (sort.name.into(), "cut off".into()),
        Some(sort) => (sort.name.into(), words(sort.name, &sort.values(bytes))),
    };
    format!("{number:<6}byte {at:<6}{name:<7}{rest}").trim_end().to_string()
}

/// All lines; of "refused N: sentence" only the number.
fn lines_of_plan(plan: &[u8]) -> Vec<String> {
    let (mut lines, mut before, mut at) = (Vec::new(), Before::default(), 0);
    loop {
        let number = before.names.len() + 1;
        let found = if at < plan.len() {
            lines.push(row(number, at, &plan[at..]));
            fault(&plan[at..], &before)
        } else if before.names.last() == Some(&"END") {
            lines.push("accepted".into());
            return lines;
        } else {
            Some((1, ": the plan ends before END".into()))
        };
        if let Some((refusal, said)) = found {
            lines.push(format!("refused {refusal}"));
            lines.push(format!("command {number}, byte {at} of the plan{said}"));
            return lines;
        }
        let sort = SORTS.iter().find(|sort| sort.byte == plan[at]).expect("a known command");
        let values = sort.values(&plan[at..]);
        match sort.name {
            "CELL" | "CELLX" => before.cell = values,
            "HI" => before.his.push(Read { number, at, values }),
            "USER" => before.users.push(Read { number, at, values }),
            _ => {}
        }
        before.names.push(sort.name);
        at += sort.size();
    }
}

/// The lines for an input: a two-byte plan length, the plan, and what follows it.
fn lines_of_input(input: &[u8]) -> Vec<String> {
    let plan = match input {
        [high, low, rest @ ..] => rest.get(..256 * *high as usize + *low as usize),
        _ => None,
    };
    plan.map_or_else(
        || {
            let ends = format!("the input ends after {} bytes, before the plan does", input.len());
            vec!["refused 1".into(), ends]
        },
        lines_of_plan,
    )
}

/// What the program wrote, in the same form.
fn told(output: &[u8]) -> Vec<String> {
    let short = |line: &str| match line.split_once(": ") {
        Some((start, sentence)) if start.starts_with("refused ") && !sentence.is_empty() => start.to_string(),
        _ => line.to_string(),
    };
    String::from_utf8_lossy(output).lines().map(short).collect()
}

fn with_length(plan: &[u8]) -> Vec<u8> {
    let length = u16::try_from(plan.len()).expect("a plan of at most 65,535 bytes");
    [&length.to_be_bytes(), plan].concat()
}

/// A plan with a command of each sort, two HIs and four USERs, one of each modulation; the cell as CELL.
fn sample_plan() -> Vec<Vec<u8>> {
    vec![
        vec![0x10, 0x01, 0xF7, 25, 0, 2, 6],
        vec![0x11, 0x03, 0xFF, 9, 3],
        vec![0x20, 3, 3],
        vec![0x20, 0, 3],
        vec![0x30, 0, 7, 2, 0, 5],
        vec![0x30, 0, 8, 4, 20, 5],
        vec![0x30, 0xFF, 0xFF, 6, 5, 1],
        vec![0x30, 0, 9, 8, 6, 2],
        vec![0x00],
    ]
}

/// The same with the extended prefix and with CELLX of the extended PHICH duration.
fn long_plan() -> Vec<Vec<u8>> {
    let mut list = sample_plan();
    list[0] = vec![0x12, 0x01, 0xF7, 25, 1, 2, 6, 1];
    list
}

/// The same with six blocks, whose control region is one symbol longer than the CFI.
fn narrow_plan() -> Vec<Vec<u8>> {
    vec![
        vec![0x12, 0x00, 0x59, 6, 1, 4, 12, 1],
        vec![0x11, 0x00, 0x06, 0, 2],
        vec![0x20, 3, 3],
        vec![0x20, 0, 3],
        vec![0x30, 0, 7, 2, 4, 2],
        vec![0x30, 0, 8, 4, 0, 1],
        vec![0x30, 0xFF, 0xFF, 6, 1, 1],
        vec![0x30, 0, 9, 8, 2, 2],
        vec![0x00],
    ]
}

/// Byte values in and around every range of the papers.
const VALUES: [std::ops::RangeInclusive<u8>; 6] = [0..=26, 49..=51, 74..=76, 99..=101, 127..=128, 254..=255];

/// Each byte of each command at many values, and a two-byte field at both ends of its range.
fn every_field(list: &[Vec<u8>], inputs: &mut Vec<Vec<u8>>) {
    for (i, command) in list.iter().enumerate() {
        for at in 1..command.len() {
            for value in VALUES.into_iter().flatten() {
                let mut other = list.to_vec();
                other[i][at] = value;
                inputs.push(with_length(&other.concat()));
            }
        }
    }
    for (i, values) in [(0, [503_u16, 504]), (1, [1023, 1024]), (4, [0, 1]), (4, [65535, 8])] {
        for value in values {
            let mut other = list.to_vec();
            other[i][1..3].copy_from_slice(&value.to_be_bytes());
            inputs.push(with_length(&other.concat()));
        }
    }
}

/// Every two commands exchanged, every command twice, every command left out.
fn every_order(list: &[Vec<u8>], inputs: &mut Vec<Vec<u8>>) {
    for i in 0..list.len() {
        for j in 0..list.len() {
            let mut other = list.to_vec();
            other.swap(i, j);
            inputs.push(with_length(&other.concat()));
            let mut other = list.to_vec();
            other.insert(j, list[i].clone());
            inputs.push(with_length(&other.concat()));
        }
        let mut other = list.to_vec();
        other.remove(i);
        inputs.push(with_length(&other.concat()));
    }
}

/// The cell as CELL and as CELLX of three durations: in its place, and between any two commands.
fn every_form(list: &[Vec<u8>], inputs: &mut Vec<Vec<u8>>) {
    let operands = &list[0][1..7];
    let cellx = [0, 1, 2].map(|duration| [&[0x12], operands, &[duration]].concat());
    for form in [[&[0x10], operands].concat()].into_iter().chain(cellx) {
        let mut other = list.to_vec();
        other[0] = form.clone();
        inputs.push(with_length(&other.concat()));
        for i in 0..=list.len() {
            let mut other = list.to_vec();
            other.insert(i, form.clone());
            inputs.push(with_length(&other.concat()));
        }
    }
}

fn inputs() -> Vec<Vec<u8>> {
    let mut inputs = Vec::new();
    for list in [sample_plan(), long_plan(), narrow_plan()] {
        let plan = list.concat();
        every_field(&list, &mut inputs);
        every_order(&list, &mut inputs);
        every_form(&list, &mut inputs);
        for end in 0..=plan.len() {
            inputs.push(with_length(&plan[..end]));
        }
        // Bytes after END: each byte alone, and each command.
        for byte in 0..=255 {
            inputs.push(with_length(&[&plan[..], &[byte]].concat()));
        }
        for command in &list {
            inputs.push(with_length(&[&plan[..], command].concat()));
        }
        // An input that is cut off, and one with a payload.
        let whole = with_length(&plan);
        for end in 0..whole.len() {
            inputs.push(whole[..end].to_vec());
        }
        inputs.push([whole, vec![0; 100]].concat());
    }
    let mut random = Random::new(20);
    for i in 0..OF_SIX_BLOCKS {
        let fixed = Fixed::of_six_blocks(&mut random, i);
        inputs.push(with_length(&[&fixed.commands().concat()[..], &[0]].concat()));
    }
    for case in 0..1500 {
        let plan = if case < 300 { any_commands(&mut random).concat() } else { damaged_plan(&mut random) };
        inputs.push(with_length(&plan));
    }
    inputs
}

/// Clashes worked out by hand: the commands after CELL (25 blocks, N_g 1) and FRAME, and what is said of the last.
const CLASHES: [(&[&[u8]], &str); 6] = [
    // The second of three HIs has the pair; the third differs from it in the sequence alone.
    (
        &[&[0x20, 1, 2], &[0x20, 2, 1], &[0x20, 2, 2], &[0x20, 2, 1]],
        "command 6, byte 21 of the plan, field group and sequence: 2 and 1; the pair was used before; \
         clashes with command 4 at byte 15",
    ),
    // The same HI at once.
    (
        &[&[0x20, 0, 0], &[0x20, 0, 0]],
        "command 4, byte 15 of the plan, field group and sequence: 0 and 0; the pair was used before; \
         clashes with command 3 at byte 12",
    ),
    // The first user has a block, the second the RNTI: the RNTI is named, and with it the second.
    (
        &[&[0x20, 0, 0], &[0x30, 0, 7, 2, 0, 5], &[0x30, 0, 8, 2, 5, 5], &[0x30, 0, 8, 2, 4, 1]],
        "command 6, byte 27 of the plan, field RNTI: 8; used before; clashes with command 5 at byte 21",
    ),
    // Blocks of both users before: the first of them is named.
    (
        &[&[0x30, 0, 7, 2, 0, 5], &[0x30, 0, 8, 2, 5, 5], &[0x30, 0, 9, 2, 4, 2]],
        "command 5, byte 24 of the plan, field first block and count: 4 and 2; a block was used before; \
         clashes with command 3 at byte 12",
    ),
    // A block of the second alone.
    (
        &[&[0x30, 0, 7, 2, 0, 5], &[0x30, 0, 8, 2, 5, 5], &[0x30, 0, 9, 2, 9, 1]],
        "command 5, byte 24 of the plan, field first block and count: 9 and 1; a block was used before; \
         clashes with command 4 at byte 18",
    ),
    // An RNTI used before is not named where a field is refused.
    (
        &[&[0x30, 0, 7, 2, 0, 5], &[0x30, 0, 7, 3, 0, 5]],
        "command 4, byte 18 of the plan, field modulation: 3; 2, 4, 6 or 8",
    ),
];

/// CELLX and FRAME, and what is said of the refused one, worked out by hand.
const DURATIONS: [(&[u8], &str); 5] = [
    (
        &[0x12, 0, 5, 25, 0, 1, 6, 1, 0x11, 0, 0, 1, 1, 0],
        "command 2, byte 8 of the plan, field CFI: 1; symbols of the control region: 1; the extended PHICH duration needs 3",
    ),
    // Six blocks: one symbol more than the CFI.
    (
        &[0x12, 0, 5, 6, 0, 1, 6, 1, 0x11, 0, 0, 1, 1, 0],
        "command 2, byte 8 of the plan, field CFI: 1; symbols of the control region: 2; the extended PHICH duration needs 3",
    ),
    // FRAME's own fields come first.
    (
        &[0x12, 0, 5, 25, 0, 1, 6, 1, 0x11, 0, 0, 10, 1, 0],
        "command 2, byte 8 of the plan, field subframe: 10; 0 to 9",
    ),
    (
        &[0x12, 0, 5, 25, 0, 1, 6, 2, 0x11, 0, 0, 1, 1, 0],
        "command 1, byte 0 of the plan, field duration: 2; 0 (normal) or 1 (extended)",
    ),
    // The duration is the last field of CELLX.
    (
        &[0x12, 0, 5, 25, 0, 1, 7, 255, 0x11, 0, 0, 1, 1, 0],
        "command 1, byte 0 of the plan, field g: 7; 1, 3, 6 or 12 sixths",
    ),
];

/// The inputs worked out by hand, and the last line for each.
fn by_hand() -> Vec<(Vec<u8>, &'static str)> {
    let start = [&[0x10, 0, 5, 25, 0, 1, 6][..], &[0x11, 0, 0, 1, 2]].concat();
    let input = |list: &[&[u8]]| with_length(&[&start[..], &list.concat(), &[0]].concat());
    let clashes = CLASHES.iter().map(|(list, last)| (input(list), *last));
    clashes.chain(DURATIONS.iter().map(|(plan, last)| (with_length(plan), *last))).collect()
}

/// Prints one line and gives the number of differences.
pub fn compare(bin: &Path) -> usize {
    let program = bin.join("planexplain").to_string_lossy().into_owned();
    let (mut answers, mut differences) = (BTreeMap::new(), 0);
    let mut inputs = inputs();
    for (input, last) in by_hand() {
        let expected = lines_of_input(&input);
        assert_eq!(expected.last().map(String::as_str), Some(last), "a line worked out by hand");
        inputs.push(input);
    }
    for input in &inputs {
        let expected = lines_of_input(input);
        let answer = expected.iter().find(|line| *line == "accepted" || line.starts_with("refused "));
        *answers.entry(answer.cloned().unwrap_or_default()).or_insert(0) += 1;
        let found = match run(&program, input) {
            Ok(output) => told(&output),
            Err(fault) => vec![fault],
        };
        if found != expected {
            differences += 1;
            // The first ones say enough.
            if differences <= 3 {
                println!("planexplain differs on {}", hex(input));
                println!("expected:\n{}\nfound:\n{}", expected.join("\n"), found.join("\n"));
            }
        }
    }
    let counts: Vec<String> = answers.iter().map(|(answer, count)| format!("{answer}: {count}")).collect();
    println!("planexplain: {} plans ({}), {differences} differences", inputs.len(), counts.join(", "));
    differences
}
