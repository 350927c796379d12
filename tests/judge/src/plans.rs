//! Plans for the test program plan_vectors: what it reads, and what it must print.

use crate::generate::{any_plan, damaged_plan, Fixed, Random, OF_SIX_BLOCKS};
use crate::harness::unhex;
use crate::plan::{check, Plan, Refusal, CELL, END, HI, USER, WIDTHS};

/// The program's input: of each plan its length in four bytes, big-endian, and the plan.
pub fn input(plans: &[Vec<u8>]) -> Vec<u8> {
    let record = |plan: &Vec<u8>| {
        let length = u32::try_from(plan.len()).expect("a plan of at most 2^32 - 1 bytes");
        [&length.to_be_bytes(), &plan[..]].concat()
    };
    plans.iter().flat_map(record).collect()
}

/// The program's output: of each plan its number, from 1, then 0 and its fields, or the refusal's number.
pub fn output(plans: &[Vec<u8>]) -> String {
    let line = |(i, plan): (usize, &Vec<u8>)| {
        let answer = check(plan).map_or_else(|refusal| refusal.to_string(), |plan| fields(&plan));
        format!("plan {} {answer}\n", i + 1)
    };
    plans.iter().enumerate().map(line).collect()
}

/// 0 and an accepted plan's fields, command by command.
fn fields(plan: &Plan) -> String {
    let (cell, frame) = (plan.cell, plan.frame);
    let prefix = usize::from(cell.extended);
    let duration = usize::from(cell.extended_phich);
    let mut text = format!("0 cell {} {} {prefix} {}", cell.identity, cell.blocks, cell.ports);
    text += &format!(" {} {duration}", cell.g);
    text += &format!(" frame {} {} {}", frame.frame, frame.subframe, frame.cfi);
    for hi in &plan.his {
        text += &format!(" hi {} {}", hi.group, hi.sequence);
    }
    for user in &plan.users {
        text += &format!(" user {} {} {} {}", user.rnti, user.bits, user.first, user.count);
    }
    text
}

/// The plans, always the same ones.
pub fn plans() -> Vec<Vec<u8>> {
    let mut random = Random::new(36211);
    let mut plans: Vec<Vec<u8>> = LISTED.iter().map(|(_, text, _)| bytes(text)).collect();
    plans.extend(long());
    plans.extend(cell_and_frame_fields());
    plans.extend(acknowledgements());
    plans.extend(user_fields());
    plans.extend(two_users());
    plans.extend(many_users());
    plans.extend(sequences(3));
    plans.extend(command_bytes());
    plans.extend(cuts());
    plans.extend(regions());
    plans.extend(six_blocks(&mut random));
    plans.extend((0..200).map(|_| any_plan(&mut random)));
    plans.extend((0..600).map(|_| damaged_plan(&mut random)));
    plans
}

/// Plans as text, each with its refusal's number as worked out by hand from documents 01 and 02 (0: accepted), and
/// why; a test holds `check` to these numbers. CELL and FRAME stand for the simplest ones, CELLX for that CELL with the
/// extended PHICH duration, FRAME3 for that FRAME with CFI 3.
pub const LISTED: [(Refusal, &str, &str); 152] = [
    // Plans that are accepted.
    (0, "CELL FRAME  20 00 00  30 0001 02 00 0F  00", "the paper's example for gridcount"),
    (0, "CELL FRAME  00", "\"any HIs, any USERs\": there may be none"),
    (0, "10 01F7 0F 00 01 01  FRAME  00", "identity 503 is the last"),
    (
        0,
        "10 01F7 64 01 04 0C  11 03FF 09 03  20 31 03  30 FFFF 08 63 01  00",
        "every field at its upper end; extended: 2 ceil(1200 / 48) = 50 groups; first + count = N",
    ),
    (0, "10 0000 64 00 02 0C  FRAME  20 18 07  00", "normal prefix: 25 groups, sequences to 7"),
    (
        0,
        "10 0000 0F 01 01 01  FRAME  20 01 03  00",
        "extended prefix: a group beyond the number of units (1) but not of groups (2)",
    ),
    (
        0,
        "10 0001 19 00 04 06  FRAME  20 03 00  20 03 01  20 02 00  20 02 01  00",
        "N 25, g 6: ceil(150 / 48) = 4 groups; pairs that differ in the group or the sequence alone",
    ),
    (0, "10 0002 32 00 01 03  FRAME  20 03 07  00", "N 50, g 3: ceil(150 / 48) = 4 groups"),
    (0, "10 0003 4B 00 02 06  11 0000 00 02  20 09 00  00", "N 75, g 6: ceil(450 / 48) = 10 groups"),
    (
        0,
        "CELL FRAME  30 0001 06 05 05  30 0002 04 0A 03  30 0003 02 00 05  30 0004 08 0D 02  00",
        "users side by side, in no order of blocks, of every modulation",
    ),
    (0, "CELL FRAME  30 0001 08 00 01  00", "modulation of 8 bits alone"),
    (
        0,
        "CELL  11 0001 05 03  30 2030 02 0E 01  30 1011 02 00 01  00",
        "CFI 3 and subframe 5; an RNTI whose bytes are those of commands",
    ),
    (0, "10 0000 06 00 01 01  FRAME  30 0001 02 00 06  00", "\"N = 6 joins the widths\"; first + count = N"),
    (
        0,
        "10 01F7 06 01 04 0C  11 03FF 09 03  20 03 03  30 FFFF 08 05 01  00",
        "six blocks and every other field at its upper end; extended: 2 ceil(72 / 48) = 4 groups",
    ),
    (
        0,
        "CELLX FRAME3  20 00 00  30 0001 02 00 0F  00",
        "CELLX \"stands in its place\"; three control symbols",
    ),
    (0, "12 0000 0F 00 01 01 00  FRAME  00", "CELLX of the normal duration: one control symbol is enough"),
    (0, "12 0000 06 00 01 01 01  11 0000 01 02  00", "extended, six blocks: CFI 2 has three control symbols"),
    (
        0,
        "12 01F7 64 01 04 0C 01  11 03FF 09 03  20 31 03  30 FFFF 08 63 01  00",
        "CELLX with every field at its upper end: groups are as many as with CELL",
    ),
    // Refusal 1: an unknown command, or the plan ends before its operands or before END.
    (1, "", "the empty plan ends before END"),
    (1, "01", "01 is no command"),
    (1, "13 00 00 0F 00 01 01 00", "13 is no command of these papers"),
    (1, "CELL  FF", "FF after CELL"),
    (1, "CELL FRAME  40 00 01 00", "40 after FRAME"),
    (1, "CELL FRAME  30 0001 02 00 05  31 00 02 02 05 01 01 00", "31 after USER"),
    (1, "10", "a lone CELL byte"),
    (1, "10 00 00 0F 00 01", "CELL without its last operand"),
    (1, "12", "a lone CELLX byte"),
    (1, "12 00 00 0F 00 01 01", "CELLX without its duration"),
    (1, "CELL  11 00 00 01", "FRAME without its last operand"),
    (1, "CELL FRAME  20 00", "HI without its last operand"),
    (1, "CELL FRAME  30 00 01 02 00", "USER without its last operand"),
    (1, "CELL", "no END after CELL"),
    (1, "CELLX", "no END after CELLX"),
    (1, "CELL FRAME", "no END after FRAME"),
    (1, "CELL FRAME  20 00 00", "no END after HI"),
    (1, "CELL FRAME  30 0001 02 00 05", "no END after USER"),
    (1, "11 00", "cut off and out of order: 1 is the smaller number"),
    (1, "10 FF FF", "cut off, with an identity beyond 503"),
    // Refusal 1 and its neighbours.
    (1, "CELL FRAME  10 00", "a second CELL that is cut off"),
    (1, "CELL  12 00 00 0F 00 01 01", "a CELLX after CELL that is cut off"),
    (1, "CELL FRAME  12 00 00", "the byte of CELLX in the place of HI: cut off"),
    (1, "CELL FRAME  30 0001 02 00 05  20 00", "an HI after USER that is cut off"),
    (1, "CELL FRAME  30 00 00 02 00", "a USER with RNTI 0 that is cut off"),
    (
        2,
        "CELL FRAME  30 0001 02 00 05  20 00 00  FF",
        "an HI after USER, then an unknown byte: the fault further left",
    ),
    (3, "10 01F8 0F 00 01 01  FF", "a bad CELL, then an unknown byte"),
    // Refusal 2: out of order, or any byte after END.
    (2, "00", "END alone"),
    (2, "FRAME CELL  00", "FRAME first"),
    (2, "20 00 00  CELL FRAME  00", "HI first"),
    (2, "30 0001 02 00 05  CELL FRAME  00", "USER first"),
    (2, "CELL  00", "END after CELL"),
    (2, "CELL CELL FRAME  00", "CELL after CELL"),
    (2, "CELL CELLX FRAME3  00", "CELLX after CELL"),
    (2, "CELLX CELL FRAME3  00", "CELL after CELLX"),
    (2, "CELLX CELLX FRAME3  00", "CELLX after CELLX"),
    (2, "FRAME3 CELLX  00", "FRAME before CELLX"),
    (2, "CELLX  00", "END after CELLX"),
    (2, "CELLX  20 00 00  FRAME3  00", "HI between CELLX and FRAME"),
    (2, "CELLX FRAME3 CELLX  00", "CELLX in the place of HI"),
    (2, "CELLX FRAME3  30 0001 02 00 05  CELLX  00", "CELLX in the place of USER"),
    (2, "CELLX FRAME3  00  12", "a cut-off CELLX after END"),
    (2, "CELL  20 00 00  FRAME  00", "HI before FRAME"),
    (2, "CELL  30 0001 02 00 05  FRAME  00", "USER before FRAME"),
    (2, "CELL FRAME CELL FRAME  00", "a second CELL after FRAME"),
    (2, "CELL FRAME FRAME  00", "a second FRAME"),
    (2, "CELL FRAME  30 0001 02 00 05  FRAME  00", "a second FRAME after USER"),
    (2, "CELL FRAME  30 0001 02 00 05  20 00 00  00", "HI after USER"),
    (2, "CELL FRAME  00  00", "a second END"),
    (2, "CELL FRAME  00  FF", "an unknown byte after END"),
    (2, "CELL FRAME  30 0001 02 00 05  00  10", "a cut-off CELL after END"),
    (2, "CELL FRAME  00  20 00 00", "a whole HI after END"),
    // Refusal 2 before a bad field.
    (2, "CELL FRAME  30 0001 02 00 05  20 FF FF  00", "HI after USER, of a group beyond the count"),
    (2, "CELL  10 01F8 0F 00 01 01  FRAME  00", "a second CELL of identity 504"),
    (2, "CELL  12 0000 0F 00 01 01 02  FRAME  00", "a CELLX of duration 2 after CELL"),
    (2, "CELLX FRAME3 FRAME  00", "a second FRAME, of a control region that is too short"),
    (2, "11 0000 0A 01", "FRAME first, of subframe 10"),
    (2, "CELL  30 0000 02 00 01  FRAME  00", "a USER of RNTI 0 before FRAME"),
    // Refusal 3: a CELL field.
    (3, "10 01F8 0F 00 01 01  FRAME  00", "identity 504"),
    (3, "10 01F8 0F 00 01 01", "identity 504 and nothing more: the missing END is further right"),
    (3, "10 FFFF 0F 00 01 01  FRAME  00", "identity 65535"),
    (3, "10 0000 00 00 01 01  FRAME  00", "no width of 0 blocks"),
    (3, "10 0000 05 00 01 01  FRAME  00", "no width of 5 blocks"),
    (3, "10 0000 07 00 01 01  FRAME  00", "no width of 7 blocks"),
    (3, "10 0000 10 00 01 01  FRAME  00", "no width of 16 blocks"),
    (3, "10 0000 65 00 01 01  FRAME  00", "no width of 101 blocks"),
    (3, "10 0000 0F 02 01 01  FRAME  00", "prefix 2"),
    (3, "10 0000 0F 00 00 01  FRAME  00", "no port"),
    (3, "10 0000 0F 00 03 01  FRAME  00", "three ports"),
    (3, "10 0000 0F 00 08 01  FRAME  00", "eight ports"),
    (3, "10 0000 0F 00 01 00  FRAME  00", "g 0"),
    (3, "10 0000 0F 00 01 02  FRAME  00", "g 2"),
    (3, "10 0000 0F 00 01 0D  FRAME  00", "g 13"),
    (3, "10 0000 0F 00 01 05  11 FFFF FF FF", "a bad CELL before a bad FRAME"),
    (3, "12 0000 0F 00 01 01 02  FRAME3  00", "duration 2"),
    (3, "12 0000 0F 00 01 01 FF  FRAME3  00", "duration 255"),
    (3, "12 01F8 0F 00 01 01 01  FRAME3  00", "CELLX of identity 504"),
    (3, "12 0000 07 00 01 01 00  FRAME  00", "CELLX of seven blocks"),
    (3, "12 0000 0F 00 01 01 02", "duration 2, and nothing more"),
    (3, "12 0000 0F 00 01 01 03  FRAME  00", "duration 3, before a FRAME that an extended one would refuse"),
    // Refusal 4: a FRAME field.
    (4, "CELL  11 0400 01 01  00", "frame 1024"),
    (4, "CELL  11 FFFF 01 01  00", "frame 65535"),
    (4, "CELL  11 0000 0A 01  00", "subframe 10"),
    (4, "CELL  11 0000 01 00  00", "CFI 0"),
    (4, "CELL  11 0000 01 04", "CFI 4, and nothing more"),
    (4, "10 0000 06 00 01 01  11 0000 01 04  00", "six blocks: four control symbols are those of CFI 3"),
    (4, "CELLX  11 0000 01 04  00", "extended duration, CFI 4"),
    (4, "CELLX  11 0000 01 00  00", "extended duration, CFI 0: 18 comes after 4"),
    (4, "CELLX  11 0400 01 01  00", "frame 1024, with a control region that is too short"),
    // Refusal 18, of document 02, #108: the extended duration and a control region of less than three symbols.
    (18, "CELLX FRAME  00", "CFI 1"),
    (18, "CELLX  11 0000 01 02  00", "CFI 2"),
    (18, "12 0000 06 00 01 01 01  FRAME  00", "six blocks, CFI 1: two control symbols"),
    (18, "CELLX FRAME", "CFI 1, and nothing more"),
    (18, "12 01F7 64 01 04 0C 01  11 03FF 09 02  20 FF FF  00", "CFI 2, before a bad HI"),
    (18, "CELLX FRAME  FF", "CFI 1, then an unknown byte"),
    // Refusal 5: an HI group or sequence beyond the count, or a pair used before.
    (5, "CELL FRAME  20 01 00  00", "one group: group 1 is beyond it"),
    (5, "CELL FRAME  20 00 08  00", "sequence 8"),
    (5, "10 0000 0F 01 01 01  FRAME  20 00 04  00", "extended: sequence 4"),
    (5, "10 0000 0F 01 01 01  FRAME  20 02 00  00", "extended: two groups, group 2"),
    (5, "10 0000 64 00 02 0C  FRAME  20 19 00  00", "25 groups, group 25"),
    (5, "12 0000 64 00 02 0C 01  FRAME3  20 19 00  00", "25 groups in the extended duration too"),
    (5, "10 0000 64 01 02 0C  FRAME  20 32 00  00", "extended: 50 groups, group 50"),
    (5, "10 0000 64 00 02 0C  FRAME  20 FF FF  00", "group and sequence 255"),
    (5, "10 0000 06 00 01 06  FRAME  20 01 00  00", "N 6, g 6: ceil(36 / 48) = 1 group, group 1"),
    (5, "10 0000 06 00 01 0C  FRAME  20 02 00  00", "N 6, g 12: ceil(72 / 48) = 2 groups, group 2"),
    (5, "CELL FRAME  20 00 03  20 00 03  00", "a pair twice"),
    (
        5,
        "10 0000 64 00 02 0C  FRAME  20 07 01  20 01 07  20 07 02  20 07 01",
        "the first of three pairs again, and nothing more",
    ),
    // Refusal 6: a USER field.
    (6, "CELL FRAME  30 0000 02 00 01  00", "RNTI 0"),
    (6, "CELL FRAME  30 0001 00 00 01  00", "modulation of 0 bits"),
    (6, "CELL FRAME  30 0001 01 00 01  00", "modulation of 1 bit: no user has BPSK"),
    (6, "CELL FRAME  30 0001 03 00 01  00", "modulation of 3 bits"),
    (6, "CELL FRAME  30 0001 07 00 01  00", "modulation of 7 bits"),
    (6, "CELL FRAME  30 0001 09 00 01  00", "modulation of 9 bits"),
    (6, "CELL FRAME  30 0001 0A 00 01  00", "modulation of 10 bits"),
    (6, "CELL FRAME  30 0001 10 00 01  00", "modulation of 16 bits"),
    (6, "CELL FRAME  30 0001 FF 00 01  00", "modulation of 255 bits"),
    (6, "CELL FRAME  30 0001 02 00 00  00", "count 0"),
    (6, "CELL FRAME  30 0001 02 01 0F  00", "first + count = 16 = N + 1"),
    (6, "CELL FRAME  30 0001 02 0F 01  00", "first = N, count 1"),
    (6, "10 0000 06 00 01 01  FRAME  30 0001 02 00 07  00", "first + count = 7 = N + 1"),
    (6, "10 0000 64 00 02 0C  FRAME  30 0001 02 63 02  00", "first + count = 101 = N + 1"),
    (6, "10 0000 64 00 02 0C  FRAME  30 0001 02 FF FF  00", "255 + 255 is a sum of whole numbers"),
    (6, "10 0000 64 00 02 0C  FRAME  30 0001 02 FF 01  00", "255 + 1 does not wrap to 0"),
    (
        6,
        "CELL FRAME  30 0001 02 00 05  30 0001 02 05 00  00",
        "an RNTI used before, with a bad count: 6 is the smaller number",
    ),
    (6, "CELL FRAME  30 0001 02 00 05  30 0002 05 00 05  00", "blocks used before, with a bad modulation"),
    // Refusal 7: an RNTI or a block used before.
    (7, "CELL FRAME  30 0001 02 00 05  30 0001 02 05 05  00", "the RNTI again, on other blocks"),
    (7, "CELL FRAME  30 0001 02 00 05  30 0002 02 00 05  00", "the same blocks"),
    (7, "CELL FRAME  30 0001 02 00 05  30 0002 02 04 01  00", "the last block of the one before"),
    (7, "CELL FRAME  30 0001 02 05 05  30 0002 02 00 06  00", "the first block of the one before"),
    (7, "CELL FRAME  30 0001 02 00 0F  30 0002 02 07 01  00", "blocks inside those of the one before"),
    (7, "CELL FRAME  30 0001 02 07 01  30 0002 02 00 0F  00", "blocks around those of the one before"),
    (
        7,
        "CELL FRAME  30 0001 02 00 05  30 0002 02 05 05  30 0001 02 0A 05  00",
        "the third has the RNTI of the first",
    ),
    (
        7,
        "CELL FRAME  30 0001 02 00 05  30 0002 02 05 05  30 0003 02 09 02  00",
        "the third has a block of the second",
    ),
    (7, "CELL FRAME  30 0001 02 00 05  30 0001 02 05 05  30", "used before, and then the plan is cut off"),
];

/// What a plan as text may have in the place of digits; longer names first.
const COMMANDS: [(&str, &str); 4] = [
    ("CELLX", "12 0000 0F 00 01 01 01"),
    ("CELL", "10 0000 0F 00 01 01"),
    ("FRAME3", "11 0000 01 03"),
    ("FRAME", "11 0000 01 01"),
];

/// The bytes of a plan as text.
pub fn bytes(text: &str) -> Vec<u8> {
    let digits = COMMANDS.iter().fold(text.to_string(), |text, (name, digits)| text.replace(name, digits));
    unhex(&digits).expect("hexadecimal digits")
}

/// CELL and FRAME, and commands after them.
fn after_frame(commands: &[Vec<u8>]) -> Vec<u8> {
    [bytes("CELL FRAME"), commands.concat()].concat()
}

/// Plans longer than two bytes can say: no command, END with bytes after it, CELL of identity 4112, USER first.
fn long() -> Vec<Vec<u8>> {
    [0xFF, END, CELL, USER].map(|byte| vec![byte; 70_000]).to_vec()
}

/// Values around the limits of the fields of two bytes.
const WORDS: [u16; 17] =
    [0, 1, 255, 256, 257, 502, 503, 504, 505, 511, 512, 1022, 1023, 1024, 1025, 32768, 65535];

/// Every value of each field of one byte, of CELL or of CELLX with its FRAME, and those around the limits of each field
/// of two.
fn cell_and_frame_fields() -> Vec<Vec<u8>> {
    let mut plans = Vec::new();
    for (text, fields) in [("CELL FRAME 00", [3, 6, 10, 11]), ("CELLX FRAME3 00", [4, 5, 7, 12])] {
        for at in fields {
            for value in 0..=255 {
                let mut plan = bytes(text);
                plan[at] = value;
                plans.push(plan);
            }
        }
    }
    for (text, at) in [("CELL FRAME 00", 1), ("CELL FRAME 00", 8), ("CELLX FRAME3 00", 1)] {
        for value in WORDS {
            let mut plan = bytes(text);
            plan[at..at + 2].copy_from_slice(&value.to_be_bytes());
            plans.push(plan);
        }
    }
    plans
}

/// Both durations with every N and every CFI, those beside its range too; and the extended one with every N, prefix and
/// P.
fn regions() -> Vec<Vec<u8>> {
    let mut list = Vec::new();
    for blocks in WIDTHS {
        for i in 0..10 {
            list.push(Fixed { blocks, duration: Some(i % 2), cfi: i / 2, ..SIMPLE });
        }
        for i in 0..6 {
            let (prefix, ports) = (i % 2, [1, 2, 4][i / 2]);
            list.push(Fixed { blocks, prefix, ports, duration: Some(1), ..SIMPLE }.fitted());
        }
    }
    list.iter().map(|fixed| [fixed.commands().concat(), vec![END]].concat()).collect()
}

/// The simplest CELL and FRAME.
const SIMPLE: Fixed = Fixed {
    identity: 0,
    blocks: 15,
    prefix: 0,
    ports: 1,
    g: 1,
    duration: None,
    frame: 0,
    subframe: 1,
    cfi: 1,
};

fn hi(group: usize, sequence: usize) -> Vec<u8> {
    vec![HI, group as u8, sequence as u8]
}

/// Every N, prefix and g: the last group and the last sequence, those beyond them, a pair used before, and all
/// HIs, with the last one again and without.
fn acknowledgements() -> Vec<Vec<u8>> {
    let mut plans = Vec::new();
    for i in 0..48 {
        let (blocks, g) = (WIDTHS[i % 6], [1, 3, 6, 12][i / 12]);
        let duration = [None, Some(0), Some(1)][(i + i / 12) % 3];
        let fixed = Fixed { identity: i, blocks, prefix: i / 6 % 2, g, duration, ..SIMPLE }.fitted();
        let cell = fixed.cell();
        let (groups, last) = (cell.phich_groups(), cell.phich_sequences() - 1);
        let mut all: Vec<Vec<u8>> = (0..groups).flat_map(|g| (0..=last).map(move |s| hi(g, s))).collect();
        let mut lists = vec![
            vec![hi(groups - 1, last)],
            vec![hi(groups, last)],
            vec![hi(groups - 1, last + 1)],
            vec![hi(0, 1), hi(0, 0), hi(0, 1)],
            vec![hi(255, 255)],
        ];
        if blocks <= 15 || g == 12 {
            lists.push(all.clone());
            all.push(hi(groups - 1, last));
            lists.push(all);
        }
        plans.extend(lists.iter().map(|list| [fixed.commands().concat(), list.concat(), vec![END]].concat()));
    }
    plans
}

fn user(rnti: u16, bits: u8, first: usize, count: usize) -> Vec<u8> {
    let [high, low] = rnti.to_be_bytes();
    vec![USER, high, low, bits, first as u8, count as u8]
}

/// Every modulation's byte, RNTIs, and for each N blocks at its limits and beyond.
fn user_fields() -> Vec<Vec<u8>> {
    let mut plans: Vec<Vec<u8>> =
        (0..=255).map(|bits| after_frame(&[user(1, bits, 0, 1), vec![END]])).collect();
    for rnti in WORDS {
        plans.push(after_frame(&[user(rnti, 2, 0, 1), vec![END]]));
    }
    for (i, n) in WIDTHS.into_iter().enumerate() {
        let duration = (i % 2 == 1).then_some(1);
        let fixed = Fixed { identity: i, blocks: n, ports: 2, duration, ..SIMPLE }.fitted();
        let blocks = [
            [(0, n), (0, n + 1), (0, 255), (1, n - 1), (1, n), (n - 1, 1)],
            [(n - 1, 2), (n, 0), (n, 1), (0, 0), (255, 1), (255, 255)],
        ];
        for (first, count) in blocks.concat() {
            plans.push([fixed.commands().concat(), user(1, 2, first, count), vec![END]].concat());
        }
    }
    plans
}

/// A user of the blocks 5 to 7 and, after it, one of any blocks, with an RNTI of its own and with the same.
fn two_users() -> Vec<Vec<u8>> {
    let mut plans = Vec::new();
    for first in 0..15 {
        for count in 1..=15 - first {
            plans.push(after_frame(&[user(1, 2, 5, 3), user(2, 4, first, count), vec![END]]));
        }
    }
    plans.push(after_frame(&[user(256, 2, 5, 3), user(1, 4, 0, 1), vec![END]]));
    plans.push(after_frame(&[user(256, 2, 5, 3), user(256, 4, 0, 1), vec![END]]));
    plans
}

/// A user of each block but the last, then one more: of that block, of an RNTI or a block used before.
fn many_users() -> Vec<Vec<u8>> {
    let all: Vec<Vec<u8>> = (0..14).map(|block| user(257 * (block as u16 + 1), 6, block, 1)).collect();
    let with = |last: Vec<u8>| after_frame(&[all.concat(), last, vec![END]]);
    let mut plans = vec![with(vec![]), with(user(1, 6, 14, 1))];
    for block in 0..14 {
        plans.push(with(user(257 * (block as u16 + 1), 6, 14, 1)));
        plans.push(with(user(1, 6, block, 1)));
    }
    plans
}

/// One of seven commands: CELL, CELLX of the normal duration, FRAME, HI, USER, END, and one that is none. An HI or USER
/// depends on its number in the plan, so that none comes twice.
fn command(sort: usize, number: usize) -> Vec<u8> {
    match sort {
        0 => bytes("CELL"),
        1 => Fixed { duration: Some(0), ..SIMPLE }.commands()[0].clone(),
        2 => bytes("FRAME"),
        3 => hi(0, number),
        4 => user(1 + number as u16, 2, number, 1),
        5 => vec![END],
        _ => vec![0x99],
    }
}

const SORTS: usize = 7;

/// Every sequence of at most `most` commands, alone and after CELL and FRAME.
fn sequences(most: u32) -> Vec<Vec<u8>> {
    let mut plans = Vec::new();
    for length in 0..=most {
        for i in 0..SORTS.pow(length) {
            let digit = |k: u32| i / SORTS.pow(k) % SORTS;
            let list: Vec<Vec<u8>> = (0..length).map(|k| command(digit(k), k as usize)).collect();
            plans.push(list.concat());
            plans.push(after_frame(&list));
        }
    }
    plans
}

/// Every byte where a command is due, and after END, with operands that are all 0.
fn command_bytes() -> Vec<Vec<u8>> {
    let mut plans = Vec::new();
    let texts =
        ["", "CELLX", "CELL FRAME", "CELLX FRAME3 20 0000", "CELL FRAME 30 0001 02 00 01", "CELLX FRAME3 00"];
    for text in texts {
        for byte in 0..=255 {
            plans.push([bytes(text), vec![byte], vec![0; 7]].concat());
        }
    }
    plans
}

/// Six blocks with every CFI, prefix and P in subframes 0, 5 and another, with the extended PHICH duration too, and a
/// user of all blocks.
fn six_blocks(random: &mut Random) -> Vec<Vec<u8>> {
    let one = |i: usize| {
        let fixed = Fixed::of_six_blocks(random, i);
        [fixed.commands().concat(), user(1, 2, 0, 6), vec![END]].concat()
    };
    (0..OF_SIX_BLOCKS).map(one).collect()
}

/// A plan of all commands, with CELL and with CELLX, cut off after every byte, and whole.
fn cuts() -> Vec<Vec<u8>> {
    let after = "20 0001 20 0000  30 0001 06 00 05 30 FFFF 04 05 0A  00";
    let cut = |cell: &str| -> Vec<Vec<u8>> {
        let plan = bytes(&format!("{cell} {after}"));
        (0..=plan.len()).map(|length| plan[..length].to_vec()).collect()
    };
    [cut("CELL FRAME"), cut("CELLX FRAME3")].concat()
}
