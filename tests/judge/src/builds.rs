//! Calls of build for the test program build_vectors: what it reads, and what it must print.

use crate::build::build;
use crate::generate::{
    allocations, example_input, example_variant_input, his, null_symbol_plan, payload_of_bits, Fixed, His,
    Random, Users, HIS, OF_SIX_BLOCKS, ORDERS,
};
use crate::harness::unhex;
use crate::owners::layout;
use crate::payload::Sections;
use crate::plan::{check, grid_length, Refusal, END, USER, WIDTHS};

/// The bytes of a refused plan's grid; no plan wants so few.
pub const REFUSED_PLAN_GRID: usize = 36;

/// What every byte of the grid is before the call.
pub const BEFORE: u8 = 165;

/// How long the lent grid is.
#[derive(Clone, Copy, Debug, PartialEq, Eq)]
pub enum Lent {
    AsWanted,
    OneLess,
    OneMore,
}

/// One call of build.
#[derive(Clone, Debug, PartialEq, Eq)]
pub struct Call {
    pub lent: Lent,
    pub plan: Vec<u8>,
    pub payload: Vec<u8>,
}

impl Lent {
    pub fn of(self, wanted: usize) -> usize {
        match self {
            Lent::AsWanted => wanted,
            Lent::OneLess => wanted - 1,
            Lent::OneMore => wanted + 1,
        }
    }
}

impl Call {
    pub fn grid_length(&self) -> usize {
        self.lent.of(grid_length(&self.plan).unwrap_or(REFUSED_PLAN_GRID))
    }

    /// What build returns, and the grid after it: "a refusal returns its number [..] and buffers stay".
    pub fn answer(&self) -> (Result<usize, Refusal>, Vec<u8>) {
        let before = vec![BEFORE; self.grid_length()];
        match build(&self.plan, &self.payload, before.len()) {
            Ok((grid, count)) => (Ok(count), grid),
            Err(refusal) => (Err(refusal), before),
        }
    }

    /// A byte for the grid's length (0 as wanted, 1 one less, 2 one more), the plan's length in two bytes, the
    /// plan, the payload's length in four bytes, the payload; numbers are big-endian.
    fn record(&self) -> Vec<u8> {
        let plan_length = u16::try_from(self.plan.len()).expect("a plan of at most 65,535 bytes");
        let payload_length = u32::try_from(self.payload.len()).expect("a payload of at most 2^32 - 1 bytes");
        let mut bytes = vec![self.lent as u8];
        bytes.extend(plan_length.to_be_bytes());
        bytes.extend(&self.plan);
        bytes.extend(payload_length.to_be_bytes());
        bytes.extend(&self.payload);
        bytes
    }
}

/// Two numbers that hang on every byte and its position.
pub fn digest(bytes: &[u8]) -> (u64, u64) {
    digest_more((1, 7), bytes)
}

/// The digest of more bytes after those of a digest.
pub fn digest_more(digest: (u64, u64), bytes: &[u8]) -> (u64, u64) {
    bytes.iter().fold(digest, |(a, b), byte| {
        let x = u64::from(*byte);
        ((a * 31 + x + 1) % 4_294_967_291, (b * 131 + x + 7) % 4_294_967_279)
    })
}

/// The program's input: one record after the other.
pub fn input(calls: &[Call]) -> Vec<u8> {
    calls.iter().flat_map(Call::record).collect()
}

/// The program's output: of each call its number, from 1, then the count or "refused" and the number, then the
/// digest of the grid after the call.
pub fn output(calls: &[Call]) -> String {
    let line = |(i, call): (usize, &Call)| {
        let (answer, grid) = call.answer();
        let answer = answer.map_or_else(|refusal| format!("refused {refusal}"), |count| count.to_string());
        let (a, b) = digest(&grid);
        format!("{} {answer} {a} {b}\n", i + 1)
    };
    calls.iter().enumerate().map(line).collect()
}

/// The calls, always the same ones.
pub fn calls() -> Vec<Call> {
    let mut random = Random::new(36211);
    let mut calls = Vec::new();
    calls.extend(one_user(&mut random));
    calls.extend(several_users(&mut random));
    calls.extend(six_blocks(&mut random));
    calls.extend(broadcast(&mut random));
    calls.extend(synchronisation());
    calls.extend(one_block_each(&mut random));
    calls.extend(null_symbols(&mut random));
    calls.extend(odd_counts(&mut random));
    calls.extend(equal_bits(&mut random));
    calls.extend(longest(&mut random));
    calls.extend(alone());
    calls.extend(refused_plans());
    calls.extend(refused_buffers(&mut random));
    calls
}

/// A call with a grid of the right length.
fn call(plan: Vec<u8>, payload: Vec<u8>) -> Call {
    Call { lent: Lent::AsWanted, plan, payload }
}

/// A call that is accepted, with random bits.
fn accepted(random: &mut Random, plan: Vec<u8>) -> Call {
    let payload = payload_of_bits(&plan, || random.byte() & 1).expect("an accepted plan");
    call(plan, payload)
}

fn user(rnti: u16, bits: u8, first: usize, count: usize) -> Vec<u8> {
    let [high, low] = rnti.to_be_bytes();
    vec![USER, high, low, bits, first as u8, count as u8]
}

/// Users in a list of (first, count), with RNTIs all over their range; `bits` gives the modulation of the i-th.
fn users(random: &mut Random, list: &[(usize, usize)], bits: impl Fn(usize) -> u8) -> Vec<Vec<u8>> {
    let start = random.below(65535);
    let user_of = |(i, (first, count)): (usize, &(usize, usize))| {
        // 7919 has no divisor in common with 65535, so no RNTI comes twice.
        user(1 + ((start + 7919 * i) % 65535) as u16, bits(i), *first, *count)
    };
    list.iter().enumerate().map(user_of).collect()
}

fn plan(fixed: &Fixed, his: Vec<Vec<u8>>, users: Vec<Vec<u8>>) -> Vec<u8> {
    [fixed.commands().concat(), his.concat(), users.concat(), vec![END]].concat()
}

/// Q of users one after another, round and round: every order stands before itself and before every other once.
const TURN: [u8; 16] = [2, 2, 4, 2, 6, 2, 8, 4, 4, 6, 4, 8, 6, 6, 8, 8];

const PORTS: [usize; 3] = [1, 2, 4];
const SIXTHS: [usize; 4] = [1, 3, 6, 12];

/// Every N, prefix and P, thirty-six in all: the i-th. The other fields go round at other paces; `turn` moves them
/// on: each of the thirty-six has the extended PHICH duration in one of two turns. Also the sum of the numbers of N and
/// of prefix and P, a pace for what else a plan has.
fn combination(i: usize, turn: usize, identity: usize, subframe: usize) -> (Fixed, usize) {
    let (width, rest) = (i % 6, i / 6);
    let pace = width + rest;
    let fixed = Fixed {
        identity,
        blocks: WIDTHS[width],
        prefix: rest % 2,
        ports: PORTS[rest / 2],
        g: SIXTHS[(pace + 2 * turn) % 4],
        duration: if (pace + turn) % 2 == 0 { Some(1) } else { (i % 5 == 0).then_some(0) },
        frame: (i * 37 + turn * 511) % 1024,
        subframe,
        cfi: 1 + (pace + turn) % 3,
    };
    (fixed.fitted(), pace)
}

/// Every N, prefix and P with one user over all blocks, and from no HI to a whole group of them.
fn one_user(random: &mut Random) -> Vec<Call> {
    let one = |i: usize| {
        let subframe = [0, 5, 1, 2, 9, 0, 6][i % 7];
        let (fixed, pace) = combination(i, 0, (i * 67 + 1) % 504, subframe);
        let his = his(random, &fixed.cell(), [His::One, His::None, His::Some, His::OneGroup][pace % 4]);
        // The highest order in the narrowest cells, QPSK in the wide ones, else the input gets long.
        let bits = match fixed.blocks {
            6 | 15 => 8,
            25 | 50 => ORDERS[pace % 3],
            _ => 2,
        };
        let users = users(random, &[(0, fixed.blocks)], |_| bits);
        accepted(random, plan(&fixed, his, users))
    };
    (0..36).map(one).collect()
}

/// Every N, prefix and P with users of every modulation that leave gaps, and all HIs or none.
fn several_users(random: &mut Random) -> Vec<Call> {
    let one = |i: usize| {
        let subframe = [5, 0, 8, 3, 0, 7, 4][i % 7];
        let (fixed, pace) = combination(i, 1, 503 - (i * 89) % 504, subframe);
        let his = his(random, &fixed.cell(), if pace % 3 == 0 { His::None } else { His::All });
        let list = allocations(random, fixed.blocks, Users::Many);
        let users = users(random, &list, |user| TURN[(user + 3 * i + 8) % 16]);
        accepted(random, plan(&fixed, his, users))
    };
    (0..36).map(one).collect()
}

/// Six blocks: every CFI, prefix and P in subframe 0, in subframe 5 and in another; CFI 2 and 3, prefix and P with the
/// extended PHICH duration; from one user to one for each block.
fn six_blocks(random: &mut Random) -> Vec<Call> {
    let sorts = [Users::Whole, Users::Many, Users::OneBlockEach, Users::Edges, Users::One];
    let one = |i: usize| {
        // Every g with every prefix and P.
        let fixed = Fixed { g: SIXTHS[(i % 3 + i / 18) % 4], ..Fixed::of_six_blocks(random, i) };
        let his = his(random, &fixed.cell(), HIS[(i + i / 18) % 5]);
        let list = allocations(random, 6, sorts[i % 5]);
        let users = users(random, &list, |user| TURN[(user + 3 * i) % 16]);
        accepted(random, plan(&fixed, his, users))
    };
    (0..OF_SIX_BLOCKS).map(one).collect()
}

/// Subframe 0: every prefix, P and F mod 4, with users of one block at the edges of the centre 72.
fn broadcast(random: &mut Random) -> Vec<Call> {
    let one = |i: usize| {
        let (quarter, rest) = (i % 4, i / 4);
        let fixed = Fixed {
            identity: (i * 131 + 3) % 504,
            blocks: WIDTHS[(rest + 2 * quarter) % 6],
            prefix: rest % 2,
            ports: PORTS[rest / 2],
            g: 1,
            duration: (i % 6 == 3).then_some(1),
            frame: 4 * ((i * 53) % 256) + quarter,
            subframe: 0,
            cfi: 1 + i % 3,
        }
        .fitted();
        let list = allocations(random, fixed.blocks, Users::Edges);
        let users = users(random, &list, |user| ORDERS[(user + i) % 4]);
        accepted(random, plan(&fixed, vec![], users))
    };
    (0..24).map(one).collect()
}

/// PSS and SSS alone, the identities at the steps of their numbers, in subframe 5 and, with a payload of zeros,
/// in subframe 0.
fn synchronisation() -> Vec<Call> {
    let one = |(i, identity): (usize, &usize)| {
        let fixed = Fixed {
            identity: *identity,
            blocks: [15, 50][i % 2],
            prefix: i / 2 % 2,
            ports: 1,
            g: 1,
            duration: None,
            frame: i,
            subframe: if i % 3 == 2 { 0 } else { 5 },
            cfi: 1 + i % 3,
        };
        let plan = plan(&fixed, vec![], vec![]);
        let payload = payload_of_bits(&plan, || 0).expect("an accepted plan");
        call(plan, payload)
    };
    // D = 0, 29, 30, 58, 59, 86, 87, 113, 114, 167.
    [0, 89, 90, 176, 177, 260, 261, 341, 342, 503].iter().enumerate().map(one).collect()
}

/// As many users as there are blocks, in a narrow cell and in the widest.
fn one_block_each(random: &mut Random) -> Vec<Call> {
    // N, prefix, P, C, f.
    let list =
        [(15, 0, 1, 4, 0), (15, 1, 2, 140, 5), (15, 0, 4, 281, 7), (15, 1, 4, 23, 0), (100, 0, 4, 395, 0)];
    let one = |(blocks, prefix, ports, identity, subframe): (usize, usize, usize, usize, usize)| {
        let duration = (ports == 4).then_some(1);
        let fixed = Fixed { identity, blocks, prefix, ports, g: 3, duration, frame: 1023, subframe, cfi: 2 };
        let fixed = fixed.fitted();
        let his = his(random, &fixed.cell(), His::Some);
        let each = allocations(random, blocks, Users::OneBlockEach);
        let users = users(random, &each, |user| TURN[user % 16]);
        accepted(random, plan(&fixed, his, users))
    };
    list.into_iter().map(one).collect()
}

/// Four ports and a number of symbols that is no multiple of four.
fn null_symbols(random: &mut Random) -> Vec<Call> {
    let mut calls = vec![accepted(random, null_symbol_plan().to_vec())];
    for (blocks, identity, orders) in [(15, 7, [6, 4]), (25, 110, [8, 2]), (75, 500, [4, 8])] {
        let fixed = Fixed {
            identity,
            blocks,
            prefix: 1,
            ports: 4,
            g: 1,
            duration: (identity % 3 == 2).then_some(1),
            frame: 2,
            subframe: 0,
            cfi: 1 + identity % 3,
        };
        let centre = fixed.cell().centre();
        let cut = [(centre.end / 12, 1), (centre.start / 12, 1)];
        let users = users(random, &cut, |user| orders[user]);
        calls.push(accepted(random, plan(&fixed, vec![], users)));
    }
    calls
}

/// One port and users that have an odd number of elements: one of the two blocks that the centre 72 cuts.
fn odd_counts(random: &mut Random) -> Vec<Call> {
    let one = |(i, bits): (usize, &u8)| {
        let blocks = [15, 25, 75, 15][i];
        let (identity, cfi) = (100 + i, 1 + i % 3);
        let duration = None;
        let fixed =
            Fixed { identity, blocks, prefix: 0, ports: 1, g: 1, duration, frame: 9, subframe: 0, cfi };
        let cut = fixed.cell().centre().start / 12;
        let users = users(random, &[(0, cut + 1), (cut + 1, 2)], |user| if user == 0 { *bits } else { 2 });
        accepted(random, plan(&fixed, vec![], users))
    };
    [4, 6, 2, 8].iter().enumerate().map(one).collect()
}

/// Payloads of zeros and of ones, with all HIs and one user over all blocks.
fn equal_bits(random: &mut Random) -> Vec<Call> {
    let mut calls = Vec::new();
    for i in 0..8 {
        let fixed = Fixed {
            identity: 71 * i + 5,
            blocks: WIDTHS[i % 3],
            prefix: i % 2,
            ports: PORTS[(i / 2).min(2)],
            g: SIXTHS[3 - i % 4],
            duration: (i % 4 == 3).then_some(1),
            frame: 1000 + i,
            subframe: [0, 1, 5][i % 3],
            cfi: 1 + i % 3,
        }
        .fitted();
        let all = his(random, &fixed.cell(), His::All);
        let plan = plan(&fixed, all, vec![user(65535, ORDERS[i / 2], 0, fixed.blocks)]);
        for bit in [0, 1] {
            let payload = payload_of_bits(&plan, || bit).expect("an accepted plan");
            calls.push(call(plan.clone(), payload));
        }
    }
    calls
}

/// The longest payloads: all HIs and one user of the highest order over all blocks, with either prefix on one port, and
/// on four.
fn longest(random: &mut Random) -> Vec<Call> {
    let one = |(prefix, ports): (usize, usize)| {
        let duration = (ports == 4).then_some(0);
        let (identity, frame) = (503, 1023);
        let fixed =
            Fixed { identity, blocks: 100, prefix, ports, g: 12, duration, frame, subframe: 9, cfi: 1 };
        let all = his(random, &fixed.cell(), His::All);
        accepted(random, plan(&fixed, all, vec![user(1, 8, 0, 100)]))
    };
    [(0, 1), (1, 1), (0, 4)].into_iter().map(one).collect()
}

/// CELL, FRAME, END with the longest grid, and with the shortest, which has six blocks.
const LONGEST_GRID: &str = "10 0000 64 00 04 01  11 0000 01 01  00";
const SHORTEST_GRID: &str = "10 0000 06 01 01 01  11 0000 01 03  00";

/// CELL or CELLX, FRAME, END alone, and document 01's example for gridcount with its variant.
fn alone() -> Vec<Call> {
    let mut calls = Vec::new();
    let texts = [
        "10 0000 0F 00 01 01  11 0000 01 01  00",
        "12 01F7 64 01 04 0C 01  11 03FF 08 03  00",
        SHORTEST_GRID,
    ];
    for text in texts {
        calls.push(call(unhex(text).expect("hexadecimal digits"), vec![]));
    }
    for input in [example_input(), example_variant_input()] {
        let length = usize::from(u16::from_be_bytes([input[0], input[1]]));
        calls.push(call(input[2..2 + length].to_vec(), input[2 + length..].to_vec()));
    }
    calls
}

/// Every refusal of the plan, over grids of the three lengths and over payloads that fit no plan.
fn refused_plans() -> Vec<Call> {
    let list = [
        // 1: the empty plan, an unknown command, a USER cut off, no END.
        "",
        "10 0000 0F 00 01 01  11 0000 01 01  99",
        "10 0000 0F 00 01 01  11 0000 01 01  30 0001 02 00",
        "10 0000 0F 00 01 01  11 0000 01 01",
        // 2: END alone, an HI after a USER, a byte after END.
        "00",
        "10 0000 0F 00 01 01  11 0000 01 01  30 0001 02 00 01  20 0000  00",
        "10 0000 0F 00 01 01  11 0000 01 01  00 99",
        // 3: C = 504, N = 7, duration 2.
        "10 01F8 0F 00 01 01  11 0000 01 01  00",
        "10 0000 07 00 01 01  11 0000 01 01  00",
        "12 0000 0F 00 01 01 02  11 0000 01 03  00",
        // 4: f = 10.
        "10 0000 0F 00 01 01  11 0000 0A 01  00",
        // 18: extended duration, control regions of two symbols.
        "12 0000 0F 00 01 01 01  11 0000 01 02  00",
        "12 0000 06 00 01 01 01  11 0000 01 01  00",
        // 5: a group beyond the count, a pair used before.
        "10 0000 0F 00 01 01  11 0000 01 01  20 0100  00",
        "10 0000 0F 00 01 01  11 0000 01 01  20 0003  20 0003  00",
        // 6: first + count = N + 1, seven bits of a symbol.
        "10 0000 0F 00 01 01  11 0000 01 01  30 0001 02 01 0F  00",
        "10 0000 0F 00 01 01  11 0000 01 01  30 0001 07 00 0F  00",
        // 7: a block used before, an RNTI used before.
        "10 0000 0F 00 01 01  11 0000 01 01  30 0001 02 00 03  30 0002 02 02 01  00",
        "10 0000 0F 00 01 01  11 0000 01 01  30 0001 02 00 03  30 0001 02 03 01  00",
    ];
    let one = |(i, text): (usize, &&str)| Call {
        lent: [Lent::AsWanted, Lent::OneLess, Lent::OneMore][i % 3],
        plan: unhex(text).expect("hexadecimal digits"),
        payload: vec![255; i % 4],
    };
    list.iter().enumerate().map(one).collect()
}

/// The refusals 10, 11 and 12, alone and together.
fn refused_buffers(random: &mut Random) -> Vec<Call> {
    // PBCH, three HIs, a user with an odd number of elements, one with none to spare, one more.
    let plan = unhex(
        "10 0001 0F 00 01 01  11 0002 00 01  20 0000 20 0005 20 0002 \
         30 0001 02 04 01  30 0002 06 00 04  30 0003 04 0A 01  00",
    );
    let right = accepted(random, plan.expect("hexadecimal digits"));
    let with = |lent: Lent, payload: Vec<u8>| Call { lent, plan: right.plan.clone(), payload };
    let payload = right.payload.clone();
    let short = payload[..payload.len() - 1].to_vec();
    let long = [payload.clone(), vec![0]].concat();
    let mut calls = vec![
        with(Lent::OneLess, payload.clone()),
        with(Lent::OneMore, payload.clone()),
        with(Lent::AsWanted, short.clone()),
        with(Lent::AsWanted, long.clone()),
        with(Lent::AsWanted, vec![]),
        with(Lent::AsWanted, vec![255; payload.len()]),
        // 10 before 11.
        with(Lent::OneLess, short),
        with(Lent::OneMore, long),
    ];
    // Every section's first and last spare bit.
    let spare = spare_bits(&right.plan);
    for (byte, bit) in &spare {
        let mut payload = payload.clone();
        payload[*byte] |= 0x80 >> bit;
        calls.push(with(Lent::AsWanted, payload));
    }
    // 11 before 12, 10 before 12, 10 before both.
    let (byte, bit) = spare[0];
    let mut set = payload;
    set[byte] |= 0x80 >> bit;
    let long = [set.clone(), vec![0]].concat();
    calls.push(with(Lent::AsWanted, long.clone()));
    calls.push(with(Lent::OneMore, set));
    calls.push(with(Lent::OneLess, long));
    // The longest grid, and one byte more than that; the shortest, and one byte less.
    for (lent, text) in [(Lent::OneMore, LONGEST_GRID), (Lent::OneLess, SHORTEST_GRID)] {
        let plan = unhex(text).expect("hexadecimal digits");
        calls.push(Call { lent, plan: plan.clone(), payload: vec![] });
        calls.push(call(plan, vec![0]));
    }
    calls
}

/// The first and the last spare bit of each section: byte in the payload, bit in the byte.
fn spare_bits(plan: &[u8]) -> Vec<(usize, usize)> {
    let plan = check(plan).expect("an accepted plan");
    let sections = Sections::new(&plan, &layout(&plan)).all();
    let with_spare = sections.iter().filter(|section| section.bits % 8 != 0);
    with_spare
        .flat_map(|section| {
            let byte = section.first_byte + section.bits / 8;
            [(byte, section.bits % 8), (byte, 7)]
        })
        .collect()
}
