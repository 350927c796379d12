//! Plans, payloads and gridcount inputs from a seed: right ones and damaged ones.

use crate::owners::layout;
use crate::payload::Sections;
use crate::plan::{check, operand_bytes, Cell, CELL, CELLX, END, FRAME, HI, USER, WIDTHS};
use std::ops::Range;

/// Numbers from a seed (the SplitMix64 generator).
#[derive(Clone, Debug)]
pub struct Random(u64);

impl Random {
    pub fn new(seed: u64) -> Random {
        Random(seed)
    }

    /// The numbers of case `case` under a seed: no case depends on the ones before it.
    pub fn of_case(seed: u64, case: u64) -> Random {
        let mut by_seed = Random(seed);
        let mut by_case = Random(by_seed.number() ^ case.wrapping_mul(0xD134_2543_DE82_EF95));
        Random(by_case.number())
    }

    pub fn number(&mut self) -> u64 {
        self.0 = self.0.wrapping_add(0x9E37_79B9_7F4A_7C15);
        let mut z = self.0;
        z = (z ^ (z >> 30)).wrapping_mul(0xBF58_476D_1CE4_E5B9);
        z = (z ^ (z >> 27)).wrapping_mul(0x94D0_49BB_1331_11EB);
        z ^ (z >> 31)
    }

    /// 0 .. n − 1.
    pub fn below(&mut self, n: usize) -> usize {
        (self.number() % n as u64) as usize
    }

    pub fn one_in(&mut self, n: usize) -> bool {
        self.below(n) == 0
    }

    pub fn pick<T: Copy>(&mut self, list: &[T]) -> T {
        list[self.below(list.len())]
    }

    pub fn byte(&mut self) -> u8 {
        self.number() as u8
    }

    pub fn bytes(&mut self, n: usize) -> Vec<u8> {
        (0..n).map(|_| self.byte()).collect()
    }

    pub fn shuffle<T>(&mut self, list: &mut [T]) {
        for i in (1..list.len()).rev() {
            list.swap(i, self.below(i + 1));
        }
    }
}

/// The combinations of N, prefix, P, g, f and CFI with the normal PHICH duration.
const NORMAL_COMBINATIONS: usize = 6 * 2 * 3 * 4 * 10 * 3;

/// N and CFI where the control region has the three symbols of the extended PHICH duration.
pub const LONG_REGIONS: [(usize, usize); 7] = [(6, 2), (6, 3), (15, 3), (25, 3), (50, 3), (75, 3), (100, 3)];

/// The combinations of N, prefix, P, g, f and CFI with either PHICH duration.
pub const COMBINATIONS: usize = NORMAL_COMBINATIONS + LONG_REGIONS.len() * 2 * 3 * 4 * 10;

/// Six blocks and the normal PHICH duration with every CFI, prefix and P in subframe 0, in subframe 5 and in another.
const OF_NORMAL_SIX: usize = 3 * 2 * 3 * 3;

/// These, and six blocks and the extended duration with CFI 2 and 3, every prefix and P.
pub const OF_SIX_BLOCKS: usize = OF_NORMAL_SIX + 2 * 2 * 3;

/// A plan's values of CELL or CELLX and of FRAME.
#[derive(Clone, Copy, Debug)]
pub struct Fixed {
    pub identity: usize,
    pub blocks: usize,
    pub prefix: usize,
    pub ports: usize,
    pub g: usize,
    /// CELLX's duration; `None` for CELL.
    pub duration: Option<usize>,
    pub frame: usize,
    pub subframe: usize,
    pub cfi: usize,
}

impl Fixed {
    /// Combination number i, with an identity and a frame. About a third of them have CELLX.
    pub fn combination(i: usize, identity: usize, frame: usize) -> Fixed {
        let i = i % COMBINATIONS;
        let long = i >= NORMAL_COMBINATIONS;
        let mut rest = if long { i - NORMAL_COMBINATIONS } else { i };
        let mut digit = |base: usize| {
            let digit = rest % base;
            rest /= base;
            digit
        };
        let (blocks, long_cfi) = if long { LONG_REGIONS[digit(7)] } else { (WIDTHS[digit(6)], 0) };
        Fixed {
            identity,
            blocks,
            prefix: digit(2),
            ports: [1, 2, 4][digit(3)],
            g: [1, 3, 6, 12][digit(4)],
            // Eleven has no divisor in common with the number of values of a field.
            duration: if long { Some(1) } else { (i % 11 == 0).then_some(0) },
            frame,
            subframe: digit(10),
            cfi: if long { long_cfi } else { 1 + digit(3) },
        }
    }

    /// The same with a CFI whose control region has the symbols of the PHICH duration.
    pub fn fitted(self) -> Fixed {
        let least = match (self.duration, self.blocks) {
            (Some(1), 6) => 2,
            (Some(1), _) => 3,
            _ => 1,
        };
        Fixed { cfi: self.cfi.max(least), ..self }
    }

    /// A random one; half of them in the subframes that have synchronisation signals.
    pub fn random(random: &mut Random) -> Fixed {
        let identity = match random.below(4) {
            0 => random.pick(&[0, 1, 2, 3, 29, 30, 87, 90, 167, 168, 501, 502, 503]),
            _ => random.below(504),
        };
        let frame = match random.below(4) {
            0 => random.pick(&[0, 1, 2, 3, 255, 256, 1022, 1023]),
            _ => random.below(1024),
        };
        let mut fixed = Fixed::combination(random.below(COMBINATIONS), identity, frame);
        match random.below(4) {
            0 => fixed.subframe = 0,
            1 if random.one_in(2) => fixed.subframe = 5,
            _ => {}
        }
        fixed
    }

    /// Number i of those with six blocks; the other fields are random.
    pub fn of_six_blocks(random: &mut Random, i: usize) -> Fixed {
        let subframes = [0, 5, random.pick(&[1, 2, 3, 4, 6, 7, 8, 9])];
        let any = Fixed { blocks: 6, ..Fixed::random(random) };
        if let Some(i) = i.checked_sub(OF_NORMAL_SIX) {
            return Fixed {
                prefix: i / 2 % 2,
                ports: [1, 2, 4][i / 4 % 3],
                duration: Some(1),
                subframe: subframes[i % 3],
                cfi: 2 + i % 2,
                ..any
            };
        }
        Fixed {
            prefix: i / 3 % 2,
            ports: [1, 2, 4][i / 6 % 3],
            duration: (i % 5 == 0).then_some(0),
            subframe: subframes[i / 18 % 3],
            cfi: 1 + i % 3,
            ..any
        }
    }

    pub fn cell(&self) -> Cell {
        let Fixed { identity, blocks, prefix, ports, g, duration, .. } = *self;
        Cell { identity, blocks, extended: prefix == 1, ports, g, extended_phich: duration == Some(1) }
    }

    /// CELL or CELLX, and FRAME.
    pub fn commands(&self) -> [Vec<u8>; 2] {
        let [high, low] = (self.identity as u16).to_be_bytes();
        let mut cell =
            vec![CELL, high, low, self.blocks as u8, self.prefix as u8, self.ports as u8, self.g as u8];
        if let Some(duration) = self.duration {
            cell[0] = CELLX;
            cell.push(duration as u8);
        }
        let [high, low] = (self.frame as u16).to_be_bytes();
        [cell, vec![FRAME, high, low, self.subframe as u8, self.cfi as u8]]
    }
}

/// How many HIs a plan has.
#[derive(Clone, Copy, Debug, PartialEq, Eq)]
pub enum His {
    None,
    One,
    Some,
    OneGroup,
    All,
}

pub const HIS: [His; 5] = [His::None, His::One, His::Some, His::OneGroup, His::All];

/// The HIs in any order.
pub fn his(random: &mut Random, cell: &Cell, how: His) -> Vec<Vec<u8>> {
    let (groups, sequences) = (cell.phich_groups(), cell.phich_sequences());
    let group = random.below(groups);
    let mut all: Vec<Vec<u8>> = Vec::new();
    for g in 0..groups {
        for s in 0..sequences {
            if how != His::OneGroup || g == group {
                all.push(vec![HI, g as u8, s as u8]);
            }
        }
    }
    random.shuffle(&mut all);
    let kept = match how {
        His::None => 0,
        His::One => 1,
        His::Some => 1 + random.below(all.len()),
        His::OneGroup | His::All => all.len(),
    };
    all.truncate(kept);
    all
}

/// How the users share the blocks.
#[derive(Clone, Copy, Debug, PartialEq, Eq)]
pub enum Users {
    None,
    /// One with all blocks.
    Whole,
    /// One somewhere.
    One,
    /// One block of one user at an edge of the centre 72.
    Edge,
    /// A few beside both edges of the centre 72.
    Edges,
    /// Many of any size, with gaps, in any order.
    Many,
    /// As many as there are blocks.
    OneBlockEach,
}

pub const USERS: [Users; 7] =
    [Users::None, Users::Whole, Users::One, Users::Edge, Users::Edges, Users::Many, Users::OneBlockEach];

/// (first, count) of each user.
pub fn allocations(random: &mut Random, blocks: usize, how: Users) -> Vec<(usize, usize)> {
    let centre =
        Cell { identity: 0, blocks, extended: false, ports: 1, g: 1, extended_phich: false }.centre();
    let (low, high) = (centre.start / 12, (centre.end - 1) / 12);
    // With six blocks the centre 72 is the whole width.
    let beside: Vec<usize> = (0..blocks).filter(|block| block + 1 == low || *block == high + 1).collect();
    match how {
        Users::None => vec![],
        Users::Whole => vec![(0, blocks)],
        Users::One => {
            let first = random.below(blocks);
            vec![(first, 1 + random.below(blocks - first))]
        }
        Users::Edge => {
            let at_edges = [vec![low, low + 1, high - 1, high], beside].concat();
            vec![(random.pick(&at_edges), 1)]
        }
        Users::Edges => {
            let mut list = vec![(low, 1), (low + 1, high - low - 1), (high, 1)];
            list.extend(beside.into_iter().map(|block| (block, 1)));
            random.shuffle(&mut list);
            list.truncate(1 + random.below(list.len()));
            list
        }
        Users::Many => {
            let (mut list, mut at) = (vec![], random.below(3));
            while at < blocks {
                let size = 1 + random.below((blocks - at).min(1 + blocks / 5));
                list.push((at, size));
                at += size + random.pick(&[0, 0, 0, 1, 2]);
            }
            random.shuffle(&mut list);
            list
        }
        Users::OneBlockEach => {
            let mut list: Vec<(usize, usize)> = (0..blocks).map(|block| (block, 1)).collect();
            if random.one_in(2) {
                random.shuffle(&mut list);
            }
            list
        }
    }
}

/// Q: document 01 with document 02's #109.
pub const ORDERS: [u8; 4] = [2, 4, 6, 8];

fn users(random: &mut Random, blocks: usize, how: Users) -> Vec<Vec<u8>> {
    let mut rntis: Vec<u16> = vec![];
    let same = if random.one_in(2) { Some(random.pick(&ORDERS)) } else { None };
    let mut list = Vec::new();
    for (first, count) in allocations(random, blocks, how) {
        let rnti = loop {
            let rnti = match random.below(8) {
                0 => 65535,
                1 => random.pick(&[1, 255, 256, 32767, 32768, 65534]),
                _ => random.below(65536) as u16,
            };
            if rnti != 0 && !rntis.contains(&rnti) {
                break rnti;
            }
        };
        rntis.push(rnti);
        let [high_byte, low_byte] = rnti.to_be_bytes();
        let bits = same.unwrap_or_else(|| random.pick(&ORDERS));
        list.push(vec![USER, high_byte, low_byte, bits, first as u8, count as u8]);
    }
    list
}

/// A plan as the list of its commands.
pub fn commands(random: &mut Random, fixed: &Fixed, how_his: His, how_users: Users) -> Vec<Vec<u8>> {
    let mut list: Vec<Vec<u8>> = fixed.commands().to_vec();
    list.extend(his(random, &fixed.cell(), how_his));
    list.extend(users(random, fixed.blocks, how_users));
    list.push(vec![END]);
    list
}

/// An accepted plan of any sort.
pub fn any_commands(random: &mut Random) -> Vec<Vec<u8>> {
    let fixed = Fixed::random(random);
    let (how_his, how_users) = (random.pick(&HIS), random.pick(&USERS));
    commands(random, &fixed, how_his, how_users)
}

/// An accepted plan of any sort, as bytes.
pub fn any_plan(random: &mut Random) -> Vec<u8> {
    if random.one_in(40) {
        return null_symbol_plan().to_vec();
    }
    any_commands(random).concat()
}

/// The plan whose user has a number of symbols that is no multiple of four, on four ports.
pub fn null_symbol_plan() -> [u8; 19] {
    [
        0x10, 0, 0, 0x0F, 1, 4, 1, //
        0x11, 0, 0, 0, 1, //
        0x30, 0, 1, 2, 4, 1, //
        0x00,
    ]
}

/// Document 01's example for gridcount: plan and payload behind their length.
pub fn example_input() -> Vec<u8> {
    let plan = [
        0x10, 0, 0, 0x0F, 0, 1, 1, //
        0x11, 0, 0, 1, 1, //
        0x20, 0, 0, //
        0x30, 0, 1, 2, 0, 0x0F, //
        0x00,
    ];
    input(&plan, &[0; 564])
}

/// Its variant: "with f = 0, HI removed and PBCH added".
pub fn example_variant_input() -> Vec<u8> {
    let plan = [
        0x10, 0, 0, 0x0F, 0, 1, 1, //
        0x11, 0, 0, 0, 1, //
        0x30, 0, 1, 2, 0, 0x0F, //
        0x00,
    ];
    input(&plan, &right_payload(&mut Random::new(0), &plan).expect("an accepted plan"))
}

/// A payload of the right length, of these bits in order, with its spare bits zero; `None` for a refused plan.
pub fn payload_of_bits(plan: &[u8], mut bit: impl FnMut() -> u8) -> Option<Vec<u8>> {
    let plan = check(plan).ok()?;
    let sections = Sections::new(&plan, &layout(&plan));
    let mut payload = vec![0; sections.length];
    for section in sections.all() {
        let bits: Vec<u8> = (0..section.bits).map(|_| bit()).collect();
        section.put(&mut payload, &bits);
    }
    Some(payload)
}

/// A random payload of the right length with its spare bits zero; `None` for a refused plan.
pub fn right_payload(random: &mut Random, plan: &[u8]) -> Option<Vec<u8>> {
    check(plan).ok()?;
    let how = random.below(8);
    payload_of_bits(plan, || match how {
        0 => 0,
        1 => 1,
        _ => random.byte() & 1,
    })
}

/// A payload of a wrong length.
pub fn wrong_length(random: &mut Random, right: &[u8]) -> Vec<u8> {
    let lengths = [0, right.len() / 2, right.len().saturating_sub(1), right.len() + 1, 2 * right.len() + 1];
    let mut length = random.pick(&lengths);
    if length == right.len() {
        length += 1 + random.below(4);
    }
    let mut payload = right.to_vec();
    payload.resize(length, random.byte());
    payload
}

/// A right payload with one spare bit set; `None` where the plan leaves no spare bit.
pub fn spare_set(random: &mut Random, plan: &[u8]) -> Option<Vec<u8>> {
    let mut payload = right_payload(random, plan)?;
    let plan = check(plan).ok()?;
    let sections = Sections::new(&plan, &layout(&plan)).all();
    let spare: Vec<(usize, usize)> = sections
        .iter()
        .flat_map(|section| (section.bits..8 * section.bytes()).map(|i| (section.first_byte + i / 8, i % 8)))
        .collect();
    if spare.is_empty() {
        return None;
    }
    let (byte, bit) = random.pick(&spare);
    payload[byte] |= 0x80 >> bit;
    Some(payload)
}

/// The fields of a command: (first byte in the command, bytes).
fn fields(command: u8) -> Vec<(usize, usize)> {
    match command {
        CELL => vec![(1, 2), (3, 1), (4, 1), (5, 1), (6, 1)],
        CELLX => vec![(1, 2), (3, 1), (4, 1), (5, 1), (6, 1), (7, 1)],
        FRAME => vec![(1, 2), (3, 1), (4, 1)],
        HI => vec![(1, 1), (2, 1)],
        USER => vec![(1, 2), (3, 1), (4, 1), (5, 1)],
        _ => vec![],
    }
}

fn is_cell(command: &[u8]) -> bool {
    [CELL, CELLX].contains(&command[0])
}

/// A cell's command in another form: CELL as CELLX of some duration, CELLX as CELL.
fn other_form(random: &mut Random, cell: &[u8]) -> Vec<u8> {
    let operands = &cell[1..cell.len().min(7)];
    match cell[0] {
        CELL => [&[CELLX], operands, &[random.pick(&[0, 1, 1, 1, 2, 255])]].concat(),
        _ => [&[CELL], operands].concat(),
    }
}

/// The cell in another form: in its place, behind it, or anywhere; or the byte of CELL or CELLX before the operands of
/// the other, or of any command.
fn with_other_form(random: &mut Random, mut list: Vec<Vec<u8>>, place: usize) -> Vec<Vec<u8>> {
    let other = other_form(random, &list[place]);
    match random.below(8) {
        0..=3 => list[place] = other,
        4 => list.insert(place + 1, other),
        5 => list.insert(random.below(list.len() + 1), other),
        6 => list[place][0] = other[0],
        _ => {
            let any = random.below(list.len());
            list[any][0] = CELLX;
        }
    }
    list
}

/// A field at its limits, beyond them, or anywhere.
fn limit(random: &mut Random, list: &[Vec<u8>], command: &[u8], field: usize) -> u16 {
    let cell = list.iter().find(|command| is_cell(command) && command.len() >= 7);
    let long = cell.is_some_and(|c| c[0] == CELLX && c.get(7) == Some(&1));
    let (blocks, prefix, g) = cell.map_or((15, 0, 1), |c| (c[3] as usize, c[4], (c[6] as usize).max(1)));
    let cell = Cell { identity: 0, blocks, extended: prefix == 1, ports: 1, g, extended_phich: false };
    let (groups, sequences) = (cell.phich_groups() as u16, cell.phich_sequences() as u16);
    let blocks = cell.blocks as u16;
    if random.one_in(8) {
        return random.number() as u16;
    }
    let values: Vec<u16> = match (command[0], field) {
        (CELL | CELLX, 0) => vec![0, 255, 256, 502, 503, 504, 505, 511, 512, 1007, 65535],
        // Next to the cell's own width all else stays right.
        (CELL | CELLX, 1) if random.one_in(2) => vec![blocks.wrapping_sub(1), blocks + 1],
        (CELL | CELLX, 1) => {
            vec![0, 5, 6, 7, 14, 15, 16, 24, 25, 26, 49, 50, 51, 74, 75, 76, 99, 100, 101, 110, 255]
        }
        (CELL | CELLX, 2) => vec![0, 1, 2, 128, 255],
        (CELL | CELLX, 3) => vec![0, 1, 2, 3, 4, 5, 8, 255],
        (CELL | CELLX, 4) => vec![0, 1, 2, 3, 4, 5, 6, 7, 11, 12, 13, 255],
        (CELLX, 5) => vec![0, 1, 2, 3, 128, 255],
        (FRAME, 0) => vec![0, 255, 256, 1022, 1023, 1024, 1025, 4096, 65535],
        (FRAME, 1) => vec![0, 1, 5, 8, 9, 10, 11, 255],
        (FRAME, 2) if long && random.one_in(2) => vec![1, 2],
        (FRAME, 2) => vec![0, 1, 2, 3, 4, 5, 255],
        (HI, 0) => vec![0, groups.wrapping_sub(1), groups, groups + 1, groups / 2, 255],
        (HI, 1) => vec![0, sequences - 1, sequences, sequences + 1, 3, 4, 7, 8, 255],
        (USER, 0) => {
            let mut values = vec![0, 1, 256, 65534, 65535];
            let others = list.iter().filter(|other| other[0] == USER && other.len() == 6);
            values.extend(others.map(|other| u16::from_be_bytes([other[1], other[2]])));
            values
        }
        (USER, 1) => vec![0, 1, 2, 3, 4, 5, 6, 7, 8, 9, 10, 16, 255],
        (USER, 2) => {
            let count = u16::from(command[5]);
            vec![
                0,
                blocks.wrapping_sub(count),
                blocks + 1 - count.min(blocks),
                blocks.wrapping_sub(1),
                blocks,
                254,
                255,
            ]
        }
        (USER, 3) => {
            let first = u16::from(command[4]);
            vec![0, 1, blocks.wrapping_sub(first), blocks.wrapping_sub(first).wrapping_add(1), blocks, 255]
        }
        _ => vec![0],
    };
    random.pick(&values)
}

/// Damages a plan once; some damages leave a plan that is accepted.
pub fn damage(random: &mut Random, list: &[Vec<u8>]) -> Vec<u8> {
    let mut list = list.to_vec();
    let any = random.below(list.len());
    match random.below(17) {
        // A field at or beyond its limits, of a command of any sort.
        0..=4 => {
            let sorts: Vec<u8> = [CELL, CELLX, FRAME, HI, USER]
                .into_iter()
                .filter(|sort| list.iter().any(|command| command[0] == *sort))
                .collect();
            if sorts.is_empty() {
                return [list.concat(), vec![END]].concat();
            }
            let sort = random.pick(&sorts);
            let places: Vec<usize> = (0..list.len()).filter(|i| list[*i][0] == sort).collect();
            let place = random.pick(&places);
            let fields = fields(sort);
            let field = random.below(fields.len());
            let value = limit(random, &list, &list[place].clone(), field);
            let (first, bytes) = fields[field];
            list[place][first..first + bytes].copy_from_slice(&value.to_be_bytes()[2 - bytes..]);
        }
        // Cut off anywhere.
        5 => {
            let plan = list.concat();
            return plan[..random.below(plan.len())].to_vec();
        }
        // Cut off inside or behind a command.
        6 => {
            let mut plan = list[..any].concat();
            plan.extend(&list[any][..random.below(list[any].len())]);
            return plan;
        }
        // A byte or a bit flipped.
        7 => {
            let mut plan = list.concat();
            for _ in 0..1 + random.below(3) {
                let at = random.below(plan.len());
                plan[at] ^= if random.one_in(2) { 1 << random.below(8) } else { 1 + random.below(255) as u8 };
            }
            return plan;
        }
        // Two commands change places.
        8 => {
            let other = random.below(list.len());
            list.swap(any, other);
        }
        // A command moves.
        9 => {
            let command = list.remove(any);
            list.insert(random.below(list.len() + 1), command);
        }
        // A command comes twice.
        10 => {
            let command = list[any].clone();
            list.insert(random.below(list.len() + 1), command);
        }
        // A command is lost.
        11 => {
            list.remove(any);
        }
        // Bytes after END: unknown, known, cut off.
        12 => {
            let tail = match random.below(5) {
                0 => vec![END],
                1 => vec![random.byte()],
                2 => list[any].clone(),
                3 => list[any][..1].to_vec(),
                _ => {
                    let n = 1 + random.below(8);
                    random.bytes(n)
                }
            };
            list.push(tail);
        }
        // A user comes again with its RNTI or with one of its blocks.
        13 if list.iter().any(|command| command[0] == USER) => {
            let places: Vec<usize> = (0..list.len()).filter(|i| list[*i][0] == USER).collect();
            let mut again = list[random.pick(&places)].clone();
            if random.one_in(2) {
                let [high, low] = (1 + random.below(65535) as u16).to_be_bytes();
                again[1..3].copy_from_slice(&[high, low]);
                again[4] = again[4].wrapping_add(random.below(usize::from(again[5]).max(1)) as u8);
                again[5] = 1;
            } else {
                again[4] = random.below(6) as u8;
                again[5] = 1;
            }
            list.insert(places[places.len() - 1] + 1, again);
        }
        // The cell as CELLX or as CELL.
        14 | 15 if list.iter().any(|command| is_cell(command)) => {
            let place = list.iter().position(|command| is_cell(command)).expect("a cell");
            list = with_other_form(random, list, place);
        }
        // A byte that is no command, or one that is, between two commands.
        _ => {
            let byte = if random.one_in(2) {
                random.pick(&[0x01, 0x0F, 0x12, 0x13, 0x21, 0x31, 0x40, 0xFF])
            } else {
                random.byte()
            };
            list.insert(any, vec![byte]);
        }
    }
    list.concat()
}

/// A plan cut into its commands again, as far as it goes; the rest is one last piece.
fn split(plan: &[u8]) -> Vec<Vec<u8>> {
    let (mut list, mut at) = (vec![], 0);
    while at < plan.len() {
        let size = 1 + operand_bytes(plan[at]).unwrap_or(plan.len());
        let end = (at + size).min(plan.len());
        list.push(plan[at..end].to_vec());
        at = end;
    }
    list
}

/// Damages a plan once or twice.
pub fn damaged_plan(random: &mut Random) -> Vec<u8> {
    let list = any_commands(random);
    let plan = damage(random, &list);
    let list = split(&plan);
    if random.one_in(4) && list.iter().all(|c| Some(c.len() - 1) == operand_bytes(c[0])) && !list.is_empty() {
        return damage(random, &list);
    }
    plan
}

/// gridcount's input from its parts.
pub fn input(plan: &[u8], payload: &[u8]) -> Vec<u8> {
    let length = u16::try_from(plan.len()).expect("a plan of at most 65,535 bytes");
    [&length.to_be_bytes(), plan, payload].concat()
}

/// A plan of 65,535 bytes, which is never accepted.
fn longest_plan(random: &mut Random) -> Vec<u8> {
    let list = any_commands(random);
    let body = list[..list.len() - 1].concat();
    let mut plan = match random.below(6) {
        0 => vec![END; 65535],
        1 => random.bytes(65535),
        2 => [list.concat(), vec![END; 65535]].concat(),
        3 => [body, list[0].repeat(65535 / 7)].concat(),
        4 => [body, [HI, 0, 0].repeat(65535 / 3)].concat(),
        _ => [list[..2].concat(), [USER, 0, 1, 2, 0, 1].repeat(65535 / 6 + 1)].concat(),
    };
    plan.resize(65535, END);
    plan
}

/// Inputs whose framing is wrong, or that are no plan at all.
fn odd_input(random: &mut Random) -> Vec<u8> {
    let plan = any_plan(random);
    let payload = right_payload(random, &plan).expect("an accepted plan");
    let mut whole = input(&plan, &payload);
    match random.below(8) {
        0 => random.bytes(1),
        1 => [[0, 0].to_vec(), random.bytes(2)][random.below(2)].clone(),
        // A length beyond the input.
        2 => {
            let cut = random.below(whole.len());
            whole.truncate(cut);
            whole
        }
        3 => {
            let beyond = (whole.len() - 2 + 1 + random.below(3)).min(65535) as u16;
            whole[..2].copy_from_slice(&beyond.to_be_bytes());
            whole
        }
        // A length that is a little wrong: the plan loses bytes to the payload, or the other way.
        4 => {
            let wrong = (plan.len() + random.pick(&[1, 2, 3])).saturating_sub(random.pick(&[0, 2, 4])) as u16;
            whole[..2].copy_from_slice(&wrong.to_be_bytes());
            whole
        }
        5 => {
            let n = random.below(64);
            random.bytes(n)
        }
        6 => input(&[], &payload),
        _ => {
            let plan = longest_plan(random);
            let payload = random.below(3);
            input(&plan, &vec![0; payload])
        }
    }
}

/// The inputs that every run starts with.
fn first_input(case: u64) -> Option<Vec<u8>> {
    let first = match case {
        0 => example_input(),
        1 => example_variant_input(),
        2 => vec![],
        3 => vec![0],
        4 => vec![0, 0],
        5 => vec![0, 1],
        6 => vec![0xFF, 0xFF],
        7 => input(&[END], &[]),
        8 => {
            let plan = null_symbol_plan();
            let payload = right_payload(&mut Random::new(1), &plan).expect("an accepted plan");
            input(&plan, &payload)
        }
        9 => input(&[END; 65535], &[]),
        10 => longest(&[]),
        11 => longest(&example_input()[2..23]),
        _ => return None,
    };
    Some(first)
}

/// A plan of 65,535 HI bytes behind a beginning.
fn longest(beginning: &[u8]) -> Vec<u8> {
    let mut plan = [beginning.to_vec(), [HI, 0, 0].repeat(21845)].concat();
    plan.truncate(65535);
    input(&plan, &[])
}

/// Plan and payload of a cell and frame, with HIs and users of any sort.
fn accepted_input(random: &mut Random, fixed: &Fixed) -> Vec<u8> {
    let (how_his, how_users) = (random.pick(&HIS), random.pick(&USERS));
    let plan = commands(random, fixed, how_his, how_users).concat();
    let payload = right_payload(random, &plan).expect("an accepted plan");
    input(&plan, &payload)
}

/// The cases of six blocks, behind those that every run starts with.
pub const SIX_BLOCKS_CASES: Range<u64> = 12..12 + OF_SIX_BLOCKS as u64;

/// gridcount input number `case` of a seed.
pub fn gridcount_case(seed: u64, case: u64) -> Vec<u8> {
    if let Some(first) = first_input(case) {
        return first;
    }
    let mut random = Random::of_case(seed, case);
    if SIX_BLOCKS_CASES.contains(&case) {
        let fixed = Fixed::of_six_blocks(&mut random, (case - SIX_BLOCKS_CASES.start) as usize);
        return accepted_input(&mut random, &fixed);
    }
    match random.below(100) {
        // Accepted: every combination of the fixed fields comes in its turn.
        0..=34 => {
            let at = (seed.wrapping_add(case.wrapping_mul(1801)) % COMBINATIONS as u64) as usize;
            let mut fixed = Fixed::random(&mut random);
            if random.one_in(2) {
                fixed = Fixed::combination(at, fixed.identity, fixed.frame);
            }
            accepted_input(&mut random, &fixed)
        }
        35..=39 => {
            let plan = any_plan(&mut random);
            let payload = right_payload(&mut random, &plan).expect("an accepted plan");
            input(&plan, &wrong_length(&mut random, &payload))
        }
        40..=46 => {
            let plan = any_plan(&mut random);
            let right = right_payload(&mut random, &plan).expect("an accepted plan");
            let payload = spare_set(&mut random, &plan).unwrap_or(right);
            input(&plan, &payload)
        }
        47..=92 => {
            let plan = damaged_plan(&mut random);
            let payload = right_payload(&mut random, &plan);
            let payload = payload.unwrap_or_else(|| {
                let n = random.pick(&[0, 1, 60, 564]);
                random.bytes(n)
            });
            input(&plan, &payload)
        }
        _ => odd_input(&mut random),
    }
}
