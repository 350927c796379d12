//! Calls of read for the test program read_vectors: what it reads, and what it must print.

use crate::build::{build, element_at};
use crate::builds::{self, digest, digest_more, Lent, BEFORE, REFUSED_PLAN_GRID};
use crate::generate::{payload_of_bits, Random};
use crate::harness::unhex;
use crate::owners::{layout, Layout, Owner};
use crate::plan::{check, grid_length, Plan};
use crate::precoding::port_of_symbol;
use crate::read::Reader;
use crate::Place;

/// A byte of the grid and its new value.
type Change = (usize, u8);

/// What is done with the grid of a plan and a payload.
#[derive(Clone, Debug, PartialEq, Eq)]
pub enum Kind {
    /// Calls of read on buffers of these lengths, one for each list of changes of the grid.
    Calls { grid: Lent, payload: Lent, lists: Vec<Vec<Change>> },
    /// A call for each change of each byte of the grid.
    Sweep,
}

#[derive(Clone, Debug, PartialEq, Eq)]
pub struct Test {
    pub kind: Kind,
    pub plan: Vec<u8>,
    pub payload: Vec<u8>,
}

/// The bytes of all units, ascending, for a wrong one.
const UNIT_BYTES: [u8; 11] = [0, 1, 2, 4, 10, 20, 42, 63, 84, 170, 255];

/// What byte `at` of a grid is changed to in a sweep: 0, one more, one less, and another unit or the opposite level.
fn sweep_values(at: usize, byte: u8) -> [u8; 4] {
    let next = UNIT_BYTES
        .iter()
        .position(|unit| *unit == byte)
        .map_or(0, |i| UNIT_BYTES[(i + 1) % UNIT_BYTES.len()]);
    let other = if at % 3 == 0 { next } else { byte.wrapping_neg() };
    [0, byte.wrapping_add(1), byte.wrapping_sub(1), other]
}

impl Test {
    /// The grid before the changes; what build does not write is as it was.
    fn grid(&self) -> Vec<u8> {
        let length = grid_length(&self.plan).unwrap_or(REFUSED_PLAN_GRID);
        build(&self.plan, &self.payload, length).map_or_else(|_| vec![BEFORE; length], |(grid, _)| grid)
    }

    /// The line of a single call: the count or "refused" and the number, and the digest of the payload after it.
    fn call(&self, lent: Lent, payload: Lent, changes: &[Change]) -> String {
        let mut grid = self.grid();
        changes.iter().for_each(|(at, value)| grid[*at] = *value);
        grid.resize(lent.of(grid.len()), BEFORE);
        let length = payload.of(self.payload.len());
        let answer = Reader::new(&self.plan).and_then(|reader| reader.read(&grid, length));
        let (text, after) = match answer {
            Ok((payload, count)) => (count.to_string(), payload),
            Err(refusal) => (format!("refused {refusal}"), vec![BEFORE; length]),
        };
        let (a, b) = digest(&after);
        format!("{text} {a} {b}")
    }

    /// The line of a sweep: how many grids are refused and read, and how many of these their payloads build.
    fn sweep(&self) -> String {
        let reader = Reader::new(&self.plan).expect("an accepted plan");
        let mut grid = self.grid();
        let untouched = vec![BEFORE; self.payload.len()];
        let (mut refused, mut read, mut sum) = (0, 0, digest(&[]));
        for at in 0..grid.len() {
            let byte = grid[at];
            for value in sweep_values(at, byte) {
                if value == byte {
                    continue;
                }
                grid[at] = value;
                match reader.read(&grid, untouched.len()) {
                    Ok((payload, _)) => {
                        read += 1;
                        sum = digest_more(sum, &payload);
                    }
                    Err(_) => {
                        refused += 1;
                        sum = digest_more(sum, &untouched);
                    }
                }
            }
            grid[at] = byte;
        }
        format!("refused {refused} read {read} built {read} {} {}", sum.0, sum.1)
    }

    pub fn lines(&self) -> Vec<String> {
        match &self.kind {
            Kind::Calls { grid, payload, lists } => {
                lists.iter().map(|changes| self.call(*grid, *payload, changes)).collect()
            }
            Kind::Sweep => vec![self.sweep()],
        }
    }

    /// A byte for the kind, one each for the grid's and the payload's length (0 as wanted, 1 one less, 2 one more), the
    /// plan's length in two bytes, the plan, the payload's length in four bytes, the payload, the length of the lists of
    /// changes in two bytes, the lists: a byte for their number, then four bytes for each byte's number, one for its value.
    fn record(&self) -> Vec<u8> {
        let (head, lists) = match &self.kind {
            Kind::Calls { grid, payload, lists } => ([0, *grid as u8, *payload as u8], lists.as_slice()),
            Kind::Sweep => ([1, 0, 0], [].as_slice()),
        };
        let mut bytes = head.to_vec();
        bytes.extend(u16::try_from(self.plan.len()).expect("a short plan").to_be_bytes());
        bytes.extend(&self.plan);
        bytes.extend(u32::try_from(self.payload.len()).expect("a short payload").to_be_bytes());
        bytes.extend(&self.payload);
        let length: usize = lists.iter().map(|changes| 1 + 5 * changes.len()).sum();
        bytes.extend(u16::try_from(length).expect("few changes").to_be_bytes());
        for changes in lists {
            bytes.push(u8::try_from(changes.len()).expect("few changes"));
            for (at, value) in changes {
                bytes.extend((*at as u32).to_be_bytes());
                bytes.push(*value);
            }
        }
        bytes
    }
}

/// The program's input: one record after the other.
pub fn input(tests: &[Test]) -> Vec<u8> {
    tests.iter().flat_map(Test::record).collect()
}

/// The program's output: of each test its lines, each with the test's number, from 1.
pub fn output(tests: &[Test]) -> String {
    let numbered = |(i, test): (usize, &Test)| -> String {
        test.lines().iter().map(|line| format!("{} {line}\n", i + 1)).collect()
    };
    tests.iter().enumerate().map(numbered).collect()
}

/// The tests, always the same ones.
pub fn tests() -> Vec<Test> {
    let mut tests = round_trips();
    tests.extend(damaged());
    tests.extend(refused_lengths());
    tests.extend(sweeps());
    tests
}

/// Calls on buffers of the right lengths.
fn calls(plan: &[u8], payload: &[u8], lists: Vec<Vec<Change>>) -> Test {
    let kind = Kind::Calls { grid: Lent::AsWanted, payload: Lent::AsWanted, lists };
    Test { kind, plan: plan.to_vec(), payload: payload.to_vec() }
}

/// Every call of build's tests read back; where build refuses, the grid is as it was.
fn round_trips() -> Vec<Test> {
    builds::calls().iter().map(|call| calls(&call.plan, &call.payload, vec![vec![]])).collect()
}

/// A plan of every kind of owner, and its payload.
struct Example {
    bytes: Vec<u8>,
    payload: Vec<u8>,
    plan: Plan,
    layout: Layout,
    grid: Vec<u8>,
}

impl Example {
    fn new(text: &str, seed: u64) -> Example {
        let bytes = unhex(text).expect("hexadecimal digits");
        let mut random = Random::new(seed);
        let payload = payload_of_bits(&bytes, || random.byte() & 1).expect("an accepted plan");
        let plan = check(&bytes).expect("an accepted plan");
        let layout = layout(&plan);
        let (grid, _) = build(&bytes, &payload, plan.cell.grid_length()).expect("an accepted payload");
        Example { bytes, payload, plan, layout, grid }
    }

    /// The number of the first byte of an element.
    fn at(&self, port: usize, place: Place) -> usize {
        element_at(self.plan.cell.symbols(), self.plan.cell.subcarriers(), port, place)
    }

    /// The elements of two places exchanged on every port.
    fn exchanged(&self, a: Place, b: Place) -> Vec<Change> {
        let mut changes = Vec::new();
        for port in 0..self.plan.cell.ports {
            let (x, y) = (self.at(port, a), self.at(port, b));
            for i in 0..3 {
                changes.push((x + i, self.grid[y + i]));
                changes.push((y + i, self.grid[x + i]));
            }
        }
        changes
    }

    /// One byte changed by one on a port.
    fn nudged(&self, port: usize, place: Place, byte: usize) -> Vec<Change> {
        let at = self.at(port, place) + byte;
        vec![(at, self.grid[at].wrapping_add(1))]
    }

    /// An element that another unit has, levels as they are.
    fn other_unit(&self, port: usize, place: Place, unit: u8) -> Vec<Change> {
        vec![(self.at(port, place), unit)]
    }

    /// A symbol with other levels, in the unit that it has; for transmit diversity (6.3.4.3) the conjugate of an even symbol
    /// comes next on the other port, minus that of an odd one before.
    fn symbol_put(&self, places: &[Place], j: usize, re: i8, im: i8) -> Vec<Change> {
        let ports = self.plan.cell.ports;
        let port = port_of_symbol(ports, j);
        let at = self.at(port, places[j]);
        let mut changes = vec![(at + 1, re as u8), (at + 2, im as u8)];
        if ports > 1 {
            let at = self.at(port + ports / 2, places[j ^ 1]);
            let (re, im) = if j % 2 == 1 { (-re, im) } else { (re, -im) };
            changes.extend([(at + 1, re as u8), (at + 2, im as u8)]);
        }
        changes
    }

    /// An element that document 01 has, where none belongs.
    fn element_put(&self, port: usize, place: Place, element: [u8; 3]) -> Vec<Change> {
        let at = self.at(port, place);
        (0..3).map(|i| (at + i, element[i])).collect()
    }

    /// Legal elements in the wrong place: a user's first two, two users' first, a user's and PBCH's, two of PCFICH's, two of
    /// different quads of a PHICH unit.
    fn exchanges(&self) -> Vec<Vec<Change>> {
        let users = &self.layout.users;
        vec![
            self.exchanged(users[0][0], users[0][1]),
            self.exchanged(users[0][0], users[1][0]),
            self.exchanged(users[2][0], users[3][0]),
            self.exchanged(users[0][2], self.layout.pbch[0]),
            self.exchanged(self.layout.pcfich[0], self.layout.pcfich[3]),
            self.exchanged(self.layout.phich[0][0], self.layout.phich[0][4]),
            self.exchanged(self.layout.phich[0][1], self.layout.phich[0][9]),
        ]
    }

    /// The greatest levels of 64QAM and of 256QAM and those next to them: a user's own, another order's, or no order's.
    fn levels(&self) -> Vec<Vec<Change>> {
        let mut lists = Vec::new();
        for places in &self.layout.users {
            for (j, level) in [7, 9, 15, 17, -9, -17, 8, -16].into_iter().enumerate() {
                lists.push(self.symbol_put(places, j, level, 1));
                lists.push(self.symbol_put(places, j, 1, level));
            }
        }
        lists
    }

    /// One element changed on a port.
    fn elements(&self, port: usize) -> Vec<Vec<Change>> {
        let mut lists = Vec::new();
        for places in [&self.layout.pbch, &self.layout.pcfich].into_iter().chain(&self.layout.users) {
            lists.push(self.other_unit(port, places[0], 2));
            for unit in [84, 170, 255] {
                lists.push(self.other_unit(port, places[1], unit));
            }
            lists.push(self.nudged(port, places[2], 1));
        }
        // Held, idle, the reference and synchronisation signals: each byte.
        let owners = [Owner::Held, Owner::Idle, Owner::Pss, Owner::Sss].into_iter();
        for owner in owners.chain((0..self.plan.cell.ports).map(Owner::Crs)) {
            let places = self.layout.places_of(owner);
            for byte in 0..3 {
                lists.push(self.nudged(port, places[0], byte));
                lists.push(self.nudged(port, places[places.len() - 1], byte));
            }
        }
        lists.push(self.element_put(port, self.layout.places_of(Owner::Idle)[3], [2, 1, 255]));
        lists.push(self.element_put(port, self.layout.places_of(Owner::Held)[3], [63, 7, 0]));
        // A sum that no bits give, and one with another unit.
        let unit = &self.layout.phich[0];
        for value in [0, 1, 2, 254, 8, 9] {
            lists.push(self.element_put(port, unit[0], [2, value, value]));
            lists.push(self.element_put(port, unit[5], [4, value, 0]));
        }
        for value in [0, 2, 254] {
            lists.push(self.element_put(port, unit[10], [4, value, value]));
        }
        lists
    }

    fn test(&self) -> Test {
        let mut lists = [self.exchanges(), self.levels()].concat();
        lists.extend((0..self.plan.cell.ports).flat_map(|port| self.elements(port)));
        calls(&self.bytes, &self.payload, lists)
    }
}

/// Grids of examples with one, two and four ports, changed where it must be seen; the last two have six blocks, and
/// their last idle place in the control symbol that the CFI does not count. The second, the third and the fourth have the
/// extended PHICH duration.
fn damaged() -> Vec<Test> {
    let texts = [
        "10 0007 0F 00 01 01  11 0001 00 02  20 0000 20 0005 \
         30 0011 02 00 03  30 0022 04 03 04  30 0033 06 07 04  30 0044 08 0B 03  00",
        "12 0150 0F 01 02 06 01  11 0003 00 03  20 0000 20 0103 \
         30 0011 08 00 04  30 0022 06 04 03  30 0033 02 07 02  30 0044 04 0A 04  00",
        "12 01F7 19 00 04 03 01  11 0002 00 03  20 0000 20 0007 \
         30 0011 04 02 05  30 0022 08 07 04  30 0033 06 0B 05  30 0044 02 11 05  00",
        "12 0059 06 00 01 0C 01  11 0006 00 03  20 0000 20 0107 \
         30 0011 02 00 02  30 0022 04 02 01  30 0033 06 03 01  30 0044 08 04 02  00",
        "10 01A6 06 01 04 0C  11 0005 00 02  20 0000 20 0303 \
         30 0011 06 00 02  30 0022 02 02 01  30 0033 08 03 01  30 0044 04 04 02  00",
    ];
    texts.iter().zip(1..).map(|(text, seed)| Example::new(text, seed).test()).collect()
}

/// The refusals 10 and 11, alone and together, before 13.
fn refused_lengths() -> Vec<Test> {
    let text = "10 0001 0F 00 02 01  11 0002 05 01  20 0000  30 0001 02 04 01  00";
    let example = Example::new(text, 9);
    let lengths = [Lent::AsWanted, Lent::OneLess, Lent::OneMore];
    let mut tests = Vec::new();
    for grid in lengths {
        for payload in lengths {
            let kind = Kind::Calls { grid, payload, lists: vec![vec![], vec![(0, 99)]] };
            tests.push(Test { kind, plan: example.bytes.clone(), payload: example.payload.clone() });
        }
    }
    tests
}

/// Every byte of small grids, of one port and of two, with PBCH, HIs and users of each modulation; the second has two
/// users of one order one after the other and CELLX of the normal PHICH duration, the third has six blocks and the
/// extended PHICH duration.
fn sweeps() -> Vec<Test> {
    let texts = [
        "10 0014 0F 01 01 01  11 0001 00 02  20 0000 20 0102 \
         30 0101 02 00 02  30 0202 08 02 03  30 0303 04 05 02  30 0404 06 09 03  00",
        "12 00C9 0F 01 02 01 00  11 0002 00 01  20 0001 20 0003 \
         30 0101 06 00 02  30 0202 08 02 02  30 0303 08 04 02  30 0404 02 09 03  30 0505 04 0C 02  00",
        "12 00AF 06 01 01 0C 01  11 0003 00 02  20 0000 20 0303 \
         30 0101 04 00 01  30 0202 06 01 02  30 0303 02 03 01  30 0404 08 05 01  00",
    ];
    let sweep = |(text, seed): (&&str, u64)| {
        let example = Example::new(text, seed);
        Test { kind: Kind::Sweep, plan: example.bytes, payload: example.payload }
    };
    texts.iter().zip(20..).map(sweep).collect()
}
