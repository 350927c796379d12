//! Changed grids: reads of grids with one or more bytes changed, most of them made by no payload.

use crate::calls::Library;
use crate::found::Found;
use crate::refusals::narrow;
use crate::subject::{Filled, Subject};
use judge::build::element_at;
use judge::generate::{commands, right_payload, Random, HIS, ORDERS, USERS};
use judge::modulation::{map_symbol, unit};
use judge::owners::{layout, Layout};
use judge::plan::{check, Plan};
use judge::precoding::port_of_symbol;
use judge::read::Reader;
use judge::sample::unit_byte;
use judge::{Complex, Place};
use std::ops::Range;

/// So many cases in a row change the grid of one plan.
pub const OF_ONE_PLAN: u64 = 40;

/// A byte of the grid and its new value.
type Change = (usize, u8);

/// The bytes of all units.
const UNIT_BYTES: [u8; 11] = [0, 1, 2, 4, 10, 20, 42, 63, 84, 170, 255];

/// The sorts of change.
#[derive(Clone, Copy, Debug, PartialEq, Eq)]
pub enum Sort {
    /// One to four bytes, any to any value.
    AnyByte,
    /// One byte of an element by one, by one bit, or negated.
    Nudge,
    /// Another level of the same modulation, on each port that has a term of it.
    Legal,
    /// The same on one port alone.
    LegalOnOnePort,
    /// A level of another modulation, on each port that has a term of it.
    OtherModulation,
    /// A level next to the greatest of its modulation, on each port that has a term of it.
    Beyond,
    /// Two elements exchanged, on one port or on all.
    Exchange,
    /// Another unit, on one port or on all.
    Unit,
    /// A byte of a silent element.
    Silent,
    /// An element silenced, on one port or on all.
    Silenced,
    /// All elements of a channel as another payload makes them.
    OtherChannel,
    /// The elements of a channel as another payload makes them, on one port or at one place alone.
    OtherPart,
}

pub const SORTS: [Sort; 12] = [
    Sort::AnyByte,
    Sort::Nudge,
    Sort::Legal,
    Sort::LegalOnOnePort,
    Sort::OtherModulation,
    Sort::Beyond,
    Sort::Exchange,
    Sort::Unit,
    Sort::Silent,
    Sort::Silenced,
    Sort::OtherChannel,
    Sort::OtherPart,
];

/// Any symbol of a modulation.
fn any_symbol(random: &mut Random, q: usize) -> Complex {
    let bits: Vec<u8> = (0..q).map(|_| random.byte() & 1).collect();
    map_symbol(&bits)
}

/// Any symbol of any modulation.
fn other_symbol(random: &mut Random, _: usize) -> Complex {
    let q = random.pick(&ORDERS);
    any_symbol(random, usize::from(q))
}

/// A symbol one of whose levels is one or two beyond the greatest of its modulation.
fn symbol_beyond(random: &mut Random, q: usize) -> Complex {
    let Complex { re, im } = any_symbol(random, q);
    let beyond = ((1 << (q / 2)) + random.below(2) as i32) * random.pick(&[1, -1]);
    if random.one_in(2) {
        Complex::new(beyond, im)
    } else {
        Complex::new(re, beyond)
    }
}

/// A plan with the grids of two payloads, and all that changing the first of them needs.
pub struct Prepared {
    pub bytes: Vec<u8>,
    plan: Plan,
    layout: Layout,
    reader: Reader,
    payload_length: usize,
    grid: Vec<u8>,
    other: Vec<u8>,
    /// The places of each kind of owner that has any.
    kinds: Vec<Vec<Place>>,
}

impl Prepared {
    /// The plan of the cases from `first` on.
    pub fn new(seed: u64, first: u64) -> Prepared {
        let mut random = Random::of_case(seed, first);
        let fixed = narrow(&mut random);
        let (how_his, how_users) = (random.pick(&HIS), random.pick(&USERS));
        let bytes = commands(&mut random, &fixed, how_his, how_users).concat();
        let mut grid_and_length = || {
            let payload = right_payload(&mut random, &bytes).expect("an accepted plan");
            let built = judge::build(&bytes, &payload, fixed.cell().grid_length());
            (built.expect("an accepted payload").0, payload.len())
        };
        let ((grid, payload_length), (other, _)) = (grid_and_length(), grid_and_length());
        let reader = Reader::new(&bytes).expect("an accepted plan");
        let plan = check(&bytes).expect("an accepted plan");
        let layout = layout(&plan);
        let mut kinds = vec![vec![]; 9];
        for s in 0..plan.cell.symbols() {
            for k in 0..plan.cell.subcarriers() {
                kinds[layout.owner(Place { s, k }).kind()].push(Place { s, k });
            }
        }
        kinds.retain(|places| !places.is_empty());
        Prepared { bytes, plan, layout, reader, payload_length, grid, other, kinds }
    }

    fn at(&self, port: usize, place: Place) -> usize {
        element_at(self.plan.cell.symbols(), self.plan.cell.subcarriers(), port, place)
    }

    /// A place of any owner; small owners come as often as large ones.
    fn place(&self, random: &mut Random) -> Place {
        let kind = random.below(self.kinds.len());
        random.pick(&self.kinds[kind])
    }

    fn port(&self, random: &mut Random) -> usize {
        random.below(self.plan.cell.ports)
    }

    /// One port or all.
    fn ports(&self, random: &mut Random) -> Range<usize> {
        let port = self.port(random);
        if random.one_in(2) {
            0..self.plan.cell.ports
        } else {
            port..port + 1
        }
    }

    /// The bytes of an element replaced.
    fn replaced(&self, port: usize, place: Place, bytes: &[u8]) -> Vec<Change> {
        (self.at(port, place)..).zip(bytes.iter().copied()).collect()
    }

    /// The elements of a place and ports as they are in a grid at another place.
    fn copied(&self, ports: Range<usize>, to: Place, grid: &[u8], from: Place) -> Vec<Change> {
        ports.flat_map(|port| self.replaced(port, to, &grid[self.at(port, from)..][..3])).collect()
    }

    /// The channels that send symbols: their places and Q.
    fn symbol_channels(&self) -> Vec<(&[Place], usize)> {
        let mut list = vec![(self.layout.pcfich.as_slice(), 2)];
        if !self.layout.pbch.is_empty() {
            list.push((&self.layout.pbch, 2));
        }
        list.extend(self.plan.users.iter().zip(&self.layout.users).map(|(user, own)| (&own[..], user.bits)));
        list
    }

    /// All channels.
    fn channels(&self) -> Vec<&[Place]> {
        let symbols = self.symbol_channels().into_iter().map(|(places, _)| places);
        symbols.chain(self.layout.phich.iter().map(Vec::as_slice)).collect()
    }

    /// A symbol of a channel gets another value: at its own place, and for transmit diversity at its partner's too.
    /// One list of changes for each of the ports. `value` gives the new levels by the channel's Q; the unit stays.
    fn symbol(&self, random: &mut Random, value: impl Fn(&mut Random, usize) -> Complex) -> Vec<Vec<Change>> {
        let (places, q) = random.pick(&self.symbol_channels());
        let ports = self.plan.cell.ports;
        let unit = unit_byte(if ports == 1 { unit(q) } else { 2 * unit(q) });
        let j = random.below(places.len());
        let x = value(random, q);
        let bytes = |re: i32, im: i32| [unit, re as i8 as u8, im as i8 as u8];
        let port = port_of_symbol(ports, j);
        let mut lists = vec![self.replaced(port, places[j], &bytes(x.re, x.im))];
        if ports > 1 {
            // 6.3.4.3: the conjugate of an even symbol comes next, minus that of an odd one comes before.
            let (re, im) = if j % 2 == 1 { (-x.re, x.im) } else { (x.re, -x.im) };
            lists.push(self.replaced(port + ports / 2, places[j ^ 1], &bytes(re, im)));
        }
        lists
    }

    fn any_bytes(&self, random: &mut Random) -> Vec<Change> {
        let count = 1 + random.below(4);
        (0..count).map(|_| (random.below(self.grid.len()), random.byte())).collect()
    }

    fn nudge(&self, random: &mut Random) -> Vec<Change> {
        let at = self.at(self.port(random), self.place(random)) + random.below(3);
        let byte = self.grid[at];
        let values =
            [byte.wrapping_add(1), byte.wrapping_sub(1), byte.wrapping_neg(), byte ^ (1 << random.below(8))];
        vec![(at, random.pick(&values))]
    }

    /// Places of one channel, or any two.
    fn exchange(&self, random: &mut Random) -> Vec<Change> {
        let channel = random.pick(&self.channels());
        let (a, b) = match random.below(3) {
            0 => (self.place(random), self.place(random)),
            1 => (random.pick(channel), random.pick(channel)),
            _ => {
                let j = random.below(channel.len());
                (channel[j], channel[(j ^ 1).min(channel.len() - 1)])
            }
        };
        let ports = self.ports(random);
        [self.copied(ports.clone(), a, &self.grid, b), self.copied(ports, b, &self.grid, a)].concat()
    }

    fn other_unit(&self, random: &mut Random) -> Vec<Change> {
        let (place, value) = (self.place(random), random.pick(&UNIT_BYTES));
        self.ports(random).map(|port| (self.at(port, place), value)).collect()
    }

    /// A byte of a silent element: of an idle or held place, or of a port without a term.
    fn silent(&self, random: &mut Random) -> Vec<Change> {
        let value = if random.one_in(2) { random.pick(&UNIT_BYTES) } else { random.byte() };
        loop {
            let at = self.at(self.port(random), self.place(random));
            // A plan may have no idle place but has silent elements on every port: in symbol 0 of port 1, or with one
            // port the places that groups skip. Any element will do now and then.
            if self.grid[at] == 0 || random.one_in(64) {
                return vec![(at + random.below(3), value)];
            }
        }
    }

    fn silenced(&self, random: &mut Random) -> Vec<Change> {
        let place = self.place(random);
        self.ports(random).flat_map(|port| self.replaced(port, place, &[0; 3])).collect()
    }

    fn other_channel(&self, random: &mut Random) -> Vec<Change> {
        let channel = random.pick(&self.channels());
        let ports = 0..self.plan.cell.ports;
        channel.iter().flat_map(|place| self.copied(ports.clone(), *place, &self.other, *place)).collect()
    }

    fn other_part(&self, random: &mut Random) -> Vec<Change> {
        let channel = random.pick(&self.channels());
        let port = self.port(random);
        let (ports, places) = match random.below(3) {
            0 => (port..port + 1, channel),
            1 => (self.ports(random), std::slice::from_ref(&channel[random.below(channel.len())])),
            _ => (0..self.plan.cell.ports, &channel[..random.below(channel.len())]),
        };
        places.iter().flat_map(|place| self.copied(ports.clone(), *place, &self.other, *place)).collect()
    }

    pub fn changes(&self, random: &mut Random, sort: Sort) -> Vec<Change> {
        match sort {
            Sort::AnyByte => self.any_bytes(random),
            Sort::Nudge => self.nudge(random),
            Sort::Legal => self.symbol(random, any_symbol).concat(),
            Sort::LegalOnOnePort => {
                let lists = self.symbol(random, any_symbol);
                lists[random.below(lists.len())].clone()
            }
            Sort::OtherModulation => self.symbol(random, other_symbol).concat(),
            Sort::Beyond => self.symbol(random, symbol_beyond).concat(),
            Sort::Exchange => self.exchange(random),
            Sort::Unit => self.other_unit(random),
            Sort::Silent => self.silent(random),
            Sort::Silenced => self.silenced(random),
            Sort::OtherChannel => self.other_channel(random),
            Sort::OtherPart => self.other_part(random),
        }
    }

    /// The grid with its changes.
    pub fn changed(&self, changes: &[Change]) -> Vec<u8> {
        let mut grid = self.grid.clone();
        changes.iter().for_each(|(at, value)| grid[*at] = *value);
        grid
    }

    /// What the judge reads.
    pub fn read(&self, grid: &[u8]) -> Filled {
        self.reader.read(grid, self.payload_length)
    }
}

/// The changes as text: byte, old value, new value; the first ones.
fn told(prepared: &Prepared, sort: Sort, changes: &[Change]) -> String {
    let one = |(at, value): &Change| format!(" {at}: {:02x} {value:02x}", prepared.grid[*at]);
    let rest = if changes.len() > 24 { ", .." } else { "" };
    let list: Vec<String> = changes.iter().take(24).map(one).collect();
    format!("{sort:?}, {} bytes (number, before, after):{}{rest}", changes.len(), list.join(","))
}

pub fn run(library: &Library, seed: u64, cases: Range<u64>, found: &mut Found) {
    let mut prepared: Option<(u64, Prepared)> = None;
    for case in cases {
        let first = case - case % OF_ONE_PLAN;
        let kept = prepared.take().filter(|(of, _)| *of == first);
        let (_, prepared) = prepared.insert(kept.unwrap_or_else(|| (first, Prepared::new(seed, first))));
        let mut random = Random::of_case(!seed, case);
        let sort = random.pick(&SORTS);
        let changes = prepared.changes(&mut random, sort);
        let grid = prepared.changed(&changes);
        let mut subject = Subject::new(library, &prepared.bytes, case);
        let outcome = subject.read(&grid, prepared.payload_length, &prepared.read(&grid));
        let outcome = outcome.map_err(|text| format!("{}\n{text}", told(prepared, sort, &changes)));
        found.add(case, &subject.answers, subject.told(outcome));
    }
}
