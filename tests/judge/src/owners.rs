//! Who owns each place (document 01, "Owners").

use crate::plan::{check, Plan, Refusal, OUTSIDE_GRID};
use crate::{control, crs, sync, Place};
use std::collections::HashSet;

#[derive(Clone, Copy, Debug, PartialEq, Eq)]
pub enum Owner {
    /// A reference signal with its port.
    Crs(usize),
    Pss,
    Sss,
    Pbch,
    Pcfich,
    /// A PHICH unit.
    Phich(usize),
    /// A user by its number in the plan, from 0.
    User(usize),
    Held,
    Idle,
}

/// gridcount's names in gridcount's order.
pub const KINDS: [&str; 9] = ["CRS", "PSS", "SSS", "PBCH", "PCFICH", "PHICH", "PDSCH", "held", "idle"];

impl Owner {
    /// The number by which calls name an owner.
    pub fn number(self) -> u16 {
        match self {
            Owner::Crs(port) => port as u16,
            Owner::Pss => 16,
            Owner::Sss => 17,
            Owner::Pbch => 32,
            Owner::Pcfich => 33,
            Owner::Phich(unit) => 64 + unit as u16,
            Owner::User(user) => 256 + user as u16,
            Owner::Held => 512,
            Owner::Idle => 513,
        }
    }

    /// The owner's kind: an index into `KINDS`.
    pub fn kind(self) -> usize {
        match self {
            Owner::Crs(_) => 0,
            Owner::Pss => 1,
            Owner::Sss => 2,
            Owner::Pbch => 3,
            Owner::Pcfich => 4,
            Owner::Phich(_) => 5,
            Owner::User(_) => 6,
            Owner::Held => 7,
            Owner::Idle => 8,
        }
    }
}

/// The map of owners, and each channel's places in the order in which it fills them.
#[derive(Clone, Debug)]
pub struct Layout {
    subcarriers: usize,
    map: Vec<Option<Owner>>,
    pub pbch: Vec<Place>,
    pub pcfich: Vec<Place>,
    pub phich: Vec<Vec<Place>>,
    pub users: Vec<Vec<Place>>,
}

impl Layout {
    fn index(&self, place: Place) -> usize {
        assert!(place.k < self.subcarriers, "k outside the grid");
        place.s * self.subcarriers + place.k
    }

    /// Enters an owner; two rules that claim one place are a fault of the paper or of this program.
    fn claim(&mut self, place: Place, owner: Owner) {
        let index = self.index(place);
        if let Some(other) = self.map[index] {
            panic!("{place:?} is claimed by {other:?} and by {owner:?}");
        }
        self.map[index] = Some(owner);
    }

    fn claim_all(&mut self, places: &[Place], owner: Owner) {
        for place in places {
            self.claim(*place, owner);
        }
    }

    pub fn owner(&self, place: Place) -> Owner {
        // "idle (the rest)".
        self.map[self.index(place)].unwrap_or(Owner::Idle)
    }

    /// An owner's places, s by s.
    pub fn places_of(&self, owner: Owner) -> Vec<Place> {
        let places = 0..self.map.len();
        let place = |i: usize| Place { s: i / self.subcarriers, k: i % self.subcarriers };
        places.map(place).filter(|place| self.owner(*place) == owner).collect()
    }

    /// The user elements, ports not multiplied.
    pub fn user_elements(&self) -> usize {
        self.users.iter().map(Vec::len).sum()
    }

    /// Elements by kind, ports not multiplied.
    pub fn counts(&self) -> [usize; 9] {
        let mut counts = [0; 9];
        for owner in &self.map {
            counts[owner.unwrap_or(Owner::Idle).kind()] += 1;
        }
        counts
    }

    /// The owners of all places, s by s.
    pub fn numbers(&self) -> Vec<u16> {
        self.map.iter().map(|owner| owner.unwrap_or(Owner::Idle).number()).collect()
    }
}

/// The area of PBCH: slot 1, l = 0..3, centre 72, "k first".
fn pbch_area(plan: &Plan) -> Vec<Place> {
    let first = plan.cell.slot_symbols();
    (first..first + 4).flat_map(|s| plan.cell.centre().map(move |k| Place { s, k })).collect()
}

/// Every rule in turn.
pub fn layout(plan: &Plan) -> Layout {
    let (cell, frame) = (&plan.cell, &plan.frame);
    let places = cell.symbols() * cell.subcarriers();
    let mut layout = Layout {
        subcarriers: cell.subcarriers(),
        map: vec![None; places],
        pbch: Vec::new(),
        pcfich: control::pcfich_places(cell),
        phich: (0..cell.phich_units()).map(|unit| control::phich_places(cell, unit)).collect(),
        users: Vec::new(),
    };

    // CRS "of the ports below P".
    for port in 0..cell.ports {
        layout.claim_all(&crs::places_of_port(cell, frame, port), Owner::Crs(port));
    }

    // PSS and SSS with their held edges.
    if sync::present(frame) {
        for (s, owner) in [(sync::pss_symbol(cell), Owner::Pss), (sync::sss_symbol(cell), Owner::Sss)] {
            layout.claim_all(&sync::used_places(cell, s), owner);
            layout.claim_all(&sync::held_places(cell, s), Owner::Held);
        }
    }

    // PBCH, "skipping CRS positions for four ports"; "positions skipped but unused by CRS are held".
    if frame.subframe == 0 {
        let four: HashSet<Place> = (0..4).flat_map(|port| crs::places_of_port(cell, frame, port)).collect();
        let (skipped, filled): (Vec<Place>, Vec<Place>) =
            pbch_area(plan).into_iter().partition(|place| four.contains(place));
        let unused = |place: &Place| !matches!(layout.owner(*place), Owner::Crs(_));
        let held: Vec<Place> = skipped.into_iter().filter(unused).collect();
        layout.claim_all(&filled, Owner::Pbch);
        layout.claim_all(&held, Owner::Held);
        layout.pbch = filled;
    }

    // PCFICH and the PHICH units; "an empty unit still owns its elements".
    layout.claim_all(&layout.pcfich.clone(), Owner::Pcfich);
    for unit in 0..cell.phich_units() {
        layout.claim_all(&layout.phich[unit].clone(), Owner::Phich(unit));
    }

    // USER: "its blocks, symbols s ≥ CFI, not owned above; k first, then s"; the control region is "CFI + 1 symbols"
    // where N = 6.
    let above = layout.map.clone();
    for (number, user) in plan.users.iter().enumerate() {
        let mut own = Vec::new();
        for s in plan.control_symbols()..cell.symbols() {
            for k in 12 * user.first..12 * (user.first + user.count) {
                let place = Place { s, k };
                if above[layout.index(place)].is_none() {
                    own.push(place);
                }
            }
        }
        layout.claim_all(&own, Owner::User(number));
        layout.users.push(own);
    }
    layout
}

/// The owner query: plan, s, k, port; "a place has the same owner on every port".
pub fn owner(plan: &[u8], s: usize, k: usize, port: usize) -> Result<u16, Refusal> {
    let plan = check(plan)?;
    if s >= plan.cell.symbols() || k >= plan.cell.subcarriers() || port >= plan.cell.ports {
        return Err(OUTSIDE_GRID);
    }
    Ok(layout(&plan).owner(Place { s, k }).number())
}

/// The owners of all places, s by s.
pub fn owner_numbers(plan: &[u8]) -> Result<Vec<u16>, Refusal> {
    Ok(layout(&check(plan)?).numbers())
}

/// Element counts in gridcount's order.
pub fn counts(plan: &[u8]) -> Result<[usize; 9], Refusal> {
    Ok(layout(&check(plan)?).counts())
}
