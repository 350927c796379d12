//! Build: the grid from plan and payload (document 01, "Grid" and "Owners").

use crate::modulation::{modulate, unit};
use crate::owners::{layout, Layout};
use crate::payload::{pbch_bits, Sections};
use crate::plan::{check, Plan, Refusal, UserCommand, GRID_LENGTH, PAYLOAD_LENGTH, SPARE_BIT};
use crate::precoding::{precode, precode_phich, Vector};
use crate::sample::{greatest_level, unit_byte};
use crate::sequence::sequence;
use crate::{control, crs, phich, sync, Complex, Place};

/// The grid under construction; what is given no value stays silent (0, 0, 0).
struct Grid {
    symbols: usize,
    subcarriers: usize,
    ports: usize,
    bytes: Vec<u8>,
}

/// Where an element stands: ((p×S+s)×12N+k)×3.
pub fn element_at(symbols: usize, subcarriers: usize, port: usize, place: Place) -> usize {
    ((port * symbols + place.s) * subcarriers + place.k) * 3
}

impl Grid {
    fn put(&mut self, port: usize, place: Place, unit: u16, value: Complex) {
        assert!(port < self.ports && place.s < self.symbols && place.k < self.subcarriers);
        let most = if unit == 63 { 62 } else { i32::from(greatest_level(unit)) };
        assert!(value.re.abs() <= most && value.im.abs() <= most, "no level {value:?} in unit {unit}");
        let at = element_at(self.symbols, self.subcarriers, port, place);
        assert_eq!(self.bytes[at], 0, "{place:?} is written twice on port {port}");
        let element = [unit_byte(unit), value.re as i8 as u8, value.im as i8 as u8];
        self.bytes[at..at + 3].copy_from_slice(&element);
    }

    /// A precoded channel: "units doubled, ports without a term silent".
    fn put_channel(&mut self, places: &[Place], unit: u16, y: &[Vector]) {
        assert_eq!(places.len(), y.len());
        let unit = if self.ports == 1 { unit } else { 2 * unit };
        for (place, vector) in places.iter().zip(y) {
            for (port, value) in vector.iter().enumerate() {
                if let Some(value) = value {
                    self.put(port, *place, unit, *value);
                }
            }
        }
    }
}

/// Bits plus sequence, modulo 2.
pub fn scramble(bits: &[u8], c: &[u8]) -> Vec<u8> {
    assert!(c.len() >= bits.len());
    bits.iter().zip(c).map(|(bit, c)| (bit + c) % 2).collect()
}

/// PBCH: "c_init = C; bit i uses c(i+480(F mod 4)), extended 432".
pub fn pbch_sequence(plan: &Plan) -> Vec<u8> {
    let bits = pbch_bits(plan.cell.extended);
    let c = sequence(plan.cell.identity as u32, 4 * bits);
    c[bits * (plan.frame.frame % 4)..][..bits].to_vec()
}

/// A user: "c_init = RNTI×16384+512f+C".
pub fn user_sequence(plan: &Plan, user: &UserCommand, bits: usize) -> Vec<u8> {
    let c_init = user.rnti * 16384 + 512 * plan.frame.subframe + plan.cell.identity;
    sequence(c_init as u32, bits)
}

/// The sequence of PCFICH and PHICH.
pub fn control_sequence(plan: &Plan) -> Vec<u8> {
    sequence(control::c_init(&plan.cell, &plan.frame), 32)
}

/// A PHICH unit's elements: the precoded sequences of the HIs of its groups, "summed per unit".
fn phich_unit(plan: &Plan, unit: usize, bits: &[u8], c: &[u8]) -> Vec<Vector> {
    // An empty unit has "sum 0".
    let mut sum = precode_phich(plan.cell.ports, unit, &[Complex::ZERO; 12]);
    for (hi, bit) in plan.his.iter().zip(bits) {
        // Normal: group; extended: floor(group/2). Both are the unit's number.
        let pair = plan.cell.phich_unit_of(hi.group);
        if pair != unit {
            continue;
        }
        let y = precode_phich(plan.cell.ports, pair, &phich::symbols(&plan.cell, hi, *bit, c));
        for (total, term) in sum.iter_mut().flatten().zip(y.iter().flatten()) {
            *total = match (*total, *term) {
                (Some(total), Some(term)) => Some(total + term),
                (None, None) => None,
                _ => panic!("one unit has one matrix in a quad"),
            };
        }
    }
    sum
}

/// The grid of an accepted plan and payload.
pub fn fill(plan: &Plan, layout: &Layout, sections: &Sections, payload: &[u8]) -> Vec<u8> {
    let (cell, frame) = (&plan.cell, &plan.frame);
    let mut grid = Grid {
        symbols: cell.symbols(),
        subcarriers: cell.subcarriers(),
        ports: cell.ports,
        bytes: vec![0; cell.grid_length()],
    };

    // CRS: unit 2 on the own port; "other ports are silent there".
    for port in 0..cell.ports {
        for symbol in crs::symbols_of_port(cell, frame, port) {
            for (m, value) in crs::values(cell, &symbol).into_iter().enumerate() {
                grid.put(port, crs::place(cell, &symbol, m), 2, value);
            }
        }
    }

    // PSS and SSS: port 0.
    if sync::present(frame) {
        let pss = sync::used_places(cell, sync::pss_symbol(cell));
        for (place, phase) in pss.into_iter().zip(sync::pss(cell)) {
            grid.put(0, place, 63, Complex::new(phase as i32, 0));
        }
        let sss = sync::used_places(cell, sync::sss_symbol(cell));
        for (place, sign) in sss.into_iter().zip(sync::sss(cell, frame)) {
            grid.put(0, place, 1, Complex::new(sign, 0));
        }
    }

    // PBCH: QPSK.
    if frame.subframe == 0 {
        let bits = scramble(&sections.pbch.take(payload), &pbch_sequence(plan));
        grid.put_channel(&layout.pbch, unit(2), &precode(cell.ports, &modulate(&bits, 2)));
    }

    // PCFICH: QPSK.
    let c = control_sequence(plan);
    let bits = scramble(&control::cfi_bits(frame.cfi), &c);
    grid.put_channel(&layout.pcfich, unit(2), &precode(cell.ports, &modulate(&bits, 2)));

    // PHICH.
    let hi_bits = sections.his.take(payload);
    for (unit, places) in layout.phich.iter().enumerate() {
        grid.put_channel(places, phich::UNIT, &phich_unit(plan, unit, &hi_bits, &c));
    }

    // PDSCH.
    for ((user, places), section) in plan.users.iter().zip(&layout.users).zip(&sections.users) {
        let bits = scramble(&section.take(payload), &user_sequence(plan, user, section.bits));
        grid.put_channel(places, unit(user.bits), &precode(cell.ports, &modulate(&bits, user.bits)));
    }
    grid.bytes
}

/// Build: the grid and the count of user elements, or the refusal: the plan's, 10, 11, 12.
pub fn build(plan: &[u8], payload: &[u8], grid_length: usize) -> Result<(Vec<u8>, usize), Refusal> {
    let plan = check(plan)?;
    let layout = layout(&plan);
    let sections = Sections::new(&plan, &layout);
    if grid_length != plan.cell.grid_length() {
        return Err(GRID_LENGTH);
    }
    if payload.len() != sections.length {
        return Err(PAYLOAD_LENGTH);
    }
    if sections.spare_bit_set(payload) {
        return Err(SPARE_BIT);
    }
    Ok((fill(&plan, &layout, &sections, payload), layout.user_elements()))
}
