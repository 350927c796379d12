//! Read: the payload from which building makes exactly this grid (document 01, refusal 13).

use crate::build::{control_sequence, element_at, fill, pbch_sequence, scramble, user_sequence};
use crate::modulation::unmap_symbol;
use crate::owners::{layout, Layout};
use crate::payload::Sections;
use crate::plan::{check, HiCommand, Plan, Refusal, GRID_LENGTH, NO_PAYLOAD, PAYLOAD_LENGTH};
use crate::precoding::{port_of_phich_symbol, port_of_symbol};
use crate::{phich, Complex, Place};

/// I and J of an element.
fn value(plan: &Plan, grid: &[u8], port: usize, place: Place) -> Complex {
    let at = element_at(plan.cell.symbols(), plan.cell.subcarriers(), port, place);
    Complex::new(grid[at + 1] as i8 as i32, grid[at + 2] as i8 as i32)
}

/// The scrambled bits of a channel, taken where each symbol stands by itself.
fn scrambled_bits(plan: &Plan, grid: &[u8], places: &[Place], q: usize) -> Option<Vec<u8>> {
    let mut bits = Vec::new();
    for (j, place) in places.iter().enumerate() {
        let symbol = value(plan, grid, port_of_symbol(plan.cell.ports, j), *place);
        let number = unmap_symbol(symbol, q)?;
        bits.extend((0..q).rev().map(|i| (number >> i) & 1));
    }
    Some(bits)
}

/// An HI's bit: the unit's sums are correlated with what the bit 0 would send; the others' share is 0.
fn hi_bit(plan: &Plan, layout: &Layout, grid: &[u8], hi: &HiCommand, c: &[u8]) -> u8 {
    let unit = plan.cell.phich_unit_of(hi.group);
    let zero = phich::symbols(&plan.cell, hi, 0, c);
    let mut correlation = 0;
    for (j, place) in layout.phich[unit].iter().enumerate() {
        let sum = value(plan, grid, port_of_phich_symbol(plan.cell.ports, unit, j), *place);
        correlation += (sum * zero[j].conj()).re;
    }
    (correlation < 0) as u8
}

/// A payload that may have made the grid; where there is none that could have, `None`.
fn candidate(plan: &Plan, layout: &Layout, sections: &Sections, grid: &[u8]) -> Option<Vec<u8>> {
    let mut payload = vec![0; sections.length];
    if plan.frame.subframe == 0 {
        let bits = scrambled_bits(plan, grid, &layout.pbch, 2)?;
        sections.pbch.put(&mut payload, &scramble(&bits, &pbch_sequence(plan)));
    }
    let c = control_sequence(plan);
    let bits: Vec<u8> = plan.his.iter().map(|hi| hi_bit(plan, layout, grid, hi, &c)).collect();
    sections.his.put(&mut payload, &bits);
    for ((user, places), section) in plan.users.iter().zip(&layout.users).zip(&sections.users) {
        let bits = scrambled_bits(plan, grid, places, user.bits)?;
        section.put(&mut payload, &scramble(&bits, &user_sequence(plan, user, section.bits)));
    }
    Some(payload)
}

/// A plan with all that reading its grids needs.
pub struct Reader {
    plan: Plan,
    layout: Layout,
    sections: Sections,
}

impl Reader {
    pub fn new(plan: &[u8]) -> Result<Reader, Refusal> {
        let plan = check(plan)?;
        let layout = layout(&plan);
        let sections = Sections::new(&plan, &layout);
        Ok(Reader { plan, layout, sections })
    }

    /// The payload and the count of user elements, or the refusal: 10, 11, 13.
    pub fn read(&self, grid: &[u8], payload_length: usize) -> Result<(Vec<u8>, usize), Refusal> {
        if grid.len() != self.plan.cell.grid_length() {
            return Err(GRID_LENGTH);
        }
        if payload_length != self.sections.length {
            return Err(PAYLOAD_LENGTH);
        }
        // Only one payload can have made the grid; whether it did, building tells.
        match candidate(&self.plan, &self.layout, &self.sections, grid) {
            Some(payload) if fill(&self.plan, &self.layout, &self.sections, &payload) == grid => {
                Ok((payload, self.layout.user_elements()))
            }
            _ => Err(NO_PAYLOAD),
        }
    }
}

/// Read: the payload and the count of user elements, or the refusal: the plan's, 10, 11, 13.
pub fn read(plan: &[u8], grid: &[u8], payload_length: usize) -> Result<(Vec<u8>, usize), Refusal> {
    Reader::new(plan)?.read(grid, payload_length)
}
