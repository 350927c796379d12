//! The payload's sections and bits (document 01, "Plan and payload").

use crate::owners::{layout, Layout};
use crate::plan::{check, Plan, Refusal};

/// A section: it starts on a byte and is "filled most significant bit first".
#[derive(Clone, Copy, Debug, PartialEq, Eq)]
pub struct Section {
    pub first_byte: usize,
    pub bits: usize,
}

impl Section {
    pub fn bytes(&self) -> usize {
        self.bits.div_ceil(8)
    }

    /// The section's bits in order.
    pub fn take(&self, payload: &[u8]) -> Vec<u8> {
        (0..self.bits).map(|i| (payload[self.first_byte + i / 8] >> (7 - i % 8)) & 1).collect()
    }

    /// Sets the section's bits in a payload of zeros.
    pub fn put(&self, payload: &mut [u8], bits: &[u8]) {
        assert_eq!(bits.len(), self.bits);
        for (i, bit) in bits.iter().enumerate() {
            payload[self.first_byte + i / 8] |= bit << (7 - i % 8);
        }
    }

    /// The spare bits that follow the last bit in its byte.
    pub fn spare(&self, payload: &[u8]) -> Vec<u8> {
        (self.bits..8 * self.bytes()).map(|i| (payload[self.first_byte + i / 8] >> (7 - i % 8)) & 1).collect()
    }
}

/// PBCH's bits: 480, extended 432.
pub fn pbch_bits(extended: bool) -> usize {
    if extended {
        432
    } else {
        480
    }
}

/// All sections of a plan; those that a plan lacks have no bits.
#[derive(Clone, Debug)]
pub struct Sections {
    pub pbch: Section,
    pub his: Section,
    pub users: Vec<Section>,
    pub length: usize,
}

impl Sections {
    pub fn new(plan: &Plan, layout: &Layout) -> Sections {
        let mut length = 0;
        let mut next = |bits: usize| {
            let section = Section { first_byte: length, bits };
            length += section.bytes();
            section
        };
        let pbch = next(if plan.frame.subframe == 0 { pbch_bits(plan.cell.extended) } else { 0 });
        let his = next(plan.his.len());
        let users =
            plan.users.iter().zip(&layout.users).map(|(user, own)| next(user.bits * own.len())).collect();
        Sections { pbch, his, users, length }
    }

    pub fn all(&self) -> Vec<Section> {
        [vec![self.pbch, self.his], self.users.clone()].concat()
    }

    /// "a spare bit set".
    pub fn spare_bit_set(&self, payload: &[u8]) -> bool {
        self.all().iter().any(|section| section.spare(payload).contains(&1))
    }
}

/// The payload's length in bytes.
pub fn payload_length(plan: &[u8]) -> Result<usize, Refusal> {
    let plan = check(plan)?;
    Ok(Sections::new(&plan, &layout(&plan)).length)
}
