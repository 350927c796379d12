//! A reference for the downlink mapper of document 01 with document 02's #102, #108 and #109, written from these papers
//! and TS 36.211 alone.
//!
//! It is meant to be read beside the papers: matrices and tables stand as the standard prints them, the
//! sequence is made bit by bit, and every owner's places are listed by its own rule. Nothing is clever.

pub mod build;
pub mod builds;
pub mod control;
pub mod crs;
pub mod generate;
pub mod gridcount;
pub mod harness;
pub mod modulation;
pub mod owners;
pub mod payload;
pub mod phich;
pub mod plan;
pub mod plans;
pub mod precoding;
pub mod read;
pub mod reads;
pub mod sample;
pub mod sequence;
pub mod sync;

pub use build::build;
pub use gridcount::gridcount;
pub use owners::{counts, owner, owner_numbers};
pub use payload::payload_length;
pub use plan::{check, grid_length, Refusal};
pub use read::read;
pub use sample::{sample, Sample};

/// A whole complex number; its unit is kept beside it.
#[derive(Clone, Copy, Debug, PartialEq, Eq)]
pub struct Complex {
    pub re: i32,
    pub im: i32,
}

impl Complex {
    pub const ZERO: Complex = Complex::new(0, 0);

    pub const fn new(re: i32, im: i32) -> Complex {
        Complex { re, im }
    }

    pub fn conj(self) -> Complex {
        Complex::new(self.re, -self.im)
    }
}

impl std::ops::Add for Complex {
    type Output = Complex;
    fn add(self, other: Complex) -> Complex {
        Complex::new(self.re + other.re, self.im + other.im)
    }
}

impl std::ops::Mul for Complex {
    type Output = Complex;
    fn mul(self, other: Complex) -> Complex {
        Complex::new(self.re * other.re - self.im * other.im, self.re * other.im + self.im * other.re)
    }
}

impl std::ops::Mul<i32> for Complex {
    type Output = Complex;
    fn mul(self, factor: i32) -> Complex {
        Complex::new(self.re * factor, self.im * factor)
    }
}

/// A place is a pair (s, k) of the grid: symbol in the subframe, subcarrier.
#[derive(Clone, Copy, Debug, PartialEq, Eq, PartialOrd, Ord, Hash)]
pub struct Place {
    pub s: usize,
    pub k: usize,
}
