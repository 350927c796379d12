//! One acknowledgement's twelve symbols (36.211 clauses 6.9.1 and 6.9.2).

use crate::plan::{Cell, HiCommand};
use crate::Complex;

const E: Complex = Complex::new(1, 0);
const N: Complex = Complex::new(-1, 0);
const J: Complex = Complex::new(0, 1);
const K: Complex = Complex::new(0, -1);

/// Table 6.9.1-2, normal prefix.
pub const NORMAL_SEQUENCES: [[Complex; 4]; 8] = [
    [E, E, E, E],
    [E, N, E, N],
    [E, E, N, N],
    [E, N, N, E],
    [J, J, J, J],
    [J, K, J, K],
    [J, J, K, K],
    [J, K, K, J],
];

/// Table 6.9.1-2, extended prefix.
pub const EXTENDED_SEQUENCES: [[Complex; 2]; 4] = [[E, E], [E, N], [J, J], [J, K]];

/// The unit of PHICH before precoding: BPSK of 36.211 table 7.1.1-1 has 1/√2 in both parts.
pub const UNIT: u16 = 2;

/// The spreading sequence of an HI.
fn spreading(cell: &Cell, hi: &HiCommand) -> Vec<Complex> {
    if cell.extended {
        EXTENDED_SEQUENCES[hi.sequence].to_vec()
    } else {
        NORMAL_SEQUENCES[hi.sequence].to_vec()
    }
}

/// d0(0) .. d0(11) of an HI with its bit; c is the sequence with PCFICH's c_init.
pub fn symbols(cell: &Cell, hi: &HiCommand, bit: u8, c: &[u8]) -> Vec<Complex> {
    // TS 36.212: "The bit is sent three times". BPSK: 0 is (1, 1), 1 is (−1, −1).
    let z = [Complex::new(1 - 2 * bit as i32, 1 - 2 * bit as i32); 3];
    // 6.9.1: d(i) = w(i mod SF) (1 − 2c(i)) z(floor(i / SF)).
    let w = spreading(cell, hi);
    let sf = w.len();
    let d: Vec<Complex> = (0..3 * sf).map(|i| w[i % sf] * (1 - 2 * c[i] as i32) * z[i / sf]).collect();
    if !cell.extended {
        return d;
    }
    // 6.9.2: extended pairs stand in the first or the second half of their quads.
    let (zero, mut aligned) = (Complex::ZERO, Vec::new());
    for i in 0..3 {
        match hi.group % 2 {
            0 => aligned.extend([d[2 * i], d[2 * i + 1], zero, zero]),
            _ => aligned.extend([zero, zero, d[2 * i], d[2 * i + 1]]),
        }
    }
    aligned
}
