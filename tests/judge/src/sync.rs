//! Synchronisation signals (36.211 clause 6.11; document 01, "f = 0, 5, slot 2f").

use crate::plan::{Cell, Frame};
use crate::Place;

/// 36.211 table 6.11.2.1-1: (m0, m1) by physical-layer cell-identity group.
#[rustfmt::skip]
pub const SSS_PAIRS: [(usize, usize); 168] = [
    (0, 1), (1, 2), (2, 3), (3, 4), (4, 5), (5, 6), (6, 7), (7, 8),
    (8, 9), (9, 10), (10, 11), (11, 12), (12, 13), (13, 14), (14, 15), (15, 16),
    (16, 17), (17, 18), (18, 19), (19, 20), (20, 21), (21, 22), (22, 23), (23, 24),
    (24, 25), (25, 26), (26, 27), (27, 28), (28, 29), (29, 30), (0, 2), (1, 3),
    (2, 4), (3, 5), (4, 6), (5, 7), (6, 8), (7, 9), (8, 10), (9, 11),
    (10, 12), (11, 13), (12, 14), (13, 15), (14, 16), (15, 17), (16, 18), (17, 19),
    (18, 20), (19, 21), (20, 22), (21, 23), (22, 24), (23, 25), (24, 26), (25, 27),
    (26, 28), (27, 29), (28, 30), (0, 3), (1, 4), (2, 5), (3, 6), (4, 7),
    (5, 8), (6, 9), (7, 10), (8, 11), (9, 12), (10, 13), (11, 14), (12, 15),
    (13, 16), (14, 17), (15, 18), (16, 19), (17, 20), (18, 21), (19, 22), (20, 23),
    (21, 24), (22, 25), (23, 26), (24, 27), (25, 28), (26, 29), (27, 30), (0, 4),
    (1, 5), (2, 6), (3, 7), (4, 8), (5, 9), (6, 10), (7, 11), (8, 12),
    (9, 13), (10, 14), (11, 15), (12, 16), (13, 17), (14, 18), (15, 19), (16, 20),
    (17, 21), (18, 22), (19, 23), (20, 24), (21, 25), (22, 26), (23, 27), (24, 28),
    (25, 29), (26, 30), (0, 5), (1, 6), (2, 7), (3, 8), (4, 9), (5, 10),
    (6, 11), (7, 12), (8, 13), (9, 14), (10, 15), (11, 16), (12, 17), (13, 18),
    (14, 19), (15, 20), (16, 21), (17, 22), (18, 23), (19, 24), (20, 25), (21, 26),
    (22, 27), (23, 28), (24, 29), (25, 30), (0, 6), (1, 7), (2, 8), (3, 9),
    (4, 10), (5, 11), (6, 12), (7, 13), (8, 14), (9, 15), (10, 16), (11, 17),
    (12, 18), (13, 19), (14, 20), (15, 21), (16, 22), (17, 23), (18, 24), (19, 25),
    (20, 26), (21, 27), (22, 28), (23, 29), (24, 30), (0, 7), (1, 8), (2, 9),
];

/// Only subframes 0 and 5 have synchronisation signals.
pub fn present(frame: &Frame) -> bool {
    frame.subframe == 0 || frame.subframe == 5
}

/// "PSS in the last symbol" of slot 2f.
pub fn pss_symbol(cell: &Cell) -> usize {
    cell.slot_symbols() - 1
}

/// "SSS one symbol earlier".
pub fn sss_symbol(cell: &Cell) -> usize {
    cell.slot_symbols() - 2
}

/// The 62 places used in a symbol: k = i − 31 + 6N.
pub fn used_places(cell: &Cell, s: usize) -> Vec<Place> {
    (0..62).map(|i| Place { s, k: i + 6 * cell.blocks - 31 }).collect()
}

/// "the first and last five held" of the centre 72.
pub fn held_places(cell: &Cell, s: usize) -> Vec<Place> {
    let centre = cell.centre();
    let first = centre.start..centre.start + 5;
    let last = centre.end - 5..centre.end;
    first.chain(last).map(|k| Place { s, k }).collect()
}

/// The phases of PSS in steps of −2π/63 (6.11.1.1: exp(−jπu n(n+1)/63), from n = 31 on exp(−jπu (n+1)(n+2)/63)).
pub fn pss(cell: &Cell) -> Vec<usize> {
    let root = [25, 29, 34][cell.identity % 3];
    let t = |i: usize| if i <= 30 { i * (i + 1) / 2 } else { (i + 1) * (i + 2) / 2 };
    (0..62).map(|i| root * t(i) % 63).collect()
}

/// x(0) .. x(30) of an m-sequence that starts 0, 0, 0, 0, 1, as signs 1 − 2x.
fn signs(taps: &[usize]) -> [i32; 31] {
    let mut x = [0usize; 31];
    x[4] = 1;
    for i in 0..=25 {
        x[i + 5] = taps.iter().map(|tap| x[i + tap]).sum::<usize>() % 2;
    }
    x.map(|bit| 1 - 2 * bit as i32)
}

/// The signs d(0) .. d(61) of SSS (6.11.2.1).
pub fn sss(cell: &Cell, frame: &Frame) -> Vec<i32> {
    let (m0, m1) = SSS_PAIRS[cell.identity / 3];
    let id2 = cell.identity % 3;
    let s_tilde = signs(&[2, 0]); // x(i+5) = x(i+2) + x(i)
    let c_tilde = signs(&[3, 0]); // x(i+5) = x(i+3) + x(i)
    let z_tilde = signs(&[4, 2, 1, 0]); // x(i+5) = x(i+4) + x(i+2) + x(i+1) + x(i)
    let s0 = |n: usize| s_tilde[(n + m0) % 31];
    let s1 = |n: usize| s_tilde[(n + m1) % 31];
    let c0 = |n: usize| c_tilde[(n + id2) % 31];
    let c1 = |n: usize| c_tilde[(n + id2 + 3) % 31];
    let z1 = |m: usize, n: usize| z_tilde[(n + m % 8) % 31];
    let mut d = vec![0; 62];
    for n in 0..31 {
        if frame.subframe == 0 {
            d[2 * n] = s0(n) * c0(n);
            d[2 * n + 1] = s1(n) * c1(n) * z1(m0, n);
        } else {
            d[2 * n] = s1(n) * c0(n);
            d[2 * n + 1] = s0(n) * c1(n) * z1(m1, n);
        }
    }
    d
}
