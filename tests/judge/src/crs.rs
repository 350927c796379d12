//! Cell-specific reference signals (36.211 clause 6.10.1; document 01, "CRS").

use crate::plan::{Cell, Frame};
use crate::sequence::sequence;
use crate::{Complex, Place};

/// Largest downlink bandwidth, N_RB^max,DL.
const MAX_BLOCKS: usize = 110;

/// One symbol of a subframe that carries a port's reference signal.
#[derive(Clone, Copy, Debug)]
pub struct CrsSymbol {
    /// n, the slot in the frame.
    pub slot: usize,
    /// l, the symbol in the slot.
    pub l: usize,
    /// s, the symbol in the subframe.
    pub s: usize,
    /// v of 6.10.1.2.
    pub v: usize,
}

/// The symbols in which a port sends references.
pub fn symbols_of_port(cell: &Cell, frame: &Frame, port: usize) -> Vec<CrsSymbol> {
    let mut found = Vec::new();
    for half in 0..2 {
        let slot = 2 * frame.subframe + half;
        // "0 and 1 use l = 0 and 3rd from last; 2 and 3 use l = 1".
        let ls = if port < 2 { vec![0, cell.slot_symbols() - 3] } else { vec![1] };
        for l in ls {
            let v = match (port, l) {
                (0, 0) => 0,
                (0, _) => 3,
                (1, 0) => 3,
                (1, _) => 0,
                (2, _) => 3 * (slot % 2),
                (3, _) => 3 + 3 * (slot % 2),
                _ => panic!("no such port"),
            };
            found.push(CrsSymbol { slot, l, s: half * cell.slot_symbols() + l, v });
        }
    }
    found
}

/// The place of reference number m in a symbol: k = 6m + ((v + C) mod 6).
pub fn place(cell: &Cell, symbol: &CrsSymbol, m: usize) -> Place {
    Place { s: symbol.s, k: 6 * m + (symbol.v + cell.identity) % 6 }
}

/// All places of a port's references, m = 0 .. 2N−1 in each symbol.
pub fn places_of_port(cell: &Cell, frame: &Frame, port: usize) -> Vec<Place> {
    let symbols = symbols_of_port(cell, frame, port);
    symbols.iter().flat_map(|symbol| (0..2 * cell.blocks).map(|m| place(cell, symbol, m))).collect()
}

/// The values of a symbol's references in order of m, unit 2.
pub fn values(cell: &Cell, symbol: &CrsSymbol) -> Vec<Complex> {
    let normal = if cell.extended { 0 } else { 1 };
    let c_init =
        1024 * (7 * (symbol.slot + 1) + symbol.l + 1) * (2 * cell.identity + 1) + 2 * cell.identity + normal;
    let c = sequence(c_init as u32, 4 * MAX_BLOCKS);
    let r = |m: usize| Complex::new(1 - 2 * c[2 * m] as i32, 1 - 2 * c[2 * m + 1] as i32);
    (0..2 * cell.blocks).map(|m| r(m + MAX_BLOCKS - cell.blocks)).collect()
}
