//! Groups of subcarriers in the symbols 0 to 2, and which of them PCFICH and PHICH take (36.211 clauses 6.2.4,
//! 6.7.4 and 6.9.3; document 01, "Symbol 0 has 2N groups", "PHICH"; document 02, #108).

use crate::plan::{Cell, Frame};
use crate::Place;
use std::ops::Range;

/// The 32-bit codewords of TS 36.212 table 5.3.4-1 for CFI 1, 2, 3.
pub const CFI_CODEWORDS: [&str; 3] = [
    "01101101101101101101101101101101",
    "10110110110110110110110110110110",
    "11011011011011011011011011011011",
];

/// The bits that PCFICH sends before scrambling.
pub fn cfi_bits(cfi: usize) -> Vec<u8> {
    CFI_CODEWORDS[cfi - 1].bytes().map(|digit| digit - b'0').collect()
}

/// c_init of PCFICH and PHICH: (f+1)(2C+1)512+C.
pub fn c_init(cell: &Cell, frame: &Frame) -> u32 {
    ((frame.subframe + 1) * (2 * cell.identity + 1) * 512 + cell.identity) as u32
}

/// The groups of a block: "Symbol 0 has 2N groups of six subcarriers"; "Symbols 1 and 2 have three groups of four per
/// block, symbol 1 with four ports two groups of six".
fn groups_of_block(cell: &Cell, s: usize) -> Vec<Range<usize>> {
    match (s, cell.ports) {
        (0, _) | (1, 4) => vec![0..6, 6..12],
        (1 | 2, _) => vec![0..4, 4..8, 8..12],
        _ => panic!("symbol {s} has no group of PCFICH or PHICH"),
    }
}

/// The number of groups of a symbol.
pub fn groups(cell: &Cell, s: usize) -> usize {
    cell.blocks * groups_of_block(cell, s).len()
}

/// A group's four places: of six subcarriers they "skip k with k mod 3 = C mod 3, also for one port", of four all.
pub fn places_of_group(cell: &Cell, s: usize, group: usize) -> Vec<Place> {
    let of_block = groups_of_block(cell, s);
    let (block, own) = (group / of_block.len(), of_block[group % of_block.len()].clone());
    let skips = own.len() == 6;
    let subcarriers = own.map(|k| 12 * block + k);
    let free = subcarriers.filter(|k| !skips || k % 3 != cell.identity % 3);
    let places: Vec<Place> = free.map(|k| Place { s, k }).collect();
    assert_eq!(places.len(), 4);
    places
}

/// PCFICH quad i: group (C + floor(iN/2)) mod 2N of symbol 0.
pub fn pcfich_groups(cell: &Cell) -> [usize; 4] {
    [0, 1, 2, 3].map(|i| (cell.identity + i * cell.blocks / 2) % (2 * cell.blocks))
}

/// The groups of a symbol that are "not given to PCFICH", in ascending order.
fn groups_left(cell: &Cell, s: usize) -> Vec<usize> {
    let taken = if s == 0 { pcfich_groups(cell).to_vec() } else { vec![] };
    (0..groups(cell, s)).filter(|group| !taken.contains(group)).collect()
}

/// PHICH quad i of unit m: its symbol and its group there. "Extended: quad i lies in symbol i, its number
/// (floor(C×h_i/h_0)+m+floor(i×h_i/3)) mod h_i, where h_i counts the groups of symbol i not given to PCFICH." The normal
/// duration has symbol 0 alone, so that h_i is h_0: "With h = 2N−4 groups left in ascending order, quad i of unit m takes
/// number (C+m+floor(ih/3)) mod h."
pub fn phich_quads(cell: &Cell, unit: usize) -> [(usize, usize); 3] {
    let h_0 = groups_left(cell, 0).len();
    [0, 1, 2].map(|i| {
        let s = if cell.extended_phich { i } else { 0 };
        let left = groups_left(cell, s);
        let h = left.len();
        (s, left[(cell.identity * h / h_0 + unit + i * h / 3) % h])
    })
}

/// PCFICH's sixteen places, quad by quad.
pub fn pcfich_places(cell: &Cell) -> Vec<Place> {
    pcfich_groups(cell).iter().flat_map(|&group| places_of_group(cell, 0, group)).collect()
}

/// A PHICH unit's twelve places, quad by quad.
pub fn phich_places(cell: &Cell, unit: usize) -> Vec<Place> {
    phich_quads(cell, unit).iter().flat_map(|&(s, group)| places_of_group(cell, s, group)).collect()
}
