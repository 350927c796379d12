//! Document 01's known elements, and the tables against the formulas that say the same.

use judge::control::{
    cfi_bits, groups, pcfich_groups, pcfich_places, phich_places, phich_quads, places_of_group,
};
use judge::generate::{example_input, example_variant_input, input};
use judge::modulation::{map_symbol, table, unmap_symbol};
use judge::plan::{Cell, Frame};
use judge::sequence::sequence;
use judge::sync::{pss, sss, SSS_PAIRS};
use judge::{build, gridcount, Complex, Place};
use std::collections::BTreeSet;

fn cell(identity: usize, blocks: usize) -> Cell {
    Cell { identity, blocks, extended: false, ports: 1, g: 1, extended_phich: false }
}

/// The groups of a unit's quads with the normal PHICH duration, where all are of symbol 0.
fn phich_unit_groups(cell: &Cell, unit: usize) -> [usize; 3] {
    phich_quads(cell, unit).map(|(s, group)| {
        assert_eq!(s, 0);
        group
    })
}

/// The same with the extended duration, where quad i is in symbol i.
fn long_unit_groups(cell: &Cell, unit: usize) -> [usize; 3] {
    let quads = phich_quads(&Cell { extended_phich: true, ..*cell }, unit);
    assert_eq!(quads.map(|(s, _)| s), [0, 1, 2]);
    quads.map(|(_, group)| group)
}

#[test]
fn sss_pairs_are_those_of_the_formula() {
    for (d, pair) in SSS_PAIRS.iter().enumerate() {
        let q1 = d / 30;
        let q = (d + q1 * (q1 + 1) / 2) / 30;
        let e = d + q * (q + 1) / 2;
        let m0 = e % 31;
        assert_eq!(*pair, (m0, (m0 + e / 31 + 1) % 31), "D = {d}");
    }
    let known = [0, 29, 30, 167].map(|d| SSS_PAIRS[d]);
    assert_eq!(known, [(0, 1), (29, 30), (0, 2), (2, 9)]);
}

#[test]
fn pss_known_phases() {
    let phases = pss(&cell(0, 15));
    assert_eq!([0, 1, 2, 30, 31].map(|i| phases[i]), [0, 25, 12, 33, 33]);
    // d(n) = d(61 − n), for every root.
    for identity in 0..3 {
        let phases = pss(&cell(identity, 15));
        assert!((0..62).all(|i| phases[i] == phases[61 - i] && phases[i] < 63));
    }
}

/// The three m-sequences of 6.11.2.1 written out.
const S: [i32; 31] = [
    1, 1, 1, 1, -1, 1, 1, -1, 1, -1, -1, 1, 1, -1, -1, -1, -1, -1, 1, 1, 1, -1, -1, 1, -1, -1, -1, 1, -1, 1,
    -1,
];
const C: [i32; 31] = [
    1, 1, 1, 1, -1, 1, -1, 1, -1, -1, -1, 1, -1, -1, 1, 1, 1, -1, -1, -1, -1, -1, 1, 1, -1, -1, 1, -1, 1, 1,
    -1,
];
const Z: [i32; 31] = [
    1, 1, 1, 1, -1, -1, -1, 1, 1, -1, -1, 1, -1, -1, -1, -1, -1, 1, -1, 1, 1, 1, -1, 1, 1, -1, 1, -1, 1, -1,
    -1,
];

#[test]
fn sss_from_written_sequences() {
    for identity in 0..504 {
        let (m0, m1) = SSS_PAIRS[identity / 3];
        let id2 = identity % 3;
        for subframe in [0, 5] {
            let d = sss(&cell(identity, 15), &Frame { frame: 0, subframe, cfi: 1 });
            let (even, odd) = if subframe == 0 { (m0, m1) } else { (m1, m0) };
            for n in 0..31 {
                assert_eq!(d[2 * n], S[(n + even) % 31] * C[(n + id2) % 31]);
                let z = Z[(n + even % 8) % 31];
                assert_eq!(d[2 * n + 1], S[(n + odd) % 31] * C[(n + id2 + 3) % 31] * z);
            }
        }
    }
}

#[test]
fn the_sequence_by_registers() {
    // With c_init = 0 the sequence is x1 alone; x1(1569) .. x1(1599), lowest first, is a number in common use.
    let mut x1 = 0x54D2_1B24u32;
    for _ in 0..31 {
        x1 = x1 >> 1 | (((x1 >> 3) ^ x1) & 1) << 30;
    }
    let c = sequence(0, 31);
    assert_eq!(x1, c.iter().enumerate().fold(0, |word, (i, bit)| word | u32::from(*bit) << i));
    for c_init in [1, 503, 0x1234_5678, 65535 * 16384 + 512 * 9 + 503, (1 << 31) - 1] {
        let (mut x1, mut x2) = (1u32, c_init);
        let mut bits = vec![];
        for _ in 0..1600 + 3000 {
            bits.push(((x1 ^ x2) & 1) as u8);
            x1 = x1 >> 1 | (((x1 >> 3) ^ x1) & 1) << 30;
            x2 = x2 >> 1 | (((x2 >> 3) ^ (x2 >> 2) ^ (x2 >> 1) ^ x2) & 1) << 30;
        }
        assert_eq!(sequence(c_init, 3000), bits[1600..]);
    }
}

/// The formulas of document 01 and of document 02, #109, for I (even bits) and J (odd bits).
fn level(bits: &[i32]) -> i32 {
    let sign: Vec<i32> = bits.iter().map(|bit| 1 - 2 * bit).collect();
    match sign.len() {
        1 => sign[0],
        2 => sign[0] * (2 - sign[1]),
        3 => sign[0] * (4 - sign[1] * (2 - sign[2])),
        _ => sign[0] * (8 - sign[1] * (4 - sign[2] * (2 - sign[3]))),
    }
}

#[test]
fn modulation_tables_are_those_of_the_formulas() {
    for q in [2, 4, 6, 8] {
        assert_eq!(table(q).len(), 1 << q);
        for (at, (number, i, j)) in table(q).iter().enumerate() {
            assert_eq!(at, *number as usize);
            let bits: Vec<i32> = (0..q).rev().map(|bit| i32::from(number >> bit & 1)).collect();
            let even: Vec<i32> = bits.iter().step_by(2).copied().collect();
            let odd: Vec<i32> = bits.iter().skip(1).step_by(2).copied().collect();
            assert_eq!((*i, *j), (level(&even), level(&odd)), "{bits:?}");
            let bits: Vec<u8> = bits.iter().map(|bit| *bit as u8).collect();
            assert_eq!(unmap_symbol(map_symbol(&bits), q), Some(*number));
        }
        assert_eq!(unmap_symbol(Complex::new(0, 1), q), None);
    }
    assert_eq!(map_symbol(&[1, 0, 1, 1, 1, 1]), Complex::new(-7, 7));
}

/// I by b0 b2 b4 b6 and J by b1 b3 b5 b7, worked out by hand.
#[test]
fn symbols_of_eight_bits_by_hand() {
    let known = [
        // 0000: 8 − (4 − (2 − 1)) = 5; 1111: −(8 + (4 + (2 + 1))) = −15.
        ([0, 0, 0, 0, 0, 0, 0, 0], (5, 5)),
        ([1, 1, 1, 1, 1, 1, 1, 1], (-15, -15)),
        ([0, 1, 0, 1, 0, 1, 0, 1], (5, -15)),
        // 1100: −(8 + (4 − (2 − 1))) = −11; 0110: 8 + (4 + (2 − 1)) = 13.
        ([1, 0, 1, 1, 0, 1, 0, 0], (-11, 13)),
        // 0011: 8 − (4 + (2 + 1)) = 1; 1001: −(8 − (4 − (2 + 1))) = −7.
        ([0, 1, 0, 0, 1, 0, 1, 1], (1, -7)),
    ];
    for (bits, (i, j)) in known {
        assert_eq!(map_symbol(&bits), Complex::new(i, j), "{bits:?}");
    }
    // Levels are odd and at most 15.
    for (i, j) in [(0, 1), (1, 17), (-17, 1), (16, 3), (1, -16)] {
        assert_eq!(unmap_symbol(Complex::new(i, j), 8), None);
    }
    assert_eq!(unmap_symbol(Complex::new(9, 1), 6), None);
}

#[test]
fn cfi_codewords_repeat() {
    for (cfi, word) in [(1, [0, 1, 1]), (2, [1, 0, 1]), (3, [1, 1, 0])] {
        let repeated: Vec<u8> = (0..32).map(|i| word[i % 3]).collect();
        assert_eq!(cfi_bits(cfi), repeated);
    }
}

#[test]
fn control_groups_at_fifteen_blocks() {
    assert_eq!(pcfich_groups(&cell(0, 15)), [0, 7, 15, 22]);
    assert_eq!(phich_unit_groups(&cell(0, 15), 0), [1, 10, 20]);
    assert_eq!(pcfich_groups(&cell(503, 15)), [23, 0, 8, 15]);
    // C = 0: k mod 3 = 0 is left out.
    let ks = [1, 2, 4, 5];
    assert_eq!(places_of_group(&cell(0, 15), 0, 0), ks.map(|k| Place { s: 0, k }));
    assert_eq!(pcfich_places(&cell(0, 15))[..4], ks.map(|k| Place { s: 0, k }));
    assert_eq!(phich_places(&cell(0, 15), 0)[..4], ks.map(|k| Place { s: 0, k: k + 6 }));
}

#[test]
fn control_groups_at_six_blocks() {
    // Twelve groups: PCFICH has every third.
    assert_eq!(pcfich_groups(&cell(0, 6)), [0, 3, 6, 9]);
    assert_eq!(pcfich_groups(&cell(503, 6)), [11, 2, 5, 8]);
    // h = 8, floor(ih/3) = 0, 2, 5. C = 0: of 1, 2, 4, 5, 7, 8, 10, 11 unit 0 has numbers 0, 2, 5, unit 1 has 1, 3, 6.
    let two_units = |identity: usize| Cell { g: 12, ..cell(identity, 6) };
    assert_eq!(two_units(0).phich_units(), 2);
    assert_eq!([0, 1].map(|unit| phich_unit_groups(&two_units(0), unit)), [[1, 4, 8], [2, 5, 10]]);
    // C = 503: 503 mod 8 = 7, so numbers 7, 1, 4 and 0, 2, 5 of 0, 1, 3, 4, 6, 7, 9, 10.
    assert_eq!([0, 1].map(|unit| phich_unit_groups(&two_units(503), unit)), [[10, 1, 6], [0, 3, 7]]);
    // Two groups stay idle whatever C is.
    for identity in 0..504 {
        let phich = [0, 1].map(|unit| phich_unit_groups(&two_units(identity), unit)).concat();
        let taken: BTreeSet<usize> = phich.into_iter().chain(pcfich_groups(&two_units(identity))).collect();
        assert_eq!(taken.len(), 10);
    }
    for g in [1, 3, 6] {
        assert_eq!(Cell { g, ..cell(0, 6) }.phich_units(), 1);
    }
}

#[test]
fn groups_of_the_control_symbols() {
    for blocks in [6, 15, 25, 50, 75, 100] {
        for (ports, of_block) in [(1, [2, 3, 3]), (2, [2, 3, 3]), (4, [2, 2, 3])] {
            let cell = Cell { ports, ..cell(0, blocks) };
            assert_eq!([0, 1, 2].map(|s| groups(&cell, s)), of_block.map(|groups| groups * blocks));
        }
    }
    let ks = |ports: usize, identity: usize, s: usize, group: usize| -> Vec<usize> {
        let places = places_of_group(&Cell { ports, ..cell(identity, 15) }, s, group);
        assert!(places.iter().all(|place| place.s == s));
        places.iter().map(|place| place.k).collect()
    };
    assert_eq!(ks(2, 0, 1, 44), [176, 177, 178, 179]);
    assert_eq!(ks(4, 0, 2, 4), [16, 17, 18, 19]);
    // With four ports the reference signals of ports 2 and 3 are skipped.
    assert_eq!(ks(4, 0, 1, 10), [61, 62, 64, 65]);
    assert_eq!(ks(4, 1, 1, 10), [60, 62, 63, 65]);
    assert_eq!(ks(4, 503, 1, 29), [174, 175, 177, 178]);
}

/// The extended PHICH duration, by hand. With one or two ports h_1 = h_2 = 3N, with four h_1 = 2N; h_0 = 2N − 4.
#[test]
fn extended_phich_at_fifteen_blocks() {
    // h = 26, 45, 45; C = 0: numbers 0, 15, 30, of which only symbol 0 has some that PCFICH took.
    assert_eq!(long_unit_groups(&cell(0, 15), 0), [1, 15, 30]);
    // Four ports: h_1 = 30, floor(30/3) = 10.
    assert_eq!(long_unit_groups(&Cell { ports: 4, ..cell(0, 15) }, 0), [1, 10, 30]);
    // C = 503: number 503 mod 26 = 9 is group 11, since 0 and 8 are PCFICH's. floor(503×45/26) = 870, so 885 mod 45 = 30
    // and 900 mod 45 = 0.
    assert_eq!(long_unit_groups(&cell(503, 15), 0), [11, 30, 0]);
    // Four ports: floor(503×30/26) = 580, so 590 mod 30 = 20.
    assert_eq!(long_unit_groups(&Cell { ports: 4, ..cell(503, 15) }, 0), [11, 20, 0]);
    let places = phich_places(&Cell { ports: 4, extended_phich: true, ..cell(503, 15) }, 0);
    // 503 mod 3 = 2.
    let by_hand = [(0, [66, 67, 69, 70]), (1, [120, 121, 123, 124]), (2, [0, 1, 2, 3])];
    assert_eq!(places, by_hand.map(|(s, ks)| ks.map(|k| Place { s, k })).concat());
}

#[test]
fn extended_phich_at_six_blocks() {
    let two_units = |identity: usize, ports: usize| {
        let cell = Cell { g: 12, ports, ..cell(identity, 6) };
        [0, 1].map(|unit| long_unit_groups(&cell, unit))
    };
    // h = 8, 18, 18; C = 0: numbers m, m + 6, m + 12. Four ports: h_1 = 12, number m + 4.
    assert_eq!(two_units(0, 2), [[1, 6, 12], [2, 7, 13]]);
    assert_eq!(two_units(0, 4), [[1, 4, 12], [2, 5, 13]]);
    // C = 503: 503 mod 8 = 7; floor(503×18/8) = 1131, so 1137 mod 18 = 3 and 1143 mod 18 = 9. The unit after number 7 has
    // number 0.
    assert_eq!(two_units(503, 1), [[10, 3, 9], [0, 4, 10]]);
    // Four ports: floor(503×12/8) = 754, so 758 mod 12 = 2.
    assert_eq!(two_units(503, 4), [[10, 2, 9], [0, 3, 10]]);
}

#[test]
fn extended_phich_at_a_hundred_blocks() {
    // h_0 = 196; PCFICH has 1, 51, 101, 151 with C = 101. Unit 24: number 125 is group 128; floor(101×300/196) = 154, so
    // 154 + 24 + 100 = 278 and 154 + 24 + 200 − 300 = 78.
    let cell = Cell { g: 12, ports: 2, ..cell(101, 100) };
    assert_eq!(cell.phich_units(), 25);
    assert_eq!(pcfich_groups(&cell), [101, 151, 1, 51]);
    assert_eq!(long_unit_groups(&cell, 24), [128, 278, 78]);
    // Four ports: floor(101×200/196) = 103, floor(200/3) = 66: 103 + 24 + 66 = 193.
    assert_eq!(long_unit_groups(&Cell { ports: 4, ..cell }, 24), [128, 193, 78]);
}

/// "No unit may overlap another in either duration": every N, P and C with the most units; and none has a group of
/// PCFICH. The rule goes by nothing else.
#[test]
fn no_unit_overlaps_another() {
    for blocks in [6, 15, 25, 50, 75, 100] {
        for i in 0..504 * 4 {
            let (identity, ports, extended_phich) = (i / 4, [2, 4][i % 2], i / 2 % 2 == 1);
            let cell = Cell { g: 12, ports, extended_phich, ..cell(identity, blocks) };
            let units = 0..cell.phich_units();
            let quads = units.flat_map(|unit| phich_quads(&cell, unit));
            let all = quads.chain(pcfich_groups(&cell).map(|group| (0, group)));
            let taken: BTreeSet<(usize, usize)> = all.collect();
            assert_eq!(taken.len(), 3 * cell.phich_units() + 4, "{cell:?}");
        }
    }
}

/// At six blocks "the control region is CFI + 1 symbols": PCFICH's codeword is that of the CFI.
#[test]
fn pcfich_of_six_blocks_sends_the_cfi() {
    for (cfi, word) in [(1, [0, 1, 1]), (2, [1, 0, 1]), (3, [1, 1, 0])] {
        let plan = [0x10, 0, 5, 6, 0, 1, 1, 0x11, 0, 0, 9, cfi, 0];
        let (grid, _) = build(&plan, &[], 36 * 6 * 14).expect("built");
        let c = sequence(10 * 11 * 512 + 5, 32);
        for (i, place) in pcfich_places(&cell(5, 6)).iter().enumerate() {
            let sign = |bit: usize| 1 - 2 * (word[bit % 3] ^ c[bit]) as i8;
            let sent = [2, sign(2 * i) as u8, sign(2 * i + 1) as u8];
            assert_eq!(grid[3 * place.k..][..3], sent, "CFI {cfi}, symbol {i}");
        }
    }
}

#[test]
fn gridcount_tables() {
    assert_eq!(example_input().len(), 2 + 22 + 564);
    assert_eq!(
        gridcount(&example_input()),
        "CRS 120\nPSS 0\nSSS 0\nPBCH 0\nPCFICH 16\nPHICH 12\nPDSCH 2250\nheld 0\nidle 122\n"
    );
    assert_eq!(
        gridcount(&example_variant_input()),
        "CRS 120\nPSS 62\nSSS 62\nPBCH 240\nPCFICH 16\nPHICH 12\nPDSCH 1830\nheld 56\nidle 122\n"
    );
    // CELLX with duration 0 is CELL.
    let plan = [0x12, 0, 0, 15, 0, 1, 1, 0, 0x11, 0, 0, 1, 1, 0x20, 0, 0, 0x30, 0, 1, 2, 0, 15, 0];
    assert_eq!(gridcount(&input(&plan, &[0; 564])), gridcount(&example_input()));
    // Extended duration, by hand: the control symbols have 180 places each, 30 references, 16 of PCFICH and 12 of PHICH;
    // eleven symbols are the user's, less 6 references in a block.
    let plan = [0x12, 0, 0, 15, 0, 1, 1, 1, 0x11, 0, 0, 1, 3, 0x20, 0, 0, 0x30, 0, 1, 2, 0, 15, 0];
    assert_eq!(
        gridcount(&input(&plan, &[0; 1 + 473])),
        "CRS 120\nPSS 0\nSSS 0\nPBCH 0\nPCFICH 16\nPHICH 12\nPDSCH 1890\nheld 0\nidle 482\n"
    );
    // Six blocks, by hand: symbols 0 and 1 are control, 32 and 72 places of them idle; 12 symbols are the user's, less
    // 6 references in a block.
    let plan = [0x10, 0, 0, 6, 0, 1, 1, 0x11, 0, 0, 1, 1, 0x20, 0, 0, 0x30, 0, 1, 2, 0, 6, 0];
    assert_eq!(
        gridcount(&input(&plan, &[0; 1 + 828 / 4])),
        "CRS 48\nPSS 0\nSSS 0\nPBCH 0\nPCFICH 16\nPHICH 12\nPDSCH 828\nheld 0\nidle 104\n"
    );
}
