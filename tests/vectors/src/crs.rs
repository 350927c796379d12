//! TS 36.211 6.10.1: cell-specific reference signals.

use crate::gold;

/// N_RB^max,DL.
const N_RB_MAX_DL: usize = 110;

/// N_RB^DL: document 01, with document 02's #102.
const WIDTHS: [usize; 6] = [6, 15, 25, 50, 75, 100];

/// 6.10.1.1: c_init in slot n_s, symbol l; N_CP is 1 with the normal prefix,
/// 0 with the extended one.
fn c_init(prefix: u32, cell: u32, n_s: u32, l: u32) -> u32 {
    let n_cp = match prefix {
        0 => 1,
        1 => 0,
        _ => panic!("no such prefix"),
    };
    (1 << 10) * (7 * (n_s + 1) + l + 1) * (2 * cell + 1) + 2 * cell + n_cp
}

/// 6.10.1.1: r(0), .., r(2 N_RB^max,DL - 1) in units of 1/sqrt 2.
fn r(c_init: u32) -> Vec<(i32, i32)> {
    let c = gold::c(c_init, 4 * N_RB_MAX_DL);
    let sign = |n: usize| 1 - 2 * i32::from(c[n]);
    (0..2 * N_RB_MAX_DL)
        .map(|m| (sign(2 * m), sign(2 * m + 1)))
        .collect()
}

/// 6.10.1.2: a = r(m'), m' = m + N_RB^max,DL - N_RB^DL, m = 0..2 N_RB^DL - 1.
fn values(c_init: u32, blocks: usize) -> Vec<(i32, i32)> {
    let r = r(c_init);
    (0..2 * blocks)
        .map(|m| r[m + N_RB_MAX_DL - blocks])
        .collect()
}

/// 6.10.1.2: the symbols l of ports 0, 1 (0 and N_symb^DL - 3) and 2, 3 (1),
/// in the order 0, 1, N_symb^DL - 3.
fn symbols(prefix: u32) -> [u32; 3] {
    let n_symb = match prefix {
        0 => 7,
        1 => 6,
        _ => panic!("no such prefix"),
    };
    [0, 1, n_symb - 3]
}

fn text(values: &[(i32, i32)]) -> String {
    let digit = |value: &(i32, i32)| match value {
        (1, 1) => '0',
        (1, -1) => '1',
        (-1, 1) => '2',
        (-1, -1) => '3',
        _ => panic!("not a value of a reference signal"),
    };
    values.iter().map(digit).collect()
}

pub fn lines() -> Vec<String> {
    let mut out = Vec::new();
    for prefix in [0, 1] {
        for blocks in WIDTHS {
            for cell in [0, 1, 167, 503] {
                for n_s in [0, 7, 19] {
                    for l in symbols(prefix) {
                        let c_init = c_init(prefix, cell, n_s, l);
                        let values = values(c_init, blocks);
                        let first = text(&values[0..12]);
                        let last = text(&values[2 * blocks - 4..2 * blocks]);
                        out.push(format!(
                            "crs {prefix} {blocks} {cell} {n_s} {l} {c_init} {first} {last}"
                        ));
                    }
                }
            }
        }
    }
    out
}

#[cfg(test)]
mod tests {
    use super::*;
    use std::collections::BTreeSet;

    #[test]
    fn c_inits_by_hand() {
        // 1024 * (7 * 1 + 0 + 1) * 1 + 0 + 1
        assert_eq!(c_init(0, 0, 0, 0), 8193);
        assert_eq!(c_init(1, 0, 0, 0), 8192);
        // 1024 * (7 * 20 + 4 + 1) * 1007 + 1006 + 1
        assert_eq!(c_init(0, 503, 19, 4), 149_520_367);
    }

    #[test]
    fn c_inits_differ_within_a_frame() {
        for prefix in [0, 1] {
            for cell in [0, 1, 167, 503] {
                let mut seen = BTreeSet::new();
                for n_s in 0..20 {
                    for l in symbols(prefix) {
                        let c_init = c_init(prefix, cell, n_s, l);
                        assert!(c_init < 1 << 31);
                        assert!(seen.insert(c_init));
                    }
                }
            }
        }
    }

    #[test]
    fn third_from_last_symbol() {
        assert_eq!(symbols(0), [0, 1, 4]);
        assert_eq!(symbols(1), [0, 1, 3]);
    }

    #[test]
    fn the_centre_does_not_depend_on_the_blocks() {
        // 6.10.1.2: the sequence is cut out around the middle of 110 blocks.
        let c_init = c_init(0, 167, 7, 4);
        let wide = values(c_init, 110);
        assert_eq!(wide, r(c_init));
        for blocks in WIDTHS {
            let narrow = values(c_init, blocks);
            assert_eq!(narrow.len(), 2 * blocks);
            assert_eq!(narrow, wide[110 - blocks..110 + blocks]);
        }
    }

    #[test]
    fn power_is_one() {
        // Unit 2: I^2 + J^2 = 2.
        assert!(r(8193).iter().all(|(i, j)| i * i + j * j == 2));
    }
}
