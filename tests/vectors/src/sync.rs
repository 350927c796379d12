//! TS 36.211 6.11: synchronization signals.

/// Table 6.11.1.1-1: N_ID^(2) and root index u.
const ROOTS: [(u32, u32); 3] = [(0, 25), (1, 29), (2, 34)];

/// Table 6.11.2.1-1: N_ID^(1), m0, m1, in the five columns of the standard.
#[rustfmt::skip]
const PAIRS: [(u32, usize, usize); 168] = [
    (0, 0, 1), (34, 4, 6), (68, 9, 12), (102, 15, 19), (136, 22, 27),
    (1, 1, 2), (35, 5, 7), (69, 10, 13), (103, 16, 20), (137, 23, 28),
    (2, 2, 3), (36, 6, 8), (70, 11, 14), (104, 17, 21), (138, 24, 29),
    (3, 3, 4), (37, 7, 9), (71, 12, 15), (105, 18, 22), (139, 25, 30),
    (4, 4, 5), (38, 8, 10), (72, 13, 16), (106, 19, 23), (140, 0, 6),
    (5, 5, 6), (39, 9, 11), (73, 14, 17), (107, 20, 24), (141, 1, 7),
    (6, 6, 7), (40, 10, 12), (74, 15, 18), (108, 21, 25), (142, 2, 8),
    (7, 7, 8), (41, 11, 13), (75, 16, 19), (109, 22, 26), (143, 3, 9),
    (8, 8, 9), (42, 12, 14), (76, 17, 20), (110, 23, 27), (144, 4, 10),
    (9, 9, 10), (43, 13, 15), (77, 18, 21), (111, 24, 28), (145, 5, 11),
    (10, 10, 11), (44, 14, 16), (78, 19, 22), (112, 25, 29), (146, 6, 12),
    (11, 11, 12), (45, 15, 17), (79, 20, 23), (113, 26, 30), (147, 7, 13),
    (12, 12, 13), (46, 16, 18), (80, 21, 24), (114, 0, 5), (148, 8, 14),
    (13, 13, 14), (47, 17, 19), (81, 22, 25), (115, 1, 6), (149, 9, 15),
    (14, 14, 15), (48, 18, 20), (82, 23, 26), (116, 2, 7), (150, 10, 16),
    (15, 15, 16), (49, 19, 21), (83, 24, 27), (117, 3, 8), (151, 11, 17),
    (16, 16, 17), (50, 20, 22), (84, 25, 28), (118, 4, 9), (152, 12, 18),
    (17, 17, 18), (51, 21, 23), (85, 26, 29), (119, 5, 10), (153, 13, 19),
    (18, 18, 19), (52, 22, 24), (86, 27, 30), (120, 6, 11), (154, 14, 20),
    (19, 19, 20), (53, 23, 25), (87, 0, 4), (121, 7, 12), (155, 15, 21),
    (20, 20, 21), (54, 24, 26), (88, 1, 5), (122, 8, 13), (156, 16, 22),
    (21, 21, 22), (55, 25, 27), (89, 2, 6), (123, 9, 14), (157, 17, 23),
    (22, 22, 23), (56, 26, 28), (90, 3, 7), (124, 10, 15), (158, 18, 24),
    (23, 23, 24), (57, 27, 29), (91, 4, 8), (125, 11, 16), (159, 19, 25),
    (24, 24, 25), (58, 28, 30), (92, 5, 9), (126, 12, 17), (160, 20, 26),
    (25, 25, 26), (59, 0, 3), (93, 6, 10), (127, 13, 18), (161, 21, 27),
    (26, 26, 27), (60, 1, 4), (94, 7, 11), (128, 14, 19), (162, 22, 28),
    (27, 27, 28), (61, 2, 5), (95, 8, 12), (129, 15, 20), (163, 23, 29),
    (28, 28, 29), (62, 3, 6), (96, 9, 13), (130, 16, 21), (164, 24, 30),
    (29, 29, 30), (63, 4, 7), (97, 10, 14), (131, 17, 22), (165, 0, 7),
    (30, 0, 2), (64, 5, 8), (98, 11, 15), (132, 18, 23), (166, 1, 8),
    (31, 1, 3), (65, 6, 9), (99, 12, 16), (133, 19, 24), (167, 2, 9),
    (32, 2, 4), (66, 7, 10), (100, 13, 17), (134, 20, 25),
    (33, 3, 5), (67, 8, 11), (101, 14, 18), (135, 21, 26),
];

/// 6.11.1.1: d_u(n) = exp(-j pi u n(n+1) / 63) for n = 0..30 and
/// exp(-j pi u (n+1)(n+2) / 63) for n = 31..61. Document 01 writes the phase
/// as -2 pi I / 63: half the number of steps of pi / 63, which is even.
fn pss(n_id_2: u32, n: u32) -> u32 {
    let row = ROOTS.iter().find(|row| row.0 == n_id_2);
    let u = row.expect("N_ID^(2) is 0, 1 or 2").1;
    let steps = if n <= 30 {
        u * n * (n + 1)
    } else {
        u * (n + 1) * (n + 2)
    };
    // A whole turn is 126 steps.
    steps % 126 / 2
}

/// Table 6.11.2.1-1: (m0, m1).
fn pair(n_id_1: u32) -> (usize, usize) {
    let row = PAIRS.iter().find(|row| row.0 == n_id_1);
    let row = row.expect("N_ID^(1) is 0..167");
    (row.1, row.2)
}

/// 6.11.2.1: x(0) = x(1) = x(2) = x(3) = 0, x(4) = 1.
fn start() -> Vec<i32> {
    vec![0, 0, 0, 0, 1]
}

/// 6.11.2.1: 1 - 2 x(i) for i = 0..30.
fn signs(x: &[i32]) -> Vec<i32> {
    assert_eq!(x.len(), 31);
    x.iter().map(|x| 1 - 2 * x).collect()
}

/// 6.11.2.1: s~ by x(i+5) = (x(i+2) + x(i)) mod 2, i = 0..25.
fn s_tilde() -> Vec<i32> {
    let mut x = start();
    for i in 0..=25 {
        x.push((x[i + 2] + x[i]) % 2);
    }
    signs(&x)
}

/// 6.11.2.1: c~ by x(i+5) = (x(i+3) + x(i)) mod 2, i = 0..25.
fn c_tilde() -> Vec<i32> {
    let mut x = start();
    for i in 0..=25 {
        x.push((x[i + 3] + x[i]) % 2);
    }
    signs(&x)
}

/// 6.11.2.1: z~ by x(i+5) = (x(i+4) + x(i+2) + x(i+1) + x(i)) mod 2, i = 0..25.
fn z_tilde() -> Vec<i32> {
    let mut x = start();
    for i in 0..=25 {
        x.push((x[i + 4] + x[i + 2] + x[i + 1] + x[i]) % 2);
    }
    signs(&x)
}

/// 6.11.2.1: d(0), .., d(61) of cell N_ID^cell = 3 N_ID^(1) + N_ID^(2) in
/// subframe 0 or 5.
fn sss(cell: u32, subframe: u32) -> Vec<i32> {
    let (n_id_1, n_id_2) = (cell / 3, (cell % 3) as usize);
    let (m0, m1) = pair(n_id_1);
    let (s, c, z) = (s_tilde(), c_tilde(), z_tilde());
    let s0 = |n: usize| s[(n + m0) % 31];
    let s1 = |n: usize| s[(n + m1) % 31];
    let c0 = |n: usize| c[(n + n_id_2) % 31];
    let c1 = |n: usize| c[(n + n_id_2 + 3) % 31];
    let z1_m0 = |n: usize| z[(n + m0 % 8) % 31];
    let z1_m1 = |n: usize| z[(n + m1 % 8) % 31];
    let mut d = vec![0; 62];
    for n in 0..=30 {
        match subframe {
            0 => {
                d[2 * n] = s0(n) * c0(n);
                d[2 * n + 1] = s1(n) * c1(n) * z1_m0(n);
            }
            5 => {
                d[2 * n] = s1(n) * c0(n);
                d[2 * n + 1] = s0(n) * c1(n) * z1_m1(n);
            }
            _ => panic!("no SSS in this subframe"),
        }
    }
    d
}

pub fn lines() -> Vec<String> {
    let mut out = Vec::new();
    for r in 0..3 {
        let mut line = format!("pss {r}");
        for n in 0..62 {
            line.push_str(&format!(" {}", pss(r, n)));
        }
        out.push(line);
    }
    for d in 0..168 {
        let (m0, m1) = pair(d);
        out.push(format!("pair {d} {m0} {m1}"));
    }
    for cell in (0..=500).step_by(5).chain([503]) {
        for subframe in [0, 5] {
            let d = sss(cell, subframe);
            let d: String = d.iter().map(|v| if *v == 1 { '+' } else { '-' }).collect();
            out.push(format!("sss {cell} {subframe} {d}"));
        }
    }
    out
}

#[cfg(test)]
mod tests {
    use super::*;
    use std::collections::BTreeSet;

    #[test]
    fn known_pairs() {
        // Document 01, known elements.
        assert_eq!(pair(0), (0, 1));
        assert_eq!(pair(29), (29, 30));
        assert_eq!(pair(30), (0, 2));
        assert_eq!(pair(167), (2, 9));
    }

    #[test]
    fn table_agrees_with_the_formulas_of_document_01() {
        for n in 0..168 {
            let q_first = n / 30;
            let q = (n + q_first * (q_first + 1) / 2) / 30;
            let e = n + q * (q + 1) / 2;
            let m0 = e % 31;
            let m1 = (m0 + e / 31 + 1) % 31;
            assert_eq!(pair(n as u32), (m0, m1), "{n}");
        }
    }

    #[test]
    fn table_has_each_number_once() {
        let numbers: BTreeSet<u32> = PAIRS.iter().map(|row| row.0).collect();
        assert_eq!(numbers, (0..168).collect());
        let pairs: BTreeSet<_> = PAIRS.iter().map(|row| (row.1, row.2)).collect();
        assert_eq!(pairs.len(), 168);
    }

    #[test]
    fn known_phases() {
        // Document 01, known elements: w = 25.
        for (n, phase) in [(0, 0), (1, 25), (2, 12), (30, 33), (31, 33)] {
            assert_eq!(pss(0, n), phase);
        }
    }

    #[test]
    fn phases_agree_with_document_01() {
        for (r, w) in [(0, 25), (1, 29), (2, 34)] {
            for i in 0..62 {
                let t = if i <= 30 {
                    i * (i + 1) / 2
                } else {
                    (i + 1) * (i + 2) / 2
                };
                assert_eq!(pss(r, i), w * t % 63);
            }
        }
    }

    #[test]
    fn pss_is_symmetric_and_two_roots_are_conjugate() {
        for n in 0..62 {
            for r in 0..3 {
                assert_eq!(pss(r, n), pss(r, 61 - n));
            }
            assert_eq!((pss(1, n) + pss(2, n)) % 63, 0);
        }
    }

    #[test]
    fn m_sequences() {
        // Every cyclic shift but 0 has autocorrelation -1.
        for x in [s_tilde(), c_tilde(), z_tilde()] {
            assert_eq!(x.iter().sum::<i32>(), -1);
            for shift in 1..31 {
                let sum: i32 = (0..31).map(|n| x[n] * x[(n + shift) % 31]).sum();
                assert_eq!(sum, -1);
            }
        }
    }

    #[test]
    fn sss_differs_by_cell_and_subframe() {
        let mut seen = BTreeSet::new();
        for cell in 0..504 {
            for subframe in [0, 5] {
                let d = sss(cell, subframe);
                assert_eq!(d.len(), 62);
                assert!(d.iter().all(|v| v.abs() == 1));
                assert!(seen.insert(d));
            }
        }
    }
}
