//! TS 36.211 6.9.1 and 6.9.2: PHICH modulation and resource group alignment,
//! summed per PHICH mapping unit (6.9.3), before any port mapping.

use crate::modulation;

/// A pair of real and imaginary part.
type Pair = (i32, i32);

/// +1, -1, +j, -j.
const P1: Pair = (1, 0);
const M1: Pair = (-1, 0);
const PJ: Pair = (0, 1);
const MJ: Pair = (0, -1);

/// Table 6.9.1-2, normal cyclic prefix, N_SF = 4.
#[rustfmt::skip]
const NORMAL: [[Pair; 4]; 8] = [
    [P1, P1, P1, P1],
    [P1, M1, P1, M1],
    [P1, P1, M1, M1],
    [P1, M1, M1, P1],
    [PJ, PJ, PJ, PJ],
    [PJ, MJ, PJ, MJ],
    [PJ, PJ, MJ, MJ],
    [PJ, MJ, MJ, PJ],
];

/// Table 6.9.1-2, extended cyclic prefix, N_SF = 2.
#[rustfmt::skip]
const EXTENDED: [[Pair; 2]; 4] = [
    [P1, P1],
    [P1, M1],
    [PJ, PJ],
    [PJ, MJ],
];

/// The generator of the inputs.
struct Draws(u64);

impl Draws {
    fn draw(&mut self) -> u64 {
        self.0 = (1103515245 * self.0 + 12345) % (1 << 31);
        self.0 / 65536
    }
}

/// One HI of the set.
struct Hi {
    group: usize,
    sequence: usize,
    bit: usize,
}

fn times(a: Pair, b: Pair) -> Pair {
    (a.0 * b.0 - a.1 * b.1, a.0 * b.1 + a.1 * b.0)
}

/// Table 6.9.1-2: w(0), .., w(N_SF - 1).
fn w(prefix: u32, sequence: usize) -> &'static [Pair] {
    match prefix {
        0 => &NORMAL[sequence],
        1 => &EXTENDED[sequence],
        _ => panic!("no such prefix"),
    }
}

/// Sequences of a group.
fn sequences(prefix: u32) -> usize {
    match prefix {
        0 => NORMAL.len(),
        1 => EXTENDED.len(),
        _ => panic!("no such prefix"),
    }
}

/// 6.9.3: the mapping unit of a group; with the extended prefix groups 2m and
/// 2m + 1 make unit m.
fn unit(prefix: u32, group: usize) -> usize {
    match prefix {
        0 => group,
        1 => group / 2,
        _ => panic!("no such prefix"),
    }
}

/// 6.9.1: d(i) = w(i mod N_SF) (1 - 2 c(i)) z(floor(i / N_SF)), i = 0..3 N_SF - 1,
/// with z the BPSK symbols of the HI's bit sent three times (TS 36.212 5.3.5).
fn d(prefix: u32, sequence: usize, bit: usize, c: &[i32]) -> Vec<Pair> {
    let w = w(prefix, sequence);
    let n_sf = w.len();
    let b = [bit, bit, bit];
    let z = b.map(|b| modulation::map(1, b));
    (0..n_sf * z.len())
        .map(|i| times(times(w[i % n_sf], (1 - 2 * c[i], 0)), z[i / n_sf]))
        .collect()
}

/// 6.9.2: d^(0). The normal prefix keeps d; the extended one puts d(2i),
/// d(2i+1) first in quad i for an even group, last for an odd one, and zeros
/// in the other half.
fn aligned(prefix: u32, group: usize, d: &[Pair]) -> Vec<Pair> {
    if prefix == 0 {
        return d.to_vec();
    }
    let zero = (0, 0);
    let mut out = Vec::new();
    for i in 0..d.len() / 2 {
        let quad = match group % 2 {
            0 => [d[2 * i], d[2 * i + 1], zero, zero],
            _ => [zero, zero, d[2 * i], d[2 * i + 1]],
        };
        out.extend(quad);
    }
    out
}

/// 6.9.3: the sums of mapping unit m at its twelve places.
fn sums(prefix: u32, m: usize, set: &[Hi], c: &[i32]) -> Vec<Pair> {
    let mut sums = vec![(0, 0); 12];
    for hi in set.iter().filter(|hi| unit(prefix, hi.group) == m) {
        let d = aligned(prefix, hi.group, &d(prefix, hi.sequence, hi.bit, c));
        assert_eq!(d.len(), 12);
        for (sum, d) in sums.iter_mut().zip(d) {
            *sum = (sum.0 + d.0, sum.1 + d.1);
        }
    }
    sums
}

/// The real part of the sum of a times b*.
fn inner(a: &[Pair], b: &[Pair]) -> i32 {
    assert_eq!(a.len(), b.len());
    a.iter().zip(b).map(|(a, b)| a.0 * b.0 + a.1 * b.1).sum()
}

/// The bit of (group, sequence) in the sums of its unit: which of the two
/// possible signals they contain.
fn recovered(prefix: u32, group: usize, sequence: usize, sums: &[Pair], c: &[i32]) -> usize {
    let zero = aligned(prefix, group, &d(prefix, sequence, 0, c));
    let strength = inner(&zero, &zero);
    match inner(sums, &zero) {
        s if s == strength => 0,
        s if s == -strength => 1,
        _ => panic!("no HI here"),
    }
}

/// Draws the set of one k; answers the scrambling bits too.
fn draw_set(prefix: u32, k: u64, draws: &mut Draws) -> (Vec<i32>, Vec<Hi>) {
    let word = draws.draw() % 4096;
    let c = (0..12).map(|i| ((word >> (11 - i)) & 1) as i32).collect();
    let groups = match prefix {
        0 => 2,
        1 => 4,
        _ => panic!("no such prefix"),
    };
    let mut set = Vec::new();
    for group in 0..groups {
        for sequence in 0..sequences(prefix) {
            if draws.draw() % 4 < k % 5 {
                set.push(Hi {
                    group,
                    sequence,
                    bit: 0,
                });
            }
        }
    }
    for hi in &mut set {
        hi.bit = (draws.draw() % 2) as usize;
    }
    (c, set)
}

pub fn lines() -> Vec<String> {
    let mut out = Vec::new();
    let mut draws = Draws(1);
    for prefix in [0, 1] {
        for k in 0..24 {
            let (c, set) = draw_set(prefix, k, &mut draws);
            let word: String = c.iter().map(|c| c.to_string()).collect();
            out.push(format!("set {prefix} {k} {word}"));
            let units = [0, 1].map(|m| sums(prefix, m, &set, &c));
            for (m, sums) in units.iter().enumerate() {
                let mut line = format!("unit {m}");
                for (i, j) in sums {
                    line.push_str(&format!(" {i},{j}"));
                }
                out.push(line);
            }
            let mut line = String::from("bits");
            for hi in &set {
                let sums = &units[unit(prefix, hi.group)];
                let bit = recovered(prefix, hi.group, hi.sequence, sums, &c);
                line.push_str(&format!(" {bit}"));
            }
            out.push(line);
        }
    }
    out
}

#[cfg(test)]
mod tests {
    use super::*;

    #[test]
    fn draws() {
        // The example generator of the C standard, seed 1.
        let mut draws = Draws(1);
        let first = [0; 5].map(|_| draws.draw());
        assert_eq!(first, [16838, 5758, 10113, 17515, 31051]);
    }

    #[test]
    fn sequences_are_orthogonal() {
        // Any two signals of a group, whatever the scrambling.
        for prefix in [0, 1] {
            for word in [0, 0b101100111000, 4095] {
                let c: Vec<i32> = (0..12).map(|i| word >> (11 - i) & 1).collect();
                for a in 0..sequences(prefix) {
                    for b in 0..sequences(prefix) {
                        let da = d(prefix, a, 0, &c);
                        let db = d(prefix, b, 0, &c);
                        let power = 2 * da.len() as i32;
                        let expected = if a == b { power } else { 0 };
                        assert_eq!(inner(&da, &db), expected);
                        // And in each third of the signal alone.
                        let n_sf = da.len() / 3;
                        for third in 0..3 {
                            let part = third * n_sf..(third + 1) * n_sf;
                            assert_eq!(inner(&da[part.clone()], &db[part]), expected / 3);
                        }
                    }
                }
            }
        }
    }

    #[test]
    fn groups_of_an_extended_unit_do_not_meet() {
        let c = vec![0; 12];
        let even = aligned(1, 0, &d(1, 3, 1, &c));
        let odd = aligned(1, 1, &d(1, 3, 1, &c));
        for place in 0..12 {
            let (here, there) = if place % 4 < 2 {
                (even[place], odd[place])
            } else {
                (odd[place], even[place])
            };
            assert_eq!(here.0 * here.0 + here.1 * here.1, 2);
            assert_eq!(there, (0, 0));
        }
    }

    #[test]
    fn by_hand() {
        // Normal, sequence 5 = j(1, -1, 1, -1), bit 0: j(1 + j) = -1 + j.
        let c = vec![0; 12];
        let a = (-1, 1);
        let b = (1, -1);
        assert_eq!(d(0, 5, 0, &c), [a, b, a, b, a, b, a, b, a, b, a, b]);
        // Scrambling bit 2 turns the third symbol.
        let mut c = c;
        c[2] = 1;
        assert_eq!(d(0, 5, 0, &c)[..4], [a, b, b, b]);
        // Extended, sequence 1 = (1, -1), bit 1, group 3.
        let z = (0, 0);
        let (p, n) = ((1, 1), (-1, -1));
        assert_eq!(aligned(1, 3, &d(1, 1, 1, &[0; 6]))[..4], [z, z, n, p]);
    }

    #[test]
    fn recovered_bits_are_the_drawn_bits() {
        let mut draws = Draws(1);
        let mut total = 0;
        for prefix in [0, 1] {
            for k in 0..24 {
                let (c, set) = draw_set(prefix, k, &mut draws);
                assert_eq!(c.len(), 12);
                match k % 5 {
                    0 => assert!(set.is_empty()),
                    4 => assert_eq!(set.len(), 16),
                    _ => (),
                }
                for hi in &set {
                    let sums = sums(prefix, unit(prefix, hi.group), &set, &c);
                    let bit = recovered(prefix, hi.group, hi.sequence, &sums, &c);
                    assert_eq!(bit, hi.bit);
                    // Document 01: a level is within +-8.
                    assert!(sums.iter().all(|s| s.0.abs() <= 8 && s.1.abs() <= 8));
                    total += 1;
                }
            }
        }
        assert!(total > 300);
    }

    #[test]
    fn the_extended_prefix_uses_six_scrambling_bits() {
        let set = [Hi {
            group: 1,
            sequence: 2,
            bit: 1,
        }];
        let a = sums(1, 0, &set, &[1, 0, 1, 1, 0, 0, 0, 0, 0, 0, 0, 0]);
        let b = sums(1, 0, &set, &[1, 0, 1, 1, 0, 0, 1, 1, 1, 1, 1, 1]);
        assert_eq!(a, b);
        assert_eq!(sums(1, 1, &set, &[0; 6]), [(0, 0); 12]);
    }
}
