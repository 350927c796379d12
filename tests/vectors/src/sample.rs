//! Document 01: "Samples" and refusal 9; document 02, #109: units 170 and 340.

use std::cmp::Ordering;

/// A unit of levels, its byte in an element, and the greatest level.
struct Unit {
    byte: u8,
    u: u32,
    most: i8,
}

/// Document 01, "Grid", with levels to 8; document 02, #109: "Unit 170 with one
/// port; with diversity 340, whose unit byte is 255", with levels to 15.
#[rustfmt::skip]
const UNITS: [Unit; 9] = [
    Unit { byte: 1, u: 1, most: 8 },
    Unit { byte: 2, u: 2, most: 8 },
    Unit { byte: 4, u: 4, most: 8 },
    Unit { byte: 10, u: 10, most: 8 },
    Unit { byte: 20, u: 20, most: 8 },
    Unit { byte: 42, u: 42, most: 8 },
    Unit { byte: 84, u: 84, most: 8 },
    Unit { byte: 170, u: 170, most: 15 },
    Unit { byte: 255, u: 340, most: 15 },
];

/// A positive normal f32 as a / 2^t, by its bits.
fn fraction(bits: u32) -> (u128, u32) {
    let exponent = bits >> 23;
    assert!((1..=150).contains(&exponent));
    let a = u128::from(bits & 0x7f_ffff | 0x80_0000);
    (a, 150 - exponent)
}

/// Compares a / 2^t with 1/sqrt u, by squares: a^2 u with 2^(2t).
fn compare(a: u128, t: u32, u: u32) -> Ordering {
    (a * a * u128::from(u)).cmp(&(1 << (2 * t)))
}

/// The bits of the f32 nearest 1/sqrt u.
fn gain_bits(u: u32) -> u32 {
    // Bits of positive f32 ascend with their values. The greatest value not
    // above 1/sqrt u lies in 1/32..=1, as u is in 1..=1023.
    let mut low: u32 = (127 - 5) << 23;
    let mut high: u32 = (127 << 23) + 1;
    while high - low > 1 {
        let middle = low + (high - low) / 2;
        let (a, t) = fraction(middle);
        match compare(a, t, u) {
            Ordering::Greater => high = middle,
            _ => low = middle,
        }
    }
    // The next f32 is (a + 1) / 2^t; between them stands (2a + 1) / 2^(t + 1).
    let (a, t) = fraction(low);
    match compare(2 * a + 1, t + 1, u) {
        Ordering::Less => low + 1,
        Ordering::Greater => low,
        Ordering::Equal => panic!("1/sqrt u is no middle of two f32"),
    }
}

/// "A level becomes f32 exactly, times a gain, rounded once."
fn sample(u: u32, level: i8) -> f32 {
    f32::from(level) * f32::from_bits(gain_bits(u))
}

/// What three bytes are.
#[derive(Clone, Copy, Debug, PartialEq)]
enum Kind {
    Silence,
    Phase,
    Point,
    Refused,
}

/// "Grid" and refusal 9: unit 0 is silent with I = J = 0, unit 63 a phase with
/// I in 0..62 and J = 0, a unit of levels a point with both within its levels.
fn kind(byte: u8, i: u8, j: u8) -> Kind {
    // I and J are signed bytes.
    let (i, j) = (i as i8, j as i8);
    let point = |unit: &Unit| {
        let levels = -unit.most..=unit.most;
        unit.byte == byte && levels.contains(&i) && levels.contains(&j)
    };
    match byte {
        0 if i == 0 && j == 0 => Kind::Silence,
        63 if (0..=62).contains(&i) && j == 0 => Kind::Phase,
        _ if UNITS.iter().any(point) => Kind::Point,
        _ => Kind::Refused,
    }
}

pub fn lines() -> Vec<String> {
    let mut out = Vec::new();
    for unit in UNITS {
        out.push(format!("gain {} {:08x}", unit.byte, gain_bits(unit.u)));
    }
    for unit in UNITS {
        for level in -16..=16i8 {
            let answer = match kind(unit.byte, level as u8, 0) {
                Kind::Point => format!("{:08x}", sample(unit.u, level).to_bits()),
                _ => "refused".to_string(),
            };
            out.push(format!("level {} {level} {answer}", unit.byte));
        }
    }
    for byte in 0..=255 {
        let (mut silence, mut phase, mut point, mut refused) = (0, 0, 0, 0);
        for i in 0..=255 {
            for j in 0..=255 {
                match kind(byte, i, j) {
                    Kind::Silence => silence += 1,
                    Kind::Phase => phase += 1,
                    Kind::Point => point += 1,
                    Kind::Refused => refused += 1,
                }
            }
        }
        out.push(format!("unit {byte} {silence} {phase} {point} {refused}"));
    }
    out
}

#[cfg(test)]
mod tests {
    use super::*;

    #[test]
    fn gains_with_an_exact_root() {
        assert_eq!(gain_bits(1), 1.0f32.to_bits());
        assert_eq!(gain_bits(4), 0.5f32.to_bits());
    }

    #[test]
    fn gains_of_eight_bits() {
        // By squares, with the f32's 24 bits a over 2^t: (2a-1)^2 u < 2^(2t+2) < (2a+1)^2 u.
        for (u, a, t) in [(170u128, 0x9d130eu128, 27), (340, 0xde2305, 28)] {
            assert_eq!(fraction(gain_bits(u as u32)), (a, t));
            assert!((2 * a - 1).pow(2) * u < 1 << (2 * t + 2));
            assert!((2 * a + 1).pow(2) * u > 1 << (2 * t + 2));
        }
        assert_eq!(gain_bits(170), 0x3d9d130e);
        assert_eq!(gain_bits(340), 0x3d5e2305);
    }

    #[test]
    fn gains_agree_with_the_square_root_of_f64() {
        for Unit { u, .. } in UNITS {
            let gain = (1.0 / f64::from(u).sqrt()) as f32;
            assert_eq!(gain_bits(u), gain.to_bits());
        }
    }

    #[test]
    fn no_other_f32_is_nearer() {
        // Against both neighbours' midpoints, from below and from above.
        for Unit { u, .. } in UNITS {
            let bits = gain_bits(u);
            let (a, t) = fraction(bits);
            let (below, t_below) = fraction(bits - 1);
            let (above, t_above) = fraction(bits + 1);
            // Midpoints over 2^40, all exact.
            let at = |a: u128, t: u32| a << (40 - t);
            let lower = (at(a, t) + at(below, t_below)) / 2;
            let upper = (at(a, t) + at(above, t_above)) / 2;
            assert_eq!(compare(lower, 40, u), Ordering::Less);
            assert_eq!(compare(upper, 40, u), Ordering::Greater);
        }
    }

    #[test]
    fn relative_bound_of_document_01() {
        // (2^22-1)^2 I^2 2^(2t) <= 2^44 u a^2 <= (2^22+1)^2 I^2 2^(2t)
        for Unit { u, most, .. } in UNITS {
            for level in -most..=most {
                let sample = sample(u, level);
                if level == 0 {
                    assert_eq!(sample.to_bits(), 0);
                    continue;
                }
                assert_eq!(sample < 0.0, level < 0);
                // Samples reach 8: exponents to 130, so t is 20 or more.
                let (a, t) = fraction(sample.abs().to_bits());
                let scale = u128::from(level.unsigned_abs()).pow(2) << (2 * t);
                let middle = (u128::from(u) * a * a) << 44;
                assert!(((1u128 << 22) - 1).pow(2) * scale <= middle);
                assert!(middle <= ((1u128 << 22) + 1).pow(2) * scale);
            }
        }
    }

    #[test]
    fn product_is_rounded_once() {
        // The exact product by integers, to 24 bits, ties to even.
        for Unit { u, most, .. } in UNITS {
            let (gain, gain_t) = fraction(gain_bits(u));
            for level in 1..=most {
                let exact = gain * u128::from(level.unsigned_abs());
                let mut drop = 0;
                while exact >> drop >= 1 << 24 {
                    drop += 1;
                }
                let rest = exact & ((1 << drop) - 1);
                let mut a = exact >> drop;
                if drop > 0 {
                    let half = 1 << (drop - 1);
                    if rest > half || (rest == half && a % 2 == 1) {
                        a += 1;
                    }
                }
                let (b, t) = fraction(sample(u, level).to_bits());
                // a / 2^(gain_t - drop) = b / 2^t
                assert_eq!(a << (t + 8), b << (gain_t - drop + 8));
                let minus = sample(u, -level);
                assert_eq!(minus.to_bits(), (-sample(u, level)).to_bits());
            }
        }
    }

    #[test]
    fn kinds_by_hand() {
        assert_eq!(kind(0, 0, 0), Kind::Silence);
        assert_eq!(kind(0, 1, 0), Kind::Refused);
        assert_eq!(kind(63, 62, 0), Kind::Phase);
        assert_eq!(kind(63, 63, 0), Kind::Refused);
        assert_eq!(kind(63, 0, 1), Kind::Refused);
        assert_eq!(kind(63, 255, 0), Kind::Refused);
        assert_eq!(kind(2, 0, 0), Kind::Point);
        assert_eq!(kind(1, 8, 248), Kind::Point);
        assert_eq!(kind(1, 9, 0), Kind::Refused);
        assert_eq!(kind(1, 0, 247), Kind::Refused);
        assert_eq!(kind(3, 0, 0), Kind::Refused);
        // Levels to 15 in units 170 and 340 alone; bytes 241 and 240 are -15 and -16.
        assert_eq!(kind(84, 9, 0), Kind::Refused);
        assert_eq!(kind(170, 15, 241), Kind::Point);
        assert_eq!(kind(255, 241, 15), Kind::Point);
        assert_eq!(kind(170, 16, 0), Kind::Refused);
        assert_eq!(kind(255, 0, 240), Kind::Refused);
        // 340 mod 256 = 84, a unit of its own with its own limit.
        assert_eq!(kind(84, 15, 0), Kind::Refused);
    }
}
