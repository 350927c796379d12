//! Samples: elements as f32, by whole numbers (document 01, "Samples"; document 02, #109).

use crate::plan::{Refusal, NO_ELEMENT};

/// A modem sample: silence, a phase step, or a pair of f32, given by their bits.
#[derive(Clone, Copy, Debug, PartialEq, Eq)]
pub enum Sample {
    Silence,
    Phase(u8),
    Point { i: u32, j: u32 },
}

/// The units of levels.
pub const LEVEL_UNITS: [u16; 9] = [1, 2, 4, 10, 20, 42, 84, 170, 340];

/// The byte that stands for a unit in an element: "340, whose unit byte is 255".
pub fn unit_byte(unit: u16) -> u8 {
    match unit {
        340 => 255,
        _ => u8::try_from(unit).expect("a unit of one byte"),
    }
}

/// "Levels to ±15 are legal in these two units only", else to ±8.
pub fn greatest_level(unit: u16) -> i8 {
    match unit {
        170 | 340 => 15,
        _ => 8,
    }
}

/// mantissa / 2^exponent with 2^23 ≤ mantissa < 2^24: a positive f32.
#[derive(Clone, Copy, Debug, PartialEq, Eq)]
pub struct Positive {
    pub mantissa: u64,
    pub exponent: u32,
}

/// floor(√x).
fn root(x: u64) -> u64 {
    let (mut low, mut high) = (0, 1 << 32);
    while high - low > 1 {
        let middle = (low + high) / 2;
        if u128::from(middle) * u128::from(middle) <= u128::from(x) {
            low = middle;
        } else {
            high = middle;
        }
    }
    low
}

/// The f32 nearest 1/√u.
pub fn gain(unit: u16) -> Positive {
    let u = u64::from(unit);
    for exponent in 23..=31 {
        // 2^exponent / √u lies in mantissa .. mantissa + 1.
        let mantissa = root((1 << (2 * exponent)) / u);
        if !(1 << 23..1 << 24).contains(&mantissa) {
            continue;
        }
        // Nearer to mantissa + 1 if (mantissa + ½)² u < 2^(2 exponent); a tie would need a rational root.
        let half = (2 * mantissa + 1) * (2 * mantissa + 1) * u;
        let square = 1u64 << (2 * exponent + 2);
        assert_ne!(half, square);
        let nearest = if half < square { mantissa + 1 } else { mantissa };
        assert!(nearest < 1 << 24);
        return Positive { mantissa: nearest, exponent };
    }
    panic!("no gain for unit {unit}");
}

/// The bits of the f32 nearest level × gain, "rounded once", ties to even.
pub fn scaled(level: i8, unit: u16) -> u32 {
    if level == 0 {
        return 0; // +0.0
    }
    let gain = gain(unit);
    let product = u64::from(level.unsigned_abs()) * gain.mantissa;
    let mut exponent = gain.exponent;
    // Divide by 2^shift so that 24 bits stay.
    let shift = (64 - product.leading_zeros()) - 24;
    let (mut mantissa, rest, one) = (product >> shift, product % (1 << shift), 1u64 << shift);
    exponent -= shift;
    if 2 * rest > one || (2 * rest == one && mantissa % 2 == 1) {
        mantissa += 1;
    }
    if mantissa == 1 << 24 {
        mantissa >>= 1;
        exponent -= 1;
    }
    let sign = if level < 0 { 1u32 << 31 } else { 0 };
    sign | (127 + 23 - exponent) << 23 | (mantissa as u32 - (1 << 23))
}

/// The sample of three bytes, or 9.
pub fn sample(byte: u8, i: u8, j: u8) -> Result<Sample, Refusal> {
    let (i, j) = (i as i8, j as i8);
    match byte {
        0 if i == 0 && j == 0 => Ok(Sample::Silence),
        63 if (0..=62).contains(&i) && j == 0 => Ok(Sample::Phase(i as u8)),
        _ => {
            let unit = LEVEL_UNITS.into_iter().find(|unit| unit_byte(*unit) == byte).ok_or(NO_ELEMENT)?;
            let levels = -greatest_level(unit)..=greatest_level(unit);
            if !levels.contains(&i) || !levels.contains(&j) {
                return Err(NO_ELEMENT);
            }
            Ok(Sample::Point { i: scaled(i, unit), j: scaled(j, unit) })
        }
    }
}

/// The kind, I and J as the C calls number them, or minus 9.
pub fn sample_numbers(byte: u8, i: u8, j: u8) -> [i64; 3] {
    match sample(byte, i, j) {
        Ok(Sample::Silence) => [0, 0, 0],
        Ok(Sample::Phase(phase)) => [1, i64::from(phase), 0],
        Ok(Sample::Point { i, j }) => [2, i64::from(i), i64::from(j)],
        Err(refusal) => [-i64::from(refusal); 3],
    }
}
