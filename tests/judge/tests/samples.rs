//! Samples: exact f32, the paper's bound, and refusal 9.

use judge::sample::{gain, greatest_level, sample, sample_numbers, scaled, Sample, LEVEL_UNITS};

#[test]
fn gains_are_nearest() {
    for unit in LEVEL_UNITS {
        let gain = gain(unit);
        let (m, t, u) = (u128::from(gain.mantissa), gain.exponent, u128::from(unit));
        // |m/2^t − 1/√u| is less than half a last place: (2m − 1)² u < 2^(2t+2) < (2m + 1)² u.
        assert!((2 * m - 1) * (2 * m - 1) * u < 1 << (2 * t + 2));
        assert!((2 * m + 1) * (2 * m + 1) * u > 1 << (2 * t + 2));
        let double = 1.0 / f64::from(unit).sqrt();
        assert_eq!(scaled(1, unit), (double as f32).to_bits());
    }
}

/// The gains of units 170 and 340 as literals: 24 bits over 2^27 and 2^28, nearest by squares of whole numbers.
#[test]
fn gains_of_eight_bits() {
    for (unit, bits, mantissa, exponent) in
        [(170u16, 0x3D9D_130Eu32, 0x9D_130Eu128, 27), (340, 0x3D5E_2305, 0xDE_2305, 28)]
    {
        assert_eq!(scaled(1, unit), bits);
        assert_eq!((bits & 0x7F_FFFF | 0x80_0000, 150 - (bits >> 23)), (mantissa as u32, exponent));
        let square = |x: u128| x * x * u128::from(unit);
        assert!(square(2 * mantissa - 1) < 1 << (2 * exponent + 2));
        assert!(square(2 * mantissa + 1) > 1 << (2 * exponent + 2));
    }
}

#[test]
fn products_are_those_of_f32() {
    for unit in LEVEL_UNITS {
        let gain = f32::from_bits(scaled(1, unit));
        for level in -greatest_level(unit)..=greatest_level(unit) {
            assert_eq!(scaled(level, unit), (f32::from(level) * gain).to_bits(), "{level} in {unit}");
        }
    }
    assert_eq!(scaled(0, 2), 0);
}

/// (2^22−1)²I²2^(2t) ≤ 2^44·u·a² ≤ (2^22+1)²I²2^(2t) for the sample a/2^t.
#[test]
fn the_bound_by_squares() {
    for unit in LEVEL_UNITS {
        let most = i32::from(greatest_level(unit));
        for level in -most..=most {
            let bits = scaled(level as i8, unit);
            let exponent = (bits >> 23) & 255;
            let mantissa = if bits << 1 == 0 { 0 } else { u128::from(bits & 0x7F_FFFF | 0x80_0000) };
            let t = if mantissa == 0 { 0 } else { 127 + 23 - exponent };
            let square = (level * level) as u128 * (1 << (2 * t));
            let middle = (1u128 << 44) * u128::from(unit) * mantissa * mantissa;
            let (low, high) = ((1u128 << 22) - 1, (1u128 << 22) + 1);
            assert!(low * low * square <= middle && middle <= high * high * square, "{level} in {unit}");
            assert_eq!(bits >> 31 == 1, level < 0);
        }
    }
}

#[test]
fn what_is_an_element() {
    assert_eq!(sample(0, 0, 0), Ok(Sample::Silence));
    assert_eq!(sample(0, 1, 0), Err(9));
    assert_eq!(sample(0, 0, 255), Err(9));
    assert_eq!(sample(63, 62, 0), Ok(Sample::Phase(62)));
    assert_eq!(sample(63, 63, 0), Err(9));
    assert_eq!(sample(63, 255, 0), Err(9));
    assert_eq!(sample(63, 0, 1), Err(9));
    assert_eq!(sample(2, 0, 0), Ok(Sample::Point { i: 0, j: 0 }));
    assert_eq!(sample(1, 8, 248), Ok(Sample::Point { i: 8f32.to_bits(), j: (-8f32).to_bits() }));
    assert_eq!(sample(1, 9, 0), Err(9));
    assert_eq!(sample(1, 0, 247), Err(9));
    assert_eq!(sample(84, 128, 0), Err(9));
    // Levels beyond 8 in units 170 and 340 alone; 340 is byte 255 and not 340 mod 256 = 84.
    for byte in [1, 2, 4, 10, 20, 42, 84] {
        assert_eq!(sample(byte, 9, 0), Err(9));
        assert_eq!(sample(byte, 0, 241), Err(9));
    }
    assert_eq!(sample(170, 15, 241), Ok(Sample::Point { i: scaled(15, 170), j: scaled(-15, 170) }));
    assert_eq!(sample(255, 241, 15), Ok(Sample::Point { i: scaled(-15, 340), j: scaled(15, 340) }));
    for byte in [170, 255] {
        assert_eq!(sample(byte, 16, 0), Err(9));
        assert_eq!(sample(byte, 0, 240), Err(9));
    }
    assert_eq!(sample(171, 0, 0), Err(9));
    assert_eq!(sample(254, 0, 0), Err(9));
    assert_eq!(sample(4, 255, 1), Ok(Sample::Point { i: (-0.5f32).to_bits(), j: 0.5f32.to_bits() }));
    let mut elements = 0;
    for byte in 0..=255 {
        for i in 0..=255 {
            for j in 0..=255 {
                elements += usize::from(sample_numbers(byte, i, j)[0] >= 0);
            }
        }
    }
    assert_eq!(elements, 1 + 63 + 7 * 17 * 17 + 2 * 31 * 31);
}
