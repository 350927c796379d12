//! Layer mapping and precoding for one port and for transmit diversity (36.211 clauses 6.3.3.1, 6.3.3.3,
//! 6.3.4.1, 6.3.4.3, and 6.9.2 for PHICH on four ports).
//!
//! The factor 1/√2 in front of the matrices is the doubling of the unit.

use crate::Complex;

const O: Complex = Complex::new(0, 0);
const E: Complex = Complex::new(1, 0);
const N: Complex = Complex::new(-1, 0);
const J: Complex = Complex::new(0, 1);
const K: Complex = Complex::new(0, -1);

/// 6.3.4.3, two ports. Rows y0(2i), y1(2i), y0(2i+1), y1(2i+1); columns Re x0, Re x1, Im x0, Im x1.
pub const TWO_PORTS: [[Complex; 4]; 4] = [
    [E, O, J, O], //
    [O, N, O, J],
    [O, E, O, J],
    [E, O, K, O],
];

/// 6.3.4.3, four ports. Rows y0..y3(4i), y0..y3(4i+1), y0..y3(4i+2), y0..y3(4i+3); columns Re x0..x3, Im x0..x3.
pub const FOUR_PORTS: [[Complex; 8]; 16] = [
    [E, O, O, O, J, O, O, O],
    [O, O, O, O, O, O, O, O],
    [O, N, O, O, O, J, O, O],
    [O, O, O, O, O, O, O, O],
    [O, E, O, O, O, J, O, O],
    [O, O, O, O, O, O, O, O],
    [E, O, O, O, K, O, O, O],
    [O, O, O, O, O, O, O, O],
    [O, O, O, O, O, O, O, O],
    [O, O, E, O, O, O, J, O],
    [O, O, O, O, O, O, O, O],
    [O, O, O, N, O, O, O, J],
    [O, O, O, O, O, O, O, O],
    [O, O, O, E, O, O, O, J],
    [O, O, O, O, O, O, O, O],
    [O, O, E, O, O, O, K, O],
];

/// 6.9.2, four ports, where (i + group) mod 2 = 0 (extended: i + floor(group/2)).
pub const PHICH_EVEN: [[Complex; 8]; 16] = [
    [E, O, O, O, J, O, O, O],
    [O, O, O, O, O, O, O, O],
    [O, N, O, O, O, J, O, O],
    [O, O, O, O, O, O, O, O],
    [O, E, O, O, O, J, O, O],
    [O, O, O, O, O, O, O, O],
    [E, O, O, O, K, O, O, O],
    [O, O, O, O, O, O, O, O],
    [O, O, E, O, O, O, J, O],
    [O, O, O, O, O, O, O, O],
    [O, O, O, N, O, O, O, J],
    [O, O, O, O, O, O, O, O],
    [O, O, O, E, O, O, O, J],
    [O, O, O, O, O, O, O, O],
    [O, O, E, O, O, O, K, O],
    [O, O, O, O, O, O, O, O],
];

/// 6.9.2, four ports, otherwise.
pub const PHICH_ODD: [[Complex; 8]; 16] = [
    [O, O, O, O, O, O, O, O],
    [E, O, O, O, J, O, O, O],
    [O, O, O, O, O, O, O, O],
    [O, N, O, O, O, J, O, O],
    [O, O, O, O, O, O, O, O],
    [O, E, O, O, O, J, O, O],
    [O, O, O, O, O, O, O, O],
    [E, O, O, O, K, O, O, O],
    [O, O, O, O, O, O, O, O],
    [O, O, E, O, O, O, J, O],
    [O, O, O, O, O, O, O, O],
    [O, O, O, N, O, O, O, J],
    [O, O, O, O, O, O, O, O],
    [O, O, O, E, O, O, O, J],
    [O, O, O, O, O, O, O, O],
    [O, O, E, O, O, O, K, O],
];

/// What the ports send at one place of a channel; `None` for a port without a term (a zero row).
pub type Vector = [Option<Complex>; 4];

/// One row of a matrix times the column of real and imaginary parts.
fn row_times<const W: usize>(row: &[Complex; W], column: &[i32; W]) -> Option<Complex> {
    if row.iter().all(|entry| *entry == O) {
        return None;
    }
    Some(row.iter().zip(column).fold(Complex::ZERO, |sum, (entry, part)| sum + *entry * *part))
}

/// A whole 16-row matrix times (x0, x1, x2, x3): four places of four ports.
fn four_places(matrix: &[[Complex; 8]; 16], x: &[Complex]) -> [Vector; 4] {
    let column = [x[0].re, x[1].re, x[2].re, x[3].re, x[0].im, x[1].im, x[2].im, x[3].im];
    [0, 1, 2, 3].map(|place| [0, 1, 2, 3].map(|port| row_times(&matrix[4 * place + port], &column)))
}

fn one_port(d: &[Complex]) -> Vec<Vector> {
    d.iter().map(|x| [Some(*x), None, None, None]).collect()
}

fn two_ports(d: &[Complex]) -> Vec<Vector> {
    assert_eq!(d.len() % 2, 0, "two ports take pairs");
    // Layer mapping: x0(i) = d(2i), x1(i) = d(2i+1).
    let pairs = d.chunks(2).flat_map(|x| {
        let column = [x[0].re, x[1].re, x[0].im, x[1].im];
        let y = |row: usize| row_times(&TWO_PORTS[row], &column);
        [[y(0), y(1), None, None], [y(2), y(3), None, None]]
    });
    pairs.collect()
}

/// Any channel but PHICH on four ports: y(0) .. y(M−1) from d(0) .. d(M−1).
pub fn precode(ports: usize, d: &[Complex]) -> Vec<Vector> {
    match ports {
        1 => one_port(d),
        2 => two_ports(d),
        4 => {
            // Layer mapping: x_q(i) = d(4i+q). "If M mod 4 ≠ 0 two null symbols shall be appended."
            assert_eq!(d.len() % 2, 0, "four ports take pairs");
            let mut d = d.to_vec();
            let nulls = d.len() % 4;
            d.extend(std::iter::repeat_n(Complex::ZERO, nulls));
            let mut y: Vec<Vector> = d.chunks(4).flat_map(|x| four_places(&FOUR_PORTS, x)).collect();
            // M_ap = 4 M_layer, or 4 M_layer − 2.
            y.truncate(d.len() - nulls);
            y
        }
        _ => panic!("no such number of ports"),
    }
}

/// PHICH's three quads: as above but for four ports, where the two matrices of 6.9.2 alternate.
/// `pair` is the group, with the extended prefix floor(group/2).
pub fn precode_phich(ports: usize, pair: usize, d: &[Complex]) -> Vec<Vector> {
    assert_eq!(d.len(), 12);
    if ports != 4 {
        return precode(ports, d);
    }
    let mut y = Vec::new();
    for (i, x) in d.chunks(4).enumerate() {
        match (i + pair) % 2 {
            0 => y.extend(four_places(&PHICH_EVEN, x)),
            _ => y.extend(four_places(&PHICH_ODD, x)),
        }
    }
    y
}

/// The place of the symbol d(j) itself: the port on which it stands unconjugated at the channel's j-th place.
pub fn port_of_symbol(ports: usize, j: usize) -> usize {
    if ports == 4 && j % 4 >= 2 {
        1
    } else {
        0
    }
}

/// The same for PHICH's element j of twelve.
pub fn port_of_phich_symbol(ports: usize, pair: usize, j: usize) -> usize {
    if ports == 4 && (j / 4 + pair) % 2 == 1 {
        1
    } else {
        0
    }
}
