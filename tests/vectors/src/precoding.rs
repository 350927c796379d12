//! TS 36.211 6.3.3.3, 6.3.4.3 and 6.9.2: layer mapping and precoding for
//! transmit diversity.

/// A pair of real and imaginary part.
type Pair = (i32, i32);

/// The entries of the matrices: 0, 1, -1, j, -j.
const O: Pair = (0, 0);
const P: Pair = (1, 0);
const N: Pair = (-1, 0);
const J: Pair = (0, 1);
const K: Pair = (0, -1);

/// 6.3.4.3, two ports: rows y0(2i), y1(2i), y0(2i+1), y1(2i+1); columns
/// Re x0, Re x1, Im x0, Im x1; the factor 1/sqrt 2 is left out.
#[rustfmt::skip]
const TWO_PORTS: [[Pair; 4]; 4] = [
    [P, O, J, O],
    [O, N, O, J],
    [O, P, O, J],
    [P, O, K, O],
];

/// 6.3.4.3, four ports: rows y0(4i), y1(4i), y2(4i), y3(4i), y0(4i+1), ..,
/// y3(4i+3); columns Re x0, .., Re x3, Im x0, .., Im x3; the factor 1/sqrt 2
/// is left out.
#[rustfmt::skip]
const FOUR_PORTS: [[Pair; 8]; 16] = [
    [P, O, O, O, J, O, O, O],
    [O, O, O, O, O, O, O, O],
    [O, N, O, O, O, J, O, O],
    [O, O, O, O, O, O, O, O],
    [O, P, O, O, O, J, O, O],
    [O, O, O, O, O, O, O, O],
    [P, O, O, O, K, O, O, O],
    [O, O, O, O, O, O, O, O],
    [O, O, O, O, O, O, O, O],
    [O, O, P, O, O, O, J, O],
    [O, O, O, O, O, O, O, O],
    [O, O, O, N, O, O, O, J],
    [O, O, O, O, O, O, O, O],
    [O, O, O, P, O, O, O, J],
    [O, O, O, O, O, O, O, O],
    [O, O, P, O, O, O, K, O],
];

/// 6.9.2, four ports, where i + group (extended: i + floor(group / 2)) is even.
#[rustfmt::skip]
const PHICH_EVEN: [[Pair; 8]; 16] = [
    [P, O, O, O, J, O, O, O],
    [O, O, O, O, O, O, O, O],
    [O, N, O, O, O, J, O, O],
    [O, O, O, O, O, O, O, O],
    [O, P, O, O, O, J, O, O],
    [O, O, O, O, O, O, O, O],
    [P, O, O, O, K, O, O, O],
    [O, O, O, O, O, O, O, O],
    [O, O, P, O, O, O, J, O],
    [O, O, O, O, O, O, O, O],
    [O, O, O, N, O, O, O, J],
    [O, O, O, O, O, O, O, O],
    [O, O, O, P, O, O, O, J],
    [O, O, O, O, O, O, O, O],
    [O, O, P, O, O, O, K, O],
    [O, O, O, O, O, O, O, O],
];

/// 6.9.2, four ports, otherwise.
#[rustfmt::skip]
const PHICH_ODD: [[Pair; 8]; 16] = [
    [O, O, O, O, O, O, O, O],
    [P, O, O, O, J, O, O, O],
    [O, O, O, O, O, O, O, O],
    [O, N, O, O, O, J, O, O],
    [O, O, O, O, O, O, O, O],
    [O, P, O, O, O, J, O, O],
    [O, O, O, O, O, O, O, O],
    [P, O, O, O, K, O, O, O],
    [O, O, O, O, O, O, O, O],
    [O, O, P, O, O, O, J, O],
    [O, O, O, O, O, O, O, O],
    [O, O, O, N, O, O, O, J],
    [O, O, O, O, O, O, O, O],
    [O, O, O, P, O, O, O, J],
    [O, O, O, O, O, O, O, O],
    [O, O, P, O, O, O, K, O],
];

/// An element: unit and levels.
#[derive(Clone, Copy, Debug, PartialEq)]
struct Element {
    unit: i32,
    value: Pair,
}

/// Document 01: an element without a value on a port.
const SILENT: Element = Element {
    unit: 0,
    value: (0, 0),
};

/// The product of one row with the vector of real and imaginary parts. The
/// factor 1/sqrt 2 doubles the unit; a zero row is silent.
fn row_product(row: &[Pair], vector: &[i32], unit: i32) -> Element {
    assert_eq!(row.len(), vector.len());
    if row.iter().all(|entry| *entry == O) {
        return SILENT;
    }
    let mut sum = (0, 0);
    for (entry, v) in row.iter().zip(vector) {
        sum = (sum.0 + entry.0 * v, sum.1 + entry.1 * v);
    }
    Element {
        unit: 2 * unit,
        value: sum,
    }
}

/// The vector Re x0, .., Re x(v-1), Im x0, .., Im x(v-1).
fn parts(x: &[Pair]) -> Vec<i32> {
    let re = x.iter().map(|x| x.0);
    let im = x.iter().map(|x| x.1);
    re.chain(im).collect()
}

/// A whole matrix times the vector; answers ports by places.
fn matrix_product<const C: usize>(
    matrix: &[[Pair; C]],
    x: &[Pair],
    ports: usize,
    unit: i32,
) -> Vec<Vec<Element>> {
    let vector = parts(x);
    matrix
        .chunks(ports)
        .map(|rows| {
            let element = |row: &[Pair; C]| row_product(row, &vector, unit);
            rows.iter().map(element).collect()
        })
        .collect()
}

/// 6.3.3.1 and 6.3.4.1, one port: y0(i) = x0(i) = d(i).
fn one_port(d: &[Pair], unit: i32) -> Vec<Vec<Element>> {
    d.iter()
        .map(|d| vec![Element { unit, value: *d }])
        .collect()
}

/// 6.3.3.3 and 6.3.4.3, two ports: x0(i) = d(2i), x1(i) = d(2i+1).
fn two_ports(d: &[Pair], unit: i32) -> Vec<Vec<Element>> {
    assert_eq!(d.len() % 2, 0);
    let m_layer = d.len() / 2;
    let mut y = Vec::new();
    for i in 0..m_layer {
        let x = [d[2 * i], d[2 * i + 1]];
        y.extend(matrix_product(&TWO_PORTS, &x, 2, unit));
    }
    assert_eq!(y.len(), 2 * m_layer);
    y
}

/// 6.3.3.3 and 6.3.4.3, four ports: x0(i) = d(4i), .., x3(i) = d(4i+3). Where
/// M is no multiple of 4, two null symbols are appended to d and only
/// 4 M_layer - 2 places are sent.
fn four_ports(d: &[Pair], unit: i32) -> Vec<Vec<Element>> {
    assert_eq!(d.len() % 2, 0);
    let m = d.len();
    let mut d = d.to_vec();
    let (m_layer, m_ap) = match m % 4 {
        0 => (m / 4, m),
        _ => {
            d.extend([(0, 0), (0, 0)]);
            let m_layer = (m + 2) / 4;
            (m_layer, 4 * m_layer - 2)
        }
    };
    let mut y = Vec::new();
    for i in 0..m_layer {
        let x = [d[4 * i], d[4 * i + 1], d[4 * i + 2], d[4 * i + 3]];
        y.extend(matrix_product(&FOUR_PORTS, &x, 4, unit));
    }
    y.truncate(m_ap);
    assert_eq!(y.len(), m);
    y
}

/// A channel other than the PHICH on P ports: its places by ports.
fn channel(ports: usize, d: &[Pair], unit: i32) -> Vec<Vec<Element>> {
    match ports {
        1 => one_port(d, unit),
        2 => two_ports(d, unit),
        4 => four_ports(d, unit),
        _ => panic!("no such number of ports"),
    }
}

/// 6.9.2: the twelve places of PHICH mapping unit m by ports. With four ports
/// the matrix alternates; m is the group, extended floor(group / 2).
fn phich(ports: usize, m: usize, d: &[Pair], unit: i32) -> Vec<Vec<Element>> {
    assert_eq!(d.len(), 12);
    if ports != 4 {
        return channel(ports, d, unit);
    }
    let mut y = Vec::new();
    for i in 0..3 {
        let x = [d[4 * i], d[4 * i + 1], d[4 * i + 2], d[4 * i + 3]];
        let matrix = match (i + m) % 2 {
            0 => &PHICH_EVEN,
            _ => &PHICH_ODD,
        };
        y.extend(matrix_product(matrix, &x, 4, unit));
    }
    y
}

/// The symbols of the vectors.
fn symbols(count: i32) -> Vec<Pair> {
    (0..count)
        .map(|j| ((3 * j) % 15 - 7, (5 * j + 4) % 15 - 7))
        .collect()
}

/// The bytes as numbers. Document 02, #109: "with diversity 340, whose unit byte is 255".
fn text(element: &Element) -> String {
    let (i, j) = element.value;
    let byte = match element.unit {
        340 => 255,
        unit => unit,
    };
    format!("{byte} {i},{j}")
}

const CHANNELS: [(usize, i32); 4] = [(1, 5), (2, 6), (4, 8), (4, 6)];

pub fn lines() -> Vec<String> {
    let mut out = Vec::new();
    for (ports, m) in CHANNELS {
        let y = channel(ports, &symbols(m), 170);
        for (j, place) in y.iter().enumerate() {
            for (p, element) in place.iter().enumerate() {
                out.push(format!("td {ports} {m} {j} {p} {}", text(element)));
            }
        }
    }
    for ports in [1, 2, 4] {
        for m in 0..3 {
            let y = phich(ports, m, &symbols(12), 2);
            for i in 0..3 {
                for t in 0..4 {
                    for (p, element) in y[4 * i + t].iter().enumerate() {
                        let element = text(element);
                        out.push(format!("phich {ports} {m} {i} {t} {p} {element}"));
                    }
                }
            }
        }
    }
    out
}

#[cfg(test)]
mod tests {
    use super::*;

    fn square(a: Pair) -> i32 {
        a.0 * a.0 + a.1 * a.1
    }

    fn conjugate(a: Pair) -> Pair {
        (a.0, -a.1)
    }

    fn minus(a: Pair) -> Pair {
        (-a.0, -a.1)
    }

    fn times(a: Pair, b: Pair) -> Pair {
        (a.0 * b.0 - a.1 * b.1, a.0 * b.1 + a.1 * b.0)
    }

    /// The two active ports of a place: own symbol, then the other term.
    fn active(place: &[Element]) -> Vec<(usize, Element)> {
        let all = place.iter().copied().enumerate();
        all.filter(|(_, element)| *element != SILENT).collect()
    }

    /// Checks y against the symbols: with four ports place j is on the ports
    /// half(j) and half(j) + 2.
    fn check(
        ports: usize,
        d: &[Pair],
        unit: i32,
        y: &[Vec<Element>],
        half: impl Fn(usize) -> usize,
    ) {
        assert_eq!(y.len(), d.len());
        for (j, place) in y.iter().enumerate() {
            assert_eq!(place.len(), ports);
            if ports == 1 {
                assert_eq!(place[0], Element { unit, value: d[j] });
                continue;
            }
            let active = active(place);
            let on: Vec<usize> = active.iter().map(|a| a.0).collect();
            let expected = match ports {
                2 => [0, 1],
                _ => [half(j), half(j) + 2],
            };
            assert_eq!(on, expected);
            // The symbol itself; minus the conjugate of the next one at an
            // even place, the conjugate of the one before at an odd place.
            let other = if j % 2 == 0 {
                minus(conjugate(d[j + 1]))
            } else {
                conjugate(d[j - 1])
            };
            assert_eq!(active[0].1.value, d[j]);
            assert_eq!(active[1].1.value, other);
            assert!(active.iter().all(|a| a.1.unit == 2 * unit));
        }
    }

    #[test]
    fn channels_by_the_closed_form() {
        for (ports, m) in CHANNELS {
            let d = symbols(m);
            check(ports, &d, 42, &channel(ports, &d, 42), |j| j % 4 / 2);
        }
    }

    #[test]
    fn phich_by_the_closed_form() {
        let d = symbols(12);
        for ports in [1, 2, 4] {
            for m in 0..3 {
                let half = |j: usize| (j / 4 + m) % 2;
                check(ports, &d, 2, &phich(ports, m, &d, 2), half);
            }
        }
    }

    /// Power and orthogonality of each pair of places.
    fn check_pairs(d: &[Pair], unit: i32, y: &[Vec<Element>]) {
        for (d, y) in d.chunks(2).zip(y.chunks(2)) {
            // In the doubled unit each place carries half of both symbols.
            let power = square(d[0]) + square(d[1]);
            for place in y {
                let sum: i32 = place.iter().map(|element| square(element.value)).sum();
                assert_eq!(sum, power);
                assert!(place.iter().all(|e| e.unit == 0 || e.unit == 2 * unit));
            }
            // The two places are orthogonal over the ports.
            let mut sum = (0, 0);
            for (a, b) in y[0].iter().zip(&y[1]) {
                let product = times(a.value, conjugate(b.value));
                sum = (sum.0 + product.0, sum.1 + product.1);
            }
            assert_eq!(sum, (0, 0));
        }
    }

    #[test]
    fn power_and_orthogonality() {
        for (ports, m) in [(2, 6), (4, 8), (4, 6), (2, 22), (4, 22), (4, 24)] {
            let d = symbols(m);
            check_pairs(&d, 42, &channel(ports, &d, 42));
        }
        let d = symbols(12);
        for ports in [2, 4] {
            for m in 0..3 {
                check_pairs(&d, 2, &phich(ports, m, &d, 2));
            }
        }
    }

    #[test]
    fn columns_of_the_matrices() {
        // Each column has two entries of size 1: each symbol is sent twice.
        for column in 0..4 {
            let sum: i32 = TWO_PORTS.iter().map(|row| square(row[column])).sum();
            assert_eq!(sum, 2);
        }
        for matrix in [FOUR_PORTS, PHICH_EVEN, PHICH_ODD] {
            for column in 0..8 {
                let sum: i32 = matrix.iter().map(|row| square(row[column])).sum();
                assert_eq!(sum, 2);
            }
            let silent = matrix.iter().filter(|row| row.iter().all(|e| *e == O));
            assert_eq!(silent.count(), 8);
        }
    }

    #[test]
    fn a_zero_value_is_not_silent() {
        let d = [(0, 0); 12];
        for (ports, m) in [(2, 0), (4, 0), (4, 1)] {
            for place in phich(ports, m, &d, 2) {
                let kept = place.iter().filter(|e| e.unit == 4 && e.value == (0, 0));
                assert_eq!(kept.count(), 2);
            }
        }
    }

    #[test]
    fn symbols_by_hand() {
        let d = symbols(4);
        assert_eq!(d, [(-7, -3), (-4, 2), (-1, 7), (2, -3)]);
        for d in symbols(30) {
            assert!(d.0.abs() <= 7 && d.1.abs() <= 7);
        }
    }
}
