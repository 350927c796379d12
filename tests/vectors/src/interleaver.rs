//! TS 36.212 5.1.4.2.1: the sub-block interleaver, on symbol quadruplets as
//! TS 36.211 6.8.5 has it for PDCCH, and the cyclic shift that follows there.

/// 36.212 5.1.4.2.1 (1): the columns of the matrix.
const COLUMNS: usize = 32;

/// 36.212 table 5.1.4-2: P(j), the original column position of the j-th
/// permuted column.
#[rustfmt::skip]
const PATTERN: [usize; COLUMNS] = [
    1, 17, 9, 25, 5, 21, 13, 29, 3, 19, 11, 27, 7, 23, 15, 31,
    0, 16, 8, 24, 4, 20, 12, 28, 2, 18, 10, 26, 6, 22, 14, 30,
];

/// The numbers of quadruplets, M_quad.
const SIZES: [usize; 17] = [
    1, 2, 9, 14, 31, 32, 33, 40, 63, 64, 65, 100, 250, 333, 512, 700, 787,
];

/// The cell identities, N_ID^cell.
const CELLS: [usize; 4] = [0, 1, 17, 503];

/// Quadruplets on a line.
const ON_A_LINE: usize = 32;

/// 36.212 5.1.4.2.1 (3): the matrix, written row by row; `None` is a dummy.
fn matrix(count: usize) -> Vec<Vec<Option<usize>>> {
    // (2): the fewest rows that hold them all.
    let rows = (0..).find(|rows| count <= rows * COLUMNS).unwrap();
    let mut y = vec![None; rows * COLUMNS - count];
    y.extend((0..count).map(Some));
    y.chunks(COLUMNS).map(<[_]>::to_vec).collect()
}

/// 36.212 5.1.4.2.1 (4) and (5): the columns permuted, then read one after the
/// other. 36.211 6.8.5: the dummies are removed.
fn permuted(count: usize) -> Vec<usize> {
    let written = matrix(count);
    let mut w = Vec::new();
    for column in PATTERN {
        for row in &written {
            if let Some(quad) = row[column] {
                w.push(quad);
            }
        }
    }
    w
}

/// 36.211 6.8.5: w shifted cyclically, w((i + N_ID^cell) mod M_quad).
fn sent(count: usize, cell: usize) -> Vec<usize> {
    let w = permuted(count);
    (0..count).map(|i| w[(i + cell) % count]).collect()
}

pub fn lines() -> Vec<String> {
    let mut out = Vec::new();
    for count in SIZES {
        for cell in CELLS {
            for (k, part) in sent(count, cell).chunks(ON_A_LINE).enumerate() {
                let mut line = format!("sent {count} {cell} {}", k * ON_A_LINE);
                for quad in part {
                    line.push_str(&format!(" {quad}"));
                }
                out.push(line);
            }
        }
    }
    out
}

#[cfg(test)]
mod tests {
    use super::*;

    #[test]
    fn pattern_agrees_with_request_101() {
        // "The five bits of (j+16) mod 32, reversed".
        for (j, column) in PATTERN.into_iter().enumerate() {
            let five = ((j + 16) % 32) as u8;
            assert_eq!(column, usize::from(five.reverse_bits() >> 3), "{j}");
        }
    }

    #[test]
    fn dummies_come_first() {
        for count in 1..=800 {
            let places: Vec<_> = matrix(count).concat();
            assert!(places.len() < count + COLUMNS && places.len() % COLUMNS == 0);
            let dummies = places.len() - count;
            assert!(places[..dummies].iter().all(Option::is_none));
            assert!(places[dummies..].iter().flatten().copied().eq(0..count));
        }
    }

    #[test]
    fn each_is_sent_once() {
        for count in 1..=800 {
            for cell in CELLS {
                let mut all = sent(count, cell);
                all.sort_unstable();
                assert!(all.into_iter().eq(0..count), "{count} {cell}");
            }
        }
    }

    #[test]
    fn one_row() {
        assert_eq!(permuted(32), PATTERN);
        // 18 dummies: columns 18 to 31 are left, quadruplet 0 in column 18.
        let left = PATTERN.iter().filter(|column| 18 <= **column);
        assert!(permuted(14).into_iter().eq(left.map(|column| column - 18)));
    }

    #[test]
    fn two_rows() {
        // Quadruplet q is in row 0 below 32, column q; then in row 1.
        let rows = PATTERN.into_iter().flat_map(|column| [column, column + 32]);
        assert!(permuted(64).into_iter().eq(rows));
    }

    #[test]
    fn shift() {
        for count in SIZES {
            let w = permuted(count);
            assert_eq!(sent(count, 0), w);
            assert_eq!(sent(count, 503)[0], w[503 % count]);
            assert_eq!(sent(count, 17 + count), sent(count, 17));
        }
    }
}
