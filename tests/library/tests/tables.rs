//! The archive stores no table of the synchronisation signals (document 02, #106): neither the 168 pairs (m0, m1) nor one of the three
//! sequences of 31 signs, as numbers of 1, 2, 4 or 8 bytes each.

use std::path::Path;

/// 36.211 6.11.2.1: the pair of indices of a cell-identity group.
fn pair(group: u64) -> (u64, u64) {
    let q_prime = group / 30;
    let q = (group + q_prime * (q_prime + 1) / 2) / 30;
    let m_prime = group + q * (q + 1) / 2;
    let m0 = m_prime % 31;
    (m0, (m0 + m_prime / 31 + 1) % 31)
}

/// x(0), .., x(30), where x(i+5) is the sum mod 2 of the x(i+tap).
fn sequence(taps: &[usize]) -> Vec<u64> {
    let mut x = vec![0, 0, 0, 0, 1];
    for i in 0..26 {
        x.push(taps.iter().map(|tap| x[i + tap]).sum::<u64>() % 2);
    }
    x
}

/// The numbers one after another, each of `width` bytes, the lowest first.
fn stored(numbers: &[u64], width: usize) -> Vec<u8> {
    numbers.iter().flat_map(|n| n.to_le_bytes()[..width].to_vec()).collect()
}

fn tables() -> Vec<(&'static str, Vec<u64>)> {
    let pairs: Vec<(u64, u64)> = (0..168).map(pair).collect();
    let mut all = vec![
        ("pairs", pairs.iter().flat_map(|&(a, b)| [a, b]).collect()),
        ("pairs, m1 first", pairs.iter().flat_map(|&(a, b)| [b, a]).collect()),
        ("m0", pairs.iter().map(|p| p.0).collect()),
        ("m1", pairs.iter().map(|p| p.1).collect()),
    ];
    for (name, taps) in [("s", &[2, 0][..]), ("c", &[3, 0]), ("z", &[4, 2, 1, 0])] {
        let x = sequence(taps);
        all.push((name, x.clone()));
        all.push((name, x.iter().map(|b| 1u64.wrapping_sub(2 * b)).collect()));
    }
    all
}

/// The names of the tables of which a part of twelve numbers (the first, the next, ..) stands in the bytes.
fn found(bytes: &[u8]) -> Vec<&'static str> {
    let mut names = Vec::new();
    for (name, numbers) in tables() {
        for width in [1, 2, 4, 8] {
            for part in numbers.chunks_exact(12) {
                let want = stored(part, width);
                if bytes.windows(want.len()).any(|w| w == want) {
                    names.push(name);
                }
            }
        }
    }
    names
}

#[test]
fn the_pairs_are_those_of_document_01() {
    assert_eq!([0, 29, 30, 167].map(pair), [(0, 1), (29, 30), (0, 2), (2, 9)]);
}

#[test]
fn a_table_would_be_found() {
    let mut bytes = vec![7; 100];
    bytes.extend(stored(&tables()[0].1, 1));
    assert!(found(&bytes).contains(&"pairs"));
    let mut bytes = vec![7; 101];
    bytes.extend(stored(&tables()[7].1, 4));
    assert!(!found(&bytes).is_empty());
}

#[test]
fn the_archive_has_none() {
    let archive = Path::new(env!("CARGO_MANIFEST_DIR")).join("../../target/staticlib/libmapper.a");
    let bytes = std::fs::read(&archive).expect("`tools/make library` writes it");
    assert_eq!(found(&bytes), Vec::<&str>::new());
}
