//! The pseudo-random sequence (36.211 clause 7.2; document 01, "Sequence").

/// N_C: so many bits are passed over.
const SKIPPED: usize = 1600;

/// c(0) .. c(length - 1), each 0 or 1, from the two recurrences written out.
pub fn sequence(c_init: u32, length: usize) -> Vec<u8> {
    assert!(c_init < 1 << 31, "c_init has 31 bits");
    let total = SKIPPED + length;
    let mut x1 = vec![0u8; total + 31];
    let mut x2 = vec![0u8; total + 31];
    // "x1 starts 1 and thirty 0s, x2 with bits of c_init, lowest first".
    x1[0] = 1;
    for (i, bit) in x2.iter_mut().take(31).enumerate() {
        *bit = ((c_init >> i) & 1) as u8;
    }
    for n in 0..total {
        x1[n + 31] = (x1[n + 3] + x1[n]) % 2;
        x2[n + 31] = (x2[n + 3] + x2[n + 2] + x2[n + 1] + x2[n]) % 2;
    }
    (0..length).map(|n| (x1[n + SKIPPED] + x2[n + SKIPPED]) % 2).collect()
}
