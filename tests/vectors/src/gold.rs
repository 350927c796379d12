//! TS 36.211 7.2: pseudo-random sequence generation.

/// 7.2: N_C.
const N_C: usize = 1600;

/// 7.2: x1(0), .., x1(len - 1); x1(0) = 1, x1(1) = .. = x1(30) = 0.
pub fn x1(len: usize) -> Vec<u8> {
    let mut x = vec![0; 31];
    x[0] = 1;
    for n in 0..len {
        // x1(n + 31) = (x1(n + 3) + x1(n)) mod 2
        x.push((x[n + 3] + x[n]) % 2);
    }
    x.truncate(len);
    x
}

/// 7.2: x2(0), .., x2(len - 1); c_init is the sum of x2(i) 2^i for i = 0..30.
pub fn x2(c_init: u32, len: usize) -> Vec<u8> {
    assert!(c_init < 1 << 31);
    let mut x = Vec::new();
    for i in 0..31 {
        x.push(((c_init >> i) & 1) as u8);
    }
    for n in 0..len {
        // x2(n + 31) = (x2(n + 3) + x2(n + 2) + x2(n + 1) + x2(n)) mod 2
        x.push((x[n + 3] + x[n + 2] + x[n + 1] + x[n]) % 2);
    }
    x.truncate(len);
    x
}

/// 7.2: c(0), .., c(len - 1); c(n) = (x1(n + N_C) + x2(n + N_C)) mod 2.
pub fn c(c_init: u32, len: usize) -> Vec<u8> {
    let x1 = x1(len + N_C);
    let x2 = x2(c_init, len + N_C);
    (0..len).map(|n| (x1[n + N_C] + x2[n + N_C]) % 2).collect()
}

/// Bits as the characters 0 and 1.
fn text(bits: &[u8]) -> String {
    bits.iter().map(|b| b.to_string()).collect()
}

const C_INITS: [u32; 9] = [
    0, 1, 2, 503, 16384, 123456789, 1431655765, 1610612736, 2147483647,
];
const FIRSTS: [usize; 6] = [0, 28, 56, 84, 5000, 20001];

pub fn lines() -> Vec<String> {
    let mut out = Vec::new();
    out.push(format!("x1 {}", text(&x1(N_C + 31)[N_C..])));
    for c_init in C_INITS {
        for first in FIRSTS {
            let c = c(c_init, first + 28);
            out.push(format!("c {c_init} {first} {}", text(&c[first..])));
        }
    }
    for n in 1..=28 {
        let c = c(1000000, 7 + n);
        let mut word: u32 = 0;
        for bit in &c[7..] {
            word = 2 * word + u32::from(*bit);
        }
        out.push(format!("n {n} {word}"));
    }
    out
}

#[cfg(test)]
mod tests {
    use super::*;

    /// Characteristic polynomials of the two recurrences, bit i for x^i.
    const P1: u64 = 1 << 31 | 1 << 3 | 1;
    const P2: u64 = 1 << 31 | 1 << 3 | 1 << 2 | 1 << 1 | 1;

    fn product(a: u64, b: u64, p: u64) -> u64 {
        let mut sum = 0;
        for i in (0..31).rev() {
            sum <<= 1;
            if sum >> 31 & 1 == 1 {
                sum ^= p;
            }
            if b >> i & 1 == 1 {
                sum ^= a;
            }
        }
        sum
    }

    /// x^n mod p.
    fn power(n: u64, p: u64) -> u64 {
        let mut answer = 1;
        for i in (0..64).rev() {
            answer = product(answer, answer, p);
            if n >> i & 1 == 1 {
                answer = product(answer, 2, p);
            }
        }
        answer
    }

    /// The n-th bit of a sequence with polynomial p and the 31 first bits.
    fn jump(n: usize, p: u64, start: u64) -> u8 {
        ((power(n as u64, p) & start).count_ones() % 2) as u8
    }

    #[test]
    fn starts() {
        assert_eq!(x1(31)[0], 1);
        assert!(x1(31)[1..].iter().all(|b| *b == 0));
        // Lowest bit first.
        assert_eq!(&x2(6, 5), &[0, 1, 1, 0, 0]);
        assert_eq!(x1(3).len(), 3);
        assert_eq!(x2(1, 3).len(), 3);
    }

    #[test]
    fn both_polynomials_have_the_full_period() {
        // 2^31 - 1 is prime: x^(2^31 - 1) = 1 and x != 1 give that order.
        for p in [P1, P2] {
            assert_eq!(power((1 << 31) - 1, p), 1);
        }
    }

    #[test]
    fn recurrences_agree_with_powers_of_x() {
        for c_init in C_INITS {
            let c = c(c_init, 20100);
            for n in (0..60).chain(4990..5030).chain(20000..20100) {
                let a = jump(n + N_C, P1, 1);
                let b = jump(n + N_C, P2, u64::from(c_init));
                assert_eq!(c[n], a ^ b);
            }
        }
    }

    #[test]
    fn linear_in_c_init() {
        let (a, b) = (123456789, 1431655765);
        let (ca, cb, cab, c0) = (c(a, 500), c(b, 500), c(a ^ b, 500), c(0, 500));
        for n in 0..500 {
            assert_eq!(ca[n] ^ cb[n] ^ cab[n], c0[n]);
        }
    }
}
