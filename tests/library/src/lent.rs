//! Buffers between guards.

use judge::harness::hex;

/// The guard's bytes on each side, at least.
const GUARD: usize = 256;

/// Buffers start at any of so many distances from an aligned address.
pub const SHIFTS: usize = 16;

/// The guards' content: a byte for each position, never 0.
const PATTERN: [u8; GUARD + SHIFTS] = {
    let mut bytes = [0; GUARD + SHIFTS];
    let mut i = 0;
    while i < bytes.len() {
        bytes[i] = (i as u8).wrapping_mul(74) | 1;
        i += 1;
    }
    bytes
};

/// Bytes that the library gets.
pub struct Lent {
    bytes: Vec<u8>,
    first: usize,
    length: usize,
}

impl Lent {
    /// A buffer with this content, `shift` bytes off an aligned address.
    pub fn new(content: &[u8], shift: usize) -> Lent {
        let first = GUARD + shift % SHIFTS;
        let bytes = [&PATTERN[..first], content, &PATTERN[..GUARD]].concat();
        Lent { bytes, first, length: content.len() }
    }

    pub fn length(&self) -> usize {
        self.length
    }

    /// An empty buffer is lent as NULL at every other shift.
    fn null(&self) -> bool {
        self.length == 0 && self.first % 2 == 0
    }

    pub fn pointer(&self) -> *const u8 {
        if self.null() {
            return std::ptr::null();
        }
        self.bytes[self.first..].as_ptr()
    }

    pub fn pointer_to_fill(&mut self) -> *mut u8 {
        if self.null() {
            return std::ptr::null_mut();
        }
        self.bytes[self.first..].as_mut_ptr()
    }

    /// Whether the content is this one and the guards are as they were; if not, what differs.
    pub fn holds(&self, name: &str, content: &[u8]) -> Result<(), String> {
        let (before, rest) = self.bytes.split_at(self.first);
        let (own, behind) = rest.split_at(self.length);
        same(format_args!("{name}"), content, own)?;
        same(format_args!("guard before the {name}"), &PATTERN[..self.first], before)?;
        same(format_args!("guard behind the {name}"), &PATTERN[..GUARD], behind)
    }
}

/// Whether two strings of bytes are the same; if not, where they differ and the bytes from there on.
fn same(name: std::fmt::Arguments, expected: &[u8], found: &[u8]) -> Result<(), String> {
    if expected == found {
        return Ok(());
    }
    if expected.len() != found.len() {
        return Err(format!("{name}: {} bytes expected, {} found", expected.len(), found.len()));
    }
    let differ: Vec<usize> = (0..found.len()).filter(|i| expected[*i] != found[*i]).collect();
    let at = differ[0];
    let end = found.len().min(at + 24);
    Err(format!(
        "{name}: {} of {} bytes differ, first byte {at}, last byte {}; from byte {at}\nexpected {}\nfound    {}",
        differ.len(),
        found.len(),
        differ[differ.len() - 1],
        hex(&expected[at..end]),
        hex(&found[at..end])
    ))
}

/// Content of no meaning, of which no byte is likely to be written as it is.
pub fn junk(length: usize, salt: u64) -> Vec<u8> {
    (0..length as u64).map(|i| (salt ^ (salt >> 8)).wrapping_add(i.wrapping_mul(167)) as u8).collect()
}
