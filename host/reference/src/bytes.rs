//! Numbers in bytes: all are big-endian.

/// The number of `length` bytes (at most 8) at `at`.
pub fn number(bytes: &[u8], at: usize, length: usize) -> u64 {
    let mut value = 0;
    for &byte in &bytes[at..at + length] {
        value = value * 256 + u64::from(byte);
    }
    value
}

/// Writes `value` into the `length` bytes at `at`; what passes them is dropped.
pub fn put(bytes: &mut [u8], at: usize, length: usize, value: u64) {
    let all = value.to_be_bytes();
    bytes[at..at + length].copy_from_slice(&all[8 - length..]);
}

/// One value for XCOFF32, another for XCOFF64.
pub fn by(bits: u64, narrow: usize, wide: usize) -> usize {
    if bits == 32 {
        narrow
    } else {
        wide
    }
}

/// 2^32 for XCOFF32, 2^64 for XCOFF64: no address reaches it.
pub fn top(bits: u64) -> u128 {
    1u128 << bits
}
