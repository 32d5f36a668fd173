//! Bytes of names.

use crate::generate::rng::Rng;

/// Some bytes for a name: no zero.
pub(super) fn name_bytes(rng: &mut Rng, length: usize) -> Vec<u8> {
    let mut all = Vec::new();
    for _ in 0..length {
        all.push(if rng.chance(90) {
            rng.pick(b"abcdefgh_.ABCDEFGH0123456789")
        } else {
            rng.between(1, 255) as u8
        });
    }
    all
}

/// The 8 bytes of a name in its entry. At times it is empty, and the byte at
/// `set` keeps the first word from being 0.
pub(super) fn short_name(rng: &mut Rng, set: usize) -> Vec<u8> {
    let length = rng.between(1, 8) as usize;
    let mut name = name_bytes(rng, length);
    name.resize(8, 0);
    if rng.chance(5) {
        name[0] = 0;
        name[set] = b'x';
    }
    name
}
