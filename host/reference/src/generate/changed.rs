//! Files with bytes changed at random, and bytes with hardly any meaning.

use super::either;
use super::make::Made;
use super::rng::Rng;
use crate::bytes::put;

/// Numbers at the ends of 16, 32 and 64 bits and of the file, in any field.
pub(super) fn odd_numbers(rng: &mut Rng) -> Made {
    let mut made = either(rng);
    put_odd_numbers(rng, &mut made);
    made
}

pub(super) fn put_odd_numbers(rng: &mut Rng, made: &mut Made) {
    for _ in 0..rng.pick(&[1, 1, 1, 2, 3]) {
        let field = rng.pick(&made.fields);
        let length = made.bytes.len() as u64;
        let old = made.get(field);
        let other = made.get(rng.pick(&made.fields));
        let value = match rng.below(17) {
            0 => 0,
            1 => u64::MAX,
            2 => u64::MAX - rng.below(64),
            3 => 0x8000_0000_8000_8000,
            4 => 0x7FFF_FFFF_FFFF_FFFF,
            5 => 0xFFFF_FFFF - rng.below(64),
            6 => 0x1_0000_0000 + rng.below(64),
            7 => 0x7FFF_FFFF,
            8 => length,
            9 => length.wrapping_add(rng.below(3)).wrapping_sub(1),
            10 => old.wrapping_add(1),
            11 => old.wrapping_sub(1),
            12 => rng.below(64),
            // Sums of two fields at the ends of 32 and 64 bits.
            13 => other.wrapping_neg().wrapping_sub(rng.below(2)),
            14 => 0x1_0000_0000u64
                .wrapping_sub(other)
                .wrapping_sub(rng.below(2)),
            15 => other,
            _ => rng.next(),
        };
        made.put(field, value);
    }
}

pub(super) fn flips(rng: &mut Rng) -> Made {
    let mut made = either(rng);
    flip(rng, &mut made);
    made
}

/// Changes some bits or bytes.
pub(super) fn flip(rng: &mut Rng, made: &mut Made) {
    for _ in 0..rng.pick(&[1, 1, 2, 4, 16]) {
        let at = rng.below(made.bytes.len() as u64) as usize;
        if rng.chance(60) {
            made.bytes[at] ^= 1 << rng.below(8);
        } else {
            made.bytes[at] = rng.next() as u8;
        }
    }
}

pub(super) fn cut(rng: &mut Rng) -> Made {
    let mut made = either(rng);
    let length = made.bytes.len() as u64;
    let keep = if rng.chance(30) {
        length - 1 - rng.below(4)
    } else {
        rng.below(length)
    };
    made.bytes.truncate(keep as usize);
    made
}

pub(super) fn longer(rng: &mut Rng) -> Made {
    let mut made = either(rng);
    let count = rng.pick(&[1, 2, 3, 4, 18, 100, 300]);
    let tail = if rng.chance(50) {
        rng.bytes(count)
    } else {
        vec![0; count]
    };
    made.bytes.extend_from_slice(&tail);
    made
}

/// Bytes with hardly any meaning.
pub(super) fn noise(rng: &mut Rng) -> Made {
    let length = rng.below(300) as usize;
    let mut made = Made {
        bits: 32,
        ..Made::default()
    };
    made.bytes = rng.bytes(length);
    if length >= 20 && rng.chance(80) {
        let magic = rng.pick(&[0x01DF, 0x01F7]);
        put(&mut made.bytes, 0, 2, magic);
        put(&mut made.bytes, 2, 2, rng.below(4));
        put(&mut made.bytes, 16, 2, rng.below(40));
        if rng.chance(50) {
            // No sections, and no symbols in XCOFF32.
            put(&mut made.bytes, 2, 2, 0);
            put(&mut made.bytes, 12, 4, 0);
        }
    }
    made
}
