//! Relocation entries of the loader section.

use super::layout::Layout;
use super::places::MadeEntry;
use super::sections::Numbers;
use super::Wish;
use crate::bytes::{by, put};
use crate::generate::rng::Rng;

pub(super) struct Relocations {
    pub all: Vec<MadeEntry>,
    pub table: Vec<u8>,
}

/// Entries on fields of text and data, several on one at times.
pub(super) fn relocations(
    rng: &mut Rng,
    bits: u64,
    wish: &Wish,
    symbols: usize,
    numbers: &Numbers,
    layout: &Layout,
) -> Relocations {
    let mut free = fields(rng, bits, numbers, layout);
    let count = match wish.entries {
        _ if free.is_empty() => 0,
        Some(count) => count,
        None if wish.rich => free.len() + rng.between(0, 4) as usize,
        None if rng.chance(15) => 0,
        None => rng.between(1, 12) as usize,
    };
    rng.shuffle(&mut free);
    let mut all = Vec::new();
    let mut table = Vec::new();
    for i in 0..count {
        let mut made = if i < free.len() {
            free[i].clone()
        } else {
            rng.pick(&free)
        };
        made.symbol = rng.below(3 + symbols as u64);
        table.extend(entry(rng, bits, &made));
        all.push(made);
    }
    Relocations { all, table }
}

/// Fields of text and data that share no byte.
fn fields(rng: &mut Rng, bits: u64, numbers: &Numbers, layout: &Layout) -> Vec<MadeEntry> {
    let mut all = Vec::new();
    for (section, address, size) in [
        (numbers.text, layout.text_address, layout.text_size),
        (numbers.data, layout.data_address, layout.data_size),
    ] {
        if section != 0 {
            all.extend(section_fields(rng, bits, section, address, size));
        }
    }
    all
}

/// Fields that share no byte, in the order of their addresses.
fn section_fields(
    rng: &mut Rng,
    bits: u64,
    section: u64,
    address: u64,
    size: u64,
) -> Vec<MadeEntry> {
    let mut all = Vec::new();
    let mut at = rng.below(5);
    loop {
        let width = if bits == 64 && rng.chance(50) { 64 } else { 32 };
        if at + width / 8 > size {
            break;
        }
        all.push(MadeEntry {
            address: address + at,
            width,
            section,
            symbol: 0,
        });
        at += width / 8 + rng.pick(&[0, 0, 0, 1, 2, 5, 8]);
    }
    // Sometimes the last field ends with the section.
    if rng.chance(40) {
        if let Some(last) = all.last_mut() {
            last.address = address + (size - last.width / 8);
        }
    }
    all
}

/// An entry of any allowed type.
fn entry(rng: &mut Rng, bits: u64, made: &MadeEntry) -> Vec<u8> {
    let low = rng.pick(&[0x00u64, 0x00, 0x0C, 0x0D, 0x01, 0x01]);
    let kind = (rng.below(4) << 14) | ((made.width - 1) << 8) | low;
    let mut entry = vec![0; by(bits, 12, 16)];
    put(&mut entry, 0, by(bits, 4, 8), made.address);
    put(&mut entry, by(bits, 4, 12), 4, made.symbol);
    put(&mut entry, 8, 2, kind);
    put(&mut entry, 10, 2, made.section);
    entry
}
