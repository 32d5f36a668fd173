//! Object files whose text and data sections have relocation tables.

use super::places::{Made, MadeRow, Part};
use super::{junk, Wish};
use crate::generate::rng::Rng;
use crate::opening::{DATA, OVRFLO, TEXT};

/// What a field is changed by.
#[derive(Clone, Copy, PartialEq)]
pub enum Sort {
    Narrow,
    Wide,
    Branch,
}

impl Sort {
    pub fn length(self) -> u64 {
        match self {
            Sort::Wide => 8,
            _ => 4,
        }
    }

    /// `r_rsize`: the width less one, and any two bits above it.
    pub fn size(self, rng: &mut Rng) -> u64 {
        let width = match self {
            Sort::Narrow => 32,
            Sort::Wide => 64,
            Sort::Branch => 26,
        };
        rng.below(4) << 6 | (width - 1)
    }

    /// A type that has such a field.
    pub fn kind(self, rng: &mut Rng) -> u64 {
        match self {
            Sort::Branch => rng.pick(&[0x08, 0x18, 0x0A, 0x1A]),
            _ => rng.pick(&[0x00, 0x00, 0x0C, 0x0D, 0x01]),
        }
    }
}

/// Gives each text and data section a table, at the file's end.
pub(super) fn add_tables(rng: &mut Rng, made: &mut Made, wish: &Wish) {
    for n in made.sections_of(&[TEXT, DATA]) {
        let rows = rows(rng, made, n, wish);
        made.bytes.extend(junk(rng, 30, 6));
        made.add_rows(n, &rows);
        if rows.is_empty() && rng.chance(50) {
            made.put_part(n, Part::RelocationPointer, 0);
        }
    }
    made.bytes.extend(junk(rng, 30, 6));
    overflow_headers(rng, made);
    made.record_rows();
}

/// Rows of section `n`: on each of some fields one at least, and type 0F anywhere.
fn rows(rng: &mut Rng, made: &Made, n: u64, wish: &Wish) -> Vec<MadeRow> {
    let mut fields = fields(rng, made, n);
    let count = match wish.entries {
        _ if made.symbols.is_empty() => 0,
        Some(count) => count,
        None if wish.rich => fields.len() + rng.between(2, 5) as usize,
        None if rng.chance(15) => 0,
        None => rng.between(1, 10) as usize,
    };
    rng.shuffle(&mut fields);
    let mut all = Vec::new();
    for i in 0..count {
        let symbol = rng.pick(&made.symbols).index;
        let row = match fields.get(i) {
            Some(&field) => any_row(rng, field, symbol),
            None if fields.is_empty() || rng.chance(40) => reference_row(rng, symbol),
            None => {
                let field = rng.pick(&fields);
                any_row(rng, field, symbol)
            }
        };
        all.push(row);
    }
    rng.shuffle(&mut all);
    all
}

/// A row on this field.
pub fn any_row(rng: &mut Rng, (address, sort): (u64, Sort), symbol: u64) -> MadeRow {
    MadeRow {
        section: 0,
        at: 0,
        address,
        symbol,
        size: sort.size(rng),
        kind: sort.kind(rng),
    }
}

/// A row of type 0F: any address and size.
fn reference_row(rng: &mut Rng, symbol: u64) -> MadeRow {
    MadeRow {
        section: 0,
        at: 0,
        address: rng.next() >> rng.pick(&[0, 32]),
        symbol,
        size: rng.below(256),
        kind: 0x0F,
    }
}

/// Fields that share no byte, in the order of their addresses.
fn fields(rng: &mut Rng, made: &Made, n: u64) -> Vec<(u64, Sort)> {
    let (address, size) = (made.part(n, Part::Paddr), made.part(n, Part::Size));
    let mut all = Vec::new();
    let mut at = rng.below(5);
    loop {
        let sort = match rng.below(4) {
            0 if made.bits == 64 => Sort::Wide,
            0 | 1 => Sort::Narrow,
            _ => Sort::Branch,
        };
        if at + sort.length() > size {
            break;
        }
        all.push((address + at, sort));
        at += sort.length() + rng.pick(&[0, 0, 0, 1, 2, 5, 8]);
    }
    // Sometimes the last field ends with the section.
    if rng.chance(40) {
        if let Some((last, sort)) = all.last_mut() {
            *last = address + (size - sort.length());
        }
    }
    all
}

/// In XCOFF32 at times the count of one section is in an overflow header; the others
/// name no section.
fn overflow_headers(rng: &mut Rng, made: &mut Made) {
    let headers = made.sections_of(&[OVRFLO]);
    for &header in &headers {
        made.put_part(header, Part::RelocationCount, 0xFFFF);
    }
    let sections = made.sections_of(&[TEXT, DATA]);
    if made.bits == 32 && !headers.is_empty() && !sections.is_empty() && rng.chance(70) {
        let (n, header) = (rng.pick(&sections), rng.pick(&headers));
        overflow(made, n, header);
    }
}

/// Lets the overflow header count the rows of section `n`.
pub fn overflow(made: &mut Made, n: u64, header: u64) {
    let count = made.part(n, Part::RelocationCount);
    made.put_part(n, Part::RelocationCount, 65_535);
    made.put_part(header, Part::RelocationCount, n);
    made.put_part(header, Part::Paddr, count);
}
