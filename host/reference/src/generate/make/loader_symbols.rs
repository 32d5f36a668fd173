//! Import ids and loader symbols with their names.

use super::layout::Layout;
use super::names::{name_bytes, short_name};
use super::places::MadeLoaderSymbol;
use super::sections::Numbers;
use super::{junk, Wish};
use crate::bytes::{by, put};
use crate::generate::rng::Rng;

pub(super) struct ImportIds {
    pub count: u64,
    pub table: Vec<u8>,
}

/// Import ids: three strings each, perhaps more.
pub(super) fn import_ids(rng: &mut Rng, rich: bool) -> ImportIds {
    let count = if rich {
        rng.between(2, 4)
    } else {
        rng.between(0, 3)
    };
    let mut table = Vec::new();
    for _ in 0..3 * count {
        let length = rng.pick(&[0usize, 1, 3, 8, 12]);
        table.extend(name_bytes(rng, length));
        table.push(0);
    }
    table.extend(junk(rng, 20, 6));
    ImportIds { count, table }
}

pub(super) struct LoaderSymbols {
    pub all: Vec<MadeLoaderSymbol>,
    pub table: Vec<u8>,
    /// The string table.
    pub strings: Vec<u8>,
}

pub(super) fn loader_symbols(
    rng: &mut Rng,
    bits: u64,
    wish: &Wish,
    ids: u64,
    numbers: &Numbers,
    layout: &Layout,
) -> LoaderSymbols {
    let count = any_count(rng, wish);
    let mut names = Names {
        strings: Vec::new(),
        last: 0,
        rich: wish.rich,
        one: count >= 100,
    };
    let mut all = Vec::new();
    let mut table = Vec::new();
    for i in 0..count {
        let source = any_source(rng, wish.rich, i, ids, numbers);
        let value = any_value(rng, bits, layout);
        let kind = any_kind(rng, source.imported);
        let string = bits == 64 || (wish.rich && i < 2) || rng.chance(40);
        let mut entry = rng.bytes(24);
        put(&mut entry, by(bits, 8, 0), by(bits, 4, 8), value);
        if string {
            names.put_string(rng, bits, &mut entry);
        } else {
            entry[..8].copy_from_slice(&short_name(rng, 3));
        }
        put(&mut entry, 12, 2, source.section);
        put(&mut entry, 14, 1, kind);
        put(&mut entry, 16, 4, source.file_id);
        table.extend(entry);
        all.push(MadeLoaderSymbol {
            imported: source.imported,
            file_id: source.file_id,
            string,
            value,
        });
    }
    LoaderSymbols {
        all,
        table,
        strings: names.strings,
    }
}

fn any_count(rng: &mut Rng, wish: &Wish) -> usize {
    match wish.loader_symbols {
        Some(count) => count,
        None if wish.rich => rng.between(4, 7) as usize,
        None if rng.chance(20) => 0,
        None => rng.between(1, 6) as usize,
    }
}

/// Where a loader symbol comes from: an import id, or a section of the module.
struct Source {
    imported: bool,
    file_id: u64,
    section: u64,
}

/// Of a rich module's first four, two are imports, one from the plan and one
/// deferred, and two are defined, one in text and one in data.
fn any_source(rng: &mut Rng, rich: bool, i: usize, ids: u64, numbers: &Numbers) -> Source {
    let mut imported = rng.chance(55);
    let mut file_id = if ids > 1 && rng.chance(75) {
        rng.between(1, ids - 1)
    } else {
        0
    };
    let mut section = rng.pick(&[numbers.text, numbers.data, numbers.bss]);
    if rich && i < 4 {
        imported = i < 2;
        file_id = if i == 0 { rng.between(1, ids - 1) } else { 0 };
        section = [numbers.text, numbers.data][i % 2];
    }
    if imported {
        section = 0;
    } else {
        file_id = 0;
    }
    Source {
        imported,
        file_id,
        section,
    }
}

fn any_value(rng: &mut Rng, bits: u64, layout: &Layout) -> u64 {
    let value = match rng.below(4) {
        0 => 0,
        1 => layout.text_address.wrapping_add(rng.below(64)),
        2 => layout.data_address.wrapping_add(rng.below(64)),
        _ => rng.next(),
    };
    if bits == 32 {
        value & 0xFFFF_FFFF
    } else {
        value
    }
}

/// `l_smtype`: any bits that have no meaning, and a type that is allowed.
fn any_kind(rng: &mut Rng, imported: bool) -> u64 {
    let any = (rng.below(32) << 3) & 0xB8;
    any | if imported { 0x40 } else { 0 } | rng.below(4)
}

/// The string table while it grows.
struct Names {
    strings: Vec<u8>,
    /// Offset of the last name, 0 for none.
    last: usize,
    /// A name of its own for each symbol.
    rich: bool,
    /// One name for all.
    one: bool,
}

impl Names {
    /// Makes the entry's name a string of the table, at times the last one.
    fn put_string(&mut self, rng: &mut Rng, bits: u64, entry: &mut [u8]) {
        let shared = !self.rich && self.last != 0 && rng.chance(15);
        if !shared && (!self.one || self.strings.len() < 8) {
            self.add(rng);
        }
        if bits == 32 {
            put(entry, 0, 4, 0);
        }
        put(entry, by(bits, 4, 8), 4, self.last as u64);
    }

    fn add(&mut self, rng: &mut Rng) {
        if rng.chance(20) {
            self.strings.push(b'?');
        }
        let length = rng.pick(&[0usize, 1, 2, 8, 9, 15]);
        self.last = put_string(&mut self.strings, &name_bytes(rng, length));
        if !self.rich && rng.chance(10) {
            // An empty name whose length starts with the zero that
            // closes the name before it.
            self.strings.extend_from_slice(&[1, 0]);
            self.last = self.strings.len() - 1;
        }
    }
}

/// Adds a name with its two length bytes and closing zero; gives its offset.
fn put_string(strings: &mut Vec<u8>, name: &[u8]) -> usize {
    let length = name.len() as u16 + 1;
    strings.extend_from_slice(&length.to_be_bytes());
    let offset = strings.len();
    strings.extend_from_slice(name);
    strings.push(0);
    offset
}
