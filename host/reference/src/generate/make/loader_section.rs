//! The loader section: its header, and the order of its tables.

use super::layout::Layout;
use super::loader_symbols::{import_ids, loader_symbols};
use super::places::{head_field, Head, MadeEntry, MadeLoaderSymbol};
use super::relocations::relocations;
use super::sections::Numbers;
use super::{junk, Wish};
use crate::bytes::{by, put};
use crate::generate::rng::Rng;

/// The loader section with places inside it.
pub(super) struct LoaderSection {
    pub bytes: Vec<u8>,
    pub symbols_at: usize,
    pub symbols: Vec<MadeLoaderSymbol>,
    pub entries_at: usize,
    pub entries: Vec<MadeEntry>,
    pub ids_at: usize,
    pub ids_length: usize,
    pub ids: u64,
    pub strings_at: usize,
    pub strings_length: usize,
}

pub(super) fn loader_section(
    rng: &mut Rng,
    bits: u64,
    wish: &Wish,
    numbers: &Numbers,
    layout: &Layout,
) -> LoaderSection {
    let ids = import_ids(rng, wish.rich);
    let symbols = loader_symbols(rng, bits, wish, ids.count, numbers, layout);
    let entries = relocations(rng, bits, wish, symbols.all.len(), numbers, layout);
    let ids_length = ids.table.len();
    let strings_length = symbols.strings.len();
    let tables = [symbols.table, entries.table, ids.table, symbols.strings];
    let (bytes, places) = place_tables(rng, bits, &tables);
    let mut section = LoaderSection {
        bytes,
        symbols_at: places[0],
        symbols: symbols.all,
        entries_at: places[1],
        entries: entries.all,
        ids_at: places[2],
        ids_length,
        ids: ids.count,
        strings_at: places[3],
        strings_length,
    };
    section.lengthen_ids(rng);
    section.bytes.extend(junk(rng, 30, 6));
    section.put_header(rng, bits);
    section
}

/// The tables in any order after the header, and where each lies. In XCOFF32
/// symbols and entries follow the header at once.
fn place_tables(rng: &mut Rng, bits: u64, tables: &[Vec<u8>; 4]) -> (Vec<u8>, [usize; 4]) {
    let mut bytes = vec![0u8; by(bits, 32, 56)];
    let mut places = [0usize; 4];
    let mut order = [0, 1, 2, 3];
    if bits == 32 {
        rng.shuffle(&mut order[2..]);
    } else {
        rng.shuffle(&mut order);
    }
    for table in order {
        if !(bits == 32 && table < 2) {
            bytes.extend(junk(rng, 30, 6));
        }
        places[table] = bytes.len();
        bytes.extend_from_slice(&tables[table]);
    }
    (bytes, places)
}

impl LoaderSection {
    /// The id table may reach into what follows it.
    fn lengthen_ids(&mut self, rng: &mut Rng) {
        let end = self.ids_at + self.ids_length;
        if end < self.bytes.len() && rng.chance(10) {
            self.ids_length += rng.between(1, (self.bytes.len() - end) as u64) as usize;
        }
    }

    fn put_header(&mut self, rng: &mut Rng, bits: u64) {
        for (head, value) in [
            (Head::Version, rng.between(1, 2)),
            (Head::Symbols, self.symbols.len() as u64),
            (Head::Relocations, self.entries.len() as u64),
            (Head::IdLength, self.ids_length as u64),
            (Head::Ids, self.ids),
            (Head::StringLength, self.strings_length as u64),
            (
                Head::SymbolOffset,
                offset(rng, self.symbols_at, self.symbols.len()),
            ),
            (
                Head::RelocationOffset,
                offset(rng, self.entries_at, self.entries.len()),
            ),
            (Head::IdOffset, offset(rng, self.ids_at, self.ids_length)),
            (
                Head::StringOffset,
                offset(rng, self.strings_at, self.strings_length),
            ),
        ] {
            if let Some(field) = head_field(bits, head) {
                put(&mut self.bytes, field.at, field.length, value);
            }
        }
    }
}

/// A table's offset in the header; of an empty table anything.
fn offset(rng: &mut Rng, at: usize, length: usize) -> u64 {
    if length == 0 && rng.chance(60) {
        rng.next()
    } else {
        at as u64
    }
}
