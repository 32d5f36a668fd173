//! The symbol table: entries, csects, and the string table after them.

use super::names::{name_bytes, short_name};
use super::places::MadeSymbol;
use super::Wish;
use crate::bytes::put;
use crate::generate::rng::Rng;
use crate::symbols::{CM, ER, LD, SD};

pub(super) struct SymbolTable {
    pub bytes: Vec<u8>,
    pub count: u64,
    pub symbols: Vec<MadeSymbol>,
    /// What follows the entries; nothing means the file ends there.
    pub tail: Vec<u8>,
    /// Length of the string table at the tail's start, 0 for none.
    pub strings_length: usize,
}

/// Symbol entries, csects and a string table.
pub(super) fn symbol_table(rng: &mut Rng, bits: u64, sections: u64, wish: &Wish) -> SymbolTable {
    let strings = if wish.rich || rng.chance(75) {
        Some(any_strings(rng))
    } else {
        None
    };
    let offsets = strings.as_ref().map_or(&[][..], |strings| &strings.offsets);
    let mut bytes = Vec::new();
    let mut symbols = Vec::new();
    for wanted in wanted_csects(rng, wish) {
        let index = bytes.len() as u64 / 18;
        let containers = containers(&symbols);
        let symbol = any_symbol(rng, wish, index, wanted, &containers);
        bytes.extend(entry(rng, bits, &symbol, sections, offsets));
        bytes.extend(auxiliaries(rng, bits, &symbol, &containers));
        symbols.push(symbol);
    }
    let (tail, strings_length) = match strings {
        Some(strings) => {
            let length = strings.bytes.len();
            (strings.bytes, length)
        }
        None => no_strings(rng, wish.symbols_last),
    };
    SymbolTable {
        count: bytes.len() as u64 / 18,
        bytes,
        symbols,
        tail,
        strings_length,
    }
}

struct Strings {
    /// The whole table with its length.
    bytes: Vec<u8>,
    /// Where names start.
    offsets: Vec<u64>,
}

fn any_strings(rng: &mut Rng) -> Strings {
    let mut bytes = vec![0u8; 4];
    let mut offsets = Vec::new();
    for _ in 0..rng.between(1, 6) {
        let at = bytes.len() as u64;
        let length = rng.between(0, 14) as usize;
        bytes.extend(name_bytes(rng, length));
        bytes.push(0);
        offsets.push(at);
        // Inside a string, or its closing zero.
        offsets.push(rng.between(at, at + length as u64));
    }
    if rng.chance(20) {
        // An open end after the last zero.
        bytes.extend_from_slice(b"open");
    }
    let length = bytes.len() as u64;
    put(&mut bytes, 0, 4, length);
    Strings { bytes, offsets }
}

/// What follows the entries where there are no strings, and its length as a
/// string table: a length of 0, a table of its length alone, or nothing.
fn no_strings(rng: &mut Rng, last: bool) -> (Vec<u8>, usize) {
    match rng.below(3) {
        0 if !last => (vec![0; 4], 0),
        1 if !last => (vec![0, 0, 0, 4], 4),
        _ => (Vec::new(), 0),
    }
}

/// The csect type of each symbol; none for a symbol without a csect.
fn wanted_csects(rng: &mut Rng, wish: &Wish) -> Vec<Option<u64>> {
    if wish.rich {
        return vec![
            Some(SD),
            Some(ER),
            Some(CM),
            Some(LD),
            None,
            Some(SD),
            Some(LD),
        ];
    }
    let some = rng.between(1, 9) as usize;
    let any = |_| match rng.below(7) {
        0 => Some(ER),
        1 | 2 => Some(SD),
        3 => Some(LD),
        4 => Some(CM),
        _ => None,
    };
    (0..wish.symbols.unwrap_or(some)).map(any).collect()
}

/// The symbols that an LD may point to.
fn containers(symbols: &[MadeSymbol]) -> Vec<u64> {
    symbols
        .iter()
        .filter(|symbol| symbol.csect == Some(SD))
        .map(|symbol| symbol.index)
        .collect()
}

/// A symbol of the wanted type; an ER where an LD has no container.
fn any_symbol(
    rng: &mut Rng,
    wish: &Wish,
    index: u64,
    wanted: Option<u64>,
    containers: &[u64],
) -> MadeSymbol {
    let csect = if wanted == Some(LD) && containers.is_empty() {
        Some(ER)
    } else {
        wanted
    };
    let class = match csect {
        Some(_) => rng.pick(&[2u64, 107, 111]),
        None => rng.pick(&[0u64, 3, 103, 103, 104, 108, 0x80, 0x8E, 255]),
    };
    let auxiliaries = match csect {
        _ if wish.symbols.is_some() && rng.chance(1) => rng.between(4, 255),
        Some(_) => rng.pick(&[1u64, 1, 1, 2, 3]),
        None => rng.pick(&[0u64, 0, 1, 2]),
    };
    MadeSymbol {
        index,
        class,
        auxiliaries,
        csect,
    }
}

/// A symbol's entry, without its auxiliaries.
pub(super) fn entry(
    rng: &mut Rng,
    bits: u64,
    symbol: &MadeSymbol,
    sections: u64,
    offsets: &[u64],
) -> Vec<u8> {
    let mut entry = rng.bytes(18);
    let offset = if offsets.is_empty() || rng.chance(10) {
        0
    } else {
        rng.pick(offsets)
    };
    if bits == 64 {
        put(&mut entry, 8, 4, offset);
    } else if rng.chance(50) {
        put(&mut entry, 0, 4, 0);
        put(&mut entry, 4, 4, offset);
    } else {
        entry[..8].copy_from_slice(&short_name(rng, 1));
    }
    let section = rng.between(0, sections + 2) as i64 - 2;
    put(&mut entry, 12, 2, section as u64);
    put(&mut entry, 16, 1, symbol.class);
    put(&mut entry, 17, 1, symbol.auxiliaries);
    entry
}

/// A symbol's auxiliaries; the last holds its csect.
pub(super) fn auxiliaries(
    rng: &mut Rng,
    bits: u64,
    symbol: &MadeSymbol,
    containers: &[u64],
) -> Vec<u8> {
    let mut all = Vec::new();
    for number in 1..=symbol.auxiliaries {
        let mut aux = rng.bytes(18);
        if rng.chance(50) {
            // Readable as an entry at times.
            put(&mut aux, 12, 2, rng.below(2));
            put(&mut aux, 17, 1, rng.below(2));
        }
        if let (Some(kind), true) = (symbol.csect, number == symbol.auxiliaries) {
            put_csect(rng, bits, &mut aux, kind, containers);
        }
        all.extend(aux);
    }
    all
}

/// Makes an auxiliary a csect entry of this type.
fn put_csect(rng: &mut Rng, bits: u64, aux: &mut [u8], kind: u64, containers: &[u64]) {
    let class = match kind {
        SD => rng.pick(&[0u64, 1, 5, 8, 10, 12, 13, 15, 16, 17, 18, 20, 21, 22]),
        CM => rng.pick(&[0u64, 9, 11, 13, 15, 18, 20, 22]),
        _ => rng.below(256),
    };
    put(aux, 10, 1, rng.below(32) << 3 | kind);
    put(aux, 11, 1, class);
    if kind == LD {
        put(aux, 0, 4, rng.pick(containers));
        if bits == 64 {
            put(aux, 12, 4, 0);
        }
    }
    if bits == 64 {
        put(aux, 17, 1, 251);
    }
}
