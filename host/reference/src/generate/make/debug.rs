//! The debug section: strings with their lengths, and symbols whose names lie
//! in it. It is drawn aside, so that the rest of the file stays as it is.

use super::names::name_bytes;
use super::places::MadeSymbol;
use super::sections::Piece;
use super::symbol_table::{auxiliaries, entry, SymbolTable};
use super::{junk, Wish};
use crate::bytes::{by, number, put};
use crate::generate::rng::Rng;
use crate::opening::DEBUG;
use crate::symbols::is_debug_class;

/// Storage classes with bit 80, of 002 and others.
pub const DEBUG_CLASSES: [u64; 12] = [
    0x80, 0x80, 0x81, 0x82, 0x84, 0x85, 0x8C, 0x8E, 0x90, 0xC2, 0xEB, 0xFF,
];

/// The one debug section with raw data.
#[derive(Default)]
pub(super) struct DebugSection {
    /// Its number; 0 for none.
    pub number: u64,
    /// Where its strings start, past their lengths.
    pub names: Vec<u64>,
}

/// Gives the file a debug section, most times, and all entries with a debug class
/// names that are good.
pub(super) fn debug_section(
    side: &mut Rng,
    bits: u64,
    wish: &Wish,
    pieces: &mut Vec<Piece>,
    symbols: Option<&mut SymbolTable>,
) -> DebugSection {
    let section = match only_section(side, wish, pieces) {
        Some(i) => filled(side, bits, &mut pieces[i], i as u64 + 1),
        None => DebugSection::default(),
    };
    if let Some(table) = symbols {
        for symbol in &table.symbols {
            name_in_section(side, bits, symbol, &mut table.bytes, &section.names);
        }
        if section.number != 0 && (wish.debug || side.chance(60)) {
            add_symbols(side, bits, table, pieces.len() as u64, &section.names);
        }
    }
    section
}

/// The place of the one debug section with raw data, where there is just one.
fn only_section(side: &mut Rng, wish: &Wish, pieces: &mut Vec<Piece>) -> Option<usize> {
    let mut all: Vec<usize> = (0..pieces.len())
        .filter(|&i| pieces[i].flags == DEBUG && pieces[i].raw.is_some())
        .collect();
    let room = wish.sections.is_none() && pieces.len() < 32;
    if all.is_empty() && room && (wish.debug || side.chance(50)) {
        all.push(pieces.len());
        pieces.push(Piece::added(DEBUG));
    }
    if all.len() > 1 && (wish.debug || side.chance(60)) {
        // The others stay debug sections, without raw data.
        let only = side.pick(&all);
        for &other in all.iter().filter(|&&other| other != only) {
            pieces[other].raw = None;
        }
        all = vec![only];
    }
    match all[..] {
        [only] => Some(only),
        _ => None,
    }
}

/// Puts strings with their lengths into the section.
fn filled(side: &mut Rng, bits: u64, piece: &mut Piece, number: u64) -> DebugSection {
    let prefix = by(bits, 2, 4);
    let mut bytes = junk(side, 30, 6);
    let mut names = Vec::new();
    for _ in 0..side.between(1, 6) {
        let length = side.between(0, 14) as usize;
        let mut string = name_bytes(side, length);
        if length > 0 && side.chance(20) {
            string[side.below(length as u64) as usize] = 0;
        }
        let at = bytes.len();
        bytes.resize(at + prefix, 0);
        put(&mut bytes, at, prefix, length as u64);
        names.push(bytes.len() as u64);
        bytes.extend(string);
        bytes.extend(junk(side, 15, 3));
    }
    bytes.extend(junk(side, 30, 8));
    piece.size = bytes.len() as u64;
    piece.raw = Some(bytes);
    DebugSection { number, names }
}

/// An entry of a debug class whose name is by offset gets one of these; the empty
/// name where there are none.
fn name_in_section(
    side: &mut Rng,
    bits: u64,
    symbol: &MadeSymbol,
    table: &mut [u8],
    names: &[u64],
) {
    let at = 18 * symbol.index as usize;
    let short = bits == 32 && number(table, at, 4) != 0;
    if !is_debug_class(symbol.class) || short {
        return;
    }
    let offset = if names.is_empty() || side.chance(10) {
        0
    } else {
        side.pick(names)
    };
    put(table, at + by(bits, 4, 8), 4, offset);
}

/// Some more symbols, all of a debug class, at the table's end.
fn add_symbols(side: &mut Rng, bits: u64, table: &mut SymbolTable, sections: u64, names: &[u64]) {
    for _ in 0..side.between(1, 4) {
        let symbol = MadeSymbol {
            index: table.count,
            class: side.pick(&DEBUG_CLASSES),
            auxiliaries: side.pick(&[0, 0, 0, 1]),
            csect: None,
        };
        let entry = entry(side, bits, &symbol, sections, names);
        table.bytes.extend(entry);
        table.bytes.extend(auxiliaries(side, bits, &symbol, &[]));
        table.count += 1 + symbol.auxiliaries;
        table.symbols.push(symbol);
    }
}
