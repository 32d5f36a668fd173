//! Makes whole files, valid ones, and remembers where everything was put.

mod assemble;
mod aux_header;
mod debug;
mod layout;
pub mod line_tables;
pub mod linkable;
mod loader_section;
mod loader_symbols;
mod names;
mod places;
mod relocations;
mod sections;
mod symbol_table;
mod version;

pub use crate::bytes::top;
pub use debug::DEBUG_CLASSES;
pub use layout::fitting_address;
pub use places::{
    aux_field, head_field, Aux, Field, Head, Made, MadeEntry, MadeLine, MadeLoaderSymbol, MadeRow,
    MadeSymbol, Part, RowPart,
};

use super::rng::Rng;
use crate::bytes::by;
use crate::opening::INFO;
use assemble::assemble;
use aux_header::aux_header;
use debug::debug_section;
use layout::Layout;
use line_tables::add_line_tables;
use linkable::add_tables;
use loader_section::loader_section;
use sections::{linkable_pieces, module_kinds, module_pieces, object_pieces, Numbers, Piece};
use symbol_table::{symbol_table, SymbolTable};
use version::version;

/// What a module or object should have; the rest is left to chance.
#[derive(Clone, Default)]
pub struct Wish {
    pub bits: Option<u64>,
    /// Some of everything.
    pub rich: bool,
    /// Text, data and bss of size 0.
    pub empty: bool,
    /// Text and data addresses far below the top.
    pub low: bool,
    /// The symbol table ends the file.
    pub symbols_last: bool,
    pub opthdr: Option<usize>,
    /// Sections in all.
    pub sections: Option<usize>,
    /// Symbol entries, auxiliaries not counted.
    pub symbols: Option<usize>,
    pub loader_symbols: Option<usize>,
    pub entries: Option<usize>,
    /// Text and data of some thousand bytes.
    pub large: bool,
    /// Text and data of some hundred thousand bytes.
    pub huge: bool,
    /// Length of the whole data image, reached by bss.
    pub image: Option<u64>,
    /// Further sections of these kinds.
    pub kinds: Vec<u64>,
    /// No section of this kind.
    pub without: Option<u64>,
    /// Lines for every text section of an object.
    pub lines: bool,
    /// Just one debug section with raw data, where there is room for one.
    pub debug: bool,
    /// The auxiliary header's version, where it is long enough.
    pub version: Option<u64>,
}

/// A low module of each format with some of everything, for tests of places.
pub fn both_formats(change: fn(&mut Wish)) -> [Made; 2] {
    [32, 64].map(|bits| {
        let mut wish = Wish {
            bits: Some(bits),
            rich: true,
            low: true,
            kinds: vec![INFO],
            ..Wish::default()
        };
        change(&mut wish);
        module(&mut Rng::new(4), &wish)
    })
}

/// A valid module.
pub fn module(rng: &mut Rng, wish: &Wish) -> Made {
    let bits = any_bits(rng, wish);
    let layout = Layout::any(rng, bits, wish);
    let kinds = module_kinds(rng, wish);
    let numbers = Numbers::of(&kinds);
    let loader = loader_section(rng, bits, wish, &numbers, &layout);
    let mut pieces = module_pieces(rng, bits, &kinds, &layout, &loader.bytes);
    let mut aux = aux_header(rng, bits, wish, &numbers, &layout);
    let mut symbols = if wish.rich || rng.chance(60) {
        Some(symbol_table(rng, bits, kinds.len() as u64, wish))
    } else {
        None
    };
    let side = &mut rng.aside();
    let debug = debug_section(side, bits, wish, &mut pieces, symbols.as_mut());
    version(side, bits, wish, &mut aux, symbols.as_mut());
    let mut made = assemble(rng, side, bits, aux, pieces, symbols, wish.symbols_last);
    made.text = numbers.text;
    made.data = numbers.data;
    made.bss = numbers.bss;
    made.loader = numbers.loader;
    made.text_address = layout.text_address;
    made.text_size = layout.text_size;
    made.data_address = layout.data_address;
    made.data_size = layout.data_size;
    made.image = layout.image;
    made.record_aux_header();
    if made.loader != 0 {
        made.record_loader(loader);
    }
    made.record_debug(debug);
    made
}

/// An object-like file: sections of any kinds, no module.
pub fn object(rng: &mut Rng, wish: &Wish) -> Made {
    let bits = any_bits(rng, wish);
    let count = match wish.sections {
        Some(count) => count as u64,
        None if rng.chance(5) => rng.between(0, 32),
        None => rng.between(0, 7),
    };
    let pieces = object_pieces(rng, bits, count);
    let aux = object_aux(rng, bits, wish);
    let symbols = if wish.rich || rng.chance(85) {
        Some(symbol_table(rng, bits, count, wish))
    } else {
        None
    };
    together(rng, bits, wish, pieces, aux, symbols)
}

/// An object whose text and data sections have relocation tables, and text sections
/// line tables.
pub fn linkable(rng: &mut Rng, wish: &Wish) -> Made {
    let bits = any_bits(rng, wish);
    let pieces = linkable_pieces(rng, bits, wish);
    let aux = object_aux(rng, bits, wish);
    let symbols = if wish.rich || rng.chance(90) {
        Some(closed_table(rng, bits, pieces.len() as u64, wish))
    } else {
        None
    };
    let mut made = together(rng, bits, wish, pieces, aux, symbols);
    add_tables(rng, &mut made, wish);
    add_line_tables(&mut rng.aside(), &mut made, wish);
    made
}

/// A symbol table that isn't open at its end: more may follow it.
fn closed_table(rng: &mut Rng, bits: u64, sections: u64, wish: &Wish) -> SymbolTable {
    loop {
        let table = symbol_table(rng, bits, sections, wish);
        if !table.tail.is_empty() {
            return table;
        }
    }
}

/// An object's auxiliary header: any bytes.
fn object_aux(rng: &mut Rng, bits: u64, wish: &Wish) -> Vec<u8> {
    let opthdr = match wish.opthdr {
        Some(opthdr) => opthdr,
        None => rng.pick(&[0, 0, 0, 4, 28, 28, by(bits, 72, 110), 130]),
    };
    rng.bytes(opthdr)
}

/// An object of these parts; what belongs to requests 1 and 9 is drawn aside.
fn together(
    rng: &mut Rng,
    bits: u64,
    wish: &Wish,
    mut pieces: Vec<Piece>,
    mut aux: Vec<u8>,
    mut symbols: Option<SymbolTable>,
) -> Made {
    let side = &mut rng.aside();
    let debug = debug_section(side, bits, wish, &mut pieces, symbols.as_mut());
    version(side, bits, wish, &mut aux, symbols.as_mut());
    let mut made = assemble(rng, side, bits, aux, pieces, symbols, wish.symbols_last);
    made.record_debug(debug);
    made
}

fn any_bits(rng: &mut Rng, wish: &Wish) -> u64 {
    wish.bits.unwrap_or_else(|| rng.pick(&[32, 64]))
}

/// In `percent` of 100 up to `most` bytes, else none.
fn junk(rng: &mut Rng, percent: u64, most: u64) -> Vec<u8> {
    if !rng.chance(percent) {
        return Vec::new();
    }
    let count = rng.between(1, most) as usize;
    rng.bytes(count)
}
