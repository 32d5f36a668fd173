//! Headers, raw data and symbols become one file.

use super::junk;
use super::places::{Made, Part};
use super::sections::Piece;
use super::symbol_table::SymbolTable;
use crate::bytes::{by, put};
use crate::generate::rng::Rng;

/// What lies after the headers.
#[derive(Clone, Copy, PartialEq)]
enum Chunk {
    /// Raw data of the piece with this place, from 0.
    Section(usize),
    Symbols,
}

/// Puts headers, raw data and symbols together. What belongs to an added piece is
/// drawn aside.
pub(super) fn assemble(
    rng: &mut Rng,
    side: &mut Rng,
    bits: u64,
    aux: Vec<u8>,
    mut pieces: Vec<Piece>,
    symbols: Option<SymbolTable>,
    symbols_last: bool,
) -> Made {
    let mut made = headers(rng, side, bits, &aux, &pieces);
    // A symbol table without anything after it may only end the file.
    let open_end = matches!(&symbols, Some(table) if table.tail.is_empty());
    let last = open_end || symbols_last;
    let mut order = chunks(rng, &pieces, symbols.is_some(), last);
    add_chunks(side, &pieces, &mut order, last && symbols.is_some());
    for chunk in order {
        let source = match chunk {
            Chunk::Section(i) if pieces[i].added => &mut *side,
            _ => &mut *rng,
        };
        made.bytes.extend(junk(source, 30, 7));
        match chunk {
            Chunk::Section(i) => place_raw(&mut made, &mut pieces[i]),
            Chunk::Symbols => place_symbols(&mut made, symbols.as_ref()),
        }
    }
    if !last {
        made.bytes.extend(junk(rng, 30, 40));
    }
    for (i, piece) in pieces.iter().enumerate() {
        let source = if piece.added { &mut *side } else { &mut *rng };
        put_section_header(source, &mut made, i as u64 + 1, piece);
    }
    put_symbol_count(rng, &mut made, symbols);
    made.record_file_header();
    made
}

/// The file header but for the symbols, the auxiliary header, and room for the
/// section headers; junk in what nobody sets.
fn headers(rng: &mut Rng, side: &mut Rng, bits: u64, aux: &[u8], pieces: &[Piece]) -> Made {
    let mut made = Made {
        bits,
        opthdr: aux.len(),
        flags: pieces.iter().map(|piece| piece.flags).collect(),
        ..Made::default()
    };
    let end = made.headers_end();
    let added = pieces.iter().filter(|piece| piece.added).count() * by(bits, 40, 72);
    made.bytes = if rng.chance(50) {
        let mut junk = rng.bytes(end - added);
        junk.extend(side.bytes(added));
        junk
    } else {
        vec![0; end]
    };
    let header = made.header();
    made.bytes[header..header + aux.len()].copy_from_slice(aux);
    let magic = if bits == 32 { 0x01DF } else { 0x01F7 };
    put(&mut made.bytes, 0, 2, magic);
    made.put(made.section_count_field(), pieces.len() as u64);
    made.put(made.opthdr_field(), aux.len() as u64);
    made
}

/// The chunks in any order, the symbols often and if asked for last.
fn chunks(rng: &mut Rng, pieces: &[Piece], symbols: bool, symbols_last: bool) -> Vec<Chunk> {
    let mut order: Vec<Chunk> = Vec::new();
    for (i, piece) in pieces.iter().enumerate() {
        if piece.raw.is_some() && !piece.added {
            order.push(Chunk::Section(i));
        }
    }
    rng.shuffle(&mut order);
    if symbols {
        let at = if symbols_last || rng.chance(70) {
            order.len()
        } else {
            rng.below(order.len() as u64 + 1) as usize
        };
        order.insert(at, Chunk::Symbols);
    }
    order
}

/// Puts the raw data of added pieces anywhere between the others.
fn add_chunks(side: &mut Rng, pieces: &[Piece], order: &mut Vec<Chunk>, symbols_last: bool) {
    for (i, piece) in pieces.iter().enumerate() {
        if piece.added && piece.raw.is_some() {
            let places = order.len() as u64 + u64::from(!symbols_last);
            order.insert(side.below(places) as usize, Chunk::Section(i));
        }
    }
}

/// Adds a piece's raw data, to which its pointer then leads.
fn place_raw(made: &mut Made, piece: &mut Piece) {
    if let Some(raw) = &piece.raw {
        piece.pointer = made.bytes.len() as u64;
        made.bytes.extend_from_slice(raw);
    }
}

fn place_symbols(made: &mut Made, symbols: Option<&SymbolTable>) {
    if let Some(table) = symbols {
        made.symbols_at = made.bytes.len();
        made.bytes.extend_from_slice(&table.bytes);
        made.strings_at = made.bytes.len();
        made.strings_length = table.strings_length;
        made.bytes.extend_from_slice(&table.tail);
    }
}

/// The header of section `n`, named after its kind most times.
fn put_section_header(rng: &mut Rng, made: &mut Made, n: u64, piece: &Piece) {
    let mut name = vec![b'.'];
    let word = crate::opening::kind_word(piece.flags & 0xFFFF);
    name.extend(word.bytes().take(7));
    name.resize(8, 0);
    if rng.chance(5) {
        name = rng.bytes(8);
    }
    let at = made.section_at(n);
    made.bytes[at..at + 8].copy_from_slice(&name);
    for (part, value) in [
        (Part::Paddr, piece.paddr),
        (Part::Vaddr, piece.vaddr),
        (Part::Size, piece.size),
        (Part::Pointer, piece.pointer),
        (Part::Flags, piece.flags),
    ] {
        let field = made.section_field(n, part);
        made.put(field, value);
        made.fields.push(field);
    }
}

/// The symbols' place and count in the file header; without symbols any place.
fn put_symbol_count(rng: &mut Rng, made: &mut Made, symbols: Option<SymbolTable>) {
    let (at, count) = match &symbols {
        Some(table) => (made.symbols_at as u64, table.count),
        None if rng.chance(50) => (0, 0),
        None => (rng.next(), 0),
    };
    made.put(made.symptr_field(), at);
    made.put(made.nsyms_field(), count);
    if let Some(table) = symbols {
        made.symbol_count = table.count;
        made.symbols = table.symbols;
        made.record_symbols();
        if !table.tail.is_empty() {
            made.record_strings();
        }
    }
}
