//! Loader sections of which two tables share bytes, or none do and all lie side by
//! side.

use super::super::make::{self, Head, Made, Part, Wish};
use crate::bytes::{by, put};
use crate::generate::rng::Rng;

#[derive(Clone, Copy, Debug, PartialEq)]
pub(super) enum Inner {
    Header,
    Symbols,
    Relocations,
    Ids,
    Strings,
}

/// Start and length of each part, in the file.
fn places(made: &Made) -> Option<[(Inner, usize, usize); 5]> {
    let length = |head| Some(made.get(made.head(head)?) as usize);
    Some([
        (Inner::Header, made.loader_at, by(made.bits, 32, 56)),
        (
            Inner::Symbols,
            made.loader_symbols_at,
            24 * made.loader_symbols.len(),
        ),
        (
            Inner::Relocations,
            made.entries_at,
            by(made.bits, 12, 16) * made.entries.len(),
        ),
        (Inner::Ids, made.ids_at, length(Head::IdLength)?),
        (
            Inner::Strings,
            made.loader_strings_at,
            length(Head::StringLength)?,
        ),
    ])
}

fn heads(table: Inner) -> Option<(Head, Head)> {
    match table {
        Inner::Ids => Some((Head::IdOffset, Head::IdLength)),
        Inner::Strings => Some((Head::StringOffset, Head::StringLength)),
        _ => None,
    }
}

/// Ids or strings share bytes with another table, and with no other one.
pub(super) fn over(rng: &mut Rng, made: Made, table: Inner, other: Inner) -> Option<Made> {
    let made = match rng.below(3) {
        0 => over_the_next(made, table)?,
        1 => over_the_one_before(made, table)?,
        _ => inside(rng, made, table, other)?,
    };
    let (offset_head, length_head) = heads(table)?;
    let start = made.loader_at as u64 + made.get(made.head(offset_head)?);
    let end = start + made.get(made.head(length_head)?);
    let shared = |&&(this, at, length): &&(Inner, usize, usize)| {
        this != table && start.max(at as u64) < end.min((at + length) as u64)
    };
    let places = places(&made)?;
    let mut all = places.iter().filter(shared);
    match (all.next(), all.next()) {
        (Some(only), None) if only.0 == other => Some(made),
        _ => None,
    }
}

/// The table grows up to the first byte of the one that follows.
fn over_the_next(mut made: Made, table: Inner) -> Option<Made> {
    let places = places(&made)?;
    let &(_, start, length) = places.iter().find(|place| place.0 == table)?;
    let others = places.iter().filter(|p| p.0 != table && p.2 > 0);
    let next = others
        .map(|p| p.1)
        .filter(|&at| at >= start + length)
        .min()?;
    let (_, length_head) = heads(table)?;
    made.put(made.head(length_head)?, (next + 1 - start) as u64);
    Some(made)
}

/// The table begins with the last byte of the one before; names stay where they are.
fn over_the_one_before(mut made: Made, table: Inner) -> Option<Made> {
    let places = places(&made)?;
    let &(_, start, length) = places.iter().find(|place| place.0 == table)?;
    let others = places.iter().filter(|p| p.0 != table && p.2 > 0);
    let end = others
        .map(|p| p.1 + p.2)
        .filter(|&end| end <= start)
        .max()?;
    let more = start - (end - 1);
    let (offset_head, length_head) = heads(table)?;
    let offset = made.head(offset_head)?;
    made.put(offset, made.get(offset) - more as u64);
    made.put(made.head(length_head)?, (length + more) as u64);
    if table == Inner::Strings {
        for i in 0..made.loader_symbols.len() {
            if made.loader_symbols[i].string {
                let name = made.loader_name_offset(i) + more;
                made.set_loader_name_offset(i, name as u64);
            }
        }
    }
    Some(made)
}

/// The table, of a few bytes now, lies inside another one; nothing needs it any more.
fn inside(rng: &mut Rng, mut made: Made, table: Inner, other: Inner) -> Option<Made> {
    match table {
        Inner::Ids => {
            made.put(made.head(Head::Ids)?, 0);
            for i in 0..made.loader_symbols.len() {
                let at = made.loader_symbol_at(i) + 16;
                put(&mut made.bytes, at, 4, 0);
                made.loader_symbols[i].file_id = 0;
            }
        }
        Inner::Strings if made.bits == 32 => {
            for i in 0..made.loader_symbols.len() {
                let at = made.loader_symbol_at(i);
                made.bytes[at..at + 8].copy_from_slice(b"short\0\0\0");
                made.loader_symbols[i].string = false;
            }
        }
        _ => return None,
    }
    let places = places(&made)?;
    let &(_, start, length) = places.iter().find(|place| place.0 == other)?;
    let (offset_head, length_head) = heads(table)?;
    let count = rng.between(1, 3);
    let at = start as u64 + rng.between(0, length as u64 - count);
    made.put(made.head(length_head)?, count);
    made.put(made.head(offset_head)?, at - made.loader_at as u64);
    Some(made)
}

/// An XCOFF64 module whose loader section is put together anew at the file's end: its
/// tables side by side, in any order. Where two are named, the last byte of the first
/// one is the first byte of the second one.
pub(super) fn rebuilt(rng: &mut Rng, shared: Option<(Inner, Inner)>) -> Option<Made> {
    let wish = Wish {
        bits: Some(64),
        rich: true,
        low: true,
        ..Wish::default()
    };
    let mut made = make::module(rng, &wish);
    if shared == Some((Inner::Header, Inner::Relocations)) {
        // The first byte of an address is the last one of the header.
        move_up(&mut made, 0x3700_0000_0000_0000);
    }
    let source = made.clone();
    let bytes = |table: Inner| {
        let places = places(&source)?;
        let &(_, start, length) = places.iter().find(|place| place.0 == table)?;
        Some(source.bytes[start..start + length].to_vec())
    };
    made.loader_at = made.bytes.len();
    made.bytes.extend(bytes(Inner::Header)?);
    let mut before = Inner::Header;
    for table in any_order(rng, shared)? {
        let bytes = bytes(table)?;
        let common = usize::from(shared == Some((before, table)));
        let start = made.bytes.len() - common;
        let last = made.bytes[made.bytes.len() - 1];
        made.bytes.truncate(start);
        made.bytes.extend(bytes);
        if common > 0 && before == Inner::Relocations {
            // An entry's symbol stays, a symbol's value is any.
            made.bytes[start] = last;
        }
        let offset = (start - made.loader_at) as u64;
        let head = match table {
            Inner::Header => return None,
            Inner::Symbols => {
                made.loader_symbols_at = start;
                Head::SymbolOffset
            }
            Inner::Relocations => {
                made.entries_at = start;
                Head::RelocationOffset
            }
            Inner::Ids => {
                made.ids_at = start;
                Head::IdOffset
            }
            Inner::Strings => {
                made.loader_strings_at = start;
                Head::StringOffset
            }
        };
        made.put(made.head(head)?, offset);
        before = table;
    }
    made.put_part(made.loader, Part::Pointer, made.loader_at as u64);
    made.stretch_loader();
    Some(made)
}

fn any_order(rng: &mut Rng, shared: Option<(Inner, Inner)>) -> Option<Vec<Inner>> {
    let mut order = vec![
        Inner::Symbols,
        Inner::Relocations,
        Inner::Ids,
        Inner::Strings,
    ];
    rng.shuffle(&mut order);
    if let Some((one, other)) = shared {
        order.retain(|&table| table != other);
        let at = match one {
            Inner::Header => 0,
            _ => order.iter().position(|&table| table == one)? + 1,
        };
        order.insert(at, other);
    }
    Some(order)
}

/// Moves text, data and bss up, with all that says where they lie.
fn move_up(made: &mut Made, by: u64) {
    for n in [made.text, made.data, made.bss] {
        let address = made.part(n, Part::Paddr) + by;
        made.put_address(n, address);
    }
    for aux in [make::Aux::TextStart, make::Aux::DataStart] {
        let field = made.aux(aux);
        made.put(field, made.get(field) + by);
    }
    for i in 0..made.entries.len() {
        let field = made.entry_address_field(i);
        made.put(field, made.get(field) + by);
        made.entries[i].address += by;
    }
    made.text_address += by;
    made.data_address += by;
}
