//! Places at the ends of what request 4 can name: a loader section that is empty, and a symbol table at the file's start.

use super::damage::{hurt, of_loader, rich_with, Hurt, Row};
use super::make::Part;
use super::plans::reveal_module;
use super::rng::Rng;
use super::Op;
use crate::{AUX, LOADER};

pub static ROWS: &[Row] = &[
    Row {
        name: "loader 0 without raw data",
        number: LOADER,
        make: |rng| empty_loader(rng, |_| 0),
    },
    Row {
        name: "loader 0 at the file's end",
        number: LOADER,
        make: |rng| empty_loader(rng, |length| length),
    },
    Row {
        name: "aux of the symbol at offset 0",
        number: AUX,
        make: symbol_at_0,
    },
];

/// A module whose loader section is empty; `pointer` gets the file's length.
fn empty_loader(rng: &mut Rng, pointer: fn(u64) -> u64) -> Option<Hurt> {
    let mut made = rich_with(rng, |_| ());
    let pointer = pointer(made.bytes.len() as u64);
    made.put(made.section_field(made.loader, Part::Size), 0);
    made.put(made.section_field(made.loader, Part::Pointer), pointer);
    let refusal = of_loader(&made, LOADER, 0)?;
    let op = reveal_module(rng, &made);
    Some(Hurt { made, op, refusal })
}

/// A symbol table that is the whole file: the low byte of `f_opthdr` is the number
/// of auxiliaries of symbol 0.
fn symbol_at_0(rng: &mut Rng) -> Option<Hurt> {
    let mut made = rich_with(rng, |wish| wish.opthdr = Some(255));
    let length = made.bytes.len().next_multiple_of(18);
    made.bytes.resize(length, 0);
    let count = length as u64 / 18;
    if count > 255 {
        return None;
    }
    made.put(made.symptr_field(), 0);
    made.put(made.nsyms_field(), count);
    made.symbols_at = 0;
    let op = rng.pick(&[Op::Symbol(0), Op::SymbolName(0), Op::Csect(0), Op::Walk]);
    hurt(made, op, AUX, 0)
}
