//! Moved modules as files, request 8: operations, damages and accepted edges.

mod layout;
mod loader;

use super::damage::{hurt, rich_with, row, spoil, wrong_length, Hurt, Row};
use super::make::{self, Aux, Made, Part, Wish};
use super::plans::{any_plan, fitting_plan};
use super::rng::Rng;
use super::{Edge, Op};
use crate::bytes::put;
use crate::opening::{DEBUG, INFO};
use crate::rewrite::shared_parts;
use crate::{PLAN, ROOM, SHARED};
use layout::{laid_out, Piece};
use loader::{over, rebuilt, Inner};

pub static ROWS: &[Row] = &[
    row("write: room 2 list", ROOM, |rng| hurt_plan(rng, 0)),
    row("write: plan text", PLAN, |rng| hurt_plan(rng, 1)),
    row("write: plan data", PLAN, |rng| hurt_plan(rng, 2)),
    row("write: plan import", PLAN, |rng| hurt_plan(rng, 3)),
    row("write: room 0 output", ROOM, |rng| {
        let made = apart(rng)?;
        let plan = fitting_plan(rng, &made);
        let mut out = rng.bytes(made.bytes.len());
        wrong_length(rng, &mut out);
        hurt(made, Op::WriteModule { plan, out }, ROOM, 0)
    }),
    // Two parts of the file share some bytes, and no others do.
    row("shared: headers and text", SHARED, |rng| {
        shared(rng, Piece::Headers, Piece::Text)
    }),
    row("shared: headers and data", SHARED, |rng| {
        shared(rng, Piece::Headers, Piece::Data)
    }),
    row("shared: headers and loader section", SHARED, |rng| {
        shared(rng, Piece::Headers, Piece::Loader)
    }),
    row("shared: headers and symbols", SHARED, |rng| {
        shared(rng, Piece::Headers, Piece::Symbols)
    }),
    row("shared: text and data", SHARED, |rng| {
        either_way(rng, Piece::Text, Piece::Data)
    }),
    row("shared: text and loader section", SHARED, |rng| {
        either_way(rng, Piece::Text, Piece::Loader)
    }),
    row("shared: data and loader section", SHARED, |rng| {
        either_way(rng, Piece::Data, Piece::Loader)
    }),
    row("shared: text and symbols", SHARED, |rng| {
        shared(rng, Piece::Text, Piece::Symbols)
    }),
    row("shared: data and symbols", SHARED, |rng| {
        shared(rng, Piece::Data, Piece::Symbols)
    }),
    row("shared: loader section and symbols", SHARED, |rng| {
        shared(rng, Piece::Loader, Piece::Symbols)
    }),
    row("shared: strings and text", SHARED, |rng| {
        shared(rng, Piece::Symbols, Piece::Text)
    }),
    row("shared: strings and data", SHARED, |rng| {
        shared(rng, Piece::Symbols, Piece::Data)
    }),
    row("shared: strings and loader section", SHARED, |rng| {
        shared(rng, Piece::Symbols, Piece::Loader)
    }),
    row("shared: a string length of 0", SHARED, |rng| {
        let next = rng.pick(&[Piece::Text, Piece::Data, Piece::Loader]);
        let source = without_strings(rng);
        let made = laid_out(rng, &source, Some((Piece::Symbols, next, 1)))?;
        written(rng, made)
    }),
    row("shared: one inside another", SHARED, |rng| {
        let mut made = laid_out_plainly(rng)?;
        // Text or data of few bytes in the middle of what has more.
        let n = rng.pick(&[made.text, made.data]);
        let size = made.part(n, Part::Size) as usize;
        let (start, length) = rng.pick(&[
            (made.loader_at, made.loader_size),
            (made.symbols_at, 18 * made.symbol_count as usize),
        ]);
        if length < size + 2 {
            return None;
        }
        let at = start + rng.between(1, (length - size - 1) as u64) as usize;
        made.put_part(n, Part::Pointer, at as u64);
        written(rng, made)
    }),
    // Two parts of the loader section.
    row("shared: ids and loader header", SHARED, |rng| {
        in_loader(rng, Inner::Ids, Inner::Header)
    }),
    row("shared: ids and loader symbols", SHARED, |rng| {
        in_loader(rng, Inner::Ids, Inner::Symbols)
    }),
    row("shared: ids and relocations", SHARED, |rng| {
        in_loader(rng, Inner::Ids, Inner::Relocations)
    }),
    row("shared: ids and loader strings", SHARED, |rng| {
        in_loader(rng, Inner::Ids, Inner::Strings)
    }),
    row("shared: loader strings and loader header", SHARED, |rng| {
        in_loader(rng, Inner::Strings, Inner::Header)
    }),
    row("shared: loader strings and loader symbols", SHARED, |rng| {
        in_loader(rng, Inner::Strings, Inner::Symbols)
    }),
    row("shared: loader strings and relocations", SHARED, |rng| {
        in_loader(rng, Inner::Strings, Inner::Relocations)
    }),
    row("shared: loader header and symbols", SHARED, |rng| {
        let made = rebuilt(rng, Some((Inner::Header, Inner::Symbols)))?;
        written(rng, made)
    }),
    row("shared: loader header and relocations", SHARED, |rng| {
        let made = rebuilt(rng, Some((Inner::Header, Inner::Relocations)))?;
        written(rng, made)
    }),
    row("shared: loader symbols and relocations", SHARED, |rng| {
        let made = rebuilt(rng, Some((Inner::Symbols, Inner::Relocations)))?;
        written(rng, made)
    }),
    row("shared: relocations and loader symbols", SHARED, |rng| {
        let made = rebuilt(rng, Some((Inner::Relocations, Inner::Symbols)))?;
        written(rng, made)
    }),
];

fn module(rng: &mut Rng) -> Made {
    rich_with(rng, |_| ())
}

/// A module of which no two parts share bytes.
fn apart(rng: &mut Rng) -> Option<Made> {
    Some(module(rng)).filter(|made| shared_parts(&made.bytes).is_empty())
}

/// A module to be laid out anew; its last section header ends with a zero.
fn source(rng: &mut Rng) -> Made {
    rich_with(rng, |wish| wish.low = true)
}

/// The same with a string length of 0.
fn without_strings(rng: &mut Rng) -> Made {
    let mut source = source(rng);
    source.strings_length = 0;
    let at = source.strings_at;
    put(&mut source.bytes, at, 4, 0);
    source
}

fn laid_out_plainly(rng: &mut Rng) -> Option<Made> {
    let source = source(rng);
    laid_out(rng, &source, None)
}

/// The end of one and the start of the other share some bytes.
fn shared(rng: &mut Rng, one: Piece, other: Piece) -> Option<Hurt> {
    let source = source(rng);
    let count = rng.pick(&[1, 1, 1, 2, 3]);
    let made = laid_out(rng, &source, Some((one, other, count)))?;
    written(rng, made)
}

fn either_way(rng: &mut Rng, one: Piece, other: Piece) -> Option<Hurt> {
    if rng.chance(50) {
        shared(rng, one, other)
    } else {
        shared(rng, other, one)
    }
}

/// Two tables of the loader section share bytes.
fn in_loader(rng: &mut Rng, table: Inner, other: Inner) -> Option<Hurt> {
    let made = apart(rng)?;
    let made = over(rng, made, table, other)?;
    written(rng, made)
}

/// SHARED, and perhaps a wrong output besides.
fn written(rng: &mut Rng, made: Made) -> Option<Hurt> {
    let plan = fitting_plan(rng, &made);
    let mut out = rng.bytes(made.bytes.len());
    if rng.chance(30) {
        wrong_length(rng, &mut out);
    }
    hurt(made, Op::WriteModule { plan, out }, SHARED, 0)
}

/// Problem `aim` of the plan, before all others.
fn hurt_plan(rng: &mut Rng, aim: u64) -> Option<Hurt> {
    let mut made = if aim == 3 {
        rich_with(rng, |wish| wish.bits = Some(32))
    } else {
        module(rng)
    };
    let mut plan = fitting_plan(rng, &made);
    let (mut text, mut data) = (vec![0; 1], vec![0; 1]);
    let item = spoil(rng, &made, &mut plan, &mut text, &mut data, aim)?;
    let mut out = rng.bytes(made.bytes.len());
    if rng.chance(40) {
        let pointer = made.part(made.data, Part::Pointer);
        if pointer + made.text_size <= made.bytes.len() as u64 {
            made.put_part(made.text, Part::Pointer, pointer);
        }
    }
    if rng.chance(40) {
        wrong_length(rng, &mut out);
    }
    let number = if aim == 0 { ROOM } else { PLAN };
    hurt(made, Op::WriteModule { plan, out }, number, item)
}

pub(super) static EDGES: &[Edge] = &[
    ("module written", |rng| {
        let made = module(rng);
        with_ops(rng, made)
    }),
    ("parts side by side", |rng| {
        let made = laid_out_plainly(rng)?;
        with_ops(rng, made)
    }),
    ("a string length of 0", |rng| {
        let source = without_strings(rng);
        let made = laid_out(rng, &source, None)?;
        with_ops(rng, made)
    }),
    ("loader tables side by side", |rng| {
        let made = rebuilt(rng, None)?;
        with_ops(rng, made)
    }),
    ("empty text and data anywhere", |rng| {
        let wish = Wish {
            empty: true,
            low: rng.chance(50),
            ..Wish::default()
        };
        let mut made = make::module(rng, &wish);
        let length = made.bytes.len() as u64;
        let inside = [1, 30, made.loader_at as u64 + 1];
        made.put_part(made.text, Part::Pointer, rng.pick(&inside));
        made.put_part(made.data, Part::Pointer, rng.pick(&[1, 30, length, 0]));
        with_ops(rng, made)
    }),
    ("another section over all", |rng| {
        let mut made = rich_with(rng, |wish| wish.kinds = vec![INFO]);
        let length = made.bytes.len() as u64;
        for n in made.sections_of(&[INFO, DEBUG]) {
            made.put_part(n, Part::Pointer, 1);
            made.put_part(n, Part::Size, length - 1);
        }
        with_ops(rng, made)
    }),
    ("symbols up to the file's end", |rng| {
        let wish = Wish {
            rich: true,
            symbols_last: true,
            ..Wish::default()
        };
        let mut made = make::module(rng, &wish);
        made.bytes.truncate(made.strings_at);
        made.strings_length = 0;
        with_ops(rng, made)
    }),
    ("no entry and no TOC", |rng| {
        let mut made = module(rng);
        for section in [Aux::EntrySection, Aux::TocSection] {
            made.put(made.aux(section), 0);
        }
        with_ops(rng, made)
    }),
    ("empty bss past the end", |rng| {
        let wish = Wish {
            empty: true,
            ..Wish::default()
        };
        let mut made = make::module(rng, &wish);
        let most = (make::top(made.bits) - 1) as u64;
        made.put_address(made.bss, rng.pick(&[0, most, most - 7]));
        with_ops(rng, made)
    }),
];

fn with_ops(rng: &mut Rng, made: Made) -> Option<(Made, Vec<Op>)> {
    let mut ops = vec![Op::Module];
    for _ in 0..2 {
        ops.push(Op::WriteModule {
            plan: fitting_plan(rng, &made),
            out: rng.bytes(made.bytes.len()),
        });
    }
    Some((made, ops))
}

/// For a part of the files.
pub(super) fn some_op(rng: &mut Rng, made: &Made) -> Option<Op> {
    if !rng.chance(25) {
        return None;
    }
    let plan = any_plan(rng, made);
    let mut out = rng.bytes(made.bytes.len());
    if rng.chance(6) {
        let length = rng.below(out.len() as u64 + 9) as usize;
        out.resize(length, 0x5A);
    }
    Some(Op::WriteModule { plan, out })
}
