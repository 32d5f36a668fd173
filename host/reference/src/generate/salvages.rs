//! Salvage of damaged symbol tables, request 12: operations, damages and accepted
//! edges.

use super::damage::{hurt, rich_with, row, wrong_length, Hurt, Row};
use super::make::{self, Made, Part, Wish, DEBUG_CLASSES};
use super::rng::Rng;
use super::{Edge, Op};
use crate::bytes::{number, put};
use crate::opening::{DEBUG, DELETED, INFO};
use crate::symbols::is_csect_class;
use crate::{AUX, LIMIT, NAME, ROOM, SECTION, SHARED, VISIBILITY};

pub static ROWS: &[Row] = &[
    row("salvage: symbols over headers", SHARED, |rng| {
        let mut made = closed(rng);
        // The table ends with the file, so that no string table follows.
        let end = made.headers_end();
        let common = rng.pick(&[1, 1, 2, 17]);
        let start = end - common;
        let count = (made.bytes.len() - start) / 18;
        made.bytes.truncate(start + 18 * count);
        keep_no_raw_data(&mut made);
        made.put(made.symptr_field(), start as u64);
        made.put(made.nsyms_field(), count as u64);
        shared(rng, made)
    }),
    row("salvage: symbols over a debug section", SHARED, |rng| {
        let mut made = closed(rng);
        let n = debug_section(rng, &made)?;
        let (start, end) = table(&made);
        let common = rng.pick(&[1, 1, 2, 18]);
        let length = rng.between(common, 40);
        let pointer = if rng.chance(50) {
            // It ends inside the table, or starts there.
            start + common - length.min(start + common - 1)
        } else {
            end - common
        };
        made.put_part(n, Part::Pointer, pointer);
        made.put_part(n, Part::Size, length.min(made.bytes.len() as u64 - pointer));
        shared(rng, made)
    }),
    row(
        "salvage: symbols over the second debug section",
        SHARED,
        |rng| {
            let mut made = closed(rng);
            let n = debug_section(rng, &made)?;
            let all = made.sections_of(&[DEBUG]);
            let second = all.into_iter().find(|&other| other != n)?;
            let (start, end) = table(&made);
            made.put_part(n, Part::Pointer, rng.pick(&[1, end]));
            made.put_part(n, Part::Size, 0);
            made.put_part(second, Part::Pointer, rng.between(start, end - 1));
            made.put_part(second, Part::Size, 1);
            shared(rng, made)
        },
    ),
    row("salvage: room 0 copy", ROOM, |rng| {
        let (made, count) = damaged(rng)?;
        let mut copy = rng.bytes(made.bytes.len());
        wrong_length(rng, &mut copy);
        // Before the report.
        let short = rng.chance(50);
        let report = rng.bytes(if short { 0 } else { 8 * count });
        hurt(made, Op::Salvage { copy, report }, ROOM, 0)
    }),
    row("salvage: limit 5 report", LIMIT, |rng| {
        let (made, count) = damaged(rng)?;
        if count == 0 {
            return None;
        }
        let copy = rng.bytes(made.bytes.len());
        let length = rng.pick(&[8 * count - 1, 8 * count - 1, 8 * count - 8, 0, count]);
        let report = rng.bytes(length);
        hurt(made, Op::Salvage { copy, report }, LIMIT, 5)
    }),
];

/// A module with two debug sections at least; all symbols read.
fn closed(rng: &mut Rng) -> Made {
    let mut made = rich_with(rng, |wish| {
        wish.debug = true;
        wish.kinds = vec![DEBUG, DEBUG, INFO];
        wish.version = Some(2);
    });
    if made.flags.len() > 32 {
        return closed(rng);
    }
    // Names by offset 0: they read, whatever becomes of the debug sections.
    for symbol in made.symbols.clone() {
        made.set_name_offset(symbol.index, 0);
    }
    made
}

/// Start and end of the symbol table.
fn table(made: &Made) -> (u64, u64) {
    let start = made.symbols_at as u64;
    (start, start + 18 * made.symbol_count)
}

fn debug_section(rng: &mut Rng, made: &Made) -> Option<u64> {
    let all = made.sections_of(&[DEBUG]);
    (!all.is_empty()).then(|| rng.pick(&all))
}

/// No section has raw data, wherever the file ends now.
fn keep_no_raw_data(made: &mut Made) {
    for n in 1..=made.flags.len() as u64 {
        made.put_part(n, Part::Pointer, 0);
    }
}

/// SHARED, and perhaps a wrong copy or a short report besides.
fn shared(rng: &mut Rng, made: Made) -> Option<Hurt> {
    let mut copy = rng.bytes(made.bytes.len());
    if rng.chance(30) {
        wrong_length(rng, &mut copy);
    }
    let length = rng.pick(&[0, 8, 4_000]);
    let report = rng.bytes(length);
    hurt(made, Op::Salvage { copy, report }, SHARED, 0)
}

/// What is wrong with an entry: any of these, in the order of the checks.
const FAULTS: [u64; 4] = [AUX, SECTION, NAME, VISIBILITY];

/// A module with damaged entries, and how many changes mend them.
fn damaged(rng: &mut Rng) -> Option<(Made, usize)> {
    let mut made = closed(rng);
    let often = rng.pick(&[20, 50, 90]);
    let mut count = 0;
    for symbol in made.symbols.clone() {
        let faults: Vec<u64> = FAULTS
            .into_iter()
            .filter(|&fault| rng.chance(if fault == AUX { 8 } else { often }))
            .collect();
        let done = damage(rng, &mut made, symbol.index, &faults);
        count += done;
        if faults.contains(&AUX) {
            // The walk ends with it.
            break;
        }
    }
    Some((made, count))
}

/// Damages an entry; gives how many of the faults it has now.
fn damage(rng: &mut Rng, made: &mut Made, index: u64, faults: &[u64]) -> usize {
    let at = made.symbol_at(index);
    let mut done = 0;
    for &fault in faults {
        match fault {
            AUX => {
                let left = made.symbol_count - index - 1;
                put(&mut made.bytes, at + 17, 1, rng.between(left + 1, 255));
            }
            SECTION => {
                let count = made.flags.len() as u64;
                let number = rng.pick(&[count + 1, 0x7FFF, 0x8000, 0xFFFD]);
                made.set_symbol_section(index, number);
            }
            NAME => bad_name(rng, made, index),
            _ => {
                let class = u64::from(made.bytes[at + 16]);
                if made.bits != 32 || !is_csect_class(class) {
                    continue;
                }
                let kind = number(&made.bytes, at + 14, 2) & 0x8FFF;
                put(&mut made.bytes, at + 14, 2, kind | rng.between(5, 7) << 12);
            }
        }
        done += 1;
    }
    done
}

/// A name offset that leads nowhere, into the string table or the debug section.
fn bad_name(rng: &mut Rng, made: &mut Made, index: u64) {
    let at = made.symbol_at(index) + 16;
    let class = u64::from(made.bytes[at]);
    let csect = is_csect_class(class);
    if !csect && rng.chance(50) {
        made.set_class(index, rng.pick(&DEBUG_CLASSES));
    }
    made.set_name_offset(index, rng.pick(&[1, 0x7FFF_FFFF, 0xFFFF_FFFF]));
}

pub(super) static EDGES: &[Edge] = &[
    ("salvage", |rng| {
        let (made, count) = damaged(rng)?;
        Some(with_report(rng, made, 8 * count + 9))
    }),
    ("salvage with a report that just fits", |rng| {
        let (made, count) = damaged(rng)?;
        Some(with_report(rng, made, 8 * count))
    }),
    ("salvage of every fault in one entry", |rng| {
        let mut made = closed(rng);
        let csects: Vec<u64> = made
            .symbols
            .iter()
            .filter(|symbol| symbol.csect.is_some())
            .map(|symbol| symbol.index)
            .collect();
        let index = rng.pick(&csects);
        let all = if rng.chance(50) { 0 } else { 1 };
        damage(rng, &mut made, index, &FAULTS[all..]);
        Some(with_report(rng, made, 40))
    }),
    ("salvage of nothing", |rng| {
        let made = closed(rng);
        Some(with_report(rng, made, 0))
    }),
    ("salvage without symbols", |rng| {
        let mut made = closed(rng);
        made.put(made.nsyms_field(), 0);
        made.put(made.symptr_field(), rng.pick(&[0, 1, u64::MAX]));
        Some(with_report(rng, made, 0))
    }),
    ("salvage of debug names", |rng| {
        let mut made = rich_with(rng, |wish| wish.debug = true);
        for symbol in made.symbols.clone() {
            if rng.chance(40) {
                made.set_class(symbol.index, rng.pick(&DEBUG_CLASSES));
                let size = made.debug_size as u64;
                let good = rng.pick(&made.debug_names);
                let offset = rng.pick(&[good, good, 1, size, size + 1, 0xFFFF_FFFF]);
                made.set_name_offset(symbol.index, offset);
            }
        }
        let more = rng.pick(&[0, 8, 4_000]);
        Some(with_report(rng, made, more))
    }),
    ("salvage after a debug section", |rng| {
        beside(rng, |start, _| (start - 9, 9))
    }),
    ("salvage before a debug section", |rng| {
        beside(rng, |_, end| (end, 3))
    }),
    ("salvage around an empty debug section", |rng| {
        beside(rng, |start, _| (start + 5, 0))
    }),
    ("salvage of the last entry", |rng| {
        let mut made = closed(rng);
        // The last auxiliary becomes an entry that asks for more.
        let symbol = made.symbols.last()?.clone();
        if symbol.auxiliaries == 0 {
            return None;
        }
        let last = made.symbol_count - 1;
        let (at, own) = (made.symbol_at(last), made.symbol_at(symbol.index));
        put(&mut made.bytes, own + 17, 1, symbol.auxiliaries - 1);
        made.set_name_offset(last, 0);
        made.set_symbol_section(last, 0);
        made.set_class(last, 0);
        put(&mut made.bytes, at + 17, 1, rng.pick(&[1, 1, 2, 255]));
        Some(with_report(rng, made, 8))
    }),
    ("salvage over other sections", |rng| {
        let (mut made, count) = damaged(rng)?;
        let (start, end) = table(&made);
        for n in made.sections_of(&[DEBUG, INFO]) {
            let kind = rng.pick(&[INFO, DELETED]);
            made.put_part(n, Part::Flags, kind);
            made.put_part(n, Part::Pointer, start);
            made.put_part(n, Part::Size, end - start);
        }
        let (text, size) = (made.text, made.text_size);
        made.put_part(text, Part::Pointer, end - size.min(18));
        Some(with_report(rng, made, 8 * count))
    }),
    ("salvage of overwritten symbols", |rng| {
        let mut made = if rng.chance(60) {
            closed(rng)
        } else {
            let symbols = Some(rng.between(20, 120) as usize);
            let wish = Wish {
                symbols,
                ..Wish::default()
            };
            make::object(rng, &wish)
        };
        overwrite(rng, &mut made);
        let length = 4 * 8 * made.symbol_count as usize;
        Some(with_report(rng, made, length))
    }),
];

/// All debug sections get this place, made from the table's start and end.
fn beside(rng: &mut Rng, place: fn(u64, u64) -> (u64, u64)) -> Option<(Made, Vec<Op>)> {
    let (mut made, count) = damaged(rng)?;
    let (start, end) = table(&made);
    let (pointer, size) = place(start, end);
    for n in made.sections_of(&[DEBUG]) {
        made.put_part(n, Part::Pointer, pointer);
        made.put_part(n, Part::Size, size);
    }
    Some(with_report(rng, made, 8 * count))
}

/// Any bytes over half of the symbol table, or over all of it.
fn overwrite(rng: &mut Rng, made: &mut Made) {
    let (start, end) = table(made);
    if start == end {
        return;
    }
    let from = rng.pick(&[start, (start + end) / 2]) as usize;
    let to = rng.pick(&[end, from as u64 + 1]) as usize;
    let any = rng.bytes(to - from);
    made.bytes[from..to].copy_from_slice(&any);
}

fn with_report(rng: &mut Rng, made: Made, length: usize) -> (Made, Vec<Op>) {
    let copy = rng.bytes(made.bytes.len());
    let report = rng.bytes(length);
    (made, vec![Op::Salvage { copy, report }, Op::Walk])
}

/// For a part of the files.
pub(super) fn some_op(rng: &mut Rng, made: &Made) -> Option<Op> {
    if !rng.chance(25) {
        return None;
    }
    let mut copy = rng.bytes(made.bytes.len());
    if rng.chance(6) {
        let length = rng.below(copy.len() as u64 + 9) as usize;
        copy.resize(length, 0x5A);
    }
    let length = rng.pick(&[0, 7, 8, 9, 64, 400]);
    let report = rng.bytes(length);
    Some(Op::Salvage { copy, report })
}
