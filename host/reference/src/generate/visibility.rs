//! Visibilities of symbols, request 9: damages, and files at an accepted edge.

use super::damage::{csect_at, csect_where, hurt, row, Hurt, Row};
use super::make::{self, Made, Wish};
use super::rng::Rng;
use super::Op;
use crate::bytes::{number, put};
use crate::symbols::{is_debug_class, LD};
use crate::{AUX, CSECT, NAME, SECTION, VISIBILITY};

pub static ROWS: &[Row] = &[
    row("visibility 5 to 7", VISIBILITY, |rng| {
        let (made, index) = bad(rng)?;
        refused(rng, made, VISIBILITY, index)
    }),
    row("visibility with an f_opthdr of 4", VISIBILITY, |rng| {
        let mut made = object(rng, 4);
        let index = csect_where(&made, rng, None)?;
        set_visibility(rng, &mut made, index, 5..=7);
        refused(rng, made, VISIBILITY, index)
    }),
    row("aux before visibility", AUX, |rng| {
        let (mut made, index) = bad(rng)?;
        let (at, left) = (made.symbol_at(index), made.symbol_count - index - 1);
        put(&mut made.bytes, at + 17, 1, rng.pick(&[left + 1, 255]));
        refused(rng, made, AUX, index)
    }),
    row("section before visibility", SECTION, |rng| {
        let (mut made, index) = bad(rng)?;
        let (at, count) = (made.symbol_at(index), made.flags.len() as u64);
        put(&mut made.bytes, at + 12, 2, rng.pick(&[count + 1, 0xFFFD]));
        refused(rng, made, SECTION, index)
    }),
    row("name before visibility", NAME, |rng| {
        let (mut made, index) = bad(rng)?;
        let length = made.strings_length as u64;
        made.set_name_offset(index, rng.pick(&[1, 3, length, 0xFFFF_FFFF]));
        refused(rng, made, NAME, index)
    }),
    row("visibility before csect", VISIBILITY, |rng| {
        let (mut made, index) = bad(rng)?;
        if rng.chance(50) {
            let at = csect_at(&made, index) + 10;
            put(&mut made.bytes, at, 1, rng.between(4, 7));
        } else {
            let at = made.symbol_at(index) + 17;
            put(&mut made.bytes, at, 1, 0);
        }
        hurt(made, Op::Csect(index), VISIBILITY, index)
    }),
    row("csect LD in an SD of no visibility", CSECT, |rng| {
        let mut made = version_2(rng);
        let index = csect_where(&made, rng, Some(LD))?;
        let container = number(&made.bytes, csect_at(&made, index), 4);
        set_visibility(rng, &mut made, container, 5..=7);
        hurt(made, Op::Csect(index), CSECT, index)
    }),
];

/// A rich module in which types have a visibility.
fn version_2(rng: &mut Rng) -> Made {
    with_version(rng, 32, 2)
}

fn with_version(rng: &mut Rng, bits: u64, version: u64) -> Made {
    let wish = Wish {
        bits: Some(bits),
        rich: true,
        version: Some(version),
        low: rng.chance(40),
        ..Wish::default()
    };
    make::module(rng, &wish)
}

/// An XCOFF32 object with an auxiliary header of this length; the two bytes at
/// the version's place are 2 in any case.
fn object(rng: &mut Rng, opthdr: usize) -> Made {
    let wish = Wish {
        bits: Some(32),
        rich: true,
        opthdr: Some(opthdr),
        sections: Some(rng.between(1, 5) as usize),
        version: Some(2),
        ..Wish::default()
    };
    let mut made = make::object(rng, &wish);
    // Without a header the place is in a section's name.
    put(&mut made.bytes, 22, 2, 2);
    made
}

/// Gives the entry one of these numbers in its bits 7000.
fn set_visibility(
    rng: &mut Rng,
    made: &mut Made,
    index: u64,
    range: std::ops::RangeInclusive<u64>,
) {
    let at = made.symbol_at(index) + 14;
    let number = rng.between(*range.start(), *range.end());
    let kind = rng.below(0x10000) & 0x8FFF | number << 12;
    put(&mut made.bytes, at, 2, kind);
}

/// A file with a bad visibility, and the index of its entry.
fn bad(rng: &mut Rng) -> Option<(Made, u64)> {
    let mut made = version_2(rng);
    let index = csect_where(&made, rng, None)?;
    set_visibility(rng, &mut made, index, 5..=7);
    Some((made, index))
}

fn refused(rng: &mut Rng, made: Made, number: u64, index: u64) -> Option<Hurt> {
    let op = rng.pick(&[Op::Symbol(index), Op::SymbolName(index), Op::Csect(index)]);
    hurt(made, op, number, index)
}

/// A file and an entry of it that is accepted.
type Edge = (&'static str, fn(&mut Rng) -> Option<(Made, u64)>);

const EDGES: &[Edge] = &[
    ("visibility 0 to 4", |rng| {
        let mut made = version_2(rng);
        let index = csect_where(&made, rng, None)?;
        set_visibility(rng, &mut made, index, 0..=4);
        Some((made, index))
    }),
    ("f_opthdr of 4", |rng| {
        let mut made = object(rng, 4);
        let index = csect_where(&made, rng, None)?;
        set_visibility(rng, &mut made, index, 0..=4);
        Some((made, index))
    }),
    ("f_opthdr below 4", |rng| {
        let length = rng.pick(&[0, 1, 2, 3, 3]);
        let mut made = object(rng, length);
        let index = csect_where(&made, rng, None)?;
        set_visibility(rng, &mut made, index, 5..=7);
        Some((made, index))
    }),
    ("another version", |rng| {
        let version = rng.pick(&[0, 1, 1, 3, 3, 0x0102, 0x0200, 0xFFFF]);
        let mut made = with_version(rng, 32, version);
        let index = csect_where(&made, rng, None)?;
        set_visibility(rng, &mut made, index, 5..=7);
        Some((made, index))
    }),
    ("another class", |rng| {
        let mut made = version_2(rng);
        let index = rng.pick(&made.symbols).index;
        let class = rng.pick(&[0, 1, 3, 3, 103, 106, 108, 110, 112, 0x82, 0xEB]);
        made.set_class(index, class);
        if is_debug_class(class) {
            made.set_name_offset(index, 0);
        }
        set_visibility(rng, &mut made, index, 5..=7);
        Some((made, index))
    }),
    ("visibility bits in XCOFF64", |rng| {
        let version = rng.pick(&[2, 2, 1]);
        let mut made = with_version(rng, 64, version);
        let index = csect_where(&made, rng, None)?;
        set_visibility(rng, &mut made, index, 5..=7);
        Some((made, index))
    }),
];

/// A file at an edge, and operations that look at it.
pub(super) fn edge(rng: &mut Rng, more: &mut Vec<Op>) -> (String, Made) {
    loop {
        let (label, make) = rng.pick(EDGES);
        if let Some((made, index)) = make(rng) {
            more.extend([Op::Symbol(index), Op::SymbolName(index)]);
            more.push(Op::Csect(index));
            more.push(rng.pick(&[Op::Walk, Op::Symbols]));
            return (format!("edge: {label}"), made);
        }
    }
}
