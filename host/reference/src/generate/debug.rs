//! Debugger names, request 1: damages, and files at an accepted edge.

use super::damage::{extra_section, hurt, rich_with, row, Hurt, Row};
use super::make::{Made, Part, DEBUG_CLASSES};
use super::rng::Rng;
use super::Op;
use crate::bytes::put;
use crate::opening::{DEBUG, DELETED, EXCEPT, INFO, TYPCHK};
use crate::{AUX, NAME, SECTION};

pub static ROWS: &[Row] = &[
    row("debug name without a debug section", NAME, |rng| {
        let mut made = with_debug(rng)?;
        let kind = rng.pick(&[INFO, EXCEPT, TYPCHK, DELETED]);
        made.put(made.section_field(made.debug, Part::Flags), kind);
        // Also an offset at which the string table has a name.
        let good = good_name(rng, &made);
        let offset = rng.pick(&[good, 4]);
        hurt_name(rng, made, offset)
    }),
    row("debug name, debug section without raw data", NAME, |rng| {
        let mut made = with_debug(rng)?;
        made.put(made.section_field(made.debug, Part::Pointer), 0);
        let offset = good_name(rng, &made);
        hurt_name(rng, made, offset)
    }),
    row("debug name, two debug sections", NAME, |rng| {
        let mut made = with_debug(rng)?;
        second_section(rng, &mut made)?;
        let offset = good_name(rng, &made);
        hurt_name(rng, made, offset)
    }),
    row("debug name offset below a length", NAME, |rng| {
        let mut made = with_debug(rng)?;
        let prefix = made.debug_prefix();
        if rng.chance(50) {
            // The rest of a length of 0.
            let at = made.debug_at;
            made.bytes[at..at + prefix - 1].fill(0);
        }
        let offset = rng.between(1, prefix as u64 - 1);
        hurt_name(rng, made, offset)
    }),
    row("debug name offset past the end", NAME, |rng| {
        let made = with_debug(rng)?;
        let size = made.debug_size as u64;
        let past = size + rng.between(1, 5);
        let offset = rng.pick(&[size + 1, past, past, 0x7FFF_FFFF, 0xFFFF_FFFF]);
        hurt_name(rng, made, offset)
    }),
    row("debug name offset beyond 2^31", NAME, |rng| {
        let made = with_debug(rng)?;
        let high = rng.pick(&[0x8000_0000, 0x8000_0000, 0xFFFF_0000, 0x0001_0000]);
        let offset = high + good_name(rng, &made);
        hurt_name(rng, made, offset)
    }),
    row("debug name longer than what is left", NAME, |rng| {
        let mut made = with_debug(rng)?;
        let offset = good_name(rng, &made);
        let left = made.debug_size as u64 - offset;
        let most = if made.bits == 32 { 0xFFFF } else { 0xFFFF_FFFF };
        let length = rng.pick(&[left + 1, left + 1, left + 2, most, most / 2 + 1]);
        spoil_length(rng, &mut made, offset, length);
        hurt_name(rng, made, offset)
    }),
    row("debug name with a length's high bytes", NAME, |rng| {
        let mut made = with_debug(rng)?;
        let offset = good_name(rng, &made);
        let field = made.debug_length_field(offset);
        let bits = rng.pick(&[8, 12, 15, 8, 16, 24, 31]);
        if bits >= 8 * field.length as u64 || made.debug_size >= 256 {
            return None;
        }
        let length = made.get(field) + (1 << bits);
        spoil_length(rng, &mut made, offset, length);
        hurt_name(rng, made, offset)
    }),
    row("debug section one byte short", NAME, |rng| {
        let mut made = with_debug(rng)?;
        let offset = good_name(rng, &made);
        let length = made.get(made.debug_length_field(offset));
        // Without a string the length itself is cut.
        let size = offset + length - 1;
        made.put(made.section_field(made.debug, Part::Size), size);
        hurt_name(rng, made, offset)
    }),
    row("debug name at the end with a length", NAME, |rng| {
        let mut made = with_debug(rng)?;
        let offset = made.debug_size as u64;
        let length = rng.pick(&[1, 1, 2, 0x100, 0xFFFF]);
        made.put(made.debug_length_field(offset), length);
        hurt_name(rng, made, offset)
    }),
    row(
        "name of a class below 80 in the debug section",
        NAME,
        |rng| {
            let mut made = with_debug(rng)?;
            let index = rng.pick(&made.symbols).index;
            made.set_class(index, rng.pick(&[0x7F, 0x7F, 0, 0x0E, 103]));
            made.set_name_offset(index, good_name(rng, &made));
            // No string table has it.
            let at = made.strings_at;
            put(&mut made.bytes, at, 4, rng.pick(&[0, 4]));
            refused(rng, made, NAME, index)
        },
    ),
    row("section before a debug name", SECTION, |rng| {
        let (mut made, index) = bad_name(rng)?;
        let (at, count) = (made.symbol_at(index), made.flags.len() as u64);
        put(&mut made.bytes, at + 12, 2, rng.pick(&[count + 1, 0xFFFD]));
        refused(rng, made, SECTION, index)
    }),
    row("aux before a debug name", AUX, |rng| {
        let (mut made, index) = bad_name(rng)?;
        let (at, left) = (made.symbol_at(index), made.symbol_count - index - 1);
        put(&mut made.bytes, at + 17, 1, rng.pick(&[left + 1, 255]));
        refused(rng, made, AUX, index)
    }),
];

/// A rich module with one debug section, another that isn't, and a string table.
fn with_debug(rng: &mut Rng) -> Option<Made> {
    let made = rich_with(rng, |wish| {
        wish.debug = true;
        wish.kinds = vec![INFO];
    });
    if made.debug == 0 || made.flags.len() > 32 {
        return None;
    }
    Some(made)
}

/// The offset of a string in the debug section.
fn good_name(rng: &mut Rng, made: &Made) -> u64 {
    rng.pick(&made.debug_names)
}

/// Gives an entry a debug class and a name by this offset; gives its index.
fn set_name(rng: &mut Rng, made: &mut Made, offset: u64) -> u64 {
    let index = rng.pick(&made.symbols).index;
    made.set_class(index, rng.pick(&DEBUG_CLASSES));
    made.set_name_offset(index, offset);
    index
}

/// An entry of a debug class with this bad offset.
fn hurt_name(rng: &mut Rng, mut made: Made, offset: u64) -> Option<Hurt> {
    let index = set_name(rng, &mut made, offset);
    refused(rng, made, NAME, index)
}

fn refused(rng: &mut Rng, made: Made, number: u64, index: u64) -> Option<Hurt> {
    let op = rng.pick(&[Op::Symbol(index), Op::SymbolName(index), Op::Csect(index)]);
    hurt(made, op, number, index)
}

/// A file with a bad debug name, and the index of its entry.
fn bad_name(rng: &mut Rng) -> Option<(Made, u64)> {
    let mut made = with_debug(rng)?;
    let size = made.debug_size as u64;
    let offset = rng.pick(&[1, size + 1, 0xFFFF_FFFF]);
    let index = set_name(rng, &mut made, offset);
    Some((made, index))
}

/// A length that leaves the section, at times before a string that starts with a
/// zero: that doesn't help.
fn spoil_length(rng: &mut Rng, made: &mut Made, offset: u64, length: u64) {
    made.put(made.debug_length_field(offset), length);
    if rng.chance(40) && offset < made.debug_size as u64 {
        let start = made.debug_at + offset as usize;
        made.bytes[start] = 0;
    }
}

/// Another section becomes a debug section, and gets raw data.
fn second_section(rng: &mut Rng, made: &mut Made) -> Option<u64> {
    let n = other_section(rng, made)?;
    let length = made.bytes.len() as u64;
    let own = (made.debug_at as u64, made.debug_size as u64);
    let (pointer, size) = rng.pick(&[own, (1, 0), (length, 0), (1, length - 1)]);
    made.put(made.section_field(n, Part::Flags), DEBUG);
    made.put(made.section_field(n, Part::Pointer), pointer);
    made.put(made.section_field(n, Part::Size), size);
    Some(n)
}

/// A section that no module asks for and that isn't the debug section.
fn other_section(rng: &mut Rng, made: &Made) -> Option<u64> {
    extra_section(made, rng).filter(|&n| n != made.debug)
}

/// An accepted edge: changes the file, and gives an offset for a debug name.
type Edge = (&'static str, fn(&mut Rng, &mut Made) -> Option<u64>);

const EDGES: &[Edge] = &[
    ("debug name to the end", |rng, made| {
        let offset = good_name(rng, made);
        let left = made.debug_size as u64 - offset;
        made.put(made.debug_length_field(offset), left);
        let start = made.debug_at + offset as usize;
        made.bytes[start..start + left as usize].fill(b'x');
        Some(offset)
    }),
    ("debug name up to a zero", |rng, made| {
        let offset = good_name(rng, made);
        let length = made.get(made.debug_length_field(offset));
        if length == 0 {
            return None;
        }
        let start = made.debug_at + offset as usize;
        made.bytes[start + rng.below(length) as usize] = 0;
        Some(offset)
    }),
    ("debug name empty at the end", |_, made| {
        let offset = made.debug_size as u64;
        made.put(made.debug_length_field(offset), 0);
        Some(offset)
    }),
    ("debug name at the start", |rng, made| {
        let offset = made.debug_prefix() as u64;
        let left = made.debug_size as u64 - offset;
        let length = rng.between(0, left);
        let length = rng.pick(&[0, left, length]);
        made.put(made.debug_length_field(offset), length);
        Some(offset)
    }),
    ("debug section beside one without raw data", |rng, made| {
        let n = second_section(rng, made)?;
        made.put(made.section_field(n, Part::Pointer), 0);
        Some(good_name(rng, made))
    }),
    ("debug section over the file", |rng, made| {
        let length = made.bytes.len() as u64;
        made.put(made.section_field(made.debug, Part::Pointer), 1);
        made.put(made.section_field(made.debug, Part::Size), length - 1);
        Some(rng.between(1, length))
    }),
    ("debug section gone, empty names", |_, made| {
        made.put(made.section_field(made.debug, Part::Flags), DELETED);
        Some(0)
    }),
];

/// A file at an edge, and operations that look at it.
pub(super) fn edge(rng: &mut Rng, more: &mut Vec<Op>) -> (String, Made) {
    loop {
        let (label, change) = rng.pick(EDGES);
        let Some(mut made) = with_debug(rng) else {
            continue;
        };
        if let Some(offset) = change(rng, &mut made) {
            let index = set_name(rng, &mut made, offset);
            let other = any_class(rng, &mut made, index);
            for index in [index, other] {
                more.extend([Op::Symbol(index), Op::SymbolName(index)]);
            }
            more.push(rng.pick(&[Op::Walk, Op::Symbols]));
            return (format!("edge: {label}"), made);
        }
    }
}

/// Gives an entry other than `taken` class 7F and a name of the string table, or a
/// debug class and a name of its own.
fn any_class(rng: &mut Rng, made: &mut Made, taken: u64) -> u64 {
    let index = rng.pick(&made.symbols).index;
    if index == taken {
        return index;
    }
    match rng.below(3) {
        0 => {
            made.set_class(index, 0x7F);
            made.set_name_offset(index, 4);
        }
        1 if made.bits == 32 => {
            made.set_class(index, rng.pick(&DEBUG_CLASSES));
            let at = made.symbol_at(index);
            made.bytes[at..at + 8].copy_from_slice(b"short\0\0\0");
        }
        _ => {
            made.set_class(index, 0x80);
            made.set_name_offset(index, 0);
        }
    }
    index
}
