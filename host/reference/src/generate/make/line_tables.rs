//! Line tables of an object's text sections. Drawn aside, as the debug section.

use super::places::{Made, MadeLine, Part};
use super::{junk, Wish};
use crate::generate::rng::Rng;
use crate::opening::TEXT;

/// Gives the text sections line tables, at the file's end.
pub(super) fn add_line_tables(side: &mut Rng, made: &mut Made, wish: &Wish) {
    for n in made.sections_of(&[TEXT]) {
        let lines = if wish.lines || side.chance(50) {
            any_lines(side, made, n)
        } else {
            Vec::new()
        };
        let tail = junk(side, 30, 5);
        made.bytes.extend(tail);
        made.add_lines(n, &lines);
        if lines.is_empty() && side.chance(50) {
            made.put_part(n, Part::LinePointer, 0);
        }
    }
    made.record_lines();
}

/// Groups of lines, each opened by a function; addresses in and around the section,
/// in any order, some of them several times.
fn any_lines(side: &mut Rng, made: &Made, n: u64) -> Vec<MadeLine> {
    let mut all = Vec::new();
    let mut last = made.part(n, Part::Paddr);
    for _ in 0..side.between(1, 4) {
        all.push(function(side, made));
        for _ in 0..side.between(0, 5) {
            last = any_address(side, made, n, last);
            all.push(MadeLine {
                section: n,
                at: 0,
                value: last,
                line: any_number(side, made.bits),
            });
        }
    }
    all
}

/// An entry that opens a group; in XCOFF64 four bytes of its value are any.
pub fn function(rng: &mut Rng, made: &Made) -> MadeLine {
    let symbol = rng.pick(&[0, 1, made.symbol_count / 2, 0xFFFF_FFFF]);
    let value = match made.bits {
        32 => symbol,
        _ => symbol << 32 | rng.below(1 << 32),
    };
    MadeLine {
        section: 0,
        at: 0,
        value,
        line: 0,
    }
}

fn any_address(side: &mut Rng, made: &Made, n: u64, last: u64) -> u64 {
    let (start, size) = (made.part(n, Part::Paddr), made.part(n, Part::Size));
    let mask = if made.bits == 32 {
        0xFFFF_FFFF
    } else {
        u64::MAX
    };
    let address = match side.below(10) {
        0 => last,
        1 => last.wrapping_add(1),
        2 => last.wrapping_sub(1),
        3 => start.wrapping_sub(side.below(9)),
        4 => start.wrapping_add(size),
        5 => side.pick(&[0, u64::MAX, start | 0xFFFF_FFFF]),
        _ => start.wrapping_add(side.below(size + 1)),
    };
    address & mask
}

/// A line number that isn't 0.
fn any_number(side: &mut Rng, bits: u64) -> u64 {
    let most = if bits == 32 { 0xFFFF } else { 0xFFFF_FFFF };
    let any = side.between(1, most);
    side.pick(&[1, 2, 0x100, most - 0xFF, most, any])
}
