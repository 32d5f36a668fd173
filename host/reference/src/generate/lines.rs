//! From address to line, request 7: operations, damages and accepted edges.

use super::damage::{empty_table, far_offsets, hurt, row, Hurt, Row};
use super::make::line_tables::function;
use super::make::{self, top, Made, MadeLine, Part, Wish};
use super::plans::near;
use super::rng::Rng;
use super::{Edge, Op};
use crate::opening::{BSS, DATA, DELETED, OVRFLO, TEXT};
use crate::{Refusal, BOUNDS, GROUP, INDEX, NOLINE};

/// A line table, in its section's header.
const TABLE: [Part; 2] = [Part::LineCount, Part::LinePointer];

pub static ROWS: &[Row] = &[
    row("line: no such section", INDEX, |rng| {
        let made = rich(rng);
        let count = made.flags.len() as u64;
        let n = rng.pick(&[0, count + 1, count + 2, 33, 0x1_0000_0001, u64::MAX]);
        asked(rng, made, n, INDEX, n)
    }),
    row("line: no text section", INDEX, |rng| {
        let mut made = rich(rng);
        let n = if rng.chance(60) {
            rng.pick(&made.sections_of(&[DATA, BSS]))
        } else {
            let n = any_text(rng, &made);
            made.put_part(n, Part::Flags, rng.pick(&[DELETED, DATA, 0x8]));
            n
        };
        // Before its table.
        if rng.chance(30) {
            made.put_part(n, Part::LinePointer, u64::MAX);
        }
        asked(rng, made, n, INDEX, n)
    }),
    row("line: table past the end", BOUNDS, |rng| {
        let (made, n) = text_with(rng, past_the_end);
        bounds(rng, made, n)
    }),
    row("line: empty table past the end", BOUNDS, |rng| {
        let (made, n) = text_with(rng, |rng, made, n| {
            let [near, _, most, half] = far_offsets(made);
            let far = rng.pick(&[near, near, most, half]);
            empty_table(made, n, TABLE, far);
        });
        bounds(rng, made, n)
    }),
    row("line: no overflow header", BOUNDS, |rng| {
        let (mut made, n, header) = overflowed(rng);
        match rng.below(4) {
            // Named in the place of its own count of lines only.
            0 | 1 => {
                made.put_part(
                    header,
                    Part::RelocationCount,
                    rng.pick(&[0, n + 1, n + 0x100]),
                );
                made.put_part(header, Part::LineCount, n);
            }
            2 => made.put_part(header, Part::RelocationCount, 0xFFFF),
            _ => made.put_part(header, Part::Flags, DELETED),
        }
        bounds(rng, made, n)
    }),
    row("line: two overflow headers", BOUNDS, |rng| {
        let (mut made, n, header) = overflowed(rng);
        let headers = made.sections_of(&[OVRFLO]);
        let second = headers.into_iter().find(|&other| other != header)?;
        made.put_part(second, Part::RelocationCount, n);
        bounds(rng, made, n)
    }),
    row("line: overflowed table past the end", BOUNDS, |rng| {
        let (mut made, n, header) = overflowed(rng);
        let room = (made.bytes.len() as u64 - made.part(n, Part::LinePointer)) / 6;
        let count = rng.pick(&[room + 1, room + 2, 0x2AAA_AAAB, 0xFFFF_FFFF]);
        made.put_part(header, Part::Vaddr, count);
        bounds(rng, made, n)
    }),
    row("line: group", GROUP, |rng| {
        let (made, n) = text_with(rng, no_function);
        find_any(rng, made, n, GROUP)
    }),
    row("line: group before noline", GROUP, |rng| {
        let (made, n) = text_with(rng, |rng, made, n| {
            for i in made.lines_of(n) {
                let line = made.lines[i].line;
                made.set_line(i, 0x5000 + i as u64, line);
            }
            no_function(rng, made, n);
        });
        let address = rng.pick(&[0, 0x1000, 0x4FFF]);
        find(made, n, address, GROUP)
    }),
    row("line: noline", NOLINE, |rng| {
        let (mut made, n) = text_with(rng, |_, _, _| ());
        let lowest = rng.between(1, 0xFFFF_FF00);
        for i in made.lines_of(n) {
            // A function's value is no address.
            if made.lines[i].line != 0 {
                let line = made.lines[i].line;
                made.set_line(i, lowest + rng.below(3), line);
            }
        }
        let address = rng.pick(&[0, lowest - 1, lowest - 1]);
        find(made, n, address, NOLINE)
    }),
    row("line: noline without entries", NOLINE, |rng| {
        let (made, n) = text_with(rng, |rng, made, n| {
            let length = made.bytes.len() as u64;
            let start = rng.pick(&[0, 1, length, length]);
            empty_table(made, n, TABLE, start);
        });
        find_any(rng, made, n, NOLINE)
    }),
    row("line: noline of functions alone", NOLINE, |rng| {
        let (made, n) = text_with(rng, |rng, made, n| {
            for i in made.lines_of(n) {
                let value = rng.pick(&[0, made.lines[i].value]);
                made.set_line(i, value, 0);
            }
        });
        find_any(rng, made, n, NOLINE)
    }),
];

/// An object with lines.
fn rich(rng: &mut Rng) -> Made {
    rich_with(rng, |_| ())
}

fn rich_with(rng: &mut Rng, change: fn(&mut Wish)) -> Made {
    let mut wish = Wish {
        rich: true,
        lines: true,
        ..Wish::default()
    };
    change(&mut wish);
    make::linkable(rng, &wish)
}

fn any_text(rng: &mut Rng, made: &Made) -> u64 {
    rng.pick(&made.sections_of(&[TEXT]))
}

/// An object with lines and one of its text sections, changed.
fn text_with(rng: &mut Rng, change: fn(&mut Rng, &mut Made, u64)) -> (Made, u64) {
    let mut made = rich(rng);
    let n = any_text(rng, &made);
    change(rng, &mut made, n);
    (made, n)
}

/// An address of one of the section's lines, one beside it, or any.
fn any_address(rng: &mut Rng, made: &Made, n: u64) -> u64 {
    let lines = made.lines_of(n);
    if lines.is_empty() || rng.chance(20) {
        return rng.pick(&[0, u64::MAX, 1 << 32, 0xFFFF_FFFF, 0x1000_0100]);
    }
    let address = made.lines[rng.pick(&lines)].value;
    match rng.below(4) {
        0 => address.wrapping_add(1),
        1 => address.wrapping_sub(1),
        _ => address,
    }
}

fn asked(rng: &mut Rng, made: Made, n: u64, number: u64, item: u64) -> Option<Hurt> {
    let address = rng.pick(&[0, u64::MAX, 0x1000_0100]);
    hurt(made, find_line(n, address), number, item)
}

fn find_line(section: u64, address: u64) -> Op {
    Op::FindLine { section, address }
}

fn find(made: Made, n: u64, address: u64, number: u64) -> Option<Hurt> {
    hurt(made, find_line(n, address), number, 0)
}

fn find_any(rng: &mut Rng, made: Made, n: u64, number: u64) -> Option<Hurt> {
    let address = any_address(rng, &made, n);
    find(made, n, address, number)
}

fn bounds(rng: &mut Rng, made: Made, n: u64) -> Option<Hurt> {
    let address = any_address(rng, &made, n);
    let refusal = Refusal {
        number: BOUNDS,
        item: n,
        offset: made.section_at(n) as u64,
    };
    let op = find_line(n, address);
    Some(Hurt { made, op, refusal })
}

/// Lets the line table of section `n` pass the file's end, by its offset or its count.
fn past_the_end(rng: &mut Rng, made: &mut Made, n: u64) {
    let length = made.bytes.len() as u64;
    let most = (top(made.bits) - 1) as u64;
    let each = made.line_length() as u64;
    if rng.chance(60) {
        let bytes = each * made.lines_of(n).len() as u64;
        let wraps = most - bytes + 1;
        let choices = [length - bytes + 1, length, most, wraps, wraps + 3];
        made.put_part(n, Part::LinePointer, rng.pick(&choices));
    } else {
        let room = (length - made.part(n, Part::LinePointer)) / each;
        let highest = if made.bits == 32 { 65_534 } else { 0xFFFF_FFFF };
        made.put_part(n, Part::LineCount, rng.pick(&[room + 1, room + 2, highest]));
    }
}

/// The first entry opens no group.
fn no_function(rng: &mut Rng, made: &mut Made, n: u64) {
    let first = made.lines_of(n)[0];
    let value = rng.pick(&[0, made.lines[first].value, 0x5000]);
    let line = rng.pick(&[1, 0x100, 0xFFFF]);
    made.set_line(first, value, line);
}

/// An XCOFF32 object in which an overflow header counts the lines of a text section:
/// with that section's number and the header's.
fn overflowed(rng: &mut Rng) -> (Made, u64, u64) {
    let mut made = rich_with(rng, |wish| {
        wish.bits = Some(32);
        wish.kinds = vec![OVRFLO, OVRFLO];
    });
    let headers = made.sections_of(&[OVRFLO]);
    for &header in &headers {
        made.put_part(header, Part::RelocationCount, 0xFFFF);
    }
    let (n, header) = (any_text(rng, &made), rng.pick(&headers));
    let count = made.part(n, Part::LineCount);
    made.put_part(n, Part::LineCount, 65_535);
    made.put_part(header, Part::RelocationCount, n);
    made.put_part(header, Part::LineCount, rng.pick(&[n, n, 0, 0xFFFF]));
    made.put_part(header, Part::Vaddr, count);
    (made, n, header)
}

pub(super) static EDGES: &[Edge] = &[
    ("lines", |rng| {
        let made = rich(rng);
        let n = any_text(rng, &made);
        let ops = (0..8).map(|_| any_find(rng, &made, n)).collect();
        Some((made, ops))
    }),
    ("lines, first of equal ones", |rng| {
        let mut made = rich(rng);
        let n = any_text(rng, &made);
        let lines: Vec<usize> = made.lines_of(n);
        let address = made.part(n, Part::Paddr) + 4;
        for i in lines.into_iter().filter(|&i| i % 2 == 0) {
            if made.lines[i].line != 0 {
                let line = made.lines[i].line;
                made.set_line(i, address, line);
            }
        }
        let ops = [address, address + 1, address - 1];
        let ops = ops.map(|address| Op::FindLine {
            section: n,
            address,
        });
        Some((made, ops.to_vec()))
    }),
    ("lines by an overflow header", |rng| {
        let (made, n, _) = overflowed(rng);
        let ops = (0..4).map(|_| any_find(rng, &made, n)).collect();
        Some((made, ops))
    }),
    ("lines up to the file's end", |rng| {
        let mut made = rich(rng);
        let last = made.lines.last()?;
        let (n, end) = (last.section, last.at + made.line_length());
        made.bytes.truncate(end);
        let ops = (0..4).map(|_| any_find(rng, &made, n)).collect();
        Some((made, ops))
    }),
    ("65,535 lines", |rng| many_lines(rng, 65_535)),
    ("65,534 lines", |rng| many_lines(rng, 65_534)),
    ("lines at the ends of the addresses", |rng| {
        let mut made = rich(rng);
        let n = any_text(rng, &made);
        let lines = made.lines_of(n);
        let most = (top(made.bits) - 1) as u64;
        for i in lines {
            if made.lines[i].line != 0 {
                let line = made.lines[i].line;
                let value = rng.pick(&[0, 1, most, most - 1, most / 2, most / 2 + 1]);
                made.set_line(i, value, line);
            }
        }
        let asked = [0, 1, most, most - 1, most / 2, u64::MAX, 1 << 32];
        let ops = asked.map(|address| Op::FindLine {
            section: n,
            address,
        });
        Some((made, ops.to_vec()))
    }),
];

/// One table around the largest count of XCOFF32.
fn many_lines(rng: &mut Rng, count: u64) -> Option<(Made, Vec<Op>)> {
    let mut made = rich_with(rng, |wish| wish.kinds = vec![OVRFLO]);
    let n = any_text(rng, &made);
    let header = rng.pick(&made.sections_of(&[OVRFLO]));
    let start = made.part(n, Part::Paddr);
    let mut lines = vec![function(rng, &made)];
    for i in 1..count {
        lines.push(MadeLine {
            section: n,
            at: 0,
            value: start + rng.below(40),
            line: i % 1_000 + 1,
        });
    }
    made.lines.retain(|line| line.section != n);
    made.add_lines(n, &lines);
    if made.bits == 32 && count > 65_534 {
        made.put_part(header, Part::RelocationCount, n);
        made.put_part(header, Part::Vaddr, count);
    }
    let ops = (0..3).map(|_| any_find(rng, &made, n)).collect();
    Some((made, ops))
}

fn any_find(rng: &mut Rng, made: &Made, section: u64) -> Op {
    let address = any_address(rng, made, section);
    Op::FindLine { section, address }
}

/// For a part of the files: a text section most times.
pub(super) fn some_op(rng: &mut Rng, made: &Made) -> Option<Op> {
    if !rng.chance(25) {
        return None;
    }
    let text = made.sections_of(&[TEXT]);
    let section = if !text.is_empty() && rng.chance(75) {
        rng.pick(&text)
    } else {
        near(rng, 1, made.flags.len() as u64)
    };
    Some(any_find(rng, made, section))
}
