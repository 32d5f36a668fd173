//! Damages of object files, in the order of request 5's checks.

use super::branches::{self, Aim};
use super::{buffer, fitting_list, has_address, rich, rich_with, section_size};
use crate::generate::damage::{empty_table, far_offsets, hurt, row, wrong_length, Hurt, Row};
use crate::generate::make::linkable::{overflow, Sort};
use crate::generate::make::{top, Made, Part, RowPart};
use crate::generate::plans::past_end;
use crate::generate::rng::Rng;
use crate::generate::Op;
use crate::opening::{BSS, DATA, DELETED, OVRFLO, TEXT};
use crate::*;

pub static ROWS: &[Row] = &[
    row("object: module 3", MODULE, |rng| {
        let mut made = rich(rng);
        let n = any_table(rng, &made);
        made.put_part(n, Part::Pointer, 0);
        if rng.chance(40) {
            // Before its own table, and before any later section's.
            for later in n..=made.flags.len() as u64 {
                if [TEXT, DATA].contains(&made.flags[later as usize - 1]) {
                    made.put_part(later, Part::RelocationPointer, u64::MAX >> 1);
                }
            }
        }
        refused(rng, made, MODULE, 3, 0)
    }),
    row("object: table past the end", BOUNDS, |rng| {
        let mut made = rich(rng);
        let n = any_table(rng, &made);
        past_the_end(rng, &mut made, n)?;
        bounds(rng, made, n)
    }),
    row("object: empty table past the end", BOUNDS, |rng| {
        let mut made = rich(rng);
        let n = any_table(rng, &made);
        let [near, next, most, half] = far_offsets(&made);
        let far = rng.pick(&[near, near, next, most, half]);
        let table = [Part::RelocationCount, Part::RelocationPointer];
        empty_table(&mut made, n, table, far);
        bounds(rng, made, n)
    }),
    row("object: bounds before a later module 3", BOUNDS, |rng| {
        let mut made = rich(rng);
        let tables = made.sections_of(&[TEXT, DATA]);
        let (n, later) = (tables[0], *tables.last()?);
        past_the_end(rng, &mut made, n)?;
        made.put_part(later, Part::Pointer, 0);
        bounds(rng, made, n)
    }),
    row("object: no overflow header", BOUNDS, |rng| {
        let mut made = narrow_with_header(rng);
        let n = any_table(rng, &made);
        let header = one_of(rng, &made, OVRFLO);
        overflow(&mut made, n, header);
        match rng.below(4) {
            0 => made.put_part(header, Part::RelocationCount, n + 1),
            1 => made.put_part(header, Part::RelocationCount, 0),
            2 => made.put_part(header, Part::RelocationCount, n + 0x100),
            _ => made.put_part(header, Part::Flags, DELETED),
        }
        other_headers(&mut made, header);
        bounds(rng, made, n)
    }),
    row("object: two overflow headers", BOUNDS, |rng| {
        let mut made = narrow_with_header(rng);
        let headers = made.sections_of(&[OVRFLO]);
        if headers.len() < 2 {
            return None;
        }
        let n = any_table(rng, &made);
        let count = made.part(n, Part::RelocationCount);
        other_headers(&mut made, 0);
        made.put_part(n, Part::RelocationCount, 65_535);
        for header in &headers[..2] {
            made.put_part(*header, Part::RelocationCount, n);
            made.put_part(*header, Part::Paddr, count);
        }
        bounds(rng, made, n)
    }),
    row("object: overflowed table past the end", BOUNDS, |rng| {
        let mut made = narrow_with_header(rng);
        let n = any_table(rng, &made);
        let header = one_of(rng, &made, OVRFLO);
        other_headers(&mut made, header);
        overflow(&mut made, n, header);
        let room = (made.bytes.len() as u64 - made.part(n, Part::RelocationPointer)) / 10;
        let count = rng.pick(&[room + 1, room + 2, 0x1999_999A, 0xFFFF_FFFF]);
        made.put_part(header, Part::Paddr, count);
        bounds(rng, made, n)
    }),
    row("object: lrel type", LREL, |rng| {
        let mut made = rich(rng);
        let i = any_row(rng, &made)?;
        let kind = rng.pick(&[
            0x02, 0x03, 0x05, 0x06, 0x09, 0x0B, 0x0E, 0x10, 0x12, 0x13, 0x17, 0x19, 0x1B, 0x20,
            0x28, 0x4A, 0x80, 0x8F, 0xFF,
        ]);
        made.set_row(i, RowPart::Kind, kind);
        lrel(rng, made, i)
    }),
    row("object: lrel width", LREL, |rng| {
        let mut made = rich(rng);
        let i = row_where(rng, &made, |sort| sort != Sort::Branch)?;
        let mut widths = vec![26, 26, 26, 1, 8, 16, 31, 33, 63];
        if made.bits == 32 {
            widths.extend([64, 64]);
        }
        let width: u64 = rng.pick(&widths);
        made.set_row(i, RowPart::Size, rng.below(4) << 6 | (width - 1));
        lrel(rng, made, i)
    }),
    row("object: lrel width of a branch", LREL, |rng| {
        let mut made = rich(rng);
        let i = row_where(rng, &made, |sort| sort == Sort::Branch)?;
        let width: u64 = rng.pick(&[32, 32, 32, 32, 64, 1, 14, 25, 27]);
        made.set_row(i, RowPart::Size, rng.below(4) << 6 | (width - 1));
        lrel(rng, made, i)
    }),
    row("object: lrel field outside", LREL, |rng| {
        let mut made = rich(rng);
        let i = row_where(rng, &made, |_| true)?;
        let n = made.rows[i].section;
        let (start, size) = (made.part(n, Part::Paddr), section_size(&made, n));
        let length = sort_of(&made, i)?.length();
        let most = (top(made.bits) - 1) as u64;
        let end = u128::from(start) + u128::from(size);
        let past = end - u128::from(length) + 1;
        let other = one_of(rng, &made, BSS);
        let choices = [
            past,
            past + u128::from(rng.below(length)),
            end,
            u128::from(start.wrapping_sub(1)),
            u128::from(start.wrapping_sub(length)),
            u128::from(most),
            u128::from(made.part(other, Part::Paddr)),
            0,
        ];
        let address = rng.pick(&choices);
        let inside = address >= start.into() && address < past;
        if address > most.into() || inside {
            return None;
        }
        made.set_row(i, RowPart::Address, address as u64);
        lrel(rng, made, i)
    }),
    row("object: lrel symbol past the table", LREL, |rng| {
        let mut made = rich(rng);
        let i = any_row(rng, &made)?;
        let count = made.symbol_count;
        let past = [count, count + 1, 0x8000_0000, 0xFFFF_FFFE, 0xFFFF_FFFF];
        made.set_row(i, RowPart::Symbol, rng.pick(&past));
        lrel(rng, made, i)
    }),
    row("object: lrel without symbols", LREL, |rng| {
        let mut made = rich(rng);
        made.put(made.nsyms_field(), 0);
        lrel(rng, made, 0)
    }),
    row("object: lrel symbol's AUX", LREL, |rng| {
        unread(rng, |rng, made, index| {
            let left = made.symbol_count - index - 1;
            let at = made.symbol_at(index) + 17;
            made.bytes[at] = rng.pick(&[left as u8 + 1, 255]);
            Some(())
        })
    }),
    row("object: lrel symbol's SECTION", LREL, |rng| {
        unread(rng, |rng, made, index| {
            let count = made.flags.len() as u64;
            let number = rng.pick(&[count + 1, 0x7FFF, 0x8000, 0xFFFD]);
            made.set_symbol_section(index, number);
            Some(())
        })
    }),
    row("object: lrel symbol's NAME", LREL, |rng| {
        unread(rng, |rng, made, index| {
            made.set_class(index, 2);
            let length = made.strings_length as u64;
            made.set_name_offset(index, rng.pick(&[1, 3, length, 0xFFFF_FFFF]));
            Some(())
        })
    }),
    row("object: lrel symbol's VISIBILITY", LREL, |rng| {
        unread(rng, |rng, made, index| {
            if made.bits != 32 || made.opthdr < 4 {
                return None;
            }
            made.put(made.version_field(), 2);
            // No other type is one now.
            for symbol in made.symbols.clone() {
                set_type(made, symbol.index, 0);
            }
            made.set_class(index, 107);
            made.set_name_offset(index, 0);
            set_type(made, index, rng.between(5, 7) << 12);
            Some(())
        })
    }),
    row("object: overlap", OVERLAP, |rng| {
        let made = rich(rng);
        let (earlier, later) = two_rows(rng, &made)?;
        let (one, other) = (sort_of(&made, earlier)?, sort_of(&made, later)?);
        let start = u128::from(made.rows[earlier].address);
        let address = if rng.chance(50) {
            start + u128::from(rng.below(one.length()))
        } else {
            start.checked_sub(u128::from(rng.below(other.length())))?
        };
        let same = address == start && one == other;
        let one_field = address == start && one.length() == other.length();
        if same || one_field {
            return None;
        }
        meet(rng, made, later, address)
    }),
    row("object: branch and plain on one field", OVERLAP, |rng| {
        let made = rich(rng);
        let (earlier, later) = two_rows(rng, &made)?;
        let sort = match sort_of(&made, earlier)? {
            Sort::Branch => Sort::Narrow,
            Sort::Narrow => Sort::Branch,
            Sort::Wide => return None,
        };
        meet_as(rng, made, earlier, later, sort)
    }),
    row("object: wide and narrow on one field", OVERLAP, |rng| {
        let made = rich_with(rng, |wish| wish.bits = Some(64));
        let (earlier, later) = two_rows(rng, &made)?;
        let sort = match sort_of(&made, earlier)? {
            Sort::Wide => rng.pick(&[Sort::Narrow, Sort::Branch]),
            _ => Sort::Wide,
        };
        meet_as(rng, made, earlier, later, sort)
    }),
    row("object: room 2 list", ROOM, |rng| hurt_call(rng, 0)),
    row("object: plan text", PLAN, |rng| hurt_call(rng, 1)),
    row("object: plan data", PLAN, |rng| hurt_call(rng, 2)),
    row("object: plan bss", PLAN, |rng| hurt_call(rng, 3)),
    row("object: plan, empty section", PLAN, |rng| {
        let mut made = rich_with(rng, |wish| wish.bits = Some(32));
        let n = one_of(rng, &made, BSS);
        made.put_part(n, Part::Size, 0);
        let mut list = fitting_list(rng, &made);
        list[n as usize - 1] = rng.pick(&[1 << 32, 1 << 32, u64::MAX]);
        let buffer = buffer(rng, &made);
        hurt(made, Op::ObjectBuild { list, buffer }, PLAN, n)
    }),
    row("object: room 0 buffer", ROOM, |rng| hurt_call(rng, 4)),
    row("object: range above", RANGE, |rng| {
        branches::refused(rng, Aim::Above)
    }),
    row("object: range below", RANGE, |rng| {
        branches::refused(rng, Aim::Below)
    }),
    row("object: range off a step", RANGE, |rng| {
        branches::refused(rng, Aim::Step)
    }),
    row("object: range, a sum of 2^26", RANGE, |rng| {
        branches::refused(rng, Aim::Wrap26)
    }),
    row("object: range, a sum of 2^64", RANGE, |rng| {
        branches::refused(rng, Aim::Wrap64)
    }),
    row("object: range, the lowest of two", RANGE, branches::lowest),
];

/// One of the sections with a table.
fn any_table(rng: &mut Rng, made: &Made) -> u64 {
    rng.pick(&made.sections_of(&[TEXT, DATA]))
}

fn one_of(rng: &mut Rng, made: &Made, kind: u64) -> u64 {
    rng.pick(&made.sections_of(&[kind]))
}

fn narrow_with_header(rng: &mut Rng) -> Made {
    let mut made = rich_with(rng, |wish| {
        wish.bits = Some(32);
        wish.kinds = vec![OVRFLO, OVRFLO];
    });
    // Each table's own count again.
    for n in made.sections_of(&[TEXT, DATA]) {
        let rows = made.rows.iter().filter(|row| row.section == n).count();
        made.put_part(n, Part::RelocationCount, rows as u64);
    }
    made
}

/// All overflow headers but one name no section.
fn other_headers(made: &mut Made, but: u64) {
    for header in made.sections_of(&[OVRFLO]) {
        if header != but {
            made.put_part(header, Part::RelocationCount, 0xFFFF);
        }
    }
}

/// Lets the table of section `n` pass the file's end, by its offset or its count.
fn past_the_end(rng: &mut Rng, made: &mut Made, n: u64) -> Option<()> {
    let length = made.bytes.len() as u64;
    let most = (top(made.bits) - 1) as u64;
    let each = made.row_length() as u64;
    let rows = made.rows.iter().filter(|row| row.section == n).count() as u64;
    made.put_part(n, Part::RelocationCount, rows);
    if rng.chance(60) {
        let last = length - rows * each;
        let wraps = most - rows * each + 1;
        let choices = [
            last + 1,
            last + 1,
            length,
            most,
            wraps,
            wraps.wrapping_add(4),
        ];
        let offset = rng.pick(&choices);
        if rows == 0 && offset <= length {
            return None;
        }
        made.put_part(n, Part::RelocationPointer, offset);
    } else {
        let start = made.part(n, Part::RelocationPointer);
        let room = (length - start) / each;
        let highest = if made.bits == 32 { 65_534 } else { 0xFFFF_FFFF };
        // 65,535 is no count of XCOFF32.
        let count = rng.pick(&[room + 1, room + 2, highest]);
        made.put_part(n, Part::RelocationCount, count);
    }
    Some(())
}

/// An operation that reads all entries.
fn reveal(rng: &mut Rng, made: &Made) -> Op {
    match rng.below(3) {
        0 => Op::Object,
        1 => Op::ObjectBuild {
            list: fitting_list(rng, made),
            buffer: buffer(rng, made),
        },
        _ => Op::ObjectMove {
            from: fitting_list(rng, made),
            to: fitting_list(rng, made),
            buffer: buffer(rng, made),
        },
    }
}

fn refused(rng: &mut Rng, made: Made, number: u64, item: u64, at: usize) -> Option<Hurt> {
    let op = reveal(rng, &made);
    let refusal = Refusal {
        number,
        item,
        offset: at as u64,
    };
    Some(Hurt { made, op, refusal })
}

fn bounds(rng: &mut Rng, made: Made, n: u64) -> Option<Hurt> {
    let at = made.section_at(n);
    refused(rng, made, BOUNDS, n, at)
}

fn lrel(rng: &mut Rng, made: Made, i: usize) -> Option<Hurt> {
    let at = made.rows[i].at;
    refused(rng, made, LREL, i as u64, at)
}

fn any_row(rng: &mut Rng, made: &Made) -> Option<usize> {
    Some(rng.below(made.rows.len() as u64) as usize)
}

/// The sort of a row's field; none for type 0F.
fn sort_of(made: &Made, i: usize) -> Option<Sort> {
    let row = &made.rows[i];
    match (row.kind, row.size & 0x3F) {
        (0x0F, _) => None,
        (0x08 | 0x18 | 0x0A | 0x1A, _) => Some(Sort::Branch),
        (_, 63) => Some(Sort::Wide),
        _ => Some(Sort::Narrow),
    }
}

fn row_where(rng: &mut Rng, made: &Made, fits: fn(Sort) -> bool) -> Option<usize> {
    let all: Vec<usize> = (0..made.rows.len())
        .filter(|&i| sort_of(made, i).is_some_and(fits))
        .collect();
    if all.is_empty() {
        return None;
    }
    Some(rng.pick(&all))
}

/// Two rows of one section that have fields, the earlier one first.
fn two_rows(rng: &mut Rng, made: &Made) -> Option<(usize, usize)> {
    let one = row_where(rng, made, |_| true)?;
    let other = row_where(rng, made, |_| true)?;
    if one == other || made.rows[one].section != made.rows[other].section {
        return None;
    }
    Some((one.min(other), one.max(other)))
}

/// Moves the row's field to this address, where it meets an earlier one.
fn meet(rng: &mut Rng, mut made: Made, later: usize, address: u128) -> Option<Hurt> {
    let n = made.rows[later].section;
    let start = u128::from(made.part(n, Part::Paddr));
    let end = start + u128::from(section_size(&made, n));
    let length = u128::from(sort_of(&made, later)?.length());
    if address < start || address + length > end {
        return None;
    }
    made.set_row(later, RowPart::Address, address as u64);
    let at = made.rows[later].at;
    refused(rng, made, OVERLAP, later as u64, at)
}

/// The same at the earlier one's own address, with a field of this sort.
fn meet_as(
    rng: &mut Rng,
    mut made: Made,
    earlier: usize,
    later: usize,
    sort: Sort,
) -> Option<Hurt> {
    made.set_row(later, RowPart::Size, sort.size(rng));
    made.set_row(later, RowPart::Kind, sort.kind(rng));
    let address = made.rows[earlier].address.into();
    meet(rng, made, later, address)
}

/// Spoils a symbol that rows name: the first of these is given.
fn unread(rng: &mut Rng, spoil: fn(&mut Rng, &mut Made, u64) -> Option<()>) -> Option<Hurt> {
    let mut made = rich(rng);
    let i = any_row(rng, &made)?;
    let index = made.rows[i].symbol;
    spoil(rng, &mut made, index)?;
    let first = made.rows.iter().position(|row| row.symbol == index)?;
    lrel(rng, made, first)
}

fn set_type(made: &mut Made, index: u64, kind: u64) {
    let at = made.symbol_at(index) + 14;
    crate::bytes::put(&mut made.bytes, at, 2, kind);
}

/// A build or a move in which problem `aim` is the first; later ones may be there
/// too. Problems: 0 list, 1 text, 2 data, 3 bss, 4 buffer.
fn hurt_call(rng: &mut Rng, aim: u64) -> Option<Hurt> {
    let made = rich(rng);
    let mut from = fitting_list(rng, &made);
    let mut to = fitting_list(rng, &made);
    let mut buffer = buffer(rng, &made);
    let build = rng.chance(40);
    let spoilt = if build || rng.chance(50) {
        &mut from
    } else {
        &mut to
    };
    let mut item = 0;
    if aim == 4 || rng.chance(30) {
        wrong_length(rng, &mut buffer);
    }
    if (1..=3).contains(&aim) {
        let kind = [TEXT, DATA, BSS][aim as usize - 1];
        item = one_of(rng, &made, kind);
        let size = section_size(&made, item);
        spoilt[item as usize - 1] = past_end(rng, made.bits, size)?;
        // The first of two.
        let later = (item + 1..=made.flags.len() as u64).find(|&n| has_address(&made, n));
        if let Some(n) = later.filter(|_| rng.chance(40)) {
            let size = section_size(&made, n);
            spoilt[n as usize - 1] = past_end(rng, made.bits, size)?;
        }
    }
    if aim == 0 {
        let right = spoilt.len();
        let wrong = rng.pick(&[0, right - 1, right + 1, right + 32]);
        spoilt.resize(wrong, 7);
        item = 2;
    }
    let op = if build {
        Op::ObjectBuild { list: from, buffer }
    } else {
        Op::ObjectMove { from, to, buffer }
    };
    let number = if (1..=3).contains(&aim) { PLAN } else { ROOM };
    hurt(made, op, number, item)
}
