//! Request 5: object files, by hand and over made ones.

use reference::bytes::{number, put};
use reference::generate::make::{self, Made, Part, Wish};
use reference::generate::objects::fitting_list;
use reference::generate::rng::Rng;
use reference::generate::{case, Op};
use reference::object::{branch_value, change_branch, RangeFault};
use reference::*;

/// A section: kind, address, raw bytes (of bss its size), entries (address, symbol,
/// size, type).
struct Piece<'a> {
    kind: u64,
    address: u64,
    raw: &'a [u8],
    entries: &'a [(u64, u64, u64, u64)],
}

/// A file of these sections, with a symbol for each section number.
fn file(bits: u64, parts: &[Piece], symbols: &[u64]) -> Vec<u8> {
    let narrow = bits == 32;
    let by = |one: usize, other: usize| if narrow { one } else { other };
    let word = by(4, 8);
    let start = by(20, 24);
    let mut file = vec![0; start + by(40, 72) * parts.len()];
    put(&mut file, 0, 2, if narrow { 0x01DF } else { 0x01F7 });
    put(&mut file, 2, 2, parts.len() as u64);
    for (i, part) in parts.iter().enumerate() {
        let at = start + by(40, 72) * i;
        let raw = file.len() as u64;
        if part.kind != 0x80 {
            file.extend_from_slice(part.raw);
            put(&mut file, at + by(20, 32), word, raw);
        }
        let table = file.len() as u64;
        for &(address, symbol, size, kind) in part.entries {
            let mut entry = vec![0; by(10, 14)];
            put(&mut entry, 0, word, address);
            put(&mut entry, word, 4, symbol);
            put(&mut entry, by(8, 12), 1, size);
            put(&mut entry, by(9, 13), 1, kind);
            file.extend(entry);
        }
        put(&mut file, at + 8, word, part.address);
        put(&mut file, at + by(12, 16), word, part.address);
        put(&mut file, at + by(16, 24), word, part.raw.len() as u64);
        put(&mut file, at + by(24, 40), word, table);
        put(
            &mut file,
            at + by(32, 56),
            by(2, 4),
            part.entries.len() as u64,
        );
        put(&mut file, at + by(36, 64), 4, part.kind);
    }
    let table = file.len() as u64;
    put(&mut file, 8, word, table);
    put(&mut file, by(12, 20), 4, symbols.len() as u64);
    for &section in symbols {
        let mut entry = [0; 18];
        put(&mut entry, 12, 2, section);
        file.extend_from_slice(&entry);
    }
    file
}

fn text<'a>(address: u64, raw: &'a [u8], entries: &'a [(u64, u64, u64, u64)]) -> Piece<'a> {
    Piece {
        kind: 0x20,
        address,
        raw,
        entries,
    }
}

fn data<'a>(address: u64, raw: &'a [u8], entries: &'a [(u64, u64, u64, u64)]) -> Piece<'a> {
    Piece {
        kind: 0x40,
        address,
        raw,
        entries,
    }
}

fn pair(refusal: Refusal) -> (u64, u64) {
    (refusal.number, refusal.item)
}

#[test]
fn values_of_branches() {
    assert_eq!(branch_value(0x4800_0001), 0);
    assert_eq!(branch_value(0x49FF_FFFF), 33_554_428);
    assert_eq!(branch_value(0x4A00_0003), -33_554_432);
    assert_eq!(change_branch(0x4BFF_FFFF, 8), Ok(0x4800_0007));
    assert_eq!(change_branch(0x4800_0003, -4), Ok(0x4BFF_FFFF));
    assert_eq!(change_branch(0x49FF_FFFD, 4), Err(RangeFault::Outside));
    assert_eq!(change_branch(0x4A00_0000, -4), Err(RangeFault::Outside));
    assert_eq!(
        change_branch(0x4800_0000, 1 << 26),
        Err(RangeFault::Outside)
    );
    assert_eq!(
        change_branch(0x4800_0000, 1 << 64),
        Err(RangeFault::Outside)
    );
    assert_eq!(change_branch(0x4800_0000, 2), Err(RangeFault::Step));
}

#[test]
fn entries_on_two_sections() {
    // Symbol 0 in text, 1 in data, 2 nowhere.
    for bits in [32, 64] {
        let code = [0x48, 0, 0, 1, 0x48, 0, 1, 0, 1, 2, 3];
        let of_text = [
            (0x1000, 1, 25, 0x1A),
            (0x1004, 0, 25, 0x08),
            (0x9999, 2, 77, 0x0F),
        ];
        let of_data = [(0x2000, 0, 31, 0x00), (0x2000, 1, 31, 0x01)];
        let parts = [
            text(0x1000, &code, &of_text),
            data(0x2000, &[0, 0, 0x10, 4, 9], &of_data),
        ];
        let file = file(bits, &parts, &[1, 2, 0]);
        let found = object(&file).unwrap();
        assert_eq!((found.length, found.entries.len()), (16, 5));
        let mut buffer = [0; 16];
        // Text up by 100 hex, data by 40 hex.
        object_build(&file, &[0x1100, 0x2040], &mut buffer).unwrap();
        let expected = [
            0x4B, 0xFF, 0xFF, 0x41, 0x48, 0, 2, 0, 1, 2, 3, 0, 0, 0x10, 0xC4, 9,
        ];
        assert_eq!(buffer, expected);
        object_move(&file, &[0x1100, 0x2040], &[0x1000, 0x2000], &mut buffer).unwrap();
        assert_eq!(buffer[..11], code);
        assert_eq!(buffer[11..], [0, 0, 0x10, 4, 9]);
    }
}

#[test]
fn the_end_of_the_range() {
    let raw = 0x49FF_FFF0u32.to_be_bytes();
    let entries = [(0, 0, 25, 0x18), (0, 0, 25, 0x0A)];
    let file = file(32, &[text(0, &raw, &entries), data(0, &[], &[])], &[2]);
    let at = |address| {
        let mut buffer = [7; 4];
        let result = object_build(&file, &[0, address], &mut buffer);
        result.map(|()| number(&buffer, 0, 4)).map_err(pair)
    };
    assert_eq!(at(4), Ok(0x49FF_FFF8));
    assert_eq!(at(6), Ok(0x49FF_FFFC));
    assert_eq!(at(7), Err((RANGE, 0)));
    assert_eq!(at(5), Err((RANGE, 0)));
    assert_eq!(at(8), Err((RANGE, 0)));
    assert_eq!(at(0xFFFF_FFFC), Err((RANGE, 0)));
    // The bytes of the buffer count in a move, not those of the file.
    let mut buffer = 0x4800_0000u32.to_be_bytes();
    object_move(&file, &[0, 0], &[0, 8], &mut buffer).unwrap();
    assert_eq!(number(&buffer, 0, 4), 0x4800_0010);
    let moved = object_move(&file, &[0, 8], &[0, 1 << 26], &mut buffer);
    assert_eq!(moved.map_err(pair), Err((RANGE, 0)));
    assert_eq!(number(&buffer, 0, 4), 0x4800_0010);
}

#[test]
fn the_lowest_entry_of_a_bad_word() {
    let entries = [
        (4, 1, 25, 0x18),
        (0, 0, 25, 0x18),
        (4, 0, 25, 0x18),
        (8, 0, 31, 0x00),
    ];
    let parts = [text(0, &[0; 12], &entries), data(0, &[], &[])];
    let file = file(64, &parts, &[2, 0]);
    let mut buffer = [0; 12];
    let refusal = object_build(&file, &[0, 1 << 60], &mut buffer).unwrap_err();
    // Entry 0 moves by nothing, but its word is bad.
    let at = object(&file).unwrap().entries[0].at as u64;
    assert_eq!((pair(refusal), refusal.offset), ((RANGE, 0), at));
    object_build(&file, &[0, 0x1000], &mut buffer).unwrap();
    assert_eq!(number(&buffer, 4, 4), 0x1000);
}

#[test]
fn plans_and_buffers() {
    let bss = Piece {
        kind: 0x80,
        address: 0,
        raw: &[0; 8],
        entries: &[],
    };
    let parts = [text(0, &[1, 2, 3, 4], &[]), bss, data(0, &[5], &[])];
    for bits in [32, 64] {
        let file = file(bits, &parts, &[]);
        let top = if bits == 32 { 1u128 << 32 } else { 1 << 64 };
        let end = |size: u128| (top - size) as u64;
        let built = |list: &[u64], length| {
            let mut buffer = vec![9; length];
            object_build(&file, list, &mut buffer).map_err(pair)
        };
        assert_eq!(built(&[end(4), end(8), end(1)], 5), Ok(()));
        assert_eq!(built(&[end(3), end(7), 0], 9), Err((PLAN, 1)));
        assert_eq!(built(&[end(4), end(7), 0], 9), Err((PLAN, 2)));
        assert_eq!(built(&[end(4), end(8), 0], 9), Err((ROOM, 0)));
        assert_eq!(built(&[u64::MAX, 0], 5), Err((ROOM, 2)));
        let wide = built(&[0, 0, 1 << 32], 5);
        assert_eq!(wide, if bits == 32 { Err((PLAN, 3)) } else { Ok(()) });
    }
}

#[test]
fn made_objects_are_read_as_made() {
    let mut entries = 0;
    for seed in 0..3_000 {
        let mut rng = Rng::new(seed);
        let wish = Wish {
            rich: seed % 2 == 0,
            ..Wish::default()
        };
        let made = make::linkable(&mut rng, &wish);
        let found = object(&made.bytes).expect("a made object");
        assert_eq!(found.entries.len(), made.rows.len());
        for (entry, row) in found.entries.iter().zip(&made.rows) {
            let read = (
                entry.at,
                entry.address,
                entry.symbol,
                entry.size,
                entry.kind,
            );
            let wide = made.bits == 64;
            let address = if wide {
                row.address
            } else {
                row.address & 0xFFFF_FFFF
            };
            assert_eq!(read, (row.at, address, row.symbol, row.size, row.kind));
        }
        entries += found.entries.len();
    }
    assert!(entries > 20_000);
}

/// An object with some of everything, and what is drawn after it.
fn rich_object(seed: u64) -> (Rng, Made) {
    let mut rng = Rng::new(seed);
    let wish = Wish {
        rich: true,
        ..Wish::default()
    };
    let made = make::linkable(&mut rng, &wish);
    (rng, made)
}

/// Moves along a chain of lists give what a build for the last one gives; where a
/// branch leaves the range, nothing changes.
#[test]
fn chains_of_moves() {
    let (mut whole, mut refused) = (0, 0);
    for seed in 0..3_000 {
        let (mut rng, made) = rich_object(seed);
        let file = &made.bytes;
        let length = object(file).unwrap().length as usize;
        let mut buffer = rng.bytes(length);
        let mut at = fitting_list(&mut rng, &made);
        if object_build(file, &at, &mut buffer).is_err() {
            refused += 1;
            continue;
        }
        for _ in 0..4 {
            let to = fitting_list(&mut rng, &made);
            let before = buffer.clone();
            match object_move(file, &at, &to, &mut buffer) {
                Ok(()) => {
                    let mut fresh = vec![0x99; length];
                    object_build(file, &to, &mut fresh).unwrap();
                    assert_eq!(buffer, fresh, "seed {seed}");
                    object_move(file, &to, &at, &mut fresh).unwrap();
                    assert_eq!(before, fresh, "seed {seed}");
                    at = to;
                    whole += 1;
                }
                Err(refusal) => {
                    assert_eq!((refusal.number, &buffer), (RANGE, &before));
                    refused += 1;
                }
            }
        }
    }
    assert!(whole > 3_000 && refused > 300, "{whole}, {refused}");
}

#[test]
fn the_book_equals_running_the_calls() {
    let mut changed = 0;
    for seed in 0..6_000 {
        let case = case(seed);
        for op in &case.ops {
            if let Op::ObjectCalls { calls, buffer } = op {
                let mut run = buffer.clone();
                for (n, call) in calls.iter().enumerate() {
                    let before = run.clone();
                    if run_object_call(&case.file, call, &mut run).is_err() {
                        assert_eq!(run, before);
                    }
                    let book = object_book(&case.file, &calls[..=n], buffer);
                    assert!(book == run, "seed {seed}, call {n}");
                }
                changed += u64::from(run != *buffer);
            }
        }
    }
    assert!(changed > 100, "{changed} lists changed their buffer");
}

/// No byte changes outside the fields, and of a branch neither its top six bits nor
/// its bottom two.
#[test]
fn a_move_changes_nothing_outside_the_fields() {
    for seed in 0..3_000 {
        let (mut rng, made) = rich_object(seed);
        let found = object(&made.bytes).unwrap();
        let mut mask = vec![0u8; found.length as usize];
        for entry in &found.entries {
            match entry.width {
                0 => {}
                26 => put(&mut mask, entry.place, 4, 0x03FF_FFFC),
                width => mask[entry.place..][..width as usize / 8].fill(0xFF),
            }
        }
        let from = fitting_list(&mut rng, &made);
        let to = fitting_list(&mut rng, &made);
        let before = rng.bytes(mask.len());
        let mut after = before.clone();
        let _ = object_move(&made.bytes, &from, &to, &mut after);
        for i in 0..mask.len() {
            assert_eq!((before[i] ^ after[i]) & !mask[i], 0, "seed {seed}");
        }
    }
}

#[test]
fn counts_in_overflow_headers() {
    let mut rng = Rng::new(5);
    let wish = Wish {
        bits: Some(32),
        rich: true,
        kinds: vec![opening::OVRFLO],
        ..Wish::default()
    };
    let mut made = make::linkable(&mut rng, &wish);
    for n in made.sections_of(&[opening::TEXT, opening::DATA, opening::OVRFLO]) {
        let rows = made.rows.iter().filter(|row| row.section == n).count();
        made.put_part(n, Part::RelocationCount, rows as u64);
    }
    let n = made.sections_of(&[opening::DATA])[0];
    let header = made.sections_of(&[opening::OVRFLO])[0];
    let before = object(&made.bytes).unwrap();
    make::linkable::overflow(&mut made, n, header);
    let after = object(&made.bytes).unwrap();
    assert_eq!(before.entries, after.entries);
    // The record keeps what the header has.
    assert_eq!(section(&made.bytes, n).unwrap().nreloc, 65_535);
    made.put_part(header, Part::RelocationCount, n + 1);
    assert_eq!(pair(object(&made.bytes).unwrap_err()), (BOUNDS, n));
}
