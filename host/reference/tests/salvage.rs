//! Request 12: salvage of damaged symbol tables.

use reference::bytes::{number, put};
use reference::generate::{case, Op};
use reference::*;

/// A file without sections, of version 2 in XCOFF32, with these entries: name offset,
/// section, type, class, auxiliaries; a string table of one name follows.
fn file(bits: u64, entries: &[[u64; 5]]) -> Vec<u8> {
    let narrow = bits == 32;
    let by = |one: usize, other: usize| if narrow { one } else { other };
    let start = by(20, 24) + 4;
    let mut file = vec![0; start];
    put(&mut file, 0, 2, if narrow { 0x01DF } else { 0x01F7 });
    put(&mut file, 8, by(4, 8), start as u64);
    put(&mut file, by(12, 20), 4, entries.len() as u64);
    put(&mut file, 16, 2, 4);
    put(&mut file, start - 2, 2, 2);
    for &[name, section, kind, class, auxiliaries] in entries {
        let mut entry = [0; 18];
        put(&mut entry, by(4, 8), 4, name);
        put(&mut entry, 12, 2, section);
        put(&mut entry, 14, 2, kind);
        put(&mut entry, 16, 1, class);
        put(&mut entry, 17, 1, auxiliaries);
        file.extend_from_slice(&entry);
    }
    file.extend_from_slice(&[0, 0, 0, 6, b'n', 0]);
    file
}

/// The changes, and the copy.
fn salvaged(file: &[u8]) -> (Vec<(u64, u64)>, Vec<u8>) {
    let mut copy = vec![7; file.len()];
    let mut report = vec![7; 100];
    let count = salvage(file, &mut copy, &mut report).unwrap() as usize;
    assert!(report[8 * count..].iter().all(|&byte| byte == 7));
    let change = |row: &[u8]| (number(row, 0, 4), number(row, 4, 4));
    (report[..8 * count].chunks(8).map(change).collect(), copy)
}

#[test]
fn each_fault_and_all_of_them() {
    let entries = [
        [4, 0, 0, 2, 0],
        [5, 0xFFFE, 0x4FFF, 2, 0],
        [9, 0, 0, 3, 0],
        [4, 1, 0, 3, 0],
        [0, 0, 0x5321, 107, 0],
        [1, 0x8000, 0xF123, 2, 9],
        [9, 9, 0x7000, 2, 99],
    ];
    let bytes = file(32, &entries);
    let (changes, copy) = salvaged(&bytes);
    let expected = [
        (2, NAME),
        (3, SECTION),
        (4, VISIBILITY),
        (5, AUX),
        (5, SECTION),
        (5, NAME),
        (5, VISIBILITY),
    ];
    assert_eq!(changes, expected);
    // The last entry belongs to the one before it now.
    let mut mended = entries;
    mended[2] = [0, 0, 0, 3, 0];
    mended[3] = [4, 0, 0, 3, 0];
    mended[4] = [0, 0, 0x0321, 107, 0];
    mended[5] = [0, 0, 0x8123, 2, 1];
    assert_eq!(copy, file(32, &mended));
    let found = walk(&copy).unwrap();
    assert_eq!((found.visited, found.end, found.refusal), (6, 7, None));
}

#[test]
fn types_are_plain_numbers_in_xcoff64() {
    let bytes = file(64, &[[1, 0, 0x7000, 2, 0], [0x80, 0xFFFD, 0, 0x80, 1]]);
    let (changes, copy) = salvaged(&bytes);
    assert_eq!(changes, [(0, NAME), (1, AUX), (1, SECTION), (1, NAME)]);
    let mended = [[0, 0, 0x7000, 2, 0], [0, 0, 0, 0x80, 0]];
    assert_eq!(copy, file(64, &mended));
}

#[test]
fn order_of_refusals() {
    let refused = |file: &[u8], copy: usize, report: usize| {
        let (mut copy, mut report) = (vec![7; copy], vec![7; report]);
        let refusal = salvage(file, &mut copy, &mut report).unwrap_err();
        assert!(copy.iter().chain(&report).all(|&byte| byte == 7));
        (refusal.number, refusal.item, refusal.offset)
    };
    let mut bytes = file(32, &[[1, 0, 0, 2, 0]]);
    let length = bytes.len();
    assert_eq!(refused(&bytes, length, 7), (LIMIT, 5, 0));
    assert_eq!(refused(&bytes, length - 1, 7), (ROOM, 0, 0));
    let mut report = [7; 8];
    let mut copy = vec![7; length];
    assert_eq!(salvage(&bytes, &mut copy, &mut report), Ok(1));
    assert_eq!(report, [0, 0, 0, 0, 0, 0, 0, 10]);
    // One byte of the header area; the table ends with the file.
    bytes.truncate(23 + 18);
    put(&mut bytes, 8, 4, 23);
    assert_eq!(refused(&bytes, 1, 0), (SHARED, 0, 0));
    bytes.truncate(22);
    assert_eq!(refused(&bytes, 1, 0), (SHORT, 0, 0));
}

#[test]
fn nothing_to_do() {
    for bits in [32, 64] {
        let mut bytes = file(bits, &[[4, 0, 0, 3, 0]]);
        let (changes, copy) = salvaged(&bytes);
        assert!(changes.is_empty() && copy == bytes);
        // Without symbols no table shares anything, wherever it would be.
        put(&mut bytes, if bits == 32 { 12 } else { 20 }, 4, 0);
        put(&mut bytes, 8, 4, 0);
        assert_eq!(salvage(&bytes, &mut copy.clone(), &mut []), Ok(0));
    }
}

/// Over all generated cases: the copy's walk reaches the end, only fields that are
/// reported differ, and salvaging the copy changes nothing.
#[test]
fn the_copy_walks_to_the_end() {
    let mut mended = 0;
    for seed in 0..6_000 {
        let case = case(seed);
        for op in &case.ops {
            let Op::Salvage { copy, report } = op else {
                continue;
            };
            let (mut after, mut rows) = (copy.clone(), report.clone());
            match salvage(&case.file, &mut after, &mut rows) {
                Ok(count) => {
                    judge(&case.file, &after, &rows[..8 * count as usize]);
                    assert_eq!(rows[8 * count as usize..], report[8 * count as usize..]);
                    mended += u64::from(count > 0);
                }
                Err(_) => assert_eq!((&after, &rows), (copy, report)),
            }
        }
    }
    assert!(mended > 100, "{mended} files were mended");
}

fn judge(file: &[u8], copy: &[u8], report: &[u8]) {
    let summary = open(file).unwrap();
    assert_eq!(open(copy), Ok(summary.clone()));
    let found = walk(copy).unwrap();
    assert_eq!((found.end, found.refusal), (summary.symbols, None));
    assert_eq!(mends(copy), Ok(Vec::new()));
    let mut mask = vec![0u8; file.len()];
    for row in report.chunks(8) {
        let at = summary.symptr as usize + 18 * number(row, 0, 4) as usize;
        let narrow = summary.bits == 32;
        match number(row, 4, 4) {
            AUX => mask[at + 17] = 0xFF,
            SECTION => mask[at + 12..at + 14].fill(0xFF),
            NAME => mask[at + if narrow { 4 } else { 8 }..][..4].fill(0xFF),
            VISIBILITY => mask[at + 14] |= 0x70,
            other => panic!("reported {other}"),
        }
    }
    for i in 0..file.len() {
        assert_eq!((file[i] ^ copy[i]) & !mask[i], 0, "byte {i}");
    }
}
