//! From address to line, on real files: the tables are those that other tools list, below and above 65,535 entries, every
//! address has the entry that a plain search of the file's bytes finds, and the debugging symbols say file and line.

use std::collections::BTreeSet;
use std::fs;
use std::path::PathBuf;
use std::process::Command;
use xcoff::{find_line, line_count, line_table, places};
use xcoff::{FoundLine, Kind, LineEntry, Refusal, Source, Sources};

fn tests_folder() -> PathBuf {
    PathBuf::from(env!("CARGO_MANIFEST_DIR")).join("../tests")
}

fn real(name: &str) -> Vec<u8> {
    let path = tests_folder().join("corpus").join(name);
    fs::read(&path).unwrap_or_else(|e| panic!("{}: {e}", path.display()))
}

/// 66,001 entries, written by gas.
fn overflowing() -> Vec<u8> {
    let path = tests_folder().join("corpus/big/gas-lnoovrflo66000-32.o.xz");
    let output = Command::new("xz").arg("-dc").arg(&path).output();
    let output = output.expect("xz is needed");
    assert!(output.status.success(), "{}", path.display());
    output.stdout
}

fn refusal(number: u64, item: u64, offset: u64) -> Refusal {
    Refusal {
        number,
        item,
        offset,
    }
}

fn number(bytes: &[u8]) -> u64 {
    bytes.iter().fold(0, |n, &byte| n << 8 | u64::from(byte))
}

fn put(file: &mut [u8], at: usize, bytes: &[u8]) {
    file[at..at + bytes.len()].copy_from_slice(bytes);
}

// ---- a plain reading of the bytes

/// An entry of a table: its value and its line.
fn entry(file: &[u8], at: usize) -> (u64, u64) {
    if file[1] == 0xDF {
        (number(&file[at..at + 4]), number(&file[at + 4..at + 6]))
    } else {
        (number(&file[at..at + 8]), number(&file[at + 8..at + 12]))
    }
}

/// The values and lines of a table, from where its first entry is.
fn entries(file: &[u8], start: usize, count: usize) -> Vec<(u64, u64)> {
    let length = if file[1] == 0xDF { 6 } else { 12 };
    let starts = (0..count).map(|n| start + n * length);
    starts.map(|at| entry(file, at)).collect()
}

/// The symbol of a function entry of XCOFF64 is the first half of its value.
fn symbol_of(file: &[u8], value: u64) -> u64 {
    if file[1] == 0xDF {
        value
    } else {
        value >> 32
    }
}

/// The entry of an address: the first of those with the greatest address not above it.
fn searched(file: &[u8], all: &[(u64, u64)], asked: u64) -> Option<FoundLine> {
    let at_most = |&(_, &(address, line)): &(usize, &(u64, u64))| line != 0 && address <= asked;
    let greatest = all
        .iter()
        .enumerate()
        .filter(at_most)
        .map(|(_, e)| e.0)
        .max()?;
    let entry = all
        .iter()
        .position(|&(a, line)| line != 0 && a == greatest)?;
    let function = all[..entry].iter().rfind(|&&(_, line)| line == 0)?;
    Some(FoundLine {
        entry: entry as u64,
        address: greatest,
        line: all[entry].1,
        symbol: symbol_of(file, function.0),
    })
}

/// Every address around the entries of section 1, and the ends.
fn compare(file: &[u8], start: usize, count: usize, step: usize) {
    let all = entries(file, start, count);
    assert_eq!(line_count(file, 1), Ok(count as u64));
    let table = line_table(file, 1).expect("a line table");
    assert_eq!((table.len(), table.is_empty()), (count, false));
    for (row, &(value, line)) in table.rows().zip(&all) {
        let expected = match line {
            0 => LineEntry::Function(symbol_of(file, value)),
            _ => LineEntry::Line {
                address: value,
                line,
            },
        };
        assert_eq!(row, expected);
    }
    let addresses = all.iter().step_by(step).filter(|(_, line)| *line != 0);
    let around = addresses.flat_map(|&(a, _)| [a.wrapping_sub(1), a, a + 1, a + 3]);
    let ends = [0, 1 << 31, u64::from(u32::MAX), 1 << 32, u64::MAX];
    for asked in around.chain(ends).collect::<BTreeSet<u64>>() {
        let expected = searched(file, &all, asked).ok_or(refusal(31, 0, 0));
        assert_eq!(find_line(file, 1, asked), expected, "{asked:x}");
    }
}

// ---- tables

/// Where llvm-readobj lists the table of section 1, and how many entries it has.
#[test]
fn every_address_has_the_line_that_a_plain_search_finds() {
    for (name, start, count) in [
        ("gas-lines500-32.o", 0x8A4, 501),
        ("gas-lines500-64.o", 0x8FC, 501),
        ("gas-stabs-32.o", 0x226, 10),
        ("shr-stabs-32", 0x384, 10),
    ] {
        let file = real(name);
        let section = xcoff::section(&file, 1).expect("a section");
        assert_eq!((section.lnnoptr, section.nlnno), (start, count));
        compare(&file, start as usize, count as usize, 1);
    }
}

/// llvm-readobj lists 65,535 in both counts of section 1 and an overflow header, section 4, with 66,001 lines for section 1.
/// The source had a line for each of 66,000 instructions, from 1 to 60,000 and on from 1.
#[test]
fn a_table_above_65535_is_counted_by_its_overflow_header() {
    let file = overflowing();
    let section = xcoff::section(&file, 1).expect("text");
    assert_eq!((section.nreloc, section.nlnno), (65_535, 65_535));
    let overflow = xcoff::section(&file, 4).expect("the overflow header");
    assert_eq!(overflow.kind, Kind::Ovrflo);
    assert_eq!((overflow.paddr, overflow.vaddr), (0, 66_001));
    assert_eq!((overflow.nreloc, overflow.nlnno), (1, 1));
    compare(&file, 0x40814, 66_001, 997);
    for n in [0, 1, 59_999, 60_000, 65_533, 65_534, 65_535, 65_999] {
        let expected = FoundLine {
            entry: n + 1,
            address: 4 * n,
            line: n % 60_000 + 1,
            symbol: 4,
        };
        assert_eq!(find_line(&file, 1, 4 * n), Ok(expected));
        assert_eq!(find_line(&file, 1, 4 * n + 3), Ok(expected));
    }
}

/// Headers of section 1 and 4 of the file above; XCOFF32.
#[test]
fn an_overflow_header_must_be_there_exactly_once() {
    let file = overflowing();
    let header = |n: usize| 20 + 28 + 40 * (n - 1);
    let bounds = Err(refusal(5, 1, header(1) as u64));
    let changed = |at: usize, bytes: &[u8]| {
        let mut file = file.clone();
        put(&mut file, at, bytes);
        find_line(&file, 1, 8).map(|found| found.entry)
    };
    assert_eq!(changed(0x40814, &[0, 0, 0, 4]), Ok(3));
    // It names another section, is another kind, or is deleted.
    assert_eq!(changed(header(4) + 32, &[0, 2]), bounds);
    assert_eq!(changed(header(4) + 36, &[0, 0, 2, 0]), bounds);
    assert_eq!(changed(header(4) + 36, &[0xFF; 4]), bounds);
    // A section is named by the count of relocation entries alone.
    assert_eq!(changed(header(4) + 34, &[0, 2]), Ok(3));
    // A second one: the bss section's header.
    let mut second = file.clone();
    let copy = file[header(4)..header(5)].to_vec();
    put(&mut second, header(3), &copy);
    assert_eq!(find_line(&second, 1, 8).map(|f| f.entry), bounds);
    // Its count goes to the file's end and not past it.
    let rest = (file.len() - 0x40814) as u32 / 6;
    let count = |n: u32| changed(header(4) + 12, &n.to_be_bytes());
    assert_eq!(count(3), Ok(2));
    assert!(count(rest).is_ok());
    assert_eq!(count(rest + 1), bounds);
    assert_eq!(count(u32::MAX), bounds);
    // Of a count below 65,535 no overflow header is asked for.
    assert_eq!(changed(header(1) + 34, &[0, 3]), Ok(2));
}

// ---- refusals, and what they show

#[test]
fn only_text_sections_have_lines() {
    let file = real("gas-stabs-32.o");
    for section in [0, 2, 3, 4, 5, 1 << 32, u64::MAX] {
        let index = refusal(8, section, 0);
        assert_eq!(find_line(&file, section, 0), Err(index));
        assert_eq!(line_count(&file, section), Err(index));
        assert_eq!(line_table(&file, section).map(|t| t.len()), Err(index));
    }
    let file = &file[..10];
    assert_eq!(find_line(file, 1, 0), Err(refusal(1, 0, 0)));
}

#[test]
fn a_table_past_the_end_shows_its_fields() {
    for (name, start, pointer, count) in [
        ("gas-stabs-32.o", 20, 28, 34),
        ("gas-stabs-64.o", 24, 48, 60),
    ] {
        let mut file = real(name);
        let length = file.len() as u64;
        let header = start + number(&file[16..18]) as usize;
        let wide = file[1] == 0xF7;
        let bytes = |n: u64| n.to_be_bytes()[if wide { 0 } else { 4 }..].to_vec();
        put(&mut file, header + pointer, &bytes(length - 5));
        let bounds = refusal(5, 1, header as u64);
        assert_eq!(find_line(&file, 1, 0), Err(bounds), "{name}");
        assert_eq!(line_count(&file, 1), Err(bounds));
        let shown = places(&file, &bounds);
        let fields = shown[0].fields.iter();
        let fields: Vec<_> = fields
            .map(|f| (f.name, f.offset, f.value.to_string()))
            .collect();
        let expected = [
            (
                "s_lnnoptr",
                (header + pointer) as u64,
                (length - 5).to_string(),
            ),
            ("s_nlnno", (header + count) as u64, "10".to_string()),
        ];
        assert_eq!(fields, expected);
    }
}

/// GROUP is said of the table, whatever address is asked for.
#[test]
fn a_line_before_any_function_is_refused_before_anything_is_found() {
    let mut file = real("gas-lines500-32.o");
    for line in [1u16, 65_535] {
        put(&mut file, 0x8A4 + 4, &line.to_be_bytes());
        for asked in [0, 4, u64::MAX] {
            assert_eq!(find_line(&file, 1, asked), Err(refusal(32, 0, 0)));
        }
    }
    // The table itself is listed as it is.
    let first = line_table(&file, 1).expect("a table").rows().next();
    let line = LineEntry::Line {
        address: 4,
        line: 65_535,
    };
    assert_eq!(first, Some(line));
}

/// A table without entries, or with functions alone, has no line.
#[test]
fn nothing_at_or_below_the_address_is_no_line() {
    let mut file = real("gas-lines500-32.o");
    let header = 48;
    for count in [0u16, 1] {
        put(&mut file, header + 34, &count.to_be_bytes());
        assert_eq!(find_line(&file, 1, u64::MAX), Err(refusal(31, 0, 0)));
        assert_eq!(line_count(&file, 1), Ok(count.into()));
    }
    let file = real("shr-stabs-32");
    assert_eq!(find_line(&file, 1, 0x1000_013F), Err(refusal(31, 0, 0)));
    assert!(find_line(&file, 1, 0x1000_0140).is_ok());
}

// ---- what the symbols say

fn source_at(file: &[u8], address: u64) -> Source<'_> {
    let section = xcoff::section(file, 1).expect("a section");
    let found = find_line(file, 1, address).expect("a line");
    let sources = Sources::read(file).expect("symbols");
    sources.of(&section, &found)
}

fn says(line: Option<u64>, file: Option<&[u8]>) -> Source<'_> {
    Source { line, file }
}

/// Where symbol `i` of gas-stabs-32.o is.
fn symbol_at(file: &[u8], i: usize) -> usize {
    number(&file[8..12]) as usize + 18 * i
}

const CLASS: usize = 16;

#[test]
fn a_line_in_the_source_needs_the_bf_of_its_function() {
    let file = real("gas-stabs-32.o");
    assert_eq!(source_at(&file, 0xC), says(Some(14), Some(b"stabs.c")));
    assert_eq!(source_at(&file, 0x1C), says(Some(21), Some(b"stabs.c")));
    let bf = symbol_at(&file, 10);
    let without = says(None, Some(b"stabs.c"));
    let change = |at: usize, bytes: &[u8]| {
        let mut file = file.clone();
        put(&mut file, at, bytes);
        let found = source_at(&file, 0xC);
        let (line, name) = (found.line, found.file.map(<[u8]>::to_vec));
        assert_eq!(source_at(&file, 0x1C).line, Some(21), "the other function");
        (line, name)
    };
    let none = (None, without.file.map(<[u8]>::to_vec));
    // Another name, another section, a start in line 0.
    assert_eq!(change(bf, b".ef\0"), none);
    assert_eq!(change(bf + 12, &[0, 2]), none);
    assert_eq!(change(bf + 18 + 4, &[0, 0]), none);
    // 65,546: the high half counts.
    assert_eq!(change(bf + 18 + 2, &[0, 1]).0, Some(65_536 + 14));
}

#[test]
fn a_source_file_is_that_of_the_last_file_symbol_before() {
    let file = real("gas-stabs-32.o");
    let start = symbol_at(&file, 0);
    let with = |at: usize, bytes: &[u8]| {
        let mut file = file.clone();
        put(&mut file, start + at, bytes);
        source_at(&file, 0xC).file.map(<[u8]>::to_vec)
    };
    assert_eq!(with(18, b"other.c\0"), Some(b"other.c".to_vec()));
    assert_eq!(
        with(18, b"fourteen.bytes"),
        Some(b"fourteen.bytes".to_vec())
    );
    // A name in the string table, and none there: past its end, or in the length itself.
    let strings = symbol_at(&file, number(&file[12..16]) as usize);
    let name = file[strings + 4..]
        .split(|&b| b == 0)
        .next()
        .expect("a string");
    assert_eq!(with(18, &[0, 0, 0, 0, 0, 0, 0, 4]), Some(name.to_vec()));
    assert_eq!(with(18, &[0, 0, 0, 0, 0, 0, 0, 3]), None);
    assert_eq!(with(18, &[0, 0, 0, 0, 0xFF, 0xFF, 0xFF, 0xFF]), None);
    // The entry is of another type; the symbol has the name itself.
    assert_eq!(with(18 + 14, &[1]), None);
    let mut own = file.clone();
    put(&mut own, start, b"own.c\0\0\0");
    put(&mut own, start + 18 + 14, &[2]);
    assert_eq!(source_at(&own, 0xC).file, Some(&b"own.c"[..]));
    // No file at all.
    assert_eq!(with(CLASS, &[0]), None);
}

/// Symbols 4 and 5 begin and end an included file: entries 2 to 4 of the table come from it.
#[test]
fn lines_of_an_included_file_are_not_counted_from_the_function() {
    let mut file = real("gas-stabs-32.o");
    for (i, class, entry) in [(4, 108, 2), (5, 109, 4u32)] {
        let at = symbol_at(&file, i);
        put(&mut file, at, b"inc.h\0\0\0");
        put(&mut file, at + 8, &(0x226 + 6 * entry).to_be_bytes());
        put(&mut file, at + CLASS, &[class]);
    }
    assert_eq!(source_at(&file, 0), says(Some(10), Some(b"stabs.c")));
    for address in [4, 8, 0xC, 0x10] {
        assert_eq!(source_at(&file, address), says(None, Some(b"inc.h")));
    }
    assert_eq!(source_at(&file, 0x14), says(Some(15), Some(b"stabs.c")));
}
