//! Request 1: names in the debug section.

use reference::bytes::put;
use reference::*;

/// Raw data of a section without its length, and whether it has a pointer.
struct Raw(&'static [u8], bool);

/// A file with these debug sections and one entry for each class and offset.
fn file(bits: u64, sections: &[Raw], entries: &[(u64, u64)]) -> Vec<u8> {
    let (header, each) = if bits == 32 { (20, 40) } else { (24, 72) };
    let (word, size, pointer, flags) = if bits == 32 {
        (4, 16, 20, 36)
    } else {
        (8, 24, 32, 64)
    };
    let mut file = vec![0; header + each * sections.len()];
    put(&mut file, 0, 2, if bits == 32 { 0x01DF } else { 0x01F7 });
    put(&mut file, 2, 2, sections.len() as u64);
    for (i, Raw(raw, has_pointer)) in sections.iter().enumerate() {
        let at = header + each * i;
        let place = if *has_pointer { file.len() as u64 } else { 0 };
        put(&mut file, at + size, word, raw.len() as u64);
        put(&mut file, at + pointer, word, place);
        put(&mut file, at + flags, 4, 0x2000);
        file.extend_from_slice(raw);
    }
    let symbols = file.len() as u64;
    put(&mut file, 8, word, symbols);
    let count_at = if bits == 32 { 12 } else { 20 };
    put(&mut file, count_at, 4, entries.len() as u64);
    for &(class, offset) in entries {
        let mut entry = [0; 18];
        put(&mut entry, if bits == 32 { 4 } else { 8 }, 4, offset);
        put(&mut entry, 16, 1, class);
        file.extend_from_slice(&entry);
    }
    file
}

/// The name of each entry; none for NAME.
fn names(file: &[u8]) -> Vec<Option<Vec<u8>>> {
    let count = open(file).unwrap().symbols;
    let name = |index| match symbol_name(file, index) {
        Ok(range) => Some(file[range].to_vec()),
        Err(refusal) => {
            assert_eq!((refusal.number, refusal.item), (NAME, index));
            None
        }
    };
    (0..count).map(name).collect()
}

fn some(name: &str) -> Option<Vec<u8>> {
    Some(name.as_bytes().to_vec())
}

#[test]
fn lengths_of_two_bytes() {
    let raw = b"\0\x03abc\0\x04d\0ef\0\0";
    let classes = [(0x80, 2), (0xFF, 7), (0x80, 13), (0x80, 0)];
    let found = names(&file(32, &[Raw(raw, true)], &classes));
    assert_eq!(found, [some("abc"), some("d"), some(""), some("")]);
    let bad = [(0x80, 1), (0x80, 3), (0x80, 14), (0x80, 0x8000_0002)];
    assert_eq!(names(&file(32, &[Raw(raw, true)], &bad)), vec![None; 4]);
}

#[test]
fn lengths_of_four_bytes() {
    let raw = b"\0\0\0\x02ab\0\0\0\x01c\0\x01\0\0d";
    let classes = [(0x80, 4), (0x8E, 10)];
    let found = names(&file(64, &[Raw(raw, true)], &classes));
    assert_eq!(found, [some("ab"), some("c")]);
    let bad = [(0x80, 1), (0x80, 2), (0x80, 3), (0x80, 15), (0x80, 17)];
    assert_eq!(names(&file(64, &[Raw(raw, true)], &bad)), vec![None; 5]);
}

#[test]
fn a_string_up_to_the_end_and_one_past_it() {
    let entry = [(0x80, 2)];
    let name = |raw| names(&file(32, &[Raw(raw, true)], &entry))[0].clone();
    assert_eq!(name(b"\0\x02ab"), some("ab"));
    assert_eq!(name(b"\0\x03ab"), None);
    // A zero before the end doesn't help.
    assert_eq!(name(b"\0\x03\0b"), None);
    assert_eq!(name(b"\0\0"), some(""));
    assert_eq!(name(b"\0\x01"), None);
    assert_eq!(name(b"\0"), None);
}

#[test]
fn one_section_with_raw_data() {
    let entry = [(0x80, 2)];
    let good = || Raw(b"\0\x01a", true);
    let without = || Raw(b"\0\x01b", false);
    let name = |sections: &[Raw]| names(&file(32, sections, &entry))[0].clone();
    assert_eq!(name(&[]), None);
    assert_eq!(name(&[good()]), some("a"));
    assert_eq!(name(&[without()]), None);
    assert_eq!(name(&[good(), without()]), some("a"));
    assert_eq!(name(&[without(), good()]), some("a"));
    assert_eq!(name(&[good(), good()]), None);
    // Raw data of no bytes is raw data.
    assert_eq!(name(&[good(), Raw(b"", true)]), None);
}

#[test]
fn classes_and_short_names() {
    let sections = [Raw(b"\0\x01a\0\0\0\0", true)];
    let mut file = file(32, &sections, &[(0x7F, 6), (0x80, 2), (0xC0, 0), (0xFF, 9)]);
    let last = file.len() - 18;
    file[last..last + 5].copy_from_slice(b"short");
    file.extend_from_slice(b"\0\0\0\x08tab\0");
    let expected = [some("b"), some("a"), some(""), some("short")];
    assert_eq!(names(&file), expected);
}
