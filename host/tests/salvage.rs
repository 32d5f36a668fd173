//! Salvage of real files whose symbols are damaged here: each change, each bit that must stay, and each refusal.

mod command_runner;

use command_runner::{real, tests_folder};
use std::fs;
use xcoff::{
    changed_fields, changes, open, salvage, salvage_count, salvage_into, symbol, symbol_name, walk,
    Change, Format, Refusal, Salvaged,
};

const AUX: u64 = 9;
const NAME: u64 = 10;
const SECTION: u64 = 11;
const VISIBILITY: u64 = 30;

/// A file and where its symbol table is, read here without the library.
#[derive(Clone)]
struct Symbols {
    file: Vec<u8>,
    start: usize,
    count: usize,
}

impl Symbols {
    fn of(file: Vec<u8>) -> Symbols {
        let wide = file[1] == 0xF7;
        let (start, count) = match wide {
            false => (number(&file, 8, 4), number(&file, 12, 4)),
            true => (number(&file, 8, 8), number(&file, 20, 4)),
        };
        Symbols { file, start, count }
    }

    fn is_wide(&self) -> bool {
        self.file[1] == 0xF7
    }

    fn entry(&self, index: usize) -> usize {
        self.start + 18 * index
    }

    /// The indexes that a walk by the auxiliaries reads.
    fn walk(&self) -> Vec<usize> {
        let mut indexes = Vec::new();
        let mut index = 0;
        while index < self.count {
            indexes.push(index);
            index += 1 + usize::from(self.file[self.entry(index) + 17]);
        }
        indexes
    }

    fn put(&mut self, at: usize, bytes: &[u8]) {
        self.file[at..at + bytes.len()].copy_from_slice(bytes);
    }

    /// The field that a number is about, and the bits of it that a change may set.
    fn field(&self, change: Change) -> (usize, &'static [u8]) {
        let entry = self.entry(change.index as usize);
        match change.number {
            AUX => (entry + 17, &[0xFF]),
            SECTION => (entry + 12, &[0xFF, 0xFF]),
            NAME if self.is_wide() => (entry + 8, &[0xFF; 4]),
            NAME => (entry + 4, &[0xFF; 4]),
            VISIBILITY => (entry + 14, &[0x70]),
            other => panic!("reported {other}"),
        }
    }

    /// Damages a field of an entry, so that the entry is refused for it.
    fn damage(&mut self, index: usize, number: u64) {
        let entry = self.entry(index);
        match number {
            AUX => self.put(entry + 17, &[0xFF]),
            SECTION => self.put(entry + 12, &[0x7F, 0xFE]),
            NAME if self.is_wide() => self.put(entry + 8, &[0xFF; 4]),
            NAME => self.put(entry, &[0, 0, 0, 0, 0xFF, 0xFF, 0xFF, 0xFE]),
            VISIBILITY => self.file[entry + 14] |= 0x70,
            other => panic!("no damage {other}"),
        }
    }

    /// What a change must leave in its field.
    fn mend(&mut self, change: Change) {
        let (at, mask) = self.field(change);
        for (n, bits) in mask.iter().enumerate() {
            self.file[at + n] &= !bits;
        }
        if change.number == AUX {
            self.file[at] = (self.count - 1 - change.index as usize) as u8;
        }
    }
}

fn number(file: &[u8], at: usize, width: usize) -> usize {
    let bytes = file[at..at + width].iter();
    bytes.fold(0, |number, &byte| number << 8 | usize::from(byte))
}

/// Every real file that is no text.
fn names() -> Vec<String> {
    let mut names = Vec::new();
    for folder in ["corpus", "corpus/large", "pairs"] {
        let entries = fs::read_dir(tests_folder().join(folder)).unwrap();
        let files = entries.map(|e| e.unwrap()).filter(|e| e.path().is_file());
        names.extend(files.map(|e| e.file_name().into_string().unwrap()));
    }
    names.retain(|name| !name.ends_with(".txt") && !name.ends_with(".md"));
    names.sort();
    names
}

/// Real files that open and have symbols, as far as the walk reaches their end.
fn whole() -> Vec<(String, Symbols)> {
    let opens = |file: &[u8]| open(file).is_ok_and(|o| o.symbols > 0);
    let found = names().into_iter().map(|name| (real(&name), name));
    let found = found.filter(|(file, _)| opens(file) && walk(file).unwrap().cause.is_none());
    found
        .map(|(file, name)| (name, Symbols::of(file)))
        .collect()
}

/// The changes of a salvage, and what must hold of it whatever they are.
fn salvaged(name: &str, s: &Symbols) -> (Vec<Change>, Salvaged) {
    let done = salvage(&s.file).unwrap_or_else(|r| panic!("{name}: {r}"));
    let changes: Vec<Change> = changes(&done.report).collect();
    assert_eq!(salvage_count(&s.file), Ok(changes.len() as u64), "{name}");
    let copy = &done.copy;
    assert_eq!(open(copy), open(&s.file), "{name}: the copy opened");
    let walked = walk(copy).unwrap();
    assert_eq!((walked.cause, walked.end), (None, s.count as u64), "{name}");
    let again = salvage(copy).unwrap();
    assert_eq!((&again.copy, again.report.len()), (copy, 0), "{name}");
    let mut mask = vec![0; copy.len()];
    for &change in &changes {
        let (at, bits) = s.field(change);
        mask[at..at + bits.len()].copy_from_slice(bits);
    }
    let kept = |at: usize| (s.file[at] ^ copy[at]) & !mask[at] == 0;
    let lost = (0..copy.len()).find(|&at| !kept(at));
    assert_eq!(lost, None, "{name}: a bit outside the fields");
    (changes, done)
}

#[test]
fn a_file_whose_walk_reaches_the_end_is_copied_as_it_is() {
    let whole = whole();
    assert!(whole.len() > 100, "{} files", whole.len());
    for (name, s) in whole {
        let (changes, done) = salvaged(&name, &s);
        assert!(changes.is_empty() && done.copy == s.file, "{name}");
    }
}

#[test]
fn every_real_file_is_salvaged_or_refused_as_it_opens() {
    let (mut mended, mut refused) = (Vec::new(), 0);
    for name in names() {
        let file = real(&name);
        match open(&file) {
            Err(refusal) => {
                assert_eq!(salvage(&file), Err(refusal), "{name}");
                assert_eq!(salvage_count(&file), Err(refusal), "{name}");
                refused += 1;
            }
            Ok(opened) if opened.symbols == 0 => {
                assert_eq!(salvage(&file).unwrap().copy, file, "{name}");
            }
            Ok(_) => {
                if !salvaged(&name, &Symbols::of(file)).0.is_empty() {
                    mended.push(name);
                }
            }
        }
    }
    assert_eq!(mended, ["shr-junktype-32"]);
    assert!(refused >= 2, "{refused} refused");
}

/// Each symbol of each real file damaged in one field: this one change is made, and gives the file back but for what the
/// damage took away.
#[test]
fn one_damaged_field_is_one_change() {
    let mut tried = 0;
    for (name, whole) in whole() {
        let walk = whole.walk();
        let step = 1 + walk.len() / 40;
        for &index in walk.iter().step_by(step) {
            for number in [NAME, SECTION] {
                let mut s = whole.clone();
                s.damage(index, number);
                let change = Change {
                    index: index as u64,
                    number,
                };
                let (changes, done) = salvaged(&name, &s);
                assert_eq!(changes, [change], "{name}");
                let mut expected = s.clone();
                expected.mend(change);
                assert!(done.copy == expected.file, "{name}: symbol {index}");
                tried += 1;
            }
        }
    }
    assert!(tried > 3_000, "{tried} files");
}

/// The last symbol cut: its auxiliaries become those that are left, and no entry after it is read.
#[test]
fn auxiliaries_are_cut_to_what_is_left() {
    for (name, whole) in whole() {
        let walk = whole.walk();
        for &index in walk.iter().rev().take(3) {
            let left = whole.count - 1 - index;
            if left >= 255 {
                continue;
            }
            let mut s = whole.clone();
            s.damage(index, AUX);
            let (changes, done) = salvaged(&name, &s);
            let change = Change {
                index: index as u64,
                number: AUX,
            };
            assert_eq!(changes, [change], "{name}");
            assert_eq!(done.copy[s.entry(index) + 17], left as u8, "{name}");
            let read = symbol(&done.copy, index as u64).unwrap();
            assert_eq!(read.numaux, left as u64, "{name}");
        }
    }
}

/// Several in one symbol, several symbols at once: in the order of the walk, and in one symbol in that of its checks.
#[test]
fn several_changes_are_reported_in_order() {
    let mut s = Symbols::of(real("exe-imports-32"));
    assert_eq!(number(&s.file, 22, 2), 2, "auxiliary version 2");
    let walk = s.walk();
    let expected: Vec<Change> = [
        (walk[0], &[NAME][..]),
        (walk[3], &[SECTION, NAME]),
        (walk[4], &[SECTION, NAME, VISIBILITY]),
        (*walk.last().unwrap(), &[AUX, SECTION, NAME, VISIBILITY]),
    ]
    .iter()
    .flat_map(|(index, numbers)| numbers.iter().map(|&number| (*index as u64, number)))
    .map(|(index, number)| Change { index, number })
    .collect();
    for change in &expected {
        s.damage(change.index as usize, change.number);
    }
    let (changes, done) = salvaged("exe-imports-32", &s);
    assert_eq!(changes, expected);
    let mut mended = s.clone();
    expected.iter().for_each(|&change| mended.mend(change));
    assert_eq!(done.copy, mended.file);
    for change in expected.iter().filter(|change| change.number == NAME) {
        assert_eq!(symbol_name(&done.copy, change.index), Ok(&b""[..]));
    }
    let fields: Vec<_> = changed_fields(&s.file, &done).unwrap().collect();
    assert_eq!(fields.len(), expected.len());
    for field in fields {
        assert_eq!(field.offset, s.field(field.change).0 as u64);
    }
}

#[test]
fn the_whole_type_but_the_visibility_stays() {
    let s = Symbols::of(real("shr-junktype-32"));
    let (changes, done) = salvaged("shr-junktype-32", &s);
    assert_eq!(changes.len(), 8);
    for change in changes {
        assert_eq!(change.number, VISIBILITY);
        let at = s.entry(change.index as usize) + 14;
        assert_eq!(
            (&s.file[at..at + 2], &done.copy[at..at + 2]),
            (&[0x5d, 0x5d][..], &[0x0d, 0x5d][..])
        );
    }
}

#[test]
fn types_of_xcoff64_are_never_changed() {
    let mut s = Symbols::of(real("exe-imports-64"));
    for index in s.walk() {
        s.damage(index, VISIBILITY);
    }
    assert_eq!(salvaged("exe-imports-64", &s).0, []);
}

// ---- refusals

fn refused(file: &[u8], copy: usize, report: usize) -> (u64, u64, u64) {
    let (mut copy, mut report) = (vec![0xA5; copy], vec![0x5A; report]);
    let r = salvage_into(file, &mut copy, &mut report).unwrap_err();
    assert!(copy.iter().all(|&b| b == 0xA5) && report.iter().all(|&b| b == 0x5A));
    (r.number, r.item, r.offset)
}

#[test]
fn buffers_that_do_not_fit_are_refused_and_left() {
    let file = real("shr-junktype-32");
    let length = file.len();
    for copy in [0, length - 1, length + 1] {
        assert_eq!(refused(&file, copy, 64), (20, 0, 0));
        assert_eq!(refused(&file, copy, 0), (20, 0, 0), "ROOM comes first");
    }
    for report in [0, 1, 8, 63] {
        assert_eq!(refused(&file, length, report), (3, 5, 0));
    }
    // A report with room to spare: the rest stays.
    let (mut copy, mut report) = (vec![0xA5; length], vec![0x5A; 100]);
    assert_eq!(salvage_into(&file, &mut copy, &mut report), Ok(8));
    assert_eq!(report[..64], salvage(&file).unwrap().report);
    assert!(report[64..].iter().all(|&b| b == 0x5A));
    // Where there is nothing to change, no report is needed.
    let file = real("exe-imports-32");
    let mut copy = vec![0; file.len()];
    assert_eq!(salvage_into(&file, &mut copy, &mut []), Ok(0));
    assert_eq!(copy, file);
}

const SHARED: Refusal = Refusal {
    number: 29,
    item: 0,
    offset: 0,
};

#[test]
fn a_symbol_table_over_the_headers_is_shared() {
    for bits in [32, 64] {
        let path = tests_folder().join(format!("lister/ok-symbols-over-headers-{bits}.xcoff"));
        let file = fs::read(path).unwrap();
        assert!(open(&file).is_ok());
        assert_eq!(salvage(&file), Err(SHARED));
        assert_eq!(salvage_count(&file), Err(SHARED));
        assert_eq!(refused(&file, 0, 0), (29, 0, 0), "before ROOM");
        let pairs = xcoff::shared_with_symbols(&file);
        let words: Vec<String> = pairs
            .iter()
            .map(|(a, b)| format!("{} {}", a.part, b.part))
            .collect();
        assert_eq!(words, ["header area symbol table"]);
    }
}

/// The debug section of a real object moved up to its symbol table, and over it; a second one, and one without raw data.
#[test]
fn a_debug_section_that_meets_the_symbols_is_shared() {
    for (name, header, width) in [("gas-stabs-32.o", 20, 4), ("gas-stabs-64.o", 24, 8)] {
        let s = Symbols::of(real(name));
        let (length, size_at, pointer_at, flags_at) = match width {
            4 => (40, 16, 20, 36),
            _ => (72, 24, 32, 64),
        };
        let mut sections =
            (0..number(&s.file, 2, 2)).map(|n| header + number(&s.file, 16, 2) + length * n);
        let debug = sections
            .find(|&at| number(&s.file, at + flags_at, 4) == 0x2000)
            .expect("a debug section");
        let size = number(&s.file, debug + size_at, width);
        let at = |pointer: usize| {
            let mut moved = s.file.clone();
            moved[debug + pointer_at..][..width]
                .copy_from_slice(&pointer.to_be_bytes()[8 - width..]);
            moved
        };
        let end = s.start + 18 * s.count;
        for (pointer, meets) in [
            (s.start - size, false),
            (s.start - size + 1, true),
            (s.start, true),
            (end - 1, true),
            (end, false),
            (0, false),
        ] {
            let file = at(pointer);
            if open(&file).is_err() {
                continue;
            }
            let answer = salvage(&file);
            assert_eq!(answer.err() == Some(SHARED), meets, "{name}: {pointer}");
            assert_eq!(xcoff::shared_with_symbols(&file).is_empty(), !meets);
        }
        // Its names are then in the symbol table's neighbourhood, and the changes are for these.
        let file = at(s.start - size);
        assert_eq!(open(&file).unwrap().format == Format::Xcoff64, width == 8);
        salvaged(name, &Symbols::of(file));
    }
}

#[test]
fn a_file_without_symbols_shares_nothing() {
    let mut file = real("exe-basic-strip-32");
    file[8..16].fill(0);
    let done = salvage(&file).unwrap();
    assert_eq!((done.copy, done.report), (file, Vec::new()));
}
