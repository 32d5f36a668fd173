//! Modules: the bench figures that are about them, and refusals in words.

mod made;

use made::{Entry, Module, Symbol};
use xcoff::{Format, Plan, Refusal};

// ---- bench figures, in both formats

const FORMATS: [Format; 2] = [Format::Xcoff32, Format::Xcoff64];

/// A refusal whose item names nothing in the file.
fn refused(number: u64, item: u64) -> Option<Refusal> {
    refused_at(number, item, 0)
}

fn refused_at(number: u64, item: u64, offset: u64) -> Option<Refusal> {
    Some(Refusal {
        number,
        item,
        offset,
    })
}

/// In XCOFF32 and in XCOFF64.
fn by(format: Format, narrow: u64, wide: u64) -> u64 {
    match format {
        Format::Xcoff32 => narrow,
        Format::Xcoff64 => wide,
    }
}

/// Where the loader section lies: behind the headers, text and data.
fn loader_at(m: &Module) -> u64 {
    by(m.format, 20 + 72 + 4 * 40, 24 + 110 + 4 * 72) + m.text_size + m.data_size
}

/// Where relocation entry `i` lies: behind the loader section's header and symbols.
fn entry_at(m: &Module, i: u64) -> u64 {
    let start = loader_at(m) + by(m.format, 32, 56) + 24 * m.symbols.len() as u64;
    start + by(m.format, 12, 16) * i
}

fn judged(m: &Module) -> Option<Refusal> {
    xcoff::module(&m.bytes()).err()
}

/// 32-bit fields that follow text, in section `section`.
fn fields(section: u16, addresses: &[u64]) -> Vec<Entry> {
    let entry = |&address| Entry {
        address,
        symbol: 0,
        kind: 0x1F00,
        section,
    };
    addresses.iter().map(entry).collect()
}

#[test]
fn a_field_lies_wholly_in_its_section() {
    for format in FORMATS {
        let mut m = Module::new(format);
        m.entries = fields(1, &[0x1000_00FC]);
        assert_eq!(judged(&m), None);
        m.entries = fields(1, &[0x1000_00FD]);
        assert_eq!(judged(&m), refused_at(17, 0, entry_at(&m, 0)));
    }
    let mut m = Module::new(Format::Xcoff64);
    let bad = refused_at(17, 0, entry_at(&m, 0));
    for (address, verdict) in [(0x1000_00F8, None), (0x1000_00F9, bad)] {
        m.entries = vec![Entry {
            address,
            symbol: 0,
            kind: 0x3F00,
            section: 1,
        }];
        assert_eq!(judged(&m), verdict);
    }
}

#[test]
fn fields_are_the_same_or_share_no_byte() {
    for format in FORMATS {
        let mut m = Module::new(format);
        m.data_address = 0;
        m.data_size = 0x200;
        for (pair, verdict) in [
            ([0x100, 0x104], None),
            ([0x100, 0x100], None),
            ([0x100, 0x102], refused_at(18, 1, entry_at(&m, 1))),
        ] {
            m.entries = fields(2, &pair);
            assert_eq!(judged(&m), verdict, "{format:?} {pair:x?}");
        }
    }
}

#[test]
fn at_most_100000_relocation_entries() {
    for format in FORMATS {
        let mut m = Module::new(format);
        m.data_size = 4 * 100_001;
        let addresses: Vec<u64> = (0..100_001).map(|i| m.data_address + 4 * i).collect();
        for accepted in [4_096, 4_097, 100_000] {
            m.entries = fields(2, &addresses[..accepted]);
            let relocations = xcoff::module(&m.bytes()).map(|m| m.relocations);
            assert_eq!(relocations, Ok(accepted as u64));
        }
        m.entries = fields(2, &addresses);
        assert_eq!(judged(&m), refused_at(3, 3, loader_at(&m)));
    }
}

#[test]
fn at_most_70000_loader_symbols() {
    for format in FORMATS {
        let mut m = Module::new(format);
        for accepted in [4_096, 4_097, 70_000] {
            m.symbols = vec![Symbol::Data; accepted as usize];
            let file = m.bytes();
            assert_eq!(xcoff::module(&file).map(|m| m.symbols), Ok(accepted));
            assert_eq!(
                xcoff::loader_symbol_name(&file, accepted + 2),
                Ok(&b"s"[..])
            );
            let last = xcoff::loader_symbol(&file, accepted + 3).err();
            assert_eq!(last, refused(8, accepted + 3));
        }
        m.symbols = vec![Symbol::Data; 70_001];
        assert_eq!(judged(&m), refused_at(3, 2, loader_at(&m)));
    }
}

/// Both tables at once, every import used, built and moved.
#[test]
fn a_module_at_both_limits_is_built_and_moved() {
    for format in FORMATS {
        let mut m = Module::new(format);
        m.data_size = 4 * 100_000;
        m.symbols = vec![Symbol::Import; 70_000];
        let addresses: Vec<u64> = (0..100_000).map(|i| m.data_address + 4 * i).collect();
        m.entries = fields(2, &addresses);
        for (i, e) in m.entries.iter_mut().enumerate() {
            e.symbol = 3 + i as u32 % 70_000;
        }
        let file = m.bytes();
        let plan = |step: u64| Plan {
            text: 0x1000,
            data: 0x10_0000,
            list: (0..70_000).map(|i| step * i).collect(),
        };
        let (mut text, mut data) = (vec![1; 0x100], vec![1; 400_000]);
        let words = |data: &[u8], step: u32| {
            let mut words = data.chunks_exact(4).zip(0..);
            words.all(|(b, i)| b == (step * (i % 70_000)).to_be_bytes())
        };
        xcoff::build_images(&file, &plan(3), &mut text, &mut data).unwrap();
        assert!(words(&data, 3));
        xcoff::move_images(&file, &plan(3), &plan(61_000), &mut text, &mut data).unwrap();
        assert!(words(&data, 61_000));
    }
}

// ---- sheets, of both forms

/// The head of a sheet: its first count, two addresses, and the count of the list, each count in so many bytes.
fn sheet_start(width: usize, first: u32, count: u32) -> Vec<u8> {
    let number = |n: u32| n.to_be_bytes()[4 - width..].to_vec();
    [number(first), vec![0xA5; 16], number(count)].concat()
}

/// The sheet with so many addresses, all of them 5A5A5A5A5A5A5A5A.
fn sheet(width: usize, count: u32) -> Vec<u8> {
    let mut sheet = sheet_start(width, 2, count);
    sheet.resize(sheet.len() + 8 * count as usize, 0x5A);
    sheet
}

fn sheet_refused(sheet: &[u8]) -> Option<Refusal> {
    let mut list = vec![7; 3];
    let into = xcoff::read_sheet_into(sheet, &mut list).err();
    assert!(into.is_some() && list == [7; 3]);
    let read = xcoff::read_sheet(sheet).err();
    // The list of three does not fit: every other refusal comes before.
    assert!(into == read || into == refused(20, 2));
    read
}

#[test]
fn a_new_sheet_is_read_and_written_back() {
    for count in [0, 1, 4_096, 4_097, 65_535, 65_536, 70_000] {
        let sheet = sheet(4, count);
        assert_eq!(sheet.len(), 24 + 8 * count as usize);
        let plan = xcoff::read_sheet(&sheet).unwrap();
        assert_eq!(plan.text, 0xA5A5_A5A5_A5A5_A5A5);
        assert_eq!(plan.list, vec![0x5A5A_5A5A_5A5A_5A5A; count as usize]);
        assert!(xcoff::write_sheet(&plan).unwrap() == sheet);
    }
    assert_eq!(sheet_refused(&sheet(4, 70_001)), refused(3, 2));
    let plan = Plan {
        text: 0,
        data: 0,
        list: vec![0; 70_001],
    };
    assert_eq!(xcoff::write_sheet(&plan).err(), refused(3, 2));
}

#[test]
fn an_old_sheet_is_read_and_written_in_the_new_form() {
    for count in [0, 1, 4_095, 4_096] {
        let old = sheet(2, count);
        assert_eq!(old.len(), 20 + 8 * count as usize);
        let plan = xcoff::read_sheet(&old).unwrap();
        assert_eq!(plan.list.len(), count as usize);
        let new = xcoff::write_sheet(&plan).unwrap();
        assert!(new == sheet(4, count));
        assert!(new == [&[0, 0], &old[..18], &[0, 0], &old[18..]].concat());
    }
    assert_eq!(sheet_refused(&sheet(2, 4_097)), refused(3, 2));
    assert_eq!(sheet_refused(&sheet(2, 65_535)), refused(3, 2));
}

#[test]
fn what_is_no_sheet_of_either_form() {
    let whole = sheet_start(4, 2, 0);
    for length in 0..24 {
        assert_eq!(sheet_refused(&whole[..length]), refused(21, 0), "{length}");
    }
    assert_eq!(xcoff::read_sheet(&whole).map(|p| p.list.len()), Ok(0));
    assert_eq!(sheet_refused(&[&whole[..], &[0]].concat()), refused(21, 0));
    for first in [0, 1, 3, 0x0001_0002, 0x0100_0002] {
        let read = sheet_refused(&sheet_start(4, first, 0));
        assert_eq!(read, refused(21, 0), "{first:x}");
    }
    for first in [1, 3, 0x0200, 0xFFFF] {
        let read = sheet_refused(&sheet_start(2, first, 0));
        assert_eq!(read, refused(21, 0), "{first:x}");
    }
    for length in 0..20 {
        let old = sheet_refused(&sheet_start(2, 2, 0)[..length]);
        assert_eq!(old, refused(21, 0), "{length}");
    }
    // The limit comes before the length, and the first count before the limit.
    assert_eq!(sheet_refused(&sheet_start(4, 2, 70_001)), refused(3, 2));
    assert_eq!(sheet_refused(&sheet_start(4, 2, u32::MAX)), refused(3, 2));
    assert_eq!(sheet_refused(&sheet_start(4, 2, 70_000)), refused(21, 0));
    assert_eq!(sheet_refused(&sheet_start(4, 3, 70_001)), refused(21, 0));
    assert_eq!(sheet_refused(&sheet_start(2, 2, 4_097)), refused(3, 2));
    assert_eq!(sheet_refused(&sheet_start(2, 2, 4_096)), refused(21, 0));
}

#[test]
fn a_sheet_is_written_into_exactly_its_length() {
    let list = [1, 2, 3];
    for length in [0, 20 + 24, 24 + 23, 24 + 25] {
        let mut room = vec![9; length];
        let written = xcoff::write_sheet_into(1, 2, &list, &mut room).err();
        assert_eq!(written, refused(20, 0), "{length}");
        assert!(room.iter().all(|&b| b == 9));
    }
    let mut room = vec![9; xcoff::sheet_length(3)];
    assert_eq!(xcoff::write_sheet_into(1, 2, &list, &mut room), Ok(()));
}

#[test]
fn the_first_loader_symbol_has_index_3() {
    for format in FORMATS {
        let mut m = Module::new(format);
        m.symbols = vec![Symbol::Data];
        let file = m.bytes();
        for i in 0..3 {
            assert_eq!(xcoff::loader_symbol(&file, i).err(), refused(8, i));
        }
        assert_eq!(
            xcoff::loader_symbol(&file, 3).map(|s| s.value),
            Ok(0x2000_0000)
        );
        m.entries = fields(2, &[0x2000_0000]);
        m.entries[0].symbol = 3;
        assert_eq!(judged(&m), None);
        m.entries[0].symbol = 4;
        assert_eq!(judged(&m), refused_at(17, 0, entry_at(&m, 0)));
    }
}

/// Symbols 0 to 6: text, data, bss, and loader symbols in text, in data, imported and deferred.
#[test]
fn a_field_moves_with_what_its_symbol_follows() {
    let plan = |text, data, import| Plan {
        text,
        data,
        list: vec![0, 0, import, 0],
    };
    for format in FORMATS {
        let mut m = Module::new(format);
        m.symbols = vec![Symbol::Text, Symbol::Data, Symbol::Import, Symbol::Deferred];
        m.entries = fields(2, &[0, 4, 8, 12, 16, 20, 24].map(|i| 0x2000_0000 + i));
        for (i, e) in m.entries.iter_mut().enumerate() {
            e.symbol = i as u32;
        }
        let (mut text, mut data) = (vec![0; 0x100], vec![0; 0x100]);
        let (from, to) = (plan(0x1000, 0x4000, 0x9000), plan(0x1010, 0x4200, 0x8FFF));
        xcoff::move_images(&m.bytes(), &from, &to, &mut text, &mut data).unwrap();
        let words: Vec<u32> = data[..28]
            .chunks_exact(4)
            .map(|b| u32::from_be_bytes(b.try_into().unwrap()))
            .collect();
        assert_eq!(words, [0x10, 0x200, 0x200, 0x10, 0x200, u32::MAX, 0]);
        assert!(text.iter().chain(&data[28..]).all(|&b| b == 0));
    }
}

// ---- refusals

#[test]
fn nothing_is_read_from_an_empty_file() {
    assert_eq!(xcoff::open(&[]).err(), refused(1, 0));
    assert_eq!(xcoff::module(&[]).err(), refused(1, 0));
    assert_eq!(xcoff::section_name(&[], u64::MAX).err(), refused(1, 0));
}

#[test]
fn a_refusal_is_told_in_words() {
    let r = Refusal {
        number: 13,
        item: 0,
        offset: 0,
    };
    assert_eq!(r.to_string(), "refused 13 0 0: MODULE, the file is not a loadable module: its auxiliary header is too short, as in an object file that is not linked");
    let r = Refusal {
        number: 17,
        item: 5,
        offset: 1234,
    };
    assert_eq!(
        r.to_string(),
        "refused 17 5 1234: LREL, the type, section, address or symbol of relocation entry 5 is bad"
    );
}
