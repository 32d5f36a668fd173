//! What stands where a refusal points, for each sort of thing that an item names and in both formats: the header or entry,
//! and the fields that the rule speaks of. Made files have their places from the second implementation's generator.

use reference::bytes::put;
use reference::generate::make::{self, Field, Head, Made, Part};
use reference::opening::{INFO, TDATA};
use xcoff::{places, Place, Refusal, What};

/// A module of each format with some of everything.
fn modules() -> [Made; 2] {
    make::both_formats(|wish| wish.version = Some(2))
}

/// What is shown: the thing, its place and length, and of each field name, place and value.
type Shown = (What, u64, usize, Vec<(&'static str, u64, String)>);

fn shown(place: &Place) -> Shown {
    let fields = place.fields.iter();
    let fields = fields.map(|f| (f.name, f.offset, f.value.to_string()));
    (
        place.what,
        place.offset,
        place.bytes.len(),
        fields.collect(),
    )
}

/// What is shown of a file that is refused; the bytes are the file's.
fn shown_of(file: &[u8], refusal: Refusal) -> Vec<Shown> {
    let found = places(file, &refusal);
    for place in &found {
        let start = place.offset as usize;
        assert_eq!(place.bytes, &file[start..start + place.bytes.len()]);
    }
    found.iter().map(shown).collect()
}

fn module_of(made: &Made) -> Vec<Shown> {
    shown_of(&made.bytes, xcoff::module(&made.bytes).unwrap_err())
}

/// An expected field, by its place in the made file; its value is as the file has it.
fn decimal(made: &Made, name: &'static str, field: Field) -> (&'static str, u64, String) {
    (name, field.at as u64, made.get(field).to_string())
}

fn hex(made: &Made, name: &'static str, field: Field) -> (&'static str, u64, String) {
    let digits = 2 * field.length;
    let value = format!("{:0digits$x}", made.get(field));
    (name, field.at as u64, value)
}

fn at(start: usize, offset: usize, length: usize) -> Field {
    Field {
        at: start + offset,
        length,
    }
}

fn by(made: &Made, narrow: usize, wide: usize) -> usize {
    if made.bits == 32 {
        narrow
    } else {
        wide
    }
}

// ---- section headers

fn header(made: &Made, n: u64, fields: Vec<(&'static str, u64, String)>) -> Vec<Shown> {
    let start = made.section_at(n) as u64;
    vec![(What::SectionHeader(n), start, by(made, 40, 72), fields)]
}

#[test]
fn a_section_header_with_the_fields_of_its_rule() {
    for made in modules() {
        let (text, info) = (made.text, 1 + position(&made, INFO));
        let mut bad = made.clone();
        bad.put(bad.section_field(text, Part::Flags), 0x60);
        let flags = vec![hex(&bad, "s_flags", bad.section_field(text, Part::Flags))];
        assert_eq!(module_of(&bad), header(&bad, text, flags));

        let mut bad = made.clone();
        let far = bad.bytes.len() as u64 + 1;
        bad.put(bad.section_field(text, Part::Pointer), far);
        let raw = vec![
            decimal(&bad, "s_size", bad.section_field(text, Part::Size)),
            decimal(&bad, "s_scnptr", bad.section_field(text, Part::Pointer)),
        ];
        assert_eq!(module_of(&bad), header(&bad, text, raw));

        let mut bad = made.clone();
        bad.put(bad.section_field(text, Part::Vaddr), 1);
        let address = vec![
            hex(&bad, "s_paddr", bad.section_field(text, Part::Paddr)),
            hex(&bad, "s_vaddr", bad.section_field(text, Part::Vaddr)),
            decimal(&bad, "s_size", bad.section_field(text, Part::Size)),
        ];
        assert_eq!(module_of(&bad), header(&bad, text, address));

        let mut bad = made.clone();
        bad.put(bad.section_field(info, Part::Flags), TDATA);
        let flags = vec![hex(&bad, "s_flags", bad.section_field(info, Part::Flags))];
        assert_eq!(module_of(&bad), header(&bad, info, flags));
    }
}

fn position(made: &Made, kind: u64) -> u64 {
    let found = made.flags.iter().position(|&flags| flags == kind);
    found.expect("a section of this kind") as u64
}

#[test]
fn the_length_of_the_string_table() {
    for mut made in modules() {
        let start = made.strings_at;
        put(&mut made.bytes, start, 4, 3);
        let length = vec![("length", start as u64, "3".to_string())];
        let expected = vec![(What::StringTable, start as u64, 4, length)];
        let refusal = xcoff::open(&made.bytes).unwrap_err();
        assert_eq!(shown_of(&made.bytes, refusal), expected);
    }
}

// ---- symbols

/// What is shown where a symbol's read is refused.
fn symbol_shown(made: &Made, index: u64) -> Vec<Shown> {
    shown_of(&made.bytes, xcoff::symbol(&made.bytes, index).unwrap_err())
}

fn symbol(made: &Made, index: u64, fields: Vec<(&'static str, u64, String)>) -> Shown {
    let start = made.symbol_at(index) as u64;
    (What::Symbol(index), start, 18, fields)
}

#[test]
fn a_symbol_with_the_fields_of_its_rule() {
    for made in modules() {
        let index = made.symbols[1].index;
        let start = made.symbol_at(index);
        let mut bad = made.clone();
        put(&mut bad.bytes, start + 17, 1, 255);
        let aux = vec![decimal(&bad, "n_numaux", at(start, 17, 1))];
        assert_eq!(symbol_shown(&bad, index), [symbol(&bad, index, aux)]);

        let mut bad = made.clone();
        put(&mut bad.bytes, start + 12, 2, 0xFFFD);
        let section = vec![("n_scnum", start as u64 + 12, "-3".to_string())];
        assert_eq!(symbol_shown(&bad, index), [symbol(&bad, index, section)]);

        let mut bad = made.clone();
        bad.set_class(index, 3);
        bad.set_name_offset(index, 1);
        let mut name = vec![
            decimal(&bad, "n_offset", bad.name_offset_field(index)),
            decimal(&bad, "n_sclass", at(start, 16, 1)),
        ];
        if bad.bits == 32 {
            name.insert(0, ("n_zeroes", start as u64, "00000000".to_string()));
        }
        assert_eq!(symbol_shown(&bad, index), [symbol(&bad, index, name)]);
    }
}

#[test]
fn a_type_with_its_visibility() {
    let [mut made, _] = modules();
    let index = with_csect(&made);
    let start = made.symbol_at(index);
    put(&mut made.bytes, start + 14, 2, 0x7020);
    let ntype = vec![("n_type", start as u64 + 14, "7020".to_string())];
    assert_eq!(symbol_shown(&made, index), [symbol(&made, index, ntype)]);
    let walk = xcoff::walk(&made.bytes).unwrap();
    assert_eq!(walk.cause, xcoff::symbol(&made.bytes, index).err());
}

fn with_csect(made: &Made) -> u64 {
    let found = made.symbols.iter().find(|s| s.csect.is_some());
    found.expect("a symbol with a csect").index
}

#[test]
fn a_csect_with_its_auxiliary_entry() {
    for mut made in modules() {
        let index = with_csect(&made);
        let start = made.symbol_at(index);
        let entry = start + 18 * made.bytes[start + 17] as usize;
        let kind = u64::from(made.bytes[entry + 10] | 7);
        put(&mut made.bytes, entry + 10, 1, kind);
        let own = vec![
            decimal(&made, "n_sclass", at(start, 16, 1)),
            decimal(&made, "n_numaux", at(start, 17, 1)),
        ];
        let (kind, class) = (
            hex(&made, "x_smtyp", at(entry, 10, 1)),
            decimal(&made, "x_smclas", at(entry, 11, 1)),
        );
        let csect = match made.bits {
            32 => vec![decimal(&made, "x_scnlen", at(entry, 0, 4)), kind, class],
            _ => vec![
                decimal(&made, "x_scnlen_lo", at(entry, 0, 4)),
                kind,
                class,
                decimal(&made, "x_scnlen_hi", at(entry, 12, 4)),
                decimal(&made, "x_auxtype", at(entry, 17, 1)),
            ],
        };
        let csect = (What::CsectEntry(index), entry as u64, 18, csect);
        let refusal = xcoff::csect(&made.bytes, index).unwrap_err();
        let expected = [symbol(&made, index, own.clone()), csect];
        assert_eq!(shown_of(&made.bytes, refusal), expected);

        // Of a class without csects, or without an auxiliary entry, the symbol alone.
        made.set_class(index, 3);
        let refusal = xcoff::csect(&made.bytes, index).unwrap_err();
        assert_eq!(shown_of(&made.bytes, refusal).len(), 1);
    }
}

// ---- the loader section

#[test]
fn the_loader_header_with_the_fields_of_each_item() {
    let cases: [(Head, u64, u64, &[(&str, Head)]); 6] = [
        (Head::Version, 3, 1, &[("l_version", Head::Version)]),
        (Head::Symbols, 70_001, 2, &[("l_nsyms", Head::Symbols)]),
        (
            Head::Relocations,
            100_001,
            3,
            &[("l_nreloc", Head::Relocations)],
        ),
        (
            Head::Relocations,
            4_096,
            3,
            &[
                ("l_nsyms", Head::Symbols),
                ("l_nreloc", Head::Relocations),
                ("l_rldoff", Head::RelocationOffset),
            ],
        ),
        (
            Head::Ids,
            0xFFFF_FFFF,
            4,
            &[
                ("l_istlen", Head::IdLength),
                ("l_nimpid", Head::Ids),
                ("l_impoff", Head::IdOffset),
            ],
        ),
        (
            Head::StringLength,
            0xFFFF_FFFF,
            5,
            &[
                ("l_stlen", Head::StringLength),
                ("l_stoff", Head::StringOffset),
            ],
        ),
    ];
    for made in modules() {
        for (head, value, item, names) in cases {
            let mut bad = made.clone();
            bad.put(bad.head(head).unwrap(), value);
            let refusal = xcoff::module(&bad.bytes).unwrap_err();
            assert_eq!(refusal.item, item);
            let fields = names
                .iter()
                .filter_map(|&(name, head)| Some(decimal(&bad, name, bad.head(head)?)));
            let expected = vec![loader(&bad, by(&bad, 32, 56), fields.collect())];
            assert_eq!(shown_of(&bad.bytes, refusal), expected);
        }
    }
}

fn loader(made: &Made, length: usize, fields: Vec<(&'static str, u64, String)>) -> Shown {
    let size = made.get(made.section_field(made.loader, Part::Size));
    let start = made.get(made.section_field(made.loader, Part::Pointer));
    (
        What::LoaderSection(made.loader, size),
        start,
        length,
        fields,
    )
}

/// As much of the header as the section has: none where it is empty, at the file's end or without raw data.
#[test]
fn a_loader_section_that_is_short() {
    for made in modules() {
        let end = made.bytes.len() as u64;
        let start = made.loader_at as u64;
        let long = by(&made, 31, 55) as u64;
        for (pointer, size) in [(start, long), (start, 3), (start, 0), (end, 0), (0, 0)] {
            let mut bad = made.clone();
            bad.put(bad.section_field(bad.loader, Part::Pointer), pointer);
            bad.put(bad.section_field(bad.loader, Part::Size), size);
            let refusal = xcoff::module(&bad.bytes).unwrap_err();
            assert_eq!((refusal.number, refusal.item), (15, 0));
            assert_eq!(refusal.offset, pointer);
            let expected = vec![loader(&bad, size as usize, Vec::new())];
            assert_eq!(shown_of(&bad.bytes, refusal), expected);
        }
    }
}

#[test]
fn a_loader_symbol_with_its_name_type_section_and_id() {
    for mut made in modules() {
        let start = made.loader_symbol_at(1);
        put(&mut made.bytes, start + 14, 1, 7);
        let mut fields = vec![
            decimal(&made, "l_offset", at(start, by(&made, 4, 8), 4)),
            decimal(&made, "l_scnum", at(start, 12, 2)),
            hex(&made, "l_smtype", at(start, 14, 1)),
            decimal(&made, "l_ifile", at(start, 16, 4)),
        ];
        if made.bits == 32 {
            fields.insert(0, hex(&made, "l_zeroes", at(start, 0, 4)));
        }
        let expected = vec![(What::LoaderSymbol(4), start as u64, 24, fields)];
        assert_eq!(module_of(&made), expected);
    }
}

#[test]
fn a_relocation_entry_with_the_fields_of_its_rule() {
    for made in modules() {
        let start = made.entry_at(1) as u64;
        let entry =
            |made: &Made, fields| vec![(What::Relocation(1), start, by(made, 12, 16), fields)];
        let symbol_field = made.entry_symbol_field(1);
        let place = symbol_field.at as u64;
        let mut bad = made.clone();
        bad.put(symbol_field, 0xFFFF_FFFE);
        let symbol = vec![("l_symndx", place, "-2".to_string())];
        assert_eq!(module_of(&bad), entry(&bad, symbol));

        let mut bad = made.clone();
        bad.put(symbol_field, 0xFFFF_FFFD);
        let mut all = vec![
            hex(&bad, "l_vaddr", bad.entry_address_field(1)),
            hex(&bad, "l_rtype", bad.entry_type_field(1)),
            decimal(&bad, "l_rsecnm", bad.entry_section_field(1)),
        ];
        // Before the type in XCOFF32, after the section in XCOFF64.
        let symbol = ("l_symndx", place, "-3".to_string());
        all.insert(by(&bad, 1, 3), symbol);
        assert_eq!(module_of(&bad), entry(&bad, all));
    }
}

// ---- anything else

#[test]
fn nothing_is_shown_of_what_is_not_in_the_file() {
    let [made, _] = modules();
    let none = [
        (1, 0),
        (2, 0),
        (3, 0),
        (3, 1),
        (3, 2),
        (3, 3),
        (3, 4),
        (5, 0),
        (8, 1),
        (13, 2),
        (19, 0),
        (20, 0),
        (21, 0),
        (22, 7),
        (23, 0),
        (24, 0),
        (25, 0),
        (99, 1),
    ];
    for (number, item) in none {
        let refusal = Refusal {
            number,
            item,
            offset: 0,
        };
        assert_eq!(places(&made.bytes, &refusal), []);
    }
}

/// A refusal may be any three numbers, and the file any bytes.
#[test]
fn any_refusal_and_any_bytes_are_taken() {
    let [narrow, wide] = modules().map(|made| made.bytes);
    let files = [
        &[][..],
        &[0x01],
        &[0x01, 0xDF],
        &[0x01, 0xF7],
        &narrow[..40],
        &wide[..90],
        &narrow,
        &wide,
    ];
    for file in files {
        let end = file.len() as u64;
        for number in 0..40 {
            for item in [0, 1, 2, 3, 5, u64::MAX] {
                for offset in [
                    0,
                    1,
                    end / 2,
                    end - end.min(1),
                    end,
                    end + 1,
                    u64::MAX - 17,
                    u64::MAX,
                ] {
                    let refusal = Refusal {
                        number,
                        item,
                        offset,
                    };
                    for place in places(file, &refusal) {
                        assert!(place.bytes.len() <= 72);
                        assert!(place.fields.len() <= 10);
                    }
                }
            }
        }
    }
}
