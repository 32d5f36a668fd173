//! What stands in a file where a refusal points: the bytes of the header or entry that its item names, and the fields that
//! the rule speaks of. It is for showing alone: nothing is judged by it, and any bytes and any refusal are taken.

use crate::{open, section, Kind, Refusal};
use std::fmt;

/// A header or an entry of a table.
#[derive(Clone, Debug, PartialEq, Eq)]
pub struct Place<'a> {
    pub what: What,
    /// Of its first byte in the file.
    pub offset: u64,
    /// Those of its bytes that are there.
    pub bytes: &'a [u8],
    /// Those that the rule speaks of, in the order of the file.
    pub fields: Vec<FieldValue>,
}

#[derive(Clone, Copy, Debug, PartialEq, Eq)]
pub enum What {
    /// By its section's number.
    SectionHeader(u64),
    /// An entry of the symbol table, by its index.
    Symbol(u64),
    /// The auxiliary entry with the csect of this symbol.
    CsectEntry(u64),
    /// The four bytes of its length.
    StringTable,
    /// Its header; the section by number, and its size.
    LoaderSection(u64, u64),
    /// By its index, from 3.
    LoaderSymbol(u64),
    /// An entry of the loader section, from 0.
    Relocation(u64),
    /// An entry of a section's own relocation table, numbered on from table to table.
    ObjectEntry(u64),
}

#[derive(Clone, Copy, Debug, PartialEq, Eq)]
pub struct FieldValue {
    /// As the public XCOFF description has it; `length` of a string table, which has no name there.
    pub name: &'static str,
    /// Of its first byte in the file.
    pub offset: u64,
    pub value: Value,
}

#[derive(Clone, Copy, Debug, PartialEq, Eq)]
pub enum Value {
    /// An address, a type or flags: the value and its digits.
    Hex(u64, usize),
    Number(u64),
    Signed(i64),
}

/// Where a refusal points: the header or entry that its item names, of a csect also the auxiliary entry; nothing where the
/// item names nothing in the file.
pub fn places<'a>(file: &'a [u8], refusal: &Refusal) -> Vec<Place<'a>> {
    places_of(file, refusal, named(file, refusal))
}

/// The same of a refusal that an operation on an object file gave: relocation entries are those of the sections' own tables.
pub fn object_places<'a>(file: &'a [u8], refusal: &Refusal) -> Vec<Place<'a>> {
    places_of(file, refusal, object_named(file, refusal))
}

fn places_of<'a>(file: &'a [u8], refusal: &Refusal, named: Option<Named>) -> Vec<Place<'a>> {
    let Some((what, names)) = named else {
        return Vec::new();
    };
    let first = place(file, what, refusal.offset, names);
    let second = match what {
        What::Symbol(i) if refusal.number == 12 => csect_entry(file, i, refusal.offset),
        _ => None,
    };
    first.into_iter().chain(second).collect()
}

// ---- the rules

/// What an item names, and names of fields.
type Named = (What, &'static [&'static str]);

const LSYM: &[&str] = &["l_zeroes", "l_offset", "l_scnum", "l_smtype", "l_ifile"];
const LREL: &[&str] = &["l_vaddr", "l_symndx", "l_rtype", "l_rsecnm"];
/// Of a section whose raw data is in the file, as in every file that opens.
const LINE_TABLE: &[&str] = &["s_lnnoptr", "s_nlnno"];
const RELOCATION_TABLE: &[&str] = &["s_relptr", "s_nreloc"];
const OBJECT_ENTRY: &[&str] = &["r_vaddr", "r_symndx", "r_rsize", "r_rtype"];

/// What the item of a refusal names, and the fields that its rule speaks of.
fn named(file: &[u8], r: &Refusal) -> Option<Named> {
    let i = r.item;
    Some(match r.number {
        3 => return loader_limit(file, r),
        4 => (What::SectionHeader(i), &["s_flags"]),
        5 if i != 0 && open(file).is_ok() => (What::SectionHeader(i), LINE_TABLE),
        5 if i != 0 => (What::SectionHeader(i), &["s_size", "s_scnptr"]),
        6 => (What::SectionHeader(i), &["s_paddr", "s_vaddr", "s_size"]),
        7 => (What::StringTable, &["length"]),
        9 => (What::Symbol(i), &["n_numaux"]),
        10 => (What::Symbol(i), &["n_zeroes", "n_offset", "n_sclass"]),
        11 => (What::Symbol(i), &["n_scnum"]),
        12 => (What::Symbol(i), &["n_sclass", "n_numaux"]),
        14 if is_thread_section(file, i) => (What::SectionHeader(i), &["s_flags"]),
        14 => (What::Relocation(i), &["l_symndx"]),
        15 => (loader_section(file)?, loader_fields(i)),
        16 => (What::LoaderSymbol(i), LSYM),
        17 | 18 => (What::Relocation(i), LREL),
        30 => (What::Symbol(i), &["n_type"]),
        _ => return None,
    })
}

/// The same of an operation on an object file.
fn object_named(file: &[u8], r: &Refusal) -> Option<Named> {
    let i = r.item;
    match r.number {
        5 if i != 0 && open(file).is_ok() => Some((What::SectionHeader(i), RELOCATION_TABLE)),
        17 | 18 | 25 => Some((What::ObjectEntry(i), OBJECT_ENTRY)),
        _ => named(file, r),
    }
}

/// LIMIT of a module's loader section; a sheet's has no offset.
fn loader_limit(file: &[u8], r: &Refusal) -> Option<Named> {
    match r.item {
        _ if r.offset == 0 => None,
        2 => Some((loader_section(file)?, &["l_nsyms"])),
        3 => Some((loader_section(file)?, &["l_nreloc"])),
        _ => None,
    }
}

/// In XCOFF32 the relocations follow the symbols.
fn loader_fields(item: u64) -> &'static [&'static str] {
    match item {
        1 => &["l_version"],
        2 => &["l_nsyms", "l_symoff"],
        3 => &["l_nsyms", "l_nreloc", "l_rldoff"],
        4 => &["l_istlen", "l_nimpid", "l_impoff"],
        5 => &["l_stlen", "l_stoff"],
        _ => &[],
    }
}

/// THREAD of a section comes before any of an entry, so that a section of these kinds is the one named.
fn is_thread_section(file: &[u8], n: u64) -> bool {
    section(file, n).is_ok_and(|s| matches!(s.kind, Kind::Tdata | Kind::Tbss))
}

fn loader_section(file: &[u8]) -> Option<What> {
    let count = open(file).ok()?.sections;
    let found = |n| section(file, n).ok().filter(|s| s.kind == Kind::Loader);
    (1..=count).find_map(|n| found(n).map(|s| What::LoaderSection(n, s.size)))
}

// ---- the layouts

/// A header or entry: its length in XCOFF32 and in XCOFF64, and its fields.
struct Layout {
    lengths: [u64; 2],
    fields: &'static [Field],
}

/// A field's offset and length in each format; of length 0 where a format does not have it.
struct Field {
    name: &'static str,
    form: Form,
    places: [(usize, usize); 2],
}

enum Form {
    Hex,
    Number,
    Signed,
}

use Form::{Hex, Number, Signed};

const NOT_THERE: (usize, usize) = (0, 0);

const fn field(
    name: &'static str,
    form: Form,
    narrow: (usize, usize),
    wide: (usize, usize),
) -> Field {
    let places = [narrow, wide];
    Field { name, form, places }
}

/// A field that both formats have at one place.
const fn same(name: &'static str, form: Form, place: (usize, usize)) -> Field {
    field(name, form, place, place)
}

static SECTION_HEADER: Layout = Layout {
    lengths: [40, 72],
    fields: &[
        field("s_paddr", Hex, (8, 4), (8, 8)),
        field("s_vaddr", Hex, (12, 4), (16, 8)),
        field("s_size", Number, (16, 4), (24, 8)),
        field("s_scnptr", Number, (20, 4), (32, 8)),
        field("s_relptr", Number, (24, 4), (40, 8)),
        field("s_nreloc", Number, (32, 2), (56, 4)),
        field("s_lnnoptr", Number, (28, 4), (48, 8)),
        field("s_nlnno", Number, (34, 2), (60, 4)),
        field("s_flags", Hex, (36, 4), (64, 4)),
    ],
};

static SYMBOL: Layout = Layout {
    lengths: [18, 18],
    fields: &[
        field("n_zeroes", Hex, (0, 4), NOT_THERE),
        field("n_offset", Number, (4, 4), (8, 4)),
        same("n_scnum", Signed, (12, 2)),
        same("n_type", Hex, (14, 2)),
        same("n_sclass", Number, (16, 1)),
        same("n_numaux", Number, (17, 1)),
    ],
};

static CSECT_ENTRY: Layout = Layout {
    lengths: [18, 18],
    fields: &[
        field("x_scnlen", Number, (0, 4), NOT_THERE),
        field("x_scnlen_lo", Number, NOT_THERE, (0, 4)),
        same("x_smtyp", Hex, (10, 1)),
        same("x_smclas", Number, (11, 1)),
        field("x_scnlen_hi", Number, NOT_THERE, (12, 4)),
        field("x_auxtype", Number, NOT_THERE, (17, 1)),
    ],
};

static STRING_TABLE: Layout = Layout {
    lengths: [4, 4],
    fields: &[same("length", Number, (0, 4))],
};

static LOADER_HEADER: Layout = Layout {
    lengths: [32, 56],
    fields: &[
        same("l_version", Number, (0, 4)),
        same("l_nsyms", Number, (4, 4)),
        same("l_nreloc", Number, (8, 4)),
        same("l_istlen", Number, (12, 4)),
        same("l_nimpid", Number, (16, 4)),
        field("l_impoff", Number, (20, 4), (24, 8)),
        field("l_stlen", Number, (24, 4), (20, 4)),
        field("l_stoff", Number, (28, 4), (32, 8)),
        field("l_symoff", Number, NOT_THERE, (40, 8)),
        field("l_rldoff", Number, NOT_THERE, (48, 8)),
    ],
};

static LOADER_SYMBOL: Layout = Layout {
    lengths: [24, 24],
    fields: &[
        field("l_zeroes", Hex, (0, 4), NOT_THERE),
        field("l_offset", Number, (4, 4), (8, 4)),
        same("l_scnum", Number, (12, 2)),
        same("l_smtype", Hex, (14, 1)),
        same("l_ifile", Number, (16, 4)),
    ],
};

static RELOCATION: Layout = Layout {
    lengths: [12, 16],
    fields: &[
        field("l_vaddr", Hex, (0, 4), (0, 8)),
        field("l_symndx", Signed, (4, 4), (12, 4)),
        same("l_rtype", Hex, (8, 2)),
        same("l_rsecnm", Number, (10, 2)),
    ],
};

static OBJECT_ENTRY_LAYOUT: Layout = Layout {
    lengths: [10, 14],
    fields: &[
        field("r_vaddr", Hex, (0, 4), (0, 8)),
        field("r_symndx", Number, (4, 4), (8, 4)),
        field("r_rsize", Hex, (8, 1), (12, 1)),
        field("r_rtype", Hex, (9, 1), (13, 1)),
    ],
};

fn layout(what: What) -> &'static Layout {
    match what {
        What::SectionHeader(_) => &SECTION_HEADER,
        What::Symbol(_) => &SYMBOL,
        What::CsectEntry(_) => &CSECT_ENTRY,
        What::StringTable => &STRING_TABLE,
        What::LoaderSection(..) => &LOADER_HEADER,
        What::LoaderSymbol(_) => &LOADER_SYMBOL,
        What::Relocation(_) => &RELOCATION,
        What::ObjectEntry(_) => &OBJECT_ENTRY_LAYOUT,
    }
}

// ---- reading

/// 0 for XCOFF32, 1 for XCOFF64.
fn format_of(file: &[u8]) -> Option<usize> {
    match file {
        [0x01, 0xDF, ..] => Some(0),
        [0x01, 0xF7, ..] => Some(1),
        _ => None,
    }
}

fn place<'a>(file: &'a [u8], what: What, offset: u64, names: &[&str]) -> Option<Place<'a>> {
    let format = format_of(file)?;
    let layout = layout(what);
    // Of a loader section that is shorter than its header no more is shown than it has.
    let length = match what {
        What::LoaderSection(_, size) => layout.lengths[format].min(size),
        _ => layout.lengths[format],
    };
    let bytes = part(file, offset, length);
    let named = layout.fields.iter().filter(|f| names.contains(&f.name));
    let values = named.filter_map(|field| value_in(bytes, offset, field, format));
    let mut fields: Vec<FieldValue> = values.collect();
    fields.sort_by_key(|field| field.offset);
    Some(Place {
        what,
        offset,
        bytes,
        fields,
    })
}

/// The last auxiliary entry of the symbol at `offset`, where its class has csects.
fn csect_entry(file: &[u8], index: u64, offset: u64) -> Option<Place<'_>> {
    const LENGTH: u64 = 18;
    let &[class, auxiliaries] = part(file, offset, LENGTH).get(16..)? else {
        return None;
    };
    if !matches!(class, 2 | 107 | 111) || auxiliaries == 0 {
        return None;
    }
    let names: Vec<&str> = CSECT_ENTRY.fields.iter().map(|field| field.name).collect();
    let at = offset + LENGTH * u64::from(auxiliaries);
    place(file, What::CsectEntry(index), at, &names)
}

/// As many bytes from there on as the file has.
fn part(file: &[u8], offset: u64, length: u64) -> &[u8] {
    let end = offset.saturating_add(length).min(file.len() as u64);
    &file[offset.min(end) as usize..end as usize]
}

/// A field that is there whole, in what starts at `start` in the file.
fn value_in(bytes: &[u8], start: u64, field: &Field, format: usize) -> Option<FieldValue> {
    let (at, length) = field.places[format];
    let own = bytes.get(at..at + length).filter(|own| !own.is_empty())?;
    let number = own.iter().fold(0, |n, &byte| n << 8 | u64::from(byte));
    Some(FieldValue {
        name: field.name,
        offset: start + at as u64,
        value: match field.form {
            Hex => Value::Hex(number, 2 * length),
            Number => Value::Number(number),
            Signed => Value::Signed(signed(number, length)),
        },
    })
}

/// A number of so many bytes, taken as a signed one.
fn signed(number: u64, length: usize) -> i64 {
    let unused = 64 - 8 * length as u32;
    (number << unused) as i64 >> unused
}

// ---- words

impl fmt::Display for What {
    fn fmt(&self, f: &mut fmt::Formatter<'_>) -> fmt::Result {
        match self {
            What::SectionHeader(n) => write!(f, "header of section {n}"),
            What::Symbol(i) => write!(f, "symbol {i}"),
            What::CsectEntry(i) => write!(f, "csect entry of symbol {i}"),
            What::StringTable => write!(f, "length of the string table"),
            What::LoaderSection(n, size) => {
                write!(f, "header of the loader section (section {n}, size {size})")
            }
            What::LoaderSymbol(i) => write!(f, "loader symbol {i}"),
            What::Relocation(i) | What::ObjectEntry(i) => write!(f, "relocation entry {i}"),
        }
    }
}

impl fmt::Display for Value {
    fn fmt(&self, f: &mut fmt::Formatter<'_>) -> fmt::Result {
        match *self {
            Value::Hex(value, digits) => write!(f, "{value:0digits$x}"),
            Value::Number(value) => write!(f, "{value}"),
            Value::Signed(value) => write!(f, "{value}"),
        }
    }
}
