//! XCOFF files read by a proved library, for Rust programs.
//!
//! Every function takes the whole file and judges it from the start. Its answer is settled for any bytes: what was
//! asked for, or the [`Refusal`] that the rules give. Names are parts of the caller's own file.
//!
//! Another Cargo project uses it by a path, and says by the environment variable `XCOFF_LIBRARY_DIR` in which folder
//! `libxcoff_c.a` is; without it that is `crates/xcoff_c/out` of the repository.
#![deny(unsafe_code)]

mod address_table;
mod check;
#[allow(unsafe_code)]
mod ffi;
mod follows;
mod header;
mod image;
mod lines;
mod object;
mod place;
mod records;
mod refusal;
mod rewrite;
mod salvage;
mod shared;
mod source;
mod tables;

pub use address_table::{AddressTable, RowName, TableCall, TableReplayed, TableRow};
pub use check::{check_images, move_images_checked, Comparison, NotMoved};
pub use follows::{followed, PlanAddress};
pub use header::{header_fields, HeaderFields};
pub use image::{
    build_images, move_images, read_sheet, read_sheet_into, replay, sheet_length, write_sheet,
    write_sheet_into, Call, Plan, Reached, Replayed,
};
pub use lines::{find_line, line_count, line_table, FoundLine, LineEntry, LineTable};
pub use object::{
    build_object, check_object, move_object, move_object_checked, object, object_entries,
    object_entries_of, object_sections, replay_object, Object, ObjectCall, ObjectEntries,
    ObjectEntry, ObjectPlan, ObjectReplayed, ObjectSection,
};
pub use place::{object_places, places, FieldValue, Place, Value, What};
pub use records::{read_records, records_length, write_records, write_records_into};
pub use refusal::Refusal;
pub use rewrite::{recorded_plan, write_module, write_module_into};
pub use salvage::{
    changed_fields, changes, salvage, salvage_count, salvage_into, Change, ChangedField, Salvaged,
};
pub use shared::{shared_in_module, shared_with_symbols, FilePart, FileRange};
pub use source::{source_name, Source, Sources};
pub use tables::{
    import_table, loader_symbol_table, relocation_table, symbol_table, Image, ImportId,
    ImportTable, LoaderRow, Relocation, SymbolRow, SymbolTable,
};

/// The version of the C interface that this package was written for, and that the archive it is linked with has.
pub fn versions() -> (u64, u64) {
    (1, ffi::version())
}

/// XCOFF32 or XCOFF64.
#[derive(Clone, Copy, Debug, PartialEq, Eq)]
pub enum Format {
    Xcoff32,
    Xcoff64,
}

/// What an opened file holds.
#[derive(Clone, Copy, Debug, PartialEq, Eq)]
pub struct Opened {
    pub format: Format,
    pub sections: u64,
    /// Entries of the symbol table, auxiliary ones included.
    pub symbols: u64,
    /// Bytes of the auxiliary header.
    pub opthdr: u64,
    pub flags: u64,
}

#[derive(Clone, Copy, Debug, PartialEq, Eq)]
pub enum Kind {
    Pad,
    Dwarf,
    Text,
    Data,
    Bss,
    Except,
    Info,
    Tdata,
    Tbss,
    Loader,
    Debug,
    Typchk,
    Ovrflo,
    Deleted,
}

#[derive(Clone, Copy, Debug, PartialEq, Eq)]
pub struct Section {
    pub kind: Kind,
    pub paddr: u64,
    pub vaddr: u64,
    pub size: u64,
    /// Offset of the raw data in the file.
    pub scnptr: u64,
    /// Whether there is raw data.
    pub raw: bool,
    /// Offset of the relocation table in the file, and how many entries it has, as the header has both: 65,535 of an
    /// XCOFF32 section stands for the count in an overflow header.
    pub relptr: u64,
    pub nreloc: u64,
    /// The same of the line number table.
    pub lnnoptr: u64,
    pub nlnno: u64,
}

#[derive(Clone, Copy, Debug, PartialEq, Eq)]
pub struct Symbol {
    pub value: u64,
    /// The section; 0 undefined, -1 absolute, -2 debugging.
    pub scnum: i64,
    /// All of it, the bits of a visibility too.
    pub ntype: u64,
    pub sclass: u64,
    /// Auxiliary entries that follow.
    pub numaux: u64,
    /// None: none is claimed. Types of XCOFF32 with auxiliary version 2 and class 2, 107 or 111 have one.
    pub visibility: Option<Visibility>,
}

/// The bits 7000 hex of a type that has a visibility.
#[derive(Clone, Copy, Debug, PartialEq, Eq)]
pub enum Visibility {
    None,
    Internal,
    Hidden,
    Protected,
    Exported,
}

/// A walk over the symbol table.
#[derive(Clone, Copy, Debug, PartialEq, Eq)]
pub struct Walk {
    /// Symbols that were read.
    pub visited: u64,
    /// The index where the walk ended.
    pub end: u64,
    /// Why the symbol there is refused; none at the table's end.
    pub cause: Option<Refusal>,
}

#[derive(Clone, Copy, Debug, PartialEq, Eq)]
pub enum CsectType {
    Er,
    Sd,
    Ld,
    Cm,
}

#[derive(Clone, Copy, Debug, PartialEq, Eq)]
pub struct Csect {
    pub kind: CsectType,
    /// Log 2 of the alignment.
    pub align: u64,
    /// Storage mapping class.
    pub smclas: u64,
    /// Bytes; of an LD the index of its csect.
    pub length: u64,
}

/// A section of a module.
#[derive(Clone, Copy, Debug, PartialEq, Eq)]
pub struct Part {
    pub number: u64,
    pub address: u64,
    pub size: u64,
}

/// The entry point or the TOC.
#[derive(Clone, Copy, Debug, PartialEq, Eq)]
pub struct Anchor {
    pub section: u64,
    pub address: u64,
}

#[derive(Clone, Copy, Debug, PartialEq, Eq)]
pub struct Module {
    pub format: Format,
    pub text: Part,
    pub data: Part,
    pub bss: Part,
    /// The number of the loader section.
    pub loader: u64,
    /// Bytes of the data image: data, zeros up to bss, bss.
    pub image: u64,
    /// Loader symbols: their indexes are 3 to `symbols + 2`.
    pub symbols: u64,
    pub relocations: u64,
    pub ids: u64,
    pub entry: Option<Anchor>,
    pub toc: Option<Anchor>,
}

#[derive(Clone, Copy, Debug, PartialEq, Eq)]
pub struct LoaderSymbol {
    pub value: u64,
    pub scnum: u64,
    pub smtype: u64,
    pub smclas: u64,
    pub ifile: u64,
    pub parm: u64,
}

impl LoaderSymbol {
    pub fn is_import(&self) -> bool {
        self.smtype & 0x40 != 0
    }

    /// An import that is bound later, by no file: no address of a plan is used for it.
    pub fn is_deferred(&self) -> bool {
        self.is_import() && self.ifile == 0
    }
}

/// Opens a file: its headers, sections and symbol table are judged.
pub fn open(file: &[u8]) -> Result<Opened, Refusal> {
    let a = ffi::open(file);
    accepted(a.head)?;
    Ok(Opened {
        format: format_of(a.bits),
        sections: a.sections,
        symbols: a.symbols,
        opthdr: a.opthdr,
        flags: a.flags,
    })
}

/// Section `n`, from 1.
pub fn section(file: &[u8], n: u64) -> Result<Section, Refusal> {
    let a = ffi::section(file, n);
    accepted(a.head)?;
    Ok(Section {
        kind: kind_of(a.flag),
        paddr: a.paddr,
        vaddr: a.vaddr,
        size: a.size,
        scnptr: a.scnptr,
        raw: a.raw != 0,
        relptr: a.relptr,
        nreloc: a.nreloc,
        lnnoptr: a.lnnoptr,
        nlnno: a.nlnno,
    })
}

pub fn section_name(file: &[u8], n: u64) -> Result<&[u8], Refusal> {
    part_of(file, ffi::section_name(file, n))
}

/// The symbol table entry `i`, from 0. The entry after it is at `i + 1 + numaux`.
pub fn symbol(file: &[u8], i: u64) -> Result<Symbol, Refusal> {
    let a = ffi::symbol(file, i);
    accepted(a.head)?;
    Ok(Symbol {
        value: a.value,
        scnum: a.scnum,
        ntype: a.ntype,
        sclass: a.sclass,
        numaux: a.numaux,
        visibility: visibility(a.has_visibility, a.visibility),
    })
}

/// The name of symbol `i`: in its entry, the string table or, of a class with bit 80 hex, the debug section.
pub fn symbol_name(file: &[u8], i: u64) -> Result<&[u8], Refusal> {
    part_of(file, ffi::symbol_name(file, i))
}

/// Reads every symbol in turn, up to the table's end or the first that is refused.
pub fn walk(file: &[u8]) -> Result<Walk, Refusal> {
    walk_of(ffi::walk(file))
}

/// The csect entry of symbol `i`.
pub fn csect(file: &[u8], i: u64) -> Result<Csect, Refusal> {
    let a = ffi::csect(file, i);
    accepted(a.head)?;
    Ok(Csect {
        kind: csect_type(a.kind),
        align: a.align,
        smclas: a.smclas,
        length: a.length,
    })
}

/// Judges a file as a loadable module, down to its last relocation entry.
pub fn module(file: &[u8]) -> Result<Module, Refusal> {
    let a = ffi::module(file);
    accepted(a.head)?;
    Ok(Module {
        format: format_of(a.bits),
        text: part(a.text),
        data: part(a.data),
        bss: part(a.bss),
        loader: a.loader,
        image: a.image,
        symbols: a.symbols,
        relocations: a.relocations,
        ids: a.ids,
        entry: anchor(a.entry),
        toc: anchor(a.toc),
    })
}

/// Loader symbol `i`, from 3, of a loadable module. Each call judges the whole module.
pub fn loader_symbol(file: &[u8], i: u64) -> Result<LoaderSymbol, Refusal> {
    let a = ffi::loader_symbol(file, i);
    accepted(a.head)?;
    Ok(LoaderSymbol {
        value: a.value,
        scnum: a.scnum,
        smtype: a.smtype,
        smclas: a.smclas,
        ifile: a.ifile,
        parm: a.parm,
    })
}

pub fn loader_symbol_name(file: &[u8], i: u64) -> Result<&[u8], Refusal> {
    part_of(file, ffi::loader_symbol_name(file, i))
}

/// The path of import id `n`, from 0.
pub fn import_path(file: &[u8], n: u64) -> Result<&[u8], Refusal> {
    part_of(file, ffi::import_path(file, n))
}

/// The base name of import id `n`.
pub fn import_base(file: &[u8], n: u64) -> Result<&[u8], Refusal> {
    part_of(file, ffi::import_base(file, n))
}

/// The archive member of import id `n`.
pub fn import_member(file: &[u8], n: u64) -> Result<&[u8], Refusal> {
    part_of(file, ffi::import_member(file, n))
}

fn accepted(head: ffi::Head) -> Result<(), Refusal> {
    match head.number {
        0 => Ok(()),
        number => Err(Refusal {
            number,
            item: head.item,
            offset: head.offset,
        }),
    }
}

fn walk_of(a: ffi::Walk) -> Result<Walk, Refusal> {
    accepted(a.head)?;
    Ok(Walk {
        visited: a.visited,
        end: a.end,
        cause: accepted(a.cause).err(),
    })
}

fn part_of(file: &[u8], r: ffi::Range) -> Result<&[u8], Refusal> {
    accepted(r.head)?;
    Ok(&file[r.start as usize..(r.start + r.length) as usize])
}

fn format_of(bits: u64) -> Format {
    match bits {
        32 => Format::Xcoff32,
        64 => Format::Xcoff64,
        _ => unreachable!("an accepted file has 32 or 64 bits"),
    }
}

fn kind_of(flag: u64) -> Kind {
    match flag {
        0x0008 => Kind::Pad,
        0x0010 => Kind::Dwarf,
        0x0020 => Kind::Text,
        0x0040 => Kind::Data,
        0x0080 => Kind::Bss,
        0x0100 => Kind::Except,
        0x0200 => Kind::Info,
        0x0400 => Kind::Tdata,
        0x0800 => Kind::Tbss,
        0x1000 => Kind::Loader,
        0x2000 => Kind::Debug,
        0x4000 => Kind::Typchk,
        0x8000 => Kind::Ovrflo,
        0xFFFF => Kind::Deleted,
        _ => unreachable!("an accepted section has an allowed kind"),
    }
}

fn visibility(claimed: u64, number: u64) -> Option<Visibility> {
    (claimed != 0).then(|| match number {
        0 => Visibility::None,
        1 => Visibility::Internal,
        2 => Visibility::Hidden,
        3 => Visibility::Protected,
        4 => Visibility::Exported,
        _ => unreachable!("an accepted symbol claims a visibility of 0 to 4"),
    })
}

fn csect_type(kind: u64) -> CsectType {
    match kind {
        0 => CsectType::Er,
        1 => CsectType::Sd,
        2 => CsectType::Ld,
        3 => CsectType::Cm,
        _ => unreachable!("an accepted csect has type 0 to 3"),
    }
}

fn part(p: ffi::Part) -> Part {
    Part {
        number: p.number,
        address: p.address,
        size: p.size,
    }
}

fn anchor(a: ffi::Anchor) -> Option<Anchor> {
    match a.section {
        0 => None,
        section => Some(Anchor {
            section,
            address: a.address,
        }),
    }
}
