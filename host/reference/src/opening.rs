//! Document 01, "Opening".

use crate::bytes::{by, number, top};
use crate::{
    refuse, refuse_at, Refusal, ADDRESS, BOUNDS, FILE_LIMIT, INDEX, KIND, LIMIT, MAGIC,
    SECTION_LIMIT, SHORT, STRINGS,
};
use std::ops::Range;

pub const PAD: u64 = 0x0008;
pub const DWARF: u64 = 0x0010;
pub const TEXT: u64 = 0x0020;
pub const DATA: u64 = 0x0040;
pub const BSS: u64 = 0x0080;
pub const EXCEPT: u64 = 0x0100;
pub const INFO: u64 = 0x0200;
pub const TDATA: u64 = 0x0400;
pub const TBSS: u64 = 0x0800;
pub const LOADER: u64 = 0x1000;
pub const DEBUG: u64 = 0x2000;
pub const TYPCHK: u64 = 0x4000;
pub const OVRFLO: u64 = 0x8000;
/// Flags of all ones: a deleted section.
pub const DELETED: u64 = 0xFFFF_FFFF;

/// The kinds and their words, as in 01.
pub const KINDS: [(u64, &str); 13] = [
    (PAD, "pad"),
    (DWARF, "dwarf"),
    (TEXT, "text"),
    (DATA, "data"),
    (BSS, "bss"),
    (EXCEPT, "except"),
    (INFO, "info"),
    (TDATA, "tdata"),
    (TBSS, "tbss"),
    (LOADER, "loader"),
    (DEBUG, "debug"),
    (TYPCHK, "typchk"),
    (OVRFLO, "ovrflo"),
];

/// The word of a section's kind flag.
pub fn kind_word(flags: u64) -> &'static str {
    for (flag, word) in KINDS {
        if flag == flags {
            return word;
        }
    }
    "deleted"
}

#[derive(Clone, Debug, PartialEq, Eq)]
pub struct Section {
    pub paddr: u64,
    pub vaddr: u64,
    pub size: u64,
    pub scnptr: u64,
    /// The relocation and the line table: offset and count as the header has them.
    pub relptr: u64,
    pub nreloc: u64,
    pub lnnoptr: u64,
    pub nlnno: u64,
    /// The kind's flag alone; all ones where the section is deleted.
    pub flags: u64,
    /// All four bytes of the flags, dwarf subtypes included.
    pub whole_flags: u64,
    /// Where the raw data lies in the file; none where there is none.
    pub raw: Option<Range<usize>>,
}

#[derive(Clone, Debug, PartialEq, Eq)]
pub struct Summary {
    pub bits: u64,
    pub sections: Vec<Section>,
    pub symptr: u64,
    /// `f_nsyms`: symbol entries, auxiliaries included.
    pub symbols: u64,
    pub opthdr: u64,
    /// `f_flags`.
    pub flags: u64,
    /// The string table with its 4 length bytes; empty where there is none.
    pub strings: Range<usize>,
}

/// Length of the file header.
pub(crate) fn file_header(bits: u64) -> usize {
    by(bits, 20, 24)
}

/// Length of one section header.
pub(crate) fn section_header(bits: u64) -> usize {
    by(bits, 40, 72)
}

/// Where the header of section `n` starts.
pub(crate) fn header_at(summary: &Summary, n: u64) -> usize {
    let headers = file_header(summary.bits) + summary.opthdr as usize;
    headers + (n as usize - 1) * section_header(summary.bits)
}

/// Where the header area ends.
pub(crate) fn headers_end(summary: &Summary) -> usize {
    header_at(summary, summary.sections.len() as u64 + 1)
}

/// Where the symbol table lies; empty without symbols.
pub(crate) fn symbol_bytes(summary: &Summary) -> Range<usize> {
    if summary.symbols == 0 {
        return 0..0;
    }
    let start = summary.symptr as usize;
    start..start + 18 * summary.symbols as usize
}

/// The bytes of the string table, its four length bytes included, also where they are
/// 0; none where the file ends before them.
pub(crate) fn string_bytes(file: &[u8], summary: &Summary) -> Range<usize> {
    let start = symbol_bytes(summary).end;
    if summary.symbols == 0 || start == file.len() {
        return 0..0;
    }
    start..start + summary.strings.len().max(4)
}

/// Opens a file.
pub fn open(file: &[u8]) -> Result<Summary, Refusal> {
    let bits = read_format(file)?;
    let count = number(file, 2, 2);
    if count > SECTION_LIMIT {
        return refuse(LIMIT, 1);
    }
    let opthdr = number(file, 16, 2);
    let headers = file_header(bits) + opthdr as usize;
    if file.len() < headers + count as usize * section_header(bits) {
        return refuse(SHORT, 0);
    }

    let mut sections = Vec::new();
    for n in 1..=count {
        let at = headers + (n as usize - 1) * section_header(bits);
        sections.push(read_section(file, bits, n, at)?);
    }

    let symptr = number(file, 8, by(bits, 4, 8));
    let symbols = number(file, by(bits, 12, 20), 4);
    let strings = read_strings(file, symptr, symbols)?;
    Ok(Summary {
        bits,
        sections,
        symptr,
        symbols,
        opthdr,
        flags: number(file, 18, 2),
        strings,
    })
}

/// 32 or 64, for a file that holds its whole file header.
fn read_format(file: &[u8]) -> Result<u64, Refusal> {
    if file.len() as u64 > FILE_LIMIT {
        return refuse(LIMIT, 0);
    }
    if file.len() < 2 {
        return refuse(SHORT, 0);
    }
    let bits = match number(file, 0, 2) {
        0x01DF => 32,
        0x01F7 => 64,
        _ => return refuse(MAGIC, 0),
    };
    if file.len() < file_header(bits) {
        return refuse(SHORT, 0);
    }
    Ok(bits)
}

/// Section `n`, whose header is at `at`: KIND, BOUNDS, ADDRESS.
fn read_section(file: &[u8], bits: u64, n: u64, at: usize) -> Result<Section, Refusal> {
    let word = by(bits, 4, 8);
    let whole_flags = number(file, at + by(bits, 36, 64), 4);
    let mut section = Section {
        paddr: number(file, at + 8, word),
        vaddr: number(file, at + by(bits, 12, 16), word),
        size: number(file, at + by(bits, 16, 24), word),
        scnptr: number(file, at + by(bits, 20, 32), word),
        relptr: number(file, at + by(bits, 24, 40), word),
        lnnoptr: number(file, at + by(bits, 28, 48), word),
        nreloc: number(file, at + by(bits, 32, 56), by(bits, 2, 4)),
        nlnno: number(file, at + by(bits, 34, 60), by(bits, 2, 4)),
        flags: whole_flags,
        whole_flags,
        raw: None,
    };
    // Deleted: accepted, not examined, and no raw data.
    if whole_flags != DELETED {
        section.flags = read_kind(n, at, whole_flags)?;
        section.raw = read_raw(file, n, at, &section)?;
        judge_address(bits, n, at, &section)?;
    }
    Ok(section)
}

/// The kind's flag: KIND.
fn read_kind(n: u64, at: usize, whole_flags: u64) -> Result<u64, Refusal> {
    let flags = whole_flags & 0xFFFF;
    let high = whole_flags >> 16;
    let known = KINDS.iter().any(|&(flag, _)| flag == flags);
    if !known || (high != 0 && flags != DWARF) {
        return refuse_at(KIND, n, at);
    }
    Ok(flags)
}

/// Where the raw data of section `n` lies: BOUNDS.
fn read_raw(
    file: &[u8],
    n: u64,
    at: usize,
    section: &Section,
) -> Result<Option<Range<usize>>, Refusal> {
    let (scnptr, size) = (section.scnptr, section.size);
    if scnptr == 0 || [BSS, TBSS, OVRFLO].contains(&section.flags) {
        return Ok(None);
    }
    if u128::from(scnptr) + u128::from(size) > file.len() as u128 {
        return refuse_at(BOUNDS, n, at);
    }
    Ok(Some(scnptr as usize..scnptr as usize + size as usize))
}

/// ADDRESS for section `n`.
fn judge_address(bits: u64, n: u64, at: usize, section: &Section) -> Result<(), Refusal> {
    if ![TEXT, DATA, BSS].contains(&section.flags) {
        return Ok(());
    }
    if section.vaddr != section.paddr {
        return refuse_at(ADDRESS, n, at);
    }
    if u128::from(section.paddr) + u128::from(section.size) > top(bits) {
        return refuse_at(ADDRESS, n, at);
    }
    Ok(())
}

/// The symbol table's bounds, then the string table that follows at once.
fn read_strings(file: &[u8], symptr: u64, symbols: u64) -> Result<Range<usize>, Refusal> {
    if symbols == 0 {
        return Ok(0..0);
    }
    let end = u128::from(symptr) + 18 * u128::from(symbols);
    if end > file.len() as u128 {
        return refuse(BOUNDS, 0);
    }
    let at = end as usize;
    let left = file.len() - at;
    if left == 0 {
        return Ok(at..at);
    }
    if left < 4 {
        return refuse(BOUNDS, 0);
    }
    let length = number(file, at, 4);
    if length == 0 {
        return Ok(at..at);
    }
    if length < 4 {
        return refuse_at(STRINGS, 0, at);
    }
    if length > left as u64 {
        return refuse(BOUNDS, 0);
    }
    Ok(at..at + length as usize)
}

/// The record of section `n`, from 1.
pub fn section(file: &[u8], n: u64) -> Result<Section, Refusal> {
    let summary = open(file)?;
    if n < 1 || n > summary.sections.len() as u64 {
        return refuse(INDEX, n);
    }
    Ok(summary.sections[n as usize - 1].clone())
}

/// Where the name of section `n` lies: the 8 bytes of its field. 01 gives no
/// rule that cuts it; trailing zeros are padding.
pub fn section_name(file: &[u8], n: u64) -> Result<Range<usize>, Refusal> {
    let summary = open(file)?;
    if n < 1 || n > summary.sections.len() as u64 {
        return refuse(INDEX, n);
    }
    let at = header_at(&summary, n);
    Ok(at..at + 8)
}
