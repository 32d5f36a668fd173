//! Document 01, "Symbols and csects"; debugger names are request 1 of document 02,
//! visibilities request 9.

use crate::bytes::{by, number};
use crate::opening::{open, Section, Summary, DEBUG};
use crate::{refuse, refuse_at, Refusal, AUX, CSECT, INDEX, NAME, SECTION, VISIBILITY};
use std::ops::Range;

#[derive(Clone, Debug, PartialEq, Eq)]
pub struct Symbol {
    pub index: u64,
    pub value: u64,
    /// `n_scnum`, signed.
    pub section: i64,
    /// `n_type`.
    pub kind: u64,
    /// `n_sclass`.
    pub class: u64,
    /// `n_numaux`.
    pub auxiliaries: u64,
    /// Where the name lies in the file.
    pub name: Range<usize>,
    /// 0 none, 1 internal, 2 hidden, 3 protected, 4 exported; nothing where the
    /// type is a plain number.
    pub visibility: Option<u64>,
}

/// What the walk found.
#[derive(Clone, Debug, PartialEq, Eq)]
pub struct Walk {
    /// Entries that were read, without auxiliaries.
    pub visited: u64,
    /// The index where it ended: the table's length, or the refused one.
    pub end: u64,
    /// The refusal that ended it.
    pub refusal: Option<Refusal>,
}

pub const ER: u64 = 0;
pub const SD: u64 = 1;
pub const LD: u64 = 2;
pub const CM: u64 = 3;

#[derive(Clone, Debug, PartialEq, Eq)]
pub struct Csect {
    pub length: u64,
    /// Alignment log: the top 5 bits of `x_smtyp`.
    pub alignment: u64,
    /// The low 3 bits of `x_smtyp`: 0 ER, 1 SD, 2 LD, 3 CM.
    pub kind: u64,
    /// `x_smclas`.
    pub class: u64,
}

/// Reads the entry at `index`: any index, also one inside auxiliaries.
pub fn symbol(file: &[u8], index: u64) -> Result<Symbol, Refusal> {
    let summary = open(file)?;
    read_entry(file, &summary, index)
}

/// Where the name of the entry at `index` lies.
pub fn symbol_name(file: &[u8], index: u64) -> Result<Range<usize>, Refusal> {
    Ok(symbol(file, index)?.name)
}

/// Where the 18 bytes at `index` start; `index` is below the count.
fn place(summary: &Summary, index: u64) -> usize {
    summary.symptr as usize + 18 * index as usize
}

/// Order: INDEX, AUX, SECTION, NAME, VISIBILITY.
pub(crate) fn read_entry(file: &[u8], summary: &Summary, index: u64) -> Result<Symbol, Refusal> {
    if index >= summary.symbols {
        return refuse(INDEX, index);
    }
    let at = place(summary, index);
    let auxiliaries = number(file, at + 17, 1);
    if index + 1 + auxiliaries > summary.symbols {
        return refuse_at(AUX, index, at);
    }
    let section = i64::from(number(file, at + 12, 2) as u16 as i16);
    if section < -2 || section > summary.sections.len() as i64 {
        return refuse_at(SECTION, index, at);
    }
    let name = match read_name(file, summary, at) {
        Ok(name) => name,
        Err(_) => return refuse_at(NAME, index, at),
    };
    let kind = number(file, at + 14, 2);
    let class = number(file, at + 16, 1);
    let visibility = read_visibility(file, summary, class, kind);
    if visibility > Some(4) {
        return refuse_at(VISIBILITY, index, at);
    }
    Ok(Symbol {
        index,
        value: number(file, at + by(summary.bits, 8, 0), by(summary.bits, 4, 8)),
        section,
        kind,
        class,
        auxiliaries,
        name,
        visibility,
    })
}

/// The bits 7000 of a type, where they are a visibility: in XCOFF32, for classes
/// with a csect, and with version 2 of an auxiliary header that reaches that far.
fn read_visibility(file: &[u8], summary: &Summary, class: u64, kind: u64) -> Option<u64> {
    let newer = summary.bits == 32 && summary.opthdr >= 4 && number(file, 22, 2) == 2;
    if newer && is_csect_class(class) {
        Some((kind & 0x7000) >> 12)
    } else {
        None
    }
}

/// Storage classes that carry a csect entry.
pub fn is_csect_class(class: u64) -> bool {
    class == 2 || class == 107 || class == 111
}

/// Why a name offset is bad.
#[derive(Clone, Copy, Debug, PartialEq, Eq)]
pub enum NameFault {
    /// No such string in the string table.
    Table,
    /// No debug section has raw data.
    NoDebug,
    /// Several debug sections have raw data.
    SeveralDebug,
    /// The length before the string leaves the debug section.
    Length,
    /// The string leaves the debug section.
    String,
}

/// What is wrong with the name of the entry at `index`; none where it is good or
/// there is no such entry.
pub fn name_fault(file: &[u8], index: u64) -> Option<NameFault> {
    let summary = open(file).ok()?;
    if index >= summary.symbols {
        return None;
    }
    read_name(file, &summary, place(&summary, index)).err()
}

/// The name of the entry that starts at `at`.
fn read_name(file: &[u8], summary: &Summary, at: usize) -> Result<Range<usize>, NameFault> {
    if summary.bits == 32 && number(file, at, 4) != 0 {
        return Ok(short_name(file, at));
    }
    let offset = number(file, at + by(summary.bits, 4, 8), 4) as usize;
    if offset == 0 {
        // The empty name; 01 leaves its place open.
        return Ok(at..at);
    }
    let class = number(file, at + 16, 1);
    if is_debug_class(class) {
        debug_name(file, summary, offset)
    } else {
        table_name(file, summary, offset).ok_or(NameFault::Table)
    }
}

/// Storage classes whose name offsets lead into the debug section.
pub fn is_debug_class(class: u64) -> bool {
    class & 0x80 != 0
}

/// The string at `offset` of the string table, up to its zero.
fn table_name(file: &[u8], summary: &Summary, offset: usize) -> Option<Range<usize>> {
    if offset < 4 || offset >= summary.strings.len() {
        return None;
    }
    let start = summary.strings.start + offset;
    let length = file[start..summary.strings.end]
        .iter()
        .position(|&byte| byte == 0)?;
    Some(start..start + length)
}

/// The string at `offset` of the debug section; its length lies before it. It
/// must lie in the section whole, also where a zero ends the name sooner.
fn debug_name(file: &[u8], summary: &Summary, offset: usize) -> Result<Range<usize>, NameFault> {
    let section = debug_section(summary)?;
    let prefix = by(summary.bits, 2, 4);
    if offset < prefix || offset > section.len() {
        return Err(NameFault::Length);
    }
    let start = section.start + offset;
    let length = number(file, start - prefix, prefix) as usize;
    if length > section.end - start {
        return Err(NameFault::String);
    }
    let string = &file[start..start + length];
    let zero = string.iter().position(|&byte| byte == 0);
    Ok(start..start + zero.unwrap_or(length))
}

/// The one debug section with raw data; others without any do no harm.
fn debug_section(summary: &Summary) -> Result<Range<usize>, NameFault> {
    let raw = |section: &Section| match section.flags {
        DEBUG => section.raw.clone(),
        _ => None,
    };
    let mut all = summary.sections.iter().filter_map(raw);
    match (all.next(), all.next()) {
        (Some(only), None) => Ok(only),
        (None, _) => Err(NameFault::NoDebug),
        _ => Err(NameFault::SeveralDebug),
    }
}

/// The 8 bytes at `at` up to the first zero.
pub(crate) fn short_name(file: &[u8], at: usize) -> Range<usize> {
    let mut end = at;
    while end < at + 8 && file[end] != 0 {
        end += 1;
    }
    at..end
}

/// Walks the entries from 0, by 1 + auxiliaries.
pub fn walk(file: &[u8]) -> Result<Walk, Refusal> {
    let summary = open(file)?;
    let mut visited = 0;
    let mut index = 0;
    while index < summary.symbols {
        match read_entry(file, &summary, index) {
            Ok(entry) => {
                visited += 1;
                index += 1 + entry.auxiliaries;
            }
            Err(refusal) => {
                return Ok(Walk {
                    visited,
                    end: index,
                    refusal: Some(refusal),
                });
            }
        }
    }
    Ok(Walk {
        visited,
        end: index,
        refusal: None,
    })
}

/// The entries that the walk visits, in its order.
pub fn walked(file: &[u8]) -> Result<Vec<Symbol>, Refusal> {
    let summary = open(file)?;
    let mut entries: Vec<Symbol> = Vec::new();
    let mut index = 0;
    while let Ok(entry) = read_entry(file, &summary, index) {
        index += 1 + entry.auxiliaries;
        entries.push(entry);
    }
    Ok(entries)
}

/// The csect entry of the symbol at `index`.
pub fn csect(file: &[u8], index: u64) -> Result<Csect, Refusal> {
    let summary = open(file)?;
    let entry = read_entry(file, &summary, index)?;
    let at = place(&summary, index);
    let found = match own_csect(file, &summary, &entry) {
        Some(found) => found,
        None => return refuse_at(CSECT, index, at),
    };
    if found.kind == LD && !has_container(file, &summary, &found, index) {
        return refuse_at(CSECT, index, at);
    }
    Ok(found)
}

/// The smaller index that the LD at `index` names as its container's; none where
/// it is no such LD.
pub fn ld_container(file: &[u8], index: u64) -> Option<u64> {
    let summary = open(file).ok()?;
    let entry = read_entry(file, &summary, index).ok()?;
    let found = own_csect(file, &summary, &entry)?;
    Some(found.length).filter(|&container| found.kind == LD && container < index)
}

/// The csect entry of `entry`, judged by all rules but that for an LD's container.
fn own_csect(file: &[u8], summary: &Summary, entry: &Symbol) -> Option<Csect> {
    if !is_csect_class(entry.class) {
        return None;
    }
    if entry.auxiliaries == 0 {
        return None;
    }
    // The last auxiliary.
    let at = place(summary, entry.index + entry.auxiliaries);
    if summary.bits == 64 && number(file, at + 17, 1) != 251 {
        return None;
    }
    let low = number(file, at, 4);
    let high = if summary.bits == 64 {
        number(file, at + 12, 4)
    } else {
        0
    };
    let smtyp = number(file, at + 10, 1);
    let found = Csect {
        length: (high << 32) + low,
        alignment: smtyp >> 3,
        kind: smtyp & 7,
        class: number(file, at + 11, 1),
    };
    if found.kind > 3 {
        return None;
    }
    if found.kind == SD || found.kind == CM {
        let allowed = matches!(found.class, 0..=13 | 15..=18 | 20..=22);
        if !allowed {
            return None;
        }
    }
    if found.kind == SD && (found.class == 9 || found.class == 11) {
        return None;
    }
    Some(found)
}

/// Whether an LD's length field is a smaller index whose own entry reads as an
/// SD csect.
fn has_container(file: &[u8], summary: &Summary, ld: &Csect, index: u64) -> bool {
    if ld.length >= index {
        return false;
    }
    let entry = match read_entry(file, summary, ld.length) {
        Ok(entry) => entry,
        Err(_) => return false,
    };
    match own_csect(file, summary, &entry) {
        Some(container) => container.kind == SD,
        None => false,
    }
}
