//! Salvage of damaged symbol tables: a copy of a file in which the walk no longer stops.

use crate::{accepted, ffi, places, walk, Refusal, Value};

/// Bytes of a change in a report.
const CHANGE: usize = 8;
/// Bytes of an entry of the symbol table.
const ENTRY: u64 = 18;

/// A field of a symbol that the copy has another value of.
#[derive(Clone, Copy, Debug, PartialEq, Eq)]
pub struct Change {
    /// Of the symbol.
    pub index: u64,
    /// What the symbol was refused for: 9 AUX, 10 NAME, 11 SECTION or 30 VISIBILITY.
    pub number: u64,
}

/// A salvaged file.
#[derive(Clone, Debug, PartialEq, Eq)]
pub struct Salvaged {
    pub copy: Vec<u8>,
    /// Each change in 8 bytes, as the library writes it.
    pub report: Vec<u8>,
}

/// A change, with the field in the file and in the copy.
#[derive(Clone, Copy, Debug, PartialEq, Eq)]
pub struct ChangedField {
    pub change: Change,
    /// As the public XCOFF description has it.
    pub name: &'static str,
    /// Of its first byte in the file.
    pub offset: u64,
    pub was: Value,
    pub now: Value,
}

/// How many changes a salvage makes.
pub fn salvage_count(file: &[u8]) -> Result<u64, Refusal> {
    counted(ffi::salvage_count(file))
}

/// Writes the salvaged file into a copy of exactly its length, and its changes into a report of at least 8 bytes for each,
/// whose rest stays as it was; gives how many they are. A refusal changes no byte of the two.
pub fn salvage_into(file: &[u8], copy: &mut [u8], report: &mut [u8]) -> Result<u64, Refusal> {
    counted(ffi::salvage(file, copy, report))
}

/// The salvaged file and its report.
pub fn salvage(file: &[u8]) -> Result<Salvaged, Refusal> {
    let mut report = vec![0; CHANGE * salvage_count(file)? as usize];
    let mut copy = vec![0; file.len()];
    salvage_into(file, &mut copy, &mut report)?;
    Ok(Salvaged { copy, report })
}

/// The changes of a report: the index and the number in 4 bytes each.
pub fn changes(report: &[u8]) -> impl Iterator<Item = Change> + '_ {
    let number = |bytes: &[u8]| {
        bytes
            .iter()
            .fold(0, |number, &byte| number << 8 | u64::from(byte))
    };
    report.chunks_exact(CHANGE).map(move |row| Change {
        index: number(&row[..4]),
        number: number(&row[4..]),
    })
}

/// The changes of a salvaged file with their fields, in the order of the report.
pub fn changed_fields<'a>(
    file: &'a [u8],
    salvaged: &'a Salvaged,
) -> Result<impl Iterator<Item = ChangedField> + 'a, Refusal> {
    // The walk stops where the first change is, and says where that is in the file.
    let walk = walk(file)?;
    let table = walk
        .cause
        .map_or(0, |cause| cause.offset - ENTRY * walk.end);
    let field = move |change: Change| {
        let refusal = Refusal {
            number: change.number,
            item: change.index,
            offset: table + ENTRY * change.index,
        };
        changed_field(file, &salvaged.copy, change, &refusal)
    };
    Ok(changes(&salvaged.report).filter_map(field))
}

/// Of the fields that the refusal's rule speaks of, the one that a salvage sets.
fn changed_field(
    file: &[u8],
    copy: &[u8],
    change: Change,
    refusal: &Refusal,
) -> Option<ChangedField> {
    let set = match change.number {
        9 => "n_numaux",
        10 => "n_offset",
        11 => "n_scnum",
        _ => "n_type",
    };
    let find = |bytes| {
        let place = places(bytes, refusal).into_iter().next()?;
        place.fields.into_iter().find(|field| field.name == set)
    };
    let (was, now) = (find(file)?, find(copy)?);
    Some(ChangedField {
        change,
        name: was.name,
        offset: was.offset,
        was: was.value,
        now: now.value,
    })
}

fn counted(answer: ffi::Count) -> Result<u64, Refusal> {
    accepted(answer.head)?;
    Ok(answer.count)
}
