//! Document 02, requests 5 and 7: tables that belong to a section, and the overflow
//! headers that count their rows.

use crate::opening::{Section, Summary, OVRFLO};
use std::ops::Range;

/// In XCOFF32 a count of this is in an overflow header.
const OVERFLOWED: u64 = 65_535;

/// The overflow header of section `n`, if there is exactly one. It names its section
/// in the place of its own count of relocation entries.
fn overflow_header(summary: &Summary, n: u64) -> Option<&Section> {
    let of_section = |s: &&Section| s.flags == OVRFLO && s.nreloc == n;
    let mut headers = summary.sections.iter().filter(of_section);
    match (headers.next(), headers.next()) {
        (Some(only), None) => Some(only),
        _ => None,
    }
}

/// How many rows a table of section `n` has whose header says `count`. None where an
/// overflow header is needed and isn't there exactly once.
fn row_count(summary: &Summary, n: u64, table: Table, count: u64) -> Option<u64> {
    if summary.bits == 32 && count == OVERFLOWED {
        overflow_header(summary, n).map(|header| table.overflow_count(header))
    } else {
        Some(count)
    }
}

/// Where the rows of `each` bytes lie, from `offset` on; none where they pass the
/// file's end, also without any.
fn rows(file: &[u8], offset: u64, count: u64, each: usize) -> Option<Range<usize>> {
    let length = u128::from(count) * each as u128;
    if u128::from(offset) + length > file.len() as u128 {
        return None;
    }
    Some(offset as usize..offset as usize + length as usize)
}

/// Why a section has no such table.
#[derive(Clone, Copy, Debug, PartialEq, Eq)]
pub enum TableFault {
    /// Its overflow header isn't there exactly once.
    Overflow,
    /// It passes the file's end.
    End,
}

/// The tables that a section has of its own.
#[derive(Clone, Copy)]
pub(crate) enum Table {
    Relocations,
    Lines,
}

impl Table {
    /// Where a section's header says that it starts, and how many rows it counts.
    fn start_and_count(self, section: &Section) -> (u64, u64) {
        match self {
            Table::Relocations => (section.relptr, section.nreloc),
            Table::Lines => (section.lnnoptr, section.nlnno),
        }
    }

    /// What an overflow header counts.
    fn overflow_count(self, header: &Section) -> u64 {
        match self {
            Table::Relocations => header.paddr,
            Table::Lines => header.vaddr,
        }
    }
}

/// The rows of a table of section `n`, `each` bytes long.
pub(crate) fn table_rows(
    file: &[u8],
    summary: &Summary,
    n: u64,
    table: Table,
    each: usize,
) -> Result<Range<usize>, TableFault> {
    let (start, count) = table.start_and_count(&summary.sections[n as usize - 1]);
    let count = row_count(summary, n, table, count).ok_or(TableFault::Overflow)?;
    rows(file, start, count, each).ok_or(TableFault::End)
}
