//! Document 02, request 7: from address to line.

use crate::bytes::{by, number};
use crate::opening::{header_at, open, Summary, TEXT};
use crate::section_table::{table_rows, Table, TableFault};
use crate::{refuse, refuse_at, Refusal, BOUNDS, GROUP, INDEX, NOLINE};

/// An entry of a line table that has an address.
#[derive(Clone, Copy, Debug, PartialEq, Eq)]
pub struct FoundLine {
    /// Its number in the table, from 0.
    pub entry: u64,
    pub address: u64,
    pub line: u64,
    /// The symbol index that opened its group.
    pub symbol: u64,
}

/// The entry of text section `n` with the greatest address not above `address`; of
/// several the first in the table.
pub fn find_line(file: &[u8], n: u64, address: u64) -> Result<FoundLine, Refusal> {
    let summary = open(file)?;
    if !is_text(&summary, n) {
        return refuse(INDEX, n);
    }
    let rows = match table_rows(file, &summary, n, Table::Lines, entry_length(summary.bits)) {
        Ok(rows) => rows,
        Err(_) => return refuse_at(BOUNDS, n, header_at(&summary, n)),
    };
    let mut reader = Reader {
        file,
        at: rows.start,
    };
    let mut group = None;
    let mut best: Option<FoundLine> = None;
    let mut entry = 0;
    while reader.at < rows.end {
        match reader.step(summary.bits) {
            Entry::Function(symbol) => group = Some(symbol),
            Entry::Line(at, line) => {
                let Some(symbol) = group else {
                    return refuse(GROUP, 0);
                };
                if at <= address && best.map_or(true, |best| at > best.address) {
                    best = Some(FoundLine {
                        entry,
                        address: at,
                        line,
                        symbol,
                    });
                }
            }
        }
        entry += 1;
    }
    match best {
        Some(best) => Ok(best),
        None => refuse(NOLINE, 0),
    }
}

/// What is wrong with the line table of text section `n`.
pub fn line_table_fault(file: &[u8], n: u64) -> Option<TableFault> {
    let summary = open(file).ok()?;
    if !is_text(&summary, n) {
        return None;
    }
    table_rows(file, &summary, n, Table::Lines, entry_length(summary.bits)).err()
}

fn is_text(summary: &Summary, n: u64) -> bool {
    let place = usize::try_from(n).ok().and_then(|n| n.checked_sub(1));
    let section = place.and_then(|i| summary.sections.get(i));
    section.is_some_and(|section| section.flags == TEXT)
}

fn entry_length(bits: u64) -> usize {
    by(bits, 6, 12)
}

enum Entry {
    /// A function begins: its symbol index.
    Function(u64),
    /// Address and line.
    Line(u64, u64),
}

/// The file, and the place of the next entry in it.
struct Reader<'a> {
    file: &'a [u8],
    at: usize,
}

impl Reader<'_> {
    /// Reads an entry and goes on to the next one.
    fn step(&mut self, bits: u64) -> Entry {
        let at = self.at;
        self.at += entry_length(bits);
        match number(self.file, at + by(bits, 4, 8), by(bits, 2, 4)) {
            0 => Entry::Function(number(self.file, at, 4)),
            line => Entry::Line(number(self.file, at, by(bits, 4, 8)), line),
        }
    }
}
