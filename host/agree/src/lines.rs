//! Lines: the entry that is found, and the whole table, in which the same entry is looked for once more by a plain loop.

use crate::compare::{answers, same, whole, Agreement, Difference};
use reference::{Refusal, GROUP, NOLINE};
use xcoff::LineEntry;

/// Entry, address, line and symbol.
type Found = (u64, u64, u64, u64);

pub fn find(file: &[u8], section: u64, address: u64) -> Agreement {
    let theirs = reference::find_line(file, section, address);
    let theirs = theirs.map(|f| (f.entry, f.address, f.line, f.symbol));
    let ours = xcoff::find_line(file, section, address);
    let ours = ours.map(|f| (f.entry, f.address, f.line, f.symbol));
    listed(file, section, address, theirs)?;
    whole(ours, theirs)
}

/// The table is refused as the look-up is, but for what is no fault of the table as such; its entries give the answer.
fn listed(
    file: &[u8],
    section: u64,
    address: u64,
    theirs: Result<Found, Refusal>,
) -> Result<(), Difference> {
    let refused = theirs
        .err()
        .filter(|r| r.number != GROUP && r.number != NOLINE);
    let table = xcoff::line_table(file, section);
    let count = xcoff::line_count(file, section);
    let length = table
        .as_ref()
        .map(|table| table.len() as u64)
        .map_err(|&r| r);
    same("count of the line table", &count, &length)?;
    let accepted = table.as_ref().map(|_| ()).map_err(|&r| r);
    answers("line table", accepted, refused.map_or(Ok(()), Err))?;
    let Ok(table) = table else {
        return Ok(());
    };
    let found = looked_for(table.rows(), address);
    let theirs = theirs.map_err(|refusal| refusal.number);
    same("line looked for in the table", &found, &theirs)
}

/// The first entry with the greatest address not above the one asked for, or the number of a refusal.
fn looked_for(rows: impl Iterator<Item = LineEntry>, asked: u64) -> Result<Found, u64> {
    let mut group = None;
    let mut best: Option<Found> = None;
    for (entry, row) in (0..).zip(rows) {
        match row {
            LineEntry::Function(symbol) => group = Some(symbol),
            LineEntry::Line { address, line } => {
                let symbol = group.ok_or(GROUP)?;
                if address <= asked && best.map_or(true, |best| best.1 < address) {
                    best = Some((entry, address, line, symbol));
                }
            }
        }
    }
    best.ok_or(NOLINE)
}
