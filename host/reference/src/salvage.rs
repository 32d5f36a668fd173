//! Document 02, request 12: a copy of the file in which the walk doesn't stop.

use crate::bytes::{by, number, put};
use crate::opening::{headers_end, open, symbol_bytes, Summary, DEBUG};
use crate::rewrite::share;
use crate::symbols::read_entry;
use crate::{refuse, Refusal, AUX, LIMIT, NAME, ROOM, SECTION, SHARED, VISIBILITY};

/// A change of the copy: the entry, and the number that it was refused with.
#[derive(Clone, Copy, Debug, PartialEq, Eq)]
pub struct Mend {
    pub index: u64,
    pub number: u64,
}

/// Bytes of a change in the report.
const REPORTED: usize = 8;

/// Writes the mended file into `copy` and the changes into `report`, whose rest stays;
/// gives how many there are.
pub fn salvage(file: &[u8], copy: &mut [u8], report: &mut [u8]) -> Result<u64, Refusal> {
    let summary = open(file)?;
    if shared_with(&summary).is_some() {
        return refuse(SHARED, 0);
    }
    if copy.len() != file.len() {
        return refuse(ROOM, 0);
    }
    let (mended, mends) = mended(file, &summary);
    if report.len() < REPORTED * mends.len() {
        return refuse(LIMIT, 5);
    }
    copy.copy_from_slice(&mended);
    for (i, mend) in mends.iter().enumerate() {
        put(report, REPORTED * i, 4, mend.index);
        put(report, REPORTED * i + 4, 4, mend.number);
    }
    Ok(mends.len() as u64)
}

/// The changes that salvaging the file makes.
pub fn mends(file: &[u8]) -> Result<Vec<Mend>, Refusal> {
    let summary = open(file)?;
    Ok(mended(file, &summary).1)
}

/// What the symbol table must not share a byte with.
#[derive(Clone, Copy, Debug, PartialEq, Eq)]
pub enum SharedWith {
    Headers,
    Debug,
}

/// What it shares one with.
pub fn shared_with(summary: &Summary) -> Option<SharedWith> {
    let symbols = symbol_bytes(summary);
    if share(&symbols, &(0..headers_end(summary))) {
        return Some(SharedWith::Headers);
    }
    let debug = summary.sections.iter().filter(|s| s.flags == DEBUG);
    let mut raw = debug.filter_map(|section| section.raw.as_ref());
    raw.any(|raw| share(&symbols, raw))
        .then_some(SharedWith::Debug)
}

/// The mended file and its changes: at each entry of the walk what its next check
/// refuses is mended, until it reads.
fn mended(file: &[u8], summary: &Summary) -> (Vec<u8>, Vec<Mend>) {
    let mut copy = file.to_vec();
    let mut mends = Vec::new();
    let mut index = 0;
    while index < summary.symbols {
        match read_entry(&copy, summary, index) {
            Ok(entry) => index += 1 + entry.auxiliaries,
            Err(refusal) => {
                mend(&mut copy, summary, index, refusal.number);
                mends.push(Mend {
                    index,
                    number: refusal.number,
                });
            }
        }
    }
    (copy, mends)
}

/// Sets the field that the entry is refused for.
fn mend(copy: &mut [u8], summary: &Summary, index: u64, refused: u64) {
    let at = summary.symptr as usize + 18 * index as usize;
    match refused {
        // What is left.
        AUX => put(copy, at + 17, 1, summary.symbols - index - 1),
        SECTION => put(copy, at + 12, 2, 0),
        // The empty name; in XCOFF32 the first word is 0 already.
        NAME => put(copy, at + by(summary.bits, 4, 8), 4, 0),
        VISIBILITY => {
            let kind = number(copy, at + 14, 2);
            put(copy, at + 14, 2, kind & !0x7000);
        }
        other => unreachable!("refused with {other}"),
    }
}
