//! From address to line: the line number tables of text sections.

use crate::{accepted, ffi, Refusal};

/// Numbers in a row of a line table.
const ROW: usize = 3;

/// The entry of a line table that an address belongs to.
#[derive(Clone, Copy, Debug, PartialEq, Eq)]
pub struct FoundLine {
    /// Its number in the table, from 0.
    pub entry: u64,
    /// Where the code of the line begins, as the file has it.
    pub address: u64,
    /// As the table has it: in most tables relative to the start of the function.
    pub line: u64,
    /// The index of the symbol that opened the entry's group, which no rule checks.
    pub symbol: u64,
}

/// An entry of a line table.
#[derive(Clone, Copy, Debug, PartialEq, Eq)]
pub enum LineEntry {
    /// A function begins: the index of its symbol.
    Function(u64),
    Line {
        address: u64,
        line: u64,
    },
}

/// The entries of one section. They are made as they are asked for, since a file may hold more than two million.
pub struct LineTable {
    numbers: Vec<u64>,
}

/// The entry of text section `section` with the greatest address not above `address`, the first such in the table. The
/// address is not compared with the section's own.
pub fn find_line(file: &[u8], section: u64, address: u64) -> Result<FoundLine, Refusal> {
    let a = ffi::find_line(file, section, address);
    accepted(a.head)?;
    Ok(FoundLine {
        entry: a.entry,
        address: a.address,
        line: a.line,
        symbol: a.symbol,
    })
}

/// How many entries the line table of text section `section` has, in XCOFF32 from the overflow header where 65,535 stands in the section's
/// own.
pub fn line_count(file: &[u8], section: u64) -> Result<u64, Refusal> {
    let a = ffi::line_count(file, section);
    accepted(a.head)?;
    Ok(a.count)
}

/// Every entry of the line table of text section `section`.
pub fn line_table(file: &[u8], section: u64) -> Result<LineTable, Refusal> {
    let mut numbers = vec![0; ROW * line_count(file, section)? as usize];
    let answer = ffi::line_table(file, section, &mut numbers);
    accepted(answer)?;
    Ok(LineTable { numbers })
}

impl LineTable {
    pub fn len(&self) -> usize {
        self.numbers.len() / ROW
    }

    pub fn is_empty(&self) -> bool {
        self.numbers.is_empty()
    }

    pub fn rows(&self) -> impl Iterator<Item = LineEntry> + '_ {
        self.numbers.chunks_exact(ROW).map(|row| match row[0] {
            1 => LineEntry::Function(row[1]),
            _ => LineEntry::Line {
                address: row[1],
                line: row[2],
            },
        })
    }
}
