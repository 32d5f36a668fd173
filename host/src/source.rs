//! What debugging symbols say of the lines of a function: where in its source file it starts, and which file that is. It is
//! for showing alone: nothing is judged by it, and what the symbols do not say is none.

use crate::{open, symbol_table, Format, FoundLine, Opened, Refusal, Section, SymbolRow};
use std::collections::HashMap;

/// Storage classes: external symbols, which functions have, and those for debuggers.
const EXT: u64 = 2;
const FCN: u64 = 101;
const FILE: u64 = 103;
const HIDEXT: u64 = 107;
const BINCL: u64 = 108;
const EINCL: u64 = 109;
const WEAKEXT: u64 = 111;

/// Bytes of an entry of the symbol table, auxiliary ones too.
const ENTRY: u64 = 18;
/// The last byte of an auxiliary entry of XCOFF64, its type: of a block, of a file.
const AUX_SYM: u64 = 253;
const AUX_FILE: u64 = 252;

/// What a file's symbols say of its sources.
pub struct Sources<'a> {
    format: Format,
    /// The first line of each function, by its symbol's index.
    starts: HashMap<u64, u64>,
    /// Source files, by the index from which on symbols are of them.
    files: Vec<(u64, Option<&'a [u8]>)>,
    /// Included files: the offsets of their first and last line entry.
    includes: Vec<(u64, u64, &'a [u8])>,
}

/// Where a line entry is in the sources.
#[derive(Clone, Copy, Debug, PartialEq, Eq)]
pub struct Source<'a> {
    /// The line's number in its file.
    pub line: Option<u64>,
    pub file: Option<&'a [u8]>,
}

impl<'a> Sources<'a> {
    /// Of the symbols that a walk reads.
    pub fn read(file: &'a [u8]) -> Result<Sources<'a>, Refusal> {
        let opened = open(file)?;
        let table = symbol_table(file)?;
        let bytes = Tables::new(file, opened.format, opened.symbols);
        let mut sources = Sources {
            format: opened.format,
            starts: HashMap::new(),
            files: Vec::new(),
            includes: Vec::new(),
        };
        let mut passed = Passed::default();
        for row in table.rows() {
            sources.symbol(&bytes, &row, &mut passed);
        }
        Ok(sources)
    }

    fn symbol(&mut self, bytes: &Tables<'a>, row: &SymbolRow<'a>, passed: &mut Passed<'a>) {
        let value = row.symbol.value;
        match row.symbol.sclass {
            EXT | HIDEXT | WEAKEXT => passed.function = Some((row.index, row.symbol.scnum)),
            FCN => self.starts.extend(bytes.start(row, passed.function.take())),
            FILE => {
                passed.function = None;
                self.files.push((row.index, bytes.source(row)));
            }
            BINCL => passed.included.push((value, row.name())),
            EINCL => {
                let begun = passed.included.pop();
                self.includes
                    .extend(begun.map(|(first, name)| (first, value, name)));
            }
            _ => {}
        }
    }

    /// Of an entry that was found in the line table of `section`. Lines count from the start of their function. Those of an
    /// included file do not where the function begins outside of it, so that their number in the file is not told.
    pub fn of(&self, section: &Section, found: &FoundLine) -> Source<'a> {
        match self.included(section, found.entry) {
            Some(name) => Source {
                line: None,
                file: Some(name),
            },
            None => Source {
                line: self.line(found.symbol, found.line),
                file: self.file(found.symbol),
            },
        }
    }

    /// The innermost included file that an entry is of.
    fn included(&self, section: &Section, entry: u64) -> Option<&'a [u8]> {
        let length = match self.format {
            Format::Xcoff32 => 6,
            Format::Xcoff64 => 12,
        };
        let at = section.lnnoptr.saturating_add(length * entry);
        let holding = self
            .includes
            .iter()
            .filter(|(first, last, _)| (*first..=*last).contains(&at));
        holding.max_by_key(|(first, ..)| first).map(|i| i.2)
    }

    fn line(&self, symbol: u64, line: u64) -> Option<u64> {
        let start = self.starts.get(&symbol)?;
        Some(start + line.checked_sub(1)?)
    }

    fn file(&self, symbol: u64) -> Option<&'a [u8]> {
        let later = self.files.partition_point(|(index, _)| *index <= symbol);
        self.files[..later].last()?.1
    }
}

/// What was passed on the way through the symbols: the function that a `.bf` is of, its symbol and section, and included
/// files that have not ended.
#[derive(Default)]
struct Passed<'a> {
    function: Option<(u64, i64)>,
    included: Vec<(u64, &'a [u8])>,
}

/// The name of the source file that a symbol of class FILE, of a file that opens, tells of in one of its auxiliary entries.
pub fn source_name<'a>(file: &'a [u8], opened: &Opened, row: &SymbolRow) -> Option<&'a [u8]> {
    let tables = Tables::new(file, opened.format, opened.symbols);
    tables.file_name(tables.file_entry(row)?)
}

/// Where auxiliary entries and strings lie.
struct Tables<'a> {
    file: &'a [u8],
    format: Format,
    symbols: u64,
    strings: u64,
}

impl<'a> Tables<'a> {
    /// Of a file that opens.
    fn new(file: &'a [u8], format: Format, count: u64) -> Tables<'a> {
        let symbols = match format {
            Format::Xcoff32 => number(&file[8..12]),
            Format::Xcoff64 => number(&file[8..16]),
        };
        Tables {
            file,
            format,
            symbols,
            strings: symbols.saturating_add(ENTRY * count),
        }
    }

    /// The auxiliary entries of a symbol: the walk has seen that they are in the table.
    fn auxiliaries(&self, row: &SymbolRow) -> impl Iterator<Item = &'a [u8]> {
        let start = (self.symbols + ENTRY * (row.index + 1)) as usize;
        let length = (ENTRY * row.symbol.numaux) as usize;
        self.file[start..start + length].chunks_exact(ENTRY as usize)
    }

    /// A function's symbol and first line, if this is its `.bf`.
    fn start(&self, row: &SymbolRow, function: Option<(u64, i64)>) -> Option<(u64, u64)> {
        let (symbol, scnum) = function?;
        if row.name() != b".bf" || row.symbol.scnum != scnum {
            return None;
        }
        let entry = self.auxiliaries(row).next()?;
        let line = match self.format {
            Format::Xcoff32 => number(&entry[2..6]),
            Format::Xcoff64 if u64::from(entry[17]) != AUX_SYM => return None,
            Format::Xcoff64 => number(&entry[..4]),
        };
        (line != 0).then_some((symbol, line))
    }

    /// The auxiliary entry of a symbol of class FILE that names a source file: the first of that type.
    fn file_entry(&self, row: &SymbolRow) -> Option<&'a [u8]> {
        const NAME: u8 = 0;
        let wide = self.format == Format::Xcoff64;
        self.auxiliaries(row)
            .find(|entry| entry[14] == NAME && (!wide || u64::from(entry[17]) == AUX_FILE))
    }

    /// The name in such an entry, or in the string table.
    fn file_name(&self, entry: &'a [u8]) -> Option<&'a [u8]> {
        match number(&entry[..4]) {
            0 => self.string(number(&entry[4..8])),
            _ => Some(until_zero(&entry[..14])),
        }
    }

    /// The source file that a symbol of class FILE names: by its entry, or itself where it has none.
    fn source(&self, row: &SymbolRow<'a>) -> Option<&'a [u8]> {
        match self.file_entry(row) {
            Some(entry) => self.file_name(entry),
            None if row.name() == b".file" => None,
            None => Some(row.name()),
        }
    }

    /// A string of the string table, whose first four bytes are its length.
    fn string(&self, offset: u64) -> Option<&'a [u8]> {
        let table = &self.file[(self.strings as usize).min(self.file.len())..];
        let length = table.get(..4).map_or(0, number) as usize;
        let table = &table[..length.min(table.len())];
        let name = until_zero(table.get(usize::try_from(offset).ok()?..)?);
        (offset >= 4 && !name.is_empty()).then_some(name)
    }
}

fn until_zero(bytes: &[u8]) -> &[u8] {
    let end = bytes.iter().position(|&byte| byte == 0);
    &bytes[..end.unwrap_or(bytes.len())]
}

fn number(bytes: &[u8]) -> u64 {
    bytes.iter().fold(0, |n, &byte| n << 8 | u64::from(byte))
}
