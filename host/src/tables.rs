//! Whole tables in one call: what the walk visits, loader symbols, relocation entries, import ids.
//!
//! A listing judges the file a fixed number of times and its cost is linear in the file, where a loop over the single
//! look-ups judges the file once for each of them.

use crate::{
    accepted, csect_type, ffi, module, visibility, walk, walk_of, Csect, LoaderSymbol, Module,
    Refusal, Symbol, Walk,
};

/// Numbers in a row of each table.
const SYMBOL: usize = 15;
const LOADER_SYMBOL: usize = 9;
const RELOCATION: usize = 8;
const IMPORT: usize = 6;

/// The symbols that a walk reads. The rows are made as they are asked for, since a file may hold close to a million.
pub struct SymbolTable<'a> {
    file: &'a [u8],
    numbers: Vec<u64>,
    pub walk: Walk,
}

pub struct SymbolRow<'a> {
    pub index: u64,
    pub symbol: Symbol,
    /// None: there is no valid csect entry (12 CSECT).
    pub csect: Option<Csect>,
    /// The bytes that the name may take; it ends at the first zero in them.
    room: &'a [u8],
}

pub struct LoaderRow<'a> {
    /// From 3.
    pub index: u64,
    pub symbol: LoaderSymbol,
    pub name: &'a [u8],
}

#[derive(Clone, Copy, Debug, PartialEq, Eq, PartialOrd, Ord)]
pub enum Image {
    Text,
    Data,
}

#[derive(Clone, Copy, Debug, PartialEq, Eq)]
pub struct Relocation {
    /// As recorded in the file.
    pub address: u64,
    /// 0, 1, 2: text, data, bss; from 3 a loader symbol.
    pub symbol: u64,
    pub rtype: u64,
    pub scnum: u64,
    pub image: Image,
    /// Of the field in its image.
    pub offset: u64,
    /// Of the field, in bytes.
    pub width: u64,
    pub subtracts: bool,
}

/// The import ids of a module. The rows are made as they are asked for: an id takes as little as three bytes of a file.
pub struct ImportTable<'a> {
    file: &'a [u8],
    numbers: Vec<u64>,
}

pub struct ImportId<'a> {
    pub path: &'a [u8],
    pub base: &'a [u8],
    pub member: &'a [u8],
}

/// Every symbol that a walk reads, with its csect entry.
pub fn symbol_table(file: &[u8]) -> Result<SymbolTable<'_>, Refusal> {
    let mut numbers = vec![0; SYMBOL * walk(file)?.visited as usize];
    let walk = walk_of(ffi::symbol_table(file, &mut numbers))?;
    Ok(SymbolTable {
        file,
        numbers,
        walk,
    })
}

/// Every loader symbol of a loadable module.
pub fn loader_symbol_table(file: &[u8]) -> Result<Vec<LoaderRow<'_>>, Refusal> {
    module(file)?.loader_symbol_table(file)
}

/// Every relocation entry of a loadable module, in the order of the table.
pub fn relocation_table(file: &[u8]) -> Result<Vec<Relocation>, Refusal> {
    module(file)?.relocation_table(file)
}

/// Every import id of a loadable module.
pub fn import_table(file: &[u8]) -> Result<ImportTable<'_>, Refusal> {
    module(file)?.import_table(file)
}

/// Tables of the file that a module was read from, whose counts are known: the file is judged once for each. Of another file
/// they are refused, most often for their lengths (20 ROOM).
impl Module {
    pub fn loader_symbol_table<'a>(&self, file: &'a [u8]) -> Result<Vec<LoaderRow<'a>>, Refusal> {
        let mut numbers = vec![0; LOADER_SYMBOL * self.symbols as usize];
        accepted(ffi::loader_symbol_table(file, &mut numbers))?;
        let rows = numbers.chunks_exact(LOADER_SYMBOL);
        Ok(rows.map(|row| loader_row(file, row)).collect())
    }

    pub fn relocation_table(&self, file: &[u8]) -> Result<Vec<Relocation>, Refusal> {
        let mut numbers = vec![0; RELOCATION * self.relocations as usize];
        accepted(ffi::relocation_table(file, &mut numbers))?;
        let rows = numbers.chunks_exact(RELOCATION);
        Ok(rows.map(relocation_row).collect())
    }

    pub fn import_table<'a>(&self, file: &'a [u8]) -> Result<ImportTable<'a>, Refusal> {
        let mut numbers = vec![0; IMPORT * self.ids as usize];
        accepted(ffi::import_table(file, &mut numbers))?;
        Ok(ImportTable { file, numbers })
    }
}

impl<'a> SymbolTable<'a> {
    /// The row at a place of the listing, from 0.
    pub fn row(&self, place: usize) -> SymbolRow<'a> {
        symbol_row(self.file, &self.numbers[SYMBOL * place..][..SYMBOL])
    }

    pub fn rows(&self) -> impl Iterator<Item = SymbolRow<'a>> + '_ {
        let file = self.file;
        self.numbers
            .chunks_exact(SYMBOL)
            .map(move |row| symbol_row(file, row))
    }
}

impl<'a> SymbolRow<'a> {
    pub fn name(&self) -> &'a [u8] {
        self.name_up_to(usize::MAX)
    }

    /// The name's first bytes, at most so many. Names may share their bytes, so that a file can hold very many long ones.
    pub fn name_up_to(&self, most: usize) -> &'a [u8] {
        let start = &self.room[..self.room.len().min(most)];
        let end = start.iter().position(|&byte| byte == 0);
        &start[..end.unwrap_or(start.len())]
    }
}

impl<'a> ImportTable<'a> {
    pub fn rows(&self) -> impl Iterator<Item = ImportId<'a>> + '_ {
        let file = self.file;
        self.numbers.chunks_exact(IMPORT).map(move |row| ImportId {
            path: part(file, row[0], row[1]),
            base: part(file, row[2], row[3]),
            member: part(file, row[4], row[5]),
        })
    }
}

fn symbol_row<'a>(file: &'a [u8], row: &[u64]) -> SymbolRow<'a> {
    SymbolRow {
        index: row[0],
        symbol: Symbol {
            value: row[1],
            scnum: row[2] as i64,
            ntype: row[3],
            sclass: row[4],
            numaux: row[5],
            visibility: visibility(row[6], row[7]),
        },
        csect: (row[10] == 0).then(|| Csect {
            kind: csect_type(row[11]),
            align: row[12],
            smclas: row[13],
            length: row[14],
        }),
        room: part(file, row[8], row[9]),
    }
}

fn loader_row<'a>(file: &'a [u8], row: &[u64]) -> LoaderRow<'a> {
    LoaderRow {
        index: row[0],
        symbol: LoaderSymbol {
            value: row[1],
            scnum: row[2],
            smtype: row[3],
            smclas: row[4],
            ifile: row[5],
            parm: row[6],
        },
        name: part(file, row[7], row[8]),
    }
}

fn relocation_row(row: &[u64]) -> Relocation {
    Relocation {
        address: row[0],
        symbol: row[1],
        rtype: row[2],
        scnum: row[3],
        image: if row[4] == 1 {
            Image::Text
        } else {
            Image::Data
        },
        offset: row[5],
        width: row[6],
        subtracts: row[7] == 1,
    }
}

fn part(file: &[u8], offset: u64, length: u64) -> &[u8] {
    &file[offset as usize..(offset + length) as usize]
}
