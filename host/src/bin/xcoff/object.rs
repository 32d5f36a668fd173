//! The command `object`: the relocation tables of an object file, and their entries.

use crate::args::Arguments;
use crate::escape;
use crate::listing::{hex, number, word, Cell, Column, Listing};
use crate::lists::{digits, each, format_word, open};
use crate::output::{print, refused_object};
use crate::placed::ObjectFile;
use crate::problem::Problem;
use crate::words::{entry_word, kind_word};
use std::collections::HashMap;
use std::io;
use std::path::Path;
use xcoff::{ObjectEntries, ObjectEntry};

pub fn object(args: &Arguments) -> Result<(), Problem> {
    args.number("--section")?;
    each(args, object_of)
}

fn object_of(args: &Arguments, path: &Path) -> Result<(), Problem> {
    let only = args.number("--section")?;
    let file = ObjectFile::read(path)?;
    file.say_needed(file.listing_memory());
    let numbers = match only {
        Some(n) => vec![n],
        None => file.with_entries().collect(),
    };
    // The first table is read before anything is printed, so that a number that names none is refused alone.
    let mut tables = numbers.iter().map(|&n| (n, entries(&file, n)));
    let first = tables.next().map(|(n, table)| Ok((n, table?)));
    let first: Option<(u64, ObjectEntries)> = first.transpose()?;
    let symbols = Symbols::read(&file)?;
    let mut problem = None;
    print(|out| {
        let mut list = open(args, out, path);
        object_row(&mut list, &file)?;
        section_rows(&mut list, &file)?;
        list.table("entries", columns(&file))?;
        let first = first.into_iter().map(|(n, table)| (n, Ok(table)));
        for (n, table) in first.chain(tables) {
            match table {
                Ok(table) => rows(&mut list, &file, &symbols, n, &table)?,
                Err(refused) => problem = problem.take().or(Some(refused)),
            }
        }
        Ok(())
    })?;
    problem.map_or(Ok(()), Err)
}

/// The entries of one section: of several only one table at a time is in memory.
fn entries(file: &ObjectFile, n: u64) -> Result<ObjectEntries, Problem> {
    let own = file.row(n).map_or(0, |row| row.entries);
    let entries = xcoff::object_entries_of(&file.bytes, n, own);
    refused_object(file.path, &file.bytes, entries)
}

fn object_row(list: &mut Listing, file: &ObjectFile) -> io::Result<()> {
    let object = &file.object;
    let columns = vec![
        word("format", 7),
        number("sections", object.sections),
        number("entries", object.entries),
        number("image", object.length),
    ];
    list.table("object", columns)?;
    list.row(&[
        Cell::Word(format_word(file.format)),
        Cell::Number(object.sections),
        Cell::Number(object.entries),
        Cell::Number(object.length),
    ])
}

/// Every section, since a plan has an address for each; what the image does not hold has no place in it.
fn section_rows(list: &mut Listing, file: &ObjectFile) -> io::Result<()> {
    let sizes = file.sections.iter().map(|(section, _)| section.size);
    let columns = vec![
        number("section", file.object.sections),
        word("kind", 7),
        hex("address", digits(file.format)),
        number("size", sizes.max().unwrap_or(0)),
        number("offset", file.object.length),
        number("table", file.bytes.len() as u64),
        number("entries", file.object.entries),
        number("first", file.object.entries),
        word("name", 0),
    ];
    list.table("sections", columns)?;
    for ((n, (section, name)), row) in (1..).zip(&file.sections).zip(&file.rows) {
        let own = |value: u64| match file.is_in_image(n) {
            true => Cell::Number(value),
            false => Cell::Nothing,
        };
        list.row(&[
            Cell::Number(n),
            Cell::Word(kind_word(section.kind)),
            Cell::Hex(section.paddr),
            Cell::Number(section.size),
            own(row.place),
            own(row.table),
            own(row.entries),
            own(row.first),
            Cell::Name(name),
        ])?;
    }
    Ok(())
}

fn columns(file: &ObjectFile) -> Vec<Column> {
    vec![
        number("entry", file.object.entries),
        number("section", file.object.sections),
        hex("address", digits(file.format)),
        number("offset", file.object.length),
        number("bits", 64),
        hex("size", 2),
        word("type", 4),
        number("symbol", 65_535),
        number("with", file.object.sections),
        word("name", 0),
    ]
}

fn rows(
    list: &mut Listing,
    file: &ObjectFile,
    symbols: &Symbols,
    n: u64,
    table: &ObjectEntries,
) -> io::Result<()> {
    let first = file.row(n).map_or(0, |row| row.first);
    (first..).zip(table.rows()).try_for_each(|(number, entry)| {
        let field = |value: u64| match entry.width {
            0 => Cell::Nothing,
            _ => Cell::Number(value),
        };
        let symbol = symbols.of(entry.symbol);
        list.row(&[
            Cell::Number(number),
            Cell::Number(n),
            Cell::Hex(entry.address),
            field(entry.place),
            field(entry.width),
            Cell::Hex(entry.rsize),
            Cell::Named(entry.rtype as i64, entry_word(entry.rtype)),
            Cell::Number(entry.symbol),
            file.moving(symbol.section)
                .map_or(Cell::Nothing, Cell::Number),
            Cell::Name(symbol.name),
        ])
    })
}

/// What listings say of a symbol.
#[derive(Clone, Copy)]
pub struct Named<'a> {
    pub section: i64,
    /// As much of it as is shown.
    pub name: &'a [u8],
}

/// The symbols that entries may name. Those on the walk's way are read in one go: many may share one long name.
pub struct Symbols<'a> {
    bytes: &'a [u8],
    walked: HashMap<u64, Named<'a>>,
}

impl<'a> Symbols<'a> {
    pub fn read(file: &'a ObjectFile) -> Result<Symbols<'a>, Problem> {
        let table = xcoff::symbol_table(&file.bytes);
        let table = refused_object(file.path, &file.bytes, table)?;
        let named = |row: xcoff::SymbolRow<'a>| {
            let named = Named {
                section: row.symbol.scnum,
                name: row.name_up_to(escape::MOST + 1),
            };
            (row.index, named)
        };
        Ok(Symbols {
            bytes: &file.bytes,
            walked: table.rows().map(named).collect(),
        })
    }

    /// By an index that an accepted entry has: any entry of the table that can be read, auxiliary ones too.
    pub fn of(&self, index: u64) -> Named<'a> {
        let single = || Named {
            section: xcoff::symbol(self.bytes, index).map_or(0, |symbol| symbol.scnum),
            name: xcoff::symbol_name(self.bytes, index).unwrap_or_default(),
        };
        self.walked.get(&index).copied().unwrap_or_else(single)
    }
}

/// Whether an entry is a branch by a distance, which its own section's move changes too.
pub fn is_relative(entry: &ObjectEntry) -> bool {
    matches!(entry.rtype, 0x0A | 0x1A)
}
