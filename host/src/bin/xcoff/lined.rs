//! What the commands about lines work on: a file with its line number tables, and the command `lines`, which lists them.

use crate::args::Arguments;
use crate::escape;
use crate::files;
use crate::listing::{hex, number, word, Cell, Column, Listing};
use crate::lists::{digits, each, open};
use crate::output::{print, refused_about, refused_in};
use crate::problem::Problem;
use std::io;
use std::path::Path;
use xcoff::{Format, FoundLine, Kind, LineEntry, LineTable, Section, Source, Sources};

/// A file, its sections, and what its symbols say of the sources.
pub struct Lined<'a> {
    pub path: &'a Path,
    pub format: Format,
    bytes: &'a [u8],
    sections: Vec<Section>,
    sources: Sources<'a>,
}

/// The line of an address.
pub struct Answer<'a> {
    pub section: u64,
    pub found: FoundLine,
    pub source: Source<'a>,
    /// None where the entry names no symbol that can be read.
    pub function: Option<&'a [u8]>,
}

impl<'a> Lined<'a> {
    pub fn new(path: &'a Path, bytes: &'a [u8]) -> Result<Lined<'a>, Problem> {
        let opened = refused_in(path, bytes, xcoff::open(bytes))?;
        let sections = (1..=opened.sections).map(|n| xcoff::section(bytes, n));
        Ok(Lined {
            path,
            format: opened.format,
            bytes,
            sections: refused_in(path, bytes, sections.collect())?,
            sources: refused_in(path, bytes, Sources::read(bytes))?,
        })
    }

    /// The numbers of the text sections.
    fn texts(&self) -> impl Iterator<Item = u64> + '_ {
        let all = (1..).zip(&self.sections);
        all.filter(|(_, section)| section.kind == Kind::Text)
            .map(|(n, _)| n)
    }

    /// The text section that holds an address.
    pub fn holding(&self, address: u64) -> Option<u64> {
        let holds = |s: &Section| address >= s.paddr && address - s.paddr < s.size;
        self.texts().find(|&n| holds(self.section(n)))
    }

    pub fn find(&self, section: u64, address: u64) -> Result<Answer<'a>, Problem> {
        let about = || {
            let (path, digits) = (escape::argument(self.path), digits(self.format));
            format!("{path}: address {address:0digits$x} in section {section}")
        };
        let found = xcoff::find_line(self.bytes, section, address);
        let found = refused_about(about, self.bytes, found)?;
        Ok(Answer {
            section,
            found,
            source: self.sources.of(self.section(section), &found),
            function: self.function(found.symbol),
        })
    }

    /// By a number that was accepted.
    fn section(&self, n: u64) -> &Section {
        &self.sections[n as usize - 1]
    }

    fn function(&self, symbol: u64) -> Option<&'a [u8]> {
        xcoff::symbol_name(self.bytes, symbol).ok()
    }
}

pub fn lines(args: &Arguments) -> Result<(), Problem> {
    args.number("--section")?;
    each(args, lines_of)
}

fn lines_of(args: &Arguments, path: &Path) -> Result<(), Problem> {
    let only = args.number("--section")?;
    let bytes = files::read(path, files::FILE)?;
    let lined = Lined::new(path, &bytes)?;
    let numbers = only.map_or_else(|| lined.texts().collect(), |n| vec![n]);
    let tables = numbers
        .iter()
        .map(|&n| Ok((n, refused_in(path, &bytes, xcoff::line_table(&bytes, n))?)))
        .collect::<Result<Vec<_>, Problem>>()?;
    print(|out| {
        let mut list = open(args, out, path);
        list.table("lines", columns(&lined, &tables))?;
        tables
            .iter()
            .try_for_each(|(n, table)| rows(&mut list, &lined, *n, table))
    })
}

fn columns(lined: &Lined, tables: &[(u64, LineTable)]) -> Vec<Column> {
    let longest = tables.iter().map(|(_, table)| table.len() as u64).max();
    vec![
        number("section", 32),
        number("entry", longest.unwrap_or(0)),
        hex("address", digits(lined.format)),
        number("line", 65_535).headed("relative"),
        number("absolute", 65_535),
        number("symbol", 65_535),
        word("function", 0),
    ]
}

/// The entries of one section, in the order of its table.
fn rows(list: &mut Listing, lined: &Lined, section: u64, table: &LineTable) -> io::Result<()> {
    let mut group = None;
    for (entry, row) in (0..).zip(table.rows()) {
        let cells = match row {
            LineEntry::Function(symbol) => {
                group = Some(symbol);
                let name = lined.function(symbol);
                [
                    Cell::Nothing,
                    Cell::Number(0),
                    Cell::Nothing,
                    Cell::Number(symbol),
                    name.map_or(Cell::Nothing, Cell::Name),
                ]
            }
            LineEntry::Line { address, line } => {
                let absolute = group.and_then(|symbol| {
                    let found = FoundLine {
                        entry,
                        address,
                        line,
                        symbol,
                    };
                    lined.sources.of(lined.section(section), &found).line
                });
                [
                    Cell::Hex(address),
                    Cell::Number(line),
                    absolute.map_or(Cell::Nothing, Cell::Number),
                    Cell::Nothing,
                    Cell::Nothing,
                ]
            }
        };
        let [address, line, absolute, symbol, function] = cells;
        list.row(&[
            Cell::Number(section),
            Cell::Number(entry),
            address,
            line,
            absolute,
            symbol,
            function,
        ])?;
    }
    Ok(())
}
