//! The command `symbols`.

use crate::args::Arguments;
use crate::escape;
use crate::files;
use crate::listing::{hex, names, number, word, Cell, Column};
use crate::lists::{digits, each, open};
use crate::output::{print, refused_in};
use crate::problem::Problem;
use crate::words::{class_word, mapping_word, section_word, visibility_word};
use std::ffi::OsStr;
use std::io;
use std::os::unix::ffi::OsStrExt;
use std::path::Path;
use xcoff::{source_name, Csect, CsectType, Opened, SymbolRow, SymbolTable};

/// The storage class of a symbol that tells of a source file.
const FILE: u64 = 103;

pub fn symbols(args: &Arguments) -> Result<(), Problem> {
    // An order that makes no sense is told once, before any file is read.
    Chosen::read(args)?;
    each(args, symbols_of)
}

/// Lists what the walk reads; where it ends early, the refusal follows the list.
fn symbols_of(args: &Arguments, path: &Path) -> Result<(), Problem> {
    let file = files::read(path, files::FILE)?;
    let opened = refused_in(path, &file, xcoff::open(&file))?;
    let table = refused_in(path, &file, xcoff::symbol_table(&file))?;
    let chosen = Chosen::read(args)?;
    let view = View {
        file: &file,
        opened: &opened,
        sections: section_names(&file, &opened),
    };
    print(|out| {
        let mut list = open(args, out, path);
        list.table("symbols", view.columns(&opened, &table))?;
        chosen.each(&table, |row| list.row(&view.cells(row)))
    })?;
    match table.walk.cause {
        Some(refusal) => refused_in(path, &file, Err(refusal)),
        None => Ok(()),
    }
}

/// By its number, less 1; a section of an accepted file has a name, be it empty.
fn section_names<'a>(file: &'a [u8], opened: &Opened) -> Vec<&'a [u8]> {
    let name = |n| xcoff::section_name(file, n).unwrap_or(b"");
    (1..=opened.sections).map(name).collect()
}

// ---- which symbols, and in which order

/// The options --name and --sort.
struct Chosen<'a> {
    pattern: Option<&'a [u8]>,
    order: Order,
}

#[derive(Clone, Copy, PartialEq, Eq)]
enum Order {
    Index,
    Value,
    Name,
}

impl<'a> Chosen<'a> {
    fn read(args: &'a Arguments) -> Result<Chosen<'a>, Problem> {
        let value = |option| args.each(option).next().map(|values| values[0].as_os_str());
        let order = match value("--sort").map(OsStr::as_bytes) {
            None | Some(b"index") => Order::Index,
            Some(b"value") => Order::Value,
            Some(b"name") => Order::Name,
            Some(other) => {
                let other = escape::argument(OsStr::from_bytes(other));
                let text = format!("--sort {other}: it is by value, name or index");
                return Err(args.wrong(text));
            }
        };
        let pattern = value("--name").map(OsStr::as_bytes);
        Ok(Chosen { pattern, order })
    }

    fn has(&self, row: &SymbolRow) -> bool {
        let shown = || escape::name(row.name_up_to(escape::MOST + 1));
        self.pattern
            .is_none_or(|pattern| matches(pattern, shown().as_bytes()))
    }

    /// Symbols that are equal in the order stay in the table's.
    fn each(
        &self,
        table: &SymbolTable,
        mut list: impl FnMut(&SymbolRow) -> io::Result<()>,
    ) -> io::Result<()> {
        let mut rows = table.rows().filter(|row| self.has(row));
        if self.order == Order::Index {
            return rows.try_for_each(|row| list(&row));
        }
        let places = match self.order {
            Order::Value => self.sorted(table, |row| row.symbol.value),
            // Many names may share the bytes of a long one: no more is compared than is shown.
            _ => self.sorted(table, |row| row.name_up_to(escape::MOST)),
        };
        let mut places = places.into_iter();
        places.try_for_each(|place| list(&table.row(place as usize)))
    }

    /// The places in the table, by a key: a file may hold close to a million symbols, and a row is far longer than these.
    fn sorted<'t, K: Ord>(
        &self,
        table: &SymbolTable<'t>,
        key: impl Fn(&SymbolRow<'t>) -> K,
    ) -> Vec<u32> {
        let rows = table.rows().zip(0..).filter(|(row, _)| self.has(row));
        let mut keys: Vec<(K, u32)> = rows.map(|(row, place)| (key(&row), place)).collect();
        keys.sort_unstable();
        keys.into_iter().map(|(_, place)| place).collect()
    }
}

/// Whether a name is as a pattern says, in which * stands for any characters and ? for one.
fn matches(pattern: &[u8], name: &[u8]) -> bool {
    let (mut p, mut n) = (0, 0);
    // Behind the last * that was passed, and the place in the name that it was tried up to.
    let mut star: Option<(usize, usize)> = None;
    while n < name.len() {
        match pattern.get(p) {
            Some(b'*') => {
                star = Some((p + 1, n));
                p += 1;
            }
            Some(&c) if c == b'?' || c == name[n] => {
                p += 1;
                n += 1;
            }
            _ => match star {
                Some((after, tried)) => {
                    star = Some((after, tried + 1));
                    (p, n) = (after, tried + 1);
                }
                None => return false,
            },
        }
    }
    pattern[p..].iter().all(|&c| c == b'*')
}

// ---- the columns

struct View<'a> {
    file: &'a [u8],
    opened: &'a Opened,
    sections: Vec<&'a [u8]>,
}

impl<'a> View<'a> {
    fn columns(&self, opened: &Opened, table: &SymbolTable) -> Vec<Column> {
        let length = |row: SymbolRow| row.csect.map_or(0, |c| c.length);
        let sources = table.rows().filter_map(|row| self.source(&row));
        vec![
            number("index", table.walk.end),
            hex("value", digits(opened.format)),
            number("section", 32),
            hex("type", 4),
            word("visibility", 9),
            word("class", 7),
            number("aux", 255),
            word("csect", 3),
            number("align", 31),
            word("mapping", 6),
            number("length", table.rows().map(length).max().unwrap_or(0)),
            number("within", table.walk.end),
            names("in", self.sections.iter().copied()),
            names("source", sources),
            word("name", 0),
        ]
    }

    /// The source file that a symbol tells of.
    fn source(&self, row: &SymbolRow) -> Option<&'a [u8]> {
        let s = &row.symbol;
        (s.sclass == FILE).then(|| source_name(self.file, self.opened, row))?
    }

    /// The name of the section that a symbol is in.
    fn section(&self, row: &SymbolRow) -> Option<&'a [u8]> {
        let place = usize::try_from(row.symbol.scnum - 1).ok()?;
        self.sections.get(place).copied()
    }

    fn cells<'b>(&self, row: &SymbolRow<'b>) -> [Cell<'b>; 15]
    where
        'a: 'b,
    {
        let s = &row.symbol;
        let csect = row.csect.as_ref();
        let holds = |wanted: bool| move |c: &&Csect| (c.kind == CsectType::Ld) == wanted;
        let length = |c: &Csect| Cell::Number(c.length);
        [
            Cell::Number(row.index),
            Cell::Hex(s.value),
            Cell::Named(s.scnum, section_word(s.scnum)),
            Cell::Hex(s.ntype),
            s.visibility.map_or(Cell::Nothing, |v| {
                Cell::Named(v as i64, Some(visibility_word(v)))
            }),
            Cell::Named(s.sclass as i64, class_word(s.sclass)),
            Cell::Number(s.numaux),
            csect_cell(row),
            csect.map_or(Cell::Nothing, |c| Cell::Number(c.align)),
            csect.map_or(Cell::Nothing, |c| {
                Cell::Named(c.smclas as i64, mapping_word(c.smclas))
            }),
            csect.filter(holds(false)).map_or(Cell::Nothing, length),
            csect.filter(holds(true)).map_or(Cell::Nothing, length),
            self.section(row).map_or(Cell::Nothing, Cell::Name),
            self.source(row).map_or(Cell::Nothing, Cell::Name),
            Cell::Name(row.name_up_to(escape::MOST + 1)),
        ]
    }
}

/// The csect's type; "bad" where the class carries a csect entry and there is no valid one.
fn csect_cell(row: &SymbolRow) -> Cell<'static> {
    match &row.csect {
        Some(c) => Cell::Word(match c.kind {
            CsectType::Er => "ER",
            CsectType::Sd => "SD",
            CsectType::Ld => "LD",
            CsectType::Cm => "CM",
        }),
        None if matches!(row.symbol.sclass, 2 | 107 | 111) => Cell::Word("bad"),
        None => Cell::Nothing,
    }
}
