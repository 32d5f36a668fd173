//! The commands that list what a file holds.

use crate::args::Arguments;
use crate::files;
use crate::follows::Selected;
use crate::listing::{hex, names, number, word, Cell, Column, Listing};
use crate::output::{print, refused_in};
use crate::problem::Problem;
use crate::words::{kind_word, mapping_word};
use std::io::{self, Write};
use std::path::Path;
use xcoff::{
    Anchor, FieldValue, Format, HeaderFields, Image, LoaderRow, Module, Opened, Part, Relocation,
    Section,
};

pub type Lister = fn(&Arguments, &Path) -> Result<(), Problem>;

/// Lists each file; what is wrong with one of several is said, and the others are listed all the same.
pub fn each(args: &Arguments, list: Lister) -> Result<(), Problem> {
    if let [path] = args.operands() {
        return list(args, path);
    }
    let json = args.has("--json");
    let mut worst = 0;
    for (n, path) in args.operands().iter().enumerate() {
        if n > 0 && !json {
            print(|out| writeln!(out))?;
        }
        match list(args, path) {
            Ok(()) => {}
            Err(Problem::Closed) => return Err(Problem::Closed),
            Err(problem) => {
                problem.tell(json);
                worst = worst.max(problem.status());
            }
        }
    }
    match worst {
        0 => Ok(()),
        status => Err(Problem::Told(status)),
    }
}

/// A listing of a file, under its name where there are several.
pub fn open<'w>(args: &Arguments, out: &'w mut dyn Write, path: &'w Path) -> Listing<'w> {
    let several = args.operands().len() > 1;
    Listing::new(out, args.has("--json")).of(several.then_some(path))
}

pub fn headers(args: &Arguments) -> Result<(), Problem> {
    each(args, headers_of)
}

pub fn module(args: &Arguments) -> Result<(), Problem> {
    each(args, module_of)
}

pub fn imports(args: &Arguments) -> Result<(), Problem> {
    each(args, imports_of)
}

pub fn relocations(args: &Arguments) -> Result<(), Problem> {
    each(args, relocations_of)
}

fn headers_of(args: &Arguments, path: &Path) -> Result<(), Problem> {
    let file = files::read(path, files::FILE)?;
    let opened = refused_in(path, &file, xcoff::open(&file))?;
    let mut sections = Vec::new();
    for n in 1..=opened.sections {
        let section = refused_in(path, &file, xcoff::section(&file, n))?;
        sections.push((
            section,
            refused_in(path, &file, xcoff::section_name(&file, n))?,
        ));
    }
    print(|out| {
        let mut list = open(args, out, path);
        let fields = xcoff::header_fields(&file).expect("it is an XCOFF file");
        file_row(&mut list, &opened, &fields)?;
        list.table("sections", section_columns(&opened, &sections))?;
        for (n, (section, name)) in sections.iter().enumerate() {
            section_row(&mut list, n as u64 + 1, section, name)?;
        }
        auxiliary_rows(&mut list, &fields.auxiliary)
    })
}

/// The fields of the auxiliary header, as the file has them.
fn auxiliary_rows(list: &mut Listing, fields: &[FieldValue]) -> io::Result<()> {
    if fields.is_empty() {
        return Ok(());
    }
    let columns = vec![word("field", 12), number("offset", 255), word("value", 0)];
    list.table("auxiliary", columns)?;
    fields.iter().try_for_each(|field| {
        list.row(&[
            Cell::Word(field.name),
            Cell::Number(field.offset),
            Cell::Name(field.value.to_string().as_bytes()),
        ])
    })
}

fn file_row(list: &mut Listing, opened: &Opened, fields: &HeaderFields) -> io::Result<()> {
    let columns = vec![
        word("format", 7),
        number("sections", opened.sections),
        number("symbols", opened.symbols),
        number("auxiliary", opened.opthdr),
        hex("flags", 4),
        word("time", 0),
    ];
    list.table("file", columns)?;
    list.row(&[
        Cell::Word(format_word(opened.format)),
        Cell::Number(opened.sections),
        Cell::Number(opened.symbols),
        Cell::Number(opened.opthdr),
        Cell::Hex(opened.flags),
        Cell::Time(fields.value("f_timdat").unwrap_or(0)),
    ])
}

fn section_columns(opened: &Opened, sections: &[(Section, &[u8])]) -> Vec<Column> {
    let greatest = |of: fn(&Section) -> u64| sections.iter().map(|(s, _)| of(s)).max().unwrap_or(0);
    vec![
        number("section", opened.sections),
        word("kind", 7),
        hex("paddr", digits(opened.format)),
        hex("vaddr", digits(opened.format)),
        number("size", greatest(|s| s.size)),
        number("offset", greatest(|s| s.scnptr)),
        word("raw", 3),
        number("relptr", greatest(|s| s.relptr)),
        number("nreloc", greatest(|s| s.nreloc)),
        number("lnnoptr", greatest(|s| s.lnnoptr)),
        number("nlnno", greatest(|s| s.nlnno)),
        word("name", 0),
    ]
}

fn section_row(list: &mut Listing, n: u64, section: &Section, name: &[u8]) -> io::Result<()> {
    list.row(&[
        Cell::Number(n),
        Cell::Word(kind_word(section.kind)),
        Cell::Hex(section.paddr),
        Cell::Hex(section.vaddr),
        Cell::Number(section.size),
        Cell::Number(section.scnptr),
        Cell::Flag(section.raw),
        Cell::Number(section.relptr),
        Cell::Number(section.nreloc),
        Cell::Number(section.lnnoptr),
        Cell::Number(section.nlnno),
        Cell::Name(name),
    ])
}

fn module_of(args: &Arguments, path: &Path) -> Result<(), Problem> {
    let file = files::read(path, files::FILE)?;
    let module = refused_in(path, &file, xcoff::module(&file))?;
    let symbols = refused_in(path, &file, module.loader_symbol_table(&file))?;
    print(|out| {
        let mut list = open(args, out, path);
        module_row(&mut list, &module)?;
        module_parts(&mut list, &module)?;
        module_anchors(&mut list, &module)?;
        loader_symbols(&mut list, &module, &symbols)
    })
}

fn module_row(list: &mut Listing, m: &Module) -> io::Result<()> {
    let columns = vec![
        word("format", 7),
        number("loader", m.loader),
        number("symbols", m.symbols),
        number("relocations", m.relocations),
        number("ids", m.ids),
    ];
    list.table("module", columns)?;
    list.row(&[
        Cell::Word(format_word(m.format)),
        Cell::Number(m.loader),
        Cell::Number(m.symbols),
        Cell::Number(m.relocations),
        Cell::Number(m.ids),
    ])
}

/// The sections that make the images, and the data image itself.
fn module_parts(list: &mut Listing, m: &Module) -> io::Result<()> {
    let columns = vec![
        word("part", 5),
        number("section", 32),
        hex("address", digits(m.format)),
        number("size", m.image.max(m.text.size)),
    ];
    list.table("parts", columns)?;
    let image = Part {
        size: m.image,
        ..m.data
    };
    for (name, part) in [
        ("text", m.text),
        ("data", m.data),
        ("bss", m.bss),
        ("image", image),
    ] {
        list.row(&[
            Cell::Word(name),
            if name == "image" {
                Cell::Nothing
            } else {
                Cell::Number(part.number)
            },
            Cell::Hex(part.address),
            Cell::Number(part.size),
        ])?;
    }
    Ok(())
}

fn module_anchors(list: &mut Listing, m: &Module) -> io::Result<()> {
    let columns = vec![
        word("anchor", 5),
        number("section", 32),
        hex("address", digits(m.format)),
    ];
    list.table("anchors", columns)?;
    for (name, anchor) in [("entry", m.entry), ("TOC", m.toc)] {
        list.row(&[
            Cell::Word(name),
            anchor.map_or(Cell::Nothing, |a: Anchor| Cell::Number(a.section)),
            anchor.map_or(Cell::Nothing, |a: Anchor| Cell::Hex(a.address)),
        ])?;
    }
    Ok(())
}

fn loader_symbols(list: &mut Listing, m: &Module, symbols: &[LoaderRow]) -> io::Result<()> {
    let greatest = |of: fn(&LoaderRow) -> u64| symbols.iter().map(of).max().unwrap_or(0);
    let columns = vec![
        number("index", m.symbols + 2),
        hex("value", digits(m.format)),
        number("section", 32),
        hex("type", 2),
        word("mapping", 6),
        number("id", greatest(|row| row.symbol.ifile)),
        hex("parm", 8),
        word("use", 8),
        word("name", 0),
    ];
    list.table("loader_symbols", columns)?;
    symbols.iter().try_for_each(|row| {
        let s = &row.symbol;
        list.row(&[
            Cell::Number(row.index),
            Cell::Hex(s.value),
            Cell::Number(s.scnum),
            Cell::Hex(s.smtype),
            Cell::Named(s.smclas as i64, mapping_word(s.smclas)),
            Cell::Number(s.ifile),
            Cell::Hex(s.parm),
            Cell::Word(use_word(row)),
            Cell::Name(row.name),
        ])
    })
}

/// What a plan's address of a loader symbol is for: only that of an `import` is used.
pub fn use_word(row: &LoaderRow) -> &'static str {
    match row.symbol.is_import() {
        false => "defined",
        true if row.symbol.is_deferred() => "deferred",
        true => "import",
    }
}

fn imports_of(args: &Arguments, path: &Path) -> Result<(), Problem> {
    let file = files::read(path, files::FILE)?;
    let module = refused_in(path, &file, xcoff::module(&file))?;
    let ids = refused_in(path, &file, module.import_table(&file))?;
    let symbols = refused_in(path, &file, module.loader_symbol_table(&file))?;
    let id_columns = vec![
        number("id", module.ids),
        names("path", ids.rows().map(|id| id.path)),
        names("base", ids.rows().map(|id| id.base)),
        word("member", 0),
    ];
    print(|out| {
        let mut list = open(args, out, path);
        list.table("ids", id_columns)?;
        for (n, id) in ids.rows().enumerate() {
            list.row(&[
                Cell::Number(n as u64),
                Cell::Name(id.path),
                Cell::Name(id.base),
                Cell::Name(id.member),
            ])?;
        }
        imported(&mut list, &module, &symbols)
    })
}

fn imported(list: &mut Listing, m: &Module, symbols: &[LoaderRow]) -> io::Result<()> {
    let columns = vec![
        number("index", m.symbols + 2),
        hex("recorded", digits(m.format)),
        word("mapping", 6),
        number("id", m.ids),
        word("use", 8),
        word("name", 0),
    ];
    list.table("imports", columns)?;
    for row in symbols.iter().filter(|row| row.symbol.is_import()) {
        list.row(&[
            Cell::Number(row.index),
            Cell::Hex(row.symbol.value),
            Cell::Named(row.symbol.smclas as i64, mapping_word(row.symbol.smclas)),
            Cell::Number(row.symbol.ifile),
            Cell::Word(use_word(row)),
            Cell::Name(row.name),
        ])?;
    }
    Ok(())
}

fn relocations_of(args: &Arguments, path: &Path) -> Result<(), Problem> {
    let file = files::read(path, files::FILE)?;
    let module = refused_in(path, &file, xcoff::module(&file))?;
    let symbols = refused_in(path, &file, module.loader_symbol_table(&file))?;
    let entries = refused_in(path, &file, module.relocation_table(&file))?;
    let selected = Selected::read(args, &module, &symbols, &entries)?;
    let columns = vec![
        number("entry", module.relocations),
        hex("address", digits(module.format)),
        word("image", 5),
        number(
            "offset",
            entries.iter().map(|e| e.offset).max().unwrap_or(0),
        ),
        number("bits", 64),
        word("sign", 1),
        hex("type", 4),
        number("symbol", module.symbols + 2),
        word("name", 0),
    ];
    print(|out| {
        let mut list = open(args, out, path);
        list.table("relocations", columns)?;
        let shown = |(_, entry): &(usize, &Relocation)| selected.has(entry);
        for (n, entry) in entries.iter().enumerate().filter(shown) {
            relocation_row(&mut list, n as u64, entry, &symbols)?;
        }
        Ok(())
    })
}

fn relocation_row(
    list: &mut Listing,
    n: u64,
    entry: &Relocation,
    symbols: &[LoaderRow],
) -> io::Result<()> {
    list.row(&[
        Cell::Number(n),
        Cell::Hex(entry.address),
        Cell::Word(image_word(entry.image)),
        Cell::Number(entry.offset),
        Cell::Number(8 * entry.width),
        Cell::Word(if entry.subtracts { "-" } else { "+" }),
        Cell::Hex(entry.rtype),
        Cell::Number(entry.symbol),
        Cell::Name(match entry.symbol {
            0 => b"text",
            1 => b"data",
            2 => b"bss",
            index => symbols[index as usize - 3].name,
        }),
    ])
}

pub fn image_word(image: Image) -> &'static str {
    match image {
        Image::Text => "text",
        Image::Data => "data",
    }
}

pub fn format_word(format: Format) -> &'static str {
    match format {
        Format::Xcoff32 => "XCOFF32",
        Format::Xcoff64 => "XCOFF64",
    }
}

/// Hexadecimal digits of an address.
pub fn digits(format: Format) -> usize {
    match format {
        Format::Xcoff32 => 8,
        Format::Xcoff64 => 16,
    }
}
