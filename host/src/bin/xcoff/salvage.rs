//! The command `salvage`.

use crate::args::Arguments;
use crate::escape;
use crate::files;
use crate::kinds::{may_replace, Written};
use crate::listing::{number, word, Cell, Listing};
use crate::load::apart;
use crate::lock;
use crate::output::{print_done, refused_in};
use crate::problem::Problem;
use crate::shown;
use std::collections::BTreeSet;
use std::io;
use std::path::Path;
use xcoff::{ChangedField, Refusal, Salvaged, SymbolTable};

pub fn salvage(args: &Arguments) -> Result<(), Problem> {
    let path = args.path(0);
    let copy = args.paths("-o").expect("the syntax asks for it")[0];
    let report = args.paths("--report").map(|paths| paths[0]);
    let mut outputs = vec![("COPY", copy)];
    outputs.extend(report.map(|report| ("REPORT", report)));
    apart(args, &outputs, &[("FILE", path)])?;
    let paths: Vec<&Path> = outputs.iter().map(|(_, path)| *path).collect();
    let _lock = lock::to_write(args, &paths)?;

    let file = files::read(path, files::FILE)?;
    let salvaged = judged(path, &file, xcoff::salvage(&file))?;
    let fields: Vec<ChangedField> =
        refused_in(path, &file, xcoff::changed_fields(&file, &salvaged))?.collect();
    // Before anything is written the copy is opened and walked as any other file.
    let table = reread(copy, &file, &salvaged)?;

    may_replace(args, copy, Written::Copy)?;
    if let Some(report) = report {
        may_replace(args, report, Written::Report)?;
    }
    let mut written = vec![(copy, salvaged.copy.as_slice())];
    written.extend(report.map(|report| (report, salvaged.report.as_slice())));
    files::replace(&written)?;
    let line = done_line(copy, report, &salvaged, &fields, &table);
    let json = args.has("--json");
    print_done(&line, |out| {
        let mut list = Listing::new(out, json);
        if json {
            copy_row(&mut list, copy, &salvaged, &fields, &table)?;
        }
        changes(&mut list, &fields, &table)?;
        match (json, fields.is_empty()) {
            (true, _) => Ok(()),
            (false, true) => writeln!(out, "{line}"),
            (false, false) => writeln!(out, "\n{line}"),
        }
    })
}

/// SHARED, which points nowhere, is shown with what shares bytes.
fn judged<T>(path: &Path, file: &[u8], answer: Result<T, Refusal>) -> Result<T, Problem> {
    match answer {
        Err(refusal) if refusal.number == 29 => Err(Problem::refused_and_shown(
            escape::argument(path),
            refusal,
            shown::shared(&xcoff::shared_with_symbols(file)),
        )),
        answer => refused_in(path, file, answer),
    }
}

/// The copy's symbols: it opens as the file does, its walk reaches the table's end and nothing in it is left to change.
fn reread<'c>(
    path: &Path,
    file: &[u8],
    salvaged: &'c Salvaged,
) -> Result<SymbolTable<'c>, Problem> {
    let copy = &salvaged.copy;
    let table = refused_in(path, copy, xcoff::symbol_table(copy))?;
    if let Some(cause) = table.walk.cause {
        return refused_in(path, copy, Err(cause));
    }
    let opened = refused_in(path, copy, xcoff::open(copy))?;
    let left = refused_in(path, copy, xcoff::salvage_count(copy))?;
    if xcoff::open(file) == Ok(opened) && table.walk.end == opened.symbols && left == 0 {
        return Ok(table);
    }
    Err(Problem::Unequal(vec![format!(
        "xcoff: {}: what was to be written is not the salvaged file; nothing is written",
        escape::argument(path)
    )]))
}

fn done_line(
    copy: &Path,
    report: Option<&Path>,
    salvaged: &Salvaged,
    fields: &[ChangedField],
    table: &SymbolTable,
) -> String {
    let copy = format!("{} ({} bytes)", escape::argument(copy), salvaged.copy.len());
    let written = match report {
        None => copy,
        Some(report) => format!(
            "{copy} and {} ({} bytes)",
            escape::argument(report),
            salvaged.report.len()
        ),
    };
    let visited = table.walk.visited;
    let changed = match fields.len() {
        0 => "no change, it is the file as it was".to_string(),
        1 => "1 change".to_string(),
        n => format!("{n} changes in {}", counted(symbols(fields), "symbol")),
    };
    let reads = counted(visited, "symbol");
    format!("wrote {written}: {changed}; the walk reads {reads}, up to the table's end")
}

fn counted(n: u64, what: &str) -> String {
    match n {
        1 => format!("1 {what}"),
        _ => format!("{n} {what}s"),
    }
}

/// How many symbols are changed: one may have several changes.
fn symbols(fields: &[ChangedField]) -> u64 {
    let indexes = fields.iter().map(|field| field.change.index);
    indexes.collect::<BTreeSet<_>>().len() as u64
}

/// For programs, what the last line says to people.
fn copy_row(
    list: &mut Listing,
    path: &Path,
    salvaged: &Salvaged,
    fields: &[ChangedField],
    table: &SymbolTable,
) -> io::Result<()> {
    let columns = vec![
        word("path", 0),
        number("size", 0),
        number("changes", 0),
        number("changed", 0),
        number("symbols", 0),
    ];
    list.table("copy", columns)?;
    list.row(&[
        Cell::Path(path),
        Cell::Number(salvaged.copy.len() as u64),
        Cell::Number(fields.len() as u64),
        Cell::Number(symbols(fields)),
        Cell::Number(table.walk.visited),
    ])
}

/// Each change: the symbol, what it was refused for, the field, and what stands there now.
fn changes(list: &mut Listing, fields: &[ChangedField], table: &SymbolTable) -> io::Result<()> {
    if fields.is_empty() {
        return Ok(());
    }
    let greatest = |of: fn(&ChangedField) -> u64| fields.iter().map(of).max().unwrap_or(0);
    let columns = vec![
        number("index", greatest(|field| field.change.index)),
        word("refused", 10),
        word("field", 8),
        number("offset", greatest(|field| field.offset)),
        word("was", 10),
        word("now", 4),
        word("means", 13),
        word("name", 0),
    ];
    list.table("changes", columns)?;
    let mut rows = table.rows();
    let mut row = rows.next();
    for field in fields {
        // Changes are in the order of the walk.
        while row
            .as_ref()
            .is_some_and(|row| row.index < field.change.index)
        {
            row = rows.next();
        }
        let name = row
            .as_ref()
            .map_or(&b""[..], |row| row.name_up_to(escape::MOST + 1));
        change_row(list, field, name)?;
    }
    Ok(())
}

fn change_row(list: &mut Listing, field: &ChangedField, name: &[u8]) -> io::Result<()> {
    let refusal = Refusal {
        number: field.change.number,
        item: field.change.index,
        offset: 0,
    };
    let (was, now) = (field.was.to_string(), field.now.to_string());
    list.row(&[
        Cell::Number(field.change.index),
        Cell::Named(refusal.number as i64, Some(refusal.name())),
        Cell::Word(field.name),
        Cell::Number(field.offset),
        Cell::Name(was.as_bytes()),
        Cell::Name(now.as_bytes()),
        Cell::Word(meaning(field.change.number)),
        Cell::Name(name),
    ])
}

/// What the new value means, in one word as every cell of a listing.
fn meaning(number: u64) -> &'static str {
    match number {
        9 => "what-is-left",
        10 => "empty-name",
        11 => "no-section",
        _ => "no-visibility",
    }
}
