//! The command `table`: the address table that both benches keep in one file.

use crate::args::{self, Arguments};
use crate::escape;
use crate::files;
use crate::listing::{hex, number, word, Cell, Listing};
use crate::load::apart;
use crate::lock;
use crate::output::{print, refused, say_done};
use crate::plans::{self, From, Wanted};
use crate::problem::Problem;
use std::ffi::OsStr;
use std::os::unix::ffi::OsStrExt;
use std::path::Path;
use xcoff::{AddressTable, Refusal, TableRow};

/// Words after TABLE, and which options each action takes.
struct Action {
    operands: &'static [&'static str],
    options: &'static [&'static str],
    run: fn(&Arguments) -> Result<(), Problem>,
}

const CHANGE: &[&str] = &["--no-wait"];
const LIST: &[&str] = &["--json"];
const FILL: &[&str] = &["--text", "--data", "-o", "--force", "--no-wait"];

fn action(name: &[u8]) -> Option<Action> {
    let (operands, options, run): (_, _, fn(&Arguments) -> _) = match name {
        b"new" => (&["TABLE", "new"][..], CHANGE, new),
        b"add" => (&["TABLE", "add", "BENCH", "ID", "NAME", "HEX"], CHANGE, add),
        b"remove" => (&["TABLE", "remove", "BENCH", "ID", "NAME"], CHANGE, remove),
        b"find" => (&["TABLE", "find", "BENCH", "ID", "NAME"], LIST, find),
        b"list" => (&["TABLE", "list", "BENCH"], LIST, list),
        b"fill" => (&["TABLE", "fill", "BENCH", "FILE"], FILL, fill),
        _ => return None,
    };
    Some(Action {
        operands,
        options,
        run,
    })
}

pub fn table(args: &Arguments) -> Result<(), Problem> {
    let name = args.path(1).as_os_str();
    let Some(action) = action(name.as_bytes()) else {
        let name = escape::argument(name);
        return Err(args.wrong(format!(
            "{name} is none of new, add, remove, find, list and fill"
        )));
    };
    args.operands_are(action.operands, 0)?;
    let options = args.command.options.iter().map(|flag| flag.name);
    for option in options.filter(|option| !action.options.contains(option)) {
        if args.has(option) {
            let name = escape::argument(name);
            return Err(args.wrong(format!("{name} takes no {option}")));
        }
    }
    (action.run)(args)
}

// ---- the file

/// A table in a file, which has exactly a table's length.
pub fn read(path: &Path) -> Result<AddressTable, Problem> {
    let length = AddressTable::BYTES;
    let bytes = files::read(path, length as u64 + 1)?;
    AddressTable::from_bytes(&bytes).ok_or_else(|| {
        let found = match bytes.len() {
            n if n > length => format!("more than {length} bytes"),
            n => format!("{n} bytes"),
        };
        Problem::Unequal(vec![format!(
            "xcoff: {}: not an address table: it has {found}, a table has {length}; xcoff table TABLE new makes one",
            escape::argument(path)
        )])
    })
}

/// Reads the table, changes it and replaces it, while no other command does; `change` gives what is said then.
fn changed(
    args: &Arguments,
    change: impl FnOnce(&mut AddressTable) -> Result<String, Problem>,
) -> Result<(), Problem> {
    let path = args.path(0);
    let _lock = lock::to_write(args, &[path])?;
    let mut table = read(path)?;
    let said = change(&mut table)?;
    files::replace(&[(path, &table.to_bytes())])?;
    say_done(&format!("{}: {said}", escape::argument(path)))
}

fn new(args: &Arguments) -> Result<(), Problem> {
    let path = args.path(0);
    let _lock = lock::to_write(args, &[path])?;
    if std::fs::symlink_metadata(path).is_ok() {
        return Err(Problem::System {
            doing: format!("cannot make {}", escape::argument(path)),
            reason: "it is there already".to_string(),
        });
    }
    let bytes = AddressTable::new().to_bytes();
    files::replace(&[(path, &bytes)])?;
    say_done(&format!(
        "wrote {} ({} bytes): an empty address table",
        escape::argument(path),
        bytes.len()
    ))
}

// ---- rows

/// What a row is found by, as the command line has it.
struct Key {
    bench: u64,
    file_id: u64,
    name: Vec<u8>,
}

impl Key {
    fn parse(args: &Arguments) -> Result<Key, Problem> {
        let shown = word_at(args, 4);
        Ok(Key {
            bench: decimal(args, 2)?,
            file_id: decimal(args, 3)?,
            name: escape::unescape(shown).ok_or_else(|| {
                let shown = escape::argument(OsStr::from_bytes(shown));
                args.wrong(format!(
                    "{shown}: a backslash in a name is \\\\ or begins \\xNN"
                ))
            })?,
        })
    }

    fn words(&self) -> String {
        let name = escape::name(&self.name);
        format!("bench {}, id {}, {name}", self.bench, self.file_id)
    }

    /// An answer about the row.
    fn refused<T>(&self, args: &Arguments, answer: Result<T, Refusal>) -> Result<T, Problem> {
        let about = || format!("{}: {}", escape::argument(args.path(0)), self.words());
        answer.map_err(|refusal| Problem::refused(about(), refusal))
    }

    fn find(&self, table: &AddressTable) -> Result<u64, Refusal> {
        table.find(self.bench, self.file_id, &self.name)
    }
}

fn word_at(args: &Arguments, n: usize) -> &[u8] {
    args.path(n).as_os_str().as_bytes()
}

fn decimal(args: &Arguments, n: usize) -> Result<u64, Problem> {
    args::decimal(word_at(args, n)).ok_or_else(|| {
        let shown = escape::argument(args.path(n));
        args.wrong(format!(
            "{shown} is not a decimal number of at most 64 bits"
        ))
    })
}

fn add(args: &Arguments) -> Result<(), Problem> {
    let key = Key::parse(args)?;
    let address = plans::hex_value(args, "HEX", word_at(args, 5))?;
    changed(args, |table| {
        let old = key.find(table);
        let added = table.add(key.bench, key.file_id, &key.name, address);
        key.refused(args, added)?;
        let words = key.words();
        Ok(match old {
            Ok(old) => format!("{words} is now at {address:08x}, before at {old:08x}"),
            Err(_) => format!("{words} added at {address:08x}"),
        })
    })
}

fn remove(args: &Arguments) -> Result<(), Problem> {
    let key = Key::parse(args)?;
    changed(args, |table| {
        let address = key.refused(args, key.find(table))?;
        key.refused(args, table.remove(key.bench, key.file_id, &key.name))?;
        Ok(format!("{} removed, it was at {address:08x}", key.words()))
    })
}

fn find(args: &Arguments) -> Result<(), Problem> {
    let key = Key::parse(args)?;
    let table = read(args.path(0))?;
    let address = key.refused(args, key.find(&table))?;
    listed(
        args,
        &[TableRow {
            file_id: key.file_id,
            name: key.name,
            address,
        }],
    )
}

fn list(args: &Arguments) -> Result<(), Problem> {
    let bench = decimal(args, 2)?;
    let table = read(args.path(0))?;
    listed(args, &refused(args.path(0), table.rows(bench))?)
}

fn listed(args: &Arguments, rows: &[TableRow]) -> Result<(), Problem> {
    let greatest = |of: fn(&TableRow) -> u64| rows.iter().map(of).max().unwrap_or(0);
    let digits = match greatest(|row| row.address) >> 32 {
        0 => 8,
        _ => 16,
    };
    let columns = vec![
        number("id", greatest(|row| row.file_id)),
        hex("address", digits),
        word("name", 0),
    ];
    print(|out| {
        let mut list = Listing::new(out, args.has("--json"));
        list.table("rows", columns)?;
        rows.iter().try_for_each(|row| {
            list.row(&[
                Cell::Number(row.file_id),
                Cell::Hex(row.address),
                Cell::Name(&row.name),
            ])
        })
    })
}

// ---- a plan

fn fill(args: &Arguments) -> Result<(), Problem> {
    let Some(out) = args.paths("-o") else {
        return Err(args.wrong("-o SHEET is missing".to_string()));
    };
    let wanted = Wanted {
        file: args.path(3),
        out: out[0],
        text: plans::address(args, "--text")?,
        data: plans::address(args, "--data")?,
        given: Vec::new(),
        from: From::Table(args.path(0), decimal(args, 2)?),
    };
    apart(
        args,
        &[("SHEET", wanted.out)],
        &[("FILE", wanted.file), ("TABLE", args.path(0))],
    )?;
    wanted.write(args)
}
