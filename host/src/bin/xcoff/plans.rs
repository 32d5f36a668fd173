//! The commands about plan sheets: `plan` and `sheet`.

use crate::args::{self, Arguments};
use crate::escape;
use crate::files;
use crate::given::{self, Given};
use crate::imports::{list_shown, takes_address};
use crate::kinds::{may_replace, Written};
use crate::listing::{hex, number, word, Cell, Column, Listing};
use crate::lists::use_word;
use crate::load::{apart, Loaded, Sheet};
use crate::lock;
use crate::output::{print, print_done, reached_words, refused};
use crate::problem::Problem;
use crate::table;
use crate::warnings;
use std::collections::HashSet;
use std::ffi::OsStr;
use std::io::{self, Write};
use std::os::unix::ffi::OsStrExt;
use std::path::Path;
use xcoff::{LoaderRow, Plan, TableRow};

/// A sheet that is asked for.
pub struct Wanted<'p> {
    pub file: &'p Path,
    pub out: &'p Path,
    /// As in the older sheet, or as recorded, where it is not given.
    pub text: Option<u64>,
    pub data: Option<u64>,
    pub given: Vec<Given<'p>>,
    pub from: From<'p>,
}

/// Where addresses of imports that are not given come from.
#[derive(Clone, Copy)]
pub enum From<'p> {
    /// The file.
    Recorded,
    /// An older sheet.
    Old(&'p Path),
    /// A bench's rows of an address table, or else the file.
    Table(&'p Path, u64),
}

pub fn plan(args: &Arguments) -> Result<(), Problem> {
    let mut wanted = Wanted {
        file: args.path(0),
        out: args.paths("-o").expect("the syntax asks for it")[0],
        text: address(args, "--text")?,
        data: address(args, "--data")?,
        given: Vec::new(),
        from: From::options(args)?,
    };
    let mut inputs = vec![("FILE", wanted.file)];
    inputs.extend(args.paths("--imports").map(|paths| ("IMPORTS", paths[0])));
    inputs.extend(wanted.from.input());
    apart(args, &[("SHEET", wanted.out)], &inputs)?;
    wanted.given = given::all(args)?;
    wanted.write(args)
}

impl<'p> From<'p> {
    fn options(args: &'p Arguments) -> Result<From<'p>, Problem> {
        let path = |option| args.paths(option).map(|paths| paths[0]);
        match (path("--from"), path("--table"), args.number("--bench")?) {
            (None, None, None) => Ok(From::Recorded),
            (Some(old), None, None) => Ok(From::Old(old)),
            (None, Some(table), Some(bench)) => Ok(From::Table(table, bench)),
            (_, None, Some(_)) => Err(args.wrong("--bench goes with --table TABLE".to_string())),
            (_, Some(_), None) => Err(args.wrong("--table goes with --bench N".to_string())),
            (Some(_), Some(_), Some(_)) => {
                Err(args.wrong("--from and --table are both given".to_string()))
            }
        }
    }

    fn input(self) -> Option<(&'static str, &'p Path)> {
        match self {
            From::Recorded => None,
            From::Old(path) => Some(("OLD", path)),
            From::Table(path, _) => Some(("TABLE", path)),
        }
    }
}

impl Wanted<'_> {
    pub fn write(&self, args: &Arguments) -> Result<(), Problem> {
        let _lock = lock::to_write(args, &[self.out])?;
        let file = Loaded::read(self.file)?;
        let symbols = file.symbols()?;
        let start = Start::new(self.from, &file, &symbols)?;
        let mut plan = start.plan.clone();
        plan.text = self.text.unwrap_or(plan.text);
        plan.data = self.data.unwrap_or(plan.data);
        let placed = given::place_imports(&self.given, &symbols, &mut plan.list);
        let placed = placed.map_err(|text| args.wrong(text))?;
        if !args.has("--recorded") && start.rows.is_none() {
            none_forgotten(self.out, &symbols, &plan, &placed)?;
        }

        // A sheet that no build would take is of no use: the build itself says so.
        let (_, reached) = file.build(&plan).map_err(|refusal| {
            let values = file.plan_values(&plan, &refusal);
            let about = format!("the plan for {}{values}", escape::argument(file.path));
            Problem::refused(about, refusal)
        })?;
        let sheet = refused(self.out, xcoff::write_sheet(&plan))?;
        may_replace(args, self.out, Written::Sheet)?;
        files::replace(&[(self.out, &sheet)])?;
        warnings::of_addresses(&file, &plan);
        let rest = start.rest(&symbols, &placed);
        let line = format!(
            "wrote {} ({} bytes): {}, {}; {}",
            escape::argument(self.out),
            sheet.len(),
            file.ranges(&plan),
            self.imports_words(&rest),
            reached_words(&reached, file.digits()),
        );
        print_done(&line, |out| {
            writeln!(out, "{line}")?;
            match self.from {
                From::Table(..) => unplaced(out, &rest.without, file.digits()),
                _ => Ok(()),
            }
        })
    }

    /// How many imports were given, and where the others' addresses come from.
    fn imports_words(&self, rest: &Rest) -> String {
        let given = self.given.len();
        let mut words = format!("{given} of {} imports given", given + rest.count());
        let source = match self.from {
            From::Recorded => None,
            From::Old(path) | From::Table(path, _) => Some(escape::argument(path)),
        };
        if let (Some(source), true) = (source, rest.found > 0) {
            words.push_str(&format!(", {} from {source}", rest.found));
        }
        if !rest.without.is_empty() {
            words.push_str(&format!(", {} as recorded", rest.without.len()));
        }
        words
    }
}

/// A plan before anything is given.
struct Start {
    plan: Plan,
    /// The rows that imports may have, where these come from a table.
    rows: Option<Rows>,
    has_old: bool,
}

/// The imports that are not given: how many have an address of the older sheet or a row, and those that have not.
struct Rest<'a> {
    found: usize,
    without: Vec<&'a LoaderRow<'a>>,
}

impl Rest<'_> {
    fn count(&self) -> usize {
        self.found + self.without.len()
    }
}

impl Start {
    fn new(from: From, file: &Loaded, symbols: &[LoaderRow]) -> Result<Start, Problem> {
        let old = match from {
            From::Old(path) => Some(old_sheet(path, file)?),
            _ => None,
        };
        let mut plan = start(file, symbols, old.as_ref());
        let rows = match from {
            From::Table(path, bench) => {
                let table = table::read(path)?;
                refused(path, table.fill(bench, &file.bytes, &mut plan.list))?;
                Some(Rows::new(refused(path, table.rows(bench))?))
            }
            _ => None,
        };
        Ok(Start {
            plan,
            rows,
            has_old: old.is_some(),
        })
    }

    fn rest<'a>(&self, symbols: &'a [LoaderRow<'a>], given: &[bool]) -> Rest<'a> {
        let others = symbols.iter().zip(given);
        let others = others.filter(|(row, given)| takes_address(row) && !**given);
        let has = |row: &LoaderRow| match &self.rows {
            Some(rows) => rows.has(row),
            None => self.has_old,
        };
        let (found, without): (Vec<&LoaderRow>, Vec<&LoaderRow>) =
            others.map(|(row, _)| row).partition(|row| has(row));
        Rest {
            found: found.len(),
            without,
        }
    }
}

/// A bench's rows, by file id and name.
struct Rows {
    keys: HashSet<(u64, Vec<u8>)>,
    /// Of the names.
    longest: usize,
}

impl Rows {
    fn new(rows: Vec<TableRow>) -> Rows {
        let longest = rows.iter().map(|row| row.name.len()).max().unwrap_or(0);
        let keys = rows.into_iter().map(|row| (row.file_id, row.name));
        Rows {
            keys: keys.collect(),
            longest,
        }
    }

    /// Many imports may share the bytes of a long name, which is not read: no row has it.
    fn has(&self, row: &LoaderRow) -> bool {
        let key = || (row.symbol.ifile, row.name.to_vec());
        row.name.len() <= self.longest && self.keys.contains(&key())
    }
}

/// The imports that have no row, and so their recorded addresses.
fn unplaced(out: &mut dyn Write, without: &[&LoaderRow], digits: usize) -> io::Result<()> {
    if without.is_empty() {
        return Ok(());
    }
    writeln!(out, "imports without a row, at their recorded addresses:")?;
    let greatest = |of: fn(&LoaderRow) -> u64| without.iter().map(|row| of(row)).max();
    let columns = vec![
        number("index", greatest(|row| row.index).unwrap_or(0)),
        hex("recorded", digits),
        number("id", greatest(|row| row.symbol.ifile).unwrap_or(0)),
        word("name", 0),
    ];
    let mut list = Listing::new(out, false);
    list.table("imports", columns)?;
    without.iter().try_for_each(|row| {
        list.row(&[
            Cell::Number(row.index),
            Cell::Hex(row.symbol.value),
            Cell::Number(row.symbol.ifile),
            Cell::Name(row.name),
        ])
    })
}

/// An older sheet of the same module, which has what is not given.
fn old_sheet<'a>(path: &'a Path, file: &Loaded) -> Result<Sheet<'a>, Problem> {
    let old = Sheet::read(path)?;
    file.build_sheet(&old)?;
    warnings::of_sheet(file, &old)?;
    Ok(old)
}

/// A plan before anything is given: the recorded addresses, or those of an older sheet. In the places that are ignored are
/// always the recorded ones, by which a sheet of another module is told.
fn start(file: &Loaded, symbols: &[LoaderRow], old: Option<&Sheet>) -> Plan {
    let recorded = |row: &LoaderRow| row.symbol.value;
    let Some(Sheet { plan, .. }) = old else {
        return Plan {
            text: file.module.text.address,
            data: file.module.data.address,
            list: symbols.iter().map(recorded).collect(),
        };
    };
    let address = |(row, &old): (&LoaderRow, &u64)| match takes_address(row) {
        true => old,
        false => recorded(row),
    };
    let list = symbols.iter().zip(&plan.list).map(address).collect();
    Plan { list, ..*plan }
}

/// An import at address 0 that nobody gave is one that was forgotten: on the card it fails without a sign of it.
fn none_forgotten(
    out: &Path,
    symbols: &[LoaderRow],
    plan: &Plan,
    placed: &[bool],
) -> Result<(), Problem> {
    let forgotten = |place: &usize| {
        takes_address(&symbols[*place]) && !placed[*place] && plan.list[*place] == 0
    };
    let forgotten: Vec<&LoaderRow> = (0..symbols.len())
        .filter(forgotten)
        .map(|place| &symbols[place])
        .collect();
    if forgotten.is_empty() {
        return Ok(());
    }
    Err(Problem::Unequal(vec![
        format!(
            "xcoff: {} is not written: {} of {} imports would be at address 0: {}",
            escape::argument(out),
            forgotten.len(),
            symbols.iter().filter(|row| takes_address(row)).count(),
            list_shown(&forgotten)
        ),
        "xcoff: give each by --import NAME=HEX, by --imports FILE or by --from OLD.sheet; --recorded leaves them at 0"
            .to_string(),
    ]))
}

pub fn address(args: &Arguments, option: &'static str) -> Result<Option<u64>, Problem> {
    let Some(value) = args.each(option).next() else {
        return Ok(None);
    };
    hex_value(args, option, value[0].as_bytes()).map(Some)
}

pub fn hex_value(args: &Arguments, option: &str, digits: &[u8]) -> Result<u64, Problem> {
    args::hex(digits).ok_or_else(|| {
        let shown = escape::argument(OsStr::from_bytes(digits));
        let text = format!("{option}: {shown} is not a hexadecimal number of at most 64 bits");
        Problem::usage(args.command, text)
    })
}

pub fn sheet(args: &Arguments) -> Result<(), Problem> {
    let sheet = Sheet::read(args.path(0))?;
    let json = args.has("--json");
    let Some(path) = args.optional_path(1) else {
        let digits = sheet_digits(&sheet.plan, 8);
        return print(|out| {
            let mut list = Listing::new(out, json);
            plan_row(&mut list, &sheet.plan, digits)?;
            list.table("addresses", address_columns(&sheet.plan, digits))?;
            addresses(&sheet.plan).try_for_each(|(index, address)| list.row(&[index, address]))
        });
    };
    let file = Loaded::read(path)?;
    let symbols = file.symbols()?;
    file.build_sheet(&sheet)?;
    warnings::of_sheet(&file, &sheet)?;
    let digits = file.digits();
    let mut columns = address_columns(&sheet.plan, digits);
    columns.extend([word("use", 8), word("name", 0)]);
    print(|out| {
        let mut list = Listing::new(out, json);
        plan_row(&mut list, &sheet.plan, digits)?;
        list.table("addresses", columns)?;
        addresses(&sheet.plan)
            .zip(&symbols)
            .try_for_each(|((index, address), row)| {
                list.row(&[
                    index,
                    // What stands in a place that is ignored is no address.
                    if takes_address(row) {
                        address
                    } else {
                        Cell::Nothing
                    },
                    Cell::Word(use_word(row)),
                    Cell::Name(row.name),
                ])
            })
    })
}

/// Of the addresses: more where one of them has more, or a place that is ignored holds more.
fn sheet_digits(plan: &Plan, least: usize) -> usize {
    let greatest = plan.list.iter().chain([&plan.text, &plan.data]).max();
    match greatest {
        Some(&address) if address >> 32 != 0 => 16,
        _ => least,
    }
}

fn plan_row(list: &mut Listing, plan: &Plan, digits: usize) -> io::Result<()> {
    let count = plan.list.len() as u64;
    list.table(
        "plan",
        vec![
            hex("text", digits),
            hex("data", digits),
            number("addresses", count),
        ],
    )?;
    list.row(&[
        Cell::Hex(plan.text),
        Cell::Hex(plan.data),
        Cell::Number(count),
    ])
}

fn address_columns(plan: &Plan, digits: usize) -> Vec<Column> {
    vec![
        number("index", plan.list.len() as u64 + 2),
        hex("address", digits),
    ]
}

fn addresses(plan: &Plan) -> impl Iterator<Item = (Cell<'static>, Cell<'static>)> + '_ {
    let cells =
        |(place, address): (usize, &u64)| (Cell::Number(place as u64 + 3), Cell::Hex(*address));
    plan.list.iter().enumerate().map(cells)
}
