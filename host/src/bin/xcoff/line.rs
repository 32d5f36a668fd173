//! The command `line`: from addresses to lines.

use crate::args::{self, Arguments};
use crate::escape;
use crate::files;
use crate::lined::{Answer, Lined};
use crate::listing::{hex, number, word, Cell, Column, Listing};
use crate::lists::digits;
use crate::load::{Loaded, Sheet};
use crate::output::print;
use crate::problem::Problem;
use crate::warnings;
use std::ffi::OsStr;
use std::io::{self, BufRead, Read};
use std::os::unix::ffi::OsStrExt;
use xcoff::{Format, Image};

/// The longest line of standard input that is read.
const LONGEST: u64 = 256;

/// An operand after the file.
enum Asked {
    Address(u64),
    /// `-`: an address on each line of standard input.
    Input,
}

/// Where the addresses that are asked for lie.
struct Card<'a> {
    lined: &'a Lined<'a>,
    /// The module and the sheet whose card the addresses are of; none: they are the file's own.
    module: Option<(&'a Loaded<'a>, &'a Sheet<'a>)>,
    section: Option<u64>,
}

pub fn line(args: &Arguments) -> Result<(), Problem> {
    let section = args.number("--section")?;
    let asked = asked(args)?;
    let path = args.path(0);
    let Some(paths) = args.paths("--sheet") else {
        let bytes = files::read(path, files::FILE)?;
        let card = Card {
            lined: &Lined::new(path, &bytes)?,
            module: None,
            section,
        };
        return card.lines(args, &asked);
    };
    let sheet = Sheet::read(paths[0])?;
    let file = Loaded::read(path)?;
    file.build_sheet(&sheet)?;
    warnings::of_sheet(&file, &sheet)?;
    let card = Card {
        lined: &Lined::new(path, &file.bytes)?,
        module: Some((&file, &sheet)),
        section,
    };
    card.lines(args, &asked)
}

fn asked(args: &Arguments) -> Result<Vec<Asked>, Problem> {
    let words = (1..).map_while(|n| args.optional_path(n));
    let one = |word: &OsStr| match word.as_bytes() {
        b"-" => Ok(Asked::Input),
        digits => args::hex(digits)
            .map(Asked::Address)
            .ok_or_else(|| args.wrong(no_address(digits))),
    };
    words.map(|word| one(word.as_os_str())).collect()
}

fn no_address(digits: &[u8]) -> String {
    let shown = escape::argument(OsStr::from_bytes(digits));
    format!("{shown} is not a hexadecimal number of at most 64 bits")
}

impl<'a> Card<'a> {
    /// A single address that has no line is refused as anything else is.
    fn lines(&self, args: &Arguments, asked: &[Asked]) -> Result<(), Problem> {
        let json = args.has("--json");
        let [Asked::Address(one)] = asked else {
            return Rows::all(args, self, asked);
        };
        let answer = self.answer(*one)?;
        print(|out| {
            let mut list = Listing::new(out, json);
            list.table("lines", columns(self.lined.format))?;
            row(&mut list, *one, Some(&answer))
        })
    }

    fn answer(&self, asked: u64) -> Result<Answer<'a>, Problem> {
        let address = self.recorded(asked)?;
        match self.section.or_else(|| self.lined.holding(address)) {
            Some(section) => self.lined.find(section, address),
            None => Err(self.nowhere(asked, "is in no text section")),
        }
    }

    /// The file's own address.
    fn recorded(&self, asked: u64) -> Result<u64, Problem> {
        let Some((file, sheet)) = self.module else {
            return Ok(asked);
        };
        let text = &file.module.text;
        let offset = asked.checked_sub(sheet.plan.text);
        match offset.filter(|offset| *offset < text.size) {
            Some(offset) => Ok(text.address + offset),
            None => {
                let range = file.range(&sheet.plan, Image::Text);
                let sheet = escape::argument(sheet.path);
                let what = format!("is not in the text image of {sheet} ({range})");
                Err(self.nowhere(asked, &what))
            }
        }
    }

    fn nowhere(&self, asked: u64, what: &str) -> Problem {
        let path = escape::argument(self.lined.path);
        let digits = digits(self.lined.format);
        Problem::Unequal(vec![format!("xcoff: {path}: {asked:0digits$x} {what}")])
    }
}

/// A row for each of several addresses, printed as it comes. For one without a line the reason is told at once, and its row
/// has nothing but the address, so that every address has a row.
struct Rows<'a> {
    args: &'a Arguments,
    card: &'a Card<'a>,
    /// The worst status of what was told.
    status: u8,
    /// What ends the list.
    problem: Option<Problem>,
}

impl<'a> Rows<'a> {
    fn all(args: &'a Arguments, card: &'a Card<'a>, asked: &[Asked]) -> Result<(), Problem> {
        let mut rows = Rows {
            args,
            card,
            status: 0,
            problem: None,
        };
        print(|out| {
            let mut list = Listing::new(out, args.has("--json"));
            list.table("lines", columns(card.lined.format))?;
            list.flush()?;
            asked.iter().try_for_each(|one| match one {
                Asked::Address(address) => rows.one(&mut list, *address),
                Asked::Input => rows.input(&mut list),
            })
        })?;
        match (rows.problem, rows.status) {
            (Some(problem), _) => Err(problem),
            (None, 0) => Ok(()),
            (None, status) => Err(Problem::Told(status)),
        }
    }

    fn one(&mut self, list: &mut Listing, asked: u64) -> io::Result<()> {
        if self.problem.is_some() {
            return Ok(());
        }
        let answer = self.card.answer(asked);
        row(list, asked, answer.as_ref().ok())?;
        if let Err(problem) = answer {
            self.status = self.status.max(problem.status());
            problem.tell(self.args.has("--json"));
        }
        Ok(())
    }

    /// An address on each line; empty ones are left out.
    fn input(&mut self, list: &mut Listing) -> io::Result<()> {
        let mut input = io::stdin().lock();
        let mut lines = 0;
        while self.problem.is_none() {
            lines += 1;
            let mut line = Vec::new();
            let read = input.by_ref().take(LONGEST).read_until(b'\n', &mut line);
            match (read, line.trim_ascii()) {
                (Ok(0), _) => break,
                (Ok(_), b"") => {}
                (Ok(_), digits) => match args::hex(digits) {
                    Some(address) => self.one(list, address)?,
                    None => {
                        let what = no_address(digits);
                        let text = format!("standard input, line {lines}: {what}");
                        self.problem = Some(self.args.wrong(text));
                    }
                },
                (Err(error), _) => {
                    self.problem = Some(Problem::system("cannot read standard input", &error));
                }
            }
        }
        Ok(())
    }
}

fn columns(format: Format) -> Vec<Column> {
    vec![
        hex("asked", digits(format)),
        number("section", 32),
        hex("address", digits(format)),
        number("entry", 65_535),
        number("line", 65_535).headed("relative"),
        number("absolute", 65_535),
        number("symbol", 65_535),
        word("function", 16),
        word("source", 0),
    ]
}

fn row(list: &mut Listing, asked: u64, answer: Option<&Answer>) -> io::Result<()> {
    let number = |of: fn(&Answer) -> u64| answer.map_or(Cell::Nothing, |a| Cell::Number(of(a)));
    let absolute = answer.and_then(|a| a.source.line);
    let function = answer.and_then(|a| a.function);
    let source = answer.and_then(|a| a.source.file);
    list.row(&[
        Cell::Hex(asked),
        number(|a| a.section),
        answer.map_or(Cell::Nothing, |a| Cell::Hex(a.found.address)),
        number(|a| a.found.entry),
        number(|a| a.found.line),
        absolute.map_or(Cell::Nothing, Cell::Number),
        number(|a| a.found.symbol),
        function.map_or(Cell::Nothing, Cell::Name),
        source.map_or(Cell::Nothing, Cell::Name),
    ])?;
    list.flush()
}
