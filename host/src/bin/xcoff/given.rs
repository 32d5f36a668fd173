//! Addresses of imports that are given for a plan: by `--import`, and by the lines of a file.

use crate::args::{self, Arguments};
use crate::escape;
use crate::files;
use crate::imports::{only, Choice};
use crate::problem::Problem;
use std::collections::{HashMap, HashSet};
use std::ffi::OsStr;
use std::os::unix::ffi::OsStrExt;
use std::path::Path;
use xcoff::LoaderRow;

/// An address for an import, and where it is given, as an error names it.
pub struct Given<'p> {
    choice: Choice,
    shown: String,
    source: Source<'p>,
    address: u64,
}

#[derive(Clone, Copy)]
enum Source<'p> {
    Option,
    Line(&'p Path, usize),
}

/// All that the command line gives, in its files too.
pub fn all(args: &Arguments) -> Result<Vec<Given<'_>>, Problem> {
    let mut given = args
        .each("--import")
        .map(|value| Given::option(&value[0]).map_err(|text| args.wrong(text)))
        .collect::<Result<Vec<_>, _>>()?;
    if let Some(paths) = args.paths("--imports") {
        let path = paths[0];
        let most = files::IMPORTS;
        let text = files::read(path, most + 1)?;
        if text.len() as u64 > most {
            let file = escape::argument(path);
            return Err(args.wrong(format!("--imports {file}: it has more than {most} bytes")));
        }
        for (n, line) in text.split(|&byte| byte == b'\n').enumerate() {
            let import = Given::line(Source::Line(path, n + 1), line);
            given.extend(import.map_err(|text| args.wrong(text))?);
        }
    }
    Ok(given)
}

impl<'p> Given<'p> {
    /// NAME=HEX or @INDEX=HEX. The name may hold `=`, the address may not.
    fn option(value: &OsStr) -> Result<Given<'p>, String> {
        let bytes = value.as_bytes();
        let Some(at) = bytes.iter().rposition(|&byte| byte == b'=') else {
            let shown = escape::argument(value);
            let what = "it is neither NAME=HEX nor @INDEX=HEX";
            return Err(Source::Option.wrong(&shown, what));
        };
        let (name, digits) = (&bytes[..at], &bytes[at + 1..]);
        Given::parse(Source::Option, value, name, digits)
    }

    /// `NAME HEX` or `@INDEX HEX`, with blanks between and around them; none in a line that is empty or begins with `#`.
    fn line(source: Source<'p>, line: &[u8]) -> Result<Option<Given<'p>>, String> {
        let words = line.split(u8::is_ascii_whitespace);
        let words: Vec<&[u8]> = words.filter(|word| !word.is_empty()).take(3).collect();
        match words.as_slice() {
            [] => Ok(None),
            [first, ..] if first.starts_with(b"#") => Ok(None),
            [name, digits] => Given::parse(source, OsStr::from_bytes(name), name, digits).map(Some),
            [first, ..] => {
                let shown = source.shown(first);
                Err(source.wrong(&shown, "a line is NAME HEX or @INDEX HEX"))
            }
        }
    }

    /// The name is written as listings show it. `whole` is shown where the choice is wrong.
    fn parse(
        source: Source<'p>,
        whole: &OsStr,
        name: &[u8],
        digits: &[u8],
    ) -> Result<Given<'p>, String> {
        let shown = source.shown(name);
        let address = args::hex(digits).ok_or_else(|| {
            let digits = source.shown(digits);
            let what = format!("{digits} is not a hexadecimal number of at most 64 bits");
            source.wrong(&shown, &what)
        })?;
        let wrong = |what| source.wrong(&source.shown(whole.as_bytes()), what);
        let choice = Choice::parse(name).map_err(wrong)?;
        Ok(Given {
            choice,
            shown,
            source,
            address,
        })
    }

    fn wrong(&self, what: &str) -> String {
        self.source.wrong(&self.shown, what)
    }
}

impl Source<'_> {
    /// What was given, as it is shown: an argument, or a word of a file, which may hold anything.
    fn shown(&self, given: &[u8]) -> String {
        match self {
            Source::Option => escape::argument(OsStr::from_bytes(given)),
            Source::Line(..) => escape::word(given),
        }
    }

    fn wrong(&self, shown: &str, what: &str) -> String {
        match self {
            Source::Option => format!("--import {shown}: {what}"),
            Source::Line(..) => format!("{}: {shown}: {what}", self.words()),
        }
    }

    fn words(&self) -> String {
        match self {
            Source::Option => "--import".to_string(),
            Source::Line(path, n) => format!("{}, line {n}", escape::argument(path)),
        }
    }
}

/// Puts the addresses into the list of a plan, and says for each place whether it was given. An import that is given twice is
/// an error, wherever it is given.
pub fn place_imports(
    given: &[Given],
    symbols: &[LoaderRow],
    list: &mut [u64],
) -> Result<Vec<bool>, String> {
    let named = named(given, symbols);
    let mut first: Vec<Option<&Given>> = vec![None; list.len()];
    for import in given {
        let place = place(import, &named, symbols).map_err(|what| import.wrong(&what))?;
        if let Some(other) = first[place].replace(import) {
            let before = match other.source {
                Source::Option => String::new(),
                Source::Line(..) => format!(", before in {}", other.source.words()),
            };
            return Err(import.wrong(&format!("@{} is given twice{before}", place + 3)));
        }
        list[place] = import.address;
    }
    Ok(first.iter().map(Option::is_some).collect())
}

type Named<'a> = HashMap<&'a [u8], Vec<&'a LoaderRow<'a>>>;

/// The imports of each name that is given. Many symbols may share the bytes of a long name: only names as long as one that
/// is given are looked up, and one that is the same bytes as the name before it is not looked up again.
fn named<'a>(given: &'a [Given], symbols: &'a [LoaderRow]) -> Named<'a> {
    let mut named: Named = given
        .iter()
        .filter_map(|import| Some((import.choice.name()?, Vec::new())))
        .collect();
    let lengths: HashSet<usize> = named.keys().map(|name| name.len()).collect();
    let imports = symbols
        .iter()
        .filter(|row| row.symbol.is_import() && lengths.contains(&row.name.len()));
    let imports: Vec<&LoaderRow> = imports.collect();
    for rows in imports.chunk_by(|a, b| std::ptr::eq(a.name, b.name)) {
        if let Some(found) = named.get_mut(rows[0].name) {
            found.extend(rows);
        }
    }
    named
}

/// The place in the list of addresses.
fn place(import: &Given, named: &Named, symbols: &[LoaderRow]) -> Result<usize, String> {
    let matches: Vec<&LoaderRow> = match &import.choice {
        Choice::Index(index) => index
            .checked_sub(3)
            .and_then(|place| symbols.get(usize::try_from(place).ok()?))
            .into_iter()
            .collect(),
        Choice::Name(name) => named[name.as_slice()].clone(),
    };
    let like = |index: u64| match import.source {
        Source::Option => format!("--import @{index}=HEX"),
        Source::Line(..) => format!("@{index} HEX"),
    };
    Ok(only(&matches, symbols, like)? as usize - 3)
}
