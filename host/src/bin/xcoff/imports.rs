//! An import that the command line chooses.

use crate::escape;
use xcoff::LoaderRow;

/// Imports that an error names before it only counts.
const SHOWN: usize = 12;

/// By its name or its loader symbol index.
pub enum Choice {
    Index(u64),
    Name(Vec<u8>),
}

impl Choice {
    /// NAME as listings show it, or @INDEX.
    pub fn parse(shown: &[u8]) -> Result<Choice, &'static str> {
        match shown.strip_prefix(b"@") {
            Some(index) => std::str::from_utf8(index)
                .ok()
                .and_then(|index| index.parse().ok())
                .map(Choice::Index)
                .ok_or("after @ comes a loader symbol index in decimal"),
            None => escape::unescape(shown)
                .map(Choice::Name)
                .ok_or("a backslash in a name is \\\\ or begins \\xNN"),
        }
    }

    pub fn name(&self) -> Option<&[u8]> {
        match self {
            Choice::Name(name) => Some(name),
            Choice::Index(_) => None,
        }
    }

    /// The import's index; `like` is how one is chosen by it.
    pub fn index(
        &self,
        symbols: &[LoaderRow],
        like: impl FnOnce(u64) -> String,
    ) -> Result<u64, String> {
        let matches: Vec<&LoaderRow> = symbols
            .iter()
            .filter(|row| match self {
                Choice::Index(index) => row.index == *index,
                Choice::Name(name) => row.symbol.is_import() && row.name == name,
            })
            .collect();
        only(&matches, symbols, like)
    }
}

/// The index of the only one of the symbols that match a choice whose address a plan has.
pub fn only(
    matches: &[&LoaderRow],
    symbols: &[LoaderRow],
    like: impl FnOnce(u64) -> String,
) -> Result<u64, String> {
    let usable: Vec<&LoaderRow> = matches
        .iter()
        .copied()
        .filter(|row| takes_address(row))
        .collect();
    match (usable.as_slice(), matches.first()) {
        ([one], _) => Ok(one.index),
        ([], Some(row)) if row.symbol.is_deferred() => Err(format!(
            "@{} is a deferred import, which has no address in a plan",
            row.index
        )),
        ([], Some(row)) => Err(format!("@{} is not an import", row.index)),
        ([], None) => Err(format!(
            "there is no such import; {}",
            imports_shown(symbols)
        )),
        (many, _) => Err(format!(
            "{} imports have this name: {}; choose one by its index, as in {}",
            many.len(),
            indexes(many),
            like(many[0].index)
        )),
    }
}

/// Whether a plan's address of the symbol is used.
pub fn takes_address(row: &LoaderRow) -> bool {
    row.symbol.is_import() && !row.symbol.is_deferred()
}

fn imports_shown(symbols: &[LoaderRow]) -> String {
    let imports: Vec<&LoaderRow> = symbols.iter().filter(|row| takes_address(row)).collect();
    match imports.len() {
        0 => "the module has none".to_string(),
        _ => format!("the module has {}", list_shown(&imports)),
    }
}

/// "@INDEX NAME" of each, of many the first ones.
pub fn list_shown(imports: &[&LoaderRow]) -> String {
    let shown: Vec<String> = imports
        .iter()
        .take(SHOWN)
        .map(|row| format!("@{} {}", row.index, escape::name(row.name)))
        .collect();
    match imports.len() {
        n if n > SHOWN => format!("{} and {} more", shown.join(", "), n - SHOWN),
        _ => shown.join(", "),
    }
}

fn indexes(rows: &[&LoaderRow]) -> String {
    let shown: Vec<String> = rows
        .iter()
        .take(SHOWN)
        .map(|row| format!("@{}", row.index))
        .collect();
    match rows.len() {
        n if n > SHOWN => format!("{} and {} more", shown.join(", "), n - SHOWN),
        _ => shown.join(", "),
    }
}
