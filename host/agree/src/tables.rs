//! Whole tables: each row of a listing is what the single look-ups answer, and what the reference says.

use crate::compare::{answers, same, whole, Agreement};
use crate::read::{
    our_csect, our_id, our_loader_symbol, our_name, our_symbol, our_walk, their_csect,
    their_loader_symbol, their_name, their_symbol, their_walk, Csect, LoaderSymbol, Name, Symbol,
};

/// How many rows of a module's table are looked up one by one: each look-up judges the whole module.
const LOOKED_UP: usize = 50;

/// Whether row `i` of `count` is looked up by itself: all are, or the first and the last.
fn looked_up(i: usize, count: usize) -> bool {
    i < LOOKED_UP / 2 || i + LOOKED_UP / 2 >= count
}

type SymbolRow = (Symbol, Name, Option<Csect>);

fn our_symbol_row(file: &[u8], i: u64) -> Result<SymbolRow, xcoff::Refusal> {
    let name = our_name(file, xcoff::symbol_name(file, i)?);
    Ok((
        our_symbol(xcoff::symbol(file, i)?),
        name,
        xcoff::csect(file, i).ok().map(our_csect),
    ))
}

/// Every symbol that the walk visits.
pub fn symbols(file: &[u8]) -> Agreement {
    let listed = xcoff::symbol_table(file);
    let walk = listed
        .as_ref()
        .map(|table| our_walk(table.walk))
        .map_err(|&r| r);
    let agreed = whole(walk, reference::walk(file).map(their_walk))?;
    let rows: Vec<_> = listed.iter().flat_map(|table| table.rows()).collect();
    let theirs = reference::walked(file).unwrap_or_default();
    same("rows of the symbol table", &rows.len(), &theirs.len())?;
    for (row, entry) in rows.into_iter().zip(theirs) {
        let i = entry.index;
        same("index of a symbol's row", &row.index, &i)?;
        let csect = reference::csect(file, i).ok().map(their_csect);
        let expected = (their_symbol(&entry), their_name(file, entry.name), csect);
        answers(
            &format!("symbol {i}"),
            our_symbol_row(file, i),
            Ok(expected.clone()),
        )?;
        let row = (
            our_symbol(row.symbol),
            our_name(file, row.name()),
            row.csect.map(our_csect),
        );
        same(&format!("row of symbol {i}"), &row, &expected)?;
    }
    Ok(agreed)
}

fn our_loader_row(file: &[u8], i: u64) -> Result<(LoaderSymbol, Name), xcoff::Refusal> {
    let name = our_name(file, xcoff::loader_symbol_name(file, i)?);
    Ok((our_loader_symbol(xcoff::loader_symbol(file, i)?), name))
}

/// Every loader symbol.
pub fn loader_symbols(file: &[u8]) -> Agreement {
    let theirs = reference::loader_symbols(file);
    let listed = xcoff::loader_symbol_table(file);
    let count = listed.as_ref().map(|rows| rows.len()).map_err(|&r| r);
    let agreed = whole(count, theirs.as_ref().map(|all| all.len()).map_err(|&r| r))?;
    let theirs = theirs.unwrap_or_default();
    let total = theirs.len();
    for (n, (row, symbol)) in listed.into_iter().flatten().zip(theirs).enumerate() {
        let i = symbol.index;
        same("index of a loader symbol's row", &row.index, &i)?;
        let expected = (their_loader_symbol(&symbol), their_name(file, symbol.name));
        if looked_up(n, total) {
            answers(
                &format!("loader symbol {i}"),
                our_loader_row(file, i),
                Ok(expected.clone()),
            )?;
        }
        let row = (our_loader_symbol(row.symbol), our_name(file, row.name));
        same(&format!("row of loader symbol {i}"), &row, &expected)?;
    }
    Ok(agreed)
}

/// The strings of every import id.
pub fn import_ids(file: &[u8]) -> Agreement {
    let theirs = reference::import_ids(file);
    let listed = xcoff::import_table(file);
    let rows = listed
        .as_ref()
        .map(|table| table.rows().collect::<Vec<_>>())
        .map_err(|&r| r);
    let count = rows.as_ref().map(|rows| rows.len()).map_err(|&r| r);
    let agreed = whole(count, theirs.as_ref().map(|all| all.len()).map_err(|&r| r))?;
    let theirs = theirs.unwrap_or_default();
    let total = theirs.len();
    for (n, (row, strings)) in rows.into_iter().flatten().zip(theirs).enumerate() {
        let expected = strings.map(|string| their_name(file, string));
        if looked_up(n, total) {
            answers(
                &format!("import id {n}"),
                our_id(file, n as u64),
                Ok(expected.clone()),
            )?;
        }
        let row = [row.path, row.base, row.member].map(|string| our_name(file, string));
        same(&format!("row of import id {n}"), &row, &expected)?;
    }
    Ok(agreed)
}

/// Every relocation entry, with the field it names: there is no single look-up of these.
pub fn relocations(file: &[u8]) -> Agreement {
    let module = reference::module(file);
    let theirs = reference::relocations(file).map(|all| {
        let text = module.as_ref().map_or((0, 0), |m| (m.text, m.text_address));
        let data = module.as_ref().map_or(0, |m| m.data_address);
        let row = |e: &reference::Relocation| {
            let start = if e.section == text.0 { text.1 } else { data };
            let field = (
                e.section == text.0,
                e.address - start,
                e.width / 8,
                e.subtract,
            );
            ((e.address, e.symbol, e.kind, e.section), field)
        };
        all.iter().map(row).collect::<Vec<_>>()
    });
    let ours = xcoff::relocation_table(file).map(|all| {
        let row = |e: &xcoff::Relocation| {
            let field = (
                e.image == xcoff::Image::Text,
                e.offset,
                e.width,
                e.subtracts,
            );
            ((e.address, e.symbol, e.rtype, e.scnum), field)
        };
        all.iter().map(row).collect::<Vec<_>>()
    });
    whole(ours, theirs)
}
