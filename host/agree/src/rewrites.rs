//! Moved modules as files: the answer and the output, and what the request says of the written file.

use crate::compare::{answers, same, whole, Agreement, Difference};
use crate::images::plan;
use crate::lent::Lent;
use reference::rewrite::shared_parts;
use reference::Plan;
use xcoff::{Call, FilePart, FileRange, Module, Reached, Refusal};

pub fn write(file: &[u8], p: &Plan, out: &[u8]) -> Agreement {
    let mut ours = Lent::new(out, 0xC7);
    let mut theirs = out.to_vec();
    let agreed = whole(
        xcoff::write_module_into(file, &plan(p), ours.slice()),
        reference::write_module(file, p, &mut theirs),
    )?;
    ours.holds("output", &theirs)?;
    let mut fits = vec![0; file.len()];
    let theirs = reference::write_module(file, p, &mut fits).map(|()| fits);
    let ours = xcoff::write_module(file, &plan(p));
    answers("output written whole", ours.clone(), theirs)?;
    if let Ok(new) = ours {
        recorded(file, p, &new)?;
        built(file, p, &new)?;
    }
    told_shared(file)?;
    Ok(agreed)
}

/// Opened again its addresses are the plan's, ignored places aside; written for the file's own addresses it is the file.
fn recorded(file: &[u8], p: &Plan, new: &[u8]) -> Result<(), Difference> {
    let symbols = xcoff::loader_symbol_table(file).unwrap_or_default();
    let (before, after) = (xcoff::recorded_plan(file), xcoff::recorded_plan(new));
    let addresses = after.as_ref().map(|q| (q.text, q.data));
    same("its addresses", &addresses, &Ok((p.text, p.data)))?;
    let list = after.map(|q| q.list).unwrap_or_default();
    same("its loader symbols", &list.len(), &symbols.len())?;
    for (row, (&value, &wanted)) in symbols.iter().zip(list.iter().zip(&p.list)) {
        let part = format!("its loader symbol {}", row.index);
        if row.symbol.is_deferred() {
            same(&part, &value, &row.symbol.value)?;
        } else if row.symbol.is_import() {
            same(&part, &value, &wanted)?;
        }
    }
    let back = before.and_then(|own| xcoff::write_module(new, &own));
    same("written back", &back, &Ok(file.to_vec()))
}

type Built = (Result<Reached, Refusal>, Vec<u8>, Vec<u8>);

fn images(file: &[u8], m: &Module, call: &Call) -> Built {
    let (mut text, mut data) = (
        vec![0x5A; m.text.size as usize],
        vec![0xA5; m.image as usize],
    );
    let answer = match call {
        Call::Build(p) => xcoff::build_images(file, p, &mut text, &mut data),
        Call::Move(p, q) => xcoff::move_images(file, p, q, &mut text, &mut data),
    };
    (answer, text, data)
}

/// A build for this plan or for the file's own, and a move from the one to the other, give what the first file gives.
fn built(file: &[u8], p: &Plan, new: &[u8]) -> Result<(), Difference> {
    let (Ok(m), Ok(own)) = (xcoff::module(file), xcoff::recorded_plan(file)) else {
        return Ok(());
    };
    let p = plan(p);
    for call in [
        Call::Build(p.clone()),
        Call::Build(own.clone()),
        Call::Move(own, p),
    ] {
        let both = [file, new].map(|file| images(file, &m, &call));
        same("images of the written file", &both[1], &both[0])?;
    }
    Ok(())
}

/// What is shown for SHARED: the pairs that the reference finds.
fn told_shared(file: &[u8]) -> Result<(), Difference> {
    let mut told: Vec<String> = xcoff::shared_in_module(file).iter().map(pair).collect();
    let mut shared = shared_parts(file);
    told.sort();
    shared.sort();
    same("pairs that share bytes", &told, &shared)
}

fn pair((one, other): &(FileRange, FileRange)) -> String {
    let inside = match one.part {
        FilePart::LoaderHeader
        | FilePart::LoaderSymbols
        | FilePart::Relocations
        | FilePart::ImportIds => "in loader: ",
        _ => "",
    };
    format!("{inside}{}, {}", word(one.part), word(other.part))
}

fn word(part: FilePart) -> &'static str {
    match part {
        FilePart::HeaderArea => "headers",
        FilePart::Text => "text",
        FilePart::Data => "data",
        FilePart::LoaderSection => "loader",
        FilePart::SymbolTable | FilePart::LoaderSymbols => "symbols",
        FilePart::StringTable | FilePart::LoaderStrings => "strings",
        FilePart::LoaderHeader => "header",
        FilePart::Relocations => "relocations",
        FilePart::ImportIds => "ids",
        FilePart::DebugSection(_) => "debug",
    }
}
