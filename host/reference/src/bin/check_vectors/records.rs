//! What the operations give, in the words of the recorded answers.

use crate::json::{hex, keyed, num, Json};
use reference::*;
use std::ops::Range;

pub fn refused(refusal: Refusal) -> Json {
    keyed(vec![(
        "refused",
        Json::List(vec![
            num(refusal.number),
            num(refusal.item),
            num(refusal.offset),
        ]),
    )])
}

pub fn given(result: Result<Json, Refusal>) -> Json {
    match result {
        Ok(value) => value,
        Err(refusal) => refused(refusal),
    }
}

/// A name: its bytes and, where it isn't empty, its place.
pub fn name(file: &[u8], range: Range<usize>) -> Json {
    let mut all = vec![("bytes", hex(&file[range.clone()]))];
    if !range.is_empty() {
        all.push(("at", num(range.start as u64)));
    }
    keyed(all)
}

pub fn section_json(file: &[u8], n: u64, section: &Section) -> Json {
    let name = section_name(file, n).expect("the section is there");
    keyed(vec![
        ("number", num(n)),
        ("name", hex(&file[name.clone()])),
        ("header_at", num(name.start as u64)),
        ("paddr", num(section.paddr)),
        ("vaddr", num(section.vaddr)),
        ("size", num(section.size)),
        ("scnptr", num(section.scnptr)),
        ("relptr", num(section.relptr)),
        ("lnnoptr", num(section.lnnoptr)),
        ("nreloc", num(section.nreloc)),
        ("nlnno", num(section.nlnno)),
        ("flags", num(section.whole_flags)),
        (
            "kind",
            Json::Text(opening::kind_word(section.flags).to_string()),
        ),
        ("has_raw", Json::Bool(section.raw.is_some())),
    ])
}

pub fn summary_json(file: &[u8], summary: &Summary) -> Json {
    let mut sections = Vec::new();
    for (i, section) in summary.sections.iter().enumerate() {
        sections.push(section_json(file, i as u64 + 1, section));
    }
    keyed(vec![
        ("fmt", Json::Text(format!("XCOFF{}", summary.bits))),
        ("nscns", num(summary.sections.len() as u64)),
        ("symptr", num(summary.symptr)),
        ("nsyms", num(summary.symbols)),
        ("opthdr", num(summary.opthdr)),
        ("flags", num(summary.flags)),
        ("strings_len", num(summary.strings.len() as u64)),
        ("sections", Json::List(sections)),
    ])
}

pub fn symbol_json(file: &[u8], entry: &Symbol) -> Json {
    keyed(vec![
        ("index", num(entry.index)),
        ("name", name(file, entry.name.clone())),
        ("value", num(entry.value)),
        ("scnum", Json::Number(i128::from(entry.section))),
        ("type", num(entry.kind)),
        ("sclass", num(entry.class)),
        ("numaux", num(entry.auxiliaries)),
        ("visibility", entry.visibility.map_or(Json::Null, num)),
    ])
}

pub fn loader_symbol_json(file: &[u8], entry: &LoaderSymbol) -> Json {
    keyed(vec![
        ("index", num(entry.index)),
        ("name", name(file, entry.name.clone())),
        ("value", num(entry.value)),
        ("scnum", num(entry.section)),
        ("smtype", num(entry.kind)),
        ("smclas", num(entry.class)),
        ("ifile", num(entry.file_id)),
        ("parm", num(entry.parameter)),
    ])
}

pub fn module_json(file: &[u8]) -> Result<Json, Refusal> {
    let m = module(file)?;
    let summary = open(file)?;
    let part = |n: u64| section_json(file, n, &summary.sections[n as usize - 1]);
    let mut symbols = Vec::new();
    for symbol in loader_symbols(file)? {
        symbols.push(loader_symbol_json(file, &symbol));
    }
    let mut entries = Vec::new();
    for (i, entry) in relocations(file)?.iter().enumerate() {
        entries.push(keyed(vec![
            ("entry", num(i as u64)),
            ("address", num(entry.address)),
            ("symbol", num(entry.symbol)),
            ("rtype", num(entry.kind)),
            ("scnum", num(entry.section)),
            ("sign", Json::Number(if entry.subtract { -1 } else { 1 })),
            ("width", num(entry.width)),
        ]));
    }
    Ok(keyed(vec![
        ("o", summary_json(file, &summary)),
        ("text", part(m.text)),
        ("data", part(m.data)),
        ("bss", part(m.bss)),
        ("loader", part(m.loader)),
        ("data_image_size", num(m.data_image)),
        ("entry", num(m.entry_address)),
        ("entry_section", num(m.entry_section)),
        ("toc", num(m.toc_address)),
        ("toc_section", num(m.toc_section)),
        ("id_count", num(m.import_ids)),
        ("symbols", Json::List(symbols)),
        ("relocations", Json::List(entries)),
    ]))
}

pub fn reached_json(reached: Reached) -> Json {
    let one = |address: Option<u64>| match address {
        Some(address) => num(address),
        None => Json::Null,
    };
    keyed(vec![
        ("entry", one(reached.entry)),
        ("toc", one(reached.toc)),
    ])
}

pub fn object_json(file: &[u8], object: &Object) -> Json {
    let sections = &object.summary.sections;
    let part = |n: u64| section_json(file, n, &sections[n as usize - 1]);
    let placed = object.placed.iter();
    let starts = placed.clone().map(|p| (p.number.to_string(), num(p.start)));
    let entries = object.entries.iter().enumerate();
    keyed(vec![
        ("o", summary_json(file, &object.summary)),
        (
            "placed",
            Json::List(placed.map(|p| part(p.number)).collect()),
        ),
        ("starts", Json::Object(starts.collect())),
        ("size", num(object.length)),
        (
            "entries",
            Json::List(entries.map(|(i, e)| entry_json(i, e)).collect()),
        ),
    ])
}

fn entry_json(i: usize, entry: &ObjectEntry) -> Json {
    let how = match entry.change {
        Change::Nothing => "ref",
        change if change.is_branch() => "branch",
        _ => "plain",
    };
    let sign = match entry.change {
        Change::Nothing => 0,
        Change::Subtract => -1,
        _ => 1,
    };
    keyed(vec![
        ("entry", num(i as u64)),
        ("at", num(entry.at as u64)),
        ("address", num(entry.address)),
        ("symbol", num(entry.symbol)),
        ("rsize", num(entry.size)),
        ("rtype", num(entry.kind)),
        ("how", Json::Text(how.to_string())),
        ("sign", Json::Number(sign)),
        ("relative", Json::Bool(entry.change == Change::Relative)),
        ("width", num(entry.width)),
        ("place", num(entry.place as u64)),
        ("own_section", num(entry.section)),
        ("symbol_section", num(entry.moves_with)),
    ])
}
