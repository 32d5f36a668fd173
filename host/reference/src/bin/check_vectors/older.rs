//! Cases that were recorded before a request: which of their answers still stand.

use crate::json::{num, Json};
use reference::bytes::{by, number};
use reference::opening::LOADER as LOADER_KIND;
use reference::symbols::{is_csect_class, is_debug_class};
use reference::{open, Form, Section, Summary, LOADER_SYMBOL_LIMIT, RELOCATION_LIMIT};

/// Before request 4 the recorded offsets are 0: takes them out of an answer.
pub fn without_offsets(answer: &Json) -> Json {
    match answer {
        Json::List(all) => Json::List(all.iter().map(without_offsets).collect()),
        Json::Object(all) => Json::Object(
            all.iter()
                .map(|(key, value)| match (key.as_str(), value) {
                    ("refused", Json::List(refusal)) => (key.clone(), no_offset(refusal)),
                    _ => (key.clone(), without_offsets(value)),
                })
                .collect(),
        ),
        other => other.clone(),
    }
}

fn no_offset(refusal: &[Json]) -> Json {
    Json::List(vec![refusal[0].clone(), refusal[1].clone(), num(0)])
}

/// Whether no later request changes the answer of this case, offsets aside.
pub fn stands(case: &Json, file: &[u8]) -> bool {
    let requests = case.get("requests").numbers();
    if !requests.contains(&10) && !within_old_limits(case, file) {
        return false;
    }
    if case.get("op").text() == "list" {
        // The line of a refusal has an offset now.
        return requests.contains(&4) || open(file).is_ok() || file.len() > 65_536;
    }
    let on_symbols = ["symbol", "walk", "csect"].contains(&case.get("op").text());
    let summary = match open(file) {
        Ok(summary) if on_symbols => summary,
        _ => return true,
    };
    let names_stand = requests.contains(&1) || !any_entry(file, &summary, has_debug_name);
    let newer = summary.bits == 32 && summary.opthdr >= 4 && number(file, 22, 2) == 2;
    let types_stand = requests.contains(&9) || !newer || !any_entry(file, &summary, has_csect);
    names_stand && types_stand
}

/// Before request 10: whether the case has an old sheet, or tables that both the old
/// limits and the new ones allow or refuse.
fn within_old_limits(case: &Json, file: &[u8]) -> bool {
    match case.get("op").text() {
        "sheet_write" => false,
        "sheet_read" => Form::of(&case.get("sheet").bytes()) != Some(Form::New),
        _ => {
            let sections = open(file).map_or(Vec::new(), |summary| summary.sections);
            let mut loaders = sections.iter().filter(|s| s.flags == LOADER_KIND);
            !loaders.any(|loader| between_limits(file, loader))
        }
    }
}

/// Whether one of the two counts is above its old limit and not above its new one.
fn between_limits(file: &[u8], loader: &Section) -> bool {
    let raw = loader.raw.clone().unwrap_or(0..0);
    let count = |at| match raw.len() {
        12.. => number(file, raw.start + at, 4),
        _ => 0,
    };
    let between = |count: u64, limit| count > 4_096 && count <= limit;
    between(count(4), LOADER_SYMBOL_LIMIT) || between(count(8), RELOCATION_LIMIT)
}

/// Whether some entry, auxiliaries read as entries included, is such a one.
fn any_entry(file: &[u8], summary: &Summary, is_such: fn(&[u8], u64) -> bool) -> bool {
    if summary.symbols == 0 {
        return false;
    }
    let start = summary.symptr as usize;
    let table = &file[start..start + 18 * summary.symbols as usize];
    table.chunks(18).any(|entry| is_such(entry, summary.bits))
}

/// Request 9: the class is one whose type may have a visibility.
fn has_csect(entry: &[u8], _bits: u64) -> bool {
    is_csect_class(number(entry, 16, 1))
}

/// Request 1: the name is by an offset into the debug section.
fn has_debug_name(entry: &[u8], bits: u64) -> bool {
    let short = bits == 32 && number(entry, 0, 4) != 0;
    let offset = number(entry, by(bits, 4, 8), 4);
    is_debug_class(number(entry, 16, 1)) && !short && offset != 0
}
