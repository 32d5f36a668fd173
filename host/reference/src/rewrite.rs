//! Document 02, request 8: a moved module as a file.

use crate::bytes::{by, put};
use crate::images::{built_images, change, displacements, judge_list, judge_plan, reached, Plan};
use crate::module::{
    load, loader_header_length, relocation_length, Loaded, AUX_DATA_START, AUX_ENTRY,
    AUX_TEXT_START, AUX_TOC,
};
use crate::opening::{file_header, header_at, headers_end, string_bytes, symbol_bytes};
use crate::{refuse, Refusal, ROOM, SHARED};
use std::ops::Range;

/// Writes the module for a plan: of the file's length, and with all bytes as they are
/// but those that say where it lies.
pub fn write_module(file: &[u8], plan: &Plan, out: &mut [u8]) -> Result<(), Refusal> {
    let loaded = load(file)?;
    judge_list(&loaded, plan)?;
    judge_plan(&loaded, plan)?;
    if any_shared(&parts_of_file(file, &loaded)) || any_shared(&parts_of_loader(&loaded)) {
        return refuse(SHARED, 0);
    }
    if out.len() != file.len() {
        return refuse(ROOM, 0);
    }
    out.copy_from_slice(file);
    put_images(file, &loaded, plan, out);
    put_headers(&loaded, plan, out);
    put_loader(&loaded, plan, out);
    Ok(())
}

/// The pairs of parts that share a byte, in words, those inside the loader section
/// too; none for a file that is no module.
pub fn shared_parts(file: &[u8]) -> Vec<String> {
    const PARTS: [&str; 6] = ["headers", "text", "data", "loader", "symbols", "strings"];
    const TABLES: [&str; 5] = ["header", "symbols", "relocations", "ids", "strings"];
    let Ok(loaded) = load(file) else {
        return Vec::new();
    };
    let mut all = pairs(&parts_of_file(file, &loaded), &PARTS);
    let inner = pairs(&parts_of_loader(&loaded), &TABLES);
    all.extend(inner.into_iter().map(|pair| format!("in loader: {pair}")));
    all
}

fn pairs(parts: &[Range<usize>], words: &[&str]) -> Vec<String> {
    let mut all = Vec::new();
    for j in 0..parts.len() {
        for i in 0..j {
            if share(&parts[i], &parts[j]) {
                all.push(format!("{}, {}", words[i], words[j]));
            }
        }
    }
    all
}

/// Header area, text and data, loader section, symbol and string table.
pub(crate) fn parts_of_file(file: &[u8], loaded: &Loaded) -> [Range<usize>; 6] {
    let summary = &loaded.summary;
    [
        0..headers_end(summary),
        loaded.text.clone(),
        loaded.data.clone(),
        loaded.tables.section.clone(),
        symbol_bytes(summary),
        string_bytes(file, summary),
    ]
}

/// Inside the loader section: header, symbols, relocations, ids, strings.
pub(crate) fn parts_of_loader(loaded: &Loaded) -> [Range<usize>; 5] {
    let tables = &loaded.tables;
    let start = tables.section.start;
    [
        start..start + loader_header_length(loaded.module.bits),
        tables.symbols.clone(),
        tables.relocations.clone(),
        tables.ids.clone(),
        tables.strings.clone(),
    ]
}

/// Whether two of these share a byte.
fn any_shared(parts: &[Range<usize>]) -> bool {
    parts
        .iter()
        .enumerate()
        .any(|(i, one)| parts[..i].iter().any(|other| share(one, other)))
}

pub(crate) fn share(one: &Range<usize>, other: &Range<usize>) -> bool {
    one.start.max(other.start) < one.end.min(other.end)
}

/// Raw text and data as built.
fn put_images(file: &[u8], loaded: &Loaded, plan: &Plan, out: &mut [u8]) {
    let (text, data) = built_images(file, loaded, plan);
    out[loaded.text.clone()].copy_from_slice(&text);
    out[loaded.data.clone()].copy_from_slice(&data[..loaded.data.len()]);
}

/// The addresses in the section headers and the auxiliary header.
fn put_headers(loaded: &Loaded, plan: &Plan, out: &mut [u8]) {
    let module = &loaded.module;
    let word = by(module.bits, 4, 8);
    // bss moves with data.
    let by_data = i128::from(plan.data) - i128::from(module.data_address);
    let bss = change(module.bss_address, by_data, false, module.bits);
    for (n, address) in [
        (module.text, plan.text),
        (module.data, plan.data),
        (module.bss, bss),
    ] {
        let at = header_at(&loaded.summary, n);
        put(out, at + 8, word, address);
        put(out, at + by(module.bits, 12, 16), word, address);
    }
    let places = reached(loaded, plan);
    for ((narrow, wide), address) in [
        (AUX_TEXT_START, Some(plan.text)),
        (AUX_DATA_START, Some(plan.data)),
        (AUX_ENTRY, places.entry),
        (AUX_TOC, places.toc),
    ] {
        let at = file_header(module.bits) + by(module.bits, narrow, wide);
        if let Some(address) = address {
            put(out, at, word, address);
        }
    }
}

/// Values of loader symbols, and addresses of relocation entries: each goes on by what
/// its symbol or section moves by. An import's value so becomes the plan's address.
fn put_loader(loaded: &Loaded, plan: &Plan, out: &mut [u8]) {
    let bits = loaded.module.bits;
    let word = by(bits, 4, 8);
    let moves = displacements(loaded, plan);
    for (i, symbol) in loaded.symbols.iter().enumerate() {
        let at = loaded.tables.symbols.start + 24 * i + by(bits, 8, 0);
        let value = change(symbol.value, moves[symbol.index as usize], false, bits);
        put(out, at, word, value);
    }
    for (i, entry) in loaded.entries.iter().enumerate() {
        let at = loaded.tables.relocations.start + relocation_length(bits) * i;
        let of_text = entry.section == loaded.module.text;
        let moved = moves[usize::from(!of_text)];
        put(out, at, word, change(entry.address, moved, false, bits));
    }
}
