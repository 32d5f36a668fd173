//! Accepted edges: what lies just on this side of a refusal.

use crate::answer::object_calls;
use crate::bytes::{by, number};
use crate::generate::Op;
use crate::module::load;
use crate::object::branch_value;
use crate::opening::{symbol_bytes, Summary, DEBUG, OVRFLO};
use crate::rewrite::{parts_of_file, parts_of_loader, share};
use crate::sheet::Form;
use crate::symbols::{is_csect_class, is_debug_class};
use crate::{
    find_line, loader_symbols, mends, module, object, open, run_object_call, run_table_call,
    symbol, walked, AddressTable, Change, Mend, Object, ObjectCall, ObjectEntry, Plan, RowKey,
    Symbol, TableCall, AUX, NAME, SECTION, VISIBILITY,
};
use std::collections::BTreeSet;
use std::ops::Range;

/// The edges that `op` accepted.
pub(super) fn accepted(file: &[u8], op: &Op) -> Vec<&'static str> {
    match op {
        Op::Module => limit_edges(file),
        Op::Object => object(file).map_or(Vec::new(), |found| object_edges(file, &found)),
        Op::ObjectBuild { .. } | Op::ObjectMove { .. } => branch_edges(file, op),
        Op::FindLine { section, address } => line_edges(file, *section, *address),
        Op::Table(calls) => table_edges(file, calls),
        Op::WriteModule { plan, .. } => rewrite_edges(file, plan),
        Op::Salvage { report, .. } => salvage_edges(file, report.len()),
        Op::ReadSheet { sheet, list } => sheet_edges(sheet, list.len()),
        Op::WriteSheet { list, .. } => those(&[
            ("written sheet of 0", list.is_empty()),
            ("written sheet of 70,000", list.len() == 70_000),
        ]),
        _ => entry_edges(file, op),
    }
}

/// Edges of request 10.
fn limit_edges(file: &[u8]) -> Vec<&'static str> {
    let (symbols, entries) = match module(file) {
        Ok(found) => (found.loader_symbols, found.relocations),
        Err(_) => (0, 0),
    };
    those(&[
        ("70,000 loader symbols", symbols == 70_000),
        ("100,000 entries", entries == 100_000),
    ])
}

fn sheet_edges(sheet: &[u8], k: usize) -> Vec<&'static str> {
    let old = Form::of(sheet) == Some(Form::Old);
    those(&[
        ("old sheet of 0", old && k == 0),
        ("old sheet of 4,096", old && k == 4_096),
        ("new sheet of 0", !old && k == 0),
        ("new sheet of 4,097", !old && k == 4_097),
        ("new sheet of 70,000", !old && k == 70_000),
    ])
}

/// Edges of an object's tables and entries.
fn object_edges(file: &[u8], object: &Object) -> Vec<&'static str> {
    let sections = &object.summary.sections;
    let own = |n: u64| &sections[n as usize - 1];
    let row = by(object.summary.bits, 10, 14);
    let count = |n: u64| object.entries.iter().filter(|e| e.section == n).count() as u64;
    let counts = || object.placed.iter().map(|p| (p, count(p.number)));
    let any = |is: &dyn Fn(&ObjectEntry) -> bool| object.entries.iter().any(is);
    let end = |e: &ObjectEntry| e.at + row == file.len();
    let empty_end = counts().any(|(p, k)| k == 0 && own(p.number).relptr == file.len() as u64);
    let overflow = counts().any(|(p, k)| own(p.number).nreloc != k);
    let is_outside = |e: &ObjectEntry| {
        let offset = e.address.wrapping_sub(own(e.section).paddr);
        e.change == Change::Nothing && offset >= own(e.section).size
    };
    let stays = |e: &ObjectEntry| {
        let read = symbol(file, e.symbol).map_or(0, |entry| entry.section);
        read > 0 && e.moves_with == 0
    };
    those(&[
        ("table ends with the file", any(&end)),
        ("empty table at the end", empty_end),
        ("count by overflow", overflow),
        ("65,534 entries", counts().any(|(_, k)| k == 65_534)),
        ("65,535 entries", counts().any(|(_, k)| k == 65_535)),
        ("type 0F outside", any(&is_outside)),
        (
            "symbol that stays",
            object.entries.len() < 1_000 && any(&stays),
        ),
        ("both branches on a word", both_branches(object)),
        ("fields of two sections", two_sections(object)),
    ])
}

/// Whether a word has an absolute and a relative branch.
fn both_branches(object: &Object) -> bool {
    let places = |change| {
        let those = object.entries.iter().filter(move |e| e.change == change);
        those.map(|e| e.place).collect::<BTreeSet<_>>()
    };
    !places(Change::Absolute).is_disjoint(&places(Change::Relative))
}

/// Whether two sections have fields that would meet in one.
fn two_sections(object: &Object) -> bool {
    let mut fields: Vec<(u64, u64)> = object
        .entries
        .iter()
        .filter(|e| e.change != Change::Nothing)
        .map(|e| (e.address, e.section))
        .collect();
    fields.sort();
    let near = |pair: &[(u64, u64)]| pair[0].1 != pair[1].1 && pair[1].0 - pair[0].0 < 4;
    fields.windows(2).any(near)
}

/// Edges of the branches of an accepted build or move.
fn branch_edges(file: &[u8], op: &Op) -> Vec<&'static str> {
    let (Ok(object), Some((calls, buffer))) = (object(file), object_calls(op)) else {
        return Vec::new();
    };
    let mut after = buffer.clone();
    if run_object_call(file, &calls[0], &mut after).is_err() {
        return Vec::new();
    }
    let branches = || object.entries.iter().filter(|e| e.change.is_branch());
    let is = |value| branches().any(|e| branch_value(number(&after, e.place, 4)) == value);
    let far = |e: &ObjectEntry| {
        let n = e.moves_with as usize;
        let from = |list: &[u64]| list[n - 1].abs_diff(object.summary.sections[n - 1].paddr);
        n > 0
            && match &calls[0] {
                ObjectCall::Build(list) => from(list) >= 1 << 26,
                ObjectCall::Move(from, to) => from[n - 1].abs_diff(to[n - 1]) >= 1 << 26,
            }
    };
    those(&[
        ("branch at the top", is(33_554_428)),
        ("branch at the bottom", is(-33_554_432)),
        ("branch, far and back", branches().any(far)),
    ])
}

/// Edges of a line that was found.
fn line_edges(file: &[u8], n: u64, address: u64) -> Vec<&'static str> {
    let (Ok(summary), Ok(found)) = (open(file), find_line(file, n, address)) else {
        return Vec::new();
    };
    let section = &summary.sections[n as usize - 1];
    let each = by(summary.bits, 6, 12);
    let start = section.lnnoptr as usize;
    let by_header = summary.bits == 32 && section.nlnno == 65_535;
    let overflow = summary.sections.iter();
    let mut overflow = overflow.filter(|s| by_header && s.flags == OVRFLO && s.nreloc == n);
    let count = overflow.next().map_or(section.nlnno, |s| s.vaddr) as usize;
    let line = |i: usize| {
        number(
            file,
            start + i * each + by(summary.bits, 4, 8),
            by(summary.bits, 2, 4),
        )
    };
    let value = |i: usize| number(file, start + i * each, by(summary.bits, 4, 8));
    let at = found.entry as usize;
    let again = |i: usize| line(i) != 0 && value(i) == found.address;
    those(&[
        ("line at its address", found.address == address),
        ("line above its address", found.address < address),
        ("first of equal lines", (at + 1..count).any(again)),
        ("line of a later group", (1..at).any(|i| line(i) == 0)),
        ("lines up to the end", start + count * each == file.len()),
        ("lines by overflow", by_header),
        ("65,534 lines", count == 65_534),
        ("65,535 lines", count == 65_535),
        ("asked past 2^32", summary.bits == 32 && address >= 1 << 32),
    ])
}

/// Edges of a list of calls on an address table.
fn table_edges(file: &[u8], calls: &[TableCall]) -> Vec<&'static str> {
    let mut table = AddressTable::default();
    let mut all = Vec::new();
    for call in calls {
        match call {
            TableCall::Add(row, _) => all.extend(row_edges(&table, row)),
            TableCall::Fill { bench, .. } => all.extend(fill_edges(file, &table, *bench)),
            _ => {}
        }
        run_table_call(&mut table, file, call);
        all.extend(those(&[("512 rows", table.taken() == 512)]));
    }
    all.sort();
    all.dedup();
    all
}

/// Edges of an addition to this table.
fn row_edges(table: &AddressTable, row: &RowKey) -> Vec<&'static str> {
    let is_there = |row: &RowKey| table.look_up(row).is_ok();
    let with_bench = |bench| RowKey {
        bench,
        ..row.clone()
    };
    let longer = RowKey {
        name: [&row.name[..], &[0]].concat(),
        ..row.clone()
    };
    those(&[
        (
            "replaced in a full table",
            table.taken() == 512 && is_there(row),
        ),
        ("added to 511 rows", table.taken() == 511 && !is_there(row)),
        (
            "a row of each bench",
            is_there(&with_bench(3 - row.bench.clamp(1, 2))),
        ),
        ("name of 32 bytes", row.name.len() == 32),
        ("names but for a zero", is_there(&longer)),
    ])
}

/// Edges of a fill from this table.
fn fill_edges(file: &[u8], table: &AddressTable, bench: u64) -> Vec<&'static str> {
    let mut all = Vec::new();
    let Ok(found) = module(file) else {
        return all;
    };
    for symbol in loader_symbols(file).unwrap_or_default() {
        let row = |bench| RowKey {
            bench,
            file_id: symbol.file_id,
            name: file[symbol.name.clone()].to_vec(),
        };
        let own = table.look_up(&row(bench));
        let other = table.look_up(&row(3 - bench.clamp(1, 2)));
        let named = (1..=32).contains(&symbol.name.len());
        let plan = symbol.from_plan();
        let past = found.bits == 32 && own.is_ok_and(|address| address >= 1 << 32);
        all.extend(those(&[
            ("fill: own row", plan && own.is_ok()),
            (
                "fill: the other's row",
                plan && own.is_err() && other.is_ok(),
            ),
            ("fill: no row", plan && named && own.is_err()),
            ("fill: name of none", plan && !named),
            (
                "fill: deferred, a row",
                symbol.imported() && !plan && own.is_ok(),
            ),
            ("fill: past 2^32", plan && past),
        ]));
    }
    all
}

/// Edges of a module that was written.
fn rewrite_edges(file: &[u8], plan: &Plan) -> Vec<&'static str> {
    let Ok(loaded) = load(file) else {
        return Vec::new();
    };
    let module = &loaded.module;
    let parts = parts_of_file(file, &loaded);
    let strings = &loaded.summary.strings;
    let has_symbols = loaded.summary.symbols > 0;
    let others = loaded.summary.sections.iter().filter_map(|s| s.raw.clone());
    let over = |other: Range<usize>| other != parts[1] && share(&other, &parts[1]);
    let dropped =
        i128::from(module.bss_address) + i128::from(plan.data) - i128::from(module.data_address);
    let top = 1i128 << module.bits;
    let inside = |n: u64| {
        let place = loaded.summary.sections[n as usize - 1].raw.clone();
        place.is_some_and(|at| parts.iter().any(|p| p.start < at.start && at.start < p.end))
    };
    those(&[
        ("parts side by side", side_by_side(&parts)),
        (
            "loader side by side",
            side_by_side(&parts_of_loader(&loaded)),
        ),
        (
            "empty text inside",
            module.text_size == 0 && inside(module.text),
        ),
        ("another section over", others.into_iter().any(over)),
        ("no string table", has_symbols && parts[5].is_empty()),
        (
            "string length of 0",
            parts[5].len() == 4 && strings.is_empty(),
        ),
        (
            "no entry, no TOC",
            module.entry_section == 0 && module.toc_section == 0,
        ),
        ("bss dropped at the top", dropped < 0 || dropped >= top),
    ])
}

/// Whether all parts have bytes, and each begins where another one ends.
fn side_by_side(parts: &[Range<usize>]) -> bool {
    let mut parts = parts.to_vec();
    parts.sort_by_key(|part| part.start);
    let next = |pair: &[Range<usize>]| pair[0].end == pair[1].start;
    parts.iter().all(|part| !part.is_empty()) && parts.windows(2).all(next)
}

/// Edges of a salvage with a report of this length.
fn salvage_edges(file: &[u8], report: usize) -> Vec<&'static str> {
    let (Ok(summary), Ok(mends)) = (open(file), mends(file)) else {
        return Vec::new();
    };
    let symbols = symbol_bytes(&summary);
    let with = |number| mends.iter().filter(move |mend| mend.number == number);
    let class = |index: u64| file[symbols.start + 18 * index as usize + 16];
    let is_debug = |mend: &&Mend| is_debug_class(class(mend.index).into());
    let in_one = |count: usize| {
        mends
            .windows(count)
            .any(|w| w[0].index == w[count - 1].index)
    };
    let last = |mend: &Mend| mend.index + 1 == summary.symbols;
    let sections = summary.sections.iter();
    let raw = sections.filter_map(|s| Some((s.flags == DEBUG, s.raw.clone()?)));
    let raw: Vec<(bool, Range<usize>)> = raw.collect();
    let debug = |is: &dyn Fn(&Range<usize>) -> bool| raw.iter().any(|(d, r)| *d && is(r));
    let some = !symbols.is_empty();
    let has_bytes = |r: &Range<usize>| some && !r.is_empty();
    those(&[
        ("mended AUX", with(AUX).next().is_some()),
        ("mended SECTION", with(SECTION).next().is_some()),
        ("mended NAME", with(NAME).any(|mend| !is_debug(&mend))),
        ("mended NAME, debug", with(NAME).any(|mend| is_debug(&mend))),
        ("mended VISIBILITY", with(VISIBILITY).next().is_some()),
        ("three in one entry", in_one(3)),
        ("four in one entry", in_one(4)),
        ("auxiliaries cut to 0", with(AUX).any(last)),
        ("nothing to mend", some && mends.is_empty()),
        ("no symbols to mend", !some),
        (
            "report that just fits",
            !mends.is_empty() && report == 8 * mends.len(),
        ),
        (
            "report with a rest",
            !mends.is_empty() && report > 8 * mends.len(),
        ),
        (
            "debug up to symbols",
            debug(&|r| has_bytes(r) && r.end == symbols.start),
        ),
        (
            "debug from their end",
            debug(&|r| has_bytes(r) && r.start == symbols.end),
        ),
        (
            "empty debug inside",
            debug(&|r| r.is_empty() && r.start > symbols.start && r.start < symbols.end),
        ),
        (
            "other section over them",
            raw.iter().any(|(debug, r)| !debug && share(r, &symbols)),
        ),
    ])
}

/// The edges of all entries that `op` read.
fn entry_edges(file: &[u8], op: &Op) -> Vec<&'static str> {
    let Ok(summary) = open(file) else {
        return Vec::new();
    };
    let entries = match op {
        Op::Symbol(index) | Op::SymbolName(index) | Op::Csect(index) => {
            Vec::from_iter(symbol(file, *index))
        }
        Op::Walk | Op::Symbols => walked(file).unwrap_or_default(),
        _ => Vec::new(),
    };
    entries
        .iter()
        .flat_map(|entry| {
            let mut all = name_edges(file, &summary, entry);
            all.extend(visibility_edges(file, &summary, entry));
            all
        })
        .collect()
}

/// Those that are so.
fn those(all: &[(&'static str, bool)]) -> Vec<&'static str> {
    all.iter().filter(|one| one.1).map(|one| one.0).collect()
}

/// Edges of request 9: a visibility, or bits that would be none if it were one.
fn visibility_edges(file: &[u8], summary: &Summary, entry: &Symbol) -> Vec<&'static str> {
    const NUMBERS: [&str; 5] = [
        "visibility 0",
        "visibility 1",
        "visibility 2",
        "visibility 3",
        "visibility 4",
    ];
    if let Some(visibility) = entry.visibility {
        return those(&[
            (NUMBERS[visibility as usize], true),
            ("visibility, bit 8000", entry.kind & 0x8000 != 0),
            ("visibility, f_opthdr 4", summary.opthdr == 4),
        ]);
    }
    if (entry.kind >> 12) & 7 < 5 {
        return Vec::new();
    }
    let csect = is_csect_class(entry.class);
    let narrow = summary.bits == 32;
    let long = narrow && summary.opthdr >= 4;
    let version = if long { number(file, 22, 2) } else { 0 };
    those(&[
        ("5 to 7, f_opthdr below 4", narrow && csect && !long),
        ("5 to 7, version 1", csect && version == 1),
        ("5 to 7, version 3", csect && version == 3),
        ("5 to 7, other class", !csect && version == 2),
        ("5 to 7, XCOFF64", csect && !narrow),
    ])
}

/// Edges of request 1.
fn name_edges(file: &[u8], summary: &Summary, entry: &Symbol) -> Vec<&'static str> {
    let at = summary.symptr as usize + 18 * entry.index as usize;
    let short = summary.bits == 32 && number(file, at, 4) != 0;
    let offset = number(file, at + by(summary.bits, 4, 8), 4);
    match (is_debug_class(entry.class), short, offset) {
        (true, true, _) => vec!["debug class, short name"],
        (true, false, 0) => vec!["debug class, offset 0"],
        (true, false, _) => debug_edges(file, summary, entry, offset),
        (false, false, 1..) if entry.class == 0x7F => vec!["class 7F, string table"],
        _ => Vec::new(),
    }
}

/// Edges of a good name at `offset` of the debug section.
fn debug_edges(file: &[u8], summary: &Summary, entry: &Symbol, offset: u64) -> Vec<&'static str> {
    let prefix = by(summary.bits, 2, 4);
    let length = number(file, entry.name.start - prefix, prefix);
    let debug = summary.sections.iter().filter(|s| s.flags == DEBUG);
    let (with, without): (Vec<_>, Vec<_>) = debug.partition(|section| section.raw.is_some());
    let size = with[0].size;
    those(&[
        ("debug name", true),
        ("debug name of class 80", entry.class == 0x80),
        ("debug name up to a zero", length > entry.name.len() as u64),
        ("debug name at the start", offset == prefix as u64),
        (
            "debug name to the end",
            length > 0 && offset + length == size,
        ),
        ("debug name at the end", offset == size),
        ("debug: one without raw", !without.is_empty()),
    ])
}
