//! Which refusals were reached: every number of document 01, and of the requests
//! in force, with every class of item it can have, in both formats, by group of
//! operations; and which edges were accepted, where a request draws a new line.

mod edges;

use crate::answer::object_calls;
use crate::generate::Op;
use crate::lines::line_table_fault;
use crate::object::{entry_fault, range_fault, table_fault, EntryFault, RangeFault};
use crate::opening::{BSS, DATA, TBSS, TDATA, TEXT};
use crate::records::{bad_line, Fault};
use crate::rewrite::shared_parts;
use crate::salvage::{shared_with, SharedWith};
use crate::section_table::TableFault;
use crate::sheet::Form;
use crate::symbols::{ld_container, name_fault, NameFault};
use crate::{
    find_line, module, open, section, symbol, word, Refusal, AUX, BOUNDS, GROUP, INDEX, LREL,
    MODULE, NAME, NOLINE, OVERLAP, PLAN, RANGE, ROOM, SECTION, VISIBILITY,
};
use std::collections::BTreeMap;

/// Operations that reach the same rules, in the order of 01.
#[derive(Clone, Copy, Debug, PartialEq, Eq, PartialOrd, Ord)]
pub enum Group {
    Open,
    Section,
    Symbol,
    Csect,
    Module,
    Lookup,
    Build,
    Move,
    List,
    Sheet,
    Records,
    Objects,
    Lines,
    Benches,
    Rewrite,
    Salvage,
}

use Group::*;

/// Each group with its word, in the order of the table's columns.
pub const GROUPS: [(Group, &str); 16] = [
    (Open, "open"),
    (Section, "section"),
    (Symbol, "symbol"),
    (Csect, "csect"),
    (Module, "module"),
    (Lookup, "look-up"),
    (Build, "build"),
    (Move, "move"),
    (List, "list"),
    (Sheet, "sheet"),
    (Records, "records"),
    (Objects, "object"),
    (Lines, "line"),
    (Benches, "table"),
    (Rewrite, "rewrite"),
    (Salvage, "salvage"),
];

/// Every operation opens the file, but those of sheets.
const OPENING: &[Group] = &[
    Open, Section, Symbol, Csect, Module, Lookup, Build, Move, List, Records, Objects, Lines,
    Benches, Rewrite, Salvage,
];
const LOADING: &[Group] = &[Module, Lookup, Build, Move, List, Records, Benches, Rewrite];
/// MODULE 3 is an object's too.
const RAW_DATA: &[Group] = &[
    Module, Lookup, Build, Move, List, Records, Objects, Benches, Rewrite,
];
const PLANNED: &[Group] = &[Build, Move, List, Records, Rewrite];
/// Those of them that have two images.
const IMAGES: &[Group] = &[Build, Move, List, Records];

/// The formats in which a class can be reached. `Neither`: before the format is
/// known, or without a file.
#[derive(Clone, Copy, PartialEq)]
pub enum Formats {
    Both,
    Only32,
    Only64,
    Neither,
}

use Formats::*;

pub struct Class {
    pub number: u64,
    /// The item, and the cause where 01 has several for one item.
    pub item: &'static str,
    pub formats: Formats,
    /// The groups that can reach it.
    pub groups: &'static [Group],
}

const fn class(
    number: u64,
    item: &'static str,
    formats: Formats,
    groups: &'static [Group],
) -> Class {
    Class {
        number,
        item,
        formats,
        groups,
    }
}

/// All classes, in the order of the numbers; 0 stands for accepted edges.
pub const CLASSES: &[Class] = &[
    class(0, "debug name", Both, &[Symbol]),
    class(0, "debug name of class 80", Both, &[Symbol]),
    class(0, "debug name up to a zero", Both, &[Symbol]),
    class(0, "debug name at the start", Both, &[Symbol]),
    class(0, "debug name to the end", Both, &[Symbol]),
    class(0, "debug name at the end", Both, &[Symbol]),
    class(0, "debug: one without raw", Both, &[Symbol]),
    class(0, "debug class, offset 0", Both, &[Symbol]),
    class(0, "debug class, short name", Only32, &[Symbol]),
    class(0, "class 7F, string table", Both, &[Symbol]),
    class(0, "visibility 0", Only32, &[Symbol, Csect]),
    class(0, "visibility 1", Only32, &[Symbol, Csect]),
    class(0, "visibility 2", Only32, &[Symbol, Csect]),
    class(0, "visibility 3", Only32, &[Symbol, Csect]),
    class(0, "visibility 4", Only32, &[Symbol, Csect]),
    class(0, "visibility, bit 8000", Only32, &[Symbol, Csect]),
    class(0, "visibility, f_opthdr 4", Only32, &[Symbol, Csect]),
    class(0, "5 to 7, f_opthdr below 4", Only32, &[Symbol, Csect]),
    class(0, "5 to 7, version 1", Only32, &[Symbol, Csect]),
    class(0, "5 to 7, version 3", Only32, &[Symbol, Csect]),
    class(0, "5 to 7, other class", Only32, &[Symbol]),
    class(0, "5 to 7, XCOFF64", Only64, &[Symbol, Csect]),
    class(0, "70,000 loader symbols", Both, &[Module]),
    class(0, "100,000 entries", Both, &[Module]),
    class(0, "old sheet of 0", Neither, &[Sheet]),
    class(0, "old sheet of 4,096", Neither, &[Sheet]),
    class(0, "new sheet of 0", Neither, &[Sheet]),
    class(0, "new sheet of 4,097", Neither, &[Sheet]),
    class(0, "new sheet of 70,000", Neither, &[Sheet]),
    class(0, "written sheet of 0", Neither, &[Sheet]),
    class(0, "written sheet of 70,000", Neither, &[Sheet]),
    class(0, "table ends with the file", Both, &[Objects]),
    class(0, "empty table at the end", Both, &[Objects]),
    class(0, "count by overflow", Only32, &[Objects]),
    class(0, "65,534 entries", Both, &[Objects]),
    class(0, "65,535 entries", Both, &[Objects]),
    class(0, "type 0F outside", Both, &[Objects]),
    class(0, "symbol that stays", Both, &[Objects]),
    class(0, "both branches on a word", Both, &[Objects]),
    class(0, "fields of two sections", Both, &[Objects]),
    class(0, "branch at the top", Both, &[Objects]),
    class(0, "branch at the bottom", Both, &[Objects]),
    class(0, "branch, far and back", Both, &[Objects]),
    class(0, "line at its address", Both, &[Lines]),
    class(0, "line above its address", Both, &[Lines]),
    class(0, "first of equal lines", Both, &[Lines]),
    class(0, "line of a later group", Both, &[Lines]),
    class(0, "lines up to the end", Both, &[Lines]),
    class(0, "lines by overflow", Only32, &[Lines]),
    class(0, "65,534 lines", Both, &[Lines]),
    class(0, "65,535 lines", Both, &[Lines]),
    class(0, "asked past 2^32", Only32, &[Lines]),
    class(0, "512 rows", Neither, &[Benches]),
    class(0, "replaced in a full table", Neither, &[Benches]),
    class(0, "added to 511 rows", Neither, &[Benches]),
    class(0, "a row of each bench", Neither, &[Benches]),
    class(0, "name of 32 bytes", Neither, &[Benches]),
    class(0, "names but for a zero", Neither, &[Benches]),
    class(0, "fill: own row", Both, &[Benches]),
    class(0, "fill: the other's row", Both, &[Benches]),
    class(0, "fill: no row", Both, &[Benches]),
    class(0, "fill: name of none", Both, &[Benches]),
    class(0, "fill: deferred, a row", Both, &[Benches]),
    class(0, "fill: past 2^32", Only32, &[Benches]),
    class(0, "parts side by side", Both, &[Rewrite]),
    class(0, "loader side by side", Both, &[Rewrite]),
    class(0, "empty text inside", Both, &[Rewrite]),
    class(0, "another section over", Both, &[Rewrite]),
    class(0, "no string table", Both, &[Rewrite]),
    class(0, "string length of 0", Both, &[Rewrite]),
    class(0, "no entry, no TOC", Both, &[Rewrite]),
    class(0, "bss dropped at the top", Both, &[Rewrite]),
    class(0, "mended AUX", Both, &[Salvage]),
    class(0, "mended SECTION", Both, &[Salvage]),
    class(0, "mended NAME", Both, &[Salvage]),
    class(0, "mended NAME, debug", Both, &[Salvage]),
    class(0, "mended VISIBILITY", Only32, &[Salvage]),
    class(0, "three in one entry", Both, &[Salvage]),
    class(0, "four in one entry", Only32, &[Salvage]),
    class(0, "auxiliaries cut to 0", Both, &[Salvage]),
    class(0, "nothing to mend", Both, &[Salvage]),
    class(0, "no symbols to mend", Both, &[Salvage]),
    class(0, "report that just fits", Both, &[Salvage]),
    class(0, "report with a rest", Both, &[Salvage]),
    class(0, "debug up to symbols", Both, &[Salvage]),
    class(0, "debug from their end", Both, &[Salvage]),
    class(0, "empty debug inside", Both, &[Salvage]),
    class(0, "other section over them", Both, &[Salvage]),
    class(1, "0 under 2 bytes", Neither, OPENING),
    class(1, "0 file header", Both, OPENING),
    class(1, "0 header area", Both, OPENING),
    class(2, "0", Neither, OPENING),
    class(3, "0 file", Both, OPENING),
    class(3, "1 sections", Both, OPENING),
    class(3, "2 loader symbols", Both, LOADING),
    class(3, "2 old sheet", Neither, &[Sheet]),
    class(3, "2 new sheet", Neither, &[Sheet]),
    class(3, "2 sheet written", Neither, &[Sheet]),
    class(3, "3 relocation entries", Both, LOADING),
    class(3, "4 data image", Both, LOADING),
    class(3, "5 report", Both, &[Salvage]),
    class(4, "section", Both, OPENING),
    class(5, "section", Both, OPENING),
    class(5, "section: table", Both, &[Objects, Lines]),
    class(5, "section: overflow", Only32, &[Objects, Lines]),
    class(5, "0 symbol table", Both, OPENING),
    class(5, "0 string length cut", Both, OPENING),
    class(5, "0 string table", Both, OPENING),
    class(6, "section: differ", Both, OPENING),
    class(6, "section: past the top", Both, OPENING),
    class(6, "section: bss below data", Both, LOADING),
    class(7, "0", Both, OPENING),
    class(8, "section", Both, &[Section]),
    class(8, "text section", Both, &[Lines]),
    class(8, "symbol entry", Both, &[Symbol, Csect]),
    class(8, "bench", Neither, &[Benches]),
    class(8, "loader symbol", Both, &[Lookup]),
    class(8, "import id", Both, &[Lookup]),
    class(9, "index", Both, &[Symbol, Csect]),
    class(9, "index 0 at offset 0", Both, &[Symbol, Csect]),
    class(10, "index: string table", Both, &[Symbol, Csect]),
    class(10, "index: no debug section", Both, &[Symbol, Csect]),
    class(10, "index: two of them", Both, &[Symbol, Csect]),
    class(10, "index: debug length", Both, &[Symbol, Csect]),
    class(10, "index: debug string", Both, &[Symbol, Csect]),
    class(11, "index", Both, &[Symbol, Csect]),
    class(12, "index", Both, &[Csect]),
    class(12, "index: LD, VISIBILITY", Only32, &[Csect]),
    class(13, "0", Both, LOADING),
    class(13, "1", Both, LOADING),
    class(13, "2", Both, LOADING),
    class(13, "3", Both, RAW_DATA),
    class(13, "4", Both, LOADING),
    class(14, "section", Both, LOADING),
    class(14, "entry", Both, LOADING),
    class(15, "0", Both, LOADING),
    class(15, "0 without raw data", Both, LOADING),
    class(15, "0 at the file's end", Both, LOADING),
    class(15, "1", Both, LOADING),
    class(15, "2", Both, LOADING),
    class(15, "3", Both, LOADING),
    class(15, "4", Both, LOADING),
    class(15, "5", Both, LOADING),
    class(16, "index from 3", Both, LOADING),
    class(17, "entry", Both, LOADING),
    class(17, "entry: type", Both, &[Objects]),
    class(17, "entry: width", Both, &[Objects]),
    class(17, "entry: outside", Both, &[Objects]),
    class(17, "entry: no symbol", Both, &[Objects]),
    class(17, "entry: symbol's AUX", Both, &[Objects]),
    class(17, "entry: symbol's SECTION", Both, &[Objects]),
    class(17, "entry: symbol's NAME", Both, &[Objects]),
    class(17, "entry: its VISIBILITY", Only32, &[Objects]),
    class(18, "entry", Both, LOADING),
    class(18, "entry: fields meet", Both, &[Objects]),
    class(18, "entry: one field", Both, &[Objects]),
    class(19, "0 text", Both, PLANNED),
    class(19, "1 data", Both, PLANNED),
    // Every 64-bit number is an address of XCOFF64.
    class(19, "import from 3", Only32, PLANNED),
    class(19, "section: text", Both, &[Objects]),
    class(19, "section: data", Both, &[Objects]),
    class(19, "section: bss", Both, &[Objects]),
    class(20, "0 text", Both, IMAGES),
    class(20, "0 sheet", Neither, &[Sheet]),
    class(20, "0 record text", Only32, &[Records]),
    class(20, "0 buffer", Both, &[Objects]),
    class(20, "0 output", Both, &[Rewrite]),
    class(20, "0 copy", Both, &[Salvage]),
    class(20, "1 data", Both, IMAGES),
    class(20, "2 list of a plan", Both, PLANNED),
    class(20, "2 list of a fill", Both, &[Benches]),
    class(20, "2 list of a sheet", Neither, &[Sheet]),
    class(20, "2 list of sections", Both, &[Objects]),
    class(21, "0 first bytes", Neither, &[Sheet]),
    class(21, "0 old, under 20 bytes", Neither, &[Sheet]),
    class(21, "0 old, length", Neither, &[Sheet]),
    class(21, "0 new, under 24 bytes", Neither, &[Sheet]),
    class(21, "0 new, first count", Neither, &[Sheet]),
    class(21, "0 new, length", Neither, &[Sheet]),
    class(22, "line: type", Only32, &[Records]),
    class(22, "line: count", Only32, &[Records]),
    class(22, "line: address", Only32, &[Records]),
    class(22, "line: digit", Only32, &[Records]),
    class(22, "line: checksum", Only32, &[Records]),
    class(22, "line: end", Only32, &[Records]),
    class(22, "line: missing", Only32, &[Records]),
    class(22, "line: surplus", Only32, &[Records]),
    class(23, "0", Only64, &[Records]),
    class(24, "0", Only32, &[Records]),
    class(25, "entry: outside", Both, &[Objects]),
    class(25, "entry: off a step", Both, &[Objects]),
    class(25, "entry: of a list", Both, &[Objects]),
    class(26, "0", Neither, &[Benches]),
    class(27, "0", Neither, &[Benches]),
    class(28, "0", Neither, &[Benches]),
    class(29, "0 headers, text", Both, &[Rewrite]),
    class(29, "0 headers, data", Both, &[Rewrite]),
    class(29, "0 headers, loader", Both, &[Rewrite]),
    class(29, "0 headers, symbols", Both, &[Rewrite]),
    class(29, "0 text, data", Both, &[Rewrite]),
    class(29, "0 text, loader", Both, &[Rewrite]),
    class(29, "0 data, loader", Both, &[Rewrite]),
    class(29, "0 text, symbols", Both, &[Rewrite]),
    class(29, "0 data, symbols", Both, &[Rewrite]),
    class(29, "0 loader, symbols", Both, &[Rewrite]),
    class(29, "0 text, strings", Both, &[Rewrite]),
    class(29, "0 data, strings", Both, &[Rewrite]),
    class(29, "0 loader, strings", Both, &[Rewrite]),
    class(29, "0 in loader: header, symbols", Only64, &[Rewrite]),
    class(29, "0 in loader: header, relocations", Only64, &[Rewrite]),
    class(29, "0 in loader: symbols, relocations", Only64, &[Rewrite]),
    class(29, "0 in loader: header, ids", Both, &[Rewrite]),
    class(29, "0 in loader: symbols, ids", Both, &[Rewrite]),
    class(29, "0 in loader: relocations, ids", Both, &[Rewrite]),
    class(29, "0 in loader: ids, strings", Both, &[Rewrite]),
    class(29, "0 in loader: header, strings", Both, &[Rewrite]),
    class(29, "0 in loader: symbols, strings", Both, &[Rewrite]),
    class(29, "0 in loader: relocations, strings", Both, &[Rewrite]),
    class(29, "0 several", Both, &[Rewrite]),
    class(29, "0 over headers", Both, &[Salvage]),
    class(29, "0 over debug", Both, &[Salvage]),
    class(30, "index", Only32, &[Symbol, Csect]),
    class(31, "0 no line", Both, &[Lines]),
    class(31, "0 none so low", Both, &[Lines]),
    class(32, "0", Both, &[Lines]),
];

pub fn group_of(op: &Op) -> Group {
    match op {
        Op::Open | Op::List => Open,
        Op::Section(_) | Op::SectionName(_) => Section,
        Op::Symbol(_) | Op::SymbolName(_) | Op::Walk | Op::Symbols => Symbol,
        Op::Csect(_) => Csect,
        Op::Module => Module,
        Op::Relocations
        | Op::LoaderSymbols
        | Op::ImportIds
        | Op::LoaderSymbol(_)
        | Op::LoaderSymbolName(_)
        | Op::ImportPath(_)
        | Op::ImportBase(_)
        | Op::ImportMember(_) => Lookup,
        Op::Build { .. } => Build,
        Op::Move { .. } => Move,
        Op::Calls { .. } => List,
        Op::ReadSheet { .. } | Op::WriteSheet { .. } => Sheet,
        Op::RecordsLength(_) | Op::WriteRecords { .. } | Op::ReadRecords { .. } => Records,
        Op::Object | Op::ObjectBuild { .. } | Op::ObjectMove { .. } | Op::ObjectCalls { .. } => {
            Objects
        }
        Op::FindLine { .. } => Lines,
        Op::Table(_) => Benches,
        Op::WriteModule { .. } => Rewrite,
        Op::Salvage { .. } => Salvage,
    }
}

/// The format that the first two bytes name; 0 for none.
pub fn bits_of(file: &[u8]) -> u64 {
    match file {
        [0x01, 0xDF, ..] => 32,
        [0x01, 0xF7, ..] => 64,
        _ => 0,
    }
}

/// The class of a refusal that `op` gave on `file`; `?` for one that 01 doesn't
/// have.
pub fn item_of(file: &[u8], op: &Op, refusal: &Refusal) -> &'static str {
    let item = refusal.item;
    match (group_of(op), op) {
        (Objects, _) if open(file).is_ok() => return object_item(file, op, refusal),
        (_, Op::FindLine { section, .. }) if open(file).is_ok() => {
            return line_item(file, *section, refusal);
        }
        _ => {}
    }
    match refusal.number {
        1 => short(file),
        3 => limit(op, item),
        5 if item == 0 => bounds(file),
        4 | 5 => "section",
        6 => address(file, item),
        8 => asked(op),
        9 if item == 0 && refusal.offset == 0 => "index 0 at offset 0",
        10 => name(file, item),
        12 => csect_item(file, item),
        9 | 11 | 30 => "index",
        15 if item == 0 => loader_0(file),
        13 | 15 => ["0", "1", "2", "3", "4", "5"]
            .get(item as usize)
            .copied()
            .unwrap_or("?"),
        14 => thread(file),
        16 if item >= 3 => "index from 3",
        17 | 18 => "entry",
        19 => match item {
            0 => "0 text",
            1 => "1 data",
            2 => "?",
            _ => "import from 3",
        },
        20 => room(file, op, item),
        21 => sheet(op),
        22 => record(file, op, item),
        29 if item == 0 => shared(file, op),
        _ if item == 0 => "0",
        _ => "?",
    }
}

/// What an object's own rules refuse.
fn object_item(file: &[u8], op: &Op, refusal: &Refusal) -> &'static str {
    let fault = entry_fault(file);
    match (refusal.number, refusal.item) {
        (MODULE, 3) => "3",
        (BOUNDS, 1..) => table(table_fault(file)),
        (LREL, _) => match fault {
            Some(EntryFault::Type) => "entry: type",
            Some(EntryFault::Width) => "entry: width",
            Some(EntryFault::Outside) => "entry: outside",
            Some(EntryFault::Symbol(INDEX)) => "entry: no symbol",
            Some(EntryFault::Symbol(AUX)) => "entry: symbol's AUX",
            Some(EntryFault::Symbol(SECTION)) => "entry: symbol's SECTION",
            Some(EntryFault::Symbol(NAME)) => "entry: symbol's NAME",
            Some(EntryFault::Symbol(VISIBILITY)) => "entry: its VISIBILITY",
            _ => "?",
        },
        (OVERLAP, _) => match fault {
            Some(EntryFault::Overlap) => "entry: fields meet",
            Some(EntryFault::OneField) => "entry: one field",
            _ => "?",
        },
        (PLAN, n) => match section(file, n).map(|section| section.flags) {
            Ok(TEXT) => "section: text",
            Ok(DATA) => "section: data",
            Ok(BSS) => "section: bss",
            _ => "?",
        },
        (ROOM, 0) => "0 buffer",
        (ROOM, 2) => "2 list of sections",
        (RANGE, _) => range(file, op),
        _ => "?",
    }
}

/// BOUNDS of a section's table.
fn table(fault: Option<TableFault>) -> &'static str {
    match fault {
        Some(TableFault::Overflow) => "section: overflow",
        Some(TableFault::End) => "section: table",
        None => "?",
    }
}

/// What the rules of lines refuse for section `n`.
fn line_item(file: &[u8], n: u64, refusal: &Refusal) -> &'static str {
    match (refusal.number, refusal.item) {
        (INDEX, _) => "text section",
        (BOUNDS, 1..) => table(line_table_fault(file, n)),
        (NOLINE, 0) if find_line(file, n, u64::MAX).is_err() => "0 no line",
        (NOLINE, 0) => "0 none so low",
        (GROUP, 0) => "0",
        _ => "?",
    }
}

/// RANGE of a single call: what is wrong with the branch.
fn range(file: &[u8], op: &Op) -> &'static str {
    let (calls, buffer) = match object_calls(op) {
        Some(found) => found,
        None => return "?",
    };
    match &calls[..] {
        [only] => match range_fault(file, only, buffer) {
            Some(RangeFault::Outside) => "entry: outside",
            Some(RangeFault::Step) => "entry: off a step",
            None => "?",
        },
        _ => "entry: of a list",
    }
}

fn short(file: &[u8]) -> &'static str {
    let header = if bits_of(file) == 32 { 20 } else { 24 };
    match file.len() {
        0 | 1 => "0 under 2 bytes",
        length if length < header => "0 file header",
        _ => "0 header area",
    }
}

fn limit(op: &Op, item: u64) -> &'static str {
    match (item, op) {
        (0, _) => "0 file",
        (1, _) => "1 sections",
        (2, Op::ReadSheet { sheet, .. }) => match Form::of(sheet) {
            Some(Form::Old) => "2 old sheet",
            _ => "2 new sheet",
        },
        (2, Op::WriteSheet { .. }) => "2 sheet written",
        (2, _) => "2 loader symbols",
        (3, _) => "3 relocation entries",
        (4, _) => "4 data image",
        (5, Op::Salvage { .. }) => "5 report",
        _ => "?",
    }
}

/// BOUNDS 0: what passes the file's end.
fn bounds(file: &[u8]) -> &'static str {
    let (word, count) = if bits_of(file) == 32 {
        (4, 12)
    } else {
        (8, 20)
    };
    let start = crate::bytes::number(file, 8, word);
    let end = u128::from(start) + 18 * u128::from(crate::bytes::number(file, count, 4));
    match (file.len() as u128).checked_sub(end) {
        None => "0 symbol table",
        Some(1..=3) => "0 string length cut",
        Some(_) => "0 string table",
    }
}

/// ADDRESS of section `n`: a file that opens has passed the first two causes.
fn address(file: &[u8], n: u64) -> &'static str {
    if open(file).is_ok() {
        return "section: bss below data";
    }
    let (header, each, word) = if bits_of(file) == 32 {
        (20, 40, 4)
    } else {
        (24, 72, 8)
    };
    let at = header + crate::bytes::number(file, 16, 2) as usize + (n as usize - 1) * each;
    let paddr = crate::bytes::number(file, at + 8, word);
    if paddr == crate::bytes::number(file, at + 8 + word, word) {
        "section: past the top"
    } else {
        "section: differ"
    }
}

/// What an INDEX was given for.
fn asked(op: &Op) -> &'static str {
    match op {
        Op::Section(_) | Op::SectionName(_) => "section",
        Op::Symbol(_) | Op::SymbolName(_) | Op::Csect(_) => "symbol entry",
        Op::LoaderSymbol(_) | Op::LoaderSymbolName(_) => "loader symbol",
        Op::ImportPath(_) | Op::ImportBase(_) | Op::ImportMember(_) => "import id",
        Op::Table(_) => "bench",
        _ => "?",
    }
}

/// LOADER 0, whose offset is 0 without raw data, and at most the file's length.
fn loader_0(file: &[u8]) -> &'static str {
    let sections = open(file).map_or(Vec::new(), |summary| summary.sections);
    let loader = sections.iter().find(|s| s.flags == crate::opening::LOADER);
    match loader.map(|section| section.scnptr as usize) {
        Some(0) => "0 without raw data",
        Some(at) if at == file.len() => "0 at the file's end",
        Some(_) => "0",
        None => "?",
    }
}

/// CSECT of the entry at `index`: whether an LD's container has no visibility.
fn csect_item(file: &[u8], index: u64) -> &'static str {
    let container = ld_container(file, index).map(|container| symbol(file, container));
    match container {
        Some(Err(refusal)) if refusal.number == VISIBILITY => "index: LD, VISIBILITY",
        _ => "index",
    }
}

/// NAME of the entry at `index`: what is wrong with its offset.
fn name(file: &[u8], index: u64) -> &'static str {
    match name_fault(file, index) {
        Some(NameFault::Table) => "index: string table",
        Some(NameFault::NoDebug) => "index: no debug section",
        Some(NameFault::SeveralDebug) => "index: two of them",
        Some(NameFault::Length) => "index: debug length",
        Some(NameFault::String) => "index: debug string",
        None => "?",
    }
}

/// A thread section is found before any entry.
fn thread(file: &[u8]) -> &'static str {
    match open(file) {
        Ok(s)
            if s.sections
                .iter()
                .any(|s| s.flags == TDATA || s.flags == TBSS) =>
        {
            "section"
        }
        Ok(_) => "entry",
        Err(_) => "?",
    }
}

fn room(file: &[u8], op: &Op, item: u64) -> &'static str {
    let fits = |text: &[u8]| module(file).is_ok_and(|m| m.text_size == text.len() as u64);
    match (item, op) {
        (0, Op::WriteSheet { .. }) => "0 sheet",
        (0, Op::WriteRecords { text, .. }) if fits(text) => "0 record text",
        (0, Op::WriteModule { .. }) => "0 output",
        (0, Op::Salvage { .. }) => "0 copy",
        (0, _) => "0 text",
        (1, _) => "1 data",
        (2, Op::ReadSheet { .. }) => "2 list of a sheet",
        (2, Op::Table(_)) => "2 list of a fill",
        (2, _) => "2 list of a plan",
        _ => "?",
    }
}

/// SHEET: what is wrong with the sheet.
fn sheet(op: &Op) -> &'static str {
    let Op::ReadSheet { sheet, .. } = op else {
        return "?";
    };
    let Some(form) = Form::of(sheet) else {
        return "0 first bytes";
    };
    let short = sheet.len() < form.list_at();
    match form {
        Form::Old if short => "0 old, under 20 bytes",
        Form::Old => "0 old, length",
        Form::New if short => "0 new, under 24 bytes",
        Form::New if sheet[2..4] != [0, 2] => "0 new, first count",
        Form::New => "0 new, length",
    }
}

/// SHARED: the two parts that share bytes, where there are just two.
fn shared(file: &[u8], op: &Op) -> &'static str {
    if let (Op::Salvage { .. }, Ok(summary)) = (op, open(file)) {
        return match shared_with(&summary) {
            Some(SharedWith::Headers) => "0 over headers",
            Some(SharedWith::Debug) => "0 over debug",
            None => "?",
        };
    }
    const PAIRS: &[(&str, &str)] = &[
        ("headers, text", "0 headers, text"),
        ("headers, data", "0 headers, data"),
        ("headers, loader", "0 headers, loader"),
        ("headers, symbols", "0 headers, symbols"),
        ("text, data", "0 text, data"),
        ("text, loader", "0 text, loader"),
        ("data, loader", "0 data, loader"),
        ("text, symbols", "0 text, symbols"),
        ("data, symbols", "0 data, symbols"),
        ("loader, symbols", "0 loader, symbols"),
        ("text, strings", "0 text, strings"),
        ("data, strings", "0 data, strings"),
        ("loader, strings", "0 loader, strings"),
        ("in loader: header, symbols", "0 in loader: header, symbols"),
        (
            "in loader: header, relocations",
            "0 in loader: header, relocations",
        ),
        (
            "in loader: symbols, relocations",
            "0 in loader: symbols, relocations",
        ),
        ("in loader: header, ids", "0 in loader: header, ids"),
        ("in loader: symbols, ids", "0 in loader: symbols, ids"),
        (
            "in loader: relocations, ids",
            "0 in loader: relocations, ids",
        ),
        ("in loader: ids, strings", "0 in loader: ids, strings"),
        ("in loader: header, strings", "0 in loader: header, strings"),
        (
            "in loader: symbols, strings",
            "0 in loader: symbols, strings",
        ),
        (
            "in loader: relocations, strings",
            "0 in loader: relocations, strings",
        ),
    ];
    let found = shared_parts(file);
    match &found[..] {
        [] => "?",
        [only] => {
            let known = PAIRS.iter().find(|(pair, _)| pair == only);
            known.map_or("?", |(_, item)| item)
        }
        _ => "0 several",
    }
}

/// RECORD: what is wrong with the line that is named.
fn record(file: &[u8], op: &Op, item: u64) -> &'static str {
    let bad = match op {
        Op::ReadRecords { plan, records, .. } => bad_line(file, plan, records),
        _ => None,
    };
    match bad.filter(|bad| bad.line == item).map(|bad| bad.fault) {
        Some(Fault::Type) => "line: type",
        Some(Fault::Count) => "line: count",
        Some(Fault::Address) => "line: address",
        Some(Fault::Digit) => "line: digit",
        Some(Fault::Checksum) => "line: checksum",
        Some(Fault::End) => "line: end",
        Some(Fault::Missing) => "line: missing",
        Some(Fault::Surplus) => "line: surplus",
        None => "?",
    }
}

/// How often each class was reached.
#[derive(Default)]
pub struct Table {
    /// By number, item, bits and group.
    reached: BTreeMap<(u64, &'static str, u64, Group), u64>,
}

/// A row: a class in one format, 0 for none.
type Row = (&'static Class, u64);

fn rows() -> Vec<Row> {
    let formats = |class: &Class| match class.formats {
        Both => vec![32, 64],
        Only32 => vec![32],
        Only64 => vec![64],
        Neither => vec![0],
    };
    CLASSES
        .iter()
        .flat_map(|c| formats(c).into_iter().map(move |bits| (c, bits)))
        .collect()
}

/// Whether a group can reach a row. Records of XCOFF64 are refused before the
/// images' lengths are looked at.
fn can_reach((class, bits): Row, group: Group) -> bool {
    let image = class.number == ROOM && !class.item.starts_with('2');
    class.groups.contains(&group) && !(group == Records && bits == 64 && image)
}

impl Table {
    pub fn count(&mut self, file: &[u8], op: &Op, refusal: &Refusal) {
        self.add(refusal.number, item_of(file, op, refusal), file, op);
    }

    fn add(&mut self, number: u64, item: &'static str, file: &[u8], op: &Op) {
        let known = CLASSES
            .iter()
            .find(|c| c.number == number && c.item == item);
        let bits = match known.map(|class| class.formats) {
            Some(Neither) => 0,
            _ => bits_of(file),
        };
        let key = (number, item, bits, group_of(op));
        *self.reached.entry(key).or_insert(0) += 1;
    }

    /// Counts the edges that `op` accepted on `file`; for operations that refuse
    /// nothing.
    pub fn accept(&mut self, file: &[u8], op: &Op) {
        for edge in edges::accepted(file, op) {
            self.add(0, edge, file, op);
        }
    }

    pub fn refusals(&self) -> u64 {
        let refusals = self.reached.iter().filter(|((number, ..), _)| *number != 0);
        refusals.map(|(_, times)| times).sum()
    }

    fn cell(&self, row: Row, group: Group) -> u64 {
        let key = (row.0.number, row.0.item, row.1, group);
        self.reached.get(&key).copied().unwrap_or(0)
    }

    fn sum(&self, row: Row) -> u64 {
        GROUPS.iter().map(|&(group, _)| self.cell(row, group)).sum()
    }

    /// How many rows were reached, and how many there are.
    pub fn coverage(&self) -> (usize, usize) {
        let rows = rows();
        (
            rows.iter().filter(|&&row| self.sum(row) > 0).count(),
            rows.len(),
        )
    }

    /// The rows that were never reached.
    pub fn missing(&self) -> Vec<String> {
        rows()
            .into_iter()
            .filter(|&row| self.sum(row) == 0)
            .map(title)
            .collect()
    }

    /// The places of a row that were never reached, though they can be.
    pub fn missing_places(&self) -> Vec<String> {
        let mut all = Vec::new();
        for row in rows() {
            for (group, word) in GROUPS {
                if can_reach(row, group) && self.cell(row, group) == 0 {
                    all.push(format!("{} by {word}", title(row)));
                }
            }
        }
        all
    }

    /// Refusals that are in no row, or were given where they cannot be.
    pub fn strange(&self) -> Vec<String> {
        let known = |&(number, item, bits, group): &(u64, &str, u64, Group)| {
            rows().iter().any(|&(class, b)| {
                (class.number, class.item, b) == (number, item, bits)
                    && can_reach((class, b), group)
            })
        };
        let strange = self.reached.keys().filter(|key| !known(key));
        strange.map(|key| format!("{key:?}")).collect()
    }

    /// The table as text: a dot where a refusal cannot be given.
    pub fn text(&self) -> String {
        let mut text = format!("{:>3} {:<10} {:<24}{:>4}", "No.", "name", "item", "bits");
        for (_, word) in GROUPS {
            text += &format!(" {word:>7}");
        }
        text += &format!(" {:>8}\n", "all");
        for row in rows() {
            text += &title(row);
            for (group, _) in GROUPS {
                text += &match self.cell(row, group) {
                    0 if !can_reach(row, group) => format!(" {:>7}", "."),
                    0 => format!(" {:>7}", "never"),
                    times => format!(" {times:>7}"),
                };
            }
            text += &match self.sum(row) {
                0 => format!(" {:>8}\n", "NEVER"),
                times => format!(" {times:>8}\n"),
            };
        }
        text
    }
}

fn title((class, bits): Row) -> String {
    let bits = if bits == 0 {
        "-".to_string()
    } else {
        bits.to_string()
    };
    format!(
        "{:>3} {:<10} {:<24}{bits:>4}",
        class.number,
        match class.number {
            0 => "accepted",
            number => word(number),
        },
        class.item
    )
}
