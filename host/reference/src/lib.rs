//! A plain second reading of document 01 ("the exact rules") and of the requests
//! of document 02 that are in force.
//!
//! Each module follows one section of document 01, in its order:
//! `opening`, `symbols`, `module`, `images` (plans, images, moves, the book),
//! `sheet`, `lister`; `records` is request 2, `object` request 5, `lines` request 7,
//! `address_table` request 6, `rewrite` request 8, `salvage` request 12. `generate`
//! makes test cases, `answer` runs one operation of a case and writes its
//! answer down, `reached` counts the refusals by class.
#![forbid(unsafe_code)]

pub mod address_table;
pub mod answer;
pub mod bytes;
mod fields;
pub mod generate;
pub mod images;
pub mod lines;
pub mod lister;
pub mod module;
pub mod object;
pub mod opening;
pub mod reached;
pub mod records;
pub mod rewrite;
pub mod salvage;
pub mod section_table;
pub mod sheet;
pub mod symbols;

pub use address_table::{run_table_call, AddressTable, RowKey, TableAnswer, TableCall};
pub use images::{book, build, move_images, Call, Plan, Reached};
pub use lines::{find_line, FoundLine};
pub use lister::list_headers;
pub use module::{
    import_base, import_ids, import_member, import_path, loader_symbol, loader_symbol_name,
    loader_symbols, module, relocations, LoaderSymbol, Module, Relocation,
};
pub use object::{
    object, object_book, object_build, object_move, run_object_call, Change, Object, ObjectCall,
    ObjectEntry,
};
pub use opening::{open, section, section_name, Section, Summary};
pub use records::{read_records, records_length, write_records};
pub use rewrite::write_module;
pub use salvage::{mends, salvage, Mend};
pub use sheet::{read_sheet, sheet_count, write_sheet, Form};
pub use symbols::{
    csect, name_fault, symbol, symbol_name, walk, walked, Csect, NameFault, Symbol, Walk,
};

/// A refusal: its number, its item, 0 where none is named, and the file offset of
/// the header, entry or table that the item names (request 4), 0 for every other.
#[derive(Clone, Copy, Debug, PartialEq, Eq)]
pub struct Refusal {
    pub number: u64,
    pub item: u64,
    pub offset: u64,
}

pub const SHORT: u64 = 1;
pub const MAGIC: u64 = 2;
pub const LIMIT: u64 = 3;
pub const KIND: u64 = 4;
pub const BOUNDS: u64 = 5;
pub const ADDRESS: u64 = 6;
pub const STRINGS: u64 = 7;
pub const INDEX: u64 = 8;
pub const AUX: u64 = 9;
pub const NAME: u64 = 10;
pub const SECTION: u64 = 11;
pub const CSECT: u64 = 12;
pub const MODULE: u64 = 13;
pub const THREAD: u64 = 14;
pub const LOADER: u64 = 15;
pub const LSYM: u64 = 16;
pub const LREL: u64 = 17;
pub const OVERLAP: u64 = 18;
pub const PLAN: u64 = 19;
pub const ROOM: u64 = 20;
pub const SHEET: u64 = 21;
pub const RECORD: u64 = 22;
pub const FORM: u64 = 23;
pub const CLASH: u64 = 24;
pub const RANGE: u64 = 25;
pub const FULL: u64 = 26;
pub const ABSENT: u64 = 27;
pub const LONG: u64 = 28;
pub const SHARED: u64 = 29;
pub const VISIBILITY: u64 = 30;
pub const NOLINE: u64 = 31;
pub const GROUP: u64 = 32;

/// The word of a refusal number.
pub fn word(number: u64) -> &'static str {
    match number {
        VISIBILITY => return "VISIBILITY",
        NOLINE => return "NOLINE",
        GROUP => return "GROUP",
        _ => {}
    }
    const WORDS: [&str; 30] = [
        "none", "SHORT", "MAGIC", "LIMIT", "KIND", "BOUNDS", "ADDRESS", "STRINGS", "INDEX", "AUX",
        "NAME", "SECTION", "CSECT", "MODULE", "THREAD", "LOADER", "LSYM", "LREL", "OVERLAP",
        "PLAN", "ROOM", "SHEET", "RECORD", "FORM", "CLASH", "RANGE", "FULL", "ABSENT", "LONG",
        "SHARED",
    ];
    match WORDS.get(number as usize) {
        Some(word) => word,
        None => "unknown",
    }
}

/// Limits: passed means strictly greater.
pub const FILE_LIMIT: u64 = 16_777_216;
pub const SECTION_LIMIT: u64 = 32;
pub const LOADER_SYMBOL_LIMIT: u64 = 70_000;
pub const RELOCATION_LIMIT: u64 = 100_000;
pub const IMAGE_LIMIT: u64 = 16_777_216;
/// Addresses of an old sheet; a new one holds as many as there may be loader
/// symbols.
pub const OLD_SHEET_LIMIT: u64 = 4_096;
/// Rows of the address table.
pub const TABLE_ROWS: usize = 512;

/// Short form for giving a refusal back whose item names no place in the file.
pub(crate) fn refuse<T>(number: u64, item: u64) -> Result<T, Refusal> {
    refuse_at(number, item, 0)
}

/// One whose item names what starts at `at` in the file.
pub(crate) fn refuse_at<T>(number: u64, item: u64, at: usize) -> Result<T, Refusal> {
    Err(Refusal {
        number,
        item,
        offset: at as u64,
    })
}
