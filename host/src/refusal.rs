//! Why something is refused: the numbers of the rules, in words.

use std::fmt;

/// A rule's number and the item it names, 0 where it names none. The offset is that of the first byte, in the file, of the
/// section header or table entry that the item names, of the string table for STRINGS, of the loader section for LOADER
/// and a module's LIMIT 2 and 3, and 0 for every other. [`places`](crate::places) reads what stands there.
#[derive(Clone, Copy, PartialEq, Eq)]
pub struct Refusal {
    pub number: u64,
    pub item: u64,
    pub offset: u64,
}

impl Refusal {
    /// The number's name, such as `LIMIT`.
    pub fn name(&self) -> &'static str {
        match self.number {
            1 => "SHORT",
            2 => "MAGIC",
            3 => "LIMIT",
            4 => "KIND",
            5 => "BOUNDS",
            6 => "ADDRESS",
            7 => "STRINGS",
            8 => "INDEX",
            9 => "AUX",
            10 => "NAME",
            11 => "SECTION",
            12 => "CSECT",
            13 => "MODULE",
            14 => "THREAD",
            15 => "LOADER",
            16 => "LSYM",
            17 => "LREL",
            18 => "OVERLAP",
            19 => "PLAN",
            20 => "ROOM",
            21 => "SHEET",
            22 => "RECORD",
            23 => "FORM",
            24 => "CLASH",
            25 => "RANGE",
            26 => "FULL",
            27 => "ABSENT",
            28 => "LONG",
            29 => "SHARED",
            30 => "VISIBILITY",
            31 => "NOLINE",
            32 => "GROUP",
            _ => "UNKNOWN",
        }
    }

    /// What it means.
    pub fn meaning(&self) -> String {
        let i = self.item;
        match self.number {
            1 => "the file ends before its headers do".into(),
            2 => "the file starts with neither 01DF nor 01F7".into(),
            3 => limit(i).into(),
            4 => format!("the flags of section {i} are not allowed"),
            5 if i == 0 => "the symbol table or string table passes the file's end".into(),
            5 => format!("the raw data or line table of section {i} passes the file's end, or the table's overflow header is not there exactly once"),
            6 => format!("the addresses of section {i} differ or pass the address space, or it is a bss below the end of data"),
            7 => "the string table has length 1, 2 or 3".into(),
            8 => format!("there is no number {i} of what was asked for"),
            9 => format!("the auxiliary entries of symbol {i} pass the table's end"),
            10 => format!("the name offset of symbol {i} leads to no name in the string table or debug section"),
            11 => format!("the section number of symbol {i} names no section"),
            12 => format!("symbol {i} has no valid csect entry"),
            13 => format!("the file is not a loadable module: {}", module(i)),
            14 => format!("the module has thread-local storage: section {i} is tdata or tbss, or relocation entry {i} is by symbol -1 or -2"),
            15 => format!("the loader section is bad: {}", loader(i)),
            16 => format!("the type, section, import id or name of loader symbol {i} is bad"),
            17 => format!("the type, section, address or symbol of relocation entry {i} is bad"),
            18 => format!("the field of relocation entry {i} shares bytes with an earlier one that is not the same"),
            19 => plan(i),
            20 => format!("the {} is not exactly as long as needed", room(i)),
            21 => "not a plan sheet: it is short, starts with neither 00000002 nor 0002, or is not as long as its count says".into(),
            22 => format!("line {i} of the record text is not the line that is written there, or is missing or one too many"),
            23 => "S-records are for XCOFF32 modules only".into(),
            24 => "the text and data images share an address".into(),
            25 => format!("the branch of relocation entry {i} would leave -33,554,432 to 33,554,428, or be off a step of 4"),
            26 => "all 512 rows of the address table are taken, and this one is new".into(),
            27 => "the bench has no such row in the address table".into(),
            28 => "a name in the address table has 1 to 32 bytes".into(),
            29 => "parts of the file that must be apart share bytes".into(),
            30 => format!("the type of symbol {i} claims a visibility of 5 to 7, which means nothing"),
            31 => "no entry of the line table has an address at or below the one asked for".into(),
            32 => "the line table has a line before any function".into(),
            _ => "no such number".into(),
        }
    }

    /// What it means where an operation on an object file gives it.
    pub fn object_meaning(&self) -> String {
        let i = self.item;
        match self.number {
            5 if i != 0 => format!("the raw data or relocation table of section {i} passes the file's end, or the table's overflow header is not there exactly once"),
            8 => format!("there is no text or data section {i}"),
            13 => "a text or data section of the object file has no raw data".into(),
            17 => format!("the type, width, address or symbol of relocation entry {i} is bad"),
            19 => format!("section {i} at the plan's address passes the end of the address space"),
            20 if i == 0 => "the image of the object file is not exactly as long as needed".into(),
            _ => self.meaning(),
        }
    }
}

impl fmt::Display for Refusal {
    fn fmt(&self, f: &mut fmt::Formatter<'_>) -> fmt::Result {
        write!(
            f,
            "refused {} {} {}: {}, {}",
            self.number,
            self.item,
            self.offset,
            self.name(),
            self.meaning()
        )
    }
}

/// The same words, so that an `unwrap` or an assertion tells what is refused.
impl fmt::Debug for Refusal {
    fn fmt(&self, f: &mut fmt::Formatter<'_>) -> fmt::Result {
        write!(f, "{self}")
    }
}

impl std::error::Error for Refusal {}

fn limit(item: u64) -> &'static str {
    match item {
        0 => "the file is longer than 16,777,216 bytes",
        1 => "there are more than 32 sections",
        2 => "there are more than 70,000 loader symbols, or addresses in a sheet, in one that starts with 0002 more than 4,096",
        3 => "there are more than 100,000 relocation entries",
        4 => "the data image is longer than 16,777,216 bytes",
        _ => "the report has fewer than 8 bytes for each change",
    }
}

fn module(item: u64) -> &'static str {
    match item {
        0 => "its auxiliary header is too short, as in an object file that is not linked",
        1 => "it has not exactly one text, one data, one bss and one loader section",
        2 => "its auxiliary header and section headers differ",
        3 => "its text, data or loader section has no raw data",
        _ => "its entry or TOC is neither in text nor in data",
    }
}

fn loader(item: u64) -> &'static str {
    match item {
        0 => "its header is short",
        1 => "its version is neither 1 nor 2",
        2 => "its symbols pass the section",
        3 => "its relocations pass the section",
        4 => "its import ids pass the section or are too few",
        _ => "its strings pass the section",
    }
}

fn plan(item: u64) -> String {
    match item {
        0 => "the text image at the plan's text address passes the end of the address space".into(),
        1 => "the data image at the plan's data address passes the end of the address space".into(),
        i => format!("the plan's address of loader symbol {i} does not fit in 32 bits"),
    }
}

fn room(item: u64) -> &'static str {
    match item {
        0 => "text image, sheet, record text or whole file",
        1 => "data image",
        _ => "list of addresses",
    }
}
