//! Parts of a file that share bytes: why it is refused with 29 SHARED. It is for showing alone: nothing is judged by it.

use crate::{module, open, section, Format, Kind, Opened, Section};
use std::fmt;
use std::ops::Range;

/// A part of a file that must be apart from others.
#[derive(Clone, Copy, Debug, PartialEq, Eq)]
pub enum FilePart {
    /// The file header, the auxiliary header and the section headers.
    HeaderArea,
    Text,
    Data,
    LoaderSection,
    SymbolTable,
    /// Four bytes where its length is 0.
    StringTable,
    /// By its number.
    DebugSection(u64),
    /// Inside the loader section.
    LoaderHeader,
    LoaderSymbols,
    Relocations,
    ImportIds,
    LoaderStrings,
}

/// A part and where its bytes are.
#[derive(Clone, Debug, PartialEq, Eq)]
pub struct FileRange {
    pub part: FilePart,
    pub bytes: Range<u64>,
}

/// The pairs of a module's parts that share a byte, for which it is not written as a file; none where a file is no module.
pub fn shared_in_module(file: &[u8]) -> Vec<(FileRange, FileRange)> {
    let (Ok(opened), Ok(module)) = (open(file), module(file)) else {
        return Vec::new();
    };
    let raw = |part, n| section(file, n).map(|s| of(part, raw_data(&s)));
    let [text, data, loader] = [
        (FilePart::Text, module.text.number),
        (FilePart::Data, module.data.number),
        (FilePart::LoaderSection, module.loader),
    ]
    .map(|(part, n)| raw(part, n).unwrap_or_else(|_| of(part, 0..0)));
    let tables = loader_tables(file, opened.format, &loader.bytes);
    let whole = [
        header_area(&opened),
        text,
        data,
        loader,
        symbol_table(file, &opened),
        string_table(file, &opened),
    ];
    let mut pairs = shared(&whole);
    pairs.extend(shared(&tables));
    pairs
}

/// What of a file the symbol table shares a byte with, so that it is not salvaged.
pub fn shared_with_symbols(file: &[u8]) -> Vec<(FileRange, FileRange)> {
    let Ok(opened) = open(file) else {
        return Vec::new();
    };
    let symbols = symbol_table(file, &opened);
    let debug = (1..=opened.sections).filter_map(|n| {
        let found = section(file, n).ok().filter(|s| s.kind == Kind::Debug)?;
        Some(of(FilePart::DebugSection(n), raw_data(&found)))
    });
    let others = [header_area(&opened)].into_iter().chain(debug);
    let meeting = others.filter(|other| meet(&other.bytes, &symbols.bytes));
    meeting.map(|other| (other, symbols.clone())).collect()
}

fn of(part: FilePart, bytes: Range<u64>) -> FileRange {
    FileRange { part, bytes }
}

fn shared(parts: &[FileRange]) -> Vec<(FileRange, FileRange)> {
    let mut pairs = Vec::new();
    for (n, one) in parts.iter().enumerate() {
        let later = parts[n + 1..].iter();
        let meeting = later.filter(|other| meet(&one.bytes, &other.bytes));
        pairs.extend(meeting.map(|other| (one.clone(), other.clone())));
    }
    pairs
}

fn meet(one: &Range<u64>, other: &Range<u64>) -> bool {
    one.start.max(other.start) < one.end.min(other.end)
}

// ---- where the parts are

fn by<T>(format: Format, narrow: T, wide: T) -> T {
    match format {
        Format::Xcoff32 => narrow,
        Format::Xcoff64 => wide,
    }
}

/// A number of so many bytes; 0 where the file ends before it.
fn number(file: &[u8], at: u64, width: u64) -> u64 {
    let bytes = file.get(at as usize..(at + width) as usize);
    let bytes = bytes.unwrap_or_default().iter();
    bytes.fold(0, |number, &byte| number << 8 | u64::from(byte))
}

fn header_area(opened: &Opened) -> FileRange {
    let (file_header, section_header) = by(opened.format, (20, 40), (24, 72));
    let end = file_header + opened.opthdr + section_header * opened.sections;
    of(FilePart::HeaderArea, 0..end)
}

fn raw_data(s: &Section) -> Range<u64> {
    match s.raw {
        true => s.scnptr..s.scnptr + s.size,
        false => 0..0,
    }
}

fn symbol_table(file: &[u8], opened: &Opened) -> FileRange {
    let start = number(file, 8, by(opened.format, 4, 8));
    let bytes = match opened.symbols {
        0 => 0..0,
        count => start..start + 18 * count,
    };
    of(FilePart::SymbolTable, bytes)
}

/// It follows the symbol table at once; none where the file ends there, or where there are no symbols.
fn string_table(file: &[u8], opened: &Opened) -> FileRange {
    let start = symbol_table(file, opened).bytes.end;
    let bytes = match number(file, start, 4) {
        _ if opened.symbols == 0 || start >= file.len() as u64 => 0..0,
        0 => start..start + 4,
        length => start..start + length,
    };
    of(FilePart::StringTable, bytes)
}

/// The header and the four tables of a loader section.
fn loader_tables(file: &[u8], format: Format, section: &Range<u64>) -> [FileRange; 5] {
    let start = section.start;
    let field = |(at, width)| number(file, start + at, width);
    let header = by(format, 32, 56);
    let symbols = 24 * field((4, 4));
    let relocations = by(format, 12, 16) * field((8, 4));
    // In XCOFF32 the symbols follow the header and the relocations follow them.
    let [symbols_at, relocations_at] = match format {
        Format::Xcoff32 => [header, header + symbols],
        Format::Xcoff64 => [field((40, 8)), field((48, 8))],
    };
    let table = |part, at: u64, length: u64| match length {
        // Its offset may then be anything.
        0 => of(part, 0..0),
        _ => of(part, start + at..start + at + length),
    };
    let ids = field(by(format, (20, 4), (24, 8)));
    let strings = field(by(format, (28, 4), (32, 8)));
    [
        table(FilePart::LoaderHeader, 0, header),
        table(FilePart::LoaderSymbols, symbols_at, symbols),
        table(FilePart::Relocations, relocations_at, relocations),
        table(FilePart::ImportIds, ids, field((12, 4))),
        table(
            FilePart::LoaderStrings,
            strings,
            field(by(format, (24, 4), (20, 4))),
        ),
    ]
}

// ---- words

impl fmt::Display for FilePart {
    fn fmt(&self, f: &mut fmt::Formatter<'_>) -> fmt::Result {
        f.write_str(match self {
            FilePart::HeaderArea => "header area",
            FilePart::Text => "raw text",
            FilePart::Data => "raw data",
            FilePart::LoaderSection => "loader section",
            FilePart::SymbolTable => "symbol table",
            FilePart::StringTable => "string table",
            FilePart::DebugSection(n) => return write!(f, "debug section {n}"),
            FilePart::LoaderHeader => "loader header",
            FilePart::LoaderSymbols => "loader symbols",
            FilePart::Relocations => "loader relocations",
            FilePart::ImportIds => "import ids",
            FilePart::LoaderStrings => "loader strings",
        })
    }
}

impl fmt::Display for FileRange {
    fn fmt(&self, f: &mut fmt::Formatter<'_>) -> fmt::Result {
        let Range { start, end } = self.bytes;
        write!(f, "{} (offset {start}, {} bytes)", self.part, end - start)
    }
}
