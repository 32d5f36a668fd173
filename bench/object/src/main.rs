//! The table with the rows against the crate `object`.
#![forbid(unsafe_code)]

use bench::{Object, Total};
use object::read::xcoff::{FileHeader, XcoffFile};
use object::xcoff::{FileHeader32, FileHeader64};
use object::{Object as _, ObjectSection, ObjectSymbol};
use xcoff::Format;

fn main() {
    bench::main(Some(Object {
        open,
        sections,
        symbols,
    }));
}

fn parse<H: FileHeader>(file: &[u8]) -> XcoffFile<'_, H> {
    XcoffFile::parse(file).expect("object opens the file")
}

fn open(file: &[u8], format: Format) -> usize {
    match format {
        Format::Xcoff32 => parse::<FileHeader32>(file).sections().count(),
        Format::Xcoff64 => parse::<FileHeader64>(file).sections().count(),
    }
}

fn sections(file: &[u8], format: Format) -> Total {
    match format {
        Format::Xcoff32 => all_sections::<FileHeader32>(file),
        Format::Xcoff64 => all_sections::<FileHeader64>(file),
    }
}

fn symbols(file: &[u8], format: Format) -> Total {
    match format {
        Format::Xcoff32 => all_symbols::<FileHeader32>(file),
        Format::Xcoff64 => all_symbols::<FileHeader64>(file),
    }
}

fn all_sections<H: FileHeader>(file: &[u8]) -> Total {
    let file = parse::<H>(file);
    let mut total = Total::default();
    for section in file.sections() {
        total[0] += 1;
        total[1] += section.address();
        total[2] += section.size();
        total[3] += section.name_bytes().expect("object reads the name").len() as u64;
    }
    total
}

fn all_symbols<H: FileHeader>(file: &[u8]) -> Total {
    let file = parse::<H>(file);
    let mut total = Total::default();
    for symbol in file.symbols() {
        total[0] += 1;
        total[1] += symbol.address();
        total[2] += symbol.size();
        total[3] += symbol.name_bytes().expect("object reads the name").len() as u64;
    }
    total
}
