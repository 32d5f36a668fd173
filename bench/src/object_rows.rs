//! Opening and reading all symbols against the crate `object`.

use crate::files::Symbols;
use crate::report::{name, Report};
use crate::FORMATS;
use std::hint::black_box;
use xcoff::Format;

const SYMBOLS: u32 = 100_000;

/// What was read of all sections or symbols: how many, and the sums of their addresses or values, of their sizes or their
/// csects' lengths, and of their names' lengths.
pub type Total = [u64; 4];

/// The crate's part, given by the program that is built with it.
pub struct Object {
    /// Opens a file; the number of its sections.
    pub open: fn(&[u8], Format) -> usize,
    pub sections: fn(&[u8], Format) -> Total,
    pub symbols: fn(&[u8], Format) -> Total,
}

/// `note` is the crate's version, or why it is left out.
pub fn rows(report: &mut Report, object: Option<Object>, note: &str) {
    let Some(object) = object else {
        report.against("the crate object");
        return report.left_out(note);
    };
    report.against(&format!("the crate object {note}"));
    for format in FORMATS {
        for sections in [4, 32] {
            open(report, format, sections, &object);
        }
        symbols(report, format, &object);
    }
}

fn open(report: &mut Report, format: Format, sections: u16, object: &Object) {
    let made = Symbols {
        format,
        sections,
        count: 1,
        csects: true,
    };
    let mut file = made.bytes();
    assert_eq!((object.open)(&file, format), usize::from(sections));
    assert_eq!(our_sections(&file), (object.sections)(&file, format));
    report.versus(
        &format!("{} open, {sections} sections", name(format)),
        &mut file,
        &|file| {
            black_box(xcoff::open(black_box(file)).unwrap());
        },
        &|file| {
            black_box((object.open)(black_box(file), format));
        },
    );
    report.versus(
        &format!("{} {sections} sections with names", name(format)),
        &mut file,
        &|file| {
            black_box(our_sections(black_box(file)));
        },
        &|file| {
            black_box((object.sections)(black_box(file), format));
        },
    );
}

fn symbols(report: &mut Report, format: Format, object: &Object) {
    let made = Symbols {
        format,
        sections: 4,
        count: SYMBOLS,
        csects: true,
    };
    let mut file = made.bytes();
    assert_eq!(our_symbols(&file), (object.symbols)(&file, format));
    report.versus(
        &format!("{} 100,000 symbols with names and csects", name(format)),
        &mut file,
        &|file| {
            black_box(our_symbols(black_box(file)));
        },
        &|file| {
            black_box((object.symbols)(black_box(file), format));
        },
    );
}

fn our_sections(file: &[u8]) -> Total {
    let mut total = Total::default();
    for n in 1..=xcoff::open(file).unwrap().sections {
        let section = xcoff::section(file, n).unwrap();
        total[0] += 1;
        total[1] += section.vaddr;
        total[2] += section.size;
        total[3] += xcoff::section_name(file, n).unwrap().len() as u64;
    }
    total
}

pub fn our_symbols(file: &[u8]) -> Total {
    let table = xcoff::symbol_table(file).unwrap();
    let mut total = Total::default();
    for row in table.rows() {
        total[0] += 1;
        total[1] += row.symbol.value;
        total[2] += row.csect.map_or(0, |csect| csect.length);
        total[3] += row.name().len() as u64;
    }
    total
}
