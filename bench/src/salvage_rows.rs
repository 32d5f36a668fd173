//! Symbol tables salvaged: against a copy and a walk of the same file, and how the cost grows.

use crate::common::turns::by_turns;
use crate::files::Symbols;
use crate::report::{name, Report};
use crate::FORMATS;
use std::hint::black_box;
use xcoff::{salvage_count, salvage_into, Format};

const SYMBOLS: [u32; 4] = [1_000, 10_000, 100_000, 500_000];

/// A file, and room for its copy and the report.
struct Salvage {
    file: Vec<u8>,
    copy: Vec<u8>,
    report: Vec<u8>,
}

impl Salvage {
    /// Symbols without csect entries; where they are damaged, each has a bad name and a bad section.
    fn new(format: Format, count: u32, damaged: bool) -> Salvage {
        let made = Symbols {
            format,
            sections: 4,
            count,
            csects: false,
        };
        let mut file = made.bytes();
        let (start, name) = match format {
            Format::Xcoff32 => (20 + 4 * 40, 4),
            Format::Xcoff64 => (24 + 4 * 72, 8),
        };
        if damaged {
            for entry in file[start..start + 18 * count as usize].chunks_exact_mut(18) {
                entry[name..name + 4].fill(0xFF);
                entry[12] = 0x7F;
            }
        }
        let changes = salvage_count(&file).unwrap();
        assert_eq!(changes, if damaged { 2 * u64::from(count) } else { 0 });
        Salvage {
            copy: vec![1; file.len()],
            report: vec![1; 8 * changes as usize],
            file,
        }
    }

    fn whole(&mut self) {
        black_box(salvage_into(&self.file, &mut self.copy, &mut self.report).unwrap());
    }

    /// The file copied and its symbols walked.
    fn least(&mut self) {
        self.copy.copy_from_slice(&self.file);
        black_box(xcoff::walk(&self.copy).unwrap());
    }
}

pub fn rows(report: &mut Report) {
    report.against("memcpy of the file and a walk over its symbols");
    for format in FORMATS {
        let mut state = Salvage::new(format, 500_000, false);
        let what = format!("{} salvage, 500,000 whole symbols", name(format));
        report.versus(&what, &mut state, &Salvage::whole, &Salvage::least);
    }
    let sizes = SYMBOLS.map(|n| format!("{},000", n / 1000));
    report.growth("growth: salvage, time for one symbol", &sizes);
    for format in FORMATS {
        for (what, damaged) in [("whole symbols", false), ("two changes in each", true)] {
            let mut states = SYMBOLS.map(|n| Salvage::new(format, n, damaged));
            let times = by_turns(
                report.time,
                &mut states,
                [
                    &|all: &mut [Salvage; 4]| all[0].whole(),
                    &|all: &mut [Salvage; 4]| all[1].whole(),
                    &|all: &mut [Salvage; 4]| all[2].whole(),
                    &|all: &mut [Salvage; 4]| all[3].whole(),
                ],
            );
            let what = format!("{} {what}", name(format));
            report.grown(&what, &times, &SYMBOLS.map(f64::from));
        }
    }
}
