//! Modules written as files: against copies of the same bytes, and how the cost grows.

use crate::common::made::{Entry, Module, Symbol};
use crate::common::turns::{by_turns, Work};
use crate::report::{name, Report};
use crate::FORMATS;
use std::hint::black_box;
use xcoff::{build_images, module, write_module_into, Format, Plan};

const MIB: [u64; 4] = [1, 4, 8, 16];
const ENTRIES: [u64; 3] = [1_000, 10_000, 100_000];

/// A module, a plan, and room for the written file and for its images.
struct Written {
    file: Vec<u8>,
    plan: Plan,
    output: Vec<u8>,
    text: Vec<u8>,
    data: Vec<u8>,
}

impl Written {
    /// Seven imports to ten entries, each on 8 bytes of data of its own.
    fn new(format: Format, data: u64, entries: u64) -> Written {
        let mut m = Module::new(format);
        m.data_size = data;
        m.symbols = vec![Symbol::Import; entries as usize * 7 / 10];
        let symbols = m.symbols.len().max(1) as u64;
        let entry = |i: u64| Entry {
            address: m.data_address + 8 * i,
            symbol: 3 + (i % symbols) as u32,
            kind: 0x1F00,
            section: 2,
        };
        m.entries = (0..entries).map(entry).collect();
        let file = m.bytes();
        let plan = Plan {
            text: 0x3000_0000,
            data: 0x4000_0000,
            list: (0..m.symbols.len() as u64).map(|i| 4 * i).collect(),
        };
        let output = vec![1; file.len()];
        let (text, data) = (vec![1; m.text_size as usize], vec![1; data as usize]);
        Written {
            file,
            plan,
            output,
            text,
            data,
        }
    }

    /// A file of exactly so many MiB, without entries.
    fn mib(format: Format, mib: u64) -> Written {
        let rest = Written::new(format, 0, 0).file.len() as u64;
        let made = Written::new(format, (mib << 20) - rest, 0);
        assert_eq!(made.file.len() as u64, mib << 20);
        made
    }

    fn whole(&mut self) {
        write_module_into(&self.file, &self.plan, &mut self.output).unwrap();
        black_box(&mut self.output);
    }

    fn copy(&mut self) {
        self.output.copy_from_slice(&self.file);
        black_box(&mut self.output);
    }

    /// The file copied, and its images built.
    fn copy_and_build(&mut self) {
        self.copy();
        black_box(build_images(&self.file, &self.plan, &mut self.text, &mut self.data).unwrap());
    }

    /// What was written is a module at the plan's addresses, whose raw data is the image.
    fn holds(&mut self) -> bool {
        self.whole();
        build_images(&self.file, &self.plan, &mut self.text, &mut self.data).unwrap();
        let m = module(&self.output).unwrap();
        let raw = xcoff::section(&self.output, m.data.number).unwrap().scnptr as usize;
        m.data.address == self.plan.data && self.output[raw..raw + self.data.len()] == self.data
    }
}

pub fn rows(report: &mut Report) {
    report.against("memcpy of the file");
    for format in FORMATS {
        let mut state = Written::mib(format, 16);
        assert!(state.holds());
        let what = format!("{} module written, 16 MiB", name(format));
        report.versus(&what, &mut state, &Written::whole, &Written::copy);
    }
    report.against("memcpy of the file and a build of its images");
    for format in FORMATS {
        let mut state = Written::new(format, 8 * 100_000, 100_000);
        assert!(state.holds());
        let what = format!("{} module written, 100,000 entries", name(format));
        report.versus(&what, &mut state, &Written::whole, &Written::copy_and_build);
    }
    growth(report);
}

fn growth(report: &mut Report) {
    report.growth(
        "growth: modules written, time for one MiB",
        &MIB.map(|n| format!("{n} MiB")),
    );
    for format in FORMATS {
        let mut states = MIB.map(|n| Written::mib(format, n));
        let times = each(report, &mut states, &Written::whole);
        report.grown(name(format), &times, &MIB.map(|n| n as f64));
    }
    report.growth(
        "growth: modules written, 7 imports to 10 entries, time for one entry",
        &ENTRIES.map(|n| format!("{},000", n / 1000)),
    );
    for format in FORMATS {
        let mut states = ENTRIES.map(|n| Written::new(format, 8 * n, n));
        let times = each(report, &mut states, &Written::whole);
        report.grown(name(format), &times, &ENTRIES.map(|n| n as f64));
    }
}

/// The same work on several states, by turns.
fn each<S, const N: usize>(report: &Report, states: &mut [S; N], work: Work<S>) -> [f64; N] {
    let works: [_; N] = std::array::from_fn(|n| move |all: &mut [S; N]| work(&mut all[n]));
    by_turns(report.time, states, works.each_ref().map(|one| one as Work<[S; N]>))
}
