//! Whole operations against the second implementation of the rules.

use crate::common::made::{Module, Symbol};
use crate::common::orders::{module, Order};
use crate::common::plain::{Build, Move, ENTRIES};
use crate::files::{Lines, Symbols};
use crate::report::{name, Report};
use crate::FORMATS;
use std::hint::black_box;
use xcoff::{Format, Plan};

const SYMBOLS: u32 = 100_000;

pub fn rows(report: &mut Report) {
    report.against("the second implementation in Rust (host/reference)");
    for format in FORMATS {
        open(report, format, 4);
        open(report, format, 32);
        walk(report, format);
        judge(report, format);
        build(report, format);
        moved(report, format);
        line(report, format);
    }
}

fn open(report: &mut Report, format: Format, sections: u16) {
    let bits = name(format);
    let mut file = symbols(format, sections, 1);
    assert_eq!(xcoff::open(&file).unwrap().sections, u64::from(sections));
    assert_eq!(reference::open(&file).unwrap().sections.len(), usize::from(sections));
    report.versus(
        &format!("{bits} open, {sections} sections"),
        &mut file,
        &|file| {
            black_box(xcoff::open(black_box(file)).unwrap());
        },
        &|file| {
            black_box(reference::open(black_box(file)).unwrap());
        },
    );
}

fn line(report: &mut Report, format: Format) {
    let count = 1_000_000;
    let mut file = Lines { format, count }.bytes();
    let found = xcoff::find_line(&file, 1, u64::MAX).unwrap().entry;
    assert_eq!(reference::find_line(&file, 1, u64::MAX).unwrap().entry, found);
    report.versus(
        &format!("{} line of an address, 1,000,000 entries", name(format)),
        &mut file,
        &|file| {
            black_box(xcoff::find_line(black_box(file), 1, u64::MAX).unwrap());
        },
        &|file| {
            black_box(reference::find_line(black_box(file), 1, u64::MAX).unwrap());
        },
    );
}

fn walk(report: &mut Report, format: Format) {
    let bits = name(format);
    let mut file = symbols(format, 4, SYMBOLS);
    let visited = u64::from(SYMBOLS);
    assert_eq!(xcoff::walk(&file).unwrap().visited, visited);
    assert_eq!(reference::walk(&file).unwrap().visited, visited);
    report.versus(
        &format!("{bits} walk over 100,000 symbols"),
        &mut file,
        &|file| {
            black_box(xcoff::walk(black_box(file)).unwrap());
        },
        &|file| {
            black_box(reference::walk(black_box(file)).unwrap());
        },
    );
}

/// Entries in two orders, then loader symbols.
fn judge(report: &mut Report, format: Format) {
    let bits = name(format);
    for order in [Order::Ascending, Order::Random] {
        let mut file = module(format, ENTRIES, 8 * ENTRIES, order);
        let what = format!("{bits} module check, 4,096 entries {}", order.word());
        judge_one(report, &what, &mut file);
    }
    let mut m = Module::new(format);
    m.symbols = vec![Symbol::Data; 4096];
    let what = format!("{bits} module check, 4,096 loader symbols");
    judge_one(report, &what, &mut m.bytes());
}

fn judge_one(report: &mut Report, what: &str, file: &mut Vec<u8>) {
    let (ours, other) = (xcoff::module(file).unwrap(), reference::module(file).unwrap());
    assert_eq!(
        (ours.symbols, ours.relocations),
        (other.loader_symbols, other.relocations)
    );
    report.versus(
        what,
        file,
        &|file| {
            black_box(xcoff::module(black_box(file)).unwrap());
        },
        &|file| {
            black_box(reference::module(black_box(file)).unwrap());
        },
    );
}

fn build(report: &mut Report, format: Format) {
    let bits = name(format);
    let mut state = Build::new(format, 16_000_000, 0);
    let mut other = state.data.clone();
    state.whole();
    reference::build(&state.file, &plan(&state.plan), &mut state.text, &mut other).unwrap();
    assert!(state.data == other);
    report.versus(&format!("{bits} build, 16 MB"), &mut state, &Build::whole, &|s| {
        let plan = plan(&s.plan);
        black_box(reference::build(&s.file, &plan, &mut s.text, &mut s.data).unwrap());
    });
    let mut state = Move::new(format);
    let what = format!("{bits} build, 4,096 entries");
    report.versus(
        &what,
        &mut state,
        &|s| {
            black_box(xcoff::build_images(&s.file, &s.to, &mut s.text, &mut s.data).unwrap());
        },
        &|s| {
            let plan = plan(&s.to);
            black_box(reference::build(&s.file, &plan, &mut s.text, &mut s.data).unwrap());
        },
    );
}

fn moved(report: &mut Report, format: Format) {
    let mut state = Move::new(format);
    let mut other = state.data.clone();
    state.whole();
    let (from, to) = (plan(&state.from), plan(&state.to));
    reference::move_images(&state.file, &from, &to, &mut state.text, &mut other).unwrap();
    assert!(state.data == other);
    let what = format!("{} move, 4,096 entries", name(format));
    report.versus(&what, &mut state, &Move::whole, &|s| {
        let (from, to) = (plan(&s.from), plan(&s.to));
        black_box(reference::move_images(&s.file, &from, &to, &mut s.text, &mut s.data).unwrap());
    });
}

fn symbols(format: Format, sections: u16, count: u32) -> Vec<u8> {
    Symbols {
        format,
        sections,
        count,
        csects: true,
    }
    .bytes()
}

/// The same plan; its list is empty, so that nothing is allocated.
fn plan(plan: &Plan) -> reference::Plan {
    reference::Plan {
        text: plan.text,
        data: plan.data,
        list: plan.list.clone(),
    }
}
