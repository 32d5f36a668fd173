//! Builds, moves and S-records beside the least that any program must do: the raw bytes copied, the entries applied and the lines
//! written and read in plain loops.
//! Run by `cargo bench --offline`; it prints times. Each pair of figures comes from one process and the same buffers.

mod common;

use common::plain::{Build, Move, ENTRIES};
use common::records::measure;
use common::turns::by_turns;
use std::time::Duration;
use xcoff::Format;

const TIME: Duration = Duration::from_secs(2);

/// A build of nearly 16 MiB against the raw bytes copied.
fn build(format: Format) {
    let mut state = Build::new(format, 16_000_000, 0);
    let [judge, whole, copy] = by_turns(
        TIME,
        &mut state,
        [&Build::judge, &Build::whole, &Build::copy],
    );
    println!(
        "{format:?} build of 16 MB: {:.0} us, judging {:.1} us, copy {:.0} us: {:.2} whole, {:.2} without judging",
        whole / 1e3,
        judge / 1e3,
        copy / 1e3,
        whole / copy,
        (whole - judge) / copy
    );
}

/// A move of 4,096 entries against the plain loop.
fn moved(format: Format) {
    let mut state = Move::new(format);
    state.whole();
    state.plain();
    let same = state.same();
    let [judge, whole, plain] =
        by_turns(TIME, &mut state, [&Move::judge, &Move::whole, &Move::plain]);
    println!(
        "{format:?} move of {ENTRIES} entries: {:.1} us, judging {:.1} us, plain loop {:.1} us: {:.2} without judging; same bytes: {same}",
        whole / 1e3,
        judge / 1e3,
        plain / 1e3,
        (whole - judge) / plain
    );
}

/// 16 MiB of images as S-records against the plain loops, and against a copy of the record text.
fn records() {
    let t = measure(TIME);
    for (what, ours, plain) in [
        ("written", t.write, t.plain_write),
        ("read", t.read, t.plain_read),
    ] {
        println!(
            "16 MiB of images as S-records {what}: {:.2} ms, plain loop {:.2} ms: {:.2}; memcpy of the text {:.2} ms: {:.2}",
            ours / 1e6,
            plain / 1e6,
            ours / plain,
            t.copy / 1e6,
            ours / t.copy
        );
    }
}

fn main() {
    for format in [Format::Xcoff32, Format::Xcoff64] {
        build(format);
        moved(format);
    }
    records();
}
