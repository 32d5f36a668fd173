//! Builds, moves and S-records against the least that any program must do.

use crate::common::plain::{Build, Move};
use crate::common::records::measure;
use crate::common::turns::by_turns;
use crate::report::{name, Report};
use crate::FORMATS;

pub fn rows(report: &mut Report) {
    builds(report);
    moves(report);
    records(report);
}

fn builds(report: &mut Report) {
    report.against("memcpy and memset of the same bytes");
    for format in FORMATS {
        let bits = name(format);
        for (what, data, bss) in [("16 MB", 16_000_000, 0), ("8 MB and 8 MB of bss", 8_000_000, 8_000_000)] {
            let mut state = Build::new(format, data, bss);
            state.whole();
            let built = state.data.clone();
            state.data.fill(1);
            state.copy();
            assert!(state.data == built);
            let what = format!("{bits} build, {what}");
            report.versus(&what, &mut state, &Build::whole, &Build::copy);
        }
    }
}

fn moves(report: &mut Report) {
    report.against("the same loop in plain Rust, which judges nothing");
    for format in FORMATS {
        let bits = name(format);
        let mut state = Move::new(format);
        state.whole();
        state.plain();
        assert!(state.same());
        let works = [&Move::judge as _, &Move::whole as _, &Move::plain as _];
        let [judge, whole, plain] = by_turns(report.time, &mut state, works);
        report.row(&format!("{bits} move, 4,096 entries"), whole, plain);
        report.row(
            &format!("{bits} the same without the module check"),
            whole - judge,
            plain,
        );
    }
}

fn records(report: &mut Report) {
    let (written, read) = (
        "XCOFF32 records written, 16 MiB of images",
        "XCOFF32 records read, 16 MiB of images",
    );
    let times = measure(report.time);
    report.row(written, times.write, times.plain_write);
    report.row(read, times.read, times.plain_read);
    report.against("memcpy of the record text");
    report.row(written, times.write, times.copy);
    report.row(read, times.read, times.copy);
}
