//! The command `salvage`: what it writes and says, what it refuses, and what it leaves alone then.

mod command_runner;

use command_runner::{real, rows, tests_folder, without_room, Folder, Ran};
use std::fs::{self, File};
use std::time::{Duration, Instant};

/// A real module with three fields of two symbols overwritten: the name of symbol 48, section, type, class and auxiliaries
/// of symbol 56.
fn damaged() -> Vec<u8> {
    let mut file = real("exe-imports-32");
    file[2298..2306].fill(b'z');
    file[2450..2460].fill(b'z');
    file
}

const LISTED: &str = "\
index  refused     field     offset  was         now   means          name
   48  NAME        n_offset    2298  2054847098  0     empty-name     \"\"
   56  AUX         n_numaux    2455  122         3     what-is-left   exactly8
   56  SECTION     n_scnum     2450  31354       0     no-section     exactly8

";
const DONE: &str = "3 changes in 2 symbols; the walk reads 29 symbols, up to the table's end\n";

fn bench() -> Folder {
    let folder = Folder::new();
    folder.write("card", &damaged());
    folder
}

fn words(line: &str) -> Vec<&str> {
    line.split(' ').collect()
}

#[test]
fn each_change_is_said_and_the_copy_is_whole() {
    let folder = bench();
    let out = folder.done(&words("salvage card -o copy --report report"));
    let wrote = "wrote copy (2631 bytes) and report (24 bytes): ";
    assert_eq!(out, format!("{LISTED}{wrote}{DONE}"));
    let salvaged = xcoff::salvage(&damaged()).unwrap();
    assert_eq!(folder.read("copy"), salvaged.copy);
    assert_eq!(
        folder.read("report"),
        [0, 0, 0, 48, 0, 0, 0, 10, 0, 0, 0, 56, 0, 0, 0, 9, 0, 0, 0, 56, 0, 0, 0, 11]
    );
    assert_eq!(folder.read("card"), damaged(), "the file itself stays");
    assert_eq!(
        folder.names(),
        ["card", "copy", "report"],
        "nothing else is left"
    );

    // The listing stops in the file and not in the copy, which salvages as it is.
    assert_eq!(folder.run(&["symbols", "card"]).status, Some(1));
    let listing = folder.done(&["symbols", "copy"]);
    assert_eq!(rows(&listing, "index").len(), 29);
    let out = folder.done(&words("salvage copy -o again"));
    assert_eq!(
        out,
        "wrote again (2631 bytes): no change, it is the file as it was; \
         the walk reads 29 symbols, up to the table's end\n"
    );
    assert_eq!(folder.read("again"), folder.read("copy"));
}

#[test]
fn without_a_report_only_the_copy_is_written() {
    let folder = bench();
    folder.write("copy", b"an older one");
    let out = folder.done(&words("salvage card -o copy"));
    assert_eq!(out, format!("{LISTED}wrote copy (2631 bytes): {DONE}"));
    assert_eq!(folder.names(), ["card", "copy"]);
    assert_eq!(folder.read("copy").len(), 2631);
}

#[test]
fn json_has_the_copy_and_each_change() {
    let folder = bench();
    let out = folder.done(&words("salvage card -o copy --json"));
    let lines: Vec<&str> = out.lines().collect();
    assert_eq!(
        lines,
        [
            r#"{"table":"copy","path":"copy","size":2631,"changes":3,"changed":2,"symbols":29}"#,
            r#"{"table":"changes","index":48,"refused":10,"field":"n_offset","offset":2298,"was":"2054847098","now":"0","means":"empty-name","name":""}"#,
            r#"{"table":"changes","index":56,"refused":9,"field":"n_numaux","offset":2455,"was":"122","now":"3","means":"what-is-left","name":"exactly8"}"#,
            r#"{"table":"changes","index":56,"refused":11,"field":"n_scnum","offset":2450,"was":"31354","now":"0","means":"no-section","name":"exactly8"}"#,
        ]
    );
    folder.copy("shr-junktype-32");
    let out = folder.done(&words("salvage shr-junktype-32 -o copy --force --json"));
    let first = out.lines().nth(1).unwrap();
    assert!(first.contains(r#""refused":30,"field":"n_type","offset":1248,"was":"5d5d","now":"0d5d","means":"no-visibility""#), "{first}");
}

/// A name is bytes of the file, and no section number is negative but -1 and -2.
#[test]
fn names_and_numbers_are_shown_as_listings_show_them() {
    let folder = Folder::new();
    let mut file = real("exe-imports-32");
    let entry = 1430 + 18 * 56;
    file[entry..entry + 8].copy_from_slice(b"a\x1b[2J \"\\");
    file[entry + 12..entry + 14].copy_from_slice(&[0x80, 0]);
    folder.write("card", &file);
    let out = folder.done(&words("salvage card -o copy"));
    let row = &rows(&out, "index")[0];
    assert_eq!(
        row[..6],
        ["56", "SECTION", "n_scnum", "2450", "-32768", "0"]
    );
    assert_eq!(row[7], r"a\x1b[2J\x20\x22\\");
}

/// Of every real file the copy is listed to its end.
#[test]
fn every_real_file_is_salvaged() {
    let folder = Folder::new();
    let mut salvaged = 0;
    for entry in fs::read_dir(tests_folder().join("corpus")).unwrap() {
        let path = entry.unwrap().path();
        let name = path.file_name().unwrap().to_str().unwrap();
        if !path.is_file() || name.ends_with(".txt") || name.ends_with(".md") {
            continue;
        }
        let file = fs::read(&path).unwrap();
        folder.write("file", &file);
        let ran = folder.run(&words("salvage file -o copy --force"));
        let opened = xcoff::open(&file);
        assert_eq!(
            ran.status,
            Some(opened.is_err().into()),
            "{name}: {}",
            ran.err
        );
        if opened.is_ok() {
            folder.done(&["symbols", "copy"]);
            salvaged += 1;
        }
    }
    assert!(salvaged > 100, "{salvaged} files");
}

// ---- what is refused

#[test]
fn what_does_not_open_is_refused_and_nothing_is_written() {
    let folder = bench();
    folder.write("copy", b"older");
    folder.write("no", b"\x01\xE0 no such magic number");
    let err = "xcoff: no: refused 2 0 0: MAGIC, the file starts with neither 01DF nor 01F7\n";
    let ran = folder.run(&words("salvage no -o copy --report report"));
    assert!(ran.err.starts_with(err), "{}", ran.err);
    assert_eq!((ran.status, ran.out.as_str()), (Some(1), ""));
    let mut file = damaged();
    file[92 + 36..92 + 40].fill(0x55);
    folder.write("card", &file);
    let ran = folder.run(&words("salvage card -o copy"));
    let start = "xcoff: card: refused 4 1 92: KIND, the flags of section 1 are not allowed\n  \
                 header of section 1: 40 bytes at offset 92\n";
    assert!(ran.err.starts_with(start), "{}", ran.err);
    assert_eq!((ran.status, ran.out.as_str()), (Some(1), ""));
    assert_eq!(folder.read("copy"), b"older");
    assert_eq!(folder.names(), ["card", "copy", "no"]);
}

#[test]
fn parts_that_share_bytes_are_named() {
    let folder = Folder::new();
    let path = tests_folder().join("lister/ok-symbols-over-headers-32.xcoff");
    folder.write("card", &fs::read(path).unwrap());
    let ran = folder.run(&words("salvage card -o copy"));
    let lines: Vec<&str> = ran.err.lines().collect();
    assert_eq!(
        lines[0],
        "xcoff: card: refused 29 0 0: SHARED, parts of the file that must be apart share bytes"
    );
    assert!(
        lines[1].starts_with("  header area (offset 0, "),
        "{}",
        ran.err
    );
    assert!(
        lines[1].contains(" bytes) and symbol table (offset "),
        "{}",
        ran.err
    );
    assert_eq!((ran.status, lines.len()), (Some(1), 2));
    assert_eq!(folder.names(), ["card"]);
}

/// A copy may be another card's, and looks like any other file: it is replaced on demand only.
#[test]
fn another_xcoff_file_is_replaced_with_force_only() {
    let folder = bench();
    folder.copy("shr-junktype-32");
    let old = folder.read("shr-junktype-32");
    let line = "salvage card -o shr-junktype-32 --report report";
    let kept = "is an XCOFF file and would be replaced by";
    folder.fails(
        &words(line),
        1,
        &format!("xcoff: shr-junktype-32 {kept} a copy of another; nothing is changed (--force replaces it)\n"),
    );
    folder.fails(
        &words("salvage card -o copy --report shr-junktype-32"),
        1,
        &format!(
            "xcoff: shr-junktype-32 {kept} a report; nothing is changed (--force replaces it)\n"
        ),
    );
    assert_eq!(folder.read("shr-junktype-32"), old);
    assert_eq!(folder.names(), ["card", "shr-junktype-32"]);
    folder.done(&words(&format!("{line} --force")));
    assert_eq!(folder.read("shr-junktype-32").len(), 2631);
}

#[test]
fn a_copy_over_the_file_makes_no_sense() {
    let folder = bench();
    folder.misused(
        &words("salvage card -o card"),
        "xcoff: salvage: FILE and COPY are the same file, card",
    );
    folder.misused(
        &words("salvage card -o copy --report card"),
        "xcoff: salvage: FILE and REPORT are the same file, card",
    );
    folder.misused(
        &words("salvage card -o copy --report ./copy"),
        "xcoff: salvage: COPY and REPORT are the same file, ./copy",
    );
    folder.misused(&words("salvage card"), "xcoff: salvage: -o COPY is missing");
    folder.misused(
        &["salvage", "-o", "copy"],
        "xcoff: salvage: FILE is missing",
    );
    assert_eq!(folder.read("card"), damaged());
    assert_eq!(folder.names(), ["card"]);
}

// ---- what the system refuses

#[test]
fn a_full_disk_leaves_the_old_files() {
    let folder = bench();
    folder.write("copy", b"older copy");
    folder.write("report", b"older report");
    let ran = without_room(&folder, &words("salvage card -o copy --report report"));
    assert_eq!(ran.status, Some(3), "{}", ran.err);
    assert!(
        ran.err.starts_with("xcoff: cannot write copy: "),
        "{}",
        ran.err
    );
    assert_eq!(folder.read("copy"), b"older copy");
    assert_eq!(folder.read("report"), b"older report");
    assert_eq!(folder.names(), ["card", "copy", "report"]);
}

#[test]
fn a_report_that_cannot_be_written_leaves_the_copy_too() {
    let folder = bench();
    folder.write("copy", b"older copy");
    fs::create_dir(folder.path("report")).unwrap();
    let err = "xcoff: cannot write report: it is a directory\n";
    folder.fails(&words("salvage card -o copy --report report"), 3, err);
    assert_eq!(folder.read("copy"), b"older copy");
}

#[test]
fn what_cannot_be_printed_is_told_with_the_copy_written() {
    let folder = bench();
    let full = File::options().write(true).open("/dev/full").unwrap();
    let mut command = folder.command(&words("salvage card -o copy"));
    let ran = Ran::of(command.stdout(full).output().unwrap());
    let end = DONE.trim_end();
    assert_eq!(
        (ran.status, ran.err),
        (
            Some(3),
            format!("xcoff: wrote copy (2631 bytes): {end}; but cannot write standard output: No space left on device\n")
        )
    );
    assert_eq!(
        folder.read("copy"),
        xcoff::salvage(&damaged()).unwrap().copy
    );
}

// ---- many symbols

/// XCOFF32 headers and so many symbols, each with a bad name and a bad section: two changes each.
fn many(symbols: u32) -> Vec<u8> {
    let mut file = vec![0; 20];
    file[..2].copy_from_slice(&[0x01, 0xDF]);
    file[8..12].copy_from_slice(&20_u32.to_be_bytes());
    file[12..16].copy_from_slice(&symbols.to_be_bytes());
    for _ in 0..symbols {
        file.extend([0, 0, 0, 0, 0, 0, 0, 9, 0, 0, 0, 0, 0, 7, 0, 0, 3, 0]);
    }
    file
}

/// The largest file: close to a million symbols. A quadratic command would not end.
#[test]
fn the_largest_table_is_salvaged_in_a_moment() {
    let folder = Folder::new();
    let symbols = (16_777_216 - 20) / 18;
    folder.write("card", &many(symbols));
    let start = Instant::now();
    let out = folder.done(&words("salvage card -o copy --report report"));
    assert!(
        start.elapsed() < Duration::from_secs(20),
        "{:?}",
        start.elapsed()
    );
    let last = out.lines().last().unwrap();
    let changes = format!("{} changes in {symbols} symbols", 2 * symbols);
    assert!(last.contains(&changes), "{last}");
    assert_eq!(out.lines().count(), 2 * symbols as usize + 3);
    assert_eq!(folder.read("report").len(), 16 * symbols as usize);
}
