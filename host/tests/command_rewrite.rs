//! The command `rewrite`: what it writes and says, what it refuses, and what it leaves alone then.

mod command_runner;

use command_runner::{real, rows, sheet, tests_folder, without_room, Folder, Ran};
use std::fs::{self, File};

const M: &str = "exe-imports-32";

fn words(line: &str) -> Vec<&str> {
    line.split(' ').collect()
}

/// A module, a sheet for a card, and the images for it.
fn bench() -> Folder {
    let folder = Folder::new();
    folder.copy(M);
    let plan =
        "plan exe-imports-32 --text 10000 --data 80000 --import errno=fff01200 --recorded -o sheet";
    folder.done(&words(plan));
    folder.done(&words("build exe-imports-32 sheet -o text data"));
    folder
}

const WROTE: &str = "wrote new (2631 bytes): text 00010000-0001009f, data 00080000-0008009f, \
                     1 of 6 imports moved; entry 00080030, TOC 00080040\n";

#[test]
fn the_written_file_is_the_module_at_the_sheets_addresses() {
    let folder = bench();
    let out = folder.done(&words("rewrite exe-imports-32 sheet -o new"));
    assert_eq!(out, WROTE);
    let names = ["data", M, "new", "sheet", "text"];
    assert_eq!(folder.names(), names, "nothing else is left");
    assert_eq!(folder.read(M), real(M), "the file itself stays");

    let headers = folder.done(&["headers", "new"]);
    let addresses: Vec<&str> = rows(&headers, "section").iter().map(|row| row[2]).collect();
    // The loader section's own address is left alone.
    assert_eq!(addresses, ["00010000", "00080000", "00080060", "20000240"]);
    let imports = folder.done(&["imports", "new"]);
    assert_eq!(rows(&imports, "index")[0][1], "fff01200");
    // Its plan, without a word about addresses, is the sheet's, and its images are.
    folder.done(&words("plan new --recorded -o own"));
    folder.done(&words("check new own text data"));
    folder.done(&words("build new own -o text2 data2"));
    folder.done(&words("check exe-imports-32 sheet text2 data2"));
    // Back for the addresses of the first file it is that file.
    folder.done(&words("plan exe-imports-32 --recorded -o first"));
    folder.done(&words("rewrite new first -o back"));
    assert_eq!(folder.read("back"), real(M));
}

/// Sheets that were made for the first module are for the moved one too, and are not warned of.
#[test]
fn sheets_of_the_first_module_are_for_the_moved_one() {
    let folder = bench();
    folder.done(&words("rewrite exe-imports-32 sheet -o new"));
    folder.done(&words("plan new --recorded -o own"));
    for (module, sheet) in [("new", "sheet"), ("new", "own"), (M, "sheet")] {
        let line = format!("build {module} {sheet} -o t d");
        folder.done(&words(&line));
        folder.done(&words(&format!("check {module} {sheet} text data")));
    }
}

#[test]
fn an_older_file_is_replaced() {
    let folder = bench();
    folder.write("new", b"older");
    assert_eq!(
        folder.done(&words("rewrite exe-imports-32 sheet -o new")),
        WROTE
    );
    assert_eq!(folder.read("new").len(), 2631);
}

/// Every module that ld linked at two places, written for the other place.
#[test]
fn every_pair_is_written_for_its_other_place() {
    let folder = Folder::new();
    for entry in fs::read_dir(tests_folder().join("pairs")).unwrap() {
        let name = entry.unwrap().file_name().into_string().unwrap();
        let other = match name.contains(".a-") {
            true => name.replace(".a-", ".b-"),
            false => name.replace(".b-", ".a-"),
        };
        folder.write("one", &real(&name));
        folder.write("other", &real(&other));
        folder.done(&words("plan other --recorded -o sheet"));
        // The sheet has the other's recorded values: whether that is warned of is not looked at here.
        let ran = folder.run(&words("rewrite one sheet -o new --force"));
        assert_eq!(ran.status, Some(0), "{name}: {}", ran.err);
        let listing = |file| folder.done(&["module", file]);
        assert_eq!(listing("new"), listing("other"), "{name}");
        let entries = |file| folder.done(&["relocations", file]);
        assert_eq!(entries("new"), entries("other"), "{name}");
    }
}

#[test]
fn addresses_of_xcoff64_have_16_digits() {
    let folder = Folder::new();
    folder.copy("exe-imports-64");
    folder.done(&words(
        "plan exe-imports-64 --text 900000000000000 --data 900000010000000 --recorded -o sheet",
    ));
    let out = folder.done(&words("rewrite exe-imports-64 sheet -o new"));
    let start = "wrote new (3270 bytes): text 0900000000000000-09000000000000bf, data 0900000010000000-09000000100000e7, \
                 0 of 6 imports moved; entry ";
    assert!(out.starts_with(start), "{out}");
}

// ---- what is refused

#[test]
fn a_sheet_that_does_not_fit_is_named() {
    let folder = bench();
    folder.write("new", b"older");
    folder.write("short", &sheet(0, 0, &[0; 8]));
    folder.write("high", &sheet(0xffff_ff61, 0, &[0; 9]));
    for (sheet, text) in [
        (
            "short",
            " (addresses: 8, loader symbols: 9): refused 20 2 0: ROOM, the list of addresses is not exactly as long as needed\n",
        ),
        (
            "high",
            " (text at ffffff61, 160 bytes): refused 19 0 0: PLAN, the text image at the plan's text address passes the end of the address space\n",
        ),
    ] {
        let line = format!("rewrite exe-imports-32 {sheet} -o new");
        let err = format!("xcoff: {sheet} for exe-imports-32{text}");
        folder.fails(&words(&line), 1, &err);
    }
    assert_eq!(folder.read("new"), b"older");
}

#[test]
fn a_file_that_is_no_module_is_refused() {
    let folder = bench();
    folder.copy("gas-stabs-32.o");
    let ran = folder.run(&words("rewrite gas-stabs-32.o sheet -o new"));
    let start = "xcoff: gas-stabs-32.o: refused 13 0 0: MODULE, ";
    assert!(ran.err.starts_with(start), "{}", ran.err);
    assert_eq!((ran.status, ran.out.as_str()), (Some(1), ""));
    assert!(!folder.path("new").exists());
}

#[test]
fn parts_that_share_bytes_are_named() {
    let folder = Folder::new();
    let mut file = real("textrel.a-32");
    folder.write("m", &file);
    folder.done(&words("plan m -o sheet"));
    // The raw data begins at the last byte of the raw text.
    let pointer = 20 + 72 + 40 + 20;
    assert_eq!(file[pointer..pointer + 4], 320_u32.to_be_bytes());
    file[pointer..pointer + 4].copy_from_slice(&319_u32.to_be_bytes());
    folder.write("m", &file);
    let err =
        "xcoff: m: refused 29 0 0: SHARED, parts of the file that must be apart share bytes\n  \
               raw text (offset 256, 64 bytes) and raw data (offset 319, 32 bytes)\n";
    folder.fails(&words("rewrite m sheet -o new"), 1, err);
    assert_eq!(folder.names(), ["m", "sheet"]);
}

/// A module is what all else is made from, and one that was written looks like any other: it is replaced on demand only.
#[test]
fn another_xcoff_file_is_replaced_with_force_only() {
    let folder = bench();
    folder.copy("exe-basic-32");
    let old = folder.read("exe-basic-32");
    let line = "rewrite exe-imports-32 sheet -o exe-basic-32";
    let err =
        "xcoff: exe-basic-32 is an XCOFF file and would be replaced by a module written back; \
               nothing is changed (--force replaces it)\n";
    folder.fails(&words(line), 1, err);
    assert_eq!(folder.read("exe-basic-32"), old);
    folder.done(&words(&format!("{line} --force")));
    assert_eq!(folder.read("exe-basic-32").len(), 2631);
}

/// Addresses that the rules accept and a bench should know of.
#[test]
fn overlaps_and_alignments_are_warned_of() {
    let folder = bench();
    let plan = "plan exe-imports-32 --text 10001 --data 10080 --recorded -o odd --force";
    assert_eq!(folder.run(&words(plan)).status, Some(0));
    let ran = folder.run(&words("rewrite exe-imports-32 odd -o new"));
    assert_eq!(ran.status, Some(0));
    assert!(
        ran.err.contains("xcoff: warning: the images overlap: "),
        "{}",
        ran.err
    );
    assert!(
        ran.err
            .contains("xcoff: warning: the text address 00010001 is not aligned"),
        "{}",
        ran.err
    );
}

#[test]
fn an_output_over_an_input_makes_no_sense() {
    let folder = bench();
    folder.misused(
        &words("rewrite exe-imports-32 sheet -o ./exe-imports-32"),
        "xcoff: rewrite: FILE and FILE2 are the same file, ./exe-imports-32",
    );
    folder.misused(
        &words("rewrite exe-imports-32 sheet -o sheet"),
        "xcoff: rewrite: SHEET and FILE2 are the same file, sheet",
    );
    folder.misused(
        &words("rewrite exe-imports-32 sheet"),
        "xcoff: rewrite: -o FILE2 is missing",
    );
    folder.misused(
        &words("rewrite exe-imports-32 -o new"),
        "xcoff: rewrite: SHEET is missing",
    );
    assert_eq!(folder.read(M), real(M));
}

// ---- what the system refuses

#[test]
fn a_full_disk_leaves_the_old_file() {
    let folder = bench();
    folder.write("new", b"older");
    let ran = without_room(&folder, &words("rewrite exe-imports-32 sheet -o new"));
    assert_eq!(ran.status, Some(3), "{}", ran.err);
    assert!(
        ran.err.starts_with("xcoff: cannot write new: "),
        "{}",
        ran.err
    );
    assert_eq!(folder.read("new"), b"older");
}

#[test]
fn what_cannot_be_printed_is_told_with_the_file_written() {
    let folder = bench();
    let full = File::options().write(true).open("/dev/full").unwrap();
    let mut command = folder.command(&words("rewrite exe-imports-32 sheet -o new"));
    let ran = Ran::of(command.stdout(full).output().unwrap());
    let line = WROTE.trim_end();
    let err = format!("xcoff: {line}; but cannot write standard output: No space left on device\n");
    assert_eq!((ran.status, ran.err), (Some(3), err));
    assert!(folder.path("new").exists());
}
