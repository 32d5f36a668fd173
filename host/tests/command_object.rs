//! Object files before linking: `xcoff object`, `xcoff place` and `xcoff place-move`.

mod command_runner;

use command_runner::{real, rows, tests_folder, without_room, Folder};
use std::fs;
use std::os::unix::fs::PermissionsExt;
use std::process::Command;

/// Real files by gas: every sort of entry, two on one field, text, data and bss.
const OBJECT: &str = "gas-objpair-32.o";
const WIDE: &str = "gas-objpair-64.o";

const ONE: [&str; 6] = ["--at", "1=10000", "--at", "2=80000", "--at", "3=0x80400"];
const TWO: [&str; 6] = ["--at", "1=40000", "--at", "2=c0000", "--at", "3=c0400"];

fn bench() -> Folder {
    let folder = Folder::new();
    folder.copy(OBJECT);
    folder.copy(WIDE);
    folder
}

fn with<'a>(first: &[&'a str], more: &[&'a str]) -> Vec<&'a str> {
    [first, more].concat()
}

/// `--at` as another option.
fn as_option<'a>(option: &'a str, places: &[&'a str]) -> Vec<&'a str> {
    let renamed = |word: &&'a str| if *word == "--at" { option } else { word };
    places.iter().map(renamed).collect()
}

/// A move from the one plan to the other.
fn moving<'a>(from: &[&'a str], to: &[&'a str], rest: &[&'a str]) -> Vec<&'a str> {
    let (from, to) = (as_option("--from", from), as_option("--to", to));
    [&["place-move", OBJECT], &from[..], &to[..], rest].concat()
}

/// The folder with the images of both plans, `one` and `two`.
fn placed() -> Folder {
    let folder = bench();
    for (places, out) in [(ONE, "one"), (TWO, "two")] {
        folder.done(&with(&with(&["place", OBJECT], &places), &["-o", out]));
    }
    folder
}

// ---- listing

#[test]
fn tables_and_entries_are_listed_by_section() {
    let folder = bench();
    let out = folder.done(&["object", OBJECT]);
    assert_eq!(rows(&out, "format"), [["XCOFF32", "3", "24", "112"]]);
    let sections = rows(&out, "section");
    assert_eq!(
        sections[1],
        ["2", "data", "00000040", "48", "64", "390", "13", "11", ".data"]
    );
    assert_eq!(
        sections[2],
        ["3", "bss", "00000070", "16", "-", "-", "-", "-", ".bss"]
    );
    let entries = rows(&out, "entry");
    assert_eq!(entries.len(), 24);
    assert_eq!(
        entries[0],
        ["0", "1", "00000000", "-", "-", "00", "REF", "16", "2", "p_keep"]
    );
    assert_eq!(
        entries[3],
        ["3", "1", "00000008", "8", "26", "19", "BA", "10", "1", ".p_three"]
    );
    assert_eq!(
        entries[23],
        ["23", "2", "0000006c", "108", "32", "1f", "NEG", "16", "2", "p_keep"]
    );
    let only = folder.done(&["object", OBJECT, "--section", "2"]);
    assert_eq!(rows(&only, "entry"), entries[11..]);
    let wide = folder.done(&["object", WIDE, "--json", "--section", "1"]);
    let lines: Vec<&str> = wide.lines().collect();
    assert_eq!(
        lines[0],
        "{\"table\":\"object\",\"format\":\"XCOFF64\",\"sections\":3,\"entries\":24,\"image\":144}"
    );
    assert!(lines[3].contains("\"kind\":\"bss\"") && lines[3].contains("\"offset\":null"));
    assert!(
        lines[4].contains("\"type\":15,\"symbol\":16,\"with\":2,\"name\":\"p_keep\""),
        "{}",
        lines[4]
    );
    assert!(
        lines[5].contains("\"bits\":26,\"size\":\"99\",\"type\":10"),
        "{}",
        lines[5]
    );
}

/// A symbol that moves with no section, and one at an auxiliary entry, which the walk does not visit.
#[test]
fn symbols_are_named_wherever_the_entry_finds_them() {
    let folder = bench();
    let mut file = folder.copy("gas-branches-32.o");
    let out = folder.done(&["object", "gas-branches-32.o"]);
    let entries = rows(&out, "entry");
    assert_eq!(entries[2][6..], ["BR", "16", "-", ".outside"]);
    let visited: Vec<u64> = {
        let table = xcoff::symbol_table(&file).unwrap();
        table.rows().map(|row| row.index).collect()
    };
    let count = reference::open(&file).unwrap().symbols;
    let reads = |i: &u64| !visited.contains(i) && reference::symbol(&file, *i).is_ok();
    let hidden = (0..count)
        .find(reads)
        .expect("an auxiliary entry that reads");
    let table = xcoff::object_sections(&file).unwrap()[0].table as usize;
    file[table + 24..table + 28].copy_from_slice(&(hidden as u32).to_be_bytes());
    folder.write("hidden.o", &file);
    let name = xcoff::symbol_name(&file, hidden).unwrap();
    let out = folder.done(&["object", "hidden.o", "--json"]);
    let found = out
        .lines()
        .find(|line| line.contains("\"entries\",\"entry\":2,"));
    assert!(
        found.unwrap().contains(&format!("\"symbol\":{hidden},")),
        "{out}"
    );
    assert!(name.is_empty() || out.contains(&String::from_utf8_lossy(name).into_owned()));
}

#[test]
fn what_is_no_text_or_data_section_has_no_entries() {
    let folder = bench();
    for n in ["0", "3", "4", "18446744073709551615"] {
        let err = format!(
            "xcoff: {OBJECT}: refused 8 {n} 0: INDEX, there is no text or data section {n}\n"
        );
        folder.fails(&["object", OBJECT, "--section", n], 1, &err);
    }
    folder.misused(
        &["object", OBJECT, "--section", "x"],
        "xcoff: object: --section: x is not a decimal number of at most 64 bits",
    );
}

// ---- placing

#[test]
fn sections_are_placed_end_to_end() {
    let folder = bench();
    let out = folder.done(&with(&with(&["place", OBJECT], &ONE), &["-o", "image"]));
    assert_eq!(
        out,
        "placed image (112 bytes): section 1 text 00010000-0001003f, 2 data 00080000-0008002f, \
         3 bss 00080400-0008040f; 24 relocation entries\n"
    );
    let file = real(OBJECT);
    let mut built = vec![0; 112];
    reference::object_build(&file, &[0x10000, 0x80000, 0x80400], &mut built).unwrap();
    assert_eq!(folder.read("image"), built);
    let out = folder.done(&with(
        &with(&["place", OBJECT], &ONE),
        &["-o", "image", "--json"],
    ));
    let lines: Vec<&str> = out.lines().collect();
    assert_eq!(
        lines[0],
        "{\"table\":\"image\",\"path\":\"image\",\"size\":112,\"entries\":24}"
    );
    assert_eq!(
        lines[2],
        "{\"table\":\"placed\",\"section\":2,\"kind\":\"data\",\"offset\":64,\"size\":48,\
         \"address\":\"00080000\",\"last\":\"0008002f\"}"
    );
    assert!(lines[3].contains("\"kind\":\"bss\",\"offset\":null,\"size\":16"));
}

/// The bytes are those that GNU ld made of the object file at the same addresses.
#[test]
fn the_image_is_what_gnu_ld_makes() {
    let folder = bench();
    for (name, bits) in [(OBJECT, 32), (WIDE, 64)] {
        let linked = tests_folder().join(format!("corpus/placed/obj-mid.b-{bits}"));
        fs::copy(&linked, folder.path("linked")).unwrap();
        let headers = folder.done(&["headers", "linked"]);
        let own = rows(&headers, "section");
        let row = |kind: &str| own.iter().find(|row| row[1] == kind).unwrap();
        let at = ["text", "data", "bss"].map(|kind| row(kind)[2]);
        let places = [1, 2, 3].map(|n| format!("{n}={}", at[n - 1]));
        let mut words = vec!["place", name, "-o", "image"];
        places
            .iter()
            .for_each(|place| words.extend(["--at", place]));
        folder.done(&words);
        let bytes = folder.read("linked");
        let raw = |kind: &str| {
            let [size, offset] = [4, 5].map(|n| row(kind)[n].parse::<usize>().unwrap());
            bytes[offset..offset + size].to_vec()
        };
        assert_eq!(
            folder.read("image"),
            [raw("text"), raw("data")].concat(),
            "{name}"
        );
    }
}

#[test]
fn every_section_needs_an_address() {
    let folder = bench();
    let more = "xcoff: give each by --at N=HEX; --recorded takes the recorded addresses\n";
    let err = format!(
        "xcoff: image is not written: 2 of 3 sections of {OBJECT} have no address: \
         2 data .data (recorded 00000040), 3 bss .bss (recorded 00000070)\n{more}"
    );
    folder.fails(
        &["place", OBJECT, "--at", "1=10000", "-o", "image"],
        1,
        &err,
    );
    let err = format!(
        "xcoff: image is not written: 1 of 3 sections of {OBJECT} have no address: 3 bss .bss (recorded 00000070)\n{more}"
    );
    folder.fails(
        &[
            "place", OBJECT, "--at", "1=0", "--at", "2=40", "-o", "image",
        ],
        1,
        &err,
    );
    assert!(!folder.path("image").exists());
    // All as recorded: the file's own bytes.
    folder.done(&["place", OBJECT, "--recorded", "-o", "image"]);
    let file = real(OBJECT);
    let raw = |header: usize| {
        let number = |at: usize| u32::from_be_bytes(file[at..at + 4].try_into().unwrap()) as usize;
        file[number(header + 20)..][..number(header + 16)].to_vec()
    };
    let opthdr = usize::from(u16::from_be_bytes(file[16..18].try_into().unwrap()));
    let headers = 20 + opthdr;
    assert_eq!(
        folder.read("image"),
        [raw(headers), raw(headers + 40)].concat()
    );
}

#[test]
fn places_that_make_no_sense_are_told() {
    let folder = bench();
    let place = |at: &str| {
        vec!["place", OBJECT, "--recorded", "-o", "image", "--at", at]
            .iter()
            .map(|s| s.to_string())
            .collect::<Vec<_>>()
    };
    for (at, what) in [
        (
            "10000",
            "--at 10000: it is not N=HEX, a section's number and its address",
        ),
        (
            "=10000",
            "--at =10000: it is not N=HEX, a section's number and its address",
        ),
        (
            ".text=10000",
            "--at .text=10000: it is not N=HEX, a section's number and its address",
        ),
        (
            "1=",
            "--at: '' is not a hexadecimal number of at most 64 bits",
        ),
        (
            "1=10g",
            "--at: 10g is not a hexadecimal number of at most 64 bits",
        ),
        (
            "0=10",
            "--at 0=10: gas-objpair-32.o has no section 0, it has 3",
        ),
        (
            "4=10",
            "--at 4=10: gas-objpair-32.o has no section 4, it has 3",
        ),
    ] {
        let words = place(at);
        let words: Vec<&str> = words.iter().map(String::as_str).collect();
        folder.misused(&words, &format!("xcoff: place: {what}"));
    }
    folder.misused(
        &[
            "place",
            OBJECT,
            "--at",
            "1=0",
            "--at",
            "1=4",
            "--recorded",
            "-o",
            "image",
        ],
        "xcoff: place: --at: section 1 is given twice",
    );
    let debug = "gas-stabs-32.o";
    folder.copy(debug);
    let out = folder.done(&["object", debug]);
    let own = rows(&out, "section");
    let n = own.iter().find(|row| row[1] == "debug").unwrap()[0].to_string();
    let at = format!("{n}=0");
    folder.misused(
        &["place", debug, "--recorded", "--at", &at, "-o", "image"],
        &format!(
            "xcoff: place: --at {at}: section {n} is debug: only text, data and bss have addresses"
        ),
    );
    folder.misused(
        &["place", OBJECT, "--recorded", "-o", OBJECT],
        &format!("xcoff: place: FILE and IMAGE are the same file, {OBJECT}"),
    );
    assert!(!folder.path("image").exists());
}

#[test]
fn a_section_past_the_end_and_a_branch_out_of_range_are_refused() {
    let folder = bench();
    let at = |one: &'static str, two: &'static str| {
        [
            "place", OBJECT, "--at", one, "--at", two, "--at", "3=0", "-o", "image",
        ]
    };
    folder.fails(
        &at("1=0", "2=fffffff0"),
        1,
        "xcoff: gas-objpair-32.o (section 2 (data) at fffffff0, 48 bytes): refused 19 2 0: PLAN, section 2 at the plan's \
         address passes the end of the address space\n",
    );
    folder.fails(
        &at("1=100000000", "2=0"),
        1,
        "xcoff: gas-objpair-32.o (section 1 (text) at 100000000, 64 bytes): refused 19 1 0: PLAN, section 1 at the plan's \
         address passes the end of the address space\n",
    );
    folder.fails(
        &at("1=100", "2=8000000"),
        1,
        "xcoff: gas-objpair-32.o at 1=00000100 2=08000000 3=00000000: refused 25 5 330: RANGE, the branch of relocation \
         entry 5 would leave -33,554,432 to 33,554,428, or be off a step of 4
  relocation entry 5: 10 bytes at offset 330
  0000014a  00 00 00 14 00 00 00 0c 99 0a
  field     offset  value
  r_vaddr      330  00000014
  r_symndx     334  12
  r_rsize      338  99
  r_rtype      339  0a
  entry 5 is in section 1 (text): the branch at address 00000014, 00000114 in the plan, to symbol 12 in_data: \
         the word 4800002d has the value 44, and would have 134217452\n",
    );
    // Off a step of 4, by two entries on two words: the lowest is named.
    let ran = folder.run(&at("1=102", "2=80000"));
    assert_eq!(ran.status, Some(1));
    assert!(
        ran.err.contains(": refused 25 3 310: RANGE, "),
        "{}",
        ran.err
    );
    assert!(ran.err.contains(
        "entry 3 is in section 1 (text): the branch at address 00000008, 0000010a in the plan"
    ));
    assert!(!folder.path("image").exists());
    let ran = folder.run(&[&at("1=0", "2=8000000")[..], &["--json"]].concat());
    let last = ran.out.lines().last().unwrap();
    assert!(
        last.starts_with("{\"table\":\"refusal\",\"about\":\"gas-objpair-32.o at 1=00000000 2=08000000 3=00000000\",\
            \"number\":25,\"item\":5,\"offset\":330,\"rule\":\"RANGE\",\"meaning\":\"the branch of"),
        "{last}"
    );
}

#[test]
fn a_file_that_is_no_object_file_is_refused_with_its_entry() {
    let folder = bench();
    let module = "exe-basic-32";
    folder.copy(module);
    let ran = folder.run(&["place", module, "--recorded", "-o", "image"]);
    let lines: Vec<&str> = ran.err.lines().collect();
    assert_eq!(ran.status, Some(1));
    assert_eq!(
        lines[..3],
        [
            "xcoff: exe-basic-32: refused 17 1 722: LREL, the type, width, address or symbol of relocation entry 1 is bad",
            "  relocation entry 1: 10 bytes at offset 722",
            "  000002d2  10 00 01 0e 00 00 00 0c 0f 03",
        ]
    );
    // No raw data: s_scnptr of text is 0.
    let mut file = real(OBJECT);
    let header = 20 + usize::from(u16::from_be_bytes(file[16..18].try_into().unwrap()));
    file[header + 20..header + 24].fill(0);
    folder.write("bare", &file);
    let ran = folder.run(&["object", "bare"]);
    assert!(
        ran.err.starts_with("xcoff: bare: refused 13 3 0: MODULE, a text or data section of the object file has no raw data\n"),
        "{}",
        ran.err
    );
    assert!(ran
        .err
        .contains("  section 1 is text: address 00000000, size 64, no raw data\n"));
    // A table that passes the file's end.
    let mut file = real(OBJECT);
    file[header + 24..header + 28].copy_from_slice(&[0x7F, 0, 0, 0]);
    folder.write("past", &file);
    let ran = folder.run(&["object", "past"]);
    assert!(ran.err.contains(": refused 5 1 "), "{}", ran.err);
    assert!(
        ran.err.contains("s_relptr") && ran.err.contains("s_nreloc"),
        "{}",
        ran.err
    );
    // A count that stands for one in an overflow header, which is not there.
    let mut file = real(OBJECT);
    file[header + 32..header + 34].fill(0xFF);
    folder.write("more", &file);
    let ran = folder.run(&["object", "more"]);
    assert!(
        ran.err.ends_with("  no section is its overflow header\n"),
        "{}",
        ran.err
    );
}

#[test]
fn sections_that_overlap_on_the_card_are_warned_of() {
    let folder = bench();
    let ran = folder.run(&[
        "place", OBJECT, "--at", "1=10000", "--at", "2=10030", "--at", "3=20000", "-o", "image",
    ]);
    assert_eq!(ran.status, Some(0));
    assert_eq!(
        ran.err,
        "xcoff: warning: section 1 (text) and section 2 (data) overlap: 00010030-0001003f is in both; \
         on the card one is written over the other\n"
    );
    // Side by side they do not.
    folder.done(&[
        "place", OBJECT, "--at", "1=10000", "--at", "2=10040", "--at", "3=10070", "-o", "image",
    ]);
}

// ---- moving

#[test]
fn an_image_is_moved_in_place_or_to_another_file() {
    let folder = placed();
    let out = folder.done(&moving(&ONE, &TWO, &["one", "-o", "new"]));
    assert_eq!(
        out,
        "moved new (112 bytes): section 1 text 00040000-0004003f, 2 data 000c0000-000c002f, \
         3 bss 000c0400-000c040f; 24 relocation entries\n"
    );
    assert_eq!(folder.read("new"), folder.read("two"));
    assert_ne!(folder.read("one"), folder.read("two"));
    folder.done(&moving(&ONE, &TWO, &["one"]));
    assert_eq!(folder.read("one"), folder.read("two"));
    folder.done(&moving(&TWO, &ONE, &["one", "--json"]));
    folder.done(&with(&["place", OBJECT, "-o", "fresh"], &ONE));
    assert_eq!(folder.read("one"), folder.read("fresh"));
}

#[test]
fn an_image_that_is_not_that_of_from_is_left_alone() {
    let folder = placed();
    let ran = folder.run(&moving(&ONE, &TWO, &["two"]));
    let lines: Vec<&str> = ran.err.lines().collect();
    assert_eq!((ran.status, ran.out.as_str()), (Some(1), ""));
    assert_eq!(
        lines[..5],
        [
            "xcoff: two: 16 of 21 relocated fields are not those of gas-objpair-32.o at 1=00010000 2=00080000 3=00080400; nothing is changed",
            "xcoff: this image is for 1=00040000 2=000c0000 3=000c0400, which was given by --to: it is already moved, or --from and --to are exchanged",
            "  address   offset  found     expected",
            "  00010008       8  48040037  48010037",
            "  0001000c      12  4804003a  4801003a",
        ]
    );
    assert_eq!(lines.last(), Some(&"  and 8 more"));
    let other = ["--at", "1=50000", "--at", "2=d0000", "--at", "3=d0400"];
    let ran = folder.run(&moving(&other, &ONE, &["two"]));
    assert!(
        ran.err.contains("xcoff: it is neither for 1=00050000 2=000d0000 3=000d0400 nor for 1=00010000 2=00080000 3=00080400\n"),
        "{}",
        ran.err
    );
    // Already moved, and a byte of the code changed besides.
    let mut changed = folder.read("two");
    changed[16] ^= 1;
    folder.write("changed", &changed);
    let ran = folder.run(&moving(&ONE, &TWO, &["changed"]));
    assert!(
        ran.err
            .contains("\nxcoff: the relocated fields of this image are those of 1=00040000 "),
        "{}",
        ran.err
    );
    assert_eq!(folder.read("changed"), changed);
}

#[test]
fn other_bytes_are_kept_where_that_is_asked_for() {
    let folder = placed();
    let mut changed = folder.read("one");
    changed[16] ^= 1;
    // The instruction's own bits of a branch are no part of its field.
    changed[11] ^= 2;
    folder.write("one", &changed);
    let err = "xcoff: one: 2 bytes outside the relocated fields are not the file's: 1 at 0001000b (offset 11), \
               1 at 00010010 (offset 16)";
    let more = "xcoff: the relocated fields are those of 1=00010000 2=00080000 3=00080400: --keep-changes takes the other bytes as they are\n";
    folder.fails(
        &moving(&ONE, &TWO, &["one"]),
        1,
        &format!("{err}; nothing is changed\n{more}"),
    );
    let warning = err.replacen("xcoff: ", "xcoff: warning: ", 1);
    let ran = folder.run(&moving(&ONE, &TWO, &["one", "--keep-changes"]));
    assert_eq!(
        (ran.status, ran.err),
        (Some(0), format!("{warning}; kept as found\n"))
    );
    let mut expected = folder.read("two");
    expected[16] ^= 1;
    expected[11] ^= 2;
    assert_eq!(folder.read("one"), expected);
    // Whatever it holds.
    folder.write("any", &[0xAB; 112]);
    folder.done(&moving(&ONE, &TWO, &["any", "--unchecked"]));
    let mut moved = vec![0xAB; 112];
    let lists = [[0x10000, 0x80000, 0x80400], [0x40000, 0xc0000, 0xc0400]];
    reference::object_move(&real(OBJECT), &lists[0], &lists[1], &mut moved).unwrap();
    assert_eq!(folder.read("any"), moved);
}

#[test]
fn an_image_of_another_length_and_a_plan_that_does_not_fit_are_refused() {
    let folder = placed();
    let room =
        "refused 20 0 0: ROOM, the image of the object file is not exactly as long as needed\n";
    let one = folder.read("one");
    for (bytes, length) in [
        (&one[..111], "111 bytes"),
        (&[&one[..], b"x"].concat(), "more than 112 bytes"),
    ] {
        folder.write("other", bytes);
        for checked in [&[][..], &["--unchecked"]] {
            let words = moving(&ONE, &TWO, &with(&["other"], checked));
            let err =
                format!("xcoff: other ({length}, where the image of {OBJECT} has 112): {room}");
            folder.fails(&words, 1, &err);
        }
    }
    let far = ["--at", "1=0", "--at", "2=8000000", "--at", "3=0"];
    let ran = folder.run(&moving(&ONE, &far, &["one"]));
    assert!(ran.err.starts_with("xcoff: gas-objpair-32.o at 1=00010000 2=00080000 3=00080400 to 1=00000000 2=08000000 3=00000000: refused 25 5 330: RANGE, "), "{}", ran.err);
    assert!(
        ran.err
            .ends_with(" the word 4806ffed has the value 458732, and would have 134217708\n"),
        "{}",
        ran.err
    );
    let past = ["--at", "1=0", "--at", "2=0", "--at", "3=fffffff1"];
    let ran = folder.run(&moving(&ONE, &past, &["one"]));
    assert!(
        ran.err
            .contains("(section 3 (bss) at fffffff1, 16 bytes): refused 19 3 0: PLAN, "),
        "{}",
        ran.err
    );
    assert_eq!(folder.read("one"), one);
    // An address not given, of either plan.
    let ran = folder.run(&moving(&ONE[..4], &TWO, &["one"]));
    assert!(
        ran.err.contains("xcoff: give each by --from N=HEX;"),
        "{}",
        ran.err
    );
    let ran = folder.run(&moving(&ONE, &TWO[..4], &["one"]));
    assert!(
        ran.err.contains("xcoff: give each by --to N=HEX;"),
        "{}",
        ran.err
    );
}

// ---- files

#[test]
fn files_are_replaced_whole_or_not_at_all() {
    let folder = placed();
    let before = (folder.read("one"), folder.names());
    let ran = without_room(&folder, &moving(&ONE, &TWO, &["one"]));
    assert_eq!(ran.status, Some(3));
    assert!(
        ran.err.starts_with("xcoff: cannot write one: "),
        "{}",
        ran.err
    );
    assert_eq!((folder.read("one"), folder.names()), before);
    // An XCOFF file and a sheet are not replaced by an image.
    folder.copy("exe-basic-32");
    let words = with(&["place", OBJECT, "-o", "exe-basic-32"], &ONE);
    folder.fails(
        &words,
        1,
        "xcoff: exe-basic-32 is an XCOFF file and would be replaced by an image; nothing is changed (--force replaces it)\n",
    );
    folder.done(&with(&words, &["--force"]));
    assert_eq!(folder.read("exe-basic-32"), folder.read("one"));
    // Rights are kept, a link stays.
    let path = folder.path("one");
    fs::set_permissions(&path, fs::Permissions::from_mode(0o640)).unwrap();
    std::os::unix::fs::symlink("one", folder.path("link")).unwrap();
    folder.done(&moving(&ONE, &TWO, &["link"]));
    assert_eq!(
        fs::metadata(&path).unwrap().permissions().mode() & 0o777,
        0o640
    );
    assert!(fs::symlink_metadata(folder.path("link"))
        .unwrap()
        .is_symlink());
    assert_eq!(folder.read("one"), folder.read("two"));
    folder.misused(
        &moving(&ONE, &TWO, &["one", "-o", "one"]),
        "xcoff: place-move: IMAGE and IMAGE2 are the same file, one",
    );
}

/// The folder is locked by another program that holds its lock.
#[test]
fn another_command_in_the_folder_is_waited_for() {
    let folder = placed();
    let lock = fs::File::open(folder.path("")).unwrap();
    lock.lock().unwrap();
    let err = "xcoff: one: another xcoff is at work in its folder; nothing is changed\n";
    folder.fails(&moving(&ONE, &TWO, &["one", "--no-wait"]), 3, err);
    let words = with(&["place", OBJECT, "-o", "one", "--no-wait"], &TWO);
    folder.fails(&words, 3, err);
    let waiting = folder
        .command(&moving(&ONE, &TWO, &["one"]))
        .spawn()
        .unwrap();
    std::thread::sleep(std::time::Duration::from_millis(200));
    assert_ne!(folder.read("one"), folder.read("two"));
    drop(lock);
    assert!(waiting.wait_with_output().unwrap().status.success());
    assert_eq!(folder.read("one"), folder.read("two"));
}

// ---- large files

/// An XCOFF64 file with so many text sections that share their bytes and their relocation table.
fn shared(sections: u16, bytes: u64, entries: u32) -> Vec<u8> {
    let headers = 24 + 72 * u64::from(sections);
    let (table, symbols) = (headers + bytes, headers + bytes + 14 * u64::from(entries));
    let mut file = vec![0x01, 0xF7];
    file.extend(sections.to_be_bytes());
    file.extend([0; 4]);
    file.extend(symbols.to_be_bytes());
    file.extend([0; 4]);
    file.extend(1u32.to_be_bytes());
    for _ in 0..sections {
        file.extend(b".text\0\0\0");
        file.extend([0; 16]);
        file.extend(bytes.to_be_bytes());
        file.extend(headers.to_be_bytes());
        file.extend(table.to_be_bytes());
        file.extend([0; 8]);
        file.extend(entries.to_be_bytes());
        file.extend([0; 4]);
        file.extend(0x20u32.to_be_bytes());
        file.extend([0; 4]);
    }
    file.resize((headers + bytes) as usize, 0x48);
    for i in 0..u64::from(entries) {
        let width = if i % 2 == 0 { 0x19 } else { 0x0F };
        file.extend((i * 4 % (bytes / 4 * 4)).to_be_bytes());
        file.extend([0, 0, 0, 0, width, if i % 2 == 0 { 0x08 } else { 0x0F }]);
    }
    // One symbol, in section 1, with the empty name.
    file.extend([0; 12]);
    file.extend([0, 1, 0, 0, 2, 0]);
    file
}

#[test]
fn what_a_large_image_needs_is_said_before_it_is_taken() {
    let folder = Folder::new();
    folder.write("shared.o", &shared(32, 3 << 20, 1000));
    let mut words = vec![
        "place".to_string(),
        "shared.o".into(),
        "-o".into(),
        "image".into(),
    ];
    for n in 1..=32u64 {
        words.extend(["--at".into(), format!("{n}={:x}", n << 24)]);
    }
    let words: Vec<&str> = words.iter().map(String::as_str).collect();
    // All branches are relative to nothing: they follow section 1 and stay in range below 2^25.
    let ran = folder.run(&words);
    let said = "xcoff: shared.o: 32000 relocation entries, an image of 100663296 bytes: up to 100 MiB of memory are needed\n";
    assert_eq!((ran.status, ran.err.as_str()), (Some(0), said));
    assert_eq!(
        fs::metadata(folder.path("image")).unwrap().len(),
        32 * (3 << 20)
    );
    // Where there is not so much, that is an error like any other and nothing is left behind.
    fs::remove_file(folder.path("image")).unwrap();
    let mut shell = Command::new("bash");
    shell
        .current_dir(folder.path(""))
        .args(["-c", "ulimit -v 80000; exec \"$0\" \"$@\""])
        .arg(env!("CARGO_BIN_EXE_xcoff"))
        .args(&words);
    let ran = command_runner::Ran::of(shell.output().unwrap());
    let err = "xcoff: cannot take 100663296 bytes of memory for the image of shared.o: there is not so much\n";
    assert_eq!((ran.status, ran.err), (Some(3), format!("{said}{err}")));
    assert_eq!(folder.names(), ["shared.o"]);
}
