//! From addresses to lines: `xcoff line` and `xcoff lines`.

mod command_runner;

use command_runner::{real, rows, tests_folder, Folder, Ran};
use std::io::{Read, Write};
use std::process::{Command, Stdio};

/// Real files by gas and ld with the same source: two functions, which start in lines 10 and 20 of stabs.c.
const OBJECT: &str = "gas-stabs-32.o";
const MODULE: &str = "shr-stabs-32";
const WIDE: &str = "shr-stabs-64";

fn bench() -> Folder {
    let folder = Folder::new();
    for name in [OBJECT, MODULE, WIDE] {
        folder.copy(name);
    }
    folder
}

const HEADING: &str =
    "asked     section  address   entry  relative  absolute  symbol  function          source\n";

// ---- one address

#[test]
fn an_address_has_its_function_line_and_source() {
    let folder = bench();
    for (asked, row) in [
        ("0", "00000000        1  00000000      1         1        10       7  .go               stabs.c\n"),
        ("0x12", "00000012        1  0000000c      4         5        14       7  .go               stabs.c\n"),
        ("1C", "0000001c        1  0000001c      8         2        21      23  .second_function  stabs.c\n"),
        ("23", "00000023        1  00000020      9         4        23      23  .second_function  stabs.c\n"),
    ] {
        let expected = format!("{HEADING}{row}");
        assert_eq!(folder.done(&["line", OBJECT, asked]), expected);
    }
    let out = folder.done(&["line", WIDE, "10000210", "--json"]);
    assert_eq!(
        out,
        "{\"table\":\"lines\",\"asked\":\"0000000010000210\",\"section\":1,\"address\":\"000000001000020c\",\"entry\":4,\
         \"line\":5,\"absolute\":14,\"symbol\":11,\"function\":\".go\",\"source\":\"stabs.c\"}\n"
    );
}

/// What the symbols do not say is left out, and nothing is made up for it.
#[test]
fn what_the_symbols_do_not_say_is_not_shown() {
    let folder = bench();
    let mut file = real(OBJECT);
    let symbols = u32::from_be_bytes(file[8..12].try_into().unwrap()) as usize;
    // No .bf of the first function, no source file, and of the second function no symbol.
    file[symbols + 18 * 10 + 16] = 0;
    file[symbols + 16] = 0;
    file[0x226 + 6 * 6..][..4].copy_from_slice(&[0x7F, 0, 0, 0]);
    folder.write("m", &file);
    let out = folder.done(&["line", "m", "c", "1c", "--json"]);
    let lines: Vec<&str> = out.lines().collect();
    let end = ",\"line\":5,\"absolute\":null,\"symbol\":7,\"function\":\".go\",\"source\":null}";
    assert!(lines[0].ends_with(end), "{out}");
    let end =
        ",\"line\":2,\"absolute\":null,\"symbol\":2130706432,\"function\":null,\"source\":null}";
    assert!(lines[1].ends_with(end), "{out}");
    let out = folder.done(&["line", "m", "1c"]);
    assert_eq!(
        rows(&out, "asked")[0][4..],
        ["2", "-", "2130706432", "-", "-"]
    );
}

// ---- the card's addresses

#[test]
fn with_a_sheet_addresses_are_the_cards() {
    let folder = bench();
    folder.done(&[
        "plan", MODULE, "--text", "fff01000", "--data", "80000", "-o", "s",
    ]);
    let out = folder.done(&["line", MODULE, "--sheet", "s", "fff01010", "fff0101c"]);
    let shown = rows(&out, "asked");
    assert_eq!(shown[0][..6], ["fff01010", "1", "1000014c", "4", "5", "14"]);
    assert_eq!(shown[1][..6], ["fff0101c", "1", "1000015c", "8", "2", "21"]);
    // The same as of the file's own address, but for what was asked.
    let own = folder.done(&["line", MODULE, "10000150"]);
    assert_eq!(rows(&own, "asked")[0][1..], shown[0][1..]);
    // The image has 64 bytes.
    assert!(
        folder
            .run(&["line", MODULE, "--sheet", "s", "fff0103f"])
            .status
            == Some(0)
    );
    for asked in ["fff01040", "fff00fff", "10000150", "0", "ffffffffffffffff"] {
        let shown = u64::from_str_radix(asked, 16).unwrap();
        let err = format!(
            "xcoff: {MODULE}: {shown:08x} is not in the text image of s (fff01000-fff0103f)\n"
        );
        folder.fails(&["line", MODULE, "--sheet", "s", asked], 1, &err);
        folder.fails(
            &["line", MODULE, "--sheet=s", "--section=1", asked],
            1,
            &err,
        );
    }
    // A sheet is of a module, and of this one.
    let ran = folder.run(&["line", OBJECT, "--sheet", "s", "0"]);
    assert_eq!(ran.status, Some(1));
    assert!(ran.err.contains("refused 13 0 0: MODULE"), "{}", ran.err);
    folder.copy("exe-imports-32");
    folder.done(&["plan", "exe-imports-32", "--recorded", "-o", "other"]);
    let ran = folder.run(&["line", MODULE, "--sheet", "other", "0"]);
    let err =
        "xcoff: other for shr-stabs-32 (addresses: 9, loader symbols: 3): refused 20 2 0: ROOM, ";
    assert!(
        ran.status == Some(1) && ran.err.starts_with(err),
        "{}",
        ran.err
    );
}

// ---- which section

#[test]
fn the_section_is_the_text_section_that_holds_the_address() {
    let folder = bench();
    for asked in ["10000180", "1000013f", "200001a8", "0", "110000140"] {
        let shown = u64::from_str_radix(asked, 16).unwrap();
        let err = format!("xcoff: {MODULE}: {shown:08x} is in no text section\n");
        folder.fails(&["line", MODULE, asked], 1, &err);
    }
    // Named, it need not hold the address.
    let out = folder.done(&["line", MODULE, "--section", "1", "ffffffff"]);
    assert_eq!(
        rows(&out, "asked")[0][..4],
        ["ffffffff", "1", "10000160", "9"]
    );
    let err = "xcoff: shr-stabs-32: address 1000013f in section 1: refused 31 0 0: NOLINE, \
               no entry of the line table has an address at or below the one asked for\n";
    folder.fails(&["line", MODULE, "--section", "1", "1000013f"], 1, err);
    for section in ["0", "2", "6", "18446744073709551615"] {
        let err = format!(
            "xcoff: shr-stabs-32: address 10000140 in section {section}: refused 8 {section} 0: INDEX, \
             there is no number {section} of what was asked for\n"
        );
        folder.fails(&["line", MODULE, "--section", section, "10000140"], 1, &err);
        let err = err.replace(&format!(": address 10000140 in section {section}"), "");
        folder.fails(&["lines", MODULE, "--section", section], 1, &err);
    }
}

/// Two text sections, the second at another address, each with its own table.
#[test]
fn of_two_text_sections_each_has_its_own_lines() {
    let folder = bench();
    let mut file = real(MODULE);
    // The data section becomes text, with the last four entries of the table, of the second function.
    let header = 20 + 72 + 40;
    file[header + 36..header + 40].copy_from_slice(&[0, 0, 0, 0x20]);
    file[header + 28..header + 32].copy_from_slice(&(900u32 + 36).to_be_bytes());
    file[header + 34..header + 36].copy_from_slice(&[0, 4]);
    folder.write("two", &file);
    let out = folder.done(&["line", "two", "10000150", "20000190"]);
    let shown = rows(&out, "asked");
    assert_eq!(shown[0][..4], ["10000150", "1", "1000014c", "4"]);
    assert_eq!(shown[1][..4], ["20000190", "2", "10000160", "3"]);
    let listed = folder.done(&["lines", "two"]);
    let sections: Vec<&str> = rows(&listed, "section").iter().map(|row| row[0]).collect();
    assert_eq!(sections, [["1"; 10].as_slice(), &["2"; 4]].concat());
    let second = folder.done(&["lines", "two", "--section", "2"]);
    assert_eq!(rows(&second, "section"), rows(&listed, "section")[10..]);
}

// ---- several addresses

#[test]
fn of_several_addresses_each_has_a_row() {
    let folder = bench();
    let ran = folder.run(&["line", OBJECT, "24", "8", "40"]);
    let expected = format!(
        "{HEADING}\
         00000024        -  -             -         -         -       -  -                 -\n\
         00000008        1  00000008      3         3        12       7  .go               stabs.c\n\
         00000040        -  -             -         -         -       -  -                 -\n"
    );
    assert_eq!((ran.status, ran.out.as_str()), (Some(1), expected.as_str()));
    assert_eq!(
        ran.err,
        "xcoff: gas-stabs-32.o: 00000024 is in no text section\n\
         xcoff: gas-stabs-32.o: 00000040 is in no text section\n"
    );
    let ran = folder.run(&["line", OBJECT, "24", "8", "--json"]);
    let empty = "{\"table\":\"lines\",\"asked\":\"00000024\",\"section\":null,\"address\":null,\"entry\":null,\"line\":null,\
                 \"absolute\":null,\"symbol\":null,\"function\":null,\"source\":null}";
    // The reason is an object too, below the row.
    let reason = "{\"table\":\"problem\",\"status\":1,\"text\":\"xcoff: gas-stabs-32.o: 00000024 is in no text section\"}";
    let lines: Vec<&str> = ran.out.lines().collect();
    assert_eq!((lines.len(), &lines[..2]), (3, &[empty, reason][..]));
    // A single address has no empty row.
    let ran = folder.run(&["line", OBJECT, "24", "--json"]);
    assert_eq!((ran.status, ran.out.trim_end()), (Some(1), reason));
}

/// Runs with a text on standard input.
fn fed(folder: &Folder, args: &[&str], input: &[u8]) -> Ran {
    let mut command = folder.command(args);
    command
        .stdin(Stdio::piped())
        .stdout(Stdio::piped())
        .stderr(Stdio::piped());
    let mut child = command.spawn().unwrap();
    // It may have ended before it has read all.
    let _ = child.stdin.take().unwrap().write_all(input);
    Ran::of(child.wait_with_output().unwrap())
}

#[test]
fn a_minus_takes_addresses_from_standard_input() {
    let folder = bench();
    let given = folder.done(&["line", OBJECT, "0", "8", "1c"]);
    for text in ["0\n8\n1c\n", "0\n8\n1c", "\r\n 0x0 \r\n\n8\n\t1C\n\n"] {
        let ran = fed(&folder, &["line", OBJECT, "-"], text.as_bytes());
        assert_eq!(
            (ran.status, ran.out.as_str(), ran.err.as_str()),
            (Some(0), given.as_str(), "")
        );
    }
    // Between others.
    let ran = fed(&folder, &["line", OBJECT, "0", "-", "1c"], b"8\n");
    assert_eq!((ran.status, ran.out), (Some(0), given));
    // None at all.
    let ran = fed(&folder, &["line", OBJECT, "-"], b"");
    assert_eq!(
        (ran.status, ran.out.as_str(), ran.err.as_str()),
        (Some(0), HEADING, "")
    );
}

#[test]
fn a_line_that_is_no_address_ends_the_list() {
    let folder = bench();
    for (text, n, word) in [
        ("8\nx1\n0\n", 2, "x1"),
        ("8\n0 0\n", 2, "0 0"),
        ("8\n\n10000000000000000\n", 3, "10000000000000000"),
        ("8\n-1", 2, "-1"),
    ] {
        let ran = fed(&folder, &["line", OBJECT, "-", "0"], text.as_bytes());
        assert_eq!(ran.status, Some(2));
        let expected = format!(
            "xcoff: line: standard input, line {n}: {word} is not a hexadecimal number of at most 64 bits"
        );
        assert_eq!(ran.err.lines().next(), Some(expected.as_str()));
        // What came before it was answered.
        assert_eq!(rows(&ran.out, "asked").len(), 1, "{}", ran.out);
    }
    let long = [b'1'; 100_000];
    assert_eq!(fed(&folder, &["line", OBJECT, "-"], &long).status, Some(2));
}

/// As a debugger's companion uses it: the answer is there before the next address is given.
#[test]
fn each_address_is_answered_as_it_comes() {
    let folder = bench();
    let mut command = folder.command(&["line", OBJECT, "--json", "-"]);
    command.stdin(Stdio::piped()).stdout(Stdio::piped());
    let mut child = command.spawn().unwrap();
    let (mut input, mut output) = (child.stdin.take().unwrap(), child.stdout.take().unwrap());
    for (asked, entry) in [
        ("8", "\"entry\":3,"),
        ("1c", "\"entry\":8,"),
        ("0", "\"entry\":1,"),
    ] {
        writeln!(input, "{asked}").unwrap();
        let mut line = String::new();
        while !line.ends_with('\n') {
            let mut byte = [0];
            output.read_exact(&mut byte).unwrap();
            line.push(byte[0] as char);
        }
        assert!(line.contains(entry), "{line}");
    }
    drop(input);
    assert!(child.wait().unwrap().success());
}

// ---- the tables

#[test]
fn lines_lists_the_tables_whole() {
    let folder = bench();
    let out = folder.done(&["lines", OBJECT]);
    let expected = "\
section  entry  address   relative  absolute  symbol  function
      1      0  -                0         -       7  .go
      1      1  00000000         1        10       -  -
      1      2  00000004         2        11       -  -
      1      3  00000008         3        12       -  -
      1      4  0000000c         5        14       -  -
      1      5  00000014         6        15       -  -
      1      6  -                0         -      23  .second_function
      1      7  00000018         1        20       -  -
      1      8  0000001c         2        21       -  -
      1      9  00000020         4        23       -  -
";
    assert_eq!(out, expected);
    assert_eq!(folder.done(&["lines", OBJECT, "--section", "1"]), expected);
    let json = folder.done(&["lines", WIDE, "--json"]);
    let lines: Vec<&str> = json.lines().collect();
    assert_eq!(lines.len(), 10);
    assert_eq!(
        lines[..2],
        [
            "{\"table\":\"lines\",\"section\":1,\"entry\":0,\"address\":null,\"line\":0,\"absolute\":null,\"symbol\":11,\"function\":\".go\"}",
            "{\"table\":\"lines\",\"section\":1,\"entry\":1,\"address\":\"0000000010000200\",\"line\":1,\"absolute\":10,\"symbol\":null,\"function\":null}",
        ]
    );
    // Several files, each under its name.
    let both = folder.run(&["lines", OBJECT, "none", WIDE]);
    let start = format!("{OBJECT}:\n{expected}\n\n{WIDE}:\nsection  entry  address           ");
    assert!(
        both.status == Some(3) && both.out.starts_with(&start),
        "{}",
        both.out
    );
    // A file without line tables.
    folder.copy("exe-imports-32");
    let out = folder.done(&["lines", "exe-imports-32"]);
    assert_eq!(
        out,
        "section  entry  address   relative  absolute  symbol  function\n"
    );
    assert_eq!(folder.done(&["lines", "exe-imports-32", "--json"]), "");
    let ran = folder.run(&["line", "exe-imports-32", "10000100"]);
    assert!(
        ran.status == Some(1) && ran.err.contains("refused 31 0 0: NOLINE"),
        "{}",
        ran.err
    );
}

/// 66,001 entries, whose count is in an overflow header.
#[test]
fn a_table_above_65535_is_listed_whole() {
    let folder = Folder::new();
    let packed = tests_folder().join("corpus/big/gas-lnoovrflo66000-32.o.xz");
    let unpacked = Command::new("xz")
        .arg("-dc")
        .arg(packed)
        .output()
        .expect("xz is needed");
    folder.write("m", &unpacked.stdout);
    let out = folder.done(&["lines", "m"]);
    let listed = rows(&out, "section");
    assert_eq!(listed.len(), 66_001);
    assert_eq!(listed[0], ["1", "0", "-", "0", "-", "4", ".go"]);
    assert_eq!(
        listed[66_000],
        ["1", "66000", "0004073c", "6000", "6000", "-", "-"]
    );
    let out = folder.done(&["line", "m", "4073f"]);
    assert_eq!(
        rows(&out, "asked")[0][1..5],
        ["1", "0004073c", "66000", "6000"]
    );
    let out = folder.done(&["headers", "m"]);
    let sections = rows(&out, "section");
    assert_eq!(sections[0][7..], ["0", "65535", "264212", "65535", ".text"]);
    assert_eq!(sections[3][7..], ["0", "1", "264212", "1", ".ovrflo"]);
}

// ---- refusals

#[test]
fn a_damaged_table_is_refused_with_its_place() {
    let folder = bench();
    let mut file = real(OBJECT);
    // A count of more than the file has.
    file[48 + 34..48 + 36].copy_from_slice(&[0xFF, 0xFE]);
    folder.write("m", &file);
    let shown =
        "refused 5 1 48: BOUNDS, the raw data or line table of section 1 passes the file's end, \
                 or the table's overflow header is not there exactly once\n  \
                 header of section 1: 40 bytes at offset 48\n";
    for (args, about) in [
        (
            &["line", "m", "8"][..],
            "xcoff: m: address 00000008 in section 1: ",
        ),
        (&["lines", "m"], "xcoff: m: "),
    ] {
        let ran = folder.run(args);
        assert_eq!((ran.status, ran.out.as_str()), (Some(1), ""));
        assert!(
            ran.err.starts_with(&format!("{about}{shown}")),
            "{}",
            ran.err
        );
        assert!(
            ran.err
                .ends_with("  s_lnnoptr      76  550\n  s_nlnno        82  65534\n"),
            "{}",
            ran.err
        );
    }
    // A line before any function.
    let mut file = real(OBJECT);
    file[0x226 + 5] = 1;
    folder.write("m", &file);
    let err = "xcoff: m: address 00000008 in section 1: refused 32 0 0: GROUP, the line table has a line before any function\n";
    folder.fails(&["line", "m", "8"], 1, err);
    let out = folder.done(&["lines", "m"]);
    assert_eq!(
        rows(&out, "section")[0],
        ["1", "0", "00000007", "1", "-", "-", "-"]
    );
    // No XCOFF file at all.
    folder.write("m", b"no");
    for args in [
        &["line", "m", "8"][..],
        &["line", "m", "8", "9"],
        &["lines", "m"],
    ] {
        let ran = folder.run(args);
        assert_eq!((ran.status, ran.out.as_str()), (Some(1), ""));
        assert!(
            ran.err.starts_with("xcoff: m: refused 2 0 0: MAGIC"),
            "{}",
            ran.err
        );
    }
}

#[test]
fn words_that_make_no_sense() {
    let folder = bench();
    for (args, text) in [
        (&["line", OBJECT][..], "xcoff: line: ADDRESS is missing"),
        (&["line"], "xcoff: line: FILE is missing"),
        (
            &["line", OBJECT, "8", "xyz"],
            "xcoff: line: xyz is not a hexadecimal number of at most 64 bits",
        ),
        (
            &["line", OBJECT, ""],
            "xcoff: line: '' is not a hexadecimal number of at most 64 bits",
        ),
        (
            &["line", OBJECT, "8", "--section", "1f"],
            "xcoff: line: --section: 1f is not a decimal number of at most 64 bits",
        ),
        (
            &["lines", OBJECT, "--section="],
            "xcoff: lines: --section: '' is not a decimal number of at most 64 bits",
        ),
        (
            &["lines", OBJECT, "--sheet", "s"],
            "xcoff: lines: unknown option --sheet",
        ),
    ] {
        folder.misused(args, text);
    }
    folder.fails(
        &["line", "missing", "8"],
        3,
        "xcoff: cannot read missing: No such file or directory\n",
    );
}
