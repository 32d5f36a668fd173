//! Everything the command can say no to: exit status, text, and that nothing is changed by it.

mod command_runner;

use command_runner::{real, sheet, without_room, Folder, Ran};
use std::ffi::OsStr;
use std::fs::{self, File, Permissions};
use std::io::Read;
use std::os::fd::OwnedFd;
use std::os::unix::ffi::OsStrExt;
use std::os::unix::fs::{chown, symlink, MetadataExt, PermissionsExt};
use std::os::unix::net::UnixStream;
use std::os::unix::process::CommandExt;
use std::process::Command;

const M: &str = "exe-imports-32";
const NOBODY: u32 = 65534;

/// A module, the sheet of its recorded plan, its images and their records.
fn bench() -> Folder {
    let folder = Folder::new();
    folder.copy(M);
    folder.done(&["plan", M, "--recorded", "-o", "sheet"]);
    folder.done(&["build", M, "sheet", "-o", "text", "data"]);
    folder.done(&["records", M, "sheet", "-o", "srec"]);
    folder
}

// ---- help

#[test]
fn help_is_there_for_the_tool_and_each_command() {
    let folder = Folder::new();
    let help = folder.done(&["--help"]);
    assert_eq!(folder.done(&["-h"]), help);
    let commands = [
        "headers",
        "symbols",
        "module",
        "imports",
        "relocations",
        "lines",
        "line",
        "plan",
        "table",
        "sheet",
        "build",
        "move",
        "check",
        "records",
        "images",
        "dump",
        "map",
    ];
    for command in commands {
        assert!(help.contains(&format!("\n  {command} ")), "{command}");
        let text = folder.done(&[command, "--help"]);
        assert!(
            text.starts_with(&format!("usage: xcoff {command} ")),
            "{text}"
        );
        assert!(
            text.contains(&format!("\n  xcoff {command} ")),
            "an example: {text}"
        );
        assert!(text.lines().all(|line| line.len() <= 100), "{text}");
        assert_eq!(folder.done(&[command, "--wrong", "-h"]), text);
    }
    let version = format!("xcoff {}\n", env!("CARGO_PKG_VERSION"));
    assert_eq!(folder.done(&["--version"]), version);
    assert_eq!(folder.done(&["-V"]), version);
    assert_eq!(folder.done(&["version"]), version);
    assert_eq!(folder.done(&["help"]), help);
    assert_eq!(folder.done(&["-h"]), help);
    let plan = folder.done(&["plan", "--help"]);
    assert_eq!(folder.done(&["help", "plan"]), plan);
}

// ---- usage

#[test]
fn a_command_line_that_makes_no_sense_is_2() {
    let folder = Folder::new();
    let hint = "usage: xcoff COMMAND ARGUMENT...; xcoff --help lists the commands\n";
    folder.fails(&[], 2, &format!("xcoff: a command is missing\n{hint}"));
    folder.fails(
        &["sing"],
        2,
        &format!("xcoff: unknown command sing\n{hint}"),
    );
    for (word, meant) in [
        ("biuld", "build"),
        ("chek", "check"),
        ("moves", "move"),
        ("reloc", "relocations"),
        ("--imports", "imports"),
    ] {
        let text = format!("xcoff: unknown command {word}; did you mean '{meant}'?\n{hint}");
        folder.fails(&[word], 2, &text);
        folder.fails(&["help", word], 2, &text);
    }
    let hint = "usage: xcoff build FILE SHEET -o TEXT DATA [--force] [--no-wait] [--json]; xcoff build --help says more\n";
    folder.fails(
        &["build", "m"],
        2,
        &format!("xcoff: build: SHEET is missing\n{hint}"),
    );
    for (words, text) in NO_SENSE {
        let words: Vec<&str> = words.split(' ').collect();
        folder.misused(&words, &format!("xcoff: {}: {text}", words[0]));
    }
}

const NO_SENSE: [(&str, &str); 30] = [
    ("headers", "FILE is missing"),
    ("headers a --fast", "unknown option --fast"),
    (
        "headers a --jsno",
        "unknown option --jsno; did you mean --json?",
    ),
    (
        "move m a b t d --keep",
        "unknown option --keep; did you mean --keep-changes?",
    ),
    (
        "build m s \u{1b}[2J -o t d",
        "\\x1b[2J is one argument too many",
    ),
    ("plan m --from -o s", "--from needs OLD"),
    ("headers a --json --json", "--json is given twice"),
    ("headers a --json=1", "--json takes no value after ="),
    ("build m s", "-o TEXT DATA is missing"),
    ("build m s -o t", "-o needs TEXT DATA"),
    ("build m s -o t --x", "-o needs TEXT DATA"),
    ("build m s -o=t d", "unknown option -o=t"),
    ("plan m", "-o SHEET is missing"),
    ("move m a b t", "DATA is missing"),
    ("check m a t d --or", "--or needs SHEET"),
    ("check m", "SHEET is missing"),
    ("check m a", "TEXT is missing"),
    ("check m a t", "DATA is missing"),
    ("check m a t d e", "e is one argument too many"),
    ("check m a --records", "--records needs RECORDS"),
    ("check m a t --records r", "t is one argument too many"),
    ("records m s", "-o RECORDS is missing"),
    ("records m s r -o r", "r is one argument too many"),
    ("records m s --images t -o r", "--images needs TEXT DATA"),
    (
        "records m s --keep-changes -o r",
        "--keep-changes goes with --images TEXT DATA",
    ),
    (
        "records m s --unchecked -o r",
        "--unchecked goes with --images TEXT DATA",
    ),
    ("images m s -o t d", "RECORDS is missing"),
    ("images m s r", "-o TEXT DATA is missing"),
    (
        "images m s r --records r -o t d",
        "unknown option --records",
    ),
    ("sheet a b c", "c is one argument too many"),
];

#[test]
fn a_minus_begins_no_file_name_but_after_two() {
    let folder = Folder::new();
    folder.write("-odd", &real(M));
    folder.misused(&["headers", "-odd"], "xcoff: headers: unknown option -odd");
    folder.done(&["headers", "--", "-odd"]);
    folder.done(&["headers", "./-odd", "--json"]);
}

#[test]
fn addresses_are_hexadecimal() {
    let folder = bench();
    for bad in ["", "0x", "12g", "+1", "-1", "1_0", "10000000000000000"] {
        let shown = if bad.is_empty() { "''" } else { bad };
        let option = format!("--text={bad}");
        folder.misused(
            &["plan", M, "--recorded", &option, "-o", "s"],
            &format!("xcoff: plan: --text: {shown} is not a hexadecimal number of at most 64 bits"),
        );
        let import = format!("--import=errno={bad}");
        folder.misused(
            &["plan", M, "--recorded", &import, "-o", "s"],
            &format!("xcoff: plan: --import errno: {shown} is not a hexadecimal number of at most 64 bits"),
        );
    }
    assert!(!folder.path("s").exists());
}

const NO_IMPORT: [(&str, &str); 9] = [
    (
        "nothing=1",
        "nothing: there is no such import; the module has KNOWN",
    ),
    ("@2=1", "@2: there is no such import; the module has KNOWN"),
    (
        "__start=1",
        "__start: there is no such import; the module has KNOWN",
    ),
    ("@6=1", "@6: @6 is not an import"),
    (
        "later=1",
        "later: @8 is a deferred import, which has no address in a plan",
    ),
    (
        "@8=1",
        "@8: @8 is a deferred import, which has no address in a plan",
    ),
    (
        "@x=1",
        "@x=1: after @ comes a loader symbol index in decimal",
    ),
    ("errno", "errno: it is neither NAME=HEX nor @INDEX=HEX"),
    (
        "a\\b=1",
        "a\\b=1: a backslash in a name is \\\\ or begins \\xNN",
    ),
];

#[test]
fn an_import_must_be_there_once_and_take_an_address() {
    let folder = bench();
    let known = "@3 errno, @4 malloc, @5 a_function_with_a_long_name, @7 environ_of_the_process, \
                 @9 sysvar, @11 exactly8";
    for (import, text) in NO_IMPORT {
        let text = text.replace("KNOWN", known);
        folder.misused(
            &["plan", M, "--recorded", "--import", import, "-o", "s"],
            &format!("xcoff: plan: --import {text}"),
        );
    }
    folder.misused(
        &[
            "plan",
            M,
            "--recorded",
            "--import=errno=1",
            "--import=@3=2",
            "-o",
            "s",
        ],
        "xcoff: plan: --import @3: @3 is given twice",
    );
    assert!(!folder.path("s").exists());
}

#[test]
fn an_ambiguous_import_is_chosen_by_its_index() {
    let folder = Folder::new();
    let mut file = real(M);
    // The loader symbols begin 32 bytes into the loader section at 512: @11 gets the name of @4.
    let place = 512 + 32 + 24 * (11 - 3);
    assert_eq!(&file[place..place + 8], b"exactly8");
    file[place..place + 8].copy_from_slice(b"malloc\0\0");
    folder.write("twice", &file);
    folder.misused(
        &["plan", "twice", "--recorded", "--import", "malloc=1", "-o", "s"],
        "xcoff: plan: --import malloc: 2 imports have this name: @4, @11; choose one by its index, as in --import @4=HEX",
    );
    assert!(!folder.path("s").exists());
    folder.done(&[
        "plan",
        "twice",
        "--recorded",
        "--import",
        "@11=1",
        "-o",
        "s",
    ]);
    assert_eq!(folder.read("s")[24 + 8 * 8 + 7], 1);
}

const TWICE: [(&str, &str); 13] = [
    ("plan M -o M", "FILE and SHEET are the same file, M"),
    (
        "build M sheet -o new ./new",
        "TEXT and DATA are the same file, ./new",
    ),
    (
        "build M sheet -o text link",
        "TEXT and DATA are the same file, link",
    ),
    (
        "build M sheet -o t sub/../sheet",
        "SHEET and DATA are the same file, sub/../sheet",
    ),
    (
        "move M sheet sheet text text",
        "TEXT and DATA are the same file, text",
    ),
    (
        "move M sheet sheet M data",
        "FILE and TEXT are the same file, M",
    ),
    (
        "move M sheet sheet text data -o text new",
        "TEXT and TEXT2 are the same file, text",
    ),
    (
        "move M sheet sheet text data -o new text",
        "TEXT and DATA2 are the same file, text",
    ),
    (
        "records M sheet -o sheet",
        "SHEET and RECORDS are the same file, sheet",
    ),
    (
        "records M sheet --images text data -o link",
        "TEXT and RECORDS are the same file, link",
    ),
    (
        "records M sheet --images text data -o ./data",
        "DATA and RECORDS are the same file, ./data",
    ),
    (
        "images M sheet srec -o new srec",
        "RECORDS and DATA are the same file, srec",
    ),
    (
        "images M sheet srec -o new ./new",
        "TEXT and DATA are the same file, ./new",
    ),
];

#[test]
fn no_file_is_given_twice() {
    let folder = bench();
    folder.write("M", &folder.read(M));
    symlink("text", folder.path("link")).unwrap();
    fs::create_dir(folder.path("sub")).unwrap();
    let contents = || ["M", "sheet", "text", "data", "srec"].map(|name| folder.read(name));
    let before = (contents(), folder.names());
    for (words, text) in TWICE {
        let words: Vec<&str> = words.split(' ').collect();
        folder.misused(&words, &format!("xcoff: {}: {text}", words[0]));
    }
    assert_eq!(before, (contents(), folder.names()));
}

// ---- refusals

#[test]
fn a_refused_file_is_named_with_its_number() {
    let folder = bench();
    folder.copy("gas-main-32.o");
    folder.copy("exe-oldmagic-64");
    folder.write("empty", b"");
    let not_module =
        "xcoff: gas-main-32.o: refused 13 0 0: MODULE, the file is not a loadable module: \
                      its auxiliary header is too short, as in an object file that is not linked\n  f_opthdr 28\n";
    for command in ["module", "imports", "relocations"] {
        folder.fails(&[command, "gas-main-32.o"], 1, not_module);
    }
    folder.fails(&["plan", "gas-main-32.o", "-o", "s"], 1, not_module);
    folder.fails(
        &["build", "gas-main-32.o", "sheet", "-o", "t", "d"],
        1,
        not_module,
    );
    folder.fails(
        &["move", "gas-main-32.o", "sheet", "sheet", "text", "data"],
        1,
        not_module,
    );
    folder.fails(
        &["check", "gas-main-32.o", "sheet", "text", "data"],
        1,
        not_module,
    );
    folder.fails(
        &["records", "gas-main-32.o", "sheet", "-o", "s"],
        1,
        not_module,
    );
    folder.fails(
        &["images", "gas-main-32.o", "sheet", "srec", "-o", "t", "d"],
        1,
        not_module,
    );
    folder.fails(&["sheet", "sheet", "gas-main-32.o"], 1, not_module);
    let magic =
        "xcoff: exe-oldmagic-64: refused 2 0 0: MAGIC, the file starts with neither 01DF nor 01F7\n  \
         the file begins 01 ef 00 04 00 00 00 00 and has 2402 bytes: it looks like an XCOFF64 file of AIX 4.3, which is not read\n";
    let short = "xcoff: empty: refused 1 0 0: SHORT, the file ends before its headers do\n  the file has 0 bytes\n";
    for command in ["headers", "symbols"] {
        folder.fails(&[command, "exe-oldmagic-64"], 1, magic);
        folder.fails(&[command, "empty"], 1, short);
    }
    assert!(!folder.path("s").exists() && !folder.path("t").exists());
}

/// Places of a module and the bytes put there; the refusal, and what is shown below it.
const SHOWN: [(usize, &[u8], &str); 7] = [
    (
        132 + 39,
        &[0x41],
        "refused 4 2 132: KIND, the flags of section 2 are not allowed
  header of section 2: 40 bytes at offset 132
  00000084  2e 64 61 74 61 00 00 00 20 00 01 a0 20 00 01 a0
  00000094  00 00 00 60 00 00 01 a0 00 00 04 ce 00 00 00 00
  000000a4  00 14 00 00 00 00 00 41
  field    offset  value
  s_flags     168  00000041
",
    ),
    (
        2510,
        &[0, 0, 0, 3],
        "refused 7 0 2510: STRINGS, the string table has length 1, 2 or 3
  length of the string table: 4 bytes at offset 2510
  000009ce  00 00 00 03
  field   offset  value
  length    2510  3
",
    ),
    (
        512,
        &[0, 0, 0, 3],
        "refused 15 1 512: LOADER, the loader section is bad: its version is neither 1 nor 2
  header of the loader section (section 4, size 648): 32 bytes at offset 512
  00000200  00 00 00 03 00 00 00 09 00 00 00 14 00 00 00 45
  00000210  00 00 00 04 00 00 01 e8 00 00 00 54 00 00 02 2d
  field      offset  value
  l_version     512  3
",
    ),
    (
        212 + 16,
        &[0, 0, 0, 10],
        "refused 15 0 512: LOADER, the loader section is bad: its header is short
  header of the loader section (section 4, size 10): 10 bytes at offset 512
  00000200  00 00 00 01 00 00 00 09 00 00
",
    ),
    (
        212 + 16,
        &[0, 0, 0, 0, 0, 0, 0, 0],
        "refused 15 0 0: LOADER, the loader section is bad: its header is short
  header of the loader section (section 4, size 0): no bytes in the file
",
    ),
    (
        592 + 14,
        &[4],
        "refused 16 5 592: LSYM, the type, section, import id or name of loader symbol 5 is bad
  loader symbol 5: 24 bytes at offset 592
  00000250  00 00 00 00 00 00 00 02 00 00 00 00 00 00 04 0a
  00000260  00 00 00 02 00 00 00 00
  field     offset  value
  l_zeroes     592  00000000
  l_offset     596  2
  l_scnum      604  0
  l_smtype     606  04
  l_ifile      608  2
",
    ),
    (
        796 + 4,
        &[0xFF; 4],
        "refused 14 3 796: THREAD, the module has thread-local storage: \
         section 3 is tdata or tbss, or relocation entry 3 is by symbol -1 or -2
  relocation entry 3: 12 bytes at offset 796
  0000031c  20 00 01 f8 ff ff ff ff 1f 00 00 02
  field     offset  value
  l_symndx     800  -1
",
    ),
];

/// In every command that reads a module.
#[test]
fn what_stands_where_a_refusal_points_is_shown() {
    let folder = bench();
    for (place, bytes, text) in SHOWN {
        let mut file = real(M);
        file[place..place + bytes.len()].copy_from_slice(bytes);
        folder.write("bad", &file);
        let text = format!("xcoff: bad: {text}");
        for words in [
            "module bad",
            "imports bad --json",
            "relocations bad",
            "plan bad -o new",
            "sheet sheet bad",
            "build bad sheet -o new new2",
            "move bad sheet sheet text data",
            "check bad sheet text data --or sheet",
            "records bad sheet -o new",
            "images bad sheet srec -o new new2",
        ] {
            let words: Vec<&str> = words.split(' ').collect();
            let ran = folder.run(&words);
            assert_eq!(
                (ran.status, ran.err.as_str()),
                (Some(1), text.as_str()),
                "{words:?}"
            );
            // For programs the refusal is an object too.
            let object = match words.contains(&"--json") {
                true => "{\"table\":\"refusal\",\"about\":\"bad\",\"number\":",
                false => "",
            };
            assert!(ran.out.starts_with(object), "{}", ran.out);
            assert_eq!(ran.out.is_empty(), object.is_empty(), "{}", ran.out);
        }
    }
    assert!(!folder.path("new").exists());
}

#[test]
fn a_file_over_the_limit_is_judged_by_the_library() {
    let folder = bench();
    let mut file = real(M);
    file.resize(16_777_217, 0);
    folder.write("big", &file);
    let limit = "refused 3 0 0: LIMIT, the file is longer than 16,777,216 bytes\n";
    folder.fails(&["headers", "big"], 1, &format!("xcoff: big: {limit}"));
    // An endless one ends too.
    folder.fails(
        &["module", "/dev/zero"],
        1,
        &format!("xcoff: /dev/zero: {limit}"),
    );
    file.pop();
    folder.write("big", &file);
    folder.done(&["headers", "big"]);
    folder.fails(
        &["sheet", "/dev/zero"],
        1,
        &format!("xcoff: /dev/zero: {NO_SHEET}begins 00 00 00 00 00 00 00 00 and has more than 560024 bytes: it looks like no kind of file that is known here, perhaps an image\n"),
    );
    folder.fails(
        &["check", M, "sheet", "/dev/zero", "data"],
        1,
        "xcoff: /dev/zero (more than 16777216 bytes, where the text image of exe-imports-32 has 160): \
         refused 20 0 0: ROOM, the text image, sheet, record text or whole file is not exactly as long as needed\n",
    );
}

const NO_SHEET: &str = "refused 21 0 0: SHEET, not a plan sheet: \
                        it is short, starts with neither 00000002 nor 0002, or is not as long as its count says\n  the file ";
const MANY: &str = "refused 3 2 0: LIMIT, there are more than 70,000 loader symbols, \
                    or addresses in a sheet, in one that starts with 0002 more than 4,096\n";
const SHORT: &str = "short for exe-imports-32 (addresses: 8, loader symbols: 9): \
                     refused 20 2 0: ROOM, the list of addresses is not exactly as long as needed\n";
const HIGH: &str = "high for exe-imports-32 (text at ffffff61, 160 bytes): refused 19 0 0: PLAN, \
                    the text image at the plan's text address passes the end of the address space\n";
const IMPORT: &str =
    "import for exe-imports-32 (loader symbol 4 at 100000000): refused 19 4 0: PLAN, \
                      the plan's address of loader symbol 4 does not fit in 32 bits\n";

#[test]
fn a_refused_sheet_or_plan_is_named_with_its_number() {
    let folder = bench();
    folder.write("cut", &folder.read("sheet")[..95]);
    folder.write("three", &[&[0, 0, 0, 3][..], &[0; 20]].concat());
    folder.write("one", &[&[0, 1][..], &[0; 22]].concat());
    folder.write("many", &[&[0, 2][..], &[0; 16], &[0x10, 0x01]].concat());
    folder.write(
        "more",
        &[&[0, 0, 0, 2][..], &[0; 16], &[0, 1, 0x11, 0x71]].concat(),
    );
    folder.write("short", &sheet(0, 0, &[0; 8]));
    folder.write("high", &sheet(0xffff_ff61, 0, &[0; 9]));
    folder.write("import", &sheet(0, 0, &[0, 1 << 32, 0, 0, 0, 0, 0, 0, 0]));
    let refused = |args: &[&str], text: &str| folder.fails(args, 1, &format!("xcoff: {text}"));
    let no_sheets = [
        ("cut", "has 95 bytes; its count at offset 20 is 9: 96 bytes are asked for"),
        ("three", "begins 00 00 00 03 00 00 00 00 and has 24 bytes: it looks like no kind of file that is known here, perhaps an image"),
        ("one", "begins 00 01 00 00 00 00 00 00 and has 24 bytes: it looks like no kind of file that is known here, perhaps an image"),
    ]
    .map(|(name, has)| format!("{name}: {NO_SHEET}{has}\n"));
    let too_many = [
        (
            "many",
            "has 20 bytes; its count at offset 18 is 4097: 32796 bytes are asked for",
        ),
        (
            "more",
            "has 24 bytes; its count at offset 20 is 70001: 560032 bytes are asked for",
        ),
    ]
    .map(|(name, has)| format!("{name}: {MANY}  the file {has}\n"));
    let [cut, three, one] = no_sheets.each_ref();
    let [many, more] = too_many.each_ref();
    for text in [cut, three, one, many, more, SHORT, HIGH, IMPORT] {
        let name = text.split([' ', ':']).next().unwrap();
        refused(&["build", M, name, "-o", "t", "d"], text);
        refused(&["check", M, name, "text", "data"], text);
        refused(&["move", M, name, "sheet", "text", "data"], text);
        refused(&["move", M, "sheet", name, "text", "data"], text);
        refused(
            &["move", M, "sheet", name, "text", "data", "--unchecked"],
            text,
        );
        refused(&["sheet", name, M], text);
    }
    // Lists are judged before plans, a from plan before a to plan.
    refused(&["move", M, "high", "short", "text", "data"], SHORT);
    refused(&["move", M, "high", "import", "text", "data"], HIGH);
    refused(
        &["plan", M, "--recorded", "--data", "ffffff61", "-o", "t"],
        "the plan for exe-imports-32 (data at ffffff61, 160 bytes): refused 19 1 0: PLAN, \
         the data image at the plan's data address passes the end of the address space\n",
    );
    assert!(!folder.path("t").exists() && !folder.path("d").exists());
}

#[test]
fn images_of_the_wrong_length_are_refused() {
    let folder = bench();
    folder.write("longer", &[&folder.read("data")[..], &[0]].concat());
    folder.write("none", b"");
    let data = "xcoff: longer (161 bytes, where the data image of exe-imports-32 has 160): refused 20 1 0: ROOM, \
                the data image is not exactly as long as needed\n";
    let text = "xcoff: none (0 bytes, where the text image of exe-imports-32 has 160): refused 20 0 0: ROOM, \
                the text image, sheet, record text or whole file is not exactly as long as needed\n";
    for unchecked in [&[][..], &["--unchecked"]] {
        let moved = ["move", M, "sheet", "sheet"];
        folder.fails(
            &[&moved[..], &["text", "longer"], unchecked].concat(),
            1,
            data,
        );
        folder.fails(
            &[&moved[..], &["none", "longer"], unchecked].concat(),
            1,
            text,
        );
    }
    folder.fails(&["check", M, "sheet", "text", "longer"], 1, data);
    folder.fails(&["check", M, "sheet", "none", "data"], 1, text);
    assert_eq!(folder.read("none"), b"");
}

// ---- what the system refuses

#[test]
fn a_file_that_cannot_be_read_is_named() {
    let folder = bench();
    fs::create_dir(folder.path("dir")).unwrap();
    let missing = "xcoff: cannot read none: No such file or directory\n";
    let directory = "xcoff: cannot read dir: Is a directory\n";
    for command in [
        "headers",
        "symbols",
        "module",
        "imports",
        "relocations",
        "lines",
        "sheet",
    ] {
        folder.fails(&[command, "none"], 3, missing);
        folder.fails(&[command, "dir"], 3, directory);
    }
    for (bad, text) in [("none", missing), ("dir", directory)] {
        folder.fails(&["plan", bad, "-o", "s"], 3, text);
        folder.fails(&["build", M, bad, "-o", "t", "d"], 3, text);
        folder.fails(&["move", M, "sheet", bad, "text", "data"], 3, text);
        folder.fails(&["check", M, "sheet", "text", bad], 3, text);
        folder.fails(&["check", M, "sheet", "--records", bad], 3, text);
        folder.fails(&["records", M, bad, "-o", "r"], 3, text);
        let images = ["records", M, "sheet", "-o", "r", "--images", "text", bad];
        folder.fails(&images, 3, text);
        folder.fails(&["images", M, "sheet", bad, "-o", "t", "d"], 3, text);
    }
    folder.fails(
        &["headers", "text/file"],
        3,
        "xcoff: cannot read text/file: Not a directory\n",
    );
    folder.fails(
        &["headers", "\u{1b}[2J"],
        3,
        "xcoff: cannot read \\x1b[2J: No such file or directory\n",
    );
    // A name may be any bytes; two that differ are told apart.
    let mut command = folder.command(&["headers"]);
    command.arg(OsStr::from_bytes(b"caf\xc3\xa9\xff\xc2\x80 \\"));
    let ran = Ran::of(command.output().unwrap());
    let text = "xcoff: cannot read caf\u{e9}\\xff\\xc2\\x80 \\: No such file or directory\n";
    assert_eq!((ran.status, ran.err.as_str()), (Some(3), text));
}

fn am_root(folder: &Folder) -> bool {
    fs::metadata(folder.path("")).unwrap().uid() == 0
}

/// As someone who is not root. The program is copied to where anyone may run it.
fn as_nobody(folder: &Folder, args: &[&str]) -> Ran {
    let mut command = folder.command(args);
    if am_root(folder) {
        let program = folder.path("program");
        // Not by this process: a child of another test could hold the copy open for writing, and it could not be run.
        let mut copy = Command::new("cp");
        copy.arg(env!("CARGO_BIN_EXE_xcoff")).arg(&program);
        assert!(copy.status().unwrap().success());
        command = Command::new(program);
        command
            .current_dir(folder.path(""))
            .args(args)
            .uid(NOBODY)
            .gid(NOBODY);
    }
    let ran = Ran::of(command.output().unwrap());
    let _ = fs::remove_file(folder.path("program"));
    ran
}

fn set_mode(folder: &Folder, name: &str, mode: u32) {
    fs::set_permissions(folder.path(name), Permissions::from_mode(mode)).unwrap();
}

#[test]
fn a_file_that_may_not_be_read_is_named() {
    let folder = bench();
    set_mode(&folder, M, 0);
    let ran = as_nobody(&folder, &["headers", M]);
    let got = (ran.status, ran.err.as_str(), ran.out.as_str());
    assert_eq!(
        got,
        (
            Some(3),
            "xcoff: cannot read exe-imports-32: Permission denied\n",
            ""
        )
    );
}

#[test]
fn a_folder_that_may_not_be_written_is_named() {
    let folder = bench();
    set_mode(&folder, "", 0o555);
    let ran = as_nobody(&folder, &["build", M, "sheet", "-o", "new", "data"]);
    set_mode(&folder, "", 0o755);
    let got = (ran.status, ran.err.as_str(), ran.out.as_str());
    assert_eq!(
        got,
        (Some(3), "xcoff: cannot write new: Permission denied\n", "")
    );
}

#[test]
fn a_full_disk_or_closed_pipe_under_a_listing_is_3() {
    let folder = bench();
    folder.copy("shr-rel4096-32");
    for args in [
        &["relocations", "shr-rel4096-32"][..],
        &["headers", M],
        &["--help"],
        &["plan", "--help"],
    ] {
        let full = File::options().write(true).open("/dev/full").unwrap();
        let ran = Ran::of(folder.command(args).stdout(full).output().unwrap());
        let text = "xcoff: cannot write standard output: No space left on device\n";
        assert_eq!((ran.status, ran.err.as_str()), (Some(3), text), "{args:?}");

        let (ours, mut theirs) = UnixStream::pair().unwrap();
        drop(ours);
        // A process that another test is starting may hold our end until it runs its program; the input ends when none does.
        assert_eq!(theirs.read(&mut [0]).unwrap(), 0);
        let ran = Ran::of(
            folder
                .command(args)
                .stdout(OwnedFd::from(theirs))
                .output()
                .unwrap(),
        );
        // As `head` does: nothing to say.
        assert_eq!((ran.status, ran.err.as_str()), (Some(3), ""), "{args:?}");
    }
    // A closed standard error is no reason to panic either.
    let full = File::options().write(true).open("/dev/full").unwrap();
    let ran = Ran::of(
        folder
            .command(&["headers", "none"])
            .stderr(full)
            .output()
            .unwrap(),
    );
    assert_eq!(ran.status, Some(3));
}

/// Files that are written and cannot be told of: the reason says that they are new.
#[test]
fn a_full_disk_under_the_line_that_tells_of_new_files_is_3() {
    let folder = bench();
    let runs = [
        (
            "plan",
            "plan M --recorded -o new",
            "wrote new (96 bytes): text ",
        ),
        (
            "build",
            "build M sheet -o new d",
            "built new (160 bytes) and d ",
        ),
        (
            "move",
            "move M sheet sheet text data -o new d",
            "moved new (160 bytes) and d ",
        ),
        (
            "records",
            "records M sheet -o new",
            "wrote new (805 bytes, 11 lines): text ",
        ),
        (
            "images",
            "images M sheet srec -o new d",
            "wrote new (160 bytes) and d ",
        ),
    ];
    for (command, words, start) in runs {
        let words = words.replace('M', M);
        let words: Vec<&str> = words.split(' ').collect();
        let full = File::options().write(true).open("/dev/full").unwrap();
        let ran = Ran::of(folder.command(&words).stdout(full).output().unwrap());
        let end = "; but cannot write standard output: No space left on device\n";
        assert_eq!(ran.status, Some(3), "{command}");
        assert!(
            ran.err.starts_with(&format!("xcoff: {start}")),
            "{}",
            ran.err
        );
        assert!(ran.err.ends_with(end), "{}", ran.err);
        fs::remove_file(folder.path("new")).unwrap();
    }
}

#[test]
fn a_file_that_is_printed_to_is_not_replaced() {
    let folder = bench();
    for (name, redirect) in [
        ("log", ">>log"),
        ("/dev/stdout", ">>log"),
        ("log", "2>>log"),
    ] {
        folder.write("log", b"keep\n");
        let mut shell = Command::new("bash");
        let line = format!("\"$0\" plan {M} --recorded -o {name} {redirect}");
        shell.current_dir(folder.path("")).args(["-c", &line]);
        let output = shell.arg(env!("CARGO_BIN_EXE_xcoff")).output().unwrap();
        let ran = Ran::of(output);
        assert_eq!((ran.status, ran.out.as_str()), (Some(3), ""), "{line}");
        let text = format!("xcoff: cannot write {name}: what is printed goes there\n");
        let log = String::from_utf8(folder.read("log")).unwrap();
        assert_eq!(log + &ran.err, format!("keep\n{text}"), "{line}");
    }
}

const NOT_WRITTEN: [(&str, &str); 11] = [
    ("dir", "dir: it is a directory"),
    ("dir/", "dir/: it names a directory"),
    ("none/", "none/: it names a directory"),
    ("none/.", "none/.: it names a directory"),
    ("/dev/full", "/dev/full: it is not a regular file"),
    ("/dev/null", "/dev/null: it is not a regular file"),
    (
        "dangling",
        "dangling: it is a symbolic link that leads nowhere",
    ),
    ("protected", "protected: it is write-protected"),
    ("none/data", "none/data: No such file or directory"),
    ("sheet/data", "sheet/data: Not a directory"),
    ("", "'': No such file or directory"),
];

/// Every way to fail at one of two outputs: the other then stays as it was.
#[test]
fn a_failed_write_leaves_the_old_files() {
    let folder = bench();
    fs::create_dir(folder.path("dir")).unwrap();
    symlink("nowhere", folder.path("dangling")).unwrap();
    folder.write("protected", b"keep");
    set_mode(&folder, "protected", 0o444);
    folder.write("old", b"old");
    let names = folder.names();
    for (bad, text) in NOT_WRITTEN {
        let text = format!("xcoff: cannot write {text}\n");
        folder.fails(&["build", M, "sheet", "-o", "old", bad], 3, &text);
        folder.fails(&["build", M, "sheet", "-o", bad, "old"], 3, &text);
        let moved = [
            "move", M, "sheet", "sheet", "text", "data", "-o", "old", bad,
        ];
        folder.fails(&moved, 3, &text);
        folder.fails(&["plan", M, "--recorded", "-o", bad], 3, &text);
        folder.fails(&["records", M, "sheet", "-o", bad], 3, &text);
        folder.fails(&["images", M, "sheet", "srec", "-o", "old", bad], 3, &text);
    }
    let long = "n".repeat(256);
    let text = format!("xcoff: cannot write {long}: File name too long\n");
    folder.fails(&["build", M, "sheet", "-o", "old", &long], 3, &text);
    assert_eq!(folder.read("old"), b"old");
    assert_eq!(folder.read("protected"), b"keep");
    assert_eq!(folder.names(), names, "nothing is left beside");
}

#[test]
fn a_full_disk_leaves_the_old_files() {
    let folder = bench();
    folder.write("old", b"old");
    let contents = || {
        let files = ["text", "data", "sheet", "srec", "old"].map(|name| folder.read(name));
        (files, folder.names())
    };
    let before = contents();
    let runs = [
        (&["build", M, "sheet", "-o", "old", "data"][..], "old"),
        (&["move", M, "sheet", "sheet", "text", "data"], "text"),
        (
            &["plan", M, "--recorded", "--text", "0", "-o", "sheet"],
            "sheet",
        ),
        (&["records", M, "sheet", "-o", "old"], "old"),
        (&["images", M, "sheet", "srec", "-o", "text", "old"], "text"),
    ];
    for (args, named) in runs {
        let ran = without_room(&folder, args);
        let text = format!("xcoff: cannot write {named}: File too large\n");
        assert_eq!(
            (ran.status, ran.err.as_str(), ran.out.as_str()),
            (Some(3), text.as_str(), "")
        );
    }
    assert_eq!(before, contents());
}

/// The second renaming fails: in a folder with the sticky bit no one replaces the file of another. Only root can set
/// this up.
#[test]
fn a_pair_is_replaced_whole_or_not_at_all() {
    let folder = bench();
    if !am_root(&folder) {
        return;
    }
    for first_is_there in [true, false] {
        fs::create_dir(folder.path("shared")).unwrap();
        set_mode(&folder, "shared", 0o1777);
        if first_is_there {
            folder.write("shared/text", b"mine");
            chown(folder.path("shared/text"), Some(NOBODY), Some(NOBODY)).unwrap();
        }
        folder.write("shared/data", b"another's");
        set_mode(&folder, "shared/data", 0o666);
        let ran = as_nobody(
            &folder,
            &["build", M, "sheet", "-o", "shared/text", "shared/data"],
        );
        let text = "xcoff: cannot write shared/data: Operation not permitted\n";
        assert_eq!(
            (ran.status, ran.err.as_str(), ran.out.as_str()),
            (Some(3), text, "")
        );
        assert_eq!(folder.read("shared/data"), b"another's");
        assert_eq!(folder.path("shared/text").exists(), first_is_there);
        let left = fs::read_dir(folder.path("shared")).unwrap().count();
        assert_eq!(left, if first_is_there { 2 } else { 1 });
        if first_is_there {
            assert_eq!(folder.read("shared/text"), b"mine");
        }
        fs::remove_dir_all(folder.path("shared")).unwrap();
    }
}

// ---- what is replaced

#[test]
fn a_replaced_file_keeps_its_mode_and_a_link_stays_a_link() {
    let folder = bench();
    let (text, data) = (folder.read("text"), folder.read("data"));
    fs::create_dir(folder.path("sub")).unwrap();
    folder.write("sub/real", b"old");
    set_mode(&folder, "sub/real", 0o664);
    symlink("sub/real", folder.path("link")).unwrap();
    folder.done(&["build", M, "sheet", "-o", "link", "new"]);
    assert_eq!(
        fs::read_link(folder.path("link")).unwrap().to_str(),
        Some("sub/real")
    );
    assert_eq!((folder.read("sub/real"), folder.read("new")), (text, data));
    let mode = |name: &str| fs::metadata(folder.path(name)).unwrap().mode() & 0o777;
    assert_eq!(mode("sub/real"), 0o664);
    folder.write("plain", b"");
    assert_eq!(mode("new"), mode("plain"), "as the umask has it");
    assert_eq!(fs::read_dir(folder.path("sub")).unwrap().count(), 1);
}
