//! The benches' address table in a file: `xcoff table`, and plans filled from it.

mod command_runner;

use command_runner::{rows, sheet, Folder};
use std::fs::{self, File};
use std::os::unix::fs::symlink;
use std::thread;
use std::time::Duration;

const M: &str = "exe-imports-32";

fn bench() -> Folder {
    let folder = Folder::new();
    folder.copy(M);
    folder.done(&["table", "t", "new"]);
    folder
}

fn add(folder: &Folder, words: &str) -> String {
    let words: Vec<&str> = ["table", "t", "add"]
        .into_iter()
        .chain(words.split(' '))
        .collect();
    folder.done(&words)
}

/// With errno and environ_of_the_process of the module for bench 1, and another errno for bench 2.
fn filled() -> Folder {
    let folder = bench();
    add(&folder, "1 1 errno fff01200");
    add(&folder, "1 2 environ_of_the_process 77");
    add(&folder, "2 1 errno 5");
    folder
}

// ---- the file

#[test]
fn only_new_makes_a_table() {
    let folder = Folder::new();
    let missing = "xcoff: cannot read t: No such file or directory\n";
    for words in ["add 1 1 a 1", "remove 1 1 a", "find 1 1 a", "list 1"] {
        let words: Vec<&str> = ["table", "t"].into_iter().chain(words.split(' ')).collect();
        folder.fails(&words, 3, missing);
    }
    assert_eq!(folder.names(), Vec::<String>::new());
    let out = folder.done(&["table", "t", "new"]);
    assert_eq!(out, "wrote t (32776 bytes): an empty address table\n");
    assert_eq!(folder.read("t"), vec![0; 32_776]);
    assert_eq!(
        folder.done(&["table", "t", "list", "1"]),
        "id  address   name\n"
    );
}

#[test]
fn new_replaces_nothing() {
    let folder = filled();
    let before = folder.read("t");
    folder.fails(
        &["table", "t", "new"],
        3,
        "xcoff: cannot make t: it is there already\n",
    );
    assert_eq!(folder.read("t"), before);
    folder.fails(
        &["table", M, "new"],
        3,
        &format!("xcoff: cannot make {M}: it is there already\n"),
    );
    symlink("nowhere", folder.path("link")).unwrap();
    folder.fails(
        &["table", "link", "new"],
        3,
        "xcoff: cannot make link: it is there already\n",
    );
    assert!(!folder.path("nowhere").exists());
}

#[test]
fn a_file_of_another_length_is_no_table() {
    let folder = bench();
    for (length, found) in [
        (0, "0 bytes"),
        (32_775, "32775 bytes"),
        (32_777, "more than 32776 bytes"),
    ] {
        let bytes = vec![0; length];
        folder.write("other", &bytes);
        let err = format!(
            "xcoff: other: not an address table: it has {found}, a table has 32776; xcoff table TABLE new makes one\n"
        );
        for words in ["add 1 1 a 1", "remove 1 1 a", "find 1 1 a", "list 1"] {
            let words: Vec<&str> = ["table", "other"]
                .into_iter()
                .chain(words.split(' '))
                .collect();
            folder.fails(&words, 1, &err);
        }
        folder.fails(&["table", "other", "fill", "1", M, "-o", "s"], 1, &err);
        folder.fails(
            &["plan", M, "--table", "other", "--bench", "1", "-o", "s"],
            1,
            &err,
        );
        assert_eq!(folder.read("other"), bytes);
    }
    assert!(!folder.names().contains(&"s".to_string()));
}

/// The numbers stand in the file big-endian, as the library's memory has them: the same table can be kept by a C program.
#[test]
fn the_file_is_the_tables_memory() {
    let folder = filled();
    let mut table = xcoff::AddressTable::new();
    table.add(1, 1, b"errno", 0xfff0_1200).unwrap();
    table.add(1, 2, b"environ_of_the_process", 0x77).unwrap();
    table.add(2, 1, b"errno", 5).unwrap();
    assert_eq!(folder.read("t"), table.to_bytes());
}

#[test]
fn a_link_is_followed_and_the_mode_is_kept() {
    use std::os::unix::fs::PermissionsExt;
    let folder = bench();
    fs::set_permissions(folder.path("t"), fs::Permissions::from_mode(0o660)).unwrap();
    symlink("t", folder.path("link")).unwrap();
    folder.done(&["table", "link", "add", "1", "1", "a", "1"]);
    assert!(fs::symlink_metadata(folder.path("link"))
        .unwrap()
        .is_symlink());
    assert_eq!(
        fs::metadata(folder.path("t")).unwrap().permissions().mode() & 0o777,
        0o660
    );
    assert_eq!(
        rows(&folder.done(&["table", "t", "list", "1"]), "id").len(),
        1
    );
}

// ---- rows

#[test]
fn rows_are_added_replaced_found_listed_and_removed() {
    let folder = bench();
    assert_eq!(
        add(&folder, "1 2 puts fff01200"),
        "t: bench 1, id 2, puts added at fff01200\n"
    );
    assert_eq!(
        add(&folder, "1 2 puts 0xFFF01300"),
        "t: bench 1, id 2, puts is now at fff01300, before at fff01200\n"
    );
    add(&folder, "1 10 puts 1");
    add(&folder, "1 2 gets 123456789a");
    add(&folder, "2 2 puts 7");
    let listed = "id  address           name\n \
                  2  000000123456789a  gets\n \
                  2  00000000fff01300  puts\n\
                  10  0000000000000001  puts\n";
    assert_eq!(folder.done(&["table", "t", "list", "1"]), listed);
    assert_eq!(
        folder.done(&["table", "t", "list", "2"]),
        "id  address   name\n 2  00000007  puts\n"
    );
    assert_eq!(
        folder.done(&["table", "t", "find", "1", "2", "puts"]),
        "id  address   name\n 2  fff01300  puts\n"
    );
    assert_eq!(
        folder
            .done(&["table", "t", "list", "1", "--json"])
            .lines()
            .next(),
        Some("{\"table\":\"rows\",\"id\":2,\"address\":\"000000123456789a\",\"name\":\"gets\"}")
    );
    let json = folder.done(&["table", "t", "find", "2", "2", "puts", "--json"]);
    assert_eq!(
        json,
        "{\"table\":\"rows\",\"id\":2,\"address\":\"00000007\",\"name\":\"puts\"}\n"
    );
    let out = folder.done(&["table", "t", "remove", "1", "2", "puts"]);
    assert_eq!(out, "t: bench 1, id 2, puts removed, it was at fff01300\n");
    assert_eq!(
        rows(&folder.done(&["table", "t", "list", "1"]), "id").len(),
        2
    );
    assert_eq!(
        rows(&folder.done(&["table", "t", "list", "2"]), "id").len(),
        1
    );
}

/// Names are written as listings show them, so every name can be given.
#[test]
fn names_are_written_as_they_are_listed() {
    let folder = bench();
    for name in ["a\\x00", "a", "\\x20b\\\\", "\\xff\\x22", "-x"] {
        folder.done(&["table", "t", "add", "--", "1", "1", name, "5"]);
    }
    let out = folder.done(&["table", "t", "list", "1"]);
    let names: Vec<&str> = rows(&out, "id").iter().map(|row| row[2]).collect();
    assert_eq!(names, ["\\x20b\\\\", "-x", "a", "a\\x00", "\\xff\\x22"]);
    folder.done(&["table", "t", "remove", "1", "1", "a\\x00"]);
    folder.done(&["table", "t", "find", "1", "1", "a"]);
    folder.misused(
        &["table", "t", "find", "1", "1", "a\\y"],
        "xcoff: table: a\\y: a backslash in a name is \\\\ or begins \\xNN",
    );
}

#[test]
fn a_refusal_leaves_the_file_as_it_was() {
    let folder = filled();
    let before = folder.read("t");
    let long = "x".repeat(33);
    let at = fs::metadata(folder.path("t")).unwrap().modified().unwrap();
    for (words, err) in [
        ("add 3 1 a 1", "t: bench 3, id 1, a: refused 8 3 0: INDEX, there is no number 3 of what was asked for"),
        ("remove 0 1 a", "t: bench 0, id 1, a: refused 8 0 0: INDEX, there is no number 0 of what was asked for"),
        ("list 3", "t: refused 8 3 0: INDEX, there is no number 3 of what was asked for"),
        (
            "remove 2 2 environ_of_the_process",
            "t: bench 2, id 2, environ_of_the_process: refused 27 0 0: ABSENT, the bench has no such row in the address table",
        ),
        (
            "find 1 3 errno",
            "t: bench 1, id 3, errno: refused 27 0 0: ABSENT, the bench has no such row in the address table",
        ),
        (
            "find 1 3 \"\"",
            "t: bench 1, id 3, \"\": refused 28 0 0: LONG, a name in the address table has 1 to 32 bytes",
        ),
    ] {
        let words: Vec<&str> = ["table", "t"].into_iter().chain(words.split(' ')).collect();
        folder.fails(&words, 1, &format!("xcoff: {err}\n"));
    }
    let err = format!(
        "xcoff: t: bench 1, id 1, {long}: refused 28 0 0: LONG, a name in the address table has 1 to 32 bytes\n"
    );
    folder.fails(&["table", "t", "add", "1", "1", &long, "1"], 1, &err);
    assert_eq!(folder.read("t"), before);
    assert_eq!(
        fs::metadata(folder.path("t")).unwrap().modified().unwrap(),
        at,
        "not written again"
    );
}

#[test]
fn a_full_table_takes_no_new_row() {
    let folder = bench();
    let mut table = xcoff::AddressTable::new();
    for n in 0..512u64 {
        table.add(1 + n % 2, n, b"row", n).unwrap();
    }
    folder.write("t", &table.to_bytes());
    let err = "xcoff: t: bench 2, id 2, row: refused 26 0 0: FULL, all 512 rows of the address table are taken, and this one is new\n";
    folder.fails(&["table", "t", "add", "2", "2", "row", "1"], 1, err);
    assert_eq!(folder.read("t"), table.to_bytes());
    add(&folder, "1 2 row 99");
    folder.done(&["table", "t", "remove", "1", "2", "row"]);
    add(&folder, "2 2 row 1");
}

// ---- plans

const LIST: [u64; 9] = [0xfff0_1200, 0, 0, 0, 0x77, 0, 0, 0, 0];

#[test]
fn fill_writes_a_sheet_and_lists_what_has_no_row() {
    let folder = filled();
    let table = folder.read("t");
    let out = folder.done(&[
        "table", "t", "fill", "1", M, "--text", "10000", "--data", "80000", "-o", "s",
    ]);
    let expected = "\
wrote s (96 bytes): text 00010000-0001009f, data 00080000-0008009f, 0 of 6 imports given, 2 from t, 4 as recorded; entry 00080030, TOC 00080040
imports without a row, at their recorded addresses:
index  recorded  id  name
    4  00000000   1  malloc
    5  00000000   2  a_function_with_a_long_name
    9  00000000   3  sysvar
   11  00000000   1  exactly8
";
    assert_eq!(out, expected);
    assert_eq!(folder.read("s"), sheet(0x1_0000, 0x8_0000, &LIST));
    assert_eq!(folder.read("t"), table);
    // Addresses that are not given are as recorded; the other bench has its own row.
    folder.done(&["table", "t", "fill", "2", M, "-o", "s"]);
    let list = [5, 0, 0, 0, 0, 0, 0, 0, 0];
    assert_eq!(folder.read("s"), sheet(0x1000_0100, 0x2000_01a0, &list));
    folder.done(&["build", M, "s", "-o", "text", "data"]);
}

#[test]
fn plan_takes_a_table_directly() {
    let folder = filled();
    let out = folder.done(&[
        "plan",
        M,
        "--table",
        "t",
        "--bench",
        "1",
        "--text=10000",
        "--data=80000",
        "-o",
        "s",
    ]);
    assert_eq!(folder.read("s"), sheet(0x1_0000, 0x8_0000, &LIST));
    let filled = folder.done(&[
        "table",
        "t",
        "fill",
        "1",
        M,
        "--text=10000",
        "--data=80000",
        "-o",
        "s",
    ]);
    assert_eq!(out, filled);
    // What is given by itself goes before a row.
    let out = folder.done(&[
        "plan", M, "--table", "t", "--bench", "1", "--import", "errno=9", "--import", "malloc=8",
        "-o", "s",
    ]);
    assert!(
        out.contains("2 of 6 imports given, 1 from t, 3 as recorded;"),
        "{out}"
    );
    assert!(!out.contains("malloc"), "{out}");
    let list = [9, 8, 0, 0, 0x77, 0, 0, 0, 0];
    assert_eq!(folder.read("s"), sheet(0x1000_0100, 0x2000_01a0, &list));
    // With a row for each import nothing is listed.
    for words in [
        "1 1 malloc 1",
        "1 2 a_function_with_a_long_name 2",
        "1 3 sysvar 3",
        "1 1 exactly8 4",
    ] {
        add(&folder, words);
    }
    let out = folder.done(&["plan", M, "--table", "t", "--bench", "1", "-o", "s"]);
    assert!(
        out.contains("0 of 6 imports given, 6 from t;") && out.lines().count() == 1,
        "{out}"
    );
}

#[test]
fn a_plan_that_is_refused_is_not_written() {
    let folder = filled();
    let err = "xcoff: t: refused 8 3 0: INDEX, there is no number 3 of what was asked for\n";
    folder.fails(&["table", "t", "fill", "3", M, "-o", "s"], 1, err);
    folder.fails(
        &["plan", M, "--table", "t", "--bench", "3", "-o", "s"],
        1,
        err,
    );
    // A row of more than 32 bits for an XCOFF32 module.
    add(&folder, "1 1 malloc 100000000");
    let err = format!(
        "xcoff: the plan for {M} (loader symbol 4 at 100000000): refused 19 4 0: PLAN, the plan's address of loader symbol 4 does not fit in 32 bits\n"
    );
    folder.fails(&["table", "t", "fill", "1", M, "-o", "s"], 1, &err);
    folder.copy("gas-stabs-32.o");
    let ran = folder.run(&["table", "t", "fill", "1", "gas-stabs-32.o", "-o", "s"]);
    assert!(
        ran.status == Some(1) && ran.err.contains("refused 13 0 0: MODULE"),
        "{}",
        ran.err
    );
    assert!(!folder.names().contains(&"s".to_string()));
    // Neither the module nor the table is the sheet.
    let same = |name: &str| {
        format!(
            "xcoff: table: {name} and SHEET are the same file, {}",
            if name == "FILE" { M } else { "t" }
        )
    };
    folder.misused(&["table", "t", "fill", "1", M, "-o", M], &same("FILE"));
    folder.misused(&["table", "t", "fill", "1", M, "-o", "t"], &same("TABLE"));
    folder.misused(
        &["plan", M, "--table", "t", "--bench", "1", "-o", "t"],
        "xcoff: plan: TABLE and SHEET are the same file, t",
    );
}

// ---- words

#[test]
fn words_that_make_no_sense() {
    let folder = filled();
    let table = folder.read("t");
    for (words, text) in [
        ("", "TABLE is missing"),
        ("t", "ACTION is missing"),
        (
            "t sing",
            "sing is none of new, add, remove, find, list and fill",
        ),
        ("t new 1", "1 is one argument too many"),
        ("t add 1 1 a", "HEX is missing"),
        ("t add", "BENCH is missing"),
        ("t remove 1 1 a 1", "1 is one argument too many"),
        ("t list", "BENCH is missing"),
        ("t fill 1", "FILE is missing"),
        ("t fill 1 m", "-o SHEET is missing"),
        (
            "t add one 1 a 1",
            "one is not a decimal number of at most 64 bits",
        ),
        (
            "t add 1 0x1 a 1",
            "0x1 is not a decimal number of at most 64 bits",
        ),
        (
            "t add 1 1 a xyz",
            "HEX: xyz is not a hexadecimal number of at most 64 bits",
        ),
        (
            "t add 1 18446744073709551616 a 1",
            "18446744073709551616 is not a decimal number of at most 64 bits",
        ),
        ("t list 1 --text 5", "list takes no --text"),
        ("t add 1 1 a 1 --json", "add takes no --json"),
        ("t find 1 1 errno -o s", "find takes no -o"),
        ("t list 1 --no-wait", "list takes no --no-wait"),
        ("t add 1 1 a 1 --force", "add takes no --force"),
    ] {
        let words: Vec<&str> = words.split(' ').filter(|word| !word.is_empty()).collect();
        let words = [&["table"][..], &words].concat();
        folder.misused(&words, &format!("xcoff: table: {text}"));
    }
    for (words, text) in [
        ("--table t", "--table goes with --bench N"),
        ("--bench 1", "--bench goes with --table TABLE"),
        (
            "--table t --bench 1 --from s",
            "--from and --table are both given",
        ),
        (
            "--table t --bench x",
            "--bench: x is not a decimal number of at most 64 bits",
        ),
    ] {
        let words: Vec<&str> = ["plan", M, "-o", "s2"]
            .into_iter()
            .chain(words.split(' '))
            .collect();
        folder.misused(&words, &format!("xcoff: plan: {text}"));
    }
    assert_eq!(folder.read("t"), table);
}

// ---- two at once

/// Every row is there that some process added: none is lost between reading and replacing.
#[test]
fn what_several_add_at_once_is_all_there() {
    let folder = bench();
    thread::scope(|scope| {
        for worker in 0..6u64 {
            let folder = &folder;
            scope.spawn(move || {
                for n in 0..12u64 {
                    let (bench, id) =
                        ((1 + worker % 2).to_string(), (100 * worker + n).to_string());
                    let words = ["table", "t", "add", &bench, &id, "row", "1"];
                    assert_eq!(folder.run(&words).status, Some(0));
                    if n % 3 == 0 {
                        let words = ["table", "t", "remove", &bench, &id, "row"];
                        assert_eq!(folder.run(&words).status, Some(0));
                    }
                }
            });
        }
    });
    for bench in [1u64, 2] {
        let out = folder.done(&["table", "t", "list", &bench.to_string()]);
        let ids: Vec<u64> = rows(&out, "id")
            .iter()
            .map(|row| row[0].parse().unwrap())
            .collect();
        let workers = (0..6u64).filter(|worker| 1 + worker % 2 == bench);
        let expected: Vec<u64> = workers
            .flat_map(|worker| {
                (0..12)
                    .filter(|n| n % 3 != 0)
                    .map(move |n| 100 * worker + n)
            })
            .collect();
        assert_eq!(ids, expected);
    }
    assert_eq!(folder.names(), [M, "t"]);
}

#[test]
fn a_change_waits_for_the_lock_or_says_that_it_is_taken() {
    let folder = bench();
    let held = File::open(folder.path("")).unwrap();
    held.lock().unwrap();
    let busy = "xcoff: t: another xcoff is at work in its folder; nothing is changed\n";
    folder.fails(
        &["table", "t", "add", "1", "1", "a", "1", "--no-wait"],
        3,
        busy,
    );
    folder.fails(
        &["table", "t", "remove", "1", "1", "a", "--no-wait"],
        3,
        busy,
    );
    let other = busy.replace("t:", "u:");
    folder.fails(&["table", "u", "new", "--no-wait"], 3, &other);
    // Reading waits for nobody.
    folder.done(&["table", "t", "list", "1"]);
    let mut waiting = folder.command(&["table", "t", "add", "1", "1", "a", "1"]);
    let mut waiting = waiting.stderr(std::process::Stdio::null()).spawn().unwrap();
    thread::sleep(Duration::from_millis(300));
    assert!(waiting.try_wait().unwrap().is_none(), "it does not wait");
    drop(held);
    assert!(waiting.wait().unwrap().success());
    assert_eq!(
        rows(&folder.done(&["table", "t", "list", "1"]), "id").len(),
        1
    );
}
