//! The command's answers about one address of a plan: `relocations --follows`, and what `check` says explains a difference.

mod command_runner;
mod made;

use command_runner::{real, sheet, Folder};
use made::{Module, Symbol};
use xcoff::Format;

const M: &str = "exe-dso-32";
const HEADING: &str = "entry  address   image  offset  bits  sign  type  symbol  name\n";

// ---- relocations --follows

#[test]
fn fields_are_listed_by_the_address_that_they_follow() {
    let folder = Folder::new();
    folder.copy(M);
    let text = "    2  20000150  data       16    32  +     1f00       0  text\n";
    let data = "    1  20000168  data       40    32  +     1f00       1  data\n    \
                    3  20000154  data       20    32  +     1f00       1  data\n    \
                    6  20000148  data        8    32  +     1f00       1  data\n";
    let counter = "    0  20000164  data       36    32  +     1f00       6  counter\n    \
                       4  20000140  data        0    32  +     1f00       6  counter\n";
    for (follows, rows) in [
        ("text", text),
        ("data", data),
        ("counter", counter),
        ("@6", counter),
        (r"count\x65r", counter),
    ] {
        let out = folder.done(&["relocations", M, "--follows", follows]);
        assert_eq!(out, format!("{HEADING}{rows}"), "{follows}");
    }
    let json = folder.done(&["relocations", "--follows=text", M, "--json"]);
    let all = folder.done(&["relocations", M, "--json"]);
    assert_eq!(all.lines().nth(2), Some(json.trim_end()));
    assert!(json.starts_with(r#"{"table":"relocations","entry":2,"address":"20000150","#));
}

/// A module with one field for each list of entries: their symbols, and whether they subtract. Loader symbols 3 to 7 are
/// defined in text and in data, imported twice, and deferred; all are named `s`.
fn module(format: Format, kind: u16, fields: &[&[(u32, bool)]]) -> Vec<u8> {
    let mut m = Module::new(format);
    m.symbols = vec![
        Symbol::Text,
        Symbol::Data,
        Symbol::Import,
        Symbol::Import,
        Symbol::Deferred,
    ];
    m.relocate(2, m.data_address, kind, fields);
    m.bytes()
}

#[test]
fn every_entry_of_a_field_is_listed_where_one_names_the_address() {
    let folder = Folder::new();
    let fields: [&[(u32, bool)]; 4] = [
        &[(0, false), (1, true)],
        &[(4, false), (5, false)],
        &[(7, false)],
        &[(7, false), (3, true)],
    ];
    folder.write("m", &module(Format::Xcoff32, 0x1F00, &fields));
    for (follows, entries) in [
        ("text", "0 1 5 6"),
        ("data", "0 1 2 3"),
        ("@5", "2 3"),
        ("@6", ""),
    ] {
        let out = folder.done(&["relocations", "m", "--follows", follows]);
        let listed = out
            .lines()
            .skip(1)
            .map(|row| row.split_whitespace().next().unwrap());
        assert_eq!(listed.collect::<Vec<_>>().join(" "), entries, "{follows}");
    }
}

#[test]
fn an_address_that_is_not_there_is_a_wrong_command_line() {
    let folder = Folder::new();
    folder.copy("exe-imports-32");
    folder.write("m", &module(Format::Xcoff64, 0x3F00, &[]));
    let known = "the module has @3 errno, @4 malloc, @5 a_function_with_a_long_name, \
                 @7 environ_of_the_process, @9 sysvar, @11 exactly8";
    for (file, follows, why) in [
        (
            "exe-imports-32",
            "bss",
            format!("there is no such import; {known}"),
        ),
        (
            "exe-imports-32",
            "@12",
            format!("there is no such import; {known}"),
        ),
        ("exe-imports-32", "@6", "@6 is not an import".into()),
        (
            "exe-imports-32",
            "__start",
            format!("there is no such import; {known}"),
        ),
        (
            "exe-imports-32",
            "later",
            "@8 is a deferred import, which has no address in a plan".into(),
        ),
        (
            "exe-imports-32",
            "@x",
            "after @ comes a loader symbol index in decimal".into(),
        ),
        (
            "exe-imports-32",
            r"a\b",
            r"a backslash in a name is \\ or begins \xNN".into(),
        ),
        (
            "m",
            "s",
            "2 imports have this name: @5, @6; choose one by its index, as in --follows @5".into(),
        ),
    ] {
        folder.misused(
            &["relocations", file, "--follows", follows],
            &format!("xcoff: relocations: --follows {follows}: {why}"),
        );
    }
    folder.misused(
        &["relocations", "m", "--follows"],
        "xcoff: relocations: --follows needs text|data|IMPORT",
    );
    folder.misused(
        &["relocations", "m", "--follows", "text", "--follows", "data"],
        "xcoff: relocations: --follows is given twice",
    );
    folder.misused(
        &["headers", "m", "--follows", "text"],
        "xcoff: headers: unknown option --follows",
    );
}

// ---- check: which address explains every field that differs

/// A module with the sheet `plan`, and the images for other addresses.
struct Bench(Folder);

impl Bench {
    fn new(file: &[u8], plan: &[u8], other: &[u8]) -> Bench {
        let folder = Folder::new();
        folder.write("m", file);
        folder.write("plan", plan);
        folder.write("other", other);
        // A sheet with something in the places that are ignored is warned of.
        let ran = folder.run(&["build", "m", "other", "-o", "text", "data"]);
        assert_eq!(ran.status, Some(0), "{}", ran.err);
        Bench(folder)
    }

    /// The lines of `check` after those that count what differs.
    fn explained(&self) -> Vec<String> {
        let ran = self.0.run(&["check", "m", "plan", "text", "data"]);
        assert_eq!((ran.status, ran.out.as_str()), (Some(1), ""), "{}", ran.err);
        ran.err.lines().skip(3).map(str::to_string).collect()
    }
}

fn line(address: &str, new: &str, old: &str) -> String {
    format!(
        "xcoff: {address} alone explains every field that differs: {new} instead of {old}; the images are then the plan's"
    )
}

#[test]
fn the_address_that_differs_is_found_in_a_real_module() {
    let file = real(M);
    let list = [0, 0x10, 0x20, 0x30, 0x40];
    let plan = sheet(0x1000, 0x2000, &list);
    for (other, address, new, old) in [
        (
            sheet(0x5000, 0x2000, &list),
            "the text address",
            "00005000",
            "00001000",
        ),
        (
            sheet(0x1000, 0, &list),
            "the data address",
            "00000000",
            "00002000",
        ),
        (
            sheet(0x1000, 0x2000, &[0, 0x10, 0x20, 0xffff_fffc, 0x40]),
            "the address of import @6 counter",
            "fffffffc",
            "00000030",
        ),
    ] {
        let bench = Bench::new(&file, &plan, &other);
        assert_eq!(bench.explained(), [line(address, new, old)]);
        let ran = bench.0.run(&["check", "m", "plan", "text", "data"]);
        assert!(
            ran.err
                .contains(" relocated fields are not those of plan\n"),
            "{}",
            ran.err
        );
    }
    // Two addresses: no single one explains both.
    let bench = Bench::new(&file, &plan, &sheet(0x5000, 0x6000, &list));
    assert_eq!(bench.explained(), [""; 0]);
    // Ignored places count for nothing: @3 is defined.
    let bench = Bench::new(
        &file,
        &plan,
        &sheet(0x5000, 0x2000, &[9, 0x10, 0x20, 0x30, 0x40]),
    );
    let text = line("the text address", "00005000", "00001000");
    assert_eq!(bench.explained(), [text]);
}

#[test]
fn modules_that_were_linked_twice_are_told_apart_by_one_address() {
    for (pair, address) in [("main-text", "text"), ("main-data", "data")] {
        for bits in ["32", "64"] {
            let folder = Folder::new();
            let [a, b] = ["a", "b"].map(|one| format!("{pair}.{one}-{bits}"));
            let files = [folder.copy(&a), folder.copy(&b)];
            let [old, new] = files.map(|file| {
                let m = xcoff::module(&file).unwrap();
                if address == "text" {
                    m.text.address
                } else {
                    m.data.address
                }
            });
            folder.done(&["plan", &a, "--recorded", "-o", "a.sheet"]);
            folder.done(&["plan", &b, "--recorded", "-o", "b.sheet"]);
            folder.done(&["build", &b, "b.sheet", "-o", "text", "data"]);
            let ran = folder.run(&["check", &a, "a.sheet", "text", "data"]);
            let digits = if bits == "32" { 8 } else { 16 };
            let expected = format!(
                "xcoff: the {address} address alone explains every field that differs: {new:0digits$x} instead of {old:0digits$x}; "
            );
            assert!(
                ran.err.lines().last().unwrap().starts_with(&expected),
                "{a}: {}",
                ran.err
            );
        }
    }
}

#[test]
fn other_bytes_that_differ_are_told_of() {
    let list = [0, 0x10, 0x20, 0x30, 0x40];
    let bench = Bench::new(
        &real(M),
        &sheet(0x1000, 0x2000, &list),
        &sheet(0x5000, 0x2000, &list),
    );
    let mut text = bench.0.read("text");
    text[0] ^= 1;
    bench.0.write("text", &text);
    let expected = line("the text address", "00005000", "00001000");
    let expected = expected.replace(
        "the images are then the plan's",
        "then only other bytes differ",
    );
    assert_eq!(bench.explained(), [expected]);
    // A byte of a field that no address explains: nothing is said.
    let mut data = bench.0.read("data");
    data[4] ^= 1;
    bench.0.write("data", &data);
    assert_eq!(bench.explained(), [""; 0]);
}

#[test]
fn records_and_several_sheets_are_explained_alike() {
    let folder = Folder::new();
    folder.copy(M);
    folder.done(&["plan", M, "--recorded", "-o", "plain"]);
    folder.done(&[
        "plan",
        M,
        "--recorded",
        "--import",
        "counter=5000",
        "-o",
        "one",
    ]);
    folder.done(&[
        "plan",
        M,
        "--recorded",
        "--import",
        "counter=6000",
        "-o",
        "two",
    ]);
    folder.done(&["records", M, "one", "-o", "srec"]);
    let args = ["check", M, "plain", "--records", "srec", "--or", "two"];
    let ran = folder.run(&args);
    let explained: Vec<&str> = ran.err.lines().filter(|l| l.contains("explains")).collect();
    let counter = "the address of import @6 counter";
    assert_eq!(
        explained,
        [
            line(counter, "00005000", "00000000"),
            line(counter, "00005000", "00006000")
        ]
    );
}

/// Sheets for the modules above: the text address, the data address, the imports @5 and @6.
fn plan(text: u64, data: u64, imports: [u64; 2]) -> Vec<u8> {
    sheet(text, data, &[0, 0, imports[0], imports[1], 0])
}

#[test]
fn each_address_that_explains_is_named() {
    let fields: [&[(u32, bool)]; 1] =
        [&[(0, false), (5, true), (6, false), (1, false), (7, false)]];
    let bench = Bench::new(
        &module(Format::Xcoff32, 0x1F00, &fields),
        &plan(0x1000, 0x2000, [0x30, 0x40]),
        &plan(0x1010, 0x2000, [0x30, 0x40]),
    );
    let expected = [
        line("the text address", "00001010", "00001000"),
        line("the data address", "00002010", "00002000"),
        line("the address of import @5 s", "00000020", "00000030"),
        line("the address of import @6 s", "00000050", "00000040"),
    ];
    assert_eq!(bench.explained(), expected);
}

#[test]
fn an_address_that_would_change_another_field_explains_nothing() {
    let fields: [&[(u32, bool)]; 2] = [&[(0, false), (5, false)], &[(5, false)]];
    let bench = Bench::new(
        &module(Format::Xcoff32, 0x1F00, &fields),
        &plan(0x1000, 0x2000, [0x30, 0x40]),
        &plan(0x1010, 0x2000, [0x30, 0x40]),
    );
    let expected = line("the text address", "00001010", "00001000");
    assert_eq!(bench.explained(), [expected]);
}

#[test]
fn an_address_that_no_plan_has_is_not_proposed() {
    // Text of 256 bytes cannot begin 16 bytes before the end of the address space.
    let fields: [&[(u32, bool)]; 1] = [&[(0, false), (5, false)]];
    let bench = Bench::new(
        &module(Format::Xcoff32, 0x1F00, &fields),
        &plan(0x1000, 0x2000, [0x30, 0x40]),
        &plan(0x1000, 0x2000, [0xffff_f020, 0x40]),
    );
    let expected = line("the address of import @5 s", "fffff020", "00000030");
    assert_eq!(bench.explained(), [expected]);
}

#[test]
fn several_entries_on_a_field_are_counted() {
    // Subtracted, twice and three times; the last field's entries cancel.
    let fields: [&[(u32, bool)]; 4] = [
        &[(5, true)],
        &[(5, false), (5, false)],
        &[(5, false), (5, false), (5, false), (6, true)],
        &[(5, false), (5, true)],
    ];
    let old = [0x30, 0x40];
    for (bits, width, new) in [
        (Format::Xcoff32, 0x1F00, 0x8000_1234),
        (Format::Xcoff64, 0x1F00, 0x8000_1234),
        (Format::Xcoff64, 0x3F00, 0xffff_0000_8000_1234),
    ] {
        let file = module(bits, width, &fields);
        let bench = Bench::new(&file, &plan(0, 0x1000, old), &plan(0, 0x1000, [new, 0x40]));
        let digits = if bits == Format::Xcoff32 { 8 } else { 16 };
        let (new, old) = (format!("{new:0digits$x}"), format!("{:0digits$x}", 0x30));
        assert_eq!(
            bench.explained(),
            [line("the address of import @5 s", &new, &old)]
        );
    }
}

#[test]
fn bits_that_no_field_tells_are_the_plans() {
    // Twice the same: the top bit is not seen. A narrow field: the upper half is not seen.
    for (format, fields, old, new, told) in [
        (
            Format::Xcoff32,
            &[(5, false), (5, false)][..],
            0x30,
            0x8000_0040,
            "00000040",
        ),
        (
            Format::Xcoff64,
            &[(5, false)][..],
            0x7_0000_0030,
            0x9_0000_0040,
            "0000000700000040",
        ),
    ] {
        let bench = Bench::new(
            &module(format, 0x1F00, &[fields]),
            &plan(0, 0x1000, [old, 0]),
            &plan(0, 0x1000, [new, 0]),
        );
        let old = format!("{old:0width$x}", width = told.len());
        assert_eq!(
            bench.explained(),
            [line("the address of import @5 s", told, &old)]
        );
    }
    // An odd number is no multiple of two.
    let file = module(Format::Xcoff32, 0x1F00, &[&[(5, false), (5, false)]]);
    let old = plan(0, 0x1000, [0x30, 0]);
    let bench = Bench::new(&file, &old, &old);
    let mut data = bench.0.read("data");
    data[3] ^= 1;
    bench.0.write("data", &data);
    assert_eq!(bench.explained(), [""; 0]);
}
