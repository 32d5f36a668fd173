//! The command's S-records: written, read back, compared, and every line that is refused.

mod command_runner;

use command_runner::{sheet, tests_folder, Folder};
use std::fs;

const M: &str = "exe-imports-32";

/// The images of the module above for text at 10000 and data at 80000, as srec_cat 1.64 writes them.
const RECORDS: &str = "\
S325000100007C0802A64800002D80410014480000498041001448000065804100148062000C8D
S325000100208082001080A2001480C200184E8000208182000090410014800C0000804C0004E5
S325000100407C0903A64E80042000000000000C8000000000008182000490410014800C000075
S32500010060804C00047C0903A64E80042000000000000C80000000000081820008904100140D
S32500010080800C0000804C00047C0903A64E80042000000000000C8000000000000000000051
S325000800000000000000000004FFFFFFFC0000000000000000000000000000000000000100D4
S325000800200008006000080000000100000000000000010000000800400000000000000000F8
S3250008004000000000000000000000000000000000000000000000000000080000000000008A
S32500080060000000000000000000000000000000000000000000000000000000000000000072
S32500080080000000000000000000000000000000000000000000000000000000000000000052
S70500080030C2
";

/// Byte 9 of the data image is E4 instead of FF, in a relocated field.
const OTHER_FIELD: (&str, &str) = ("0004FFFFFFFC", "0004FFE4FFFC");
/// Byte 158 of the data image is 1B instead of 0, in no field; the checksum of its line goes with it.
const OTHER_BYTE: (&str, &str) = ("000052\nS7", "1B0037\nS7");

/// The module, a sheet for each of two cards, images and records for the first one.
fn bench() -> Folder {
    let folder = Folder::new();
    folder.copy(M);
    let commands = [
        "plan exe-imports-32 --recorded --text 10000 --data 80000 -o one.sheet",
        "plan exe-imports-32 --recorded --text 40000 --data c0000 -o two.sheet",
        "build exe-imports-32 one.sheet -o text data",
        "records exe-imports-32 one.sheet -o srec",
    ];
    for words in commands {
        done(&folder, words);
    }
    folder
}

fn done(folder: &Folder, words: &str) -> String {
    folder.done(&words.split(' ').collect::<Vec<_>>())
}

/// What is said on standard error by a command with this exit status that prints nothing.
fn fails(folder: &Folder, words: &str, status: i32, err: &str) {
    folder.fails(&words.split(' ').collect::<Vec<_>>(), status, err);
}

/// The records with one part replaced by another, and the checksum of the first data line where that part is a field.
fn edited(part: (&str, &str)) -> String {
    let text = RECORDS.replace(part.0, part.1);
    assert_ne!(text, RECORDS);
    match part {
        OTHER_FIELD => text.replace("0100D4\n", "0100EF\n"),
        _ => text,
    }
}

// ---- written and read back

#[test]
fn records_are_those_of_another_tool() {
    let folder = bench();
    assert_eq!(folder.read("srec"), RECORDS.as_bytes());
    let wrote =
        "(805 bytes, 11 lines): text 00010000-0001009f, data 00080000-0008009f, entry 00080030\n";
    let words = "records exe-imports-32 one.sheet -o again";
    assert_eq!(done(&folder, words), format!("wrote again {wrote}"));
    let words = "records exe-imports-32 one.sheet --images text data -o taken";
    assert_eq!(done(&folder, words), format!("wrote taken {wrote}"));
    assert_eq!(folder.read("taken"), RECORDS.as_bytes());

    let out = done(&folder, "images exe-imports-32 one.sheet srec -o t d");
    assert_eq!(
        out,
        "wrote t (160 bytes) and d (160 bytes): text 00010000-0001009f, data 00080000-0008009f, entry 00080030, TOC 00080040\n"
    );
    assert_eq!(folder.read("t"), folder.read("text"));
    assert_eq!(folder.read("d"), folder.read("data"));
    assert_eq!(
        done(&folder, "check exe-imports-32 one.sheet --records srec"),
        "srec holds the images of exe-imports-32 for one.sheet (text 00010000-0001009f, data 00080000-0008009f)\n"
    );
    let names = "again d data exe-imports-32 one.sheet srec t taken text two.sheet";
    assert_eq!(folder.names().join(" "), names, "nothing else is left");
}

#[test]
fn every_module_goes_from_file_to_records_and_back() {
    let entries = fs::read_dir(tests_folder().join("pairs")).unwrap();
    let names = entries.map(|e| e.unwrap().file_name().into_string().unwrap());
    let names: Vec<String> = names.filter(|n| n.ends_with("-32")).collect();
    assert!(names.len() >= 30, "{} modules", names.len());
    for name in names {
        let folder = Folder::new();
        folder.write("m", &command_runner::real(&name));
        done(&folder, "plan m --recorded -o s");
        done(&folder, "build m s -o text data");
        let out = done(&folder, "records m s -o srec");
        done(&folder, "images m s srec -o text2 data2");
        done(&folder, "check m s --records srec");
        done(&folder, "records m s --images text2 data2 -o srec2");
        for (a, b) in [("text", "text2"), ("data", "data2"), ("srec", "srec2")] {
            assert_eq!(folder.read(a), folder.read(b), "{name}: {a}");
        }
        let records = String::from_utf8(folder.read("srec")).unwrap();
        let counts = format!(
            "({} bytes, {} lines)",
            records.len(),
            records.lines().count()
        );
        assert!(out.contains(&counts), "{name}: {out}");
    }
}

#[test]
fn a_module_without_an_entry_closes_with_0() {
    let folder = Folder::new();
    folder.copy("textrel.a-32");
    done(&folder, "plan textrel.a-32 -o s");
    let out = done(&folder, "records textrel.a-32 s -o srec");
    assert!(out.ends_with(", entry none\n"), "{out}");
    assert!(folder.read("srec").ends_with(b"\nS70500000000FA\n"));
}

// ---- images that are not the sheet's

const NOT_ITS_FIELD: &str = "\
1 of 20 relocated fields are not those of one.sheet; nothing is changed
  address   image  offset  found     expected
  00080008  data        8  ffe4fffc  fffffffc
";

#[test]
fn records_are_not_written_of_images_for_another_plan() {
    let folder = bench();
    let mut data = folder.read("data");
    data[9] = 0xe4;
    folder.write("data", &data);
    let words = "records exe-imports-32 one.sheet --images text data -o new";
    fails(
        &folder,
        words,
        1,
        &format!("xcoff: text and data: {NOT_ITS_FIELD}"),
    );
    assert!(!folder.path("new").exists());
    done(&folder, &format!("{words} --unchecked"));
    assert_eq!(folder.read("new"), edited(OTHER_FIELD).as_bytes());
}

#[test]
fn records_of_another_plan_are_not_read() {
    let folder = bench();
    folder.write("srec", edited(OTHER_FIELD).as_bytes());
    let words = "images exe-imports-32 one.sheet srec -o t d";
    fails(&folder, words, 1, &format!("xcoff: srec: {NOT_ITS_FIELD}"));
    assert!(!folder.path("t").exists() && !folder.path("d").exists());
    done(&folder, &format!("{words} --unchecked"));
    assert_eq!(folder.read("t"), folder.read("text"));
    assert_eq!(folder.read("d")[8..12], [0xff, 0xe4, 0xff, 0xfc]);
}

#[test]
fn other_bytes_are_kept_with_a_warning() {
    let folder = bench();
    let mut data = folder.read("data");
    data[158] = 0x1b;
    folder.write("data", &data);
    let words = "records exe-imports-32 one.sheet --images text data --keep-changes -o new";
    let ran = folder.run(&words.split(' ').collect::<Vec<_>>());
    let warning = "1 byte outside the relocated fields is not the module's: 1 at 0008009e";
    assert_eq!(
        (ran.status, ran.err),
        (
            Some(0),
            format!("xcoff: warning: data: {warning} (offset 158); kept as found\n")
        )
    );
    assert_eq!(folder.read("new"), edited(OTHER_BYTE).as_bytes());

    let words = "images exe-imports-32 one.sheet new --keep-changes -o t d";
    let ran = folder.run(&words.split(' ').collect::<Vec<_>>());
    assert_eq!(
        (ran.status, ran.err),
        (
            Some(0),
            format!("xcoff: warning: new: {warning} (line 10); kept as found\n")
        )
    );
    assert_eq!(folder.read("d"), data);
    // Nothing is compared, so nothing is said.
    done(
        &folder,
        "images exe-imports-32 one.sheet new --unchecked -o t d",
    );
    assert_eq!(folder.read("d"), data);
}

// ---- checks

#[test]
fn a_check_says_where_records_differ_and_whether_in_fields() {
    let folder = bench();
    folder.write("byte", edited(OTHER_BYTE).as_bytes());
    fails(
        &folder,
        "check exe-imports-32 one.sheet --records byte",
        1,
        "xcoff: byte holds the text image for one.sheet\n\
         xcoff: byte does not hold the data image for one.sheet: 1 byte differs, \
         the first at 0008009e (line 10), found 1b, expected 00\n\
         xcoff: the relocated fields are those of one.sheet\n",
    );
    folder.write("field", edited(OTHER_FIELD).as_bytes());
    fails(
        &folder,
        "check exe-imports-32 one.sheet --records field",
        1,
        "xcoff: field holds the text image for one.sheet\n\
         xcoff: field does not hold the data image for one.sheet: 1 byte differs, \
         the first at 00080009 (line 6), found e4, expected ff\n\
         xcoff: 1 of 20 relocated fields are not those of one.sheet\n",
    );
    let text = edited(("A64800002D80", "A64800002E80")).replace("000C8D\n", "000C8C\n");
    folder.write("text-byte", text.as_bytes());
    fails(
        &folder,
        "check exe-imports-32 one.sheet --records text-byte",
        1,
        "xcoff: text-byte does not hold the text image for one.sheet: 1 byte differs, \
         the first at 00010007 (line 1), found 2e, expected 2d\n\
         xcoff: text-byte holds the data image for one.sheet\n\
         xcoff: the relocated fields are those of one.sheet\n",
    );
}

#[test]
fn a_check_of_several_sheets_says_which_the_records_are_for() {
    let folder = bench();
    let words = "check exe-imports-32 two.sheet --records srec --or one.sheet";
    let at = "(text 00010000-0001009f, data 00080000-0008009f)";
    let holds = format!("srec holds the images of exe-imports-32 for one.sheet {at}");
    assert_eq!(done(&folder, words), format!("{holds}\n"));
    folder.write("same.sheet", &folder.read("one.sheet"));
    // One that does not fit is one that the records are not for, wherever it stands.
    folder.write("short.sheet", &sheet(0, 0, &[1]));
    folder.write("clash.sheet", &sheet(0, 0, &[0; 9]));
    let words = "check exe-imports-32 short.sheet --or clash.sheet --or one.sheet --or same.sheet --records srec";
    assert_eq!(
        done(&folder, words),
        format!("{holds} and same.sheet {at}\n")
    );

    let words = "check exe-imports-32 short.sheet --or clash.sheet --or two.sheet --records srec";
    let lines: Vec<&str> = RECORDS.lines().collect();
    let moved = lines[0]
        .replace("00010000", "00040000")
        .replace("0C8D", "0C8A");
    let expected = format!(
        "xcoff: short.sheet for exe-imports-32 (addresses: 1, loader symbols: 9): {NO_LIST}\n\
         xcoff: clash.sheet for exe-imports-32 (text 00000000-0000009f, data 00000000-0000009f): {CLASH}\n\
         xcoff: srec for two.sheet: {}\n  found     {}\n  expected  {moved}\n",
        record(1),
        lines[0]
    );
    fails(&folder, words, 1, &expected);
}

// ---- refusals

const NO_LIST: &str =
    "refused 20 2 0: ROOM, the list of addresses is not exactly as long as needed";
const CLASH: &str = "refused 24 0 0: CLASH, the text and data images share an address";

fn record(line: usize) -> String {
    format!(
        "refused 22 {line} 0: RECORD, line {line} of the record text is not the line that is written there, \
         or is missing or one too many"
    )
}

/// Images and check refuse the records for this line, which is found so; nothing is written.
fn line_is_refused(folder: &Folder, records: &[u8], line: usize, found: &str) {
    folder.write("bad", records);
    let nothing = "nothing: the line before is the last one";
    let expected = RECORDS.lines().nth(line - 1).unwrap_or(nothing);
    let err = format!(
        "xcoff: bad for one.sheet: {}\n  found     {found}\n  expected  {expected}\n",
        record(line)
    );
    fails(
        folder,
        "images exe-imports-32 one.sheet bad -o t d",
        1,
        &err,
    );
    fails(
        folder,
        "images exe-imports-32 one.sheet bad --unchecked -o t d",
        1,
        &err,
    );
    fails(
        folder,
        "check exe-imports-32 one.sheet --records bad",
        1,
        &err,
    );
    assert!(!folder.path("t").exists() && !folder.path("d").exists());
}

/// What is put for what, and the line that is refused: it is shown as it is then.
const DAMAGE: [(&str, &str, usize); 14] = [
    ("S325000100007C", "S125000100007C", 1),
    ("S325000100007C", "S0030000FC\nS325000100007C", 1),
    ("S32500010020", "S32400010020", 2),
    ("S32500010040", "S32500010041", 3),
    ("S32500010060", "S32500010080", 4),
    ("S32500010060", "\nS32500010060", 4),
    ("7C0802A6", "7c0802A6", 1),
    ("7C0802A6", "7G0802A6", 1),
    ("7C0802A6", "0802A6", 1),
    ("04FFFFFFFC", "04FFFFFFFD", 6),
    ("0100D4\n", "0100D5\n", 6),
    ("S70500080030C2", "S70500080031C1", 11),
    ("S70500080030C2", "S5030000FC\nS70500080030C2", 11),
    ("S70500080030C2", "S80500080030C2", 11),
];

#[test]
fn a_line_that_is_not_as_it_must_be_is_shown() {
    let folder = bench();
    for (part, with, line) in DAMAGE {
        let records = edited((part, with));
        let found = records.lines().nth(line - 1).unwrap();
        let found = if found.is_empty() { "\"\"" } else { found };
        line_is_refused(&folder, records.as_bytes(), line, found);
    }
    // Data before text.
    let lines: Vec<&str> = RECORDS.split_inclusive('\n').collect();
    let swapped = [&lines[5..10], &lines[..5], &lines[10..]].concat().concat();
    line_is_refused(&folder, swapped.as_bytes(), 1, lines[5].trim_end());
    // Line ends of another system, and bytes that a terminal would obey.
    let first = RECORDS.lines().next().unwrap();
    let returns = RECORDS.replace('\n', "\r\n");
    line_is_refused(&folder, returns.as_bytes(), 1, &format!("{first}\\x0d"));
    let odd = edited(("S32500010020", "\u{1b}[2J \\S32500010020"));
    let found = format!("\\x1b[2J\\x20\\\\{}", lines[1].trim_end());
    line_is_refused(&folder, odd.as_bytes(), 2, &found);
}

#[test]
fn a_missing_line_and_one_too_many_are_told() {
    let folder = bench();
    let missing = "nothing: the file ends before this line";
    line_is_refused(&folder, b"", 1, missing);
    let records = RECORDS.as_bytes();
    line_is_refused(&folder, &records[..790], 11, missing);
    line_is_refused(&folder, &records[..79], 2, missing);
    let ends = "and no newline: the file ends here";
    line_is_refused(
        &folder,
        &records[..804],
        11,
        &format!("S70500080030C2 {ends}"),
    );
    line_is_refused(&folder, &records[..85], 2, &format!("S32500 {ends}"));

    let more = |bytes: &[u8]| [records, bytes].concat();
    line_is_refused(&folder, &more(b"\n"), 12, "\"\"");
    line_is_refused(&folder, &more(b"\x1a"), 12, &format!("\\x1a {ends}"));
    line_is_refused(&folder, &more(records), 12, RECORDS.lines().next().unwrap());
    // A long line is cut, be it one too many or not.
    let long = "n".repeat(256);
    line_is_refused(
        &folder,
        &more(long.as_bytes()),
        12,
        &format!("{long} {ends}"),
    );
    line_is_refused(&folder, &more(format!("{long}\n").as_bytes()), 12, &long);
    let cut = format!("{long}\\...");
    line_is_refused(&folder, &more(format!("{long}n").as_bytes()), 12, &cut);
    line_is_refused(&folder, &more(format!("{long}nn\n").as_bytes()), 12, &cut);
    line_is_refused(&folder, "n".repeat(4000).as_bytes(), 1, &cut);
}

#[test]
fn an_endless_file_of_records_ends() {
    let folder = bench();
    let shown = "\\x00".repeat(256);
    let err = format!(
        "xcoff: /dev/zero for one.sheet: {}\n  found     {shown}\\...\n  expected  {}\n",
        record(1),
        RECORDS.lines().next().unwrap()
    );
    let words = "check exe-imports-32 one.sheet --records /dev/zero";
    fails(&folder, words, 1, &err);
}

/// A plan that is refused, in every command that takes records.
fn plan_is_refused(folder: &Folder, module: &str, sheet: &str, text: &str) {
    let err = format!("xcoff: {sheet} for {module}{text}\n");
    for words in [
        "records M S -o t",
        "records M S --images text data -o t",
        "records M S --images text data --unchecked -o t",
        "images M S srec -o t d",
        "images M S srec --unchecked -o t d",
        "images M S none -o t d",
        "check M S --records srec",
    ] {
        let words = words.replace('M', module).replace('S', sheet);
        fails(folder, &words, 1, &err);
    }
    assert!(!folder.path("t").exists() && !folder.path("d").exists());
}

#[test]
fn a_refused_plan_is_named_with_its_number() {
    let folder = bench();
    folder.write("short", &sheet(0, 0, &[0; 8]));
    folder.write("high", &sheet(0xffff_ff61, 0, &[0; 9]));
    folder.write("same", &sheet(0x1000, 0x1000, &[0; 9]));
    folder.write("over", &sheet(0x109f, 0x1000, &[0; 9]));
    let short = format!(" (addresses: 8, loader symbols: 9): {NO_LIST}");
    plan_is_refused(&folder, M, "short", &short);
    let high = "refused 19 0 0: PLAN, the text image at the plan's text address passes the end of the address space";
    let high = format!(" (text at ffffff61, 160 bytes): {high}");
    plan_is_refused(&folder, M, "high", &high);
    let same = format!(" (text 00001000-0000109f, data 00001000-0000109f): {CLASH}");
    plan_is_refused(&folder, M, "same", &same);
    let over = format!(" (text 0000109f-0000113e, data 00001000-0000109f): {CLASH}");
    plan_is_refused(&folder, M, "over", &over);
    // Images that only touch share nothing, and text may end with the address space.
    folder.write("touch", &sheet(0x10a0, 0x1000, &[0; 9]));
    folder.write("top", &sheet(0xffff_ff60, 0, &[0; 9]));
    for name in ["touch", "top"] {
        done(&folder, &format!("records exe-imports-32 {name} -o new"));
        done(
            &folder,
            &format!("check exe-imports-32 {name} --records new"),
        );
    }
}

#[test]
fn an_xcoff64_module_has_no_records() {
    let folder = bench();
    folder.copy("exe-imports-64");
    done(&folder, "plan exe-imports-64 --recorded -o sheet64");
    let form = ": refused 23 0 0: FORM, S-records are for XCOFF32 modules only";
    plan_is_refused(&folder, "exe-imports-64", "sheet64", form);
}

#[test]
fn images_of_the_wrong_length_are_refused() {
    let folder = bench();
    folder.write("longer", &[&folder.read("data")[..], &[0]].concat());
    folder.write("none", b"");
    for unchecked in ["", "--unchecked "] {
        let records = format!("records exe-imports-32 one.sheet {unchecked}-o t --images");
        fails(
            &folder,
            &format!("{records} text longer"),
            1,
            "xcoff: longer (161 bytes, where the data image of exe-imports-32 has 160): \
             refused 20 1 0: ROOM, the data image is not exactly as long as needed\n",
        );
        fails(
            &folder,
            &format!("{records} none longer"),
            1,
            "xcoff: none (0 bytes, where the text image of exe-imports-32 has 160): \
             refused 20 0 0: ROOM, the text image, sheet, record text or whole file is not exactly as long as needed\n",
        );
    }
    assert!(!folder.path("t").exists());
}
