//! The command's plans, builds, moves and checks, on real modules.

mod command_runner;

use command_runner::{has_fixed_text, linked_images, pairs, real, sheet, Folder};
use xcoff::{loader_symbol_table, module, Anchor, Format, Plan};

// ---- plans and sheets

/// The plan that a module records.
fn recorded(file: &[u8]) -> Plan {
    let m = module(file).unwrap();
    let rows = loader_symbol_table(file).unwrap();
    Plan {
        text: m.text.address,
        data: m.data.address,
        list: rows.iter().map(|row| row.symbol.value).collect(),
    }
}

#[test]
fn a_plan_has_recorded_addresses_where_none_is_given() {
    let folder = Folder::new();
    folder.copy("exe-imports-32");
    let out = folder.done(&["plan", "exe-imports-32", "--recorded", "-o", "recorded"]);
    assert_eq!(
        out,
        "wrote recorded (96 bytes): text 10000100-1000019f, data 200001a0-2000023f, 0 of 6 imports given, 6 as recorded; entry 200001d0, TOC 200001e0\n"
    );
    let list = [0, 0, 0, 0x2000_01d0, 0, 0, 0, 0, 0];
    assert_eq!(
        folder.read("recorded"),
        sheet(0x1000_0100, 0x2000_01a0, &list)
    );
    let words = "plan exe-imports-32 --recorded --import errno=AbC --text 0x30000000 --import @9=7 --data=40000000 -o given";
    let out = folder.done(&words.split(' ').collect::<Vec<_>>());
    assert_eq!(
        out,
        "wrote given (96 bytes): text 30000000-3000009f, data 40000000-4000009f, 2 of 6 imports given, 4 as recorded; entry 40000030, TOC 40000040\n"
    );
    let list = [0xabc, 0, 0, 0x2000_01d0, 0, 0, 7, 0, 0];
    assert_eq!(folder.read("given"), sheet(0x3000_0000, 0x4000_0000, &list));
}

const ALONE: &str = "\
text      data      addresses
00001000  00002000          5

index  address
    3  00000000
    4  00000002
    5  00000003
    6  00000004
    7  0000fedc
";

const BESIDE: &str = "\
text      data      addresses
00001000  00002000          5

index  address   use       name
    3  -         defined   __start
    4  00000002  import    table_of_words
    5  00000003  import    zeroed_area
    6  00000004  import    counter
    7  0000fedc  import    helper_function_long_name
";

#[test]
fn a_sheet_is_printed_alone_and_beside_its_module() {
    let folder = Folder::new();
    folder.copy("exe-dso-32");
    folder.write("s", &sheet(0x1000, 0x2000, &[0, 2, 3, 4, 0xfedc]));
    assert_eq!(folder.done(&["sheet", "s"]), ALONE);
    assert_eq!(folder.done(&["sheet", "s", "exe-dso-32"]), BESIDE);
    let json = folder.done(&["sheet", "s", "exe-dso-32", "--json"]);
    let last = concat!(
        r#"{"table":"addresses","index":7,"address":"0000fedc","use":"import","#,
        r#""name":"helper_function_long_name"}"#
    );
    assert_eq!(json.lines().last(), Some(last));
    // Addresses above 32 bits take 16 digits.
    folder.write("wide", &sheet(1 << 32, 0, &[]));
    let out = folder.done(&["sheet", "wide"]);
    let addresses = "0000000100000000  0000000000000000          0";
    assert_eq!(out.lines().nth(1), Some(addresses));
}

// ---- builds and moves: modules that GNU ld linked twice

/// `plan` for the addresses that a module records.
fn plan_for(folder: &Folder, file: &str, addresses: &Plan, out: &str) {
    let text = format!("{:x}", addresses.text);
    let data = format!("{:x}", addresses.data);
    let mut args = vec![
        "plan",
        file,
        "--recorded",
        "--text",
        &text,
        "--data",
        &data,
        "-o",
        out,
    ];
    let bytes = real(file);
    let rows = loader_symbol_table(&bytes).unwrap();
    let imports: Vec<String> = rows
        .iter()
        .zip(&addresses.list)
        .filter(|(row, _)| row.symbol.is_import() && !row.symbol.is_deferred())
        .map(|(row, address)| format!("--import=@{}={address:x}", row.index))
        .collect();
    args.extend(imports.iter().map(String::as_str));
    folder.done(&args);
}

/// The line that `build` prints.
fn built(file: &[u8]) -> String {
    let m = module(file).unwrap();
    let digits = match m.format {
        Format::Xcoff32 => 8,
        Format::Xcoff64 => 16,
    };
    let address =
        |a: Option<Anchor>| a.map_or("none".into(), |a| format!("{:0digits$x}", a.address));
    let range = |first: u64, size: u64| format!("{first:0digits$x}-{:0digits$x}", first + size - 1);
    format!(
        "built text ({} bytes) and data ({} bytes): text {}, data {}, entry {}, TOC {}\n",
        m.text.size,
        m.image,
        range(m.text.address, m.text.size),
        range(m.data.address, m.image),
        address(m.entry),
        address(m.toc)
    )
}

#[test]
fn a_module_built_for_the_others_addresses_has_its_bytes_and_moves_back() {
    for a in pairs() {
        let b = a.replace(".a-", ".b-");
        let folder = Folder::new();
        let (file_a, file_b) = (folder.copy(&a), folder.copy(&b));
        plan_for(&folder, &a, &recorded(&file_a), "a.sheet");
        plan_for(&folder, &a, &recorded(&file_b), "b.sheet");
        let out = folder.done(&["build", &a, "b.sheet", "-o", "text", "data"]);
        assert_eq!(out, built(&file_b), "{a}");
        let (text, data) = linked_images(&file_b);
        assert_eq!(folder.read("data"), data, "{b}: data");
        // ld keeps no loader entries for the read-only text of this pair.
        if !has_fixed_text(&a) {
            assert_eq!(folder.read("text"), text, "{b}: text");
        }

        let back = [
            "move", &a, "b.sheet", "a.sheet", "text", "data", "-o", "text2", "data2",
        ];
        let out = folder.done(&back);
        let expected = built(&file_a).replace("built text", "moved text2");
        assert_eq!(out, expected.replace("and data", "and data2"), "{a}");
        let images = (folder.read("text2"), folder.read("data2"));
        assert_eq!(images, linked_images(&file_a), "{a} moved back");
        folder.done(&["check", &a, "b.sheet", "text", "data"]);
        folder.done(&["check", &a, "a.sheet", "text2", "data2"]);
    }
}

/// A module with sheets for two cards and its images for the first one.
fn two_cards() -> Folder {
    let folder = Folder::new();
    folder.copy("exe-imports-32");
    folder.done(&[
        "plan",
        "exe-imports-32",
        "--recorded",
        "--import",
        "errno=5000",
        "-o",
        "one.sheet",
    ]);
    let words =
        "plan exe-imports-32 --recorded --text 20000000 --data 30000000 --import errno=6000 -o two.sheet";
    folder.done(&words.split(' ').collect::<Vec<_>>());
    folder.done(&["build", "exe-imports-32", "one.sheet", "-o", "text", "data"]);
    folder
}

fn step<'a>(from: &'a str, to: &'a str) -> [&'a str; 6] {
    ["move", "exe-imports-32", from, to, "text", "data"]
}

#[test]
fn a_move_replaces_the_images_in_place() {
    let folder = two_cards();
    let before = (folder.read("text"), folder.read("data"));
    let out = folder.done(&step("one.sheet", "two.sheet"));
    assert_eq!(
        out,
        "moved text (160 bytes) and data (160 bytes): text 20000000-2000009f, data 30000000-3000009f, entry 30000030, TOC 30000040\n"
    );
    folder.done(&["build", "exe-imports-32", "two.sheet", "-o", "t", "d"]);
    assert_eq!(
        (folder.read("text"), folder.read("data")),
        (folder.read("t"), folder.read("d"))
    );
    folder.done(&step("two.sheet", "two.sheet"));
    folder.done(&step("two.sheet", "one.sheet"));
    assert_eq!((folder.read("text"), folder.read("data")), before);
    let names = [
        "d",
        "data",
        "exe-imports-32",
        "one.sheet",
        "t",
        "text",
        "two.sheet",
    ];
    assert_eq!(folder.names(), names, "nothing else is left");
}

#[test]
fn images_are_not_moved_twice() {
    let folder = two_cards();
    folder.done(&step("one.sheet", "two.sheet"));
    let moved = (folder.read("text"), folder.read("data"));
    folder.fails(
        &step("one.sheet", "two.sheet"),
        1,
        "xcoff: text and data: these images are for two.sheet, which was given as TO: they are already moved, or FROM and TO are exchanged; nothing is changed\n",
    );
    assert_eq!((folder.read("text"), folder.read("data")), moved);

    // The rules' own move takes the images as they are.
    let mut unchecked = step("one.sheet", "two.sheet").to_vec();
    unchecked.push("--unchecked");
    folder.done(&unchecked);
    let twice = [0x2f, 0xff, 0xff, 0x00];
    assert_eq!(folder.read("data")[48..52], twice, "the text address");
}

const NOT_FROM_ONE: &str = "\
xcoff: text and data: 10 of 20 relocated fields are not those of one.sheet; nothing is changed
xcoff: they are for neither one.sheet nor three.sheet; xcoff check --or finds the sheet that images are for
  address   image  offset  found     expected
  200001a0  data        0  00006000  00005000
  200001a4  data        4  00006004  00005004
  200001a8  data        8  00005ffc  00004ffc
  200001c0  data       32  30000060  20000200
  200001c4  data       36  30000000  200001a0
  200001c8  data       40  20000000  10000100
  200001d0  data       48  20000000  10000100
  200001d4  data       52  30000040  200001e0
  and 2 more
";

#[test]
fn images_are_not_moved_from_a_plan_they_are_not_for() {
    let folder = two_cards();
    folder.done(&step("one.sheet", "two.sheet"));
    let moved = (folder.read("text"), folder.read("data"));
    let words = "plan exe-imports-32 --recorded --text 20000100 --data 300001a0 -o three.sheet";
    folder.done(&words.split(' ').collect::<Vec<_>>());
    let wrong = step("one.sheet", "three.sheet");
    folder.fails(&wrong, 1, NOT_FROM_ONE);
    folder.fails(
        &[&wrong[..], &["-o", "text2", "data2"]].concat(),
        1,
        NOT_FROM_ONE,
    );
    assert_eq!((folder.read("text"), folder.read("data")), moved);
    assert!(!folder.path("text2").exists() && !folder.path("data2").exists());
}

#[test]
fn one_wrong_field_stops_a_move() {
    let folder = two_cards();
    let mut data = folder.read("data");
    data[51] ^= 1;
    folder.write("data", &data);
    let expected = "\
xcoff: text and data: 1 of 20 relocated fields are not those of one.sheet; nothing is changed
xcoff: they are for neither one.sheet nor two.sheet; xcoff check --or finds the sheet that images are for
  address   image  offset  found     expected
  200001d0  data       48  10000101  10000100
";
    folder.fails(&step("one.sheet", "two.sheet"), 1, expected);
    assert_eq!(folder.read("data"), data);
}

#[test]
fn other_bytes_are_kept_with_a_warning() {
    let folder = two_cards();
    let (mut text, mut data) = (folder.read("text"), folder.read("data"));
    text[16] ^= 0xff;
    data[159] = 1;
    data[158] = 1;
    folder.write("text", &text);
    folder.write("data", &data);
    let keep = [&step("one.sheet", "two.sheet")[..], &["--keep-changes"]].concat();
    let ran = folder.run(&keep);
    assert_eq!(ran.status, Some(0));
    assert_eq!(
        ran.err,
        "xcoff: warning: text: 1 byte outside the relocated fields is not the module's: 1 at 10000110 (offset 16); kept as found\n\
         xcoff: warning: data: 2 bytes outside the relocated fields are not the module's: 2 at 2000023e (offset 158); kept as found\n"
    );
    assert_eq!(folder.read("text")[16], text[16]);
    assert_eq!(folder.read("data")[158..], [1, 1]);
    assert_eq!(folder.read("data")[48..52], [0x20, 0, 0, 0]);
}

#[test]
fn an_interrupted_move_is_found_by_check_and_by_the_next_move() {
    // Text with relocated fields, so that both images tell which plan they are for.
    let folder = Folder::new();
    folder.copy("textrel.a-32");
    folder.done(&["plan", "textrel.a-32", "-o", "one"]);
    folder.done(&[
        "plan",
        "textrel.a-32",
        "--text",
        "50000000",
        "--data",
        "60000000",
        "-o",
        "two",
    ]);
    folder.done(&["build", "textrel.a-32", "one", "-o", "text", "data"]);
    let old = folder.read("data");
    folder.done(&["move", "textrel.a-32", "one", "two", "text", "data"]);
    folder.write("data", &old);
    for sheet in ["one", "two"] {
        let ran = folder.run(&["check", "textrel.a-32", sheet, "text", "data"]);
        assert_eq!((ran.status, ran.out.as_str()), (Some(1), ""));
    }
    let ran = folder.run(&["move", "textrel.a-32", "one", "two", "text", "data"]);
    assert_eq!(ran.status, Some(1));
    assert_eq!(
        ran.err.lines().nth(1),
        Some("xcoff: text is for two, data for one: a move was interrupted; xcoff build makes both again")
    );
    assert_eq!(folder.read("data"), old);
}

// ---- checks

#[test]
fn a_check_says_equal_and_exits_with_0() {
    let folder = two_cards();
    let out = folder.done(&["check", "exe-imports-32", "one.sheet", "text", "data"]);
    assert_eq!(
        out,
        "text and data are the images of exe-imports-32 for one.sheet (text 10000100-1000019f, data 200001a0-2000023f)\n"
    );
    // Nothing is written, so one file may stand for both images: what it holds decides.
    let ran = folder.run(&["check", "exe-imports-32", "one.sheet", "text", "text"]);
    assert_eq!((ran.status, ran.out.as_str()), (Some(1), ""));
    assert_eq!(
        ran.err.lines().next(),
        Some("xcoff: text is the text image for one.sheet")
    );
}

#[test]
fn a_check_says_where_images_differ_and_whether_in_fields() {
    let folder = two_cards();
    folder.fails(
        &["check", "exe-imports-32", "two.sheet", "text", "data"],
        1,
        "xcoff: text is the text image for two.sheet\n\
         xcoff: data is not the data image for two.sheet: 20 bytes differ, the first at 30000002 (offset 2), found 50, expected 60\n\
         xcoff: 10 of 20 relocated fields are not those of two.sheet\n",
    );
    let mut text = folder.read("text");
    text[100] ^= 0x0f;
    folder.write("text", &text);
    let expected = text[100] ^ 0x0f;
    folder.fails(
        &["check", "exe-imports-32", "one.sheet", "text", "data"],
        1,
        &format!(
            "xcoff: text is not the text image for one.sheet: 1 byte differs, the first at 10000164 (offset 100), \
             found {:02x}, expected {expected:02x}\n\
             xcoff: data is the data image for one.sheet\n\
             xcoff: the relocated fields are those of one.sheet\n",
            text[100]
        ),
    );
}

#[test]
fn a_check_of_several_sheets_says_which() {
    let folder = two_cards();
    let check = [
        "check",
        "exe-imports-32",
        "two.sheet",
        "text",
        "data",
        "--or",
    ];
    let with = |more: &[&'static str]| [&check[..], more].concat();
    let out = folder.done(&with(&["one.sheet"]));
    assert_eq!(
        out,
        "text and data are the images of exe-imports-32 for one.sheet (text 10000100-1000019f, data 200001a0-2000023f)\n"
    );
    folder.write("same.sheet", &folder.read("one.sheet"));
    folder.write("short.sheet", &sheet(0, 0, &[1]));
    let out = folder.done(&with(&[
        "short.sheet",
        "--or",
        "one.sheet",
        "--or",
        "same.sheet",
    ]));
    assert_eq!(
        out,
        "text and data are the images of exe-imports-32 for one.sheet (text 10000100-1000019f, data 200001a0-2000023f) and same.sheet (text 10000100-1000019f, data 200001a0-2000023f)\n"
    );
    let ran = folder.run(&with(&["short.sheet"]));
    assert_eq!((ran.status, ran.out.as_str()), (Some(1), ""));
    assert_eq!(ran.err.lines().count(), 4);
    assert_eq!(
        ran.err.lines().last(),
        Some("xcoff: short.sheet for exe-imports-32 (addresses: 1, loader symbols: 9): refused 20 2 0: ROOM, the list of addresses is not exactly as long as needed")
    );
}
