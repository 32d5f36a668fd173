//! What a new user does by mistake, and what the command does then: no such sequence ends in wrong images and status 0.

mod command_runner;
mod made;

use command_runner::{real, recorded, sheet, Folder, Ran};
use made::Module;
use std::fs::File;
use std::io::Write;
use std::process::{Child, Command, Stdio};
use std::time::{Duration, Instant};
use xcoff::Format;

/// A module whose text and data both differ between two plans, with three sheets, and the images for the first.
fn bench() -> Folder {
    let folder = Folder::new();
    folder.write("m", &real("textrel.a-32"));
    for (name, text, data) in [
        ("a", "10000", "80000"),
        ("b", "40000", "c0000"),
        ("c", "50000", "d0000"),
    ] {
        folder.done(&["plan", "m", "--text", text, "--data", data, "-o", name]);
        let (text, data) = (format!("{name}.text"), format!("{name}.data"));
        folder.done(&["build", "m", name, "-o", &text, &data]);
    }
    folder
}

fn set(folder: &Folder, plan: &str) {
    folder.write("t", &folder.read(&format!("{plan}.text")));
    folder.write("d", &folder.read(&format!("{plan}.data")));
}

/// The plan that both images are for; none of a mixed pair.
fn plan_of<'a>(folder: &Folder, plans: &[&'a str]) -> Option<&'a str> {
    let pair = (folder.read("t"), folder.read("d"));
    let is = |plan: &&&str| {
        pair == (
            folder.read(&format!("{plan}.text")),
            folder.read(&format!("{plan}.data")),
        )
    };
    plans.iter().find(is).copied()
}

fn start(folder: &Folder, args: &[&str]) -> Child {
    let mut command = folder.command(args);
    command.stdout(Stdio::piped()).stderr(Stdio::piped());
    command.spawn().unwrap()
}

// ---- 1: two at once

#[test]
fn of_moves_at_once_one_is_done_and_the_others_are_refused() {
    let folder = bench();
    for _ in 0..40 {
        set(&folder, "a");
        let moves =
            [["b"], ["c"], ["b"]].map(|[to]| start(&folder, &["move", "m", "a", to, "t", "d"]));
        let ran = moves.map(|child| Ran::of(child.wait_with_output().unwrap()));
        let done: Vec<usize> = (0..3).filter(|&n| ran[n].status == Some(0)).collect();
        assert_eq!(
            done.len(),
            1,
            "{} {} {}",
            ran[0].err,
            ran[1].err,
            ran[2].err
        );
        let reached = if done[0] == 1 { "c" } else { "b" };
        assert_eq!(plan_of(&folder, &["b", "c"]), Some(reached));
        for refused in (0..3).filter(|n| *n != done[0]) {
            assert_eq!(ran[refused].status, Some(1), "{}", ran[refused].err);
            assert!(ran[refused].err.contains("nothing is changed"));
        }
    }
}

#[test]
fn builds_at_once_never_mix() {
    let folder = bench();
    for _ in 0..40 {
        let builds =
            ["a", "b", "c"].map(|plan| start(&folder, &["build", "m", plan, "-o", "t", "d"]));
        for child in builds {
            assert_eq!(Ran::of(child.wait_with_output().unwrap()).status, Some(0));
        }
        assert!(plan_of(&folder, &["a", "b", "c"]).is_some());
    }
}

/// The folder is locked by this test itself: a command waits with a word, or ends at once.
#[test]
fn who_waits_says_so_and_who_does_not_ends_with_3() {
    let folder = bench();
    set(&folder, "a");
    let held = File::open(folder.path("")).unwrap();
    held.lock().unwrap();
    let move_to_b = ["move", "m", "a", "b", "t", "d"];
    let busy = |name: &str| {
        format!("xcoff: {name}: another xcoff is at work in its folder; nothing is changed\n")
    };
    let commands: [&[&str]; 6] = [
        &["move", "m", "a", "b", "t", "d", "--no-wait"],
        &["build", "m", "b", "-o", "t", "d", "--no-wait"],
        &["plan", "m", "--no-wait", "-o", "t"],
        &["records", "m", "a", "-o", "t", "--no-wait"],
        &["check", "m", "a", "t", "d", "--no-wait"],
        &["images", "m", "a", "r", "-o", "t", "d", "--no-wait"],
    ];
    for args in commands {
        folder.fails(args, 3, &busy("t"));
    }
    let waiting = start(&folder, &move_to_b);
    std::thread::sleep(Duration::from_millis(200));
    assert_eq!(plan_of(&folder, &["a", "b"]), Some("a"));
    let since = Instant::now();
    drop(held);
    let ran = Ran::of(waiting.wait_with_output().unwrap());
    assert!(since.elapsed() < Duration::from_secs(20));
    assert_eq!(ran.status, Some(0), "{}", ran.err);
    assert_eq!(
        ran.err,
        "xcoff: waiting: another xcoff is at work in the folder of t; --no-wait would end here\n"
    );
    assert_eq!(plan_of(&folder, &["a", "b"]), Some("b"));
}

/// Those that only read do not wait for each other.
#[test]
fn checks_do_not_wait_for_checks() {
    let folder = bench();
    let held = File::open(folder.path("")).unwrap();
    held.lock_shared().unwrap();
    folder.done(&["check", "m", "a", "a.text", "a.data", "--no-wait"]);
}

// ---- 2: images that are not FROM's

const OTHER: &str = "outside the relocated fields";

#[test]
fn a_text_that_is_not_the_modules_is_not_moved() {
    let folder = Folder::new();
    folder.copy("exe-imports-32");
    let plan = ["plan", "exe-imports-32", "--recorded", "--text"];
    for (text, data, name) in [("10000", "80000", "a"), ("40000", "c0000", "b")] {
        folder.done(&[&plan[..], &[text, "--data", data, "-o", name]].concat());
    }
    folder.done(&["build", "exe-imports-32", "a", "-o", "t", "d"]);
    let text = folder.read("t");
    folder.write("t", &vec![0; text.len()]);
    let zeros = folder.read("t");
    let args = ["move", "exe-imports-32", "a", "b", "t", "d"];
    let ran = folder.run(&args);
    assert_eq!((ran.status, ran.out.as_str()), (Some(1), ""));
    assert!(ran.err.starts_with("xcoff: t: "), "{}", ran.err);
    assert!(ran.err.contains(OTHER), "{}", ran.err);
    assert!(ran.err.ends_with("xcoff: the relocated fields are those of a: --keep-changes takes the other bytes as they are\n"));
    assert_eq!(folder.read("t"), zeros);
    // One byte is as bad as all.
    let mut one = text.clone();
    one[7] ^= 1;
    folder.write("t", &one);
    folder.fails(
        &args,
        1,
        "xcoff: t: 1 byte outside the relocated fields is not the module's: 1 at 00010007 (offset 7); nothing is changed\n\
         xcoff: the relocated fields are those of a: --keep-changes takes the other bytes as they are\n",
    );
    let ran = folder.run(&[&args[..], &["--keep-changes"]].concat());
    assert_eq!(ran.status, Some(0));
    assert_eq!(
        ran.err,
        "xcoff: warning: t: 1 byte outside the relocated fields is not the module's: 1 at 00010007 (offset 7); kept as found\n"
    );
    assert_eq!(folder.read("t"), one);
}

#[test]
fn kept_changes_are_counted_and_placed() {
    let folder = bench();
    set(&folder, "a");
    let mut text = folder.read("t");
    // The relocated fields of the text are 8 to 28 and 32 to 36.
    for at in [0, 1, 2, 5, 30, 40, 42, 44, 46, 48, 50, 60] {
        text[at] ^= 0xff;
    }
    folder.write("t", &text);
    let ran = folder.run(&["move", "m", "a", "b", "t", "d", "--keep-changes"]);
    assert_eq!(ran.status, Some(0), "{}", ran.err);
    assert_eq!(
        ran.err,
        "xcoff: warning: t: 12 bytes outside the relocated fields are not the module's: 3 at 00010000 (offset 0), 1 at 00010005 (offset 5), \
         1 at 0001001e (offset 30), 1 at 00010028 (offset 40), 1 at 0001002a (offset 42), 1 at 0001002c (offset 44), 1 at 0001002e (offset 46), \
         1 at 00010030 (offset 48) and at 2 more places; kept as found\n"
    );
    // A field that is not FROM's is refused with --keep-changes too.
    set(&folder, "a");
    let mut data = folder.read("d");
    data[8] ^= 1;
    folder.write("d", &data);
    for more in [&[][..], &["--keep-changes"]] {
        let ran = folder.run(&[&["move", "m", "a", "b", "t", "d"], more].concat());
        assert_eq!(ran.status, Some(1));
        assert!(
            ran.err
                .contains("1 of 12 relocated fields are not those of a"),
            "{}",
            ran.err
        );
        assert!(
            ran.err.contains("they are for neither a nor b"),
            "{}",
            ran.err
        );
    }
    folder.done(&["move", "m", "a", "b", "t", "d", "--unchecked"]);
}

#[test]
fn records_are_of_the_sheets_images_or_of_changes_that_are_kept() {
    let folder = bench();
    set(&folder, "a");
    let mut text = folder.read("t");
    text[0] ^= 1;
    folder.write("t", &text);
    let args = ["records", "m", "a", "--images", "t", "d", "-o", "r"];
    let ran = folder.run(&args);
    assert_eq!(ran.status, Some(1));
    assert!(ran.err.contains(OTHER) && !folder.path("r").exists());
    let ran = folder.run(&[&args[..], &["--keep-changes"]].concat());
    assert_eq!(ran.status, Some(0));
    assert!(ran.err.ends_with("kept as found\n"), "{}", ran.err);
    let args = ["images", "m", "a", "r", "-o", "t2", "d2"];
    let ran = folder.run(&args);
    assert_eq!(ran.status, Some(1));
    assert!(ran.err.starts_with(
        "xcoff: r: 1 byte outside the relocated fields is not the module's: 1 at 00010000 (line 1)"
    ));
    assert_eq!(
        folder
            .run(&[&args[..], &["--keep-changes"]].concat())
            .status,
        Some(0)
    );
    assert_eq!(folder.read("t2"), text);
}

#[test]
fn exchanged_sheets_are_named() {
    let folder = bench();
    set(&folder, "a");
    folder.fails(
        &["move", "m", "b", "a", "t", "d"],
        1,
        "xcoff: t and d: these images are for a, which was given as TO: they are already moved, or FROM and TO are exchanged; nothing is changed\n",
    );
    let mut text = folder.read("t");
    text[0] ^= 1;
    folder.write("t", &text);
    folder.fails(
        &["move", "m", "b", "a", "t", "d"],
        1,
        "xcoff: t and d: the relocated fields of these images are those of a, which was given as TO: they are already moved, or FROM and TO are exchanged; nothing is changed\n",
    );
}

// ---- 3: a sheet of another module

#[test]
fn a_sheet_of_another_module_is_warned_of_and_ignored_places_stay_ignored() {
    let folder = Folder::new();
    folder.copy("exe-imports-32");
    let own = 0x2000_01d0;
    let list = |defined: u64| [1, 2, 3, defined, 5, 0, 7, 0, 9];
    folder.write("own", &sheet(0x10000, 0x80000, &list(own)));
    folder.write("other", &sheet(0x10000, 0x80000, &list(0x2000_01f0)));
    folder.write("zeros", &sheet(0x10000, 0x80000, &list(0)));
    folder.write("to", &sheet(0x40000, 0xc0000, &list(own)));
    let warning = "xcoff: warning: other was probably made for another module than exe-imports-32: the place of @6 __start, which is ignored, has 200001f0, where the module has 200001d0\n";
    folder.done(&["build", "exe-imports-32", "own", "-o", "t", "d"]);
    folder.done(&["build", "exe-imports-32", "zeros", "-o", "t0", "d0"]);
    let commands: [&[&str]; 7] = [
        &["build", "exe-imports-32", "other", "-o", "t1", "d1"],
        &["check", "exe-imports-32", "other", "t", "d"],
        &["check", "exe-imports-32", "to", "t", "d", "--or", "other"],
        &["sheet", "other", "exe-imports-32"],
        &["records", "exe-imports-32", "other", "-o", "r"],
        &["images", "exe-imports-32", "other", "r", "-o", "t2", "d2"],
        &["move", "exe-imports-32", "other", "to", "t", "d"],
    ];
    for args in commands {
        let ran = folder.run(args);
        assert_eq!(
            (ran.status, ran.err.as_str()),
            (Some(0), warning),
            "{args:?}"
        );
    }
    assert_eq!(folder.read("t0"), folder.read("t1"));
    assert_eq!(folder.read("d0"), folder.read("d1"));
    let ran = folder.run(&["plan", "exe-imports-32", "--from", "other", "-o", "new"]);
    assert_eq!((ran.status, ran.err.as_str()), (Some(0), warning));
    // What is taken over from it is its addresses, not what it has in the places that are ignored.
    assert_eq!(folder.read("new"), folder.read("own"));
}

// ---- 4: imports that nobody gave

#[test]
fn imports_at_address_0_that_nobody_gave_are_listed() {
    let folder = Folder::new();
    folder.copy("exe-imports-32");
    let plan = ["plan", "exe-imports-32", "--import", "errno=fff01200"];
    let to = ["-o", "s"];
    folder.fails(
        &[&plan[..], &to].concat(),
        1,
        "xcoff: s is not written: 5 of 6 imports would be at address 0: @4 malloc, @5 a_function_with_a_long_name, @7 environ_of_the_process, @9 sysvar, @11 exactly8\n\
         xcoff: give each by --import NAME=HEX, by --imports FILE or by --from OLD.sheet; --recorded leaves them at 0\n",
    );
    assert!(!folder.path("s").exists());
    let out = folder.done(&[&plan[..], &["--recorded"], &to].concat());
    assert!(
        out.contains("1 of 6 imports given, 5 as recorded;"),
        "{out}"
    );
    folder.write("list", b"malloc 10\n@5 20\n@7 30\n@9 40\nexactly8 0\n");
    let out = folder.done(&[&plan[..], &["--imports", "list"], &to].concat());
    assert!(out.contains("6 of 6 imports given;"), "{out}");
    let all = folder.read("s");
    let list = [0xfff0_1200, 0x10, 0x20, 0x2000_01d0, 0x30, 0, 0x40, 0, 0];
    assert_eq!(all, sheet(0x1000_0100, 0x2000_01a0, &list));
    // The older sheet has exactly8 at 0: somebody has to say that this is meant.
    let more = [
        "plan",
        "exe-imports-32",
        "--from",
        "s",
        "--text",
        "70000",
        "--import",
        "@9=44",
    ];
    let ran = folder.run(&[&more[..], &["-o", "s2"]].concat());
    assert_eq!(ran.status, Some(1));
    assert!(ran
        .err
        .contains("1 of 6 imports would be at address 0: @11 exactly8\n"));
    let out = folder.done(&[&more[..], &["--import", "exactly8=48", "-o", "s2"]].concat());
    assert!(out.contains("2 of 6 imports given, 4 from s;"), "{out}");
    let list = [0xfff0_1200, 0x10, 0x20, 0x2000_01d0, 0x30, 0, 0x44, 0, 0x48];
    assert_eq!(folder.read("s2"), sheet(0x70000, 0x2000_01a0, &list));
    folder.copy("exe-dso-32");
    folder.fails(
        &["plan", "exe-dso-32", "--from", "s", "-o", "s3"],
        1,
        "xcoff: s for exe-dso-32 (addresses: 9, loader symbols: 5): refused 20 2 0: ROOM, the list of addresses is not exactly as long as needed\n",
    );
}

// ---- memory

/// The most bytes of a module's images, beside which all else is small.
const DATA: u64 = 15 << 20;

#[test]
fn a_move_has_room_in_the_file_and_three_times_the_images() {
    let folder = Folder::new();
    let mut module = Module::new(Format::Xcoff32);
    module.data_size = DATA;
    module.relocate(2, module.data_address, 0x1F00, &[&[(1, false)]]);
    folder.write("m", &module.bytes());
    folder.done(&["plan", "m", "-o", "one"]);
    folder.done(&["plan", "m", "--data", "30000000", "-o", "two"]);
    folder.done(&["build", "m", "one", "-o", "t", "d"]);
    let limit = (4 * DATA + (8 << 20)) >> 10;
    let shell = |args: &str| {
        let mut shell = Command::new("bash");
        let line = format!("ulimit -v {limit}; exec \"$0\" {args}");
        let shell = shell.args(["-c", &line, env!("CARGO_BIN_EXE_xcoff")]);
        let output = shell.current_dir(folder.path("")).output().unwrap();
        Ran::of(output)
    };
    let ran = shell("move m one two t d");
    assert_eq!((ran.status, ran.err.as_str()), (Some(0), ""));
    // Also where the images are compared with those of both plans.
    let ran = shell("move m one two t d");
    assert_eq!(ran.status, Some(1));
    assert!(ran.err.contains("they are already moved"), "{}", ran.err);
}

// ---- 5: overlapping and unaligned images

#[test]
fn images_that_overlap_or_are_not_aligned_are_warned_of() {
    let folder = Folder::new();
    folder.copy("exe-imports-32");
    let plan = |text, data| folder.run(&recorded("exe-imports-32", text, data));
    let overlap = "xcoff: warning: the images overlap: text 00010000-0001009f, data 00010080-0001011f, 32 addresses in both; on the card one is written over the other, and S-records of them are refused (24 CLASH)\n";
    let ran = plan("10000", "10080");
    assert_eq!((ran.status, ran.err.as_str()), (Some(0), overlap));
    let ran = folder.run(&["build", "exe-imports-32", "s", "-o", "t", "d"]);
    assert_eq!((ran.status, ran.err.as_str()), (Some(0), overlap));
    // One address in both, none in both.
    let ran = plan("1009f", "10000");
    assert!(ran.err.contains(" 1 address in both"), "{}", ran.err);
    assert_eq!(plan("100a0", "10000").err, "");
    assert_eq!(plan("10000", "100a0").err, "");
    let ran = plan("10002", "80004");
    let unaligned = "xcoff: warning: the text address 00010002 is not aligned as the module's own, 10000100: o_algntext asks for 4 bytes, and it is 2 beyond\n\
                     xcoff: warning: the data address 00080004 is not aligned as the module's own, 200001a0: o_algndata asks for 8 bytes, and it is 4 beyond\n";
    assert_eq!((ran.status, ran.err.as_str()), (Some(0), unaligned));
    let ran = folder.run(&["build", "exe-imports-32", "s", "-o", "t", "d"]);
    assert_eq!((ran.status, ran.err.as_str()), (Some(0), unaligned));
}

/// In 64 bits an image may end where the address space does, and there are no S-records.
#[test]
fn images_at_the_end_of_the_address_space_overlap_or_not() {
    let folder = Folder::new();
    folder.copy("exe-imports-64");
    let out = folder.done(&["module", "exe-imports-64"]);
    let size: u64 = command_runner::rows(&out, "part")[0][3].parse().unwrap();
    let end = format!("{:x}", 0u64.wrapping_sub(size));
    let plan = |data: &str| folder.run(&recorded("exe-imports-64", &end, data));
    assert_eq!(plan("80000").err, "");
    assert_eq!(plan("80000").status, Some(0));
    let image: u64 = command_runner::rows(&out, "part")[3][3].parse().unwrap();
    let over = format!("{:x}", 0u64.wrapping_sub(image));
    let ran = plan(&over);
    assert_eq!(ran.status, Some(0));
    assert!(
        ran.err
            .starts_with("xcoff: warning: the images overlap: text "),
        "{}",
        ran.err
    );
    assert!(!ran.err.contains("CLASH"), "{}", ran.err);
}

// ---- 6: output over a file of another kind

#[test]
fn a_module_or_a_sheet_is_not_replaced_by_something_else() {
    let folder = bench();
    folder.copy("exe-dso-32");
    folder.copy("clang-app-64.o");
    let says = |name: &str, kind: &str, by: &str| {
        format!("xcoff: {name} is {kind} and would be replaced by {by}; nothing is changed (--force replaces it)\n")
    };
    let (module, sheet, image) = ("an XCOFF file", "a plan sheet", "an image");
    set(&folder, "a");
    let cases: [(&[&str], String); 8] = [
        (
            &["plan", "m", "-o", "exe-dso-32"],
            says("exe-dso-32", module, sheet),
        ),
        (
            &["plan", "m", "-o", "clang-app-64.o"],
            says("clang-app-64.o", module, sheet),
        ),
        (
            &["build", "m", "a", "-o", "x", "exe-dso-32"],
            says("exe-dso-32", module, image),
        ),
        (
            &["build", "m", "a", "-o", "b", "x"],
            says("b", sheet, image),
        ),
        (
            &["move", "m", "a", "b", "t", "d", "-o", "x", "c"],
            says("c", sheet, image),
        ),
        (
            &["records", "m", "a", "-o", "exe-dso-32"],
            says("exe-dso-32", module, "S-records"),
        ),
        (
            &["records", "m", "a", "-o", "b"],
            says("b", sheet, "S-records"),
        ),
        (
            &["plan", "m", "--from", "a", "-o", "exe-dso-32"],
            says("exe-dso-32", module, sheet),
        ),
    ];
    let before: Vec<Vec<u8>> = folder
        .names()
        .iter()
        .map(|name| folder.read(name))
        .collect();
    for (args, err) in &cases {
        folder.fails(args, 1, err);
    }
    let after: Vec<Vec<u8>> = folder
        .names()
        .iter()
        .map(|name| folder.read(name))
        .collect();
    assert_eq!(before, after);
    // A sheet replaces a sheet, an image an image; with --force anything.
    folder.done(&["plan", "m", "--from", "a", "-o", "b"]);
    folder.done(&["build", "m", "a", "-o", "t", "d"]);
    for (args, _) in &cases {
        if args[0] != "move" {
            folder.done(&[args, &["--force"][..]].concat());
        }
    }
    folder.write("s.old", &command_runner::old_sheet(1, 2, &[3]));
    folder.fails(
        &["build", "m", "a", "-o", "s.old", "x"],
        1,
        &says("s.old", sheet, image),
    );
}

/// Another program, which knows of no lock, writes into the text after it was read: the data comes from a pipe, which is
/// opened when the text has been read.
#[test]
fn an_image_that_changes_after_it_was_read_is_not_moved() {
    let folder = bench();
    set(&folder, "a");
    let data = folder.read("d");
    let made = Command::new("mkfifo").arg(folder.path("pipe")).status();
    assert!(made.unwrap().success());
    for changes in [false, true] {
        let args = ["move", "m", "a", "b", "t", "pipe", "-o", "t2", "d2"];
        let child = start(&folder, &args);
        let mut pipe = File::create(folder.path("pipe")).unwrap();
        if changes {
            folder.write("t", &folder.read("c.text"));
        }
        pipe.write_all(&data).unwrap();
        drop(pipe);
        let ran = Ran::of(child.wait_with_output().unwrap());
        let (status, err) = match changes {
            false => (0, ""),
            true => (
                1,
                "xcoff: t was changed by another program after it was read; nothing is changed\n",
            ),
        };
        assert_eq!((ran.status, ran.err.as_str()), (Some(status), err));
        assert_eq!(folder.path("t2").exists(), !changes);
        let _ = std::fs::remove_file(folder.path("t2"));
        let _ = std::fs::remove_file(folder.path("d2"));
    }
}
