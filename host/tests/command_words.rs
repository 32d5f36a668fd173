//! What the command says beside a refusal, of several files, and to programs.

mod command_runner;

use command_runner::{old_sheet, real, recorded, sheet, Folder};
use std::collections::BTreeMap;

const M: &str = "exe-imports-32";

/// A real module with bytes replaced.
fn changed(changes: &[(usize, &[u8])]) -> Vec<u8> {
    let mut file = real(M);
    for (at, bytes) in changes {
        file[*at..at + bytes.len()].copy_from_slice(bytes);
    }
    file
}

/// The lines below a refusal with these numbers.
fn below(folder: &Folder, command: &str, file: &[u8], refused: &str) -> String {
    folder.write("bad", file);
    let ran = folder.run(&[command, "bad"]);
    let (first, more) = ran.err.split_once('\n').unwrap();
    assert!(
        first.starts_with(&format!("xcoff: bad: refused {refused}: ")),
        "{}",
        ran.err
    );
    assert_eq!(ran.status, Some(1));
    more.to_string()
}

// ---- rules with several alternatives

const SECTIONS: &str = "  section 1 is text: address 10000100, size 160, raw data
  section 2 is data: address 200001a0, size 96, raw data
  section 3 is bss: address 20000200, size 64, no raw data
  section 4 is loader: address 20000240, size 648, raw data
";

#[test]
fn a_rule_with_alternatives_shows_the_values_that_it_speaks_of() {
    let folder = Folder::new();
    let show = |refused: &str, file: &[u8]| below(&folder, "module", file, refused);
    // The section headers are at 92, 132, 172 and 212, the auxiliary header at 20.
    assert_eq!(
        show("1 0 0", &real(M)[..100]),
        "  the file has 100 bytes; f_nscns 4, f_opthdr 72\n"
    );
    assert_eq!(show("1 0 0", &real(M)[..1]), "  the file has 1 bytes\n");
    assert_eq!(show("3 1 0", &changed(&[(2, &[0, 33])])), "  f_nscns 33\n");
    assert_eq!(
        show("5 0 0", &changed(&[(8, &[0, 1, 0, 0])])),
        format!(
            "  the file has {} bytes; f_symptr 65536, f_nsyms 60\n",
            real(M).len()
        )
    );
    let no_bss = changed(&[(172 + 36, &[0, 0, 0, 8])]);
    assert_eq!(
        show("13 1 0", &no_bss),
        SECTIONS.replace(
            "  section 3 is bss: address 20000200, size 64, no raw data\n",
            ""
        )
    );
    let differ = "  o_tsize 160, o_dsize 96, o_bsize 64, o_text_start 10000000, o_data_start 200001a0, o_sntext 1, o_sndata 2, o_snloader 4, o_snbss 3\n";
    assert_eq!(
        show("13 2 0", &changed(&[(20 + 20, &[0x10, 0, 0, 0])])),
        format!("{differ}{SECTIONS}")
    );
    assert_eq!(
        show("13 3 0", &changed(&[(92 + 20, &[0; 4])])),
        SECTIONS.replacen("raw data", "no raw data", 1)
    );
    let anchors = "  o_snentry 3, o_sntext 1, o_sndata 2, o_sntoc 2\n";
    assert_eq!(
        show("13 4 0", &changed(&[(20 + 32, &[0, 3])])),
        format!("{anchors}{SECTIONS}")
    );
    // A bss below the end of data: where data lies, below the header of bss.
    let low = [0x20, 0, 1, 0xf8];
    let bss = show("6 3 172", &changed(&[(172 + 8, &low), (172 + 12, &low)]));
    assert!(
        bss.starts_with("  header of section 3: 40 bytes at offset 172\n"),
        "{bss}"
    );
    assert!(
        bss.ends_with("\n  section 2 is data: address 200001a0, size 96, raw data\n"),
        "{bss}"
    );
}

#[test]
fn a_file_that_is_no_xcoff_file_is_named_for_what_it_looks_like() {
    let folder = Folder::new();
    let looks = |bytes: &[u8]| below(&folder, "headers", bytes, "2 0 0");
    let pad = |start: &[u8]| [start, &[0; 30]].concat();
    let perhaps = "no kind of file that is known here, perhaps an image\n";
    for (bytes, what) in [
        (
            sheet(1, 2, &[3]),
            "a plan sheet: the module comes first on the command line\n",
        ),
        (
            old_sheet(1, 2, &[3]),
            "a plan sheet: the module comes first on the command line\n",
        ),
        (pad(b"\x7fELF\x02\x01"), "an ELF file\n"),
        (
            pad(b"<bigaf>\n"),
            "an AIX archive: 'ar -x' takes its members out\n",
        ),
        (
            pad(b"!<arch>\n"),
            "an archive: 'ar -x' takes its members out\n",
        ),
        (pad(b"\xfd7zXZ\0"), "a file that is compressed by xz\n"),
        (pad(b"\x1f\x8b"), "a file that is compressed by gzip\n"),
        (b"S325000100007C0802A64800002D\n".to_vec(), "S-records\n"),
        (b"# the ROM of card 7\nerrno fff01200\n".to_vec(), "text\n"),
        (pad(b"MZ"), "a DOS or Windows program\n"),
        (pad(&[0x7c, 8, 2, 0xa6]), perhaps),
        (vec![0; 24], perhaps),
    ] {
        let line = looks(&bytes);
        assert!(line.starts_with("  the file begins "), "{line}");
        assert!(line.ends_with(&format!("it looks like {what}")), "{line}");
    }
}

#[test]
fn a_module_in_place_of_a_sheet_is_told() {
    let folder = Folder::new();
    folder.copy(M);
    let ran = folder.run(&["build", M, M, "-o", "t", "d"]);
    assert_eq!(ran.status, Some(1));
    assert_eq!(
        ran.err.lines().last(),
        Some("  the file begins as an XCOFF file does: the sheet comes after the module on the command line")
    );
}

// ---- several files

#[test]
fn several_files_are_listed_each_under_its_name() {
    let folder = Folder::new();
    for name in [M, "exe-dso-32", "gas-main-32.o"] {
        folder.copy(name);
    }
    for command in ["headers", "symbols", "module", "imports", "relocations"] {
        let [one, two] = [M, "exe-dso-32"].map(|name| folder.done(&[command, name]));
        let both = folder.done(&[command, M, "exe-dso-32"]);
        assert_eq!(
            both,
            format!("{M}:\n{one}\nexe-dso-32:\n{two}"),
            "{command}"
        );
        let json = folder.done(&[command, "--json", M, "exe-dso-32"]);
        let alone = [M, "exe-dso-32"].map(|name| {
            let lines = folder.done(&[command, name, "--json"]);
            let file = |line: &str| line.replacen("\",", &format!("\",\"file\":\"{name}\","), 1);
            lines
                .lines()
                .map(|line| file(line) + "\n")
                .collect::<String>()
        });
        assert_eq!(json, alone.concat(), "{command}");
    }
    // What is wrong with one is said, the others are listed; the greatest status is left.
    let one = folder.done(&["module", M]);
    let ran = folder.run(&["module", "gas-main-32.o", "none", M]);
    assert_eq!((ran.status, ran.out), (Some(3), format!("\n\n{M}:\n{one}")));
    let said: Vec<&str> = ran
        .err
        .lines()
        .filter(|line| line.starts_with("xcoff: "))
        .collect();
    assert_eq!(said.len(), 2);
    assert!(said[0].starts_with("xcoff: gas-main-32.o: refused 13 0 0: "));
    assert_eq!(
        said[1],
        "xcoff: cannot read none: No such file or directory"
    );
    let ran = folder.run(&["module", "gas-main-32.o", M]);
    assert_eq!(ran.status, Some(1));
}

// ---- objects for programs

/// The keys of a flat object with the types of their values.
fn types(object: &str) -> Vec<(String, char)> {
    let mut rest = object.strip_prefix('{').unwrap();
    let mut found = Vec::new();
    while rest != "}" {
        let (key, after) = rest
            .trim_start_matches(',')
            .strip_prefix('"')
            .unwrap()
            .split_once("\":")
            .unwrap();
        let kind = after.chars().next().unwrap();
        let end = match kind {
            '"' => string_end(after),
            _ => after.find([',', '}']).unwrap(),
        };
        assert!(kind != '"' || after.is_char_boundary(end), "{object}");
        let kind = match kind {
            '0'..='9' | '-' => '0',
            't' | 'f' => 'b',
            other => other,
        };
        found.push((key.to_string(), kind));
        rest = &after[end..];
    }
    found
}

/// Behind the closing quote.
fn string_end(text: &str) -> usize {
    let mut escaped = false;
    for (at, c) in text.char_indices().skip(1) {
        match c {
            '"' if !escaped => return at + 1,
            '\\' => escaped = !escaped,
            _ => escaped = false,
        }
    }
    panic!("{text}")
}

#[test]
fn a_key_has_one_type_in_all_tables() {
    let folder = Folder::new();
    for name in [
        M,
        "exe-imports-64",
        "shr-junktype-32",
        "clang-vis-32.o",
        "gas-main-32.o",
    ] {
        folder.copy(name);
    }
    folder.done(&["plan", M, "--recorded", "-o", "s"]);
    folder.done(&["build", M, "s", "-o", "t", "d"]);
    let mut known: BTreeMap<String, char> = BTreeMap::new();
    let mut seen = 0;
    let mut look = |args: &[&str]| {
        for line in folder.run(args).out.lines() {
            for (key, kind) in types(line).into_iter().filter(|(_, kind)| *kind != 'n') {
                let before = *known.entry(key.clone()).or_insert(kind);
                assert_eq!(before, kind, "{key} in {line}");
                seen += 1;
            }
        }
    };
    for command in ["headers", "symbols", "module", "imports", "relocations"] {
        look(&[
            command,
            M,
            "exe-imports-64",
            "shr-junktype-32",
            "clang-vis-32.o",
            "none",
            "--json",
        ]);
    }
    look(&["map", M, "s", "--json"]);
    look(&["sheet", "s", "--json"]);
    look(&["sheet", "s", M, "--json"]);
    look(&["build", M, "s", "-o", "t2", "d2", "--json"]);
    look(&["move", M, "s", "s", "t", "d", "--json"]);
    look(&["check", M, "s", "t", "d", "--json"]);
    look(&["check", M, "s", "t", "t", "--json"]);
    look(&["move", M, "s", "s", "t", "t2", "--json"]);
    assert!(seen > 1000 && known.len() > 40, "{seen} {}", known.len());
    let raw = folder.done(&["headers", M, "--json"]);
    assert!(raw.contains("\"raw\":true") && raw.contains("\"raw\":false"));
}

#[test]
fn builds_moves_and_checks_are_objects_too() {
    let folder = Folder::new();
    folder.copy(M);
    folder.done(&recorded(M, "10000", "80000"));
    let images = |text: &str, data: &str| {
        let row = |image: &str, path: &str, address: &str, last: &str| {
            format!(
                r#"{{"table":"images","sheet":"s","image":"{image}","path":"{path}","size":160,"address":"{address}","last":"{last}"}}"#
            ) + "\n"
        };
        row("text", text, "00010000", "0001009f") + &row("data", data, "00080000", "0008009f")
    };
    let reached =
        "{\"table\":\"reached\",\"entry_address\":\"00080030\",\"toc_address\":\"00080040\"}\n";
    let out = folder.done(&["build", M, "s", "-o", "t", "d", "--json"]);
    assert_eq!(out, images("t", "d") + reached);
    let out = folder.done(&["move", M, "s", "s", "t", "d", "-o", "t2", "d2", "--json"]);
    assert_eq!(out, images("t2", "d2") + reached);
    let out = folder.done(&["check", M, "s", "t", "d", "--json"]);
    assert_eq!(out, images("t", "d"));
    folder.done(&["records", M, "s", "-o", "r"]);
    let out = folder.done(&["check", M, "s", "--records", "r", "--json"]);
    assert_eq!(out, images("r", "r"));
    let ran = folder.run(&["check", M, "s", "t", "t", "--json"]);
    assert_eq!(ran.status, Some(1));
    assert!(ran.out.starts_with("{\"table\":\"problem\",\"status\":1,\"text\":\"xcoff: t is the text image for s\\nxcoff: t is not"), "{}", ran.out);
    assert_eq!(ran.out.lines().count(), 1);
}
