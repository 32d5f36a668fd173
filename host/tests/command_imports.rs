//! Addresses of imports from a file: `xcoff plan FILE --imports IMPORTS`.

mod command_runner;

use command_runner::{real, sheet, Folder};

const M: &str = "exe-imports-32";
const KNOWN: &str = "@3 errno, @4 malloc, @5 a_function_with_a_long_name, \
                     @7 environ_of_the_process, @9 sysvar, @11 exactly8";

fn bench() -> Folder {
    let folder = Folder::new();
    folder.copy(M);
    folder
}

fn plan<'a>(more: &[&'a str]) -> Vec<&'a str> {
    [
        &["plan", M, "--recorded", "--imports", "given"][..],
        more,
        &["-o", "s"],
    ]
    .concat()
}

#[test]
fn each_line_gives_an_address() {
    let folder = bench();
    let texts: [&[u8]; 5] = [
        b"errno 1200\nmalloc 0xFFF01300\n@9 7\n",
        b"errno 1200\nmalloc 0xFFF01300\n@9 7",
        b"@9 7\r\nmalloc\tFFF01300\r\n\r\nerrno 00001200\r\n",
        b"# card 7\n\n  errno   1200  \n\t#more\n@4 fff01300\n#\n@0009 0X7\n",
        b"\\x65rrno 1200\nm\\x61lloc fff01300\nsysvar 7\n\n\n",
    ];
    let list = [0x1200, 0xFFF0_1300, 0, 0x2000_01d0, 0, 0, 7, 0, 0];
    for text in texts {
        folder.write("given", text);
        let out = folder.done(&plan(&[]));
        assert_eq!(
            out,
            "wrote s (96 bytes): text 10000100-1000019f, data 200001a0-2000023f, 3 of 6 imports given, 3 as recorded; entry 200001d0, TOC 200001e0\n"
        );
        let expected = sheet(0x1000_0100, 0x2000_01a0, &list);
        assert_eq!(folder.read("s"), expected, "{text:?}");
    }
    // Beside --import, and without a line.
    folder.write("given", b"errno 1200\n");
    folder.done(&plan(&["--import", "malloc=fff01300", "--import=@9=7"]));
    assert_eq!(folder.read("s"), sheet(0x1000_0100, 0x2000_01a0, &list));
    folder.write("given", b"");
    let out = folder.done(&plan(&["--text", "1000", "--data", "2000"]));
    assert!(out.contains("0 of 6 imports given"), "{out}");
}

/// A file, the line that is named, and why.
const WRONG: [(&str, usize, &str); 18] = [
    ("errno", 1, "errno: a line is NAME HEX or @INDEX HEX"),
    (
        "\n\nerrno 1 2\n",
        3,
        "errno: a line is NAME HEX or @INDEX HEX",
    ),
    (
        "errno 1 # no\n",
        1,
        "errno: a line is NAME HEX or @INDEX HEX",
    ),
    ("errno=1\n", 1, "errno=1: a line is NAME HEX or @INDEX HEX"),
    (
        "errno 1g\n",
        1,
        "errno: 1g is not a hexadecimal number of at most 64 bits",
    ),
    (
        "#\nerrno 0x\n",
        2,
        "errno: 0x is not a hexadecimal number of at most 64 bits",
    ),
    (
        "errno -1\n",
        1,
        "errno: -1 is not a hexadecimal number of at most 64 bits",
    ),
    (
        "errno 10000000000000000\n",
        1,
        "errno: 10000000000000000 is not a hexadecimal number of at most 64 bits",
    ),
    (
        "@x 1\n",
        1,
        "@x: after @ comes a loader symbol index in decimal",
    ),
    (
        "@ 1\n",
        1,
        "@: after @ comes a loader symbol index in decimal",
    ),
    (
        "a\\b 1\n",
        1,
        "a\\b: a backslash in a name is \\\\ or begins \\xNN",
    ),
    (
        "errno 1\nputs 2\n",
        2,
        "puts: there is no such import; the module has KNOWN",
    ),
    (
        "@2 1\n",
        1,
        "@2: there is no such import; the module has KNOWN",
    ),
    (
        "@12 1\n",
        1,
        "@12: there is no such import; the module has KNOWN",
    ),
    ("@6 1\n", 1, "@6: @6 is not an import"),
    (
        "later 1\n",
        1,
        "later: @8 is a deferred import, which has no address in a plan",
    ),
    (
        "errno 1\nmalloc 2\nerrno 1\n",
        3,
        "errno: @3 is given twice, before in given, line 1",
    ),
    (
        "errno 1\n\n@3 2\n",
        3,
        "@3: @3 is given twice, before in given, line 1",
    ),
];

#[test]
fn an_error_names_the_line() {
    let folder = bench();
    for (text, line, why) in WRONG {
        folder.write("given", text.as_bytes());
        let why = why.replace("KNOWN", KNOWN);
        folder.misused(
            &plan(&[]),
            &format!("xcoff: plan: given, line {line}: {why}"),
        );
        assert!(!folder.path("s").exists(), "{text}");
    }
    folder.write("given", b"\x1b[2J 1\xff\n");
    folder.misused(
        &plan(&[]),
        "xcoff: plan: given, line 1: \\x1b[2J: 1\\xff is not a hexadecimal number of at most 64 bits",
    );
    // An import is given once, here or there.
    folder.write("given", b"malloc 1\nerrno 1\n");
    folder.misused(
        &plan(&["--import", "errno=1"]),
        "xcoff: plan: given, line 2: errno: @3 is given twice",
    );
    folder.misused(
        &plan(&["--imports", "given"]),
        "xcoff: plan: --imports is given twice",
    );
}

#[test]
fn two_imports_of_one_name_are_chosen_by_index() {
    let folder = Folder::new();
    let mut file = real(M);
    // The loader symbols begin 32 bytes into the loader section at 512: @11 gets the name of @4.
    let place = 512 + 32 + 24 * (11 - 3);
    assert_eq!(&file[place..place + 8], b"exactly8");
    file[place..place + 8].copy_from_slice(b"malloc\0\0");
    folder.write(M, &file);
    folder.write("given", b"errno 1\nmalloc 2\n");
    folder.misused(
        &plan(&[]),
        "xcoff: plan: given, line 2: malloc: 2 imports have this name: @4, @11; choose one by its index, as in @4 HEX",
    );
    folder.write("given", b"@4 1\n@11 2\n");
    folder.done(&plan(&[]));
    let list = [0, 1, 0, 0x2000_01d0, 0, 0, 0, 0, 2];
    assert_eq!(folder.read("s"), sheet(0x1000_0100, 0x2000_01a0, &list));
}

#[test]
fn an_import_without_a_name_is_written_as_it_is_shown() {
    let folder = Folder::new();
    let mut file = real(M);
    // @10 gets another name, and its string, which becomes a lone zero with length 1 before it, is now @11's.
    let symbol = |index: usize| 512 + 32 + 24 * (index - 3);
    let offset: [u8; 4] = file[symbol(10) + 4..symbol(10) + 8].try_into().unwrap();
    let strings = u32::from_be_bytes(file[540..544].try_into().unwrap()) as usize;
    let string = 512 + strings + u32::from_be_bytes(offset) as usize;
    assert_eq!(&file[string..string + 8], b"resolved");
    file[string - 2..string + 1].copy_from_slice(&[0, 1, 0]);
    file[symbol(10)..symbol(10) + 8].copy_from_slice(b"another\0");
    file[symbol(11)..symbol(11) + 4].fill(0);
    file[symbol(11) + 4..symbol(11) + 8].copy_from_slice(&offset);
    folder.write(M, &file);
    let listed = folder.done(&["imports", M]);
    assert!(listed.ends_with("import    \"\"\n"), "{listed}");
    let list = [0, 0, 0, 0x2000_01d0, 0, 0, 0, 0, 0x55];
    folder.write("given", b"\"\" 55\n");
    folder.done(&plan(&[]));
    assert_eq!(folder.read("s"), sheet(0x1000_0100, 0x2000_01a0, &list));
    folder.done(&["plan", M, "--recorded", "--import", "\"\"=55", "-o", "s2"]);
    folder.done(&["plan", M, "--recorded", "--import", "=55", "-o", "s3"]);
    assert_eq!(folder.read("s2"), folder.read("s"));
    assert_eq!(folder.read("s3"), folder.read("s"));
}

#[test]
fn the_file_is_read_like_others() {
    let folder = bench();
    folder.fails(
        &plan(&[]),
        3,
        "xcoff: cannot read given: No such file or directory\n",
    );
    folder.misused(
        &["plan", M, "--recorded", "--imports", "s", "-o", "s"],
        "xcoff: plan: IMPORTS and SHEET are the same file, s",
    );
    folder.misused(
        &["plan", M, "--recorded", "-o", "s", "--imports"],
        "xcoff: plan: --imports needs IMPORTS",
    );
    // At most 16,777,216 bytes; an endless one is not read to its end.
    let mut text = vec![b'\n'; 16_777_216 - 10];
    text.extend(b"errno 1200");
    folder.write("given", &text);
    assert!(folder.done(&plan(&[])).contains("1 of 6 imports given"));
    text.push(b'\n');
    folder.write("given", &text);
    folder.misused(
        &plan(&[]),
        "xcoff: plan: --imports given: it has more than 16777216 bytes",
    );
    folder.misused(
        &["plan", M, "--recorded", "--imports", "/dev/zero", "-o", "s"],
        "xcoff: plan: --imports /dev/zero: it has more than 16777216 bytes",
    );
}

#[test]
fn what_a_file_holds_is_shown_in_plain_characters() {
    let folder = bench();
    let texts: [&[u8]; 4] = [
        "\u{e9} 1 2\n".as_bytes(),
        "\u{e9} 1\n".as_bytes(),
        "errno \u{661}\n".as_bytes(),
        b"\x1b[2J\xff\x01 \x7f\n",
    ];
    for text in texts {
        folder.write("given", text);
        let ran = folder.run(&plan(&[]));
        let said = ran.err;
        assert_eq!((ran.status, ran.out.as_str()), (Some(2), ""), "{said}");
        let plain = |byte: u8| byte == b'\n' || (0x20..0x7f).contains(&byte);
        assert!(said.contains("\\x") && said.bytes().all(plain), "{said}");
    }
}
