//! Where things lie on the card: `dump` and `map`; and what listings show as other tools do: the auxiliary header, the time,
//! source files, names of sections, patterns and orders.

mod command_runner;

use command_runner::{real, recorded, rows, Folder};

const M: &str = "exe-imports-32";

/// A module with the sheet `s` and its images `t` and `d`.
fn bench(name: &str, text: &str, data: &str) -> Folder {
    let folder = Folder::new();
    folder.write("m", &real(name));
    folder.done(&recorded("m", text, data));
    folder.done(&["build", "m", "s", "-o", "t", "d"]);
    folder
}

// ---- dump

/// The images in a dump, by the addresses of their lines; lines that are left out are like the one before.
fn read_dump(out: &str) -> Vec<(u64, Vec<u8>)> {
    let mut images: Vec<(u64, Vec<u8>)> = Vec::new();
    let mut left_out = false;
    for line in out.lines() {
        let (first, rest) = line.split_once(' ').unwrap_or((line, ""));
        match first {
            "text" | "data" => {
                let start = rest.split('-').next().unwrap();
                images.push((u64::from_str_radix(start, 16).unwrap(), Vec::new()));
            }
            "*" => left_out = true,
            "" => {}
            _ => {
                let (start, bytes) = images.last_mut().unwrap();
                let at = (u64::from_str_radix(first, 16).unwrap() - *start) as usize;
                while left_out && bytes.len() < at {
                    bytes.extend_from_within(bytes.len() - 16..);
                }
                left_out = false;
                assert_eq!(bytes.len(), at, "{line}");
                let hex = &rest.trim_start()[..rest.trim_start().find(" |").unwrap()];
                bytes.extend(
                    hex.split_whitespace()
                        .map(|h| u8::from_str_radix(h, 16).unwrap()),
                );
            }
        }
    }
    images
}

#[test]
fn a_dump_has_every_byte_at_its_address() {
    for name in [M, "exe-imports-64", "textrel.a-32", "bssgap.a-64"] {
        let folder = bench(name, "10000", "80000");
        let images = vec![(0x10000, folder.read("t")), (0x80000, folder.read("d"))];
        assert_eq!(
            read_dump(&folder.done(&["dump", "m", "s"])),
            images,
            "{name}"
        );
        // Those of two files, whatever they hold.
        let mut text = folder.read("t");
        text[5] = b'~';
        folder.write("t", &text);
        let out = folder.done(&["dump", "m", "s", "t", "d"]);
        assert_eq!(read_dump(&out)[0].1, text, "{name}");
    }
    let folder = bench(M, "10000", "80000");
    let out = folder.done(&["dump", "m", "s"]);
    assert!(out.starts_with("text 00010000-0001009f\n00010000  7c 08 02 a6 48 00 00 2d 80 41 00 14 48 00 00 49  ||...H..-.A..H..I|\n"), "{out}");
    assert!(out.contains("\n*\n00080090  "), "{out}");
    folder.misused(&["dump", "m", "s", "t"], "xcoff: dump: DATA is missing");
    let ran = folder.run(&["dump", "m", "s", "t", "s"]);
    assert_eq!(ran.status, Some(1));
    assert!(ran.err.contains("refused 20 1 0: ROOM"), "{}", ran.err);
}

// ---- map

#[test]
fn a_map_has_each_part_and_each_field() {
    for name in [
        M,
        "exe-imports-64",
        "textrel.a-32",
        "bssgap.a-32",
        "shr-rel300-64",
    ] {
        let folder = bench(name, "10000", "80000");
        let file = real(name);
        let m = xcoff::module(&file).unwrap();
        let out = folder.done(&["map", "m", "s"]);
        let parts = rows(&out, "part");
        let gap = m.image - m.data.size - m.bss.size;
        let sizes = [m.text.size, m.data.size, gap, m.bss.size];
        let starts = [
            0x10000,
            0x80000,
            0x80000 + m.data.size,
            0x80000 + m.image - m.bss.size,
        ];
        for ((part, size), start) in parts.iter().zip(sizes).zip(starts) {
            assert_eq!(part[3], size.to_string(), "{name}");
            assert_eq!(u64::from_str_radix(part[1], 16).unwrap(), start, "{name}");
        }
        let mut fields: Vec<(xcoff::Image, u64)> = xcoff::relocation_table(&file)
            .unwrap()
            .iter()
            .map(|entry| (entry.image, entry.offset))
            .collect();
        fields.sort();
        fields.dedup();
        let counted: usize = parts
            .iter()
            .map(|part| part[4].parse::<usize>().unwrap())
            .sum();
        assert_eq!(counted, fields.len(), "{name}");
        // With 4 bytes a cell each field has a cell of its own.
        if !out.contains(" 8 bytes a cell") && !out.contains(" 16 bytes a cell") {
            let cells = out.lines().filter(|line| line.contains('|'));
            let marks: usize = cells
                .map(|line| {
                    line.split('|')
                        .nth(1)
                        .unwrap()
                        .matches(['t', 'd', 'i', '-', '*'])
                        .count()
                })
                .sum();
            assert_eq!(marks, fields.len(), "{name}: {out}");
        }
        for import in rows(&out, "index") {
            let follows = format!("@{}", import[0]);
            let listed = folder.done(&["relocations", "m", "--follows", &follows]);
            let mut places: Vec<(String, String)> = rows(&listed, "entry")
                .iter()
                .map(|row| (row[2].to_string(), row[3].to_string()))
                .collect();
            places.sort();
            places.dedup();
            assert_eq!(import[2], places.len().to_string(), "{name}: {follows}");
        }
    }
}

const DRAWN: &str = "
         text image, 4 bytes a cell
00010000 |........................................|

         : 458592 bytes between

         data image, 4 bytes a cell
00080000 |iiiii---ddt.td..iiiii-d.bbbbbbbbbbbbbbbb| entry at 80030 TOC at 80040

. no field   t d i field that follows text, data, an import   - none of these   * several   _ zeros up to bss   b bss
";

#[test]
fn a_map_is_drawn() {
    let folder = bench(M, "10000", "80000");
    let out = folder.done(&["map", "m", "s"]);
    assert!(out.ends_with(DRAWN), "{out}");
    // Data below text, touching; an import that lies in data.
    let import = ["--import", "errno=7ff64"];
    folder.done(&[&recorded("m", "80000", "7ff60")[..], &import].concat());
    let out = folder.done(&["map", "m", "s"]);
    assert!(out.contains("\n         : 0 bytes between\n"), "{out}");
    assert!(
        out.contains("    3  0007ff64       4  in data   errno\n"),
        "{out}"
    );
    assert!(out.find("data image").unwrap() < out.find("text image").unwrap());
    let json = folder.done(&["map", "m", "s", "--json"]);
    assert!(json.starts_with("{\"table\":\"blocks\",\"part\":\"text\",\"address\":\"00080000\",\"last\":\"0008009f\",\"size\":160,\"fields\":0}\n"), "{json}");
    assert_eq!(json.lines().count(), 4 + 2 + 6);
    // Overlapping images are drawn all the same, with the warning.
    let ran = folder.run(&recorded("m", "80000", "80010"));
    assert_eq!(ran.status, Some(0));
    let ran = folder.run(&["map", "m", "s"]);
    assert_eq!(ran.status, Some(0));
    assert!(
        ran.err.starts_with("xcoff: warning: the images overlap: "),
        "{}",
        ran.err
    );
}

#[test]
fn a_map_is_a_picture_too() {
    let folder = bench("textrel.a-32", "10000", "80000");
    let out = folder.done(&["map", "m", "s", "--svg", "p.svg"]);
    let picture = String::from_utf8(folder.read("p.svg")).unwrap();
    assert_eq!(
        out,
        format!(
            "wrote p.svg ({} bytes): text 00010000-0001003f, data 00080000-0008004f\n",
            picture.len()
        )
    );
    assert!(picture.starts_with("<svg xmlns=\"http://www.w3.org/2000/svg\" "));
    assert!(picture.ends_with("</svg>\n"));
    for words in [
        ">m for s</text>",
        ">00010000</text>",
        ">00080000</text>",
        ">TOC 0008001c</text>",
        ">text image: 00010000-0001003f, 64 bytes, 4 bytes a cell</text>",
    ] {
        assert!(picture.contains(words), "{words}: {picture}");
    }
    // A frame, five colours of the legend, 36 cells and 12 fields, and a frame around the TOC's cell.
    assert_eq!(picture.matches("<rect ").count(), 1 + 5 + 36 + 12 + 1);
    // Names of any bytes are words of the picture and nothing else.
    let mut file = real(M);
    for at in 0..file.len() - 8 {
        if &file[at..at + 8] == b"exactly8" {
            file[at..at + 8].copy_from_slice(b"</svg>&\x1b");
        }
    }
    folder.write("odd", &file);
    folder.done(&["plan", "odd", "--recorded", "-o", "s2"]);
    folder.done(&["map", "odd", "s2", "--svg", "p.svg"]);
    let picture = String::from_utf8(folder.read("p.svg")).unwrap();
    assert_eq!(picture.matches("</svg>").count(), 1);
    assert!(
        picture.contains(r"@11 &lt;/svg&gt;&amp;\x1b: 1 field</text>"),
        "{picture}"
    );
    folder.fails(&["map", "m", "s", "--svg", "odd"], 1, "xcoff: odd is an XCOFF file and would be replaced by a picture; nothing is changed (--force replaces it)\n");
    folder.misused(
        &["map", "m", "s", "--svg", "m"],
        "xcoff: map: FILE and PICTURE are the same file, m",
    );
}

// ---- headers

#[test]
fn headers_have_the_time_and_the_auxiliary_header() {
    let folder = Folder::new();
    let mut file = real(M);
    for (seconds, shown) in [
        (0, "-"),
        (1, "1970-01-01T00:00:01Z"),
        (951_782_399, "2000-02-28T23:59:59Z"),
        (951_782_400, "2000-02-29T00:00:00Z"),
        (951_868_800, "2000-03-01T00:00:00Z"),
        (1_000_000_000, "2001-09-09T01:46:40Z"),
        (u32::MAX, "2106-02-07T06:28:15Z"),
    ] {
        file[4..8].copy_from_slice(&seconds.to_be_bytes());
        folder.write("m", &file);
        assert_eq!(rows(&folder.done(&["headers", "m"]), "format")[0][5], shown);
        let json = folder.done(&["headers", "m", "--json"]);
        assert!(json
            .lines()
            .next()
            .unwrap()
            .ends_with(&format!("\"time\":{seconds}}}")));
    }
    // Each field of the auxiliary header is what the file has at its offset; all its bytes are in one of them.
    for (name, start, length) in [(M, 20, 72), ("exe-imports-64", 24, 110)] {
        folder.copy(name);
        let file = real(name);
        let out = folder.done(&["headers", name]);
        let mut covered = 0;
        let fields = rows(&out, "field");
        for (n, field) in fields.iter().enumerate() {
            let at: usize = field[1].parse().unwrap();
            assert_eq!(at, start + covered, "{name}: {}", field[0]);
            let end = fields
                .get(n + 1)
                .map_or(start + length, |next| next[1].parse().unwrap());
            let value = file[at..end]
                .iter()
                .fold(0u64, |v, &b| v << 8 | u64::from(b));
            let width = 2 * (end - at);
            let shown = [value.to_string(), format!("{value:0width$x}")];
            assert!(shown.contains(&field[2].to_string()), "{name}: {field:?}");
            covered = end - start;
        }
        assert_eq!(covered, length, "{name}");
    }
    // An object file has a short one or none.
    folder.copy("clang-app-32.o");
    assert!(!folder
        .done(&["headers", "clang-app-32.o"])
        .contains("field"));
}

// ---- symbols

/// As the sources were named. (llvm-readobj 19 cuts a name that stands in the entry itself after 8 of its 14 bytes.)
const SOURCES: [(&str, &str); 5] = [
    ("clang-app-32.o", "app.c"),
    ("gas-main-32.o", "main.s"),
    (M, "imports.s"),
    ("exe-imports-64", "imports.s"),
    ("gas-stabs-32.o", "stabs.c"),
];

#[test]
fn symbols_have_their_sources_and_sections() {
    let folder = Folder::new();
    let name = |row: &Vec<&str>| row[14].to_string();
    for (file, source) in SOURCES {
        folder.copy(file);
        let out = folder.done(&["symbols", file, "--name", ".file"]);
        assert_eq!(rows(&out, "index")[0][13], source, "{file}");
        let out = folder.done(&["symbols", file]);
        let headers = folder.done(&["headers", file]);
        let sections = rows(&headers, "section");
        for row in rows(&out, "index") {
            let own = sections.iter().find(|section| section[0] == row[2]);
            assert_eq!(row[12], own.map_or("-", |section| section[11]), "{file}");
            assert!(row[13] == "-" || row[5] == "FILE", "{file}: {}", name(&row));
        }
    }
}

#[test]
fn symbols_are_chosen_by_name_and_ordered() {
    let folder = Folder::new();
    folder.copy("clang-app-32.o");
    let list = |more: &[&str]| {
        let args = [&["symbols", "clang-app-32.o"], more].concat();
        let out = folder.done(&args);
        rows(&out, "index")
            .iter()
            .map(|row| {
                (
                    row[0].parse::<u64>().unwrap(),
                    row[1].to_string(),
                    row[14].to_string(),
                )
            })
            .collect::<Vec<_>>()
    };
    let all = list(&[]);
    assert_eq!(list(&["--sort", "index"]), all);
    let mut sorted = all.clone();
    sorted.sort_by_key(|(_, value, _)| value.clone());
    assert_eq!(list(&["--sort", "value"]), sorted);
    sorted = all.clone();
    sorted.sort_by_key(|(_, _, name)| name.clone());
    assert_eq!(list(&["--sort=name"]), sorted);
    let named = |wanted: &dyn Fn(&str) -> bool| -> Vec<_> {
        all.iter()
            .filter(|(_, _, name)| wanted(name))
            .cloned()
            .collect()
    };
    assert_eq!(list(&["--name", "*"]), all);
    assert_eq!(list(&["--name", "add"]), named(&|name| name == "add"));
    assert_eq!(
        list(&["--name", ".*"]),
        named(&|name| name.starts_with('.'))
    );
    assert_eq!(
        list(&["--name", "*a*d*"]),
        named(&|name| name
            .find('a')
            .is_some_and(|at| name[at + 1..].contains('d')))
    );
    assert_eq!(
        list(&["--name", "?dd?"]),
        named(&|name| name.len() == 4 && &name[1..3] == "dd")
    );
    assert_eq!(list(&["--name", "no such name"]), []);
    assert!(!named(&|name| name.starts_with('.')).is_empty());
    folder.misused(
        &["symbols", "none", "--sort", "size"],
        "xcoff: symbols: --sort size: it is by value, name or index",
    );
}
