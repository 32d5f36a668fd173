//! A real module by GNU ld at both limits, 70,000 loader symbols and 100,000 relocation entries: opened, listed, planned,
//! built, moved and checked by the command, and compared with the second implementation.

mod command_runner;

use agree::{compare, every};
use command_runner::{rows, tests_folder, Folder};
use reference::generate::rng::Rng;
use std::collections::BTreeMap;
use std::process::Command;

const BIG: &str = "shr-req10-32";

/// The file is kept compressed: `xz` must be installed.
fn big() -> Vec<u8> {
    let path = tests_folder().join("corpus/big").join(format!("{BIG}.xz"));
    let mut xz = Command::new("xz");
    let output = xz.arg("-dc").arg(&path).output().expect("xz is installed");
    assert!(output.status.success(), "{}", path.display());
    assert_eq!(output.stdout.len(), 4_294_308);
    output.stdout
}

/// A number of the file, by its place.
fn number(file: &[u8], at: usize, width: usize) -> u64 {
    file[at..at + width]
        .iter()
        .fold(0, |n, &byte| n << 8 | u64::from(byte))
}

/// What ld laid out, read here without the library: the loader section of section 4 begins with its header of 32 bytes,
/// then the symbols of 24 bytes, then the entries of 12.
struct Laid {
    file: Vec<u8>,
    loader: usize,
}

impl Laid {
    fn new() -> Laid {
        let file = big();
        let header = 20 + 72 + 3 * 40;
        assert_eq!(number(&file, header + 36, 4), 0x1000);
        let loader = number(&file, header + 20, 4) as usize;
        assert_eq!(number(&file, loader + 4, 4), 70_000);
        assert_eq!(number(&file, loader + 8, 4), 100_000);
        Laid { file, loader }
    }

    fn name(&self, index: usize) -> String {
        let symbol = self.loader + 32 + 24 * (index - 3);
        let (start, most) = match number(&self.file, symbol, 4) {
            0 => {
                let strings = number(&self.file, self.loader + 28, 4);
                let start = strings + number(&self.file, symbol + 4, 4);
                (self.loader + start as usize, usize::MAX)
            }
            _ => (symbol, 8),
        };
        let bytes = self.file[start..].iter().take(most);
        bytes.take_while(|&&b| b != 0).map(|&b| b as char).collect()
    }

    /// One of them is `v`, defined in data; all others are imported, from an id each.
    fn is_import(&self, index: usize) -> bool {
        let symbol = self.loader + 32 + 24 * (index - 3);
        let import = self.file[symbol + 14] & 0x40 != 0;
        assert!(import || self.name(index) == "v" && number(&self.file, symbol + 12, 2) == 2);
        import
    }

    /// Address and symbol.
    fn entry(&self, n: usize) -> (u64, u64) {
        let entry = self.loader + 32 + 24 * 70_000 + 12 * n;
        assert_eq!(number(&self.file, entry + 8, 4), 0x1F00_0002);
        (
            number(&self.file, entry, 4),
            number(&self.file, entry + 4, 4),
        )
    }

    /// The data image for a plan: the raw data and 4,096 bytes of bss, each field moved by what its symbol moves by.
    fn data(&self, text: u64, data: u64, imports: &dyn Fn(u64) -> u64) -> Vec<u8> {
        let mut image = self.file[0x1120..0x1120 + 0x61a80].to_vec();
        image.resize(0x62a80, 0);
        for (address, symbol) in (0..100_000).map(|n| self.entry(n)) {
            let by = match symbol {
                0 => text.wrapping_sub(0x1000_0100),
                1 | 2 => data.wrapping_sub(0x2000_0120),
                i if !self.is_import(i as usize) => data.wrapping_sub(0x2000_0120),
                i => imports(i),
            };
            let at = (address - 0x2000_0120) as usize;
            let moved = number(&image, at, 4).wrapping_add(by) as u32;
            image[at..at + 4].copy_from_slice(&moved.to_be_bytes());
        }
        image
    }
}

/// An address for each import, and the file that gives it, some by index.
fn address(index: u64) -> u64 {
    (0x4000_0000 + 0x1_0004 * index) % (1 << 32)
}

fn imports(laid: &Laid) -> String {
    let line = |index: usize| {
        let name = match index % 5 {
            0 => format!("@{index}"),
            _ => laid.name(index),
        };
        format!("{name} {:x}\n", address(index as u64))
    };
    let imports = (3..70_003).rev().filter(|&index| laid.is_import(index));
    imports.map(line).collect()
}

#[test]
fn it_is_listed() {
    let laid = Laid::new();
    let folder = Folder::new();
    folder.write("m", &laid.file);
    let list = |command: &str| folder.done(&[command, "m"]);
    assert_eq!(rows(&list("headers"), "section").len(), 4);
    let module = list("module");
    let counts = rows(&module, "format");
    assert_eq!(counts, [["XCOFF32", "4", "70000", "100000", "101"]]);
    let symbols = rows(&module, "index");
    assert_eq!(symbols.len(), 70_000);
    for (row, index) in symbols.iter().zip(3..) {
        assert_eq!((row[0], row[8]), (&*index.to_string(), &*laid.name(index)));
    }
    let imports = list("imports");
    assert_eq!(rows(&imports, "id").len(), 101);
    assert_eq!(rows(&imports, "index").len(), 69_999);
    let relocations = list("relocations");
    let entries = rows(&relocations, "entry");
    assert_eq!(entries.len(), 100_000);
    for (row, n) in entries.iter().zip(0..) {
        let (address, symbol) = laid.entry(n);
        let expected = [n.to_string(), format!("{address:08x}"), symbol.to_string()];
        assert_eq!(
            [row[0], row[1], row[7]],
            expected.each_ref().map(String::as_str)
        );
    }
    let json = folder.done(&["relocations", "m", "--json"]);
    assert_eq!(json.lines().count(), 100_000);
}

#[test]
fn it_is_planned_built_moved_and_checked() {
    let laid = Laid::new();
    let folder = Folder::new();
    folder.write("m", &laid.file);
    folder.write("given", imports(&laid).as_bytes());
    let words = |line: &str| folder.done(&line.split(' ').collect::<Vec<_>>());
    assert_eq!(
        words("plan m --text 10000 --data 80000 --imports given -o one"),
        "wrote one (560024 bytes): text 00010000-0001001f, data 00080000-000e2a7f, 69999 of 69999 imports given; entry none, TOC none\n"
    );
    words("plan m --text 40000 --data c0000 --recorded -o two");
    let sheet = folder.read("one");
    for index in [3, 4_098, 4_099, 65_538, 65_539, 70_002] {
        assert_eq!(
            number(&sheet, 24 + 8 * (index - 3), 8),
            address(index as u64)
        );
    }
    assert_eq!(rows(&words("sheet one m"), "index").len(), 70_000);
    words("build m one -o text data");
    let first = laid.data(0x1_0000, 0x8_0000, &address);
    assert!(folder.read("data") == first);
    words("check m one text data");
    words("move m one two text data -o text2 data2");
    let second = laid.data(0x4_0000, 0xc_0000, &|_| 0);
    assert!(folder.read("data2") == second);
    words("check m two text2 data2");
    words("check m one text2 data2 --or two");
    words("move m two one text2 data2");
    assert!(folder.read("data2") == first);
    words("records m one -o records");
    words("check m one --records records");
    words("images m one records -o text3 data3");
    assert!(folder.read("data3") == first);
}

/// As many addresses as an old sheet cannot hold; and the limits, one above.
#[test]
fn one_more_is_refused() {
    let laid = Laid::new();
    let folder = Folder::new();
    for (at, many, words) in [
        (
            4,
            70_001,
            "refused 3 2 404384: LIMIT, there are more than 70,000 loader symbols",
        ),
        (
            8,
            100_001,
            "refused 3 3 404384: LIMIT, there are more than 100,000 relocation entries",
        ),
    ] {
        let mut file = laid.file.clone();
        let at = laid.loader + at;
        file[at..at + 4].copy_from_slice(&u32::to_be_bytes(many));
        folder.write("m", &file);
        let ran = folder.run(&["module", "m"]);
        assert_eq!(ran.status, Some(1));
        assert!(ran.err.contains(words), "{}", ran.err);
        assert_eq!(laid.loader, 404_384);
    }
}

#[test]
fn every_operation_agrees_with_the_second_implementation() {
    let file = big();
    let mut counts: BTreeMap<&str, u64> = BTreeMap::new();
    for op in every(&file, &mut Rng::new(10)) {
        if let Err(d) = compare(&file, &op) {
            panic!(
                "{}, {}: ours {:.200}, theirs {:.200}",
                op.word(),
                d.part,
                d.ours,
                d.theirs
            );
        }
        *counts.entry(op.word()).or_default() += 1;
    }
    println!("{counts:?}");
    assert!(counts.len() >= 10, "{counts:?}");
}
