//! The command's listings of real files, against what other tools list (tests/expected/README.md), and names of any bytes.

mod command_runner;

use command_runner::{real, rows, tests_folder, Folder};
use std::fs;

/// The words of one fact, after its kind.
type Fact = Vec<String>;

/// What other tools say of a file.
struct Listed {
    name: String,
    facts: Vec<(String, Fact)>,
}

impl Listed {
    fn all(&self, kind: &str) -> Vec<&Fact> {
        let wanted = self.facts.iter().filter(|(k, _)| k == kind);
        wanted.map(|(_, fact)| fact).collect()
    }

    fn one(&self, kind: &str) -> &Fact {
        self.all(kind)[0]
    }
}

/// Every file of the corpus that other tools list.
fn listed() -> Vec<Listed> {
    let bytes = fs::read(tests_folder().join("expected/facts.txt")).unwrap();
    let text: String = bytes.iter().map(|&b| b as char).collect();
    let mut files: Vec<Listed> = Vec::new();
    for line in text.lines() {
        if let Some(name) = line.strip_prefix('@') {
            files.push(Listed {
                name: name.to_string(),
                facts: Vec::new(),
            });
            continue;
        }
        let (kind, rest) = line.split_once(' ').unwrap();
        // A name is last and may hold blanks: the words before it are told by their number.
        let words = match kind {
            "lsym" => 8,
            "section" | "symbol" => 7,
            "id" => 2,
            _ => usize::MAX,
        };
        let fact = rest.splitn(words, ' ').map(str::to_string).collect();
        files
            .last_mut()
            .unwrap()
            .facts
            .push((kind.to_string(), fact));
    }
    assert!(files.len() >= 140);
    files
}

fn hex(digits: &str) -> u64 {
    u64::from_str_radix(digits, 16).unwrap()
}

/// A number of a fact as listings have it.
fn decimal(digits: &str) -> String {
    hex(digits).to_string()
}

/// A name as listings show it.
fn shown(name: &str) -> String {
    if name.is_empty() {
        return "\"\"".into();
    }
    let one = |c: char| match c {
        '\\' => "\\\\".to_string(),
        ' ' | '"' => format!("\\x{:02x}", c as u32),
        '!'..='~' => c.to_string(),
        _ => format!("\\x{:02x}", c as u32),
    };
    name.chars().map(one).collect()
}

/// The storage class of a word in a listing.
fn class(word: &str) -> u64 {
    let known = "NULL 0 EXT 2 STAT 3 BLOCK 100 FCN 101 FILE 103 HIDEXT 107 BINCL 108 EINCL 109 \
                 INFO 110 WEAKEXT 111 DWARF 112 GSYM 128 LSYM 129 PSYM 130 RSYM 131 RPSYM 132 \
                 STSYM 133 TCSYM 134 BCOMM 135 ECOML 136 ECOMM 137 DECL 140 ENTRY 141 FUN 142 \
                 BSTAT 143 ESTAT 144 GTLS 145 STTLS 146";
    let words: Vec<&str> = known.split(' ').collect();
    let known = words.chunks(2).find(|pair| pair[0] == word);
    known.map_or(word, |pair| pair[1]).parse().unwrap()
}

/// The storage mapping class of a word in a listing.
fn mapping(word: &str) -> u64 {
    let known = "PR RO DB TC UA RW GL XO SV BS DS UC TI TB - TC0 TD SV64 SV3264 - TL UL TE";
    let place = known.split(' ').position(|w| w == word);
    place.map_or_else(|| word.parse().unwrap(), |p| p as u64)
}

// ---- against other tools

#[test]
fn headers_are_what_other_tools_list() {
    let folder = Folder::new();
    let mut refused = 0;
    for file in listed() {
        let name = &file.name;
        folder.copy(name);
        let ran = folder.run(&["headers", name]);
        if ran.status == Some(1) {
            refused += 1;
            let start = format!("xcoff: {name}: refused ");
            assert!(
                ran.err.starts_with(&start) && ran.out.is_empty(),
                "{}",
                ran.err
            );
            continue;
        }
        assert_eq!((ran.status, ran.err.as_str()), (Some(0), ""), "{name}");
        same_headers(&file, &ran.out);
    }
    assert_eq!(refused, 8);
}

fn same_headers(file: &Listed, out: &str) {
    let name = &file.name;
    let (got, expected) = (&rows(out, "format")[0], file.one("file"));
    assert_eq!(got[0], format!("XCOFF{}", expected[0]), "{name}");
    let counts: Vec<String> = expected[1..4].iter().map(|n| decimal(n)).collect();
    assert_eq!(got[1..4], counts, "{name}");
    assert_eq!(hex(got[4]), hex(&expected[4]), "{name}");

    let (got, expected) = (rows(out, "section"), file.all("section"));
    assert_eq!(got.len(), expected.len(), "{name}");
    for (g, e) in got.iter().zip(expected) {
        assert_eq!(
            (g[0], g[11]),
            (decimal(&e[0]).as_str(), shown(&e[6]).as_str())
        );
        assert_eq!((hex(g[2]), hex(g[3])), (hex(&e[1]), hex(&e[2])), "{name}");
        assert_eq!(
            (g[4], g[5]),
            (decimal(&e[3]).as_str(), decimal(&e[4]).as_str())
        );
    }
    for (g, e) in got.iter().zip(file.all("tables")) {
        let tables: Vec<String> = e[1..].iter().map(|n| decimal(n)).collect();
        assert_eq!(g[7..11], tables, "{name}");
    }
    // The stored text of the header lister has the kinds as words.
    let stored = tests_folder().join("corpus").join(format!("{name}.txt"));
    let stored = fs::read_to_string(stored).unwrap_or_default();
    for (line, g) in stored.lines().skip(1).zip(&got) {
        assert_eq!(line.split(' ').nth(1), Some(g[1]), "{name}");
    }
}

#[test]
fn symbols_are_what_other_tools_list() {
    let folder = Folder::new();
    let mut compared = 0;
    for file in listed() {
        let bytes = folder.copy(&file.name);
        let ran = folder.run(&["symbols", &file.name]);
        if ran.out.is_empty() {
            continue;
        }
        let (got, mut expected) = (rows(&ran.out, "index"), file.all("symbol"));
        // A visibility of 5 to 7 is refused and ends the list.
        let end = expected.iter().position(|e| is_refused(e));
        let cause = end.map_or("".into(), |n| {
            bad_visibility(&file.name, &bytes, hex(&expected[n][0]) as usize)
        });
        expected.truncate(end.unwrap_or(expected.len()));
        assert_eq!(ran.status, Some(end.is_some() as i32), "{}", file.name);
        assert_eq!(ran.err, cause);
        assert_eq!(got.len(), expected.len(), "{}", file.name);
        for (g, e) in got.iter().zip(expected) {
            compared += 1;
            same_symbol(&file.name, g, e);
            let csects = file.all("csect");
            same_csect(&file.name, g, csects.into_iter().find(|c| c[0] == e[0]));
        }
    }
    assert!(compared >= 1900, "{compared} symbols");
}

/// What is said of symbol `i`, and its entry.
fn bad_visibility(name: &str, file: &[u8], i: usize) -> String {
    let start = u32::from_be_bytes(file[8..12].try_into().unwrap()) as usize;
    let at = start + 18 * i;
    let shown = |from: usize, to: usize| -> String {
        let bytes = &file[at + from..at + to];
        bytes.iter().map(|byte| format!(" {byte:02x}")).collect()
    };
    format!(
        "xcoff: {name}: refused 30 {i} {at}: VISIBILITY, \
         the type of symbol {i} claims a visibility of 5 to 7, which means nothing\n  \
         symbol {i}: 18 bytes at offset {at}\n  {at:08x} {}\n  {:08x} {}\n  \
         field   offset  value\n  n_type  {:>6}  {}\n",
        shown(0, 16),
        at + 16,
        shown(16, 18),
        at + 14,
        shown(14, 16).replace(' ', "")
    )
}

/// A type and, after a slash, the visibility that it claims.
fn type_and_visibility(fact: &Fact) -> (u64, Option<usize>) {
    match fact[2].split_once('/') {
        Some((ntype, number)) => (hex(ntype), Some(number.parse().unwrap())),
        None => (hex(&fact[2]), None),
    }
}

fn is_refused(fact: &Fact) -> bool {
    type_and_visibility(fact).1 > Some(4)
}

fn same_symbol(name: &str, got: &[&str], expected: &Fact) {
    let index = got[0];
    assert_eq!(index, decimal(&expected[0]), "{name}");
    let section = match got[2] {
        "undef" => "0",
        "abs" => "-1",
        "debug" => "-2",
        number => number,
    };
    assert_eq!(section, expected[1], "{name}: section of {index}");
    let (ntype, visibility) = type_and_visibility(expected);
    let words = ["none", "internal", "hidden", "protected", "exported"];
    assert_eq!(hex(got[3]), ntype, "{name}: type of {index}");
    assert_eq!(got[4], visibility.map_or("-", |v| words[v]), "{name}");
    assert_eq!(class(got[5]), hex(&expected[3]), "{name}: class of {index}");
    assert_eq!(
        got[6],
        decimal(&expected[4]),
        "{name}: auxiliaries of {index}"
    );
    assert_eq!(hex(got[1]), hex(&expected[5]), "{name}: value of {index}");
    assert_eq!(got[14], shown(&expected[6]), "{name}: name of {index}");
}

fn same_csect(name: &str, got: &[&str], expected: Option<&Fact>) {
    let Some(expected) = expected else {
        assert!(matches!(got[7], "-" | "bad"), "{name}: csect of {}", got[0]);
        assert_eq!(got[8..12], ["-"; 4], "{name}: csect of {}", got[0]);
        return;
    };
    let kind = ["ER", "SD", "LD", "CM"][hex(&expected[1]) as usize];
    let (align, length) = (decimal(&expected[2]), decimal(&expected[4]));
    assert_eq!((got[7], got[8]), (kind, align.as_str()), "{name}");
    assert_eq!(mapping(got[9]), hex(&expected[3]), "{name}");
    let places = match kind {
        "LD" => ["-", &length],
        _ => [&length, "-"],
    };
    assert_eq!(got[10..12], places, "{name}: csect of {}", got[0]);
}

#[test]
fn a_walk_that_stops_is_listed_up_to_there() {
    let folder = Folder::new();
    let mut file = folder.copy("gas-stabs-32.o");
    // The offset of symbol 4, a name of the debug section, now leads past it.
    let start = u32::from_be_bytes(file[8..12].try_into().unwrap()) as usize;
    file[start + 18 * 4 + 4] = 0x7F;
    folder.write("gas-stabs-32.o", &file);
    let ran = folder.run(&["symbols", "gas-stabs-32.o"]);
    assert_eq!(ran.status, Some(1));
    assert_eq!(rows(&ran.out, "index").len(), 2);
    assert_eq!(
        ran.err,
        "xcoff: gas-stabs-32.o: refused 10 4 682: NAME, \
         the name offset of symbol 4 leads to no name in the string table or debug section\n  \
         symbol 4: 18 bytes at offset 682\n  \
         000002aa  00 00 00 00 7f 00 00 02 00 00 00 00 ff fe 00 00\n  \
         000002ba  8c 00\n  \
         field     offset  value\n  \
         n_zeroes     682  00000000\n  \
         n_offset     686  2130706434\n  \
         n_sclass     698  140\n"
    );
    // With --json the refusal is an object too, after the rows.
    let json = folder.run(&["symbols", "gas-stabs-32.o", "--json"]);
    assert_eq!((json.status, json.err), (ran.status, ran.err));
    let lines: Vec<&str> = json.out.lines().collect();
    assert_eq!(lines.len(), 3);
    let refusal = r#"{"table":"refusal","about":"gas-stabs-32.o","number":10,"item":4,"offset":682,"rule":"NAME","meaning":"#;
    assert!(lines[2].starts_with(refusal), "{}", lines[2]);
}

#[test]
fn modules_and_imports_are_what_other_tools_list() {
    let folder = Folder::new();
    let (mut modules, mut refused) = (0, 0);
    for file in listed() {
        let name = &file.name;
        folder.copy(name);
        let module = folder.run(&["module", name]);
        let imports = folder.run(&["imports", name]);
        let verdict = (module.status, module.err.as_str());
        assert_eq!(verdict, (imports.status, imports.err.as_str()), "{name}");
        if module.status == Some(0) {
            modules += 1;
            same_module(&file, &module.out);
            same_ids(&file, &imports.out);
            same_imports(name, &module.out, &imports.out);
        } else {
            refused += 1;
            assert!(module.err.starts_with(&format!("xcoff: {name}: refused ")));
            assert_eq!((module.status, module.out.as_str()), (Some(1), ""));
        }
    }
    assert!(
        modules >= 60 && refused >= 60,
        "{modules} modules, {refused} refused"
    );
}

fn same_module(file: &Listed, out: &str) {
    let name = &file.name;
    let counts: Vec<String> = file.one("loader").iter().map(|n| decimal(n)).collect();
    assert_eq!(rows(out, "format")[0][2..], counts, "{name}");
    let m = file.one("module");
    let parts = rows(out, "part");
    for (part, at) in [(0, 0), (1, 3)] {
        assert_eq!(parts[part][1], decimal(&m[at]), "{name}");
        assert_eq!(hex(parts[part][2]), hex(&m[at + 1]), "{name}");
        assert_eq!(parts[part][3], decimal(&m[at + 2]), "{name}");
    }
    for (anchor, at) in [(0, 9), (1, 11)] {
        let got = &rows(out, "anchor")[anchor];
        match m[at].as_str() {
            "0" => assert_eq!(got[1..], ["-", "-"], "{name}"),
            section => assert_eq!((got[1], hex(got[2])), (section, hex(&m[at + 1])), "{name}"),
        }
    }
    let got = rows(out, "index");
    assert_eq!(got.len().to_string(), counts[0], "{name}");
    // Of the largest tables only some symbols are stored.
    for e in file.all("lsym") {
        same_loader_symbol(name, &got[hex(&e[0]) as usize - 3], e);
    }
}

fn same_loader_symbol(name: &str, got: &[&str], expected: &Fact) {
    let index = decimal(&expected[0]);
    assert_eq!(got[0], index, "{name}");
    assert_eq!(hex(got[1]), hex(&expected[1]), "{name}: value of {index}");
    assert_eq!(got[2], decimal(&expected[2]), "{name}: section of {index}");
    assert_eq!(hex(got[3]), hex(&expected[3]), "{name}: type of {index}");
    assert_eq!(
        mapping(got[4]),
        hex(&expected[4]),
        "{name}: class of {index}"
    );
    assert_eq!(got[5], decimal(&expected[5]), "{name}: file id of {index}");
    assert_eq!(
        hex(got[6]),
        hex(&expected[6]),
        "{name}: parameter of {index}"
    );
    let used = match (hex(&expected[3]) & 0x40, hex(&expected[5])) {
        (0, _) => "defined",
        (_, 0) => "deferred",
        _ => "import",
    };
    assert_eq!(
        (got[7], got[8]),
        (used, shown(&expected[7]).as_str()),
        "{name}"
    );
}

fn same_ids(file: &Listed, out: &str) {
    let got = rows(out, "id");
    assert_eq!(
        got.len() as u64,
        hex(&file.one("loader")[2]),
        "{}",
        file.name
    );
    for (g, e) in got.iter().zip(file.all("id")) {
        let mut expected = vec![decimal(&e[0])];
        expected.extend(e[1].split('|').map(shown));
        assert_eq!(*g, expected, "{}", file.name);
    }
}

/// `imports` lists the loader symbols that `module` does not call defined.
fn same_imports(name: &str, module: &str, imports: &str) {
    let listed = rows(imports, "index");
    let got: Vec<[&str; 5]> = listed
        .iter()
        .map(|g| [g[0], g[1], g[3], g[4], g[5]])
        .collect();
    let all = rows(module, "index");
    let imported = all.iter().filter(|g| g[7] != "defined");
    let expected: Vec<[&str; 5]> = imported.map(|g| [g[0], g[1], g[5], g[7], g[8]]).collect();
    assert_eq!(got, expected, "{name}");
}

#[test]
fn relocations_are_what_other_tools_list() {
    let folder = Folder::new();
    let mut compared = 0;
    for file in listed() {
        let facts = file.all("lrel");
        folder.copy(&file.name);
        let ran = folder.run(&["relocations", &file.name]);
        if facts.is_empty() || ran.status == Some(1) {
            continue;
        }
        let got = rows(&ran.out, "entry");
        for fact in facts {
            compared += same_relocations(&file.name, &got, fact);
        }
    }
    assert!(compared >= 2000, "{compared} entries");
}

/// A run of entries at equal distances, whose symbols are repeated; distance and symbols are decimal.
fn same_relocations(name: &str, got: &[Vec<&str>], run: &Fact) -> u64 {
    let (first, count, address) = (hex(&run[0]), hex(&run[1]), hex(&run[3]));
    let distance: i64 = run[2].parse().unwrap();
    let symbols: Vec<&str> = run[6].split(',').collect();
    for n in 0..count {
        let row = &got[(first + n) as usize];
        assert_eq!(row[0], (first + n).to_string(), "{name}");
        let address = address.wrapping_add_signed(n as i64 * distance);
        assert_eq!(hex(row[1]), address, "{name}: entry {}", row[0]);
        assert_eq!(hex(row[6]), hex(&run[4]), "{name}: type of {}", row[0]);
        let symbol = symbols[n as usize % symbols.len()];
        assert_eq!(row[7], symbol, "{name}: symbol of {}", row[0]);
    }
    count
}

#[test]
fn relocations_are_those_of_the_second_implementation() {
    let folder = Folder::new();
    let names = "exe-imports-32 exe-imports-64 shr-rel4096-32 shr-rel4096-64 textrel.a-32 \
                 textrel.a-64 unaligned.a-32 unaligned.a-64 neg.a-32 neg.a-64";
    for name in names.split(' ') {
        let file = folder.copy(name);
        let out = folder.done(&["relocations", name]);
        let got: Vec<String> = rows(&out, "entry")
            .iter()
            .map(|row| row.join(" "))
            .collect();
        assert_eq!(got, relocations(&file), "{name}");
    }
}

fn relocations(file: &[u8]) -> Vec<String> {
    let module = reference::module(file).unwrap();
    let symbols = reference::loader_symbols(file).unwrap();
    let digits = module.bits as usize / 4;
    let line = |(n, e): (usize, &reference::Relocation)| {
        let (section, start) = match e.section == module.text {
            true => ("text", module.text_address),
            false => ("data", module.data_address),
        };
        let name = match e.symbol {
            0 => "text".into(),
            1 => "data".into(),
            2 => "bss".into(),
            i => String::from_utf8_lossy(&file[symbols[i as usize - 3].name.clone()]),
        };
        let (address, offset, bits) = (e.address, e.address - start, e.width);
        let sign = if e.subtract { "-" } else { "+" };
        let (kind, symbol) = (e.kind, e.symbol);
        format!(
            "{n} {address:0digits$x} {section} {offset} {bits} {sign} {kind:04x} {symbol} {name}"
        )
    };
    let entries = reference::relocations(file).unwrap();
    entries.iter().enumerate().map(line).collect()
}

// ---- the text itself

const MODULE: &str = "\
format   loader  symbols  relocations  ids
XCOFF32       4        9           20    4

part   section  address   size
text         1  10000100   160
data         2  200001a0    96
bss          3  20000200    64
image        -  200001a0   160

anchor  section  address
entry         2  200001d0
TOC           2  200001e0

index  value     section  type  mapping  id  parm      use       name
    3  00000000        0  40    PR        1  00000000  import    errno
    4  00000000        0  40    DS        1  00000000  import    malloc
    5  00000000        0  40    DS        2  00000000  import    a_function_with_a_long_name
    6  200001d0        2  22    DS        0  00000000  defined   __start
    7  00000000        0  40    PR        2  00000000  import    environ_of_the_process
    8  00000000        0  40    PR        0  00000000  deferred  later
    9  00000000        0  40    PR        3  00000000  import    sysvar
   10  00000000        0  40    PR        0  00000000  deferred  resolved_later_at_run_time
   11  00000000        0  40    DS        1  00000000  import    exactly8
";

const IMPORTS: &str = "\
id  path           base          member
 0  /usr/lib:/lib  \"\"            \"\"
 1  \"\"             libc.a        shr.o
 2  /usr/lib       libexample.a  shr_64.o
 3  /              unix          \"\"

index  recorded          mapping  id  use       name
    3  0000000000000000  PR        1  import    errno
";

#[test]
fn a_listing_is_aligned_and_has_a_heading() {
    let folder = Folder::new();
    folder.copy("exe-imports-32");
    folder.copy("exe-imports-64");
    assert_eq!(folder.done(&["module", "exe-imports-32"]), MODULE);
    let out = folder.done(&["imports", "exe-imports-64"]);
    assert!(out.starts_with(IMPORTS), "{out}");
}

#[test]
fn json_is_one_object_a_line() {
    let folder = Folder::new();
    folder.copy("exe-imports-32");
    let out = folder.done(&["imports", "--json", "exe-imports-32"]);
    let lines: Vec<&str> = out.lines().collect();
    assert_eq!(lines.len(), 12);
    assert_eq!(
        lines[1],
        r#"{"table":"ids","id":1,"path":"","base":"libc.a","member":"shr.o"}"#
    );
    assert_eq!(
        lines[5],
        concat!(
            r#"{"table":"imports","index":4,"recorded":"00000000","mapping":10,"id":1,"#,
            r#""use":"import","name":"malloc"}"#
        )
    );
    let out = folder.done(&["symbols", "exe-imports-32", "--json"]);
    assert_eq!(
        out.lines().nth(1),
        Some(concat!(
            r#"{"table":"symbols","index":2,"value":"ffffffff","section":-2,"type":"0000","#,
            r#""visibility":null,"class":103,"aux":1,"csect":null,"align":null,"mapping":null,"#,
            r#""length":null,"within":null,"in":null,"source":"imports.s","name":".file"}"#
        ))
    );
    folder.copy("clang-vis-32.o");
    let out = folder.done(&["symbols", "clang-vis-32.o", "--json"]);
    assert_eq!(
        out.lines().nth(5),
        Some(concat!(
            r#"{"table":"symbols","index":11,"value":"00000050","section":2,"type":"3000","#,
            r#""visibility":3,"class":2,"aux":1,"csect":"SD","align":2,"mapping":5,"#,
            r#""length":4,"within":null,"in":".data","source":null,"name":"prot"}"#
        ))
    );
    for command in ["headers", "module", "relocations"] {
        let out = folder.done(&[command, "exe-imports-32", "--json"]);
        let objects = out
            .lines()
            .filter(|l| l.starts_with("{\"table\":\"") && l.ends_with('}'));
        assert_eq!(objects.count(), out.lines().count());
        assert!(out.lines().count() >= 5);
    }
}

// ---- names of any bytes

#[test]
fn no_byte_of_a_name_reaches_the_terminal_as_it_stands() {
    let folder = Folder::new();
    let mut file = real("exe-imports-32");
    let name = b"\x1b[2J \\\"\xff";
    for at in 0..file.len() - 8 {
        if &file[at..at + 8] == b"exactly8" {
            file[at..at + 8].copy_from_slice(name);
        }
    }
    folder.write("odd", &file);
    let out = folder.done(&["imports", "odd"]);
    let last = r"   11  00000000  DS        1  import    \x1b[2J\x20\\\x22\xff";
    assert_eq!(out.lines().last(), Some(last));
    let out = folder.done(&["imports", "odd", "--json"]);
    assert!(
        out.ends_with("\"name\":\"\\u001b[2J \\\\\\\"\\u00ff\"}\n"),
        "{out}"
    );
    for command in ["headers", "symbols", "module", "imports", "relocations"] {
        let out = folder.done(&[command, "odd"]);
        let plain = |b: u8| b == b'\n' || (b' '..=b'~').contains(&b);
        assert!(out.bytes().all(plain), "{command}");
    }
    // The shown name chooses the import.
    let shown = r"\x1b[2J\x20\\\x22\xff=1234";
    folder.done(&["plan", "odd", "--recorded", "--import", shown, "-o", "s"]);
    assert_eq!(
        folder.read("s")[24 + 8 * 8..],
        [0, 0, 0, 0, 0, 0, 0x12, 0x34]
    );
}

/// An XCOFF32 file of symbols alone, each by its offset in a string table of one name.
fn symbols(offsets: impl ExactSizeIterator<Item = u32>, name: &[u8]) -> Vec<u8> {
    let mut file = vec![0x01, 0xDF, 0, 0, 0, 0, 0, 0];
    file.extend(20u32.to_be_bytes());
    file.extend((offsets.len() as u32).to_be_bytes());
    file.extend([0; 4]);
    for offset in offsets {
        file.extend([0; 4]);
        file.extend(offset.to_be_bytes());
        file.extend([0, 0, 0, 0, 0, 0, 0, 0, 103, 0]);
    }
    file.extend((4 + name.len() as u32 + 1).to_be_bytes());
    file.extend(name);
    file.push(0);
    file
}

#[test]
fn a_long_name_is_cut_with_a_mark() {
    let folder = Folder::new();
    for (length, end) in [(300, "a\\..."), (257, "a\\..."), (256, "a")] {
        folder.write("long", &symbols([4].into_iter(), &vec![b'a'; length]));
        let out = folder.done(&["symbols", "long"]);
        let name = rows(&out, "index")[0][14];
        assert_eq!(name, format!("{}{end}", "a".repeat(255)), "{length}");
        let json = folder.done(&["symbols", "long", "--json"]);
        assert_eq!(json.ends_with("\"name_cut\":true}\n"), length > 256);
    }
}

#[test]
fn many_long_names_make_no_longer_listing() {
    let folder = Folder::new();
    // 20,000 names that all end where one string of 64,000 bytes does: 1.1 GB, were they printed whole.
    folder.write("many", &symbols(4..20_004, &vec![b'n'; 64_000]));
    let out = folder.done(&["symbols", "many"]);
    assert_eq!(out.lines().count(), 20_001);
    assert!(out.len() < 20_001 * 400, "{}", out.len());
}
