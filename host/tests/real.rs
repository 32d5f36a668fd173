//! Real files, written by other people's tools. Every one is judged as an independent reading of the rules says, read as
//! other tools list it, and built and moved as their listing of its relocation entries says. Every operation on it agrees
//! with the second implementation. tests/expected/README.md says where the stored texts come from.

use agree::{compare, every};
use reference::generate::rng::Rng;
use std::collections::BTreeMap;
use std::fs;
use std::path::PathBuf;
use xcoff::{
    Anchor, CsectType, Format, Kind, LineEntry, LoaderSymbol, Part, Plan, Refusal, Visibility,
};

// ---- stored files

fn tests_folder() -> PathBuf {
    PathBuf::from(env!("CARGO_MANIFEST_DIR")).join("../tests")
}

fn stored(name: &str) -> String {
    let path = tests_folder().join("expected").join(name);
    let bytes = fs::read(&path).unwrap_or_else(|e| panic!("{}: {e}", path.display()));
    text(&bytes)
}

fn folders() -> [PathBuf; 3] {
    ["corpus", "corpus/large", "pairs"].map(|folder| tests_folder().join(folder))
}

/// A real file, by its name.
fn real(name: &str) -> Vec<u8> {
    let path = folders()
        .map(|folder| folder.join(name))
        .into_iter()
        .find(|p| p.is_file());
    fs::read(path.unwrap_or_else(|| panic!("no file {name} in tests"))).expect("a readable file")
}

/// Fails with every difference at once.
fn none(differences: Vec<String>) {
    assert!(
        differences.is_empty(),
        "{} differences:\n{}",
        differences.len(),
        differences.join("\n")
    );
}

fn text(bytes: &[u8]) -> String {
    bytes.iter().map(|&b| b as char).collect()
}

/// The names of all real files; one may be in two folders.
fn real_names() -> Vec<String> {
    let mut names = Vec::new();
    for folder in folders() {
        for entry in fs::read_dir(folder).expect("the folder is there") {
            let path = entry.expect("a readable folder").path();
            let name = path
                .file_name()
                .expect("a name")
                .to_string_lossy()
                .into_owned();
            if path.is_file() && ![".txt", ".py", ".md"].iter().any(|end| name.ends_with(end)) {
                names.push(name);
            }
        }
    }
    names.sort();
    names.dedup();
    names
}

/// The facts of each listed file.
fn facts(stored: &str) -> BTreeMap<&str, Vec<&str>> {
    let mut all: BTreeMap<&str, Vec<&str>> = BTreeMap::new();
    let mut name = "";
    for line in stored.lines() {
        if let Some(next) = line.strip_prefix('@') {
            name = next;
            all.insert(name, Vec::new());
        } else {
            all.entry(name).or_default().push(line);
        }
    }
    all
}

#[test]
fn no_real_file_is_left_out() {
    let (verdicts, stored) = (stored("verdicts.txt"), stored("facts.txt"));
    let listed = facts(&stored);
    let judged = |name: &str| verdicts.lines().any(|l| l.split(' ').next() == Some(name));
    let names = real_names();
    assert!(names.len() >= 210, "{} files", names.len());
    // The tools refuse the magic number of this one; the verdicts have it.
    let unlisted: Vec<&String> = names
        .iter()
        .filter(|n| !listed.contains_key(n.as_str()))
        .collect();
    assert_eq!(unlisted, ["exe-oldmagic-64"]);
    // The pairs are judged by each other (pairs.rs). These were added for their listings.
    let mut pairs: Vec<String> = names.into_iter().filter(|n| !judged(n)).collect();
    pairs.retain(|n| n != "clang14-vis-32.o" && !n.starts_with("gas-lines500"));
    assert!(
        pairs.iter().all(|n| n.contains(".a-") || n.contains(".b-")),
        "{pairs:?}"
    );
}

// ---- verdicts

/// What the library says of a file, as a line of tests/expected/verdicts.txt.
fn verdict(name: &str, file: &[u8]) -> String {
    let opened = match xcoff::open(file) {
        Err(r) => return format!("{name} open {} {}", r.number, r.item),
        Ok(o) => o,
    };
    let walk = xcoff::walk(file).expect("an opened file is walked");
    let cause = walk.cause.map_or((0, 0), |r| (r.number, r.item));
    let head = format!(
        "{name} {} walk {} {} {}",
        bits(opened.format),
        walk.visited,
        cause.0,
        cause.1
    );
    let m = match xcoff::module(file) {
        Err(r) => return format!("{head} module {} {}", r.number, r.item),
        Ok(m) => m,
    };
    let symbols: Vec<LoaderSymbol> = (3..m.symbols + 3)
        .map(|i| xcoff::loader_symbol(file, i).expect("a symbol"))
        .collect();
    let deferred = symbols.iter().filter(|s| s.is_deferred()).count();
    let imports = symbols.iter().filter(|s| s.is_import()).count() - deferred;
    let section = |a: Option<Anchor>| a.map_or(0, |a| a.section);
    format!(
        "{head} loadable {} {imports} {deferred} {} {} {} {} {} {}",
        m.symbols,
        m.ids,
        m.relocations,
        section(m.entry),
        section(m.toc),
        m.bss.size,
        m.image - m.data.size - m.bss.size,
    )
}

fn bits(format: Format) -> u64 {
    match format {
        Format::Xcoff32 => 32,
        Format::Xcoff64 => 64,
    }
}

#[test]
fn every_real_file_is_judged_as_the_independent_reading_says() {
    let expected = stored("verdicts.txt");
    let mut differences = Vec::new();
    for line in expected.lines() {
        let name = line.split(' ').next().expect("a name");
        let got = verdict(name, &real(name));
        if got != line {
            differences.push(format!("expected {line}, got {got}"));
        }
    }
    assert!(expected.lines().count() >= 140);
    none(differences);
}

// ---- listings

/// One fact of a listing as the library tells it; `fact` gives what is asked for.
fn told(file: &[u8], fact: &str) -> String {
    let words: Vec<&str> = fact.split(' ').collect();
    let index = u64::from_str_radix(words[1], 16).unwrap_or(0);
    match words[0] {
        "file" => told_file(file),
        "section" => told_section(file, index),
        "module" => told_module(file),
        "loader" => told_loader(file),
        "lsym" => told_loader_symbol(file, index),
        "id" => told_id(file, index),
        "symbol" => told_symbol(file, index),
        "csect" => told_csect(file, index),
        "lrel" => told_relocations(file, fact),
        "rel" => told_entries(file, fact),
        "tables" => told_tables(file, index),
        "lines" => told_lines(file, &hex_words(fact, 5)),
        "source" => told_source(file, &hex_words(fact, 3)),
        _ => panic!("no such fact: {fact}"),
    }
}

fn told_file(file: &[u8]) -> String {
    match xcoff::open(file) {
        Err(r) => r.to_string(),
        Ok(o) => format!(
            "file {} {:x} {:x} {:x} {:x}",
            bits(o.format),
            o.sections,
            o.symbols,
            o.opthdr,
            o.flags
        ),
    }
}

fn told_section(file: &[u8], n: u64) -> String {
    match (xcoff::section(file, n), xcoff::section_name(file, n)) {
        (Ok(s), Ok(name)) => format!(
            "section {n:x} {:x} {:x} {:x} {:x} {:x} {}",
            s.paddr,
            s.vaddr,
            s.size,
            s.scnptr,
            flag(s.kind),
            text(name)
        ),
        (s, _) => format!("section {n:x}: {}", s.expect_err("section and name agree")),
    }
}

fn flag(kind: Kind) -> u64 {
    match kind {
        Kind::Pad => 0x8,
        Kind::Dwarf => 0x10,
        Kind::Text => 0x20,
        Kind::Data => 0x40,
        Kind::Bss => 0x80,
        Kind::Except => 0x100,
        Kind::Info => 0x200,
        Kind::Tdata => 0x400,
        Kind::Tbss => 0x800,
        Kind::Loader => 0x1000,
        Kind::Debug => 0x2000,
        Kind::Typchk => 0x4000,
        Kind::Ovrflo => 0x8000,
        Kind::Deleted => 0xFFFF,
    }
}

fn told_module(file: &[u8]) -> String {
    let m = match xcoff::module(file) {
        Err(r) => return format!("module: {r}"),
        Ok(m) => m,
    };
    let part = |p: Part| format!("{:x} {:x} {:x}", p.number, p.address, p.size);
    // The listing's address where the section is 0 means nothing.
    let anchor =
        |a: Option<Anchor>| a.map_or("0 -".into(), |a| format!("{:x} {:x}", a.section, a.address));
    format!(
        "module {} {} {:x} {:x} {:x} {} {}",
        part(m.text),
        part(m.data),
        m.bss.number,
        m.bss.size,
        m.loader,
        anchor(m.entry),
        anchor(m.toc)
    )
}

fn told_loader(file: &[u8]) -> String {
    match xcoff::module(file) {
        Err(r) => format!("loader: {r}"),
        Ok(m) => format!("loader {:x} {:x} {:x}", m.symbols, m.relocations, m.ids),
    }
}

fn told_loader_symbol(file: &[u8], i: u64) -> String {
    match (
        xcoff::loader_symbol(file, i),
        xcoff::loader_symbol_name(file, i),
    ) {
        (Ok(s), Ok(name)) => format!(
            "lsym {i:x} {:x} {:x} {:x} {:x} {:x} {:x} {}",
            s.value,
            s.scnum,
            s.smtype,
            s.smclas,
            s.ifile,
            s.parm,
            text(name)
        ),
        (s, _) => format!("lsym {i:x}: {}", s.expect_err("symbol and name agree")),
    }
}

fn told_id(file: &[u8], n: u64) -> String {
    match (
        xcoff::import_path(file, n),
        xcoff::import_base(file, n),
        xcoff::import_member(file, n),
    ) {
        (Ok(path), Ok(base), Ok(member)) => {
            format!("id {n:x} {}|{}|{}", text(path), text(base), text(member))
        }
        (path, _, _) => format!("id {n:x}: {}", path.expect_err("the three strings agree")),
    }
}

fn told_symbol(file: &[u8], i: u64) -> String {
    match (xcoff::symbol(file, i), xcoff::symbol_name(file, i)) {
        (Ok(s), Ok(name)) => format!(
            "symbol {i:x} {} {:x}{} {:x} {:x} {:x} {}",
            s.scnum,
            s.ntype,
            s.visibility.map_or("".into(), |v| format!("/{}", v as u64)),
            s.sclass,
            s.numaux,
            s.value,
            text(name)
        ),
        (s, _) => format!("symbol {i:x}: {}", s.expect_err("symbol and name agree")),
    }
}

fn told_csect(file: &[u8], i: u64) -> String {
    match xcoff::csect(file, i) {
        Err(r) => format!("csect {i:x}: {r}"),
        Ok(c) => {
            let kind = match c.kind {
                CsectType::Er => 0,
                CsectType::Sd => 1,
                CsectType::Ld => 2,
                CsectType::Cm => 3,
            };
            format!(
                "csect {i:x} {kind:x} {:x} {:x} {:x}",
                c.align, c.smclas, c.length
            )
        }
    }
}

fn told_tables(file: &[u8], n: u64) -> String {
    match xcoff::section(file, n) {
        Ok(s) => format!(
            "tables {n:x} {:x} {:x} {:x} {:x}",
            s.relptr, s.nreloc, s.lnnoptr, s.nlnno
        ),
        Err(r) => format!("tables {n:x}: {r}"),
    }
}

/// In a section, the entries of a function from an address and line on, as far as they go on by 4 bytes and one line.
fn told_lines(file: &[u8], fact: &[u64]) -> String {
    let &[section, symbol, address, line, _] = fact else {
        panic!("section, symbol, address, line, count: {fact:?}");
    };
    let table = xcoff::line_table(file, section).expect("a line table");
    let rows: Vec<LineEntry> = table.rows().collect();
    let function = rows
        .iter()
        .position(|&row| row == LineEntry::Function(symbol))
        .expect("the function's entry");
    let lines = rows[function + 1..]
        .iter()
        .map_while(|row| match row {
            LineEntry::Line { address, line } => Some((*address, *line)),
            LineEntry::Function(_) => None,
        })
        .skip_while(|&row| row != (address, line));
    let run = lines
        .zip(0..)
        .take_while(|(row, n)| *row == (address + 4 * n, line + n));
    let count = run.count();
    format!("lines {section:x} {symbol:x} {address:x} {line:x} {count:x}")
}

/// Of so many instructions from an address on, the line in the source file, as far as it goes on by one, and the file.
fn told_source(file: &[u8], fact: &[u64]) -> String {
    let sources = xcoff::Sources::read(file).expect("symbols");
    let sections = xcoff::open(file).expect("a file").sections;
    let of = |address: u64| {
        let sections = (1..=sections).map(|n| (n, xcoff::section(file, n).expect("a section")));
        let (n, section) = sections
            .filter(|(_, s)| s.kind == Kind::Text)
            .find(|(_, s)| (s.paddr..s.paddr + s.size).contains(&address))
            .expect("a text section");
        let found = xcoff::find_line(file, n, address).expect("a line");
        sources.of(&section, &found)
    };
    let &[address, line, count] = fact else {
        panic!("address, line, count: {fact:?}");
    };
    let first = of(address);
    let equal = |n: &u64| {
        of(address + 4 * n).line == Some(line + n) && of(address + 4 * n).file == first.file
    };
    let told = (0..count).take_while(equal).count();
    let name = first.file.map_or("-".to_string(), text);
    format!("source {address:x} {line:x} {told:x} {name}")
}

/// The listing's fact, without the address of an entry or TOC that is in no section. A symbol with a visibility of 5 to 7
/// is refused. Of a linked file objdump names the first .file symbol, which is ld's own; the functions come after another.
fn meant(file: &[u8], fact: &str) -> String {
    let mut words: Vec<&str> = fact.split(' ').collect();
    if has_bad_visibility(&words) {
        let refusal = bad_visibility(file, words[1]);
        return format!("symbol {}: {refusal}", words[1]);
    }
    if words[0] == "source" && words[4] == "fake" {
        words[4] = "stabs.c";
    }
    if words[0] == "module" {
        for section in [10, 12] {
            if words[section] == "0" {
                words[section + 1] = "-";
            }
        }
    }
    words.join(" ")
}

/// VISIBILITY of a symbol of an XCOFF32 file, with the place of its entry.
fn bad_visibility(file: &[u8], index: &str) -> Refusal {
    let item = u64::from_str_radix(index, 16).expect("an index");
    let start = u32::from_be_bytes(file[8..12].try_into().expect("a file header"));
    Refusal {
        number: 30,
        item,
        offset: u64::from(start) + 18 * item,
    }
}

fn has_bad_visibility(words: &[&str]) -> bool {
    words[0] == "symbol" && ["/5", "/6", "/7"].iter().any(|end| words[3].ends_with(end))
}

/// Whether the rules refuse what a listing shows: a file that is not opened, a module that is not loadable, a file with entries
/// that no object file may have, or the csect of a symbol that is refused for its visibility.
fn refused_by_rule(file: &[u8], fact: &str) -> bool {
    let words: Vec<&str> = fact.split(' ').collect();
    if xcoff::open(file).is_err() {
        return true;
    }
    match words[0] {
        "module" | "loader" | "lsym" | "id" | "lrel" => xcoff::module(file).is_err(),
        "rel" => xcoff::object(file).is_err(),
        "csect" => {
            let refusal = bad_visibility(file, words[1]);
            xcoff::csect(file, refusal.item).err() == Some(refusal)
        }
        _ => false,
    }
}

// ---- offsets of refusals

/// Where what a refusal of a module names lies, by the listing: section headers follow the auxiliary header, and in the
/// loader section, as GNU ld lays it out, the entries follow the symbols and these the header.
fn listed_offset(facts: &[&str], refusal: &Refusal) -> Option<u64> {
    let file = facts_of(facts, "file", 5).next()?;
    // Read as a hex number, as the others are.
    let by = |narrow, wide| if file[0] == 0x64 { wide } else { narrow };
    let item = refusal.item;
    let header = by(20, 24) + file[3] + by(40, 72) * item.saturating_sub(1);
    let kind = |n| {
        facts_of(facts, "section", 6)
            .find(|s| s[0] == n)
            .map(|s| s[5])
    };
    let loader = facts_of(facts, "section", 6).find(|s| s[5] == 0x1000);
    let loader = loader.map(|s| s[4]);
    let symbols = facts_of(facts, "loader", 3).next().map(|counts| counts[0]);
    match refusal.number {
        3 | 15 => loader,
        4..=6 => Some(header),
        14 if [Some(0x400), Some(0x800)].contains(&kind(item)) => Some(header),
        16 => Some(loader? + by(32, 56) + 24 * (item - 3)),
        14 | 17 | 18 => Some(loader? + by(32, 56) + 24 * symbols? + by(12, 16) * item),
        _ => None,
    }
}

#[test]
fn every_real_refusal_points_where_other_tools_list_it() {
    let stored = stored("facts.txt");
    let mut compared: BTreeMap<u64, u64> = BTreeMap::new();
    for (name, facts) in facts(&stored) {
        let Err(refusal) = xcoff::module(&real(name)) else {
            continue;
        };
        let without = [(3, 1), (3, 4)].contains(&(refusal.number, refusal.item));
        let expected = match refusal.number {
            13 => 0,
            _ if without => 0,
            _ => listed_offset(&facts, &refusal).unwrap_or_else(|| panic!("{name}: {refusal}")),
        };
        assert_eq!(refusal.offset, expected, "{name}: {refusal}");
        *compared.entry(refusal.number).or_default() += u64::from(refusal.offset != 0);
    }
    println!("offsets by refusal: {compared:?}");
    assert_eq!(compared.values().sum::<u64>(), 19, "{compared:?}");
}

/// A relocation entry of a listing: address, type, section, symbol.
type Listed = (u64, u64, u64, u64);

/// The entries of a fact `lrel INDEX COUNT STEP ADDRESS TYPE SECTION SYMBOLS`.
fn entries(fact: &str) -> Vec<Listed> {
    let words: Vec<&str> = fact.split(' ').collect();
    let hex = |word: &str| u64::from_str_radix(word, 16).expect("a hex number");
    let step: i64 = words[3].parse().expect("a distance");
    let symbols: Vec<i64> = words[7]
        .split(',')
        .map(|s| s.parse().expect("a symbol"))
        .collect();
    let entry = |k: u64| {
        let address = hex(words[4]).wrapping_add_signed(step * k as i64);
        (
            address,
            hex(words[5]),
            hex(words[6]),
            symbols[k as usize % symbols.len()] as u64,
        )
    };
    (0..hex(words[2])).map(entry).collect()
}

/// The library's entries at the places of a fact: the fact itself where they are the same.
fn told_relocations(file: &[u8], fact: &str) -> String {
    let start = u64::from_str_radix(fact.split(' ').nth(1).expect("an index"), 16)
        .expect("a hex number") as usize;
    let rows = match xcoff::relocation_table(file) {
        Err(r) => return format!("lrel: {r}"),
        Ok(rows) => rows,
    };
    for (i, expected) in entries(fact).into_iter().enumerate() {
        let got = rows
            .get(start + i)
            .map(|e| (e.address, e.rtype, e.scnum, e.symbol));
        if got != Some(expected) {
            return format!("entry {}: {got:x?} instead of {expected:x?}", start + i);
        }
    }
    fact.into()
}

/// How many entries a fact `rel SECTION INDEX COUNT STEP ADDRESS SIZE TYPE SYMBOLS` has, and these: address, size, type, symbol.
fn section_entries(fact: &str) -> Vec<Listed> {
    let (_, rest) = fact.split_once(' ').expect("a section");
    entries(rest)
}

/// The library's entries of a section's own table at the places of a fact: the fact itself where they are the same.
fn told_entries(file: &[u8], fact: &str) -> String {
    let words = hex_words(fact, 2);
    let rows = match xcoff::object_entries(file, words[0]) {
        Err(r) => return format!("rel: {r}"),
        Ok(rows) => rows,
    };
    let rows = rows.rows().skip(words[1] as usize);
    let told: Vec<Listed> = rows
        .map(|e| (e.address, e.rsize, e.rtype, e.symbol))
        .collect();
    let expected = section_entries(fact);
    match told.get(..expected.len()) == Some(&expected) {
        true => fact.into(),
        false => format!("entries from {:x} on: {told:x?}", words[1]),
    }
}

#[test]
fn every_real_file_reads_as_other_tools_list_it() {
    let stored = stored("facts.txt");
    let mut differences = Vec::new();
    let mut compared: BTreeMap<&str, u64> = BTreeMap::new();
    let mut passed_over = 0;
    for (name, facts) in facts(&stored) {
        let file = real(name);
        for fact in facts {
            if refused_by_rule(&file, fact) {
                passed_over += 1;
                continue;
            }
            let word = fact.split(' ').next().expect("a word");
            *compared.entry(word).or_default() += match word {
                "lrel" => entries(fact).len() as u64,
                "rel" => section_entries(fact).len() as u64,
                _ => 1,
            };
            let got = told(&file, fact);
            if got != meant(&file, fact) {
                differences.push(format!("{name}: expected {fact}, got {got}"));
            }
        }
    }
    println!("compared {compared:?}, {passed_over} facts of what the rules refuse passed over");
    none(differences);
    let counts = [
        ("csect", 3_003),
        ("file", 205),
        ("id", 177),
        ("loader", 129),
        ("lrel", 35_137),
        ("lines", 22),
        ("lsym", 618),
        ("module", 129),
        ("rel", 1_791),
        ("section", 864),
        ("source", 24),
        ("symbol", 3_294),
        ("tables", 864),
    ];
    assert_eq!(compared, BTreeMap::from(counts));
    assert_eq!(passed_over, 1_460);
}

/// A linked file, and some that a compiler wrote, have entries of types that no object file may have: the first of these by the
/// listing is the one that is named.
#[test]
fn every_real_object_that_is_refused_names_the_first_entry_listed_so() {
    let stored = stored("facts.txt");
    let mut named = 0;
    for (name, facts) in facts(&stored) {
        let file = real(name);
        let Err(Refusal {
            number: 17, item, ..
        }) = xcoff::object(&file)
        else {
            continue;
        };
        let wide = xcoff::open(&file).unwrap().format == Format::Xcoff64;
        let is_in_image = |fact: &&&str| {
            let kind = xcoff::section(&file, hex_words(fact, 1)[0]).map(|s| s.kind);
            matches!(kind, Ok(Kind::Text | Kind::Data))
        };
        let entries = facts.iter().filter(|fact| fact.starts_with("rel "));
        let mut entries = entries
            .filter(is_in_image)
            .flat_map(|fact| section_entries(fact));
        let is_taken = |(_, size, rtype, _): &Listed| match rtype {
            0x0F => true,
            0x08 | 0x0A | 0x18 | 0x1A => size & 0x3F == 25,
            0x00 | 0x01 | 0x0C | 0x0D => size & 0x3F == 31 || wide && size & 0x3F == 63,
            _ => false,
        };
        let first = entries.position(|entry| !is_taken(&entry));
        assert_eq!(first.map(|i| i as u64), Some(item), "{name}");
        named += 1;
    }
    assert_eq!(named, 98);
}

// ---- visibilities

/// What clang's source asks for by its names: what has `hid` in its name is hidden, `prot` is protected.
#[test]
fn visibilities_are_those_that_clang_was_asked_for() {
    let mut found = Vec::new();
    for name in ["clang-vis-32.o", "shr-clang-vis-32"] {
        let file = real(name);
        for row in xcoff::symbol_table(&file).expect("a symbol table").rows() {
            let word = text(row.name());
            let asked = match row.symbol.sclass {
                2 | 107 | 111 if word.contains("hid") => Some(Visibility::Hidden),
                2 | 107 | 111 if word == "prot" => Some(Visibility::Protected),
                2 | 107 | 111 => Some(Visibility::None),
                _ => None,
            };
            assert_eq!(row.symbol.visibility, asked, "{name}: {word}");
            found.extend(row.symbol.visibility);
        }
    }
    let count = |wanted| found.iter().filter(|&&v| v == wanted).count();
    let counts = [
        Visibility::None,
        Visibility::Internal,
        Visibility::Hidden,
        Visibility::Protected,
    ]
    .map(count);
    assert_eq!(counts, [12, 0, 8, 2]);
}

/// The same source: XCOFF64, whose types have the bits, and a compiler that writes no auxiliary header.
#[test]
fn no_visibility_is_claimed_in_other_formats_and_versions() {
    for (name, types) in [
        ("clang-vis-64.o", 5),
        ("shr-clang-vis-64", 5),
        ("clang14-vis-32.o", 0),
    ] {
        let file = real(name);
        let table = xcoff::symbol_table(&file).expect("a symbol table");
        assert_eq!(table.walk.visited, 12, "{name}");
        assert!(table.rows().all(|row| row.symbol.visibility.is_none()));
        let with_bits = table.rows().filter(|row| row.symbol.ntype & 0x7000 != 0);
        assert_eq!(with_bits.count(), types, "{name}");
    }
}

// ---- images, by the tools' listing of the relocation entries

/// What a listing says of a module: all that its images need, but the raw bytes.
struct Module {
    /// Of text and data: number, address, size, offset in the file.
    parts: [[u64; 4]; 2],
    image: u64,
    /// Value, section, type, import id.
    symbols: Vec<[u64; 4]>,
    entries: Vec<Listed>,
    /// Section and address of entry and TOC.
    anchors: [[u64; 2]; 2],
    bits: u32,
}

/// The numbers of a fact, from its second word on.
fn hex_words(fact: &str, count: usize) -> Vec<u64> {
    fact.split(' ')
        .skip(1)
        .take(count)
        .map(|w| u64::from_str_radix(w, 16).expect("a hex number"))
        .collect()
}

fn facts_of<'a>(
    facts: &'a [&str],
    word: &'a str,
    count: usize,
) -> impl Iterator<Item = Vec<u64>> + 'a {
    facts
        .iter()
        .filter(move |f| f.split(' ').next() == Some(word))
        .map(move |f| hex_words(f, count))
}

/// A module whose listing is whole: the tools list all its loader symbols and entries.
fn listed_module(facts: &[&str]) -> Option<Module> {
    let m = facts_of(facts, "module", 13).next()?;
    let counts = facts_of(facts, "loader", 2).next()?;
    let section = |n: u64| {
        facts_of(facts, "section", 6)
            .find(|s| s[0] == n)
            .expect("a section of that number")
    };
    let part = |n: u64| [n, section(n)[1], section(n)[3], section(n)[4]];
    let (data, bss) = (section(m[3]), section(m[6]));
    let image = if bss[3] == 0 {
        data[3]
    } else {
        bss[1] - data[1] + bss[3]
    };
    let symbols: Vec<_> = facts_of(facts, "lsym", 7)
        .map(|s| [s[1], s[2], s[3], s[5]])
        .collect();
    let entries: Vec<_> = facts
        .iter()
        .filter(|f| f.starts_with("lrel "))
        .flat_map(|f| entries(f))
        .collect();
    let whole = (symbols.len() as u64, entries.len() as u64) == (counts[0], counts[1]);
    whole.then(|| Module {
        parts: [part(m[0]), part(m[3])],
        image,
        symbols,
        entries,
        anchors: [[m[9], m[10]], [m[11], m[12]]],
        bits: if facts[0].starts_with("file 32 ") {
            32
        } else {
            64
        },
    })
}

impl Module {
    fn plan(&self, text: u64, data: u64) -> Plan {
        let list = self
            .symbols
            .iter()
            .zip(1..)
            .map(|(s, i)| (s[0] + 0x10_0010 * i) % (1 << 32));
        Plan {
            text,
            data,
            list: list.collect(),
        }
    }

    /// How far text and data move.
    fn moved(&self, plan: &Plan, section: u64) -> u64 {
        let [text, data] = self.parts;
        if section == text[0] {
            plan.text.wrapping_sub(text[1])
        } else {
            plan.data.wrapping_sub(data[1])
        }
    }

    fn displacement(&self, plan: &Plan, symbol: u64) -> u64 {
        let [text, data] = self.parts;
        match symbol {
            0 => self.moved(plan, text[0]),
            1 | 2 => self.moved(plan, data[0]),
            i => match self.symbols[i as usize - 3] {
                [_, _, kind, 0] if kind & 0x40 != 0 => 0,
                [value, _, kind, _] if kind & 0x40 != 0 => {
                    plan.list[i as usize - 3].wrapping_sub(value)
                }
                [_, section, _, _] => self.moved(plan, section),
            },
        }
    }

    /// The raw bytes with each listed entry applied.
    fn images(&self, file: &[u8], plan: &Plan) -> [Vec<u8>; 2] {
        let mut images = self.parts.map(|[_, _, size, offset]| match size {
            0 => Vec::new(),
            _ => file[offset as usize..(offset + size) as usize].to_vec(),
        });
        images[1].resize(self.image as usize, 0);
        for &(address, kind, section, symbol) in &self.entries {
            let which = usize::from(section != self.parts[0][0]);
            let at = (address - self.parts[which][1]) as usize;
            let width = ((kind >> 8 & 0x3F) as usize + 1) / 8;
            let field = &mut images[which][at..at + width];
            let old = field.iter().fold(0u64, |n, &b| n << 8 | u64::from(b));
            let amount = self.displacement(plan, symbol);
            let new = if kind & 0xFF == 1 {
                old.wrapping_sub(amount)
            } else {
                old.wrapping_add(amount)
            };
            field.copy_from_slice(&new.to_be_bytes()[8 - width..]);
        }
        images
    }

    fn anchors(&self, plan: &Plan) -> [Option<u64>; 2] {
        let last = u64::MAX >> (64 - self.bits);
        self.anchors.map(|[section, address]| {
            (section != 0).then(|| address.wrapping_add(self.moved(plan, section)) & last)
        })
    }
}

/// Builds for one plan, moves to another and back, and the same by a list.
fn check_images(name: &str, file: &[u8], m: &Module) {
    let (p, q) = (
        m.plan(0x4000_0100, 0x5000_0208),
        m.plan(0x1000, 0x7800_0000),
    );
    let mut text = vec![0xAA; m.parts[0][2] as usize];
    let mut data = vec![0x55; m.image as usize];
    let built = xcoff::build_images(file, &p, &mut text, &mut data)
        .unwrap_or_else(|r| panic!("{name}: {r}"));
    assert!(
        [&text, &data] == m.images(file, &p).each_ref(),
        "{name}: built"
    );
    assert_eq!([built.entry, built.toc], m.anchors(&p), "{name}: built");
    let moved = xcoff::move_images(file, &p, &q, &mut text, &mut data)
        .unwrap_or_else(|r| panic!("{name}: {r}"));
    assert!(
        [&text, &data] == m.images(file, &q).each_ref(),
        "{name}: moved"
    );
    assert_eq!([moved.entry, moved.toc], m.anchors(&q), "{name}: moved");
    let calls = [
        xcoff::Call::Build(q.clone()),
        xcoff::Call::Move(q, p.clone()),
    ];
    let all = xcoff::replay(file, &calls, &mut text, &mut data);
    assert_eq!((all.calls, all.accepted), (2, 2), "{name}: replayed");
    assert_eq!(all.last, Ok(built), "{name}: replayed");
    assert!(
        [&text, &data] == m.images(file, &p).each_ref(),
        "{name}: replayed"
    );
}

#[test]
fn every_real_module_is_built_and_moved_as_its_listed_entries_say() {
    let stored = stored("facts.txt");
    let mut cut_short = Vec::new();
    let (mut modules, mut entries) = (0, 0);
    for (name, facts) in facts(&stored) {
        let file = real(name);
        if xcoff::module(&file).is_err() {
            continue;
        }
        match listed_module(&facts) {
            None => cut_short.push(name),
            Some(m) => {
                check_images(name, &file, &m);
                modules += 1;
                entries += m.entries.len();
            }
        }
    }
    println!("{modules} modules, {entries} entries");
    // Of these the tools' listing is kept in part only.
    let large = ["4096-32", "4096-64", "4097-32", "4097-64"].map(|end| format!("shr-lsym{end}"));
    assert_eq!(cut_short, large);
    assert_eq!((modules, entries), (125, 35_137));
}

// ---- every operation, against the second implementation

/// Compares every operation on a file; gives how many there were.
fn agrees(name: &str, file: &[u8], rng: &mut Rng) -> u64 {
    let ops = every(file, rng);
    for op in &ops {
        if let Err(d) = compare(file, op) {
            panic!(
                "{name}, {}, {}: ours {}, theirs {}",
                op.word(),
                d.part,
                d.ours,
                d.theirs
            );
        }
    }
    ops.len() as u64
}

#[test]
fn every_operation_on_every_real_file_agrees_with_the_second_implementation() {
    let mut rng = Rng::new(1);
    let count: u64 = real_names()
        .iter()
        .map(|name| agrees(name, &real(name), &mut rng))
        .sum();
    println!("{count} operations");
    assert!(count > 20_000);
}

/// A copy with a few bytes changed, most of them in the headers, or cut.
fn damaged(file: &[u8], rng: &mut Rng) -> Vec<u8> {
    let mut copy = file.to_vec();
    if rng.chance(15) {
        copy.truncate(rng.below(file.len() as u64) as usize);
        return copy;
    }
    for _ in 0..rng.between(1, 3) {
        let end = if rng.chance(60) {
            file.len().min(400)
        } else {
            file.len()
        };
        let at = rng.below(end as u64) as usize;
        copy[at] = rng.pick(&[
            0,
            1,
            0x7F,
            0x80,
            0xFF,
            copy[at] ^ 1,
            copy[at].wrapping_add(1),
            rng_byte(at),
        ]);
    }
    copy
}

fn rng_byte(at: usize) -> u8 {
    (at as u8).wrapping_mul(37).wrapping_add(11)
}

#[test]
fn damaged_copies_of_real_files_agree_with_the_second_implementation() {
    let mut rng = Rng::new(2);
    let mut refusals: BTreeMap<u64, u64> = BTreeMap::new();
    for name in real_names() {
        let file = real(&name);
        for n in (0..4).take_while(|_| file.len() < 16_000) {
            let copy = damaged(&file, &mut rng);
            agrees(&format!("{name}, damage {n}"), &copy, &mut rng);
            let verdict = xcoff::module(&copy).err().map_or(0, |r| r.number);
            *refusals.entry(verdict).or_default() += 1;
        }
    }
    println!("modules by refusal (0: accepted): {refusals:?}");
    assert!(refusals.len() >= 12, "{refusals:?}");
}
