//! `check_corpus DIR`: holds every file of DIR/mod and DIR/obj against its line
//! in DIR/verdicts.txt, and every pair of DIR/pairs against each other: `a`
//! built for `b`'s addresses gives `b`'s bytes, and moving back gives `a`'s.
#![forbid(unsafe_code)]

use reference::*;
use std::collections::BTreeMap;
use std::fs;
use std::path::Path;

/// The word after `key` as a number.
fn after(words: &[&str], key: &str) -> Option<u64> {
    let at = words.iter().position(|&word| word == key)?;
    let digits: String = words
        .get(at + 1)?
        .chars()
        .take_while(char::is_ascii_digit)
        .collect();
    digits.parse().ok()
}

/// Number and item: the offset isn't recorded.
type Recorded = (u64, u64);

fn recorded(refusal: Refusal) -> Recorded {
    (refusal.number, refusal.item)
}

/// A refusal written as `5 BOUNDS item 3`.
fn refusal_at(words: &[&str]) -> Option<Recorded> {
    let number = words.first()?.parse().ok()?;
    if words.get(1) != Some(&word(number)) || words.get(2) != Some(&"item") {
        return None;
    }
    let item = words.get(3)?.trim_end_matches(']').parse().ok()?;
    Some((number, item))
}

struct Check {
    facts: u64,
    differences: u64,
}

impl Check {
    fn same<T: PartialEq + std::fmt::Debug>(&mut self, file: &str, what: &str, mine: T, theirs: T) {
        self.facts += 1;
        if mine != theirs {
            self.differences += 1;
            println!("{file}: {what}: here {mine:.200?}, recorded {theirs:.200?}");
        }
    }
}

/// Kinds in order, each once, with how many there are.
fn kinds_text(summary: &Summary) -> String {
    let mut order: Vec<&str> = Vec::new();
    let mut counts: BTreeMap<&str, u64> = BTreeMap::new();
    for section in &summary.sections {
        let kind = opening::kind_word(section.flags);
        if !order.contains(&kind) {
            order.push(kind);
        }
        *counts.entry(kind).or_insert(0) += 1;
    }
    let all: Vec<String> = order
        .iter()
        .map(|kind| match counts[kind] {
            1 => kind.to_string(),
            n => format!("{kind}*{n}"),
        })
        .collect();
    all.join(" ")
}

fn check_verdict(check: &mut Check, line: &str, file: &[u8]) {
    let words: Vec<&str> = line.split_whitespace().collect();
    let name = words[0];
    check.same(name, "size", file.len().to_string(), words[1].to_string());
    if words[2] == "OPEN" {
        let refusal = open(file).err().map(recorded);
        check.same(name, "open", refusal, refusal_at(&words[3..]));
        return;
    }
    let summary = match open(file) {
        Ok(summary) => summary,
        Err(refusal) => {
            check.same(name, "open", Some(recorded(refusal)), None);
            return;
        }
    };
    check.same(name, "bits", summary.bits.to_string(), words[2].to_string());
    let parts: Vec<&str> = line.split('|').map(str::trim).collect();
    check.same(name, "kinds", kinds_text(&summary), parts[1].to_string());
    let symbols: Vec<&str> = parts[2].split_whitespace().collect();
    check.same(name, "aux", Some(summary.opthdr), after(&symbols, "aux"));
    check_walk(check, name, file, &symbols);
    if words[3] != "OK" {
        let refusal = module(file).err().map(recorded);
        check.same(name, "module", refusal, refusal_at(&words[3..]));
        return;
    }
    match module(file) {
        Ok(m) => check_module(check, line, file, &m),
        Err(refusal) => check.same(name, "module", Some(refusal), None),
    }
}

/// The walk against the words of the line's part about symbols.
fn check_walk(check: &mut Check, name: &str, file: &[u8], words: &[&str]) {
    let found = walk(file).expect("it opened");
    if let Some(at) = words.iter().position(|&word| word == "alone:") {
        let visited = found.visited.to_string();
        check.same(name, "walked", visited, words[at + 1].to_string());
        let end = refusal_at(&words[at + 4..]);
        check.same(name, "walk's end", found.refusal.map(recorded), end);
    } else {
        let all = open(file).expect("it opened").symbols;
        let visited = after(words, "syms");
        check.same(name, "walked", Some(found.visited), visited);
        check.same(name, "walk's end", found.refusal, None);
        check.same(name, "walk's index", found.end, all);
    }
}

/// An accepted module against its line.
fn check_module(check: &mut Check, line: &str, file: &[u8], m: &Module) {
    let words: Vec<&str> = line.split_whitespace().collect();
    let name = words[0];
    let numbers = |check: &mut Check, all: &[(&str, u64, &str)]| {
        for &(what, mine, key) in all {
            check.same(name, what, Some(mine), after(&words[4..], key));
        }
    };
    let (imports, deferred) = imports(file);
    let tables = [
        ("loader symbols", m.loader_symbols, "lsym"),
        ("imports", imports, "imp"),
        ("deferred", deferred, "def"),
        ("ids", m.import_ids, "ids"),
        ("entries", m.relocations, "lrel"),
    ];
    numbers(check, &tables);
    check_entries(check, name, line, file, m);
    let places = [
        ("entry section", m.entry_section, "ent"),
        ("TOC section", m.toc_section, "toc"),
        ("bss", m.bss_size, "bss"),
        ("gap", gap(m), "gap"),
    ];
    numbers(check, &places);
}

/// How many imports, and how many deferred ones.
fn imports(file: &[u8]) -> (u64, u64) {
    let mut imports = 0;
    let mut deferred = 0;
    for symbol in loader_symbols(file).expect("an accepted module") {
        if symbol.imported() && symbol.file_id == 0 {
            deferred += 1;
        } else if symbol.imported() {
            imports += 1;
        }
    }
    (imports, deferred)
}

/// How many entries lie in text, and how many are of each type.
fn check_entries(check: &mut Check, name: &str, line: &str, file: &[u8], m: &Module) {
    let entries = relocations(file).expect("an accepted module");
    let in_text = entries
        .iter()
        .filter(|entry| entry.section == m.text)
        .count();
    let mut types: BTreeMap<u64, u64> = BTreeMap::new();
    for entry in &entries {
        *types.entry(entry.kind).or_insert(0) += 1;
    }
    let types: Vec<String> = types
        .iter()
        .map(|(kind, n)| format!("{kind:04x}:{n}"))
        .collect();
    let recorded = line.contains(&format!("(text {in_text}) "));
    check.same(name, "entries in text", true, recorded);
    let recorded = line.contains(&format!(" {} ent ", types.join(",")));
    check.same(name, "types", true, recorded);
}

/// Bytes between data and bss.
fn gap(m: &Module) -> u64 {
    if m.bss_size == 0 {
        0
    } else {
        m.bss_address - m.data_address - m.data_size
    }
}

/// A module's images as they are in its file: a build for its own addresses
/// by hand, no entry applied.
fn own_images(file: &[u8], m: &Module) -> (Vec<u8>, Vec<u8>) {
    let summary = open(file).expect("an accepted module");
    let raw = |n: u64| match &summary.sections[n as usize - 1].raw {
        Some(range) => file[range.clone()].to_vec(),
        None => Vec::new(),
    };
    let mut data = raw(m.data);
    data.resize(m.data_image as usize, 0);
    (raw(m.text), data)
}

/// The plan at a module's addresses, every import at its recorded value in `of`.
fn plan_at(of: &[u8], m: &Module) -> Plan {
    let symbols = loader_symbols(of).expect("an accepted module");
    let list = symbols.iter().map(|symbol| symbol.value).collect();
    Plan {
        text: m.text_address,
        data: m.data_address,
        list,
    }
}

fn own_places(m: &Module) -> Reached {
    let one = |section: u64, address: u64| if section == 0 { None } else { Some(address) };
    Reached {
        entry: one(m.entry_section, m.entry_address),
        toc: one(m.toc_section, m.toc_address),
    }
}

fn check_pair(check: &mut Check, name: &str, a: &[u8], b: &[u8]) {
    let (ma, mb) = match (module(a), module(b)) {
        (Ok(ma), Ok(mb)) => (ma, mb),
        (ra, rb) => {
            check.same(name, "modules", (ra.err(), rb.err()), (None, None));
            return;
        }
    };
    let mut to = plan_at(a, &ma);
    to.text = mb.text_address;
    to.data = mb.data_address;
    let from = plan_at(a, &ma);
    let (text_a, data_a) = own_images(a, &ma);
    let (text_b, data_b) = own_images(b, &mb);
    // In this pair ld kept no entries for the text.
    let text_counts = !name.starts_with("rotext");

    let mut text = vec![0xEE; text_a.len()];
    let mut data = vec![0xEE; data_a.len()];
    let reached = build(a, &to, &mut text, &mut data);
    check.same(name, "entry and TOC of b", reached, Ok(own_places(&mb)));
    check.same(name, "data of b", &data, &data_b);
    if text_counts {
        check.same(name, "text of b", &text, &text_b);
    }
    let back = move_images(a, &to, &from, &mut text, &mut data);
    check.same(name, "entry and TOC of a", back, Ok(own_places(&ma)));
    check.same(name, "data of a", &data, &data_a);
    check.same(name, "text of a", &text, &text_a);
    let there = move_images(a, &from, &to, &mut text, &mut data);
    check.same(name, "moved", there, Ok(own_places(&mb)));
    check.same(name, "data moved", &data, &data_b);
    let calls = [
        Call::Build(to.clone()),
        Call::Move(to.clone(), from.clone()),
        Call::Move(from, to),
    ];
    let (book_text, book_data) = book(a, &calls, &vec![1; text.len()], &vec![2; data.len()]);
    check.same(name, "book", (&book_text, &book_data), (&text, &data));
}

/// Checks every file that has a verdict; gives how many.
fn check_files(check: &mut Check, folder: &Path) -> u64 {
    let verdicts = fs::read_to_string(folder.join("verdicts.txt")).expect("verdicts.txt");
    let mut files = 0;
    for line in verdicts.lines().filter(|line| !line.trim().is_empty()) {
        let name = line.split_whitespace().next().expect("a name");
        let file = fs::read(folder.join("mod").join(name))
            .or_else(|_| fs::read(folder.join("obj").join(name)))
            .expect("a file of this name");
        check_verdict(check, line, &file);
        files += 1;
    }
    files
}

/// Checks every pair; gives how many.
fn check_pairs(check: &mut Check, folder: &Path) -> usize {
    let folder = folder.join("pairs");
    let name = |entry: std::io::Result<fs::DirEntry>| {
        let name = entry.expect("an entry").file_name();
        name.into_string().expect("a name")
    };
    let mut names: Vec<String> = fs::read_dir(&folder)
        .expect("pairs")
        .map(name)
        .filter(|name| name.contains(".a-"))
        .collect();
    names.sort();
    for name in &names {
        let a = fs::read(folder.join(name)).expect("a");
        let b = fs::read(folder.join(name.replace(".a-", ".b-"))).expect("b");
        check_pair(check, name, &a, &b);
    }
    names.len()
}

fn main() {
    let folder = std::env::args().nth(1).expect("the corpus folder");
    let folder = Path::new(&folder);
    let mut check = Check {
        facts: 0,
        differences: 0,
    };
    let files = check_files(&mut check, folder);
    let (facts, differences) = (check.facts, check.differences);
    println!("{files} files, {facts} facts, {differences} differences");
    let pairs = check_pairs(&mut check, folder);
    println!(
        "{pairs} pairs, {} facts, {} differences",
        check.facts - facts,
        check.differences - differences
    );
    if check.differences > 0 || files == 0 || pairs == 0 {
        std::process::exit(1);
    }
}
