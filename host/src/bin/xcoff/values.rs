//! What the file has where a rule with several alternatives refuses it and its item names no header or entry: the numbers
//! that the rule speaks of, in lines below the refusal. They are shown, not judged: which of the alternatives it was is
//! for the reader to see.

use crate::files;
use crate::kinds;
use crate::words::kind_word;
use xcoff::{header_fields, Kind, Refusal, Section};

/// None where a refusal has said everything.
pub fn lines(file: &[u8], refusal: &Refusal) -> Vec<String> {
    indented(match (refusal.number, refusal.item) {
        (2, _) => vec![kinds::looks_like(file, files::FILE)],
        (1, _) => with_length(file, &["f_nscns", "f_opthdr"]),
        (3, 1) => header(file, &["f_nscns"]),
        (5, 0) => with_length(file, &["f_symptr", "f_nsyms"]),
        (6, n) => bss_and_data(file, n),
        (13, 0) => header(file, &["f_opthdr"]),
        (13, 1) => sections(file),
        (13, 2) => both(file, &DIFFERING),
        (13, 3) => sections(file),
        (13, _) => both(file, &["o_snentry", "o_sntoc", "o_sntext", "o_sndata"]),
        (3, 4) => sections(file),
        _ => Vec::new(),
    })
}

/// The same of a refusal by an operation on an object file, whose text and data sections must have raw data, and whose
/// relocation table may have its count in an overflow header.
pub fn object_lines(file: &[u8], refusal: &Refusal) -> Vec<String> {
    match (refusal.number, refusal.item) {
        (13, _) => indented(sections(file)),
        (5, n) if n != 0 => indented(overflow_headers(file, n)),
        _ => lines(file, refusal),
    }
}

fn indented(lines: Vec<String>) -> Vec<String> {
    lines.iter().map(|line| format!("  {line}")).collect()
}

/// Of a section with a count that stands for one in an overflow header: which headers have one for it.
fn overflow_headers(file: &[u8], n: u64) -> Vec<String> {
    let all = all_sections(file);
    let replaced = all.iter().any(|(m, s)| *m == n && s.nreloc == 65_535);
    let format = xcoff::open(file).map(|opened| opened.format);
    if !replaced || format != Ok(xcoff::Format::Xcoff32) {
        return Vec::new();
    }
    let own = |s: &Section| s.kind == Kind::Ovrflo && s.nreloc == n;
    let found: Vec<String> = all
        .iter()
        .filter(|(_, s)| own(s))
        .map(|(m, s)| format!("section {m} is its overflow header: {} entries", s.paddr))
        .collect();
    match found.is_empty() {
        true => vec!["no section is its overflow header".to_string()],
        false => found,
    }
}

/// Fields of the auxiliary header that repeat what section headers say.
const DIFFERING: [&str; 9] = [
    "o_tsize",
    "o_dsize",
    "o_bsize",
    "o_text_start",
    "o_data_start",
    "o_sntext",
    "o_sndata",
    "o_snloader",
    "o_snbss",
];

/// "NAME VALUE" of each field that is there, in one line.
fn header(file: &[u8], names: &[&str]) -> Vec<String> {
    let Some(fields) = header_fields(file) else {
        return Vec::new();
    };
    let all = fields.file.iter().chain(&fields.auxiliary);
    let shown: Vec<String> = all
        .filter(|field| names.contains(&field.name))
        .map(|field| format!("{} {}", field.name, field.value))
        .collect();
    match shown.is_empty() {
        true => Vec::new(),
        false => vec![shown.join(", ")],
    }
}

fn with_length(file: &[u8], names: &[&str]) -> Vec<String> {
    let length = format!("the file has {} bytes", file.len());
    match header(file, names).pop() {
        Some(fields) => vec![format!("{length}; {fields}")],
        None => vec![length],
    }
}

fn both(file: &[u8], names: &[&str]) -> Vec<String> {
    header(file, names)
        .into_iter()
        .chain(sections(file))
        .collect()
}

/// A line for each section that a module is made of.
fn sections(file: &[u8]) -> Vec<String> {
    let parts = [Kind::Text, Kind::Data, Kind::Bss, Kind::Loader];
    let own = all_sections(file);
    let own = own.iter().filter(|(_, s)| parts.contains(&s.kind));
    own.map(|(n, s)| section_words(*n, s)).collect()
}

/// None where the file is not opened.
fn all_sections(file: &[u8]) -> Vec<(u64, Section)> {
    let count = xcoff::open(file).map_or(0, |opened| opened.sections);
    (1..=count)
        .filter_map(|n| Some((n, xcoff::section(file, n).ok()?)))
        .collect()
}

fn section_words(n: u64, s: &Section) -> String {
    format!(
        "section {n} is {}: address {:08x}, size {}, {}",
        kind_word(s.kind),
        s.vaddr,
        s.size,
        if s.raw { "raw data" } else { "no raw data" }
    )
}

/// Of a bss that is refused, where data lies.
fn bss_and_data(file: &[u8], refused: u64) -> Vec<String> {
    let all = all_sections(file);
    let is_bss = all
        .iter()
        .any(|(n, s)| *n == refused && s.kind == Kind::Bss);
    let data = all.iter().filter(|(_, s)| is_bss && s.kind == Kind::Data);
    data.map(|(n, s)| section_words(*n, s)).collect()
}
