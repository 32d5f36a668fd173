//! `check_vectors PATH`: answers every case of a file with one JSON object a
//! line and compares with the recorded answer; `-` reads standard input. Cases
//! whose recorded answer a later request changes are left out.
#![forbid(unsafe_code)]

mod answers;
mod json;
mod older;
mod records;

use json::Json;
use reference::word;
use std::collections::BTreeMap;
use std::io::Read;

/// The first place where `mine` says something else; fields that `mine` doesn't
/// give are no difference.
fn difference(mine: &Json, theirs: &Json, path: &str) -> Option<String> {
    match (mine, theirs) {
        (Json::Object(mine), Json::Object(all)) => {
            if mine.contains_key("refused") != all.contains_key("refused") {
                return Some(format!("{path}: {mine:?} / {all:?}"));
            }
            for (key, value) in mine {
                match all.get(key) {
                    Some(other) => {
                        let found = difference(value, other, &format!("{path}.{key}"));
                        if found.is_some() {
                            return found;
                        }
                    }
                    None => return Some(format!("{path}.{key}: not recorded")),
                }
            }
            None
        }
        (Json::List(mine), Json::List(all)) => {
            if mine.len() != all.len() {
                return Some(format!("{path}: {} / {} things", mine.len(), all.len()));
            }
            for (i, (one, other)) in mine.iter().zip(all).enumerate() {
                let found = difference(one, other, &format!("{path}[{i}]"));
                if found.is_some() {
                    return found;
                }
            }
            None
        }
        _ if mine == theirs => None,
        _ => Some(format!("{path}: {mine:?} / {theirs:?}")),
    }
}

/// The cases, from the path that the first argument names.
fn input() -> String {
    let path = std::env::args()
        .nth(1)
        .expect("a path, or - for standard input");
    if path != "-" {
        return std::fs::read_to_string(&path).expect("a readable file");
    }
    let mut text = String::new();
    std::io::stdin()
        .read_to_string(&mut text)
        .expect("readable input");
    text
}

#[derive(Default)]
struct Counts {
    /// Cases and differences of each operation.
    operations: BTreeMap<String, (u64, u64)>,
    /// How often each refusal number was given.
    refusals: BTreeMap<u64, u64>,
    left_out: u64,
}

impl Counts {
    /// Answers the case of a line; prints the first difference.
    fn check(&mut self, line_number: usize, line: &str) {
        let case = Json::parse(line);
        if !older::stands(&case, &answers::file(&case)) {
            self.left_out += 1;
            return;
        }
        let mut mine = answers::answer(&case);
        if !case.get("requests").numbers().contains(&4) {
            mine = older::without_offsets(&mine);
        }
        let found = difference(&mine, case.get("expect"), "expect");
        let operation = case.get("op").text().to_string();
        let counts = self.operations.entry(operation).or_insert((0, 0));
        counts.0 += 1;
        if let Json::List(refusal) = mine.get("answer").get("refused") {
            *self.refusals.entry(refusal[0].number()).or_insert(0) += 1;
        }
        if let Some(found) = found {
            counts.1 += 1;
            let label = case.get("label").text();
            println!("line {line_number} ({label}): {found:.400}");
        }
    }

    /// Prints the table; gives all cases and differences.
    fn print(&self) -> (u64, u64) {
        println!("{:<16} {:>6} {:>12}", "operation", "cases", "differences");
        let mut all = 0;
        let mut differences = 0;
        for (op, (cases, different)) in &self.operations {
            println!("{op:<16} {cases:>6} {different:>12}");
            all += cases;
            differences += different;
        }
        let words: Vec<String> = self
            .refusals
            .iter()
            .map(|(&number, times)| format!("{} {times}", word(number)))
            .collect();
        println!("refusals: {}", words.join(", "));
        let left_out = self.left_out;
        println!("{all} cases, {differences} differences, {left_out} left out");
        (all, differences)
    }
}

fn main() {
    let mut counts = Counts::default();
    for (i, line) in input().lines().enumerate() {
        counts.check(i + 1, line);
    }
    let (all, differences) = counts.print();
    if differences > 0 || all == 0 {
        std::process::exit(1);
    }
}
