//! docs/CLAIMS.md against the tree: every definition, theorem, function, edit, file and count that it names is there, every must-fail edit
//! has its row and changes text that stands once, and every public operation has no condition and its edits. The notation is in
//! docs/CLAIMS.md, "How to read this".

use std::collections::{BTreeMap, BTreeSet};
use std::path::PathBuf;

fn root() -> PathBuf {
    PathBuf::from(env!("CARGO_MANIFEST_DIR")).join("..")
}

fn read(path: &str) -> String {
    std::fs::read_to_string(root().join(path)).unwrap_or_else(|e| panic!("{path}: {e}"))
}

fn none(problems: Vec<String>) {
    let list = problems.join("\n");
    assert!(problems.is_empty(), "{} problems:\n{list}", problems.len());
}

// ---- the document

/// A row of a table: its line, and its cells by the names of their columns.
struct Row {
    line: usize,
    cells: Vec<(String, String)>,
}

impl Row {
    fn cell(&self, column: &str) -> &str {
        let found = self.cells.iter().find(|(name, _)| name == column);
        found.map_or("", |(_, cell)| cell)
    }
}

fn cells(line: &str) -> Vec<String> {
    let inner = line.trim().trim_start_matches('|').trim_end_matches('|');
    inner
        .split('|')
        .map(|cell| cell.trim().to_string())
        .collect()
}

/// The rows of every table of a document.
fn rows(text: &str) -> Vec<Row> {
    let mut found = Vec::new();
    let mut header: Option<Vec<String>> = None;
    for (n, line) in text.lines().enumerate() {
        if !line.starts_with('|') {
            header = None;
            continue;
        }
        match &header {
            None => header = Some(cells(line)),
            Some(_) if line.starts_with("|---") => {}
            Some(names) => {
                let all = cells(line);
                assert_eq!(all.len(), names.len(), "line {}: cells", n + 1);
                found.push(Row {
                    line: n + 1,
                    cells: names.iter().cloned().zip(all).collect(),
                });
            }
        }
    }
    found
}

/// What stands between backquotes.
fn names(text: &str) -> Vec<&str> {
    text.split('`').skip(1).step_by(2).collect()
}

/// The rows that have the column.
fn rows_with(text: &str, column: &str) -> Vec<Row> {
    let mut all = rows(text);
    all.retain(|row| row.cells.iter().any(|(name, _)| name == column));
    assert!(!all.is_empty(), "no table has a column {column}");
    all
}

// ---- the tree

fn is_word(text: &str) -> bool {
    !text.is_empty()
        && text
            .bytes()
            .all(|b| b.is_ascii_lowercase() || b.is_ascii_digit() || b == b'_')
}

/// `crate/File.name`, taken apart.
fn in_file(name: &str) -> Option<(&str, &str, &str)> {
    let (krate, rest) = name.split_once('/')?;
    let (file, item) = rest.split_once('.')?;
    let good = is_word(krate) && file.starts_with(char::is_uppercase) && !file.contains('/');
    (good && item != "antt").then_some((krate, file, item))
}

/// `crate/label`, taken apart.
fn edit_label(name: &str) -> Option<(&str, &str)> {
    let (krate, label) = name.split_once('/')?;
    (is_word(krate) && is_word(label)).then_some((krate, label))
}

/// What is left to prove at a place of a function, as the prover calls it: `returns-else`. `tests/edits` holds it to what the prover said.
fn is_goal(name: &str) -> bool {
    name.starts_with(|c: char| c.is_ascii_lowercase())
        && name
            .bytes()
            .all(|b| b.is_ascii_alphanumeric() || b == b'_' || b == b'-')
}

fn is_path(name: &str) -> bool {
    let tops = [
        "crates/",
        "tests/",
        "host/",
        "docs/",
        "include/",
        "examples/",
    ];
    tops.iter().any(|top| name.starts_with(top))
}

/// The name that a line of definitions or theorems declares.
fn declared(line: &str) -> Option<&str> {
    let mut words = line.split_whitespace();
    let mut record = false;
    let name = words.find(|word| {
        record |= ["record", "data"].contains(word);
        !["abbrev", "unfoldable", "pub", "record", "data"].contains(word)
    })?;
    (record || words.next() == Some(":")).then_some(name)
}

/// Where a definition (`specs`) or theorem (`proofs`) is declared: the file's lines, and the place among them.
fn find_declared(folder: &str, name: &str) -> Option<(Vec<String>, usize)> {
    let (krate, file, item) = in_file(name)?;
    let path = root().join(format!("crates/{krate}/{folder}/{file}.antt"));
    let text = std::fs::read_to_string(path).ok()?;
    let lines: Vec<String> = text.lines().map(String::from).collect();
    let at = lines.iter().position(|line| declared(line) == Some(item))?;
    Some((lines, at))
}

/// The code of a crate.
fn source(krate: &str) -> Option<String> {
    let folder = root().join("crates").join(krate).join("src");
    let mut files: Vec<PathBuf> = std::fs::read_dir(folder)
        .ok()?
        .map(|file| file.unwrap().path())
        .collect();
    files.retain(|file| file.extension().is_some_and(|end| end == "rt"));
    files.sort();
    files
        .iter()
        .map(|file| std::fs::read_to_string(file).ok())
        .collect()
}

/// The function, type or constant that a line of code declares, a type's own included.
fn coded(line: &str) -> Option<&str> {
    let line = line.trim_start();
    let line = line.strip_prefix("pub ").unwrap_or(line);
    let line = line.strip_prefix("extern \"C\" ").unwrap_or(line);
    let kinds = ["fn ", "struct ", "enum ", "const "];
    let rest = kinds.iter().find_map(|kind| line.strip_prefix(kind))?;
    rest.split(|c: char| !c.is_alphanumeric() && c != '_')
        .next()
}

/// The lines of a function, from its name on.
fn function(krate: &str, name: &str) -> Option<Vec<String>> {
    let text = source(krate)?;
    let mut lines = text.lines().skip_while(|line| coded(line) != Some(name));
    let first = lines.next()?.to_string();
    let rest = lines.take_while(|&line| line != "}").map(String::from);
    Some(std::iter::once(first).chain(rest).collect())
}

fn edits() -> BTreeSet<String> {
    let mut found = BTreeSet::new();
    for krate in std::fs::read_dir(root().join("crates")).unwrap() {
        let krate = krate.unwrap().file_name().into_string().unwrap();
        let folder = root().join("crates").join(&krate).join("must-fail");
        for file in std::fs::read_dir(folder).into_iter().flatten() {
            let file = file.unwrap().file_name().into_string().unwrap();
            if let Some(label) = file.strip_suffix(".edit") {
                found.insert(format!("{krate}/{label}"));
            }
        }
    }
    assert!(!found.is_empty());
    found
}

// ---- names

/// Why a name is wrong in its column, if it is.
fn wrong_name(column: &str, name: &str) -> Option<String> {
    if let Some((krate, item)) = name.split_once("::") {
        let there =
            source(krate).is_some_and(|text| text.lines().any(|line| coded(line) == Some(item)));
        let placed = ["Theorem", "Edit", "Edits"].contains(&column);
        return (!there || placed).then(|| "no such function or type here".into());
    }
    if is_path(name) {
        return (!root().join(name).exists()).then(|| "no such file".into());
    }
    if in_file(name).is_some() {
        let specs = find_declared("specs", name).is_some();
        let proofs = find_declared("proofs", name).is_some();
        return match column {
            "Definition" => (!specs).then(|| "no such definition in specs".into()),
            "Theorem" => (!proofs).then(|| "no such theorem in proofs".into()),
            "Function" | "Edit" | "Edits" => Some("no function or edit".into()),
            _ => (specs == proofs).then(|| "not in exactly one of specs and proofs".into()),
        };
    }
    if column == "Refused at" && is_goal(name) {
        return None;
    }
    if edit_label(name).is_some() {
        let placed = ["Definition", "Theorem", "Function"].contains(&column);
        return (!edits().contains(name) || placed).then(|| "no such edit here".into());
    }
    let strict = [
        "Definition",
        "Theorem",
        "Function",
        "Edit",
        "Edits",
        "Refused at",
    ];
    strict
        .contains(&column)
        .then(|| "not written in full".into())
}

#[test]
fn every_name_is_in_the_tree() {
    let text = read("docs/CLAIMS.md");
    let mut problems = Vec::new();
    let mut check = |line: usize, column: &str, cell: &str| {
        for name in names(cell) {
            if let Some(why) = wrong_name(column, name) {
                problems.push(format!("line {line}: `{name}`: {why}"));
            }
        }
    };
    for (n, line) in text
        .lines()
        .enumerate()
        .filter(|(_, line)| !line.starts_with('|'))
    {
        check(n + 1, "", line);
    }
    for row in rows(&text) {
        row.cells
            .iter()
            .for_each(|(column, cell)| check(row.line, column, cell));
    }
    none(problems);
}

/// A test is a letter of the list at the top, perhaps with a file of it.
#[test]
fn every_test_is_in_the_list_of_tests() {
    let text = read("docs/CLAIMS.md");
    let known: BTreeSet<String> = rows_with(&text, "Letter")
        .iter()
        .map(|row| row.cell("Letter").to_string())
        .collect();
    let mut problems = Vec::new();
    for row in rows_with(&text, "Test") {
        let letters: String = row.cell("Test").split('`').step_by(2).collect();
        for letter in letters
            .split([' ', ',', '(', ')'])
            .filter(|word| !["", "–"].contains(word))
        {
            if !known.contains(letter) {
                problems.push(format!("line {}: {letter}: no such test", row.line));
            }
        }
    }
    none(problems);
}

// ---- must-fail edits

#[test]
fn every_edit_has_one_row() {
    let text = read("docs/CLAIMS.md");
    let mut problems = Vec::new();
    let mut listed: BTreeMap<String, usize> = BTreeMap::new();
    for row in rows_with(&text, "Refused at") {
        match names(row.cell("Edit"))[..] {
            [name] => *listed.entry(name.to_string()).or_default() += 1,
            _ => problems.push(format!("line {}: one edit in a row", row.line)),
        }
    }
    for name in edits() {
        match listed.get(&name) {
            Some(1) => {}
            Some(n) => problems.push(format!("{name}: {n} rows")),
            None => problems.push(format!("{name}: no row")),
        }
    }
    none(problems);
}

/// The replacements of an edit are made one after the other.
fn edit_problem(name: &str) -> Option<String> {
    let (krate, label) = edit_label(name)?;
    let text = read(&format!("crates/{krate}/must-fail/{label}.edit"));
    let part = |key: &str| {
        text.lines()
            .filter_map(|line| line.strip_prefix(key))
            .collect::<Vec<_>>()
    };
    let (file, old, new) = (part("file: "), part("old: "), part("new: "));
    let ([file], true) = (&file[..], !old.is_empty() && old.len() == new.len()) else {
        return Some(format!("{name}: a file, and replacements for it"));
    };
    let mut changed =
        std::fs::read_to_string(root().join("crates").join(krate).join(file)).unwrap_or_default();
    for (old, new) in old.iter().zip(new) {
        match changed.matches(old).count() {
            1 => changed = changed.replace(old, new),
            n => return Some(format!("{name}: {n} times in {file}: {old}")),
        }
    }
    None
}

#[test]
fn every_edit_changes_text_that_stands_once() {
    none(
        edits()
            .iter()
            .filter_map(|name| edit_problem(name))
            .collect(),
    );
}

// ---- public operations

/// The operations in the last column of docs/ARCHITECTURE.md's table of crates.
fn operations() -> BTreeSet<String> {
    let text = read("docs/ARCHITECTURE.md");
    let mut found = BTreeSet::new();
    for row in rows_with(&text, "Public operations (no `requires`)") {
        let krate = names(row.cell("Crate"))[0].to_string();
        for name in names(row.cell("Public operations (no `requires`)")) {
            found.insert(format!("{krate}::{name}"));
        }
    }
    assert!(!found.is_empty());
    found
}

/// The functions that C sees.
fn exports() -> BTreeSet<String> {
    let text = source("xcoff_c").unwrap();
    let after = text.lines().zip(text.lines().skip(1));
    let found: BTreeSet<String> = after
        .filter(|(line, _)| *line == "#[unsafe(no_mangle)]")
        .map(|(_, next)| format!("xcoff_c::{}", coded(next).unwrap()))
        .collect();
    assert!(!found.is_empty());
    found
}

#[test]
fn no_public_operation_has_a_condition() {
    let mut problems = Vec::new();
    for name in operations().union(&exports()) {
        let (krate, item) = name.split_once("::").unwrap();
        match function(krate, item) {
            None => problems.push(format!("{name}: no such operation")),
            Some(lines) => {
                let contract = lines.iter().take_while(|line| line.as_str() != "{");
                if contract
                    .into_iter()
                    .any(|line| line.trim_start().starts_with("requires"))
                {
                    problems.push(format!("{name}: has a requires"));
                }
            }
        }
    }
    none(problems);
}

/// What a crate stands on, itself and the C interface included.
fn below(krate: &str) -> BTreeSet<String> {
    let text = read("crates.txt");
    let lines: BTreeMap<&str, &str> = text
        .lines()
        .filter_map(|line| line.split_once(':'))
        .map(|(head, list)| (head.split_whitespace().next().unwrap_or(""), list))
        .collect();
    let mut found = BTreeSet::from(["xcoff_c".to_string()]);
    let mut open = vec![krate];
    while let Some(next) = open.pop() {
        if found.insert(next.to_string()) {
            open.extend(
                lines
                    .get(next)
                    .into_iter()
                    .flat_map(|list| list.split_whitespace()),
            );
        }
    }
    found
}

/// What is wrong in a row of the table of operations.
fn row_problems(row: &Row) -> Vec<String> {
    let [operation] = names(row.cell("Operation"))[..] else {
        return vec![format!("line {}: one operation in a row", row.line)];
    };
    let (krate, _) = operation.split_once("::").unwrap_or((operation, ""));
    let mut problems = Vec::new();
    let given = names(row.cell("Edits"));
    if given.len() < 2 {
        problems.push(format!("{operation}: {} edits", given.len()));
    }
    for name in given {
        if !below(krate).contains(edit_label(name).map_or("", |(krate, _)| krate)) {
            problems.push(format!("{operation}: does not stand on {name}"));
        }
    }
    for export in names(row.cell("Export")) {
        let lines = function("xcoff_c", export.trim_start_matches("xcoff_c::")).unwrap_or_default();
        if !lines
            .iter()
            .any(|line| line.contains(&format!("{krate}::")))
        {
            problems.push(format!("{operation}: {export} does not call {krate}"));
        }
    }
    problems
}

#[test]
fn every_public_operation_has_its_edits() {
    let text = read("docs/CLAIMS.md");
    let mut problems = Vec::new();
    let mut listed: BTreeMap<String, usize> = BTreeMap::new();
    for row in rows_with(&text, "Operation") {
        problems.extend(row_problems(&row));
        for name in names(row.cell("Operation"))
            .into_iter()
            .chain(names(row.cell("Export")))
        {
            *listed.entry(name.to_string()).or_default() += 1;
        }
    }
    let mut wanted: BTreeSet<String> = operations().union(&exports()).cloned().collect();
    // It answers one number and judges nothing.
    assert!(wanted.remove("xcoff_c::xcoff_version"));
    for name in wanted.iter().chain(listed.keys()).collect::<BTreeSet<_>>() {
        match (wanted.contains(name), listed.get(name)) {
            (true, Some(1)) => {}
            (true, n) => problems.push(format!("{name}: {} rows", n.unwrap_or(&0))),
            (false, _) => problems.push(format!("{name}: no public operation")),
        }
    }
    none(problems);
}

// ---- counted lines

/// The lines of a definition: the comment above it, and all up to the next empty line.
fn length(name: &str) -> usize {
    let found = find_declared("specs", name).or_else(|| find_declared("proofs", name));
    let Some((lines, at)) = found else {
        return 0;
    };
    let above = lines[..at]
        .iter()
        .rev()
        .take_while(|line| line.trim_start().starts_with("--"))
        .count();
    let below = lines[at..]
        .iter()
        .take_while(|line| !line.is_empty())
        .count();
    above + below
}

#[test]
fn counted_lines_are_counted() {
    let text = read("docs/CLAIMS.md");
    let mut problems = Vec::new();
    let mut total = 0;
    for row in rows_with(&text, "Lines") {
        let defined: usize = names(row.cell("Definitions")).into_iter().map(length).sum();
        let total_row = row.cell("Definitions") == "together";
        let lines = if total_row { total } else { defined };
        total += defined;
        if row.cell("Lines") != lines.to_string() {
            problems.push(format!("line {}: {lines} lines", row.line));
        }
    }
    none(problems);
}

/// The layers of docs/layers.txt, each with its crates.
fn layers() -> Vec<(String, Vec<String>)> {
    let mut found: Vec<(String, Vec<String>)> = Vec::new();
    for line in read("docs/layers.txt").lines() {
        let line = line.split('#').next().unwrap_or("");
        if line.starts_with(' ') {
            let crates = line.split_whitespace().map(String::from);
            found.last_mut().unwrap().1.extend(crates);
        } else if let Some((name, _)) = line.split_once(':') {
            found.push((name.to_string(), Vec::new()));
        }
    }
    found
}

#[test]
fn the_architecture_has_each_crate_at_its_layer() {
    let text = read("docs/ARCHITECTURE.md");
    let mut drawn: Vec<(String, Vec<String>)> = Vec::new();
    for row in rows_with(&text, "Layer") {
        let layer = row.cell("Layer");
        if drawn.last().is_none_or(|(last, _)| last != layer) {
            drawn.push((layer.to_string(), Vec::new()));
        }
        let name = names(row.cell("Crate"))[0].to_string();
        drawn.last_mut().unwrap().1.push(name);
    }
    let mut kept = layers();
    for (_, crates) in drawn.iter_mut().chain(&mut kept) {
        crates.sort();
    }
    assert_eq!(drawn, kept);
}

// ---- docs/TESTING.md

/// As documents write numbers: 2,619.
fn with_commas(number: usize) -> String {
    let digits = number.to_string();
    let pieces: Vec<&str> = (0..digits.len().div_ceil(3))
        .rev()
        .map(|n| {
            let end = digits.len() - 3 * n;
            &digits[end.saturating_sub(3)..end]
        })
        .collect();
    pieces.join(",")
}

/// The plain files of a folder.
fn files_of(folder: &str) -> BTreeSet<String> {
    let entries = std::fs::read_dir(root().join(folder)).unwrap();
    let entries = entries.map(|entry| entry.unwrap());
    let files = entries.filter(|entry| entry.path().is_file());
    files
        .map(|entry| entry.file_name().into_string().unwrap())
        .collect()
}

#[test]
fn recorded_cases_and_real_files_are_as_many_as_the_document_says() {
    let text = read("docs/TESTING.md");
    let mut said = Vec::new();
    let mut total = 0;
    for name in files_of("tests/vectors") {
        let Some(request) = name
            .strip_prefix("cases")
            .and_then(|n| n.strip_suffix(".txt"))
        else {
            continue;
        };
        let cases = read(&format!("tests/vectors/{name}"));
        let count = cases.lines().filter(|l| !l.starts_with("file ")).count();
        total += count;
        let of = match request.trim_start_matches(['-', '0']) {
            "" => "of the base".to_string(),
            request => format!("with request {request}"),
        };
        said.push(format!("{} {of}", with_commas(count)));
    }
    said.push(format!("| {} recorded cases: ", with_commas(total)));

    let is_real = |name: &String| ![".txt", ".py", ".md"].iter().any(|end| name.ends_with(end));
    let [corpus, large, pairs] = ["tests/corpus", "tests/corpus/large", "tests/pairs"]
        .map(|folder| files_of(folder).into_iter().filter(is_real).collect());
    let corpus: BTreeSet<String> = &corpus | &large;
    let all = corpus.union(&pairs).count();
    said.push(format!("\n{all} files by GNU as"));
    said.push(format!("{} in `tests/corpus`", corpus.len()));
    let half = pairs.len() / 2;
    said.push(format!("{} ({half} pairs) in `tests/pairs`", pairs.len()));

    let missing = said.into_iter().filter(|said| !text.contains(said));
    none(
        missing
            .map(|said| format!("docs/TESTING.md does not say: {}", said.trim()))
            .collect(),
    );
}
