//! Recorded cases with the answers of an independent reading of the rules (tests/vectors): every case is run through the
//! library, and its answer, written in the same words, must be the recorded one. The second implementation must answer
//! alike, offsets of refusals included, which the older cases do not have. tests/vectors/README.md has the form.

use reference::generate::Op;
use reference::{RowKey, TableAnswer, TableCall};
use std::collections::BTreeMap;
use std::fmt::Write;
use std::path::PathBuf;
use xcoff::{
    AddressTable, Anchor, Call, CsectType, Format, ObjectCall, ObjectPlan, Plan, Reached, Refusal,
};

// ---- the words of a line

/// Bytes: hex digits, and (N) for N zero bytes.
fn bytes(text: &str) -> Vec<u8> {
    let mut all = Vec::new();
    let mut rest = if text == "-" { "" } else { text };
    while !rest.is_empty() {
        if let Some(run) = rest.strip_prefix('(') {
            let (count, after) = run.split_once(')').expect("a closing bracket");
            all.resize(
                all.len() + count.parse::<usize>().expect("a number of zeros"),
                0,
            );
            rest = after;
        } else {
            all.push(u8::from_str_radix(&rest[..2], 16).expect("hex digits"));
            rest = &rest[2..];
        }
    }
    all
}

/// The text of bytes: four or more zero bytes become their number.
fn hexed(bytes: &[u8]) -> String {
    let mut text = String::new();
    let mut at = 0;
    while at < bytes.len() {
        let zeros = bytes[at..].iter().take_while(|&&b| b == 0).count();
        if zeros >= 4 {
            write!(text, "({zeros})").unwrap();
            at += zeros;
        } else {
            let end = at + zeros.max(1);
            bytes[at..end]
                .iter()
                .for_each(|b| write!(text, "{b:02x}").unwrap());
            at = end;
        }
    }
    or_dash(text)
}

/// A record text: its characters, | for a newline, and \\XX for one by its hex digits.
fn record_bytes(text: &str) -> Vec<u8> {
    let mut all = Vec::new();
    let mut rest = if text == "-" { "" } else { text };
    while let Some(first) = rest.chars().next() {
        let length = if first == '\\' { 3 } else { 1 };
        all.push(match first {
            '|' => b'\n',
            '\\' => u8::from_str_radix(&rest[1..3], 16).expect("hex digits"),
            other => u8::try_from(other).expect("a plain character"),
        });
        rest = &rest[length..];
    }
    all
}

fn record_text(bytes: &[u8]) -> String {
    let character = |&byte: &u8| match byte {
        b'\n' => "|".into(),
        b if b.is_ascii_alphanumeric() => (b as char).to_string(),
        other => format!("\\{other:02x}"),
    };
    or_dash(bytes.iter().map(character).collect())
}

fn or_dash(text: String) -> String {
    if text.is_empty() {
        "-".into()
    } else {
        text
    }
}

fn number(text: &str) -> u64 {
    u64::from_str_radix(text, 16).unwrap_or_else(|_| panic!("{text} is no number"))
}

/// Addresses between commas, N equal ones as ADDRESS*N.
fn numbers(text: &str) -> Vec<u64> {
    let mut all = Vec::new();
    for part in text.split(',').filter(|&part| part != "-") {
        let (value, count) = part.split_once('*').unwrap_or((part, "1"));
        let length = all.len() + count.parse::<usize>().expect("how many");
        all.resize(length, number(value));
    }
    all
}

fn list_text(list: &[u64]) -> String {
    let part = |run: &[u64]| match run.len() {
        1 => format!("{:x}", run[0]),
        n => format!("{:x}*{n}", run[0]),
    };
    or_dash(
        list.chunk_by(|a, b| a == b)
            .map(part)
            .collect::<Vec<_>>()
            .join(","),
    )
}

fn given(answer: Result<String, Refusal>) -> String {
    answer.unwrap_or_else(|r| format!("refused {} {} {}", r.number, r.item, r.offset))
}

/// A name by its bytes and its place in the file.
fn name(file: &[u8], name: &[u8]) -> String {
    if name.is_empty() {
        return "-".into();
    }
    let digits: String = name.iter().map(|b| format!("{b:02x}")).collect();
    format!(
        "{digits}@{:x}",
        name.as_ptr() as usize - file.as_ptr() as usize
    )
}

// ---- what is read

fn bits(format: Format) -> u64 {
    match format {
        Format::Xcoff32 => 32,
        Format::Xcoff64 => 64,
    }
}

fn opened(file: &[u8]) -> Result<String, Refusal> {
    let o = xcoff::open(file)?;
    let mut parts = vec![format!(
        "{} {:x} {:x} {:x} {:x}",
        bits(o.format),
        o.sections,
        o.symbols,
        o.opthdr,
        o.flags
    )];
    for n in 1..=o.sections {
        parts.push(section(file, n)?);
    }
    Ok(parts.join(" ; "))
}

fn section(file: &[u8], n: u64) -> Result<String, Refusal> {
    let s = xcoff::section(file, n)?;
    let kind = format!("{:?}", s.kind).to_lowercase();
    let name = name(file, xcoff::section_name(file, n)?);
    let tables = format!(
        "{:x} {:x} {:x} {:x}",
        s.relptr, s.nreloc, s.lnnoptr, s.nlnno
    );
    Ok(format!(
        "{kind} {:x} {:x} {:x} {:x} {tables} {} {name}",
        s.paddr, s.vaddr, s.size, s.scnptr, s.raw as u64
    ))
}

fn symbol(file: &[u8], i: u64) -> Result<String, Refusal> {
    let s = xcoff::symbol(file, i)?;
    let name = name(file, xcoff::symbol_name(file, i)?);
    let visibility = s.visibility.map_or("".into(), |v| format!("/{}", v as u64));
    Ok(format!(
        "{:x} {} {:x}{visibility} {:x} {:x} {name}",
        s.value, s.scnum, s.ntype, s.sclass, s.numaux
    ))
}

fn walk(file: &[u8]) -> Result<String, Refusal> {
    let w = xcoff::walk(file)?;
    let cause = w.cause.map_or("whole".into(), |r| given(Err(r)));
    let mut parts = vec![format!("{:x} {:x} {cause}", w.visited, w.end)];
    let mut i = 0;
    for _ in 0..w.visited {
        parts.push(format!("{i:x} {}", symbol(file, i)?));
        i += 1 + xcoff::symbol(file, i)?.numaux;
    }
    Ok(parts.join(" ; "))
}

fn csect(file: &[u8], i: u64) -> Result<String, Refusal> {
    let c = xcoff::csect(file, i)?;
    let kind = match c.kind {
        CsectType::Er => 0,
        CsectType::Sd => 1,
        CsectType::Ld => 2,
        CsectType::Cm => 3,
    };
    Ok(format!(
        "{:x} {:x} {kind} {:x}",
        c.length, c.align, c.smclas
    ))
}

fn module(file: &[u8]) -> Result<String, Refusal> {
    let m = xcoff::module(file)?;
    let part = |p: xcoff::Part| format!("{:x} {:x} {:x}", p.number, p.address, p.size);
    let anchor = |a: Option<Anchor>| {
        a.map_or("none".into(), |a| {
            format!("{:x} {:x}", a.section, a.address)
        })
    };
    let sections = [m.text, m.data, m.bss].map(part).join(" ");
    let anchors = [m.entry, m.toc].map(anchor).join(" ");
    let mut parts = vec![format!(
        "{} {sections} {:x} {:x} {:x} {anchors}",
        bits(m.format),
        m.loader,
        m.image,
        m.ids
    )];
    for i in 3..m.symbols + 3 {
        parts.push(loader_symbol(file, i)?);
    }
    let entries = xcoff::relocation_table(file)?;
    assert_eq!(entries.len() as u64, m.relocations);
    for e in entries {
        let sign = if e.subtracts { "-" } else { "+" };
        parts.push(format!(
            "{:x} {:x} {:x} {:x} {sign}{}",
            e.address,
            e.symbol,
            e.rtype,
            e.scnum,
            8 * e.width
        ));
    }
    Ok(parts.join(" ; "))
}

fn loader_symbol(file: &[u8], i: u64) -> Result<String, Refusal> {
    let s = xcoff::loader_symbol(file, i)?;
    let name = name(file, xcoff::loader_symbol_name(file, i)?);
    Ok(format!(
        "{:x} {:x} {:x} {:x} {:x} {:x} {name}",
        s.value, s.scnum, s.smtype, s.smclas, s.ifile, s.parm
    ))
}

fn import_id(file: &[u8], n: u64) -> Result<String, Refusal> {
    let strings = [
        xcoff::import_path(file, n)?,
        xcoff::import_base(file, n)?,
        xcoff::import_member(file, n)?,
    ];
    Ok(strings.map(|string| name(file, string)).join(" "))
}

fn find_line(file: &[u8], section: u64, address: u64) -> Result<String, Refusal> {
    let f = xcoff::find_line(file, section, address)?;
    Ok(format!(
        "{:x} {:x} {:x} {:x}",
        f.entry, f.address, f.line, f.symbol
    ))
}

fn object(file: &[u8]) -> Result<String, Refusal> {
    let o = xcoff::object(file)?;
    let sections = xcoff::object_sections(file)?;
    assert_eq!(sections.len() as u64, o.sections);
    let format = bits(xcoff::open(file)?.format);
    let mut parts = vec![format!("{format} {:x}", o.length)];
    let mut entries = Vec::new();
    for (n, own) in (1..).zip(&sections) {
        let Ok(table) = xcoff::object_entries(file, n) else {
            continue;
        };
        assert_eq!(
            (table.len() as u64, entries.len() as u64),
            (own.entries, own.first)
        );
        parts.push(format!("{n:x}@{:x}", own.place));
        entries.extend(table.rows().map(|e| {
            format!(
                "{n:x} {:x} {:x} {:x} {:x} {:x} {:x}",
                e.address, e.symbol, e.rsize, e.rtype, e.width, e.place
            )
        }));
    }
    assert_eq!(entries.len() as u64, o.entries);
    parts.extend(entries);
    Ok(parts.join(" ; "))
}

/// The header lister's text, from the library's answers; a newline as |.
fn listed(file: &[u8]) -> String {
    if file.len() > 65_536 {
        return "too long|".into();
    }
    let lines = || -> Result<String, Refusal> {
        let o = xcoff::open(file)?;
        let digits = bits(o.format) as usize / 4;
        let mut text = format!("XCOFF{} {} {}|", bits(o.format), o.sections, o.symbols);
        for n in 1..=o.sections {
            let s = xcoff::section(file, n)?;
            let kind = format!("{:?}", s.kind).to_lowercase();
            write!(text, "{n} {kind} {:0digits$x} {}|", s.paddr, s.size).unwrap();
        }
        Ok(text)
    };
    lines().unwrap_or_else(|r| given(Err(r)) + "|")
}

// ---- buffers

type Words<'a> = std::str::Split<'a, char>;

fn next<'a>(words: &mut Words<'a>) -> &'a str {
    words.next().expect("another word")
}

fn plan(words: &mut Words) -> Plan {
    Plan {
        text: number(next(words)),
        data: number(next(words)),
        list: numbers(next(words)),
    }
}

/// Builds and moves, one after the other on the same buffers: answer and buffers after each, a dot for one that is as
/// before. A replay of the whole list must leave the same, and answer for these answers.
fn calls(file: &[u8], words: &mut Words) -> String {
    let before = (bytes(next(words)), bytes(next(words)));
    let (mut text, mut data) = before.clone();
    let mut list = Vec::new();
    let mut parts = Vec::new();
    let mut answers = Vec::new();
    while let Some(word) = words.next() {
        let call = match word {
            "build" => Call::Build(plan(words)),
            _ => Call::Move(plan(words), plan(words)),
        };
        let (old_text, old_data) = (text.clone(), data.clone());
        let answer = match &call {
            Call::Build(p) => xcoff::build_images(file, p, &mut text, &mut data),
            Call::Move(p, q) => xcoff::move_images(file, p, q, &mut text, &mut data),
        };
        answers.push(answer);
        let answer = given(answer.map(reached));
        parts.push(format!(
            "{answer} / {} {}",
            shown(&old_text, &text),
            shown(&old_data, &data)
        ));
        list.push(call);
    }
    let (mut replayed_text, mut replayed_data) = before;
    let all = xcoff::replay(file, &list, &mut replayed_text, &mut replayed_data);
    let accepted = answers.iter().filter(|answer| answer.is_ok()).count() as u64;
    assert_eq!((all.calls, all.accepted), (list.len() as u64, accepted));
    assert_eq!(all.last, *answers.last().expect("a call"));
    assert!(
        replayed_text == text && replayed_data == data,
        "a replay leaves something else"
    );
    parts.join(" ; ")
}

fn object_plan(words: &mut Words) -> ObjectPlan {
    ObjectPlan {
        addresses: numbers(next(words)),
    }
}

/// Builds and moves of an object file, one after the other on its buffer, as [`calls`].
fn object_calls(file: &[u8], words: &mut Words) -> String {
    let before = bytes(next(words));
    let mut buffer = before.clone();
    let mut list = Vec::new();
    let mut parts = Vec::new();
    let mut answers = Vec::new();
    while let Some(word) = words.next() {
        let call = match word {
            "build" => ObjectCall::Build(object_plan(words)),
            _ => ObjectCall::Move(object_plan(words), object_plan(words)),
        };
        let old = buffer.clone();
        let answer = match &call {
            ObjectCall::Build(p) => xcoff::build_object(file, p, &mut buffer),
            ObjectCall::Move(p, q) => xcoff::move_object(file, p, q, &mut buffer),
        };
        answers.push(answer);
        let answer = given(answer.map(|()| "placed".into()));
        parts.push(format!("{answer} / {}", shown(&old, &buffer)));
        list.push(call);
    }
    let mut replayed = before;
    let all = xcoff::replay_object(file, &list, &mut replayed);
    let accepted = answers.iter().filter(|answer| answer.is_ok()).count() as u64;
    assert_eq!((all.calls, all.accepted), (list.len() as u64, accepted));
    assert_eq!(all.last, *answers.last().expect("a call"));
    assert!(replayed == buffer, "a replay leaves something else");
    parts.join(" ; ")
}

/// A dot for a buffer that is as before.
fn shown(old: &[u8], new: &[u8]) -> String {
    if old == new {
        ".".into()
    } else {
        hexed(new)
    }
}

fn reached(r: Reached) -> String {
    [r.entry, r.toc]
        .map(|a| a.map_or("none".into(), |a| format!("{a:x}")))
        .join(" ")
}

fn sheet_read(words: &mut Words) -> String {
    let (sheet, mut list) = (bytes(next(words)), numbers(next(words)));
    let answer =
        xcoff::read_sheet_into(&sheet, &mut list).map(|(text, data)| format!("{text:x} {data:x}"));
    format!("{} / {}", given(answer), list_text(&list))
}

fn sheet_write(words: &mut Words) -> String {
    let (p, mut sheet) = (plan(words), bytes(next(words)));
    let answer =
        xcoff::write_sheet_into(p.text, p.data, &p.list, &mut sheet).map(|()| "written".into());
    format!("{} / {}", given(answer), hexed(&sheet))
}

fn srecord_write(file: &[u8], words: &mut Words) -> String {
    let (p, text, data) = (plan(words), bytes(next(words)), bytes(next(words)));
    let before = bytes(next(words));
    let mut records = before.clone();
    let answer = xcoff::write_records_into(file, &p, &text, &data, &mut records);
    if answer.is_ok() {
        let length = xcoff::records_length(file, &p).expect("what is written has a length");
        assert_eq!(length, records.len() as u64);
    }
    let after = if records == before {
        ".".into()
    } else {
        record_text(&records)
    };
    format!("{} / {after}", given(answer.map(|()| "written".into())))
}

fn srecord_read(file: &[u8], words: &mut Words) -> String {
    let (p, text, data) = (plan(words), bytes(next(words)), bytes(next(words)));
    let records = record_bytes(next(words));
    let (mut new_text, mut new_data) = (text.clone(), data.clone());
    let answer = xcoff::read_records(file, &p, &records, &mut new_text, &mut new_data);
    let answer = given(answer.map(|()| "read".into()));
    let (text, data) = (shown(&text, &new_text), shown(&data, &new_data));
    format!("{answer} / {text} {data}")
}

/// The name of a row; a table's call has no file of its own but in a fill.
fn table_calls(words: &mut Words) -> Vec<(TableCall, Vec<u8>)> {
    let key = |words: &mut Words| RowKey {
        bench: number(next(words)),
        file_id: number(next(words)),
        name: bytes(next(words)),
    };
    let mut calls = Vec::new();
    while let Some(word) = words.next() {
        calls.push(match word {
            "add" => (TableCall::Add(key(words), number(next(words))), Vec::new()),
            "remove" => (TableCall::Remove(key(words)), Vec::new()),
            "lookup" => (TableCall::LookUp(key(words)), Vec::new()),
            _ => {
                let (bench, file) = (number(next(words)), bytes(next(words)));
                let list = numbers(next(words));
                (TableCall::Fill { bench, list }, file)
            }
        });
    }
    calls
}

/// Calls on one table that starts empty: the answer of each, with the list after a fill.
fn table(words: &mut Words) -> String {
    let mut table = AddressTable::new();
    let mut parts = Vec::new();
    for (call, file) in table_calls(words) {
        parts.push(match call {
            TableCall::Add(row, address) => {
                let added = table.add(row.bench, row.file_id, &row.name, address);
                given(added.map(|()| "done".into()))
            }
            TableCall::Remove(row) => {
                let removed = table.remove(row.bench, row.file_id, &row.name);
                given(removed.map(|()| "done".into()))
            }
            TableCall::LookUp(row) => {
                let found = table.find(row.bench, row.file_id, &row.name);
                given(found.map(|address| format!("{address:x}")))
            }
            TableCall::Fill { bench, mut list } => {
                let filled = table.fill(bench, &file, &mut list);
                let filled = given(filled.map(|()| "filled".into()));
                format!("{filled} / {}", list_text(&list))
            }
        });
    }
    parts.join(" ; ")
}

/// A lent buffer of so many bytes, of which a case says no more.
fn lent(length: u64) -> Vec<u8> {
    (0..length).map(|i| (i * 37 + 11) as u8).collect()
}

/// Where bytes differ from others of the same length: each run by its offset, between commas.
fn changes(before: &[u8], after: &[u8]) -> String {
    let differs: Vec<usize> = (0..after.len())
        .filter(|&at| before[at] != after[at])
        .collect();
    let run = |run: &[usize]| {
        let digits: String = run.iter().map(|&at| format!("{:02x}", after[at])).collect();
        format!("{:x}:{digits}", run[0])
    };
    let runs: Vec<String> = differs.chunk_by(|a, b| a + 1 == *b).map(run).collect();
    or_dash(runs.join(","))
}

fn module_written(file: &[u8], words: &mut Words) -> String {
    let (p, before) = (plan(words), lent(number(next(words))));
    let mut out = before.clone();
    match xcoff::write_module_into(file, &p, &mut out) {
        Err(refusal) => {
            assert!(out == before, "a refusal writes");
            format!("{} / .", given(Err(refusal)))
        }
        Ok(()) => format!("written / {}", changes(file, &out)),
    }
}

fn salvage(file: &[u8], words: &mut Words) -> String {
    let before = (lent(number(next(words))), lent(number(next(words))));
    let (mut copy, mut report) = before.clone();
    match xcoff::salvage_into(file, &mut copy, &mut report) {
        Err(refusal) => {
            assert!((copy, report) == before, "a refusal writes");
            format!("{} / .", given(Err(refusal)))
        }
        Ok(count) => {
            let (written, rest) = report.split_at(8 * count as usize);
            assert_eq!(rest, &before.1[written.len()..], "the report's rest");
            let written: String = written.iter().map(|b| format!("{b:02x}")).collect();
            format!("{count:x} / {} {}", changes(file, &copy), or_dash(written))
        }
    }
}

// ---- the second implementation

fn their_plan(words: &mut Words) -> reference::Plan {
    let Plan { text, data, list } = plan(words);
    reference::Plan { text, data, list }
}

fn their_calls(words: &mut Words) -> Vec<reference::Call> {
    let mut calls = Vec::new();
    while let Some(word) = words.next() {
        calls.push(match word {
            "build" => reference::Call::Build(their_plan(words)),
            _ => reference::Call::Move(their_plan(words), their_plan(words)),
        });
    }
    calls
}

fn their_object_calls(words: &mut Words) -> Vec<reference::ObjectCall> {
    let mut calls = Vec::new();
    while let Some(word) = words.next() {
        calls.push(match word {
            "build" => reference::ObjectCall::Build(numbers(next(words))),
            _ => reference::ObjectCall::Move(numbers(next(words)), numbers(next(words))),
        });
    }
    calls
}

/// The answers of the second implementation to calls on a table; each fill has a file of its own.
fn their_table(words: &mut Words) -> String {
    let refused = |r: &reference::Refusal| format!("refused {} {} {}", r.number, r.item, r.offset);
    let mut table = reference::AddressTable::default();
    let answers =
        table_calls(words).into_iter().map(|(call, file)| {
            match reference::run_table_call(&mut table, &file, &call) {
                TableAnswer::Done => "done".into(),
                TableAnswer::Address(address) => format!("{address:x}"),
                TableAnswer::Refused(refusal) => refused(&refusal),
                TableAnswer::Filled(Ok(()), list) => format!("filled / {}", list_text(&list)),
                TableAnswer::Filled(Err(refusal), list) => {
                    format!("{} / {}", refused(&refusal), list_text(&list))
                }
            }
        });
    answers.collect::<Vec<String>>().join(" ; ")
}

/// What both implementations say of a question that differs; none where they agree.
fn disagreement(file: &[u8], asked: &str) -> Option<String> {
    if let Some(calls) = asked.strip_prefix("table ") {
        let (ours, theirs) = (
            table(&mut calls.split(' ')),
            their_table(&mut calls.split(' ')),
        );
        return (ours != theirs)
            .then(|| format!("{ours:.400}, the second implementation {theirs:.400}"));
    }
    let compared = agree::compare(file, &operation(asked));
    compared.err().map(|difference| format!("{difference:?}"))
}

/// A question as the comparison of both implementations takes it.
fn operation(asked: &str) -> Op {
    let words = &mut asked.split(' ');
    match next(words) {
        "open" | "list" => Op::Open,
        "section" => Op::Section(number(next(words))),
        "symbol" => Op::Symbol(number(next(words))),
        "walk" => Op::Walk,
        "csect" => Op::Csect(number(next(words))),
        "module" => Op::Module,
        "loader_symbol" => Op::LoaderSymbol(number(next(words))),
        "import_id" => Op::ImportPath(number(next(words))),
        "find_line" => Op::FindLine {
            section: number(next(words)),
            address: number(next(words)),
        },
        "calls" => Op::Calls {
            text: bytes(next(words)),
            data: bytes(next(words)),
            calls: their_calls(words),
        },
        "object" => Op::Object,
        "object_calls" => Op::ObjectCalls {
            buffer: bytes(next(words)),
            calls: their_object_calls(words),
        },
        "sheet_read" => Op::ReadSheet {
            sheet: bytes(next(words)),
            list: numbers(next(words)),
        },
        "sheet_write" => Op::WriteSheet {
            text: number(next(words)),
            data: number(next(words)),
            list: numbers(next(words)),
            sheet: bytes(next(words)),
        },
        "write_module" => Op::WriteModule {
            plan: their_plan(words),
            out: lent(number(next(words))),
        },
        "salvage" => Op::Salvage {
            copy: lent(number(next(words))),
            report: lent(number(next(words))),
        },
        "srecord_write" => Op::WriteRecords {
            plan: their_plan(words),
            text: bytes(next(words)),
            data: bytes(next(words)),
            records: bytes(next(words)),
        },
        _ => Op::ReadRecords {
            plan: their_plan(words),
            text: bytes(next(words)),
            data: bytes(next(words)),
            records: record_bytes(next(words)),
        },
    }
}

// ---- the cases

fn answer(file: &[u8], asked: &str) -> String {
    let mut words = asked.split(' ');
    let op = next(&mut words);
    let index = |words: &mut Words| number(next(words));
    match op {
        "open" => given(opened(file)),
        "section" => given(section(file, index(&mut words))),
        "symbol" => given(symbol(file, index(&mut words))),
        "walk" => given(walk(file)),
        "csect" => given(csect(file, index(&mut words))),
        "module" => given(module(file)),
        "loader_symbol" => given(loader_symbol(file, index(&mut words))),
        "import_id" => given(import_id(file, index(&mut words))),
        "find_line" => given(find_line(file, index(&mut words), index(&mut words))),
        "table" => table(&mut words),
        "list" => listed(file),
        "calls" => calls(file, &mut words),
        "object" => given(object(file)),
        "object_calls" => object_calls(file, &mut words),
        "sheet_read" => sheet_read(&mut words),
        "sheet_write" => sheet_write(&mut words),
        "srecord_write" => srecord_write(file, &mut words),
        "srecord_read" => srecord_read(file, &mut words),
        "write_module" => module_written(file, &mut words),
        "salvage" => salvage(file, &mut words),
        _ => panic!("no such operation: {op}"),
    }
}

/// An answer as a text before request 4 has it.
fn without_offsets(answer: String) -> String {
    let mut parts = answer.split("refused ");
    let mut text = parts.next().expect("a part").to_string();
    for part in parts {
        let (number, rest) = part.split_once(' ').expect("an item");
        let (item, rest) = rest.split_once(' ').expect("an offset");
        let rest = rest.trim_start_matches(|c: char| c.is_ascii_digit());
        text += &format!("refused {number} {item}{rest}");
    }
    text
}

/// Runs the cases of a text; gives how many there are of each operation.
fn check(name: &str, as_recorded: fn(String) -> String) -> BTreeMap<String, u64> {
    let path = PathBuf::from(env!("CARGO_MANIFEST_DIR")).join("../tests/vectors");
    let path = path.join(name);
    let text = std::fs::read_to_string(&path).unwrap_or_else(|e| panic!("{}: {e}", path.display()));
    let mut counts: BTreeMap<String, u64> = BTreeMap::new();
    let mut differences = Vec::new();
    let mut file = Vec::new();
    for (n, line) in text.lines().enumerate() {
        if let Some(next) = line.strip_prefix("file ") {
            file = bytes(next);
            continue;
        }
        let (asked, expected) = line.split_once(" = ").expect("a question and its answer");
        let got = as_recorded(answer(&file, asked));
        if let Some(difference) = disagreement(&file, asked) {
            differences.push(format!("line {}: {asked:.200}: {difference}", n + 1));
        }
        if got != expected {
            differences.push(format!(
                "line {}: {asked:.200}: expected {expected:.400}, got {got:.400}",
                n + 1
            ));
        }
        let op = asked.split(' ').next().expect("an operation");
        *counts.entry(op.into()).or_default() += 1;
    }
    println!("{name}: {counts:?}");
    assert!(
        differences.is_empty(),
        "{name}: {} differences:\n{}",
        differences.len(),
        differences.join("\n")
    );
    counts
}

#[test]
fn every_recorded_case_is_answered_as_recorded() {
    let counts = check("cases.txt", without_offsets);
    assert_eq!(counts.values().sum::<u64>(), 2_619);
    assert_eq!(counts.len(), 12, "{counts:?}");
}

#[test]
fn every_recorded_case_of_request_2_is_answered_as_recorded() {
    let counts = check("cases-02.txt", without_offsets);
    assert_eq!(counts.values().sum::<u64>(), 561);
    assert_eq!(counts.len(), 14, "{counts:?}");
    assert_eq!(
        (counts["srecord_write"], counts["srecord_read"]),
        (142, 162)
    );
}

#[test]
fn every_recorded_case_of_request_3_is_answered_as_recorded() {
    let counts = check("cases-03.txt", without_offsets);
    assert_eq!(counts.values().sum::<u64>(), 564);
}

#[test]
fn every_recorded_case_of_request_1_is_answered_as_recorded() {
    let counts = check("cases-01.txt", without_offsets);
    assert_eq!(counts.values().sum::<u64>(), 583);
    assert_eq!(
        (counts["symbol"], counts["walk"], counts["csect"]),
        (250, 76, 153)
    );
}

#[test]
fn every_recorded_case_of_request_9_is_answered_as_recorded() {
    let counts = check("cases-09.txt", without_offsets);
    assert_eq!(counts.values().sum::<u64>(), 594);
    assert_eq!(
        (counts["symbol"], counts["walk"], counts["csect"]),
        (218, 84, 200)
    );
}

#[test]
fn every_recorded_case_of_request_4_is_answered_as_recorded() {
    let counts = check("cases-04.txt", |answer| answer);
    assert_eq!(counts.values().sum::<u64>(), 568);
    assert_eq!(counts.len(), 14, "{counts:?}");
    assert_eq!((counts["symbol"], counts["csect"]), (80, 82));
}

#[test]
fn every_recorded_case_of_request_10_is_answered_as_recorded() {
    let counts = check("cases-10.txt", |answer| answer);
    assert_eq!(counts.values().sum::<u64>(), 600);
    assert_eq!(counts.len(), 14, "{counts:?}");
    assert_eq!((counts["sheet_read"], counts["sheet_write"]), (106, 106));
}

#[test]
fn every_recorded_case_of_request_5_is_answered_as_recorded() {
    let counts = check("cases-05.txt", |answer| answer);
    assert_eq!(counts.values().sum::<u64>(), 600);
    assert_eq!((counts["object"], counts["object_calls"]), (44, 277));
}

#[test]
fn every_recorded_case_of_request_7_is_answered_as_recorded() {
    let counts = check("cases-07.txt", |answer| answer);
    assert_eq!(counts.values().sum::<u64>(), 600);
    assert_eq!(counts.len(), 17, "{counts:?}");
    assert_eq!(counts["find_line"], 268);
}

#[test]
fn every_recorded_case_of_request_6_is_answered_as_recorded() {
    let counts = check("cases-06.txt", |answer| answer);
    assert_eq!(counts.values().sum::<u64>(), 589);
    assert_eq!(counts.len(), 17, "{counts:?}");
    assert_eq!(counts["table"], 242);
}

#[test]
fn every_recorded_case_of_request_8_is_answered_as_recorded() {
    let counts = check("cases-08.txt", |answer| answer);
    assert_eq!(counts.values().sum::<u64>(), 577);
    assert_eq!(counts["write_module"], 274);
}

#[test]
fn every_recorded_case_of_request_12_is_answered_as_recorded() {
    let counts = check("cases-12.txt", |answer| answer);
    assert_eq!(counts.values().sum::<u64>(), 578);
    assert_eq!((counts["salvage"], counts["walk"]), (260, 113));
}
