//! The answer to each case.

use crate::json::{hex, keyed, num, Json};
use crate::records::*;
use reference::*;

/// The answer to a case, in the words of the recorded ones.
pub fn answer(case: &Json) -> Json {
    let file = &file(case)[..];
    match case.get("op").text() {
        "build" | "move" | "module_calls" => image_answer(file, case),
        "object_build" | "object_move" | "object_calls" => placed_answer(file, case),
        "sheet_read" => sheet_read(case),
        "sheet_write" => sheet_write(case),
        "srecord_write" => srecord_write(file, case),
        "srecord_read" => srecord_read(file, case),
        "write_module" => module_written(file, case),
        "salvage" => salvaged(file, case),
        "table" => alone(table_answer(case.get("calls").list())),
        "list" => alone(Json::Text(list_headers(file))),
        op => alone(given(read_answer(file, op, case))),
    }
}

pub fn file(case: &Json) -> Vec<u8> {
    let mut file = Vec::new();
    if let Json::Text(_) = case.get("file") {
        file = case.get("file").bytes();
    }
    if let Json::Number(length) = case.get("pad_to") {
        file.resize(*length as usize, 0);
    }
    file
}

/// An answer of an operation that changes no buffer.
fn alone(answer: Json) -> Json {
    keyed(vec![("answer", answer)])
}

/// What is read of a file.
fn read_answer(file: &[u8], op: &str, case: &Json) -> Result<Json, Refusal> {
    let index = || case.get("index").number();
    match op {
        "open" => Ok(summary_json(file, &open(file)?)),
        "section" => Ok(section_json(file, index(), &section(file, index())?)),
        "symbol" => symbol_answer(file, index()),
        "walk" => walk_answer(file),
        "csect" => csect_answer(file, index()),
        "module" => module_json(file),
        "loader_symbol" => Ok(loader_symbol_json(file, &loader_symbol(file, index())?)),
        "import_id" => import_id(file, index()),
        "object" => Ok(object_json(file, &object(file)?)),
        "find_line" => line_answer(file, case),
        other => panic!("operation {other}"),
    }
}

fn symbol_answer(file: &[u8], index: u64) -> Result<Json, Refusal> {
    let found = symbol(file, index);
    assert_eq!(
        symbol_name(file, index),
        found.clone().map(|entry| entry.name),
        "symbol_name"
    );
    Ok(symbol_json(file, &found?))
}

/// The recorded walk lists its entries.
fn walk_answer(file: &[u8]) -> Result<Json, Refusal> {
    let found = walk(file)?;
    let mut entries = Vec::new();
    let mut at = 0;
    while at < found.end {
        let entry = symbol(file, at).expect("the walk read it");
        entries.push(symbol_json(file, &entry));
        at += 1 + entry.auxiliaries;
    }
    assert_eq!(entries.len() as u64, found.visited);
    let end = match found.refusal {
        Some(refusal) => refused(refusal),
        None => Json::Null,
    };
    Ok(keyed(vec![("entries", Json::List(entries)), ("end", end)]))
}

fn csect_answer(file: &[u8], index: u64) -> Result<Json, Refusal> {
    let found = csect(file, index)?;
    let entry = symbol(file, index).expect("its own read came first");
    Ok(keyed(vec![
        ("symbol", symbol_json(file, &entry)),
        ("length", num(found.length)),
        ("align_log", num(found.alignment)),
        ("type", num(found.kind)),
        ("smclas", num(found.class)),
    ]))
}

fn import_id(file: &[u8], id: u64) -> Result<Json, Refusal> {
    Ok(Json::List(vec![
        name(file, import_path(file, id)?),
        name(file, import_base(file, id)?),
        name(file, import_member(file, id)?),
    ]))
}

fn line_answer(file: &[u8], case: &Json) -> Result<Json, Refusal> {
    let (section, address) = (case.get("section").number(), case.get("address").number());
    let found = find_line(file, section, address)?;
    Ok(keyed(vec![
        ("entry", num(found.entry)),
        ("address", num(found.address)),
        ("line", num(found.line)),
        ("symbol", num(found.symbol)),
    ]))
}

fn plan(json: &Json) -> Plan {
    Plan {
        text: json.get("text").number(),
        data: json.get("data").number(),
        list: json.get("imports").numbers(),
    }
}

/// A build, a move, or a list of them, with the buffers afterwards.
fn image_answer(file: &[u8], case: &Json) -> Json {
    let lent = case.get("buffers");
    let (mut text, mut data) = (lent.get("text").bytes(), lent.get("data").bytes());
    let answer = match case.get("op").text() {
        "module_calls" => calls_answer(file, case.get("calls").list(), &mut text, &mut data),
        op => {
            let result = answer::run_call(file, &call(op, case), &mut text, &mut data);
            given(result.map(reached_json))
        }
    };
    let lent = keyed(vec![("text", hex(&text)), ("data", hex(&data))]);
    keyed(vec![("answer", answer), ("buffers", lent)])
}

fn call(word: &str, json: &Json) -> Call {
    match word {
        "build" => Call::Build(plan(json.get("plan"))),
        "move" => Call::Move(plan(json.get("from")), plan(json.get("to"))),
        other => panic!("call {other}"),
    }
}

/// One answer for each call, with the buffers after it, which are the book's.
fn calls_answer(file: &[u8], list: &[Json], text: &mut [u8], data: &mut [u8]) -> Json {
    let (start_text, start_data) = (text.to_vec(), data.to_vec());
    let mut calls = Vec::new();
    let mut answers = Vec::new();
    for json in list {
        let call = call(json.get("call").text(), json);
        let result = answer::run_call(file, &call, text, data);
        calls.push(call);
        let (book_text, book_data) = book(file, &calls, &start_text, &start_data);
        assert!(book_text == text && book_data == data, "the book differs");
        let reached = given(result.map(reached_json));
        answers.push(Json::List(vec![reached, hex(text), hex(data)]));
    }
    Json::List(answers)
}

/// A build or a move of an object file, or a list of them, with the buffer
/// afterwards.
fn placed_answer(file: &[u8], case: &Json) -> Json {
    let mut buffer = case.get("buffers").get("buffer").bytes();
    let answer = match case.get("op").text() {
        "object_calls" => placed_calls(file, case.get("calls").list(), &mut buffer),
        op => {
            let word = op.trim_start_matches("object_");
            let result = run_object_call(file, &object_call(word, case), &mut buffer);
            given(result.map(|()| Json::Null))
        }
    };
    let lent = keyed(vec![("buffer", hex(&buffer))]);
    keyed(vec![("answer", answer), ("buffers", lent)])
}

fn object_call(word: &str, json: &Json) -> ObjectCall {
    let list = |key| json.get(key).numbers();
    match word {
        "build" => ObjectCall::Build(list("plan")),
        "move" => ObjectCall::Move(list("from"), list("to")),
        other => panic!("call {other}"),
    }
}

/// One answer for each call, with the buffer after it, which is the book's.
fn placed_calls(file: &[u8], list: &[Json], buffer: &mut [u8]) -> Json {
    let start = buffer.to_vec();
    let mut calls = Vec::new();
    let mut answers = Vec::new();
    for json in list {
        let call = object_call(json.get("call").text(), json);
        let result = run_object_call(file, &call, buffer);
        calls.push(call);
        let book = object_book(file, &calls, &start);
        assert!(book == buffer, "the book differs");
        let answer = given(result.map(|()| Json::Null));
        answers.push(Json::List(vec![answer, hex(buffer)]));
    }
    Json::List(answers)
}

/// One answer for each call on a table that starts empty; a fill's with its list
/// afterwards.
fn table_answer(calls: &[Json]) -> Json {
    let mut table = AddressTable::default();
    let one = |json: &Json| {
        let answer = run_table_call(&mut table, &self::file(json), &table_call(json));
        match answer {
            TableAnswer::Done => Json::Null,
            TableAnswer::Address(address) => num(address),
            TableAnswer::Refused(refusal) => refused(refusal),
            TableAnswer::Filled(result, list) => {
                let list = Json::List(list.into_iter().map(num).collect());
                Json::List(vec![given(result.map(|()| Json::Null)), list])
            }
        }
    };
    Json::List(calls.iter().map(one).collect())
}

fn table_call(json: &Json) -> TableCall {
    let bench = json.get("bench").number();
    let row = || RowKey {
        bench,
        file_id: json.get("file_id").number(),
        name: json.get("name").bytes(),
    };
    match json.get("call").text() {
        "add" => TableCall::Add(row(), json.get("address").number()),
        "remove" => TableCall::Remove(row()),
        "lookup" => TableCall::LookUp(row()),
        "fill" => TableCall::Fill {
            bench,
            list: json.get("list").numbers(),
        },
        other => panic!("call {other}"),
    }
}

fn module_written(file: &[u8], case: &Json) -> Json {
    let mut out = case.get("buffers").get("out").bytes();
    let result = write_module(file, &plan(case.get("plan")), &mut out);
    let answer = given(result.map(|()| Json::Null));
    let lent = keyed(vec![("out", hex(&out))]);
    keyed(vec![("answer", answer), ("buffers", lent)])
}

fn salvaged(file: &[u8], case: &Json) -> Json {
    let lent = case.get("buffers");
    let (mut copy, mut report) = (lent.get("copy").bytes(), lent.get("report").bytes());
    let answer = given(salvage(file, &mut copy, &mut report).map(num));
    let lent = keyed(vec![("copy", hex(&copy)), ("report", hex(&report))]);
    keyed(vec![("answer", answer), ("buffers", lent)])
}

fn sheet_read(case: &Json) -> Json {
    let mut list = case.get("list").numbers();
    let result = read_sheet(&case.get("sheet").bytes(), &mut list);
    let bases = |(text, data)| keyed(vec![("text", num(text)), ("data", num(data))]);
    let answer = given(result.map(bases));
    let list = list.into_iter().map(num).collect();
    keyed(vec![("answer", answer), ("list", Json::List(list))])
}

fn sheet_write(case: &Json) -> Json {
    let mut sheet = case.get("buffers").get("sheet").bytes();
    let plan = plan(case.get("plan"));
    let result = write_sheet(plan.text, plan.data, &plan.list, &mut sheet);
    let answer = given(result.map(|()| Json::Null));
    keyed(vec![
        ("answer", answer),
        ("buffers", keyed(vec![("sheet", hex(&sheet))])),
    ])
}

fn srecord_write(file: &[u8], case: &Json) -> Json {
    let lent = case.get("buffers");
    let (text, data) = (lent.get("text").bytes(), lent.get("data").bytes());
    let mut records = lent.get("records").bytes();
    let plan = plan(case.get("plan"));
    let result = write_records(file, &plan, &text, &data, &mut records);
    let answer = given(result.map(|()| Json::Null));
    let lent = keyed(vec![
        ("text", hex(&text)),
        ("data", hex(&data)),
        ("records", hex(&records)),
    ]);
    keyed(vec![("answer", answer), ("buffers", lent)])
}

fn srecord_read(file: &[u8], case: &Json) -> Json {
    let lent = case.get("buffers");
    let (mut text, mut data) = (lent.get("text").bytes(), lent.get("data").bytes());
    let records = case.get("records").bytes();
    let plan = plan(case.get("plan"));
    let result = read_records(file, &plan, &records, &mut text, &mut data);
    let answer = given(result.map(|()| Json::Null));
    let lent = keyed(vec![("text", hex(&text)), ("data", hex(&data))]);
    keyed(vec![("answer", answer), ("buffers", lent)])
}
