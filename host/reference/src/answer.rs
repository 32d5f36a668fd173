//! Runs one operation and writes its answer down as a line of plain text, so
//! that answers of different implementations can be compared.

use crate::generate::Op;
use crate::*;
use std::ops::Range;

/// The answer of one operation.
#[derive(Clone, Debug, PartialEq, Eq)]
pub struct Answer {
    /// The whole answer with the buffers afterwards.
    pub text: String,
    /// Every refusal in it; for a list one per refused call.
    pub refusals: Vec<Refusal>,
}

/// Bytes as hex; long ones by length and a sum.
pub fn hex(bytes: &[u8]) -> String {
    if bytes.len() > 4_096 {
        let mut sum: u64 = 0xCBF2_9CE4_8422_2325;
        for &byte in bytes {
            sum = (sum ^ u64::from(byte)).wrapping_mul(0x0000_0100_0000_01B3);
        }
        return format!("long:{}:{sum:016x}", bytes.len());
    }
    let mut text = String::new();
    for byte in bytes {
        text += &format!("{byte:02x}");
    }
    text
}

fn list_text(list: &[u64]) -> String {
    let all: Vec<String> = list.iter().map(|address| format!("{address:x}")).collect();
    hex_or_sum(&all.join(","))
}

fn hex_or_sum(text: &str) -> String {
    if text.len() > 4_096 {
        return hex(text.as_bytes());
    }
    text.to_string()
}

fn plan_text(plan: &Plan) -> String {
    format!("{:x},{:x},{}", plan.text, plan.data, bracketed(&plan.list))
}

fn bracketed(list: &[u64]) -> String {
    format!("[{}]", list_text(list))
}

/// The arguments of an operation: addresses in hex, indexes in decimal, a plan as
/// TEXT,DATA,[LIST].
pub fn arguments(op: &Op) -> String {
    match op {
        Op::Section(n)
        | Op::SectionName(n)
        | Op::Symbol(n)
        | Op::SymbolName(n)
        | Op::Csect(n)
        | Op::LoaderSymbol(n)
        | Op::LoaderSymbolName(n)
        | Op::ImportPath(n)
        | Op::ImportBase(n)
        | Op::ImportMember(n) => n.to_string(),
        Op::Build { plan, text, data } => {
            format!("{} {}", plan_text(plan), lent_text(text, data))
        }
        Op::Move {
            from,
            to,
            text,
            data,
        } => format!("{} {}", move_text(from, to), lent_text(text, data)),
        Op::Calls { calls, text, data } => {
            let all: Vec<String> = calls.iter().map(call_text).collect();
            format!("{} {}", lent_text(text, data), all.join(" / "))
        }
        Op::ReadSheet { sheet, list } => format!("{} {}", hex(sheet), bracketed(list)),
        Op::WriteSheet {
            text,
            data,
            list,
            sheet,
        } => {
            format!("{text:x},{data:x},{} {}", bracketed(list), hex(sheet))
        }
        Op::ObjectBuild { .. } | Op::ObjectMove { .. } | Op::ObjectCalls { .. } => {
            object_arguments(op)
        }
        Op::FindLine { section, address } => format!("{section} {address:x}"),
        Op::WriteModule { plan, out } => format!("{} {}", plan_text(plan), hex(out)),
        Op::Salvage { copy, report } => format!("copy={} report={}", hex(copy), hex(report)),
        Op::Table(calls) => {
            let all: Vec<String> = calls.iter().map(table_call_text).collect();
            all.join(" / ")
        }
        _ => record_arguments(op),
    }
}

fn object_arguments(op: &Op) -> String {
    let (calls, buffer) = match object_calls(op) {
        Some(found) => found,
        None => return String::new(),
    };
    let one = |call: &ObjectCall| match call {
        ObjectCall::Build(list) => format!("build {}", bracketed(list)),
        ObjectCall::Move(from, to) => format!("move {} {}", bracketed(from), bracketed(to)),
    };
    let all: Vec<String> = calls.iter().map(one).collect();
    format!("buffer={} {}", hex(buffer), all.join(" / "))
}

/// The calls of an operation on an object's buffer, and what it holds before them.
pub fn object_calls(op: &Op) -> Option<(Vec<ObjectCall>, &Vec<u8>)> {
    match op {
        Op::ObjectBuild { list, buffer } => Some((vec![ObjectCall::Build(list.clone())], buffer)),
        Op::ObjectMove { from, to, buffer } => {
            Some((vec![ObjectCall::Move(from.clone(), to.clone())], buffer))
        }
        Op::ObjectCalls { calls, buffer } => Some((calls.clone(), buffer)),
        _ => None,
    }
}

fn table_call_text(call: &TableCall) -> String {
    let key = |row: &RowKey| format!("{} {} {}", row.bench, row.file_id, hex(&row.name));
    match call {
        TableCall::Add(row, address) => format!("add {} {address:x}", key(row)),
        TableCall::Remove(row) => format!("remove {}", key(row)),
        TableCall::LookUp(row) => format!("look_up {}", key(row)),
        TableCall::Fill { bench, list } => format!("fill {bench} {}", bracketed(list)),
    }
}

fn record_arguments(op: &Op) -> String {
    match op {
        Op::RecordsLength(plan) => plan_text(plan),
        Op::WriteRecords {
            plan,
            text,
            data,
            records,
        }
        | Op::ReadRecords {
            plan,
            records,
            text,
            data,
        } => format!(
            "{} {} records={}",
            plan_text(plan),
            lent_text(text, data),
            hex(records)
        ),
        _ => String::new(),
    }
}

/// The lent buffers as they are before the call.
fn lent_text(text: &[u8], data: &[u8]) -> String {
    format!("text={} data={}", hex(text), hex(data))
}

fn move_text(from: &Plan, to: &Plan) -> String {
    format!("{} {}", plan_text(from), plan_text(to))
}

fn call_text(call: &Call) -> String {
    match call {
        Call::Build(plan) => format!("build {}", plan_text(plan)),
        Call::Move(from, to) => format!("move {}", move_text(from, to)),
    }
}

fn refusal_text(refusal: &Refusal) -> String {
    format!(
        "refused {} {} {}",
        refusal.number, refusal.item, refusal.offset
    )
}

fn section_text(section: &Section) -> String {
    let raw = match &section.raw {
        Some(range) => format!("{}+{}", range.start, range.len()),
        None => "none".to_string(),
    };
    format!(
        "{:x} {:x} {} {} {:x} {raw} relocations {}+{} lines {}+{}",
        section.paddr,
        section.vaddr,
        section.size,
        section.scnptr,
        section.flags,
        section.relptr,
        section.nreloc,
        section.lnnoptr,
        section.nlnno
    )
}

fn reached_text(reached: &Reached) -> String {
    let one = |address: Option<u64>| match address {
        Some(address) => format!("{address:x}"),
        None => "none".to_string(),
    };
    format!("entry {} toc {}", one(reached.entry), one(reached.toc))
}

fn answer(result: Result<String, Refusal>, buffers: &str) -> Answer {
    match result {
        Ok(text) => Answer {
            text: format!("{text}{buffers}"),
            refusals: Vec::new(),
        },
        Err(refusal) => Answer {
            text: format!("{}{buffers}", refusal_text(&refusal)),
            refusals: vec![refusal],
        },
    }
}

/// Names by their bytes: where an empty one lies isn't fixed.
fn name(file: &[u8], range: Result<Range<usize>, Refusal>) -> Answer {
    answer(range.map(|range| format!("name {}", hex(&file[range]))), "")
}

fn images_text(text: &[u8], data: &[u8]) -> String {
    format!(" | {} | {}", hex(text), hex(data))
}

fn entry_text(file: &[u8], entry: &Symbol) -> String {
    let visibility = match entry.visibility {
        Some(number) => number.to_string(),
        None => "none".to_string(),
    };
    format!(
        "value {:x} section {} type {:x} class {} aux {} name {} visibility {visibility}",
        entry.value,
        entry.section,
        entry.kind,
        entry.class,
        entry.auxiliaries,
        hex(&file[entry.name.clone()])
    )
}

fn loader_symbol_text(file: &[u8], entry: &LoaderSymbol) -> String {
    format!(
        "value {:x} section {} type {:x} class {} id {} parameter {} name {}",
        entry.value,
        entry.section,
        entry.kind,
        entry.class,
        entry.file_id,
        entry.parameter,
        hex(&file[entry.name.clone()])
    )
}

fn relocation_text(entry: &Relocation) -> String {
    format!(
        "{:x} {} {:04x} {} {}{}",
        entry.address,
        entry.symbol,
        entry.kind,
        entry.section,
        if entry.subtract { "-" } else { "+" },
        entry.width
    )
}

fn module_text(m: &Module) -> String {
    format!(
        "bits {} numbers {} {} {} {} addresses {:x} {:x} {:x} sizes {} {} {} image {} \
         symbols {} relocations {} ids {} entry {} {:x} toc {} {:x}",
        m.bits,
        m.text,
        m.data,
        m.bss,
        m.loader,
        m.text_address,
        m.data_address,
        m.bss_address,
        m.text_size,
        m.data_size,
        m.bss_size,
        m.data_image,
        m.loader_symbols,
        m.relocations,
        m.import_ids,
        m.entry_section,
        m.entry_address,
        m.toc_section,
        m.toc_address
    )
}

/// Rows of a table, one after the other.
fn rows<T>(all: Result<Vec<T>, Refusal>, row: impl Fn(&T) -> String) -> Answer {
    let text = |all: Vec<T>| hex_or_sum(&all.iter().map(row).collect::<Vec<_>>().join("; "));
    answer(all.map(text), "")
}

/// Runs `op` on `file`.
pub fn run(file: &[u8], op: &Op) -> Answer {
    match op {
        Op::Open => answer(open(file).map(|summary| summary_text(&summary)), ""),
        Op::Section(n) => answer(section(file, *n).map(|section| section_text(&section)), ""),
        Op::SectionName(n) => name(file, section_name(file, *n)),
        Op::Symbol(index) => answer(
            symbol(file, *index).map(|entry| entry_text(file, &entry)),
            "",
        ),
        Op::SymbolName(index) => name(file, symbol_name(file, *index)),
        Op::Walk => walk_answer(file),
        Op::Csect(index) => answer(csect(file, *index).map(|found| csect_text(&found)), ""),
        Op::Symbols => rows(walked(file), |entry| entry_text(file, entry)),
        Op::Build { .. } | Op::Move { .. } | Op::Calls { .. } => image_answer(file, op),
        Op::ReadSheet { .. } | Op::WriteSheet { .. } => sheet_answer(op),
        Op::RecordsLength(_) | Op::WriteRecords { .. } | Op::ReadRecords { .. } => {
            records_answer(file, op)
        }
        Op::Object => answer(object(file).map(|found| object_text(&found)), ""),
        Op::ObjectBuild { .. } | Op::ObjectMove { .. } | Op::ObjectCalls { .. } => {
            placed_answer(file, op)
        }
        Op::FindLine { section, address } => answer(
            find_line(file, *section, *address).map(|found| line_text(&found)),
            "",
        ),
        Op::Table(calls) => table_answer(file, calls),
        Op::Salvage { copy, report } => {
            let (mut copy, mut report) = (copy.clone(), report.clone());
            let result = salvage(file, &mut copy, &mut report);
            answer(
                result.map(|count| format!("{count} changes")),
                &images_text(&copy, &report),
            )
        }
        Op::WriteModule { plan, out } => {
            let mut out = out.clone();
            let result = write_module(file, plan, &mut out);
            answer(
                result.map(|()| "written".to_string()),
                &format!(" | {}", hex(&out)),
            )
        }
        Op::List => {
            let text = list_headers(file);
            Answer {
                text: text.replace('\n', "\\n"),
                refusals: Vec::new(),
            }
        }
        _ => loaded_answer(file, op),
    }
}

/// What is read of a module.
fn loaded_answer(file: &[u8], op: &Op) -> Answer {
    match op {
        Op::Relocations => rows(relocations(file), relocation_text),
        Op::LoaderSymbols => rows(loader_symbols(file), |entry| {
            loader_symbol_text(file, entry)
        }),
        Op::ImportIds => rows(import_ids(file), |id| {
            id.iter()
                .map(|part| hex(&file[part.clone()]))
                .collect::<Vec<_>>()
                .join(" ")
        }),
        Op::LoaderSymbol(index) => answer(
            loader_symbol(file, *index).map(|entry| loader_symbol_text(file, &entry)),
            "",
        ),
        Op::LoaderSymbolName(index) => name(file, loader_symbol_name(file, *index)),
        Op::ImportPath(id) => name(file, import_path(file, *id)),
        Op::ImportBase(id) => name(file, import_base(file, *id)),
        Op::ImportMember(id) => name(file, import_member(file, *id)),
        _ => answer(module(file).map(|m| module_text(&m)), ""),
    }
}

fn summary_text(summary: &Summary) -> String {
    let sections: Vec<String> = summary.sections.iter().map(section_text).collect();
    format!(
        "bits {} symbols {} opthdr {} flags {:x} sections [{}]",
        summary.bits,
        summary.symbols,
        summary.opthdr,
        summary.flags,
        sections.join("; ")
    )
}

fn csect_text(found: &Csect) -> String {
    format!(
        "length {:x} alignment {} type {} class {}",
        found.length, found.alignment, found.kind, found.class
    )
}

fn walk_answer(file: &[u8]) -> Answer {
    let found = match walk(file) {
        Ok(found) => found,
        Err(refusal) => return answer(Err(refusal), ""),
    };
    let end = match found.refusal {
        Some(refusal) => refusal_text(&refusal),
        None => "whole".to_string(),
    };
    Answer {
        text: format!("visited {} end {} {end}", found.visited, found.end),
        refusals: found.refusal.into_iter().collect(),
    }
}

/// Runs one call on the buffers.
pub fn run_call(
    file: &[u8],
    call: &Call,
    text: &mut [u8],
    data: &mut [u8],
) -> Result<Reached, Refusal> {
    match call {
        Call::Build(plan) => build(file, plan, text, data),
        Call::Move(from, to) => move_images(file, from, to, text, data),
    }
}

/// A list answers for each call, with the buffers after it.
fn image_answer(file: &[u8], op: &Op) -> Answer {
    let (calls, text, data) = match op {
        Op::Build { plan, text, data } => (vec![Call::Build(plan.clone())], text, data),
        Op::Move {
            from,
            to,
            text,
            data,
        } => (vec![Call::Move(from.clone(), to.clone())], text, data),
        Op::Calls { calls, text, data } => (calls.clone(), text, data),
        _ => unreachable!("builds, moves and lists only"),
    };
    let (mut text, mut data) = (text.clone(), data.clone());
    let mut parts = Vec::new();
    let mut refusals = Vec::new();
    for call in &calls {
        let result = run_call(file, call, &mut text, &mut data);
        let one = answer(
            result.map(|reached| reached_text(&reached)),
            &images_text(&text, &data),
        );
        parts.push(one.text);
        refusals.extend(one.refusals);
    }
    Answer {
        text: parts.join(" / "),
        refusals,
    }
}

fn object_text(object: &Object) -> String {
    let placed = object.placed.iter();
    let starts: Vec<String> = placed
        .map(|p| format!("{}@{}", p.number, p.start))
        .collect();
    let entries: Vec<String> = object.entries.iter().map(object_entry_text).collect();
    hex_or_sum(&format!(
        "bits {} sections {} length {} entries {}",
        object.summary.bits,
        starts.join(" "),
        object.length,
        entries.join("; ")
    ))
}

fn object_entry_text(entry: &ObjectEntry) -> String {
    format!(
        "{:x} {} {:02x}{:02x} {:?} {} section {} with {} at {}",
        entry.address,
        entry.symbol,
        entry.size,
        entry.kind,
        entry.change,
        entry.width,
        entry.section,
        entry.moves_with,
        entry.place
    )
}

/// A list answers for each call, with the buffer after it.
fn placed_answer(file: &[u8], op: &Op) -> Answer {
    let (calls, buffer) = object_calls(op).expect("calls on an object's buffer");
    let mut buffer = buffer.clone();
    let mut parts = Vec::new();
    let mut refusals = Vec::new();
    for call in &calls {
        let result = run_object_call(file, call, &mut buffer);
        let one = answer(
            result.map(|()| "placed".to_string()),
            &format!(" | {}", hex(&buffer)),
        );
        parts.push(one.text);
        refusals.extend(one.refusals);
    }
    Answer {
        text: parts.join(" / "),
        refusals,
    }
}

/// One answer for each call on a table that starts empty.
fn table_answer(file: &[u8], calls: &[TableCall]) -> Answer {
    let mut table = AddressTable::default();
    let mut parts = Vec::new();
    let mut refusals = Vec::new();
    for call in calls {
        let found = run_table_call(&mut table, file, call);
        refusals.extend(found.refusal());
        parts.push(match found {
            TableAnswer::Done => "done".to_string(),
            TableAnswer::Address(address) => format!("address {address:x}"),
            TableAnswer::Refused(refusal) => refusal_text(&refusal),
            TableAnswer::Filled(result, list) => {
                let word = result.map_or_else(|r| refusal_text(&r), |()| "filled".to_string());
                format!("{word} | {}", list_text(&list))
            }
        });
    }
    Answer {
        text: parts.join(" / "),
        refusals,
    }
}

fn line_text(found: &FoundLine) -> String {
    format!(
        "entry {} address {:x} line {} symbol {}",
        found.entry, found.address, found.line, found.symbol
    )
}

fn sheet_answer(op: &Op) -> Answer {
    match op {
        Op::ReadSheet { sheet, list } => {
            let mut list = list.clone();
            let result = read_sheet(sheet, &mut list);
            answer(
                result.map(|(text, data)| format!("text {text:x} data {data:x}")),
                &format!(" | {}", list_text(&list)),
            )
        }
        Op::WriteSheet {
            text,
            data,
            list,
            sheet,
        } => {
            let mut sheet = sheet.clone();
            let result = write_sheet(*text, *data, list, &mut sheet);
            answer(
                result.map(|()| "written".to_string()),
                &format!(" | {}", hex(&sheet)),
            )
        }
        _ => unreachable!("sheets only"),
    }
}

fn records_answer(file: &[u8], op: &Op) -> Answer {
    match op {
        Op::RecordsLength(plan) => {
            let length = records_length(file, plan);
            answer(length.map(|length| format!("length {length}")), "")
        }
        Op::WriteRecords {
            plan,
            text,
            data,
            records,
        } => {
            let mut records = records.clone();
            let result = write_records(file, plan, text, data, &mut records);
            answer(
                result.map(|()| "written".to_string()),
                &format!(" | {}", hex(&records)),
            )
        }
        Op::ReadRecords {
            plan,
            records,
            text,
            data,
        } => {
            let (mut text, mut data) = (text.clone(), data.clone());
            let result = read_records(file, plan, records, &mut text, &mut data);
            answer(
                result.map(|()| "read".to_string()),
                &images_text(&text, &data),
            )
        }
        _ => unreachable!("records only"),
    }
}
