//! Every operation on a file that was not made here: with arguments that fit it, and with hostile ones.

use reference::generate::rng::Rng;
use reference::generate::Op;
use reference::{Call, ObjectCall, Plan, RowKey, TableCall};

/// Of tables of more rows than this only the end is looked up one by one: each look-up judges the whole module.
const MANY: u64 = 300;

/// Places from `first` on of a table of `count`, with those around its ends and the largest number; of a large table
/// those at its end only.
fn places(first: u64, count: u64, large: bool) -> Vec<u64> {
    let end = first + count;
    if large || count > MANY {
        return vec![end.saturating_sub(1), end, u64::MAX];
    }
    let around = [0, first.saturating_sub(1), end, end + 1, 1 << 32, u64::MAX];
    (first..end).chain(around).collect()
}

pub fn every(file: &[u8], rng: &mut Rng) -> Vec<Op> {
    let opened = reference::open(file);
    let (sections, symbols) = opened.map_or((0, 0), |o| (o.sections.len() as u64, o.symbols));
    let module = reference::module(file);
    let (loader_symbols, ids) = module
        .as_ref()
        .map_or((0, 0), |m| (m.loader_symbols, m.import_ids));
    let large = module.is_ok_and(|m| m.relocations + m.loader_symbols > MANY);
    let mut ops = vec![
        Op::Open,
        Op::Walk,
        Op::Symbols,
        Op::Module,
        Op::Relocations,
        Op::LoaderSymbols,
        Op::ImportIds,
    ];
    for n in places(1, sections, false) {
        ops.extend([Op::Section(n), Op::SectionName(n)]);
    }
    for i in places(0, symbols, false) {
        ops.extend([Op::Symbol(i), Op::SymbolName(i), Op::Csect(i)]);
    }
    for i in places(3, loader_symbols, large) {
        ops.extend([Op::LoaderSymbol(i), Op::LoaderSymbolName(i)]);
    }
    for n in places(0, ids, large) {
        ops.extend([Op::ImportPath(n), Op::ImportBase(n), Op::ImportMember(n)]);
    }
    ops.extend(images(file, rng));
    ops.extend(objects(file, rng));
    ops.extend(lines(file));
    ops.push(table(file, rng));
    ops.extend(salvages(file, rng));
    ops
}

/// A copy with a report of any length, one that just fits, one that is too short, and a copy of another length.
fn salvages(file: &[u8], rng: &mut Rng) -> [Op; 4] {
    let fits = 8 * reference::mends(file).map_or(0, |mends| mends.len());
    let mut salvage = |copy: usize, report: usize| Op::Salvage {
        copy: rng.bytes(copy),
        report: rng.bytes(report),
    };
    [
        salvage(file.len(), fits + 50),
        salvage(file.len(), fits),
        salvage(file.len(), fits.saturating_sub(1)),
        salvage(file.len() + 1, fits),
    ]
}

/// Rows for a part of the module's imports, by turns of the two benches, and fills of both.
fn table(file: &[u8], rng: &mut Rng) -> Op {
    let symbols = reference::loader_symbols(file).unwrap_or_default();
    let mut calls = Vec::new();
    for (i, symbol) in symbols.iter().take(MANY as usize).enumerate() {
        let row = RowKey {
            bench: 1 + i as u64 % 2,
            file_id: symbol.file_id,
            name: file[symbol.name.clone()].to_vec(),
        };
        match i % 5 {
            0 => calls.push(TableCall::LookUp(row)),
            1 => calls.extend([TableCall::Add(row.clone(), 1), TableCall::Remove(row)]),
            _ => calls.push(TableCall::Add(row, rng.next())),
        }
    }
    for bench in [1, 2, 3] {
        let list = vec![7; symbols.len()];
        calls.push(TableCall::Fill { bench, list });
    }
    Op::Table(calls)
}

/// Lines of every section, at its ends and around them, and of sections that are not there.
fn lines(file: &[u8]) -> Vec<Op> {
    let sections = reference::open(file).map_or(Vec::new(), |o| o.sections);
    let ends = |n: u64| {
        let place = usize::try_from(n).ok().and_then(|n| n.checked_sub(1));
        let section = place.and_then(|i| sections.get(i));
        let (start, size) = section.map_or((0, 0), |s| (s.paddr, s.size));
        let end = start.wrapping_add(size);
        [
            start,
            start.wrapping_sub(1),
            start.wrapping_add(size / 2),
            end,
            u64::MAX,
        ]
    };
    let numbers = places(1, sections.len() as u64, false).into_iter();
    numbers
        .flat_map(|section| ends(section).map(|address| Op::FindLine { section, address }))
        .collect()
}

/// The file as an object file: built, and moved along a chain, for addresses near the recorded ones, so that branches stay
/// in range, and for others.
fn objects(file: &[u8], rng: &mut Rng) -> Vec<Op> {
    let sections = reference::open(file).map_or(Vec::new(), |o| o.sections);
    let length = reference::object(file).map_or(8, |o| o.length as usize);
    let recorded: Vec<u64> = sections.iter().map(|s| s.paddr).collect();
    let near = recorded.iter().map(|a| a.saturating_add(0x40)).collect();
    let far: Vec<u64> = recorded.iter().map(|_| rng.below(1 << 31)).collect();
    let [p, q, r] = [recorded, near, far];
    let buffer = rng.bytes(length);
    let calls = vec![
        ObjectCall::Move(q.clone(), p.clone()),
        ObjectCall::Build(p.clone()),
        ObjectCall::Move(p.clone(), q.clone()),
        ObjectCall::Move(q.clone(), r.clone()),
        ObjectCall::Move(q, p.clone()),
    ];
    vec![
        Op::Object,
        Op::ObjectBuild {
            list: r.clone(),
            buffer: buffer.clone(),
        },
        Op::ObjectMove {
            from: p,
            to: r,
            buffer: buffer.clone(),
        },
        Op::ObjectCalls { calls, buffer },
    ]
}

/// A build, a move, a list with refused calls, the sheet of a plan, and S-records and files of two.
fn images(file: &[u8], rng: &mut Rng) -> Vec<Op> {
    let (sizes, [p, q, r]) = plans(file, rng);
    let (text, data) = (rng.bytes(sizes.0), rng.bytes(sizes.1));
    let mut longer = data.clone();
    longer.push(0);
    let list = |calls| Op::Calls {
        calls,
        text: text.clone(),
        data: data.clone(),
    };
    let mut ops = vec![
        Op::Build {
            plan: p.clone(),
            text: text.clone(),
            data: data.clone(),
        },
        Op::Build {
            plan: q.clone(),
            text: text.clone(),
            data: longer,
        },
        Op::Move {
            from: p.clone(),
            to: q.clone(),
            text: text.clone(),
            data: data.clone(),
        },
        list(with_refused_calls(&p, &q, &r)),
        list(vec![
            Call::Build(p.clone()),
            Call::Move(p.clone(), q.clone()),
            Call::Move(q.clone(), r),
        ]),
    ];
    ops.extend(sheets(&p, rng));
    ops.extend(
        [&p, &q]
            .into_iter()
            .flat_map(|plan| records(file, plan, &text, &data)),
    );
    ops.extend([p, q].map(|plan| Op::WriteModule {
        plan,
        out: rng.bytes(file.len()),
    }));
    ops
}

/// Refused are a plan whose list is too long and one past the end of memory.
fn with_refused_calls(p: &Plan, q: &Plan, r: &Plan) -> Vec<Call> {
    let mut long = q.clone();
    long.list.push(0);
    let past = Plan {
        text: u64::MAX,
        ..r.clone()
    };
    vec![
        Call::Move(q.clone(), r.clone()),
        Call::Build(p.clone()),
        Call::Build(long),
        Call::Move(p.clone(), q.clone()),
        Call::Move(q.clone(), past),
        Call::Move(q.clone(), r.clone()),
        Call::Move(p.clone(), p.clone()),
    ]
}

/// The sheet of a plan, written and read back, and its old form read, which more than 4,096 addresses do not have.
fn sheets(plan: &Plan, rng: &mut Rng) -> [Op; 3] {
    let length = reference::Form::New.length(plan.list.len() as u64);
    let sheet = rng.bytes(length as usize);
    let mut written = sheet.clone();
    let _ = reference::write_sheet(plan.text, plan.data, &plan.list, &mut written);
    // Without the high half of each count.
    let old = [&written[2..20], &written[22..]].concat();
    [
        Op::WriteSheet {
            text: plan.text,
            data: plan.data,
            list: plan.list.clone(),
            sheet,
        },
        Op::ReadSheet {
            sheet: written,
            list: vec![0; plan.list.len()],
        },
        Op::ReadSheet {
            sheet: old,
            list: vec![0; plan.list.len()],
        },
    ]
}

/// The images' length in records, written, read back, and with one byte too few.
fn records(file: &[u8], plan: &Plan, text: &[u8], data: &[u8]) -> [Op; 4] {
    let length = reference::records_length(file, plan).unwrap_or(15) as usize;
    let room = vec![0x77; length];
    let mut written = room.clone();
    let _ = reference::write_records(file, plan, text, data, &mut written);
    let read = |records: &[u8]| Op::ReadRecords {
        plan: plan.clone(),
        records: records.to_vec(),
        text: vec![0x55; text.len()],
        data: vec![0x55; data.len()],
    };
    [
        Op::RecordsLength(plan.clone()),
        read(&written),
        read(&written[..length - 1]),
        Op::WriteRecords {
            plan: plan.clone(),
            text: text.to_vec(),
            data: data.to_vec(),
            records: room,
        },
    ]
}

/// The lengths of the images and three plans that fit: as recorded, and two with addresses of their own.
fn plans(file: &[u8], rng: &mut Rng) -> ((usize, usize), [Plan; 3]) {
    let Ok(m) = reference::module(file) else {
        return (
            (8, 8),
            [0, 1, 2].map(|text| Plan {
                text,
                data: 0,
                list: Vec::new(),
            }),
        );
    };
    let symbols = reference::loader_symbols(file).unwrap_or_default();
    let recorded = symbols.iter().map(|s| s.value).collect();
    let mut any = || Plan {
        text: rng.below(1 << 31),
        data: rng.below(1 << 31),
        list: symbols.iter().map(|_| rng.below(1 << 32)).collect(),
    };
    let others = [any(), any()];
    let [q, r] = others;
    let p = Plan {
        text: m.text_address,
        data: m.data_address,
        list: recorded,
    };
    ((m.text_size as usize, m.data_image as usize), [p, q, r])
}
