//! The address table: after each call of a list the answer, the filled list, and both benches' rows are the other
//! implementation's, whose table is a plain map; a refused call leaves the library's memory as it was. The whole list by one
//! `replay` answers and leaves the same.

use crate::compare::{answers, same, Agreed, Agreement, Difference};
use crate::lent::Lent;
use reference::{run_table_call, AddressTable, Refusal, RowKey, TableAnswer, TableCall};

/// File id, name and address.
type Row = (u64, Vec<u8>, u64);

pub fn calls(file: &[u8], calls: &[TableCall]) -> Agreement {
    let mut ours = xcoff::AddressTable::new();
    let mut theirs = AddressTable::default();
    let mut agreed = Agreed::default();
    for (n, call) in calls.iter().enumerate() {
        let before = ours.clone();
        let answer = run_table_call(&mut theirs, file, call);
        let refused = run(&mut ours, file, call, answer, &format!("call {n}"))?;
        let reads = matches!(call, TableCall::LookUp(_) | TableCall::Fill { .. });
        if refused.is_some() || reads {
            let as_before = ours == before;
            same(
                &format!("table as before after call {n}"),
                &as_before,
                &true,
            )?;
        }
        agreed.refusals.extend(refused);
        // Rows cost more than most calls: of a long list they are compared now and then, and at its end.
        if n < 40 || n % 16 == 0 || n + 1 == calls.len() {
            rows(&ours, &theirs, &format!("after call {n}"))?;
        }
    }
    kept(&ours)?;
    replayed(file, calls, &ours)?;
    Ok(agreed)
}

/// The list by one call of the library, and of a short list each list that begins it: the counts, the last answer, the rows and the
/// one list that all its fills write are the other implementation's, and the memory is that of the calls one by one.
fn replayed(
    file: &[u8],
    calls: &[TableCall],
    one_by_one: &xcoff::AddressTable,
) -> Result<(), Difference> {
    let fills = calls.iter().find_map(|call| match call {
        TableCall::Fill { list, .. } => Some(list.clone()),
        _ => None,
    });
    let before = fills.unwrap_or_default();
    let mut theirs = AddressTable::default();
    let mut list = before.clone();
    let mut accepted = 0;
    for (n, call) in calls.iter().enumerate() {
        let last = run_on(&mut theirs, file, call, &mut list);
        accepted += u64::from(last.is_ok());
        if n >= 12 && n + 1 < calls.len() {
            continue;
        }
        let mut ours = xcoff::AddressTable::new();
        let mut lent = Lent::new(&before, 0x5A5A_5A5A);
        let own: Vec<xcoff::TableCall> = calls[..=n].iter().map(our_call).collect();
        let all = ours.replay(&own, file, lent.slice());
        let part = format!("replay of {} table calls", n + 1);
        let counts = (all.calls, all.accepted);
        same(
            &format!("counts of a {part}"),
            &counts,
            &(n as u64 + 1, accepted),
        )?;
        answers(&format!("last answer of a {part}"), all.last, last)?;
        lent.holds(&format!("list after a {part}"), &list)?;
        rows(&ours, &theirs, &format!("after a {part}"))?;
        if n + 1 == calls.len() {
            same(
                &format!("memory after a {part}"),
                &(ours == *one_by_one),
                &true,
            )?;
        }
    }
    Ok(())
}

/// One call of the other implementation, whose fills all write one list.
fn run_on(
    table: &mut AddressTable,
    file: &[u8],
    call: &TableCall,
    list: &mut Vec<u64>,
) -> Result<u64, Refusal> {
    let mut call = call.clone();
    if let TableCall::Fill { list: own, .. } = &mut call {
        own.clone_from(list);
    }
    match run_table_call(table, file, &call) {
        TableAnswer::Done => Ok(0),
        TableAnswer::Address(address) => Ok(address),
        TableAnswer::Refused(refusal) => Err(refusal),
        TableAnswer::Filled(result, filled) => {
            *list = filled;
            result.map(|()| 0)
        }
    }
}

fn our_call(call: &TableCall) -> xcoff::TableCall<'_> {
    fn name(row: &RowKey) -> xcoff::RowName<'_> {
        xcoff::RowName {
            bench: row.bench,
            file_id: row.file_id,
            name: &row.name,
        }
    }
    match call {
        TableCall::Add(row, address) => xcoff::TableCall::Add(name(row), *address),
        TableCall::Remove(row) => xcoff::TableCall::Remove(name(row)),
        TableCall::LookUp(row) => xcoff::TableCall::Find(name(row)),
        TableCall::Fill { bench, .. } => xcoff::TableCall::Fill(*bench),
    }
}

/// One call of both; gives its refusal.
fn run(
    ours: &mut xcoff::AddressTable,
    file: &[u8],
    call: &TableCall,
    answer: TableAnswer,
    part: &str,
) -> Result<Option<Refusal>, Difference> {
    let key = |row: &RowKey| (row.bench, row.file_id, row.name.clone());
    let theirs = match &answer {
        TableAnswer::Done => Ok(None),
        TableAnswer::Address(address) => Ok(Some(*address)),
        TableAnswer::Refused(refusal) => Err(*refusal),
        TableAnswer::Filled(result, _) => result.map(|()| None),
    };
    let given = match call {
        TableCall::Add(row, address) => {
            let (bench, id, name) = key(row);
            ours.add(bench, id, &name, *address).map(|()| None)
        }
        TableCall::Remove(row) => {
            let (bench, id, name) = key(row);
            ours.remove(bench, id, &name).map(|()| None)
        }
        TableCall::LookUp(row) => {
            let (bench, id, name) = key(row);
            ours.find(bench, id, &name).map(Some)
        }
        TableCall::Fill { bench, list } => {
            let mut lent = Lent::new(list, 0xA5A5_A5A5);
            let given = ours.fill(*bench, file, lent.slice());
            if let TableAnswer::Filled(_, filled) = &answer {
                lent.holds(&format!("list of {part}"), filled)?;
            }
            given.map(|()| None)
        }
    };
    answers(&format!("answer of {part}"), given, theirs)
}

/// Both benches' rows, in the order of file id and name; there are no others.
fn rows(ours: &xcoff::AddressTable, theirs: &AddressTable, when: &str) -> Result<(), Difference> {
    let mut taken = 0;
    for bench in [1, 2] {
        let own = |row: xcoff::TableRow| (row.file_id, row.name, row.address);
        let listed = ours.rows(bench).map_err(|r| r.number);
        let listed = listed.map(|rows| rows.into_iter().map(own).collect::<Vec<Row>>());
        let expected: Vec<Row> = theirs
            .rows_of(bench)
            .into_iter()
            .map(|(key, address)| (key.file_id, key.name.clone(), address))
            .collect();
        taken += expected.len();
        same(
            &format!("rows of bench {bench} {when}"),
            &listed,
            &Ok(expected),
        )?;
    }
    same("rows in all", &taken, &theirs.taken())?;
    for bench in [0, 3, u64::MAX] {
        let refused = ours.rows(bench).map(|rows| rows.len());
        let refused = refused.map_err(|r| (r.number, r.item, r.offset));
        same(
            "rows of no bench",
            &refused,
            &Err((reference::INDEX, bench, 0)),
        )?;
    }
    Ok(())
}

/// As bytes and back it is the same table.
fn kept(ours: &xcoff::AddressTable) -> Result<(), Difference> {
    let again = xcoff::AddressTable::from_bytes(&ours.to_bytes());
    same(
        "table kept as bytes",
        &(again.as_ref() == Some(ours)),
        &true,
    )
}
