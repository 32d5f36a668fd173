//! Object files: their tables and entries, and builds, moves and lists of them on the one buffer.

use crate::compare::{answers, same, whole, Agreed, Agreement, Difference};
use crate::lent::Lent;
use reference::answer::object_calls;
use reference::generate::Op;
use reference::{object_book, run_object_call, Object, ObjectCall, Refusal, INDEX};

/// Buffers of more bytes than this are compared with the book after the last call only.
const LARGE: usize = 200_000;

/// A section's place and size in the buffer, file offset of its table, entries and first entry.
type SectionRow = (u64, u64, u64, u64, u64);
/// Address, symbol, size, type, width and place of an entry.
type EntryRow = (u64, u64, u64, u64, u64, u64);

/// The tables and entries, listed whole and section by section.
pub fn read(file: &[u8]) -> Agreement {
    let theirs = reference::object(file);
    let numbers = |o: &Object| {
        let sections = o.summary.sections.len() as u64;
        (sections, o.entries.len() as u64, o.length)
    };
    let agreed = whole(
        xcoff::object(file).map(|o| (o.sections, o.entries, o.length)),
        theirs.as_ref().map(numbers).map_err(|&r| r),
    )?;
    let ours = xcoff::object_sections(file).map(|all| {
        let row = |s: &xcoff::ObjectSection| (s.place, s.size, s.table, s.entries, s.first);
        all.iter().map(row).collect::<Vec<SectionRow>>()
    });
    let rows = theirs.as_ref().map(section_rows).map_err(|&r| r);
    answers("sections of the object", ours, rows)?;
    let count = theirs.as_ref().map_or(0, |o| o.summary.sections.len());
    for n in (0..=count as u64 + 1).chain([1 << 32, u64::MAX]) {
        entries(file, n, &theirs)?;
    }
    Ok(agreed)
}

/// Of a section that is neither text nor data all but its place and its first entry is 0: both are where the next one's are.
fn section_rows(o: &Object) -> Vec<SectionRow> {
    let (mut place, mut first) = (0, 0);
    let row = |(n, section): (u64, &reference::Section)| {
        let own = o.placed.iter().find(|placed| placed.number == n);
        let entries = o.entries.iter().filter(|e| e.section == n).count() as u64;
        let row = match own {
            Some(placed) => (placed.start, section.size, section.relptr, entries, first),
            None => (place, 0, 0, 0, first),
        };
        (place, first) = (row.0 + row.1, row.4 + row.3);
        row
    };
    (1..).zip(&o.summary.sections).map(row).collect()
}

fn entries(file: &[u8], n: u64, theirs: &Result<Object, Refusal>) -> Result<(), Difference> {
    let theirs = match theirs {
        Err(refusal) => Err(*refusal),
        Ok(o) if o.placed.iter().any(|placed| placed.number == n) => {
            let own = o.entries.iter().filter(|entry| entry.section == n);
            let row = |e: &reference::ObjectEntry| {
                (e.address, e.symbol, e.size, e.kind, e.width, e.place as u64)
            };
            Ok(own.map(row).collect::<Vec<EntryRow>>())
        }
        Ok(_) => Err(Refusal {
            number: INDEX,
            item: n,
            offset: 0,
        }),
    };
    let ours = xcoff::object_entries(file, n).map(|all| {
        let row = |e: xcoff::ObjectEntry| (e.address, e.symbol, e.rsize, e.rtype, e.width, e.place);
        all.rows().map(row).collect::<Vec<EntryRow>>()
    });
    answers(&format!("entries of section {n}"), ours, theirs)?;
    Ok(())
}

fn plan(list: &[u64]) -> xcoff::ObjectPlan {
    xcoff::ObjectPlan {
        addresses: list.to_vec(),
    }
}

fn our_call(call: &ObjectCall) -> xcoff::ObjectCall {
    match call {
        ObjectCall::Build(p) => xcoff::ObjectCall::Build(plan(p)),
        ObjectCall::Move(p, q) => xcoff::ObjectCall::Move(plan(p), plan(q)),
    }
}

fn run(file: &[u8], call: &ObjectCall, buffer: &mut [u8]) -> Result<(), xcoff::Refusal> {
    match call {
        ObjectCall::Build(p) => xcoff::build_object(file, &plan(p), buffer),
        ObjectCall::Move(p, q) => xcoff::move_object(file, &plan(p), &plan(q), buffer),
    }
}

/// A list of calls, run one by one by both, and whole by `replay_object`: after each call the buffer is that of the other
/// implementation, and that of its book, and the replay answers for its answers so far. A single build or move is a list of one.
pub fn calls(file: &[u8], op: &Op) -> Agreement {
    let Some((calls, before)) = object_calls(op) else {
        return Ok(Agreed::default());
    };
    let mut ours = Lent::new(before, 0xC7);
    let mut theirs = before.clone();
    let mut agreed = Agreed::default();
    let mut said = Vec::new();
    for (n, call) in calls.iter().enumerate() {
        said.push(run_object_call(file, call, &mut theirs));
        let answer = run(file, call, ours.slice());
        let refused = answers(&format!("answer of call {n}"), answer, said[n])?;
        agreed.refusals.extend(refused);
        ours.holds(&format!("buffer after call {n}"), &theirs)?;
        if before.len() < LARGE || n + 1 == calls.len() {
            book(file, &calls[..=n], &said, before, &ours)?;
        }
    }
    chain(file, &calls, &said, &ours)?;
    Ok(agreed)
}

/// The book's image is what the calls left and what a replay leaves. That answers how many calls there are, how many of their
/// answers are no refusals, and the last one.
fn book(
    file: &[u8],
    calls: &[ObjectCall],
    said: &[Result<(), Refusal>],
    before: &[u8],
    ours: &Lent<u8>,
) -> Result<(), Difference> {
    let image = object_book(file, calls, before);
    let n = calls.len();
    ours.holds(&format!("buffer against the book of {n} calls"), &image)?;
    let mut replayed = Lent::new(before, 0x3B);
    let list: Vec<xcoff::ObjectCall> = calls.iter().map(our_call).collect();
    let all = xcoff::replay_object(file, &list, replayed.slice());
    let accepted = said.iter().filter(|answer| answer.is_ok()).count();
    let counts = (n as u64, accepted as u64);
    same("counts of a replay", &(all.calls, all.accepted), &counts)?;
    let part = format!("last answer of a replay of {n} calls");
    answers(&part, all.last, said[n - 1])?;
    replayed.holds(&format!("buffer after a replay of {n} calls"), &image)
}

/// Where a build was accepted and each accepted move after the last one goes from the plan reached, the buffer is that of the
/// last plan reached, as a fresh build makes it.
fn chain(
    file: &[u8],
    calls: &[ObjectCall],
    said: &[Result<(), Refusal>],
    ours: &Lent<u8>,
) -> Result<(), Difference> {
    let mut reached: Option<&Vec<u64>> = None;
    let accepted = calls.iter().zip(said).filter(|(_, answer)| answer.is_ok());
    for (call, _) in accepted {
        reached = match call {
            ObjectCall::Build(p) => Some(p),
            ObjectCall::Move(p, q) => reached.filter(|plan| *plan == p).map(|_| q),
        };
    }
    let Some(last) = reached else { return Ok(()) };
    let mut fresh = vec![0x99; ours.contents().len()];
    let built = reference::object_build(file, last, &mut fresh);
    answers("fresh build of the plan reached", Ok(()), built)?;
    ours.holds("buffer against a fresh build", &fresh)?;
    let compared = xcoff::check_object(file, &plan(last), ours.contents());
    same("compared with the plan reached", &compared, &Ok(xcoff::Comparison::Equal))
}
