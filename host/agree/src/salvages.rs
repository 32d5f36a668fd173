//! Salvage: the answer, the copy and the report, and what the request says of the copy.

use crate::compare::{answers, same, whole, Agreement, Difference};
use crate::lent::Lent;
use reference::salvage::shared_with;
use reference::{Refusal, SHARED};

pub fn salvage(file: &[u8], copy: &[u8], report: &[u8]) -> Agreement {
    let (mut our_copy, mut our_report) = (Lent::new(copy, 0xC7), Lent::new(report, 0x3B));
    let (mut their_copy, mut their_report) = (copy.to_vec(), report.to_vec());
    let agreed = whole(
        xcoff::salvage_into(file, our_copy.slice(), our_report.slice()),
        reference::salvage(file, &mut their_copy, &mut their_report),
    )?;
    our_copy.holds("copy", &their_copy)?;
    our_report.holds("report", &their_report)?;
    let theirs = salvaged(file);
    let count = theirs.as_ref().map(|(_, report)| report.len() as u64 / 8);
    answers("count", xcoff::salvage_count(file), count.map_err(|&r| r))?;
    let ours = xcoff::salvage(file);
    let whole = ours.as_ref().map(|s| (s.copy.clone(), s.report.clone()));
    answers("salvaged whole", whole.map_err(|&r| r), theirs)?;
    if let Ok(ours) = ours {
        walked(file, &ours.copy)?;
        shown(file, &ours)?;
    }
    told_shared(file)?;
    Ok(agreed)
}

/// The copy and the report, in buffers that fit.
fn salvaged(file: &[u8]) -> Result<(Vec<u8>, Vec<u8>), Refusal> {
    let mends = reference::mends(file)?;
    let (mut copy, mut report) = (vec![0; file.len()], vec![0; 8 * mends.len()]);
    reference::salvage(file, &mut copy, &mut report)?;
    Ok((copy, report))
}

/// The copy opens as the file does, its walk reaches the table's end, and salvaging it changes nothing.
fn walked(file: &[u8], copy: &[u8]) -> Result<(), Difference> {
    let opened = xcoff::open(file);
    same("the copy opened", &xcoff::open(copy), &opened)?;
    for n in 1..=opened.map_or(0, |o| o.sections) {
        let (one, other) = (xcoff::section(copy, n), xcoff::section(file, n));
        same(&format!("section {n} of the copy"), &one, &other)?;
    }
    let end = xcoff::walk(copy).map(|walk| (walk.end, walk.cause));
    let whole = opened.map(|o| (o.symbols, None));
    same("the copy's walk", &end, &whole)?;
    let again = xcoff::salvage(copy).map(|s| (s.copy, s.report));
    same(
        "the copy salvaged",
        &again,
        &Ok((copy.to_vec(), Vec::new())),
    )
}

/// Each change is shown with its field, which is another one in the copy; the first is where the walk stops.
fn shown(file: &[u8], salvaged: &xcoff::Salvaged) -> Result<(), Difference> {
    let fields: Vec<_> = xcoff::changed_fields(file, salvaged)
        .into_iter()
        .flatten()
        .collect();
    let changes: Vec<_> = xcoff::changes(&salvaged.report).collect();
    let of_fields: Vec<_> = fields.iter().map(|field| field.change).collect();
    same("changes that are shown", &of_fields, &changes)?;
    let all = fields.iter().all(|field| field.was != field.now);
    same("whether every field differs", &all, &true)?;
    let stop = xcoff::walk(file).ok().and_then(|walk| walk.cause);
    let stop = stop.map(|cause| (cause.item, cause.number));
    let first = changes.first().map(|change| (change.index, change.number));
    same("the first change", &first, &stop)
}

/// What is shown for SHARED: something exactly where it is given.
fn told_shared(file: &[u8]) -> Result<(), Difference> {
    let shared = reference::open(file).is_ok_and(|summary| shared_with(&summary).is_some());
    let told = !xcoff::shared_with_symbols(file).is_empty();
    same("whether the symbol table shares bytes", &told, &shared)?;
    let refused = xcoff::salvage_count(file).err().map(|r| r.number);
    same("SHARED", &(refused == Some(SHARED)), &shared)
}
