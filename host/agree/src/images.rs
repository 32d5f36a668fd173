//! Builds, moves, lists of them, and sheets: answers and buffers afterwards.

use crate::compare::{answers, same, whole, Agreed, Agreement, Difference};
use crate::lent::Lent;
use reference::generate::Op;
use reference::{answer::run_call, Call, LoaderSymbol, Plan, Refusal};

/// Images of more bytes than this are compared after the last call only.
const LARGE: usize = 200_000;

pub fn plan(p: &Plan) -> xcoff::Plan {
    xcoff::Plan {
        text: p.text,
        data: p.data,
        list: p.list.clone(),
    }
}

/// A call's answer: the entry and the TOC address.
type Reached = Result<(Option<u64>, Option<u64>), Refusal>;

fn our_call(call: &Call) -> xcoff::Call {
    match call {
        Call::Build(p) => xcoff::Call::Build(plan(p)),
        Call::Move(p, q) => xcoff::Call::Move(plan(p), plan(q)),
    }
}

/// The two images in the library's hands, or what they must be.
struct Images {
    text: Lent<u8>,
    data: Lent<u8>,
}

impl Images {
    fn new(text: &[u8], data: &[u8]) -> Images {
        Images {
            text: Lent::new(text, 0xC7),
            data: Lent::new(data, 0x3B),
        }
    }

    fn run(&mut self, file: &[u8], call: &Call) -> Result<xcoff::Reached, xcoff::Refusal> {
        let (text, data) = (self.text.slice(), self.data.slice());
        match our_call(call) {
            xcoff::Call::Build(p) => xcoff::build_images(file, &p, text, data),
            xcoff::Call::Move(p, q) => xcoff::move_images(file, &p, &q, text, data),
        }
    }

    fn hold(&self, when: &str, text: &[u8], data: &[u8]) -> Result<(), Difference> {
        self.text.holds(&format!("text {when}"), text)?;
        self.data.holds(&format!("data {when}"), data)
    }
}

/// A list of calls, run one by one by both, and whole by `replay`: after each call the buffers are those of the other
/// implementation, and those of its book, and `replay` answers for its answers so far. A single build or move is a list
/// of one.
pub fn calls(file: &[u8], op: &Op) -> Agreement {
    let (calls, text, data) = match op {
        Op::Build { plan, text, data } => (vec![Call::Build(plan.clone())], text, data),
        Op::Move {
            from,
            to,
            text,
            data,
        } => (vec![Call::Move(from.clone(), to.clone())], text, data),
        Op::Calls { calls, text, data } => (calls.clone(), text, data),
        _ => return Ok(Agreed::default()),
    };
    let mut ours = Images::new(text, data);
    let (mut their_text, mut their_data) = (text.clone(), data.clone());
    let mut agreed = Agreed {
        calls: calls.len() as u64,
        ..Agreed::default()
    };
    let mut theirs: Vec<Reached> = Vec::new();
    for (n, call) in calls.iter().enumerate() {
        let reached = run_call(file, call, &mut their_text, &mut their_data);
        theirs.push(reached.map(|r| (r.entry, r.toc)));
        let refused = answers(
            &format!("answer of call {n}"),
            ours.run(file, call).map(|r| (r.entry, r.toc)),
            theirs[n],
        )?;
        agreed.refusals.extend(refused);
        ours.hold(&format!("after call {n}"), &their_text, &their_data)?;
        if text.len() + data.len() < LARGE || n + 1 == calls.len() {
            book(file, &calls[..=n], &theirs, (text, data), &ours)?;
        }
    }
    chain(file, &calls, &theirs, &ours, &mut agreed)?;
    Ok(agreed)
}

/// The book's images are what the calls left and what `replay` leaves. It answers how many calls there are, how many of
/// their answers, which are the other implementation's, are no refusals, and the last one.
fn book(
    file: &[u8],
    calls: &[Call],
    theirs: &[Reached],
    before: (&[u8], &[u8]),
    ours: &Images,
) -> Result<(), Difference> {
    let (text, data) = reference::book(file, calls, before.0, before.1);
    let n = calls.len();
    ours.hold(&format!("against the book of {n} calls"), &text, &data)?;
    let mut replayed = Images::new(before.0, before.1);
    let list: Vec<xcoff::Call> = calls.iter().map(our_call).collect();
    let all = xcoff::replay(file, &list, replayed.text.slice(), replayed.data.slice());
    let accepted = theirs.iter().filter(|answer| answer.is_ok()).count();
    let counts = (n as u64, accepted as u64);
    same("counts of a replay", &(all.calls, all.accepted), &counts)?;
    answers(
        &format!("last answer of a replay of {n} calls"),
        all.last.map(|r| (r.entry, r.toc)),
        theirs[n - 1],
    )?;
    replayed.hold(&format!("after a replay of {n} calls"), &text, &data)
}

/// Where a build was accepted and each accepted move after the last one goes from the plan reached, the images are
/// those of the last plan reached, as a fresh build makes them.
fn chain(
    file: &[u8],
    calls: &[Call],
    theirs: &[Reached],
    ours: &Images,
    agreed: &mut Agreed,
) -> Result<(), Difference> {
    let symbols = reference::loader_symbols(file).unwrap_or_default();
    let mut reached: Option<&Plan> = None;
    let mut before: Option<&Plan> = None;
    for (call, _) in calls
        .iter()
        .zip(theirs)
        .filter(|(_, answer)| answer.is_ok())
    {
        match call {
            Call::Build(p) => (reached, before) = (Some(p), Some(p)),
            Call::Move(p, q) => {
                if before.is_some_and(|plan| !same_plan(plan, p, &symbols)) {
                    agreed.broken_moves += 1;
                    reached = None;
                }
                (reached, before) = (reached.map(|_| q), Some(q));
            }
        }
    }
    let Some(last) = reached else { return Ok(()) };
    agreed.chained = true;
    let (mut text, mut data) = (ours.text.contents().to_vec(), ours.data.contents().to_vec());
    text.fill(0x99);
    data.fill(0x99);
    let fresh = reference::build(file, last, &mut text, &mut data);
    answers("fresh build of the plan reached", Ok(()), fresh.map(|_| ()))?;
    ours.hold("against a fresh build", &text, &data)
}

/// Two plans that differ at ignored places only are the same plan.
fn same_plan(one: &Plan, other: &Plan, symbols: &[LoaderSymbol]) -> bool {
    let counted = |(i, _): &(usize, &u64)| symbols.get(*i).is_some_and(LoaderSymbol::from_plan);
    let addresses = |p: &Plan| {
        p.list
            .iter()
            .enumerate()
            .filter(counted)
            .map(|(_, &a)| a)
            .collect::<Vec<_>>()
    };
    (one.text, one.data) == (other.text, other.data) && addresses(one) == addresses(other)
}

pub fn read_sheet(sheet: &[u8], list: &[u64]) -> Agreement {
    let mut ours = Lent::new(list, 0x5151_5151_5151_5151);
    let mut theirs = list.to_vec();
    let agreed = whole(
        xcoff::read_sheet_into(sheet, ours.slice()),
        reference::read_sheet(sheet, &mut theirs),
    )?;
    ours.holds("list", &theirs)?;
    let mut enough = vec![0; reference::sheet_count(sheet)];
    let theirs = reference::read_sheet(sheet, &mut enough).map(|(text, data)| (text, data, enough));
    answers(
        "sheet read whole",
        xcoff::read_sheet(sheet).map(|p| (p.text, p.data, p.list)),
        theirs,
    )?;
    if let Ok(plan) = xcoff::read_sheet(sheet) {
        let back = xcoff::write_sheet(&plan);
        answers("sheet written back", back, Ok(new_form(sheet)))?;
    }
    Ok(agreed)
}

/// A sheet that was read is written as it was, or, an old one, with two zero bytes more before each of its counts.
fn new_form(sheet: &[u8]) -> Vec<u8> {
    match sheet {
        [0, 0, ..] => sheet.to_vec(),
        _ => [&[0, 0], &sheet[..18], &[0, 0], &sheet[18..]].concat(),
    }
}

pub fn write_sheet(at: (u64, u64), list: &[u64], sheet: &[u8]) -> Agreement {
    let mut ours = Lent::new(sheet, 0x6D);
    let mut theirs = sheet.to_vec();
    let agreed = whole(
        xcoff::write_sheet_into(at.0, at.1, list, ours.slice()),
        reference::write_sheet(at.0, at.1, list, &mut theirs),
    )?;
    ours.holds("sheet", &theirs)?;
    Ok(agreed)
}
