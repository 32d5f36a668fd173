//! One operation, run by both implementations.

use crate::{
    address_table, images, lines, objects, places, read, records, rewrites, salvages,
};
use reference::generate::Op;
use reference::Refusal;
use std::fmt::Debug;

/// Where the two differ.
#[derive(Debug)]
pub struct Difference {
    /// What of the operation: its answer, a buffer, a call of a list.
    pub part: String,
    pub ours: String,
    pub theirs: String,
}

/// What both said.
#[derive(Debug, Default)]
pub struct Agreed {
    /// The refusals given; of a list one for each refused call.
    pub refusals: Vec<Refusal>,
    /// Of a list: its calls, and the accepted moves among them that go from another plan than the one reached.
    pub calls: u64,
    pub broken_moves: u64,
    /// Whether every move after the last build goes from the plan reached, so that the images are those of a plan.
    pub chained: bool,
}

pub type Agreement = Result<Agreed, Difference>;

/// Compares everything that the operation gives, the buffers afterwards included, and looks at what stands where its
/// refusals point.
pub fn compare(file: &[u8], op: &Op) -> Agreement {
    let agreed = run_both(file, op)?;
    for refusal in &agreed.refusals {
        places::read(file, op, refusal)?;
    }
    Ok(agreed)
}

fn run_both(file: &[u8], op: &Op) -> Agreement {
    match op {
        Op::Build { .. } | Op::Move { .. } | Op::Calls { .. } => images::calls(file, op),
        Op::ReadSheet { sheet, list } => images::read_sheet(sheet, list),
        Op::WriteSheet {
            text,
            data,
            list,
            sheet,
        } => images::write_sheet((*text, *data), list, sheet),
        Op::RecordsLength(plan) => records::length(file, plan),
        Op::WriteRecords {
            plan,
            text,
            data,
            records,
        } => records::write(file, plan, (text, data), records),
        Op::ReadRecords {
            plan,
            records,
            text,
            data,
        } => records::read(file, plan, records, (text, data)),
        Op::FindLine { section, address } => lines::find(file, *section, *address),
        Op::Table(calls) => address_table::calls(file, calls),
        Op::WriteModule { plan, out } => rewrites::write(file, plan, out),
        Op::Salvage { copy, report } => salvages::salvage(file, copy, report),
        Op::Object => objects::read(file),
        Op::ObjectBuild { .. } | Op::ObjectMove { .. } | Op::ObjectCalls { .. } => {
            objects::calls(file, op)
        }
        _ => read::read(file, op),
    }
}

pub fn same<T: PartialEq + Debug>(part: &str, ours: &T, theirs: &T) -> Result<(), Difference> {
    if ours == theirs {
        return Ok(());
    }
    Err(Difference {
        part: part.to_string(),
        ours: short(ours),
        theirs: short(theirs),
    })
}

/// Text for people: what is too long is cut.
fn short<T: Debug>(value: &T) -> String {
    let text = format!("{value:x?}");
    match text.char_indices().nth(2_000) {
        Some((at, _)) => format!("{}...", &text[..at]),
        None => text,
    }
}

/// A refusal's number, item and offset.
pub type Refused = (u64, u64, u64);

pub fn our_refusal(r: xcoff::Refusal) -> Refused {
    (r.number, r.item, r.offset)
}

pub fn their_refusal(r: Refusal) -> Refused {
    (r.number, r.item, r.offset)
}

/// Two answers, refusals by their three numbers. Both results are of one type, made from each implementation's own.
pub fn answers<T: PartialEq + Debug>(
    part: &str,
    ours: Result<T, xcoff::Refusal>,
    theirs: Result<T, Refusal>,
) -> Result<Option<Refusal>, Difference> {
    let refused = theirs.as_ref().err().copied();
    let theirs = theirs.map_err(their_refusal);
    same(part, &ours.map_err(our_refusal), &theirs)?;
    Ok(refused)
}

/// Two answers that are all of the operation.
pub fn whole<T: PartialEq + Debug>(
    ours: Result<T, xcoff::Refusal>,
    theirs: Result<T, Refusal>,
) -> Agreement {
    let refusals = answers("answer", ours, theirs)?.into_iter().collect();
    Ok(Agreed {
        refusals,
        ..Agreed::default()
    })
}
