//! Plans, their sheets, and images built and moved.

use crate::{accepted, ffi, Refusal};

/// A plan: the text address, the data address, and an address for each loader symbol. The places of symbols that are
/// not imported, and of deferred imports, are ignored.
#[derive(Clone, Debug, PartialEq, Eq)]
pub struct Plan {
    pub text: u64,
    pub data: u64,
    pub list: Vec<u64>,
}

/// The entry point's and the TOC's addresses in the plan that a call reached, where the module has them.
#[derive(Clone, Copy, Debug, PartialEq, Eq)]
pub struct Reached {
    pub entry: Option<u64>,
    pub toc: Option<u64>,
}

/// A call of a list that [`replay`] runs.
#[derive(Clone, Debug, PartialEq, Eq)]
pub enum Call {
    Build(Plan),
    Move(Plan, Plan),
}

/// What [`replay`] answers.
#[derive(Clone, Copy, Debug, PartialEq, Eq)]
pub struct Replayed {
    /// Calls run: all that the list has.
    pub calls: u64,
    /// Those of them that were accepted.
    pub accepted: u64,
    /// The last call's own answer. Where no call was run it is accepted, with no addresses.
    pub last: Result<Reached, Refusal>,
}

/// Builds the images of the module in `file` for a plan. A refusal changes no byte of the buffers.
pub fn build_images(
    file: &[u8],
    plan: &Plan,
    text: &mut [u8],
    data: &mut [u8],
) -> Result<Reached, Refusal> {
    reached(ffi::build(
        file,
        (plan.text, plan.data),
        &plan.list,
        text,
        data,
    ))
}

/// Moves images from one plan to another, taking the buffers as they are. A refusal changes no byte of them.
///
/// Images that are moved twice, or from a plan that they are not for, are wrong, and nothing in them shows it:
/// [`move_images_checked`](crate::move_images_checked) compares them first.
pub fn move_images(
    file: &[u8],
    from: &Plan,
    to: &Plan,
    text: &mut [u8],
    data: &mut [u8],
) -> Result<Reached, Refusal> {
    reached(ffi::move_images(
        file,
        (from.text, from.data),
        &from.list,
        (to.text, to.data),
        &to.list,
        text,
        data,
    ))
}

/// Runs a list of calls on the two buffers. A call that is refused changes nothing and does not end the list; how many
/// were accepted is in the answer.
pub fn replay(file: &[u8], calls: &[Call], text: &mut [u8], data: &mut [u8]) -> Replayed {
    let mut script = Vec::new();
    for call in calls {
        match call {
            Call::Build(p) => {
                script.push(0);
                numbers(p, &mut script);
            }
            Call::Move(p, q) => {
                script.push(1);
                numbers(p, &mut script);
                numbers(q, &mut script);
            }
        }
    }
    let run = ffi::replay(file, &script, text, data);
    Replayed {
        calls: run.calls,
        accepted: run.accepted,
        last: reached(run.last),
    }
}

/// Reads a plan sheet's two addresses, of either form, and its list into exactly as many places. A refusal leaves the list
/// as it was.
pub fn read_sheet_into(sheet: &[u8], list: &mut [u64]) -> Result<(u64, u64), Refusal> {
    let read = ffi::read_sheet(sheet, list);
    accepted(read.head)?;
    Ok((read.text, read.data))
}

/// Writes the sheet of a plan, in the new form, into a buffer of exactly [`sheet_length`] bytes. A refusal leaves the
/// buffer as it was.
pub fn write_sheet_into(
    text: u64,
    data: u64,
    list: &[u64],
    sheet: &mut [u8],
) -> Result<(), Refusal> {
    let written = ffi::write_sheet(text, data, list, sheet);
    accepted(written)
}

/// Reads a plan sheet: a new one, which begins 00000002 hex and has at most 70,000 addresses, or an old one, which begins
/// 0002 and has at most 4,096.
pub fn read_sheet(sheet: &[u8]) -> Result<Plan, Refusal> {
    let answer = ffi::sheet_head(sheet);
    accepted(answer.head)?;
    let mut list = vec![0; answer.count as usize];
    let (text, data) = read_sheet_into(sheet, &mut list)?;
    Ok(Plan { text, data, list })
}

/// Bytes of a new sheet with so many addresses in its list.
pub fn sheet_length(places: usize) -> usize {
    24 + 8 * places
}

/// The sheet of a plan, always in the new form.
pub fn write_sheet(plan: &Plan) -> Result<Vec<u8>, Refusal> {
    let mut sheet = vec![0; sheet_length(plan.list.len())];
    write_sheet_into(plan.text, plan.data, &plan.list, &mut sheet)?;
    Ok(sheet)
}

fn numbers(p: &Plan, script: &mut Vec<u64>) {
    script.extend([p.text, p.data, p.list.len() as u64]);
    script.extend(&p.list);
}

fn reached(call: ffi::Call) -> Result<Reached, Refusal> {
    accepted(call.head)?;
    Ok(Reached {
        entry: (call.has_entry == 1).then_some(call.entry),
        toc: (call.has_toc == 1).then_some(call.toc),
    })
}
