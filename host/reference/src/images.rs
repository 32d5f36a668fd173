//! Document 01, "Plans, images, moves": builds, moves and the book.

use crate::bytes::{number, put, top};
use crate::module::{load, Loaded};
use crate::{refuse, Refusal, PLAN, ROOM};

#[derive(Clone, Debug, PartialEq, Eq)]
pub struct Plan {
    pub text: u64,
    pub data: u64,
    /// One address per loader symbol; only those of imports that aren't
    /// deferred count.
    pub list: Vec<u64>,
}

/// Entry and TOC addresses in the plan that was reached; none for section 0.
#[derive(Clone, Copy, Debug, PartialEq, Eq)]
pub struct Reached {
    pub entry: Option<u64>,
    pub toc: Option<u64>,
}

#[derive(Clone, Debug, PartialEq, Eq)]
pub enum Call {
    Build(Plan),
    Move(Plan, Plan),
}

/// Builds the images for a plan.
pub fn build(
    file: &[u8],
    plan: &Plan,
    text: &mut [u8],
    data: &mut [u8],
) -> Result<Reached, Refusal> {
    let loaded = load(file)?;
    judge_build(&loaded, plan, text.len(), data.len())?;
    let (built_text, built_data) = built_images(file, &loaded, plan);
    text.copy_from_slice(&built_text);
    data.copy_from_slice(&built_data);
    Ok(reached(&loaded, plan))
}

/// The images for a plan that is judged.
pub(crate) fn built_images(file: &[u8], loaded: &Loaded, plan: &Plan) -> (Vec<u8>, Vec<u8>) {
    let (mut text, mut data) = raw_images(file, loaded);
    apply_entries(loaded, &displacements(loaded, plan), &mut text, &mut data);
    (text, data)
}

/// Moves the images from one plan to another, taking the buffers as they are.
pub fn move_images(
    file: &[u8],
    from: &Plan,
    to: &Plan,
    text: &mut [u8],
    data: &mut [u8],
) -> Result<Reached, Refusal> {
    let loaded = load(file)?;
    judge_move(&loaded, from, to, text.len(), data.len())?;
    let old = displacements(&loaded, from);
    let new = displacements(&loaded, to);
    let difference: Vec<i128> = new.iter().zip(&old).map(|(n, o)| n - o).collect();
    apply_entries(&loaded, &difference, text, data);
    Ok(reached(&loaded, to))
}

/// The book's images after these calls, from what the buffers hold before the
/// first: the base, and an exact shift for each symbol. No call is run.
pub fn book(file: &[u8], calls: &[Call], text: &[u8], data: &[u8]) -> (Vec<u8>, Vec<u8>) {
    let mut base_text = text.to_vec();
    let mut base_data = data.to_vec();
    let loaded = match load(file) {
        Ok(loaded) => loaded,
        Err(_) => return (base_text, base_data),
    };
    let mut shifts = vec![0i128; 3 + loaded.symbols.len()];
    let mut any_accepted = false;
    for call in calls {
        match call {
            Call::Build(plan) => {
                if judge_build(&loaded, plan, text.len(), data.len()).is_ok() {
                    (base_text, base_data) = raw_images(file, &loaded);
                    shifts = displacements(&loaded, plan);
                    any_accepted = true;
                }
            }
            Call::Move(from, to) => {
                if judge_move(&loaded, from, to, text.len(), data.len()).is_ok() {
                    let old = displacements(&loaded, from);
                    let new = displacements(&loaded, to);
                    for symbol in 0..shifts.len() {
                        shifts[symbol] += new[symbol] - old[symbol];
                    }
                    any_accepted = true;
                }
            }
        }
    }
    if any_accepted {
        apply_entries(&loaded, &shifts, &mut base_text, &mut base_data);
    }
    (base_text, base_data)
}

/// Order: ROOM 2, PLAN, ROOM 0, ROOM 1.
fn judge_build(loaded: &Loaded, plan: &Plan, text: usize, data: usize) -> Result<(), Refusal> {
    judge_list(loaded, plan)?;
    judge_plan(loaded, plan)?;
    judge_buffers(loaded, text, data)
}

/// Both lists, the from plan, the to plan, the buffers.
fn judge_move(
    loaded: &Loaded,
    from: &Plan,
    to: &Plan,
    text: usize,
    data: usize,
) -> Result<(), Refusal> {
    judge_list(loaded, from)?;
    judge_list(loaded, to)?;
    judge_plan(loaded, from)?;
    judge_plan(loaded, to)?;
    judge_buffers(loaded, text, data)
}

pub(crate) fn judge_list(loaded: &Loaded, plan: &Plan) -> Result<(), Refusal> {
    if plan.list.len() as u64 != loaded.module.loader_symbols {
        return refuse(ROOM, 2);
    }
    Ok(())
}

pub(crate) fn judge_plan(loaded: &Loaded, plan: &Plan) -> Result<(), Refusal> {
    let module = &loaded.module;
    let top = top(module.bits);
    let text = u128::from(plan.text);
    if text >= top || text + u128::from(module.text_size) > top {
        return refuse(PLAN, 0);
    }
    let data = u128::from(plan.data);
    if data >= top || data + u128::from(module.data_image) > top {
        return refuse(PLAN, 1);
    }
    for (symbol, &address) in loaded.symbols.iter().zip(&plan.list) {
        if symbol.from_plan() && u128::from(address) >= top {
            return refuse(PLAN, symbol.index);
        }
    }
    Ok(())
}

pub(crate) fn judge_buffers(loaded: &Loaded, text: usize, data: usize) -> Result<(), Refusal> {
    if text as u64 != loaded.module.text_size {
        return refuse(ROOM, 0);
    }
    if data as u64 != loaded.module.data_image {
        return refuse(ROOM, 1);
    }
    Ok(())
}

/// The raw text, and the data image: data bytes, then zeros.
fn raw_images(file: &[u8], loaded: &Loaded) -> (Vec<u8>, Vec<u8>) {
    let text = file[loaded.text.clone()].to_vec();
    let mut data = file[loaded.data.clone()].to_vec();
    data.resize(loaded.module.data_image as usize, 0);
    (text, data)
}

/// The displacement of every symbol, as relocation entries number them.
pub(crate) fn displacements(loaded: &Loaded, plan: &Plan) -> Vec<i128> {
    let module = &loaded.module;
    let text = i128::from(plan.text) - i128::from(module.text_address);
    let data = i128::from(plan.data) - i128::from(module.data_address);
    // bss moves with data.
    let mut all = vec![text, data, data];
    for (symbol, &address) in loaded.symbols.iter().zip(&plan.list) {
        let displacement = if symbol.imported() {
            if symbol.file_id == 0 {
                0
            } else {
                i128::from(address) - i128::from(symbol.value)
            }
        } else if symbol.section == module.text {
            text
        } else {
            data
        };
        all.push(displacement);
    }
    all
}

/// Each entry in order, by its symbol's amount.
fn apply_entries(loaded: &Loaded, amounts: &[i128], text: &mut [u8], data: &mut [u8]) {
    let module = &loaded.module;
    for entry in &loaded.entries {
        let amount = amounts[entry.symbol as usize];
        let (image, start) = if entry.section == module.text {
            (&mut *text, module.text_address)
        } else {
            (&mut *data, module.data_address)
        };
        let at = (entry.address - start) as usize;
        let length = entry.width as usize / 8;
        let old = number(image, at, length);
        put(
            image,
            at,
            length,
            change(old, amount, entry.subtract, entry.width),
        );
    }
}

/// The field plus or minus the amount; what passes the width is dropped.
pub fn change(field: u64, amount: i128, subtract: bool, width: u64) -> u64 {
    let sum = if subtract {
        i128::from(field) - amount
    } else {
        i128::from(field) + amount
    };
    sum.rem_euclid(1i128 << width) as u64
}

/// Entry and TOC addresses, moved as their sections.
pub(crate) fn reached(loaded: &Loaded, plan: &Plan) -> Reached {
    let module = &loaded.module;
    let moved = |section: u64, address: u64| {
        if section == 0 {
            return None;
        }
        let displacement = if section == module.text {
            i128::from(plan.text) - i128::from(module.text_address)
        } else {
            i128::from(plan.data) - i128::from(module.data_address)
        };
        Some(change(address, displacement, false, module.bits))
    };
    Reached {
        entry: moved(module.entry_section, module.entry_address),
        toc: moved(module.toc_section, module.toc_address),
    }
}
