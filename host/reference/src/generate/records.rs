//! S-records: plans, record texts, operations, and damages of them.

mod damages;
mod lines;

pub use damages::ROWS;

use super::make::{fitting_address, top, Made};
use super::plans::{any_buffers, any_plan, buffers, fitting_plan};
use super::rng::Rng;
use super::Op;
use crate::Plan;
use lines::record_text;

/// Whether the images of a plan share an address.
fn shares(made: &Made, plan: &Plan) -> bool {
    let (text, data) = (u128::from(plan.text), u128::from(plan.data));
    let before = text + u128::from(made.text_size) <= data;
    let after = data + u128::from(made.image) <= text;
    made.text_size != 0 && made.image != 0 && !before && !after
}

/// An address from which `size` bytes end at `end`; an empty image lies below it.
fn ending_at(end: u64, size: u64) -> u64 {
    end - size.max(1)
}

/// A fitting plan of XCOFF32 whose images share no address: some touch, some end
/// with the address space.
pub fn clear_plan(rng: &mut Rng, made: &Made) -> Plan {
    let mut plan = fitting_plan(rng, made);
    let (text, data) = (made.text_size, made.image);
    let end = 1 << 32;
    match rng.below(8) {
        0 => {
            plan.text = ending_at(end, text);
            plan.data = ending_at(plan.text, data);
        }
        1 => {
            plan.data = ending_at(end, data);
            plan.text = ending_at(plan.data, text);
        }
        2 => {
            plan.text = rng.below(1 << 31);
            plan.data = plan.text + text;
        }
        3 => {
            plan.data = rng.below(1 << 31);
            plan.text = plan.data + data;
        }
        _ => {}
    }
    if shares(made, &plan) {
        plan.text = rng.below(1 << 31);
        plan.data = plan.text + text + rng.below(100);
    }
    plan
}

/// Lets the images share an address, one only or more; neither may be empty.
fn clash(rng: &mut Rng, made: &Made, plan: &mut Plan) -> Option<()> {
    let (text, data) = (u128::from(made.text_size), u128::from(made.image));
    if text == 0 || data == 0 {
        return None;
    }
    plan.text = fitting_address(rng, made.bits, made.text_size);
    let start = u128::from(plan.text);
    let lowest = (start + 1).saturating_sub(data) as u64;
    let highest = (start + text - 1).min(top(made.bits) - data) as u64;
    let between = rng.between(lowest, highest);
    let same = plan.text.clamp(lowest, highest);
    plan.data = rng.pick(&[lowest, highest, between, same]);
    Some(())
}

/// How long the record text is: each line has 15 characters beside its data.
fn length(made: &Made) -> usize {
    let image = |size: u64| 15 * (size / 32 + u64::from(size % 32 != 0)) + 2 * size;
    (image(made.text_size) + image(made.image) + 15) as usize
}

/// An operation of S-records, for a part of the files.
pub(super) fn some_op(rng: &mut Rng, made: &Made) -> Option<Op> {
    if !rng.chance(40) {
        return None;
    }
    let mut plan = any_plan(rng, made);
    match rng.below(10) {
        0 => {
            clash(rng, made, &mut plan);
        }
        3.. if made.bits == 32 => plan = clear_plan(rng, made),
        _ => {}
    }
    let (text, data) = any_buffers(rng, made);
    Some(match rng.below(5) {
        0 => Op::RecordsLength(plan),
        1 | 2 => Op::WriteRecords {
            records: any_room(rng, made),
            plan,
            text,
            data,
        },
        _ => Op::ReadRecords {
            records: any_records(rng, made, &plan),
            plan,
            text,
            data,
        },
    })
}

/// A call in which all is right, but for the format of XCOFF64.
pub(super) fn good_op(rng: &mut Rng, made: &Made) -> Op {
    let plan = if made.bits == 32 {
        clear_plan(rng, made)
    } else {
        fitting_plan(rng, made)
    };
    let (text, data) = buffers(rng, made);
    if rng.chance(50) {
        let records = rng.bytes(length(made));
        return Op::WriteRecords {
            plan,
            text,
            data,
            records,
        };
    }
    let records = record_text(made, &plan, &text, &data);
    let (text, data) = buffers(rng, made);
    Op::ReadRecords {
        plan,
        records,
        text,
        data,
    }
}

/// Room for the record text, of the right length most times.
fn any_room(rng: &mut Rng, made: &Made) -> Vec<u8> {
    let right = length(made);
    let length = if rng.chance(90) {
        right
    } else {
        rng.below(right as u64 + 20) as usize
    };
    rng.bytes(length)
}

/// A record text, right most times, or with a character changed, cut, or junk.
fn any_records(rng: &mut Rng, made: &Made, plan: &Plan) -> Vec<u8> {
    let text = rng.bytes(made.text_size as usize);
    let data = rng.bytes(made.image as usize);
    let mut records = record_text(made, plan, &text, &data);
    let at = rng.below(records.len() as u64) as usize;
    match rng.below(10) {
        0 | 1 => records[at] = rng.pick(b"0123456789ABCDEFabcdefGS\n\r "),
        2 => records.truncate(at),
        3 => records = rng.bytes(at),
        _ => {}
    }
    records
}
