//! Operations of every sort for a file.

use super::make::Made;
use super::plans::{any_buffers, fitting_plan, image_op, near, reveal_module, reveal_open};
use super::rng::Rng;
use super::{damage, Op};
use crate::sheet::Form;

/// Operations of every sort for a file.
pub(super) fn some_ops(rng: &mut Rng, made: &Made) -> Vec<Op> {
    let mut ops = Vec::new();
    for _ in 0..rng.between(2, 5) {
        ops.push(reveal_open(rng, made));
    }
    add_symbol_ops(rng, made, &mut ops);
    for (op, percent) in [(Op::Walk, 50), (Op::Symbols, 30), (Op::List, 40)] {
        if rng.chance(percent) {
            ops.push(op);
        }
    }
    if made.loader != 0 || rng.chance(40) {
        ops.push(Op::Module);
        add_module_ops(rng, made, &mut ops);
    }
    if rng.chance(20) {
        ops.push(sheet_op(rng));
    }
    ops
}

/// Entries at any index, and one of those that were made.
fn add_symbol_ops(rng: &mut Rng, made: &Made, ops: &mut Vec<Op>) {
    let symbols = made.symbol_count.min(made.bytes.len() as u64 / 18 + 1);
    for _ in 0..rng.between(1, 3) {
        ops.push(Op::Csect(near(rng, 0, symbols)));
        ops.push(Op::Symbol(near(rng, 0, symbols)));
    }
    if !made.symbols.is_empty() {
        let index = rng.pick(&made.symbols).index;
        ops.push(Op::Csect(index));
        ops.push(Op::SymbolName(index));
    }
}

/// Tables, builds and moves; large buffers and tables once at most.
fn add_module_ops(rng: &mut Rng, made: &Made, ops: &mut Vec<Op>) {
    let large =
        made.image > 1_000_000 || made.entries.len() > 1_000 || made.loader_symbols.len() > 1_000;
    if rng.chance(if large { 10 } else { 30 }) {
        ops.push(rng.pick(&[Op::LoaderSymbols, Op::Relocations, Op::ImportIds]));
    }
    for _ in 0..rng.between(0, 2) {
        if !large {
            ops.push(reveal_module(rng, made));
        }
    }
    for _ in 0..rng.between(1, if large { 1 } else { 3 }) {
        ops.push(image_op(rng, made));
    }
    if rng.chance(20) && !large {
        ops.push(move_to_itself(rng, made));
    }
}

fn move_to_itself(rng: &mut Rng, made: &Made) -> Op {
    let (text, data) = any_buffers(rng, made);
    let plan = fitting_plan(rng, made);
    Op::Move {
        from: plan.clone(),
        to: plan,
        text,
        data,
    }
}

/// An old sheet that is read, or one that is written, good most times.
fn sheet_op(rng: &mut Rng) -> Op {
    let k = if rng.chance(4) {
        rng.pick(&[4_095, 4_096, 4_097])
    } else {
        rng.below(8) as usize
    };
    if rng.chance(50) {
        let mut sheet = damage::good_sheet(rng, Form::Old, k);
        if rng.chance(20) {
            let at = rng.below(sheet.len() as u64) as usize;
            sheet[at] = rng.next() as u8;
        }
        if rng.chance(10) {
            sheet.truncate(rng.below(sheet.len() as u64) as usize);
        }
        let length = if rng.chance(90) {
            k
        } else {
            rng.below(9) as usize
        };
        Op::ReadSheet {
            sheet,
            list: damage::junk_list(rng, length),
        }
    } else {
        let length = if rng.chance(90) {
            Form::New.length(k as u64) as usize
        } else {
            rng.below(100) as usize
        };
        Op::WriteSheet {
            text: rng.next(),
            data: rng.next(),
            list: damage::junk_list(rng, k),
            sheet: rng.bytes(length),
        }
    }
}
