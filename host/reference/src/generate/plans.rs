//! Plans, buffers, lists of calls, and operations that fit a made file.

use super::make::{fitting_address, top, Made};
use super::rng::Rng;
use super::Op;
use crate::{Call, Plan, TableCall};

/// A plan whose addresses fit; junk at ignored places.
pub fn fitting_plan(rng: &mut Rng, made: &Made) -> Plan {
    let text = if rng.chance(15) {
        made.text_address
    } else {
        fitting_address(rng, made.bits, made.text_size)
    };
    let data = if rng.chance(15) {
        made.data_address
    } else {
        fitting_address(rng, made.bits, made.image)
    };
    let mut list = Vec::new();
    for symbol in &made.loader_symbols {
        let counts = symbol.imported && symbol.file_id != 0;
        list.push(if !counts {
            rng.pick(&[0, u64::MAX, 0x1_0000_0000, rng_mix(list.len() as u64)])
        } else if rng.chance(20) {
            symbol.value
        } else {
            fitting_address(rng, made.bits, 0)
        });
    }
    Plan { text, data, list }
}

fn rng_mix(n: u64) -> u64 {
    (n + 1).wrapping_mul(0x9E37_79B9_7F4A_7C15)
}

/// An address at which `size` bytes don't fit; none where there is none.
pub fn past_end(rng: &mut Rng, bits: u64, size: u64) -> Option<u64> {
    let mut all = Vec::new();
    let first = top(bits) - u128::from(size) + 1;
    if bits == 32 {
        all.extend_from_slice(&[1 << 32, (1 << 32) + 1, u64::MAX, 1 << 63]);
    }
    if size > 1 {
        all.extend_from_slice(&[first as u64, (top(bits) - 1) as u64]);
    }
    if all.is_empty() {
        return None;
    }
    Some(rng.pick(&all))
}

/// Buffers of the right lengths with any contents.
pub fn buffers(rng: &mut Rng, made: &Made) -> (Vec<u8>, Vec<u8>) {
    let image = made.image.min(crate::IMAGE_LIMIT);
    (
        rng.bytes(made.text_size as usize),
        rng.bytes(image as usize),
    )
}

/// Buffers of lengths that are right most times.
pub fn any_buffers(rng: &mut Rng, made: &Made) -> (Vec<u8>, Vec<u8>) {
    let (mut text, mut data) = buffers(rng, made);
    if rng.chance(6) {
        let length = rng.below(text.len() as u64 + 9) as usize;
        text.resize(length, 0x5A);
    }
    if rng.chance(6) {
        let length = rng.below(data.len() as u64 + 9) as usize;
        data.resize(length, 0x5A);
    }
    (text, data)
}

/// A plan that fits most times.
pub fn any_plan(rng: &mut Rng, made: &Made) -> Plan {
    let mut plan = fitting_plan(rng, made);
    if rng.chance(5) {
        let length = rng.below(made.loader_symbols.len() as u64 + 3) as usize;
        plan.list.resize(length, 1);
    }
    if rng.chance(5) {
        plan.text = past_end(rng, made.bits, made.text_size).unwrap_or(u64::MAX);
    }
    if rng.chance(5) {
        plan.data = past_end(rng, made.bits, made.image).unwrap_or(u64::MAX);
    }
    if rng.chance(5) && !plan.list.is_empty() {
        let i = rng.below(plan.list.len() as u64) as usize;
        plan.list[i] = rng.pick(&[u64::MAX, 1 << 32, 0xFFFF_FFFF]);
    }
    plan
}

/// Builds and moves, most of them chained, some from a plan never reached.
pub fn call_list(rng: &mut Rng, made: &Made) -> Vec<Call> {
    let plans: Vec<Plan> = (0..rng.between(2, 4))
        .map(|_| any_plan(rng, made))
        .collect();
    let mut calls = Vec::new();
    let mut last = rng.pick(&plans);
    let length = if rng.chance(5) {
        rng.between(8, 40)
    } else {
        rng.between(1, 7)
    };
    for i in 0..length {
        let to = rng.pick(&plans);
        if rng.chance(if i == 0 { 60 } else { 15 }) {
            calls.push(Call::Build(to.clone()));
        } else {
            let from = if rng.chance(75) {
                last
            } else {
                rng.pick(&plans)
            };
            calls.push(Call::Move(from, to.clone()));
        }
        last = to;
    }
    calls
}

/// A build, a move or a list of calls.
pub fn image_op(rng: &mut Rng, made: &Made) -> Op {
    let (text, data) = any_buffers(rng, made);
    match rng.below(4) {
        0 => Op::Build {
            plan: any_plan(rng, made),
            text,
            data,
        },
        1 => Op::Move {
            from: any_plan(rng, made),
            to: any_plan(rng, made),
            text,
            data,
        },
        _ => Op::Calls {
            calls: call_list(rng, made),
            text,
            data,
        },
    }
}

/// An index at or around the ends of a table of `count`, from `first`.
pub fn near(rng: &mut Rng, first: u64, count: u64) -> u64 {
    if count > 0 && rng.chance(80) {
        return first + rng.below(count);
    }
    // Among them numbers that come back into the table when multiplied by the
    // length of an entry and cut to 64 bits.
    let wraps = [16, 18, 24, 40, 72].map(|each| u64::MAX / each + 1 + first);
    let ends = [
        0xFFFF_FFFF,
        1 << 32,
        (1 << 32) + first,
        1 << 63,
        u64::MAX - 1,
        u64::MAX,
    ];
    match rng.below(3) {
        0 => rng.pick(&wraps),
        1 => rng.pick(&ends),
        _ => rng.pick(&[0, first.saturating_sub(1), first + count, first + count + 1]),
    }
}

/// An operation that gives a refusal of opening; those of later requests are drawn
/// aside.
pub fn reveal_open(rng: &mut Rng, made: &Made) -> Op {
    let side = &mut rng.aside();
    let op = any_open(rng, made);
    match side.below(24) {
        0 => Op::Object,
        1 => Op::FindLine {
            section: near(side, 1, made.flags.len() as u64),
            address: side.next(),
        },
        2 => Op::Salvage {
            copy: side.bytes(made.bytes.len().min(2_000)),
            report: side.bytes(16),
        },
        _ => op,
    }
}

fn any_open(rng: &mut Rng, made: &Made) -> Op {
    match rng.below(8) {
        0 => Op::Section(near(rng, 1, made.flags.len() as u64)),
        1 => Op::SectionName(near(rng, 1, made.flags.len() as u64)),
        2 => Op::Symbol(near(rng, 0, made.symbol_count)),
        3 => Op::SymbolName(near(rng, 0, made.symbol_count)),
        4 => Op::Csect(near(rng, 0, made.symbol_count)),
        5 => Op::Walk,
        6 => Op::Symbols,
        _ => Op::Open,
    }
}

/// An operation that gives a refusal of the module; those of later requests are drawn
/// aside.
pub fn reveal_module(rng: &mut Rng, made: &Made) -> Op {
    let side = &mut rng.aside();
    let op = any_reveal(rng, made);
    match side.below(8) {
        0 => Op::Table(vec![TableCall::Fill {
            bench: side.between(1, 2),
            list: vec![7; made.loader_symbols.len()],
        }]),
        1 => Op::WriteModule {
            plan: any_plan(side, made),
            out: side.bytes(made.bytes.len().min(2_000)),
        },
        _ => op,
    }
}

fn any_reveal(rng: &mut Rng, made: &Made) -> Op {
    match rng.below(12) {
        0 => Op::LoaderSymbol(near(rng, 3, made.loader_symbols.len() as u64)),
        1 => Op::LoaderSymbolName(near(rng, 3, made.loader_symbols.len() as u64)),
        2 => Op::ImportPath(near(rng, 0, made.ids)),
        3 => Op::ImportBase(near(rng, 0, made.ids)),
        4 => Op::ImportMember(near(rng, 0, made.ids)),
        5 => Op::Relocations,
        8 => Op::LoaderSymbols,
        9 => Op::ImportIds,
        6 => {
            let (text, data) = buffers(rng, made);
            Op::Build {
                plan: any_plan(rng, made),
                text,
                data,
            }
        }
        7 => {
            let (text, data) = buffers(rng, made);
            Op::Move {
                from: any_plan(rng, made),
                to: any_plan(rng, made),
                text,
                data,
            }
        }
        _ => Op::Module,
    }
}
