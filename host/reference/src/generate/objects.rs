//! Object files, request 5: plans, operations, damages and accepted edges.

mod branches;
mod damages;
mod edges;

pub use damages::ROWS;
pub(super) use edges::EDGES;

use super::make::{self, fitting_address, Made, Part, Wish};
use super::plans::past_end;
use super::rng::Rng;
use super::Op;
use crate::opening::{BSS, DATA, TEXT};
use crate::ObjectCall;

/// An object with some of everything that can be placed.
fn rich(rng: &mut Rng) -> Made {
    rich_with(rng, |_| ())
}

fn rich_with(rng: &mut Rng, change: fn(&mut Wish)) -> Made {
    let mut wish = Wish {
        rich: true,
        ..Wish::default()
    };
    change(&mut wish);
    make::linkable(rng, &wish)
}

/// Whether section `n` has an address in a plan.
fn has_address(made: &Made, n: u64) -> bool {
    [TEXT, DATA, BSS].contains(&made.flags[n as usize - 1])
}

/// The address of section `n` in the file, 0 for one without headers.
fn recorded_address(made: &Made, n: u64) -> u64 {
    if made.headers_end() <= made.bytes.len() {
        made.part(n, Part::Paddr)
    } else {
        0
    }
}

fn section_size(made: &Made, n: u64) -> u64 {
    if made.headers_end() <= made.bytes.len() {
        made.part(n, Part::Size)
    } else {
        0
    }
}

/// The recorded addresses, and junk at ignored places.
fn recorded_list(rng: &mut Rng, made: &Made) -> Vec<u64> {
    let numbers = 1..=made.flags.len() as u64;
    numbers
        .map(|n| match has_address(made, n) {
            true => recorded_address(made, n),
            false => rng.pick(&[0, u64::MAX, 1 << 32, 0x1234_5678_9ABC_DEF1]),
        })
        .collect()
}

/// A list whose addresses fit. Most are near the recorded ones, so that branches
/// stay in range.
pub fn fitting_list(rng: &mut Rng, made: &Made) -> Vec<u64> {
    let mut list = recorded_list(rng, made);
    let step = rng.pick(&[4, 4, 4, 4, 16, 0x1000, 1, 2]);
    let far = rng.chance(15);
    for n in 1..=made.flags.len() as u64 {
        if !has_address(made, n) || rng.chance(30) {
            continue;
        }
        let place = &mut list[n as usize - 1];
        let size = section_size(made, n);
        let moved = if rng.chance(50) {
            place.wrapping_add(step * rng.below(64))
        } else {
            place.wrapping_sub(step * rng.below(64))
        };
        if far {
            *place = fitting_address(rng, made.bits, size);
        } else if fits(made, moved, size) {
            *place = moved;
        }
    }
    list
}

fn fits(made: &Made, address: u64, size: u64) -> bool {
    let top = make::top(made.bits);
    u128::from(address) < top && u128::from(address) + u128::from(size) <= top
}

/// A list that fits most times.
fn any_list(rng: &mut Rng, made: &Made) -> Vec<u64> {
    let mut list = fitting_list(rng, made);
    if rng.chance(6) && !list.is_empty() {
        let n = rng.between(1, list.len() as u64);
        let past = past_end(rng, made.bits, section_size(made, n).min(1 << 31));
        list[n as usize - 1] = past.unwrap_or(u64::MAX);
    }
    if rng.chance(6) {
        let length = rng.below(list.len() as u64 + 3) as usize;
        list.resize(length, 1);
    }
    list
}

/// Bytes of the buffer that takes the text and data sections; for a file that has too
/// many any number.
fn buffer_length(made: &Made) -> usize {
    let sections = made.sections_of(&[TEXT, DATA]).into_iter();
    let sum = sections.fold(0u64, |sum, n| sum.saturating_add(section_size(made, n)));
    if sum > 4_000_000 {
        return 24;
    }
    sum as usize
}

fn buffer(rng: &mut Rng, made: &Made) -> Vec<u8> {
    rng.bytes(buffer_length(made))
}

fn any_buffer(rng: &mut Rng, made: &Made) -> Vec<u8> {
    let mut buffer = buffer(rng, made);
    if rng.chance(6) {
        let length = rng.below(buffer.len() as u64 + 9) as usize;
        buffer.resize(length, 0x5A);
    }
    buffer
}

/// Builds and moves, most of them chained, some from a list never reached.
fn call_list(rng: &mut Rng, made: &Made) -> Vec<ObjectCall> {
    let mut lists = Vec::new();
    for _ in 0..rng.between(2, 4) {
        lists.push(any_list(rng, made));
    }
    let mut calls = Vec::new();
    let mut last = rng.pick(&lists);
    for i in 0..rng.between(1, 8) {
        let to = rng.pick(&lists);
        if rng.chance(if i == 0 { 60 } else { 15 }) {
            calls.push(ObjectCall::Build(to.clone()));
        } else {
            let from = if rng.chance(75) {
                last
            } else {
                rng.pick(&lists)
            };
            calls.push(ObjectCall::Move(from, to.clone()));
        }
        last = to;
    }
    calls
}

/// An operation on an object, with lists and a buffer that fit most times.
pub(super) fn any_op(rng: &mut Rng, made: &Made) -> Op {
    match rng.below(6) {
        0 => Op::Object,
        1 => Op::ObjectBuild {
            list: any_list(rng, made),
            buffer: any_buffer(rng, made),
        },
        2 => Op::ObjectMove {
            from: any_list(rng, made),
            to: any_list(rng, made),
            buffer: any_buffer(rng, made),
        },
        _ => Op::ObjectCalls {
            calls: call_list(rng, made),
            buffer: any_buffer(rng, made),
        },
    }
}

/// For a part of the files.
pub(super) fn some_op(rng: &mut Rng, made: &Made) -> Option<Op> {
    rng.chance(25).then(|| any_op(rng, made))
}
