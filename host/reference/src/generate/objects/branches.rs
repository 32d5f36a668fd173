//! Branches whose value after the sum is known: outside the range, or at its ends.

use super::{recorded_list, rich_with};
use crate::bytes::put;
use crate::generate::damage::Hurt;
use crate::generate::make::linkable::Sort;
use crate::generate::make::{top, Made, MadeRow, Part};
use crate::generate::rng::Rng;
use crate::generate::Op;
use crate::opening::{BSS, DATA, TEXT};
use crate::{Refusal, RANGE};

/// The ends of a branch's value.
const LOWEST: i128 = -33_554_432;
const HIGHEST: i128 = 33_554_428;

/// Where a branch's value goes.
#[derive(Clone, Copy, PartialEq)]
pub(super) enum Aim {
    Above,
    Below,
    Step,
    /// The value as it was, if the sum is dropped at 26 bits.
    Wrap26,
    /// At 64 bits.
    Wrap64,
    Top,
    Bottom,
    /// Amounts beyond any range that come to nothing.
    Cancel,
}

/// An object without entries, and what its branches are about.
pub(super) struct Bench {
    pub made: Made,
    /// The section with the branches.
    own: u64,
    /// The section that moves, and a symbol in it.
    other: u64,
    symbol: u64,
    /// A symbol that doesn't move.
    fixed: u64,
}

impl Bench {
    pub(super) fn any(rng: &mut Rng) -> Option<Bench> {
        let mut made = rich_with(rng, |wish| wish.entries = Some(0));
        let tables = made.sections_of(&[TEXT, DATA]);
        let own = rng.pick(&tables);
        let mut others = made.sections_of(&[TEXT, DATA, BSS]);
        others.retain(|&n| n != own);
        let other = rng.pick(&others);
        // At 0, so that it can move as far as there are addresses.
        made.put_address(other, 0);
        let (symbol, fixed) = (made.symbols[0].index, made.symbols[1].index);
        made.set_symbol_section(symbol, other);
        let fixed_section = rng.pick(&[0, 0xFFFF, 0xFFFE]);
        made.set_symbol_section(fixed, fixed_section);
        Some(Bench {
            made,
            own,
            other,
            symbol,
            fixed,
        })
    }

    /// How far the other section can move up.
    fn most(&self) -> i128 {
        let size = self.made.part(self.other, Part::Size);
        top(self.made.bits) as i128 - i128::from(size)
    }

    /// The address of the `k`-th word of the branches' section.
    fn word(&self, k: u64) -> u64 {
        self.made.part(self.own, Part::Paddr) + 4 * k
    }

    fn branch(&self, rng: &mut Rng, k: u64, symbol: u64, kinds: [u64; 2]) -> MadeRow {
        MadeRow {
            section: self.own,
            at: 0,
            address: self.word(k),
            symbol,
            size: Sort::Branch.size(rng),
            kind: rng.pick(&kinds),
        }
    }

    /// Puts the rows into the table of the branches' section. Tables are added in
    /// order, and the others stay empty.
    fn add(&mut self, rows: &[MadeRow]) {
        self.made.add_rows(self.own, rows);
    }

    /// Gives the `k`-th word a value, in the file and in a buffer; its other bits are
    /// any.
    fn set_value(&mut self, rng: &mut Rng, buffer: &mut [u8], k: u64, value: i128) {
        let word = rng.below(1 << 32) & !0x03FF_FFFC | value as u64 & 0x03FF_FFFC;
        let raw = self.made.part(self.own, Part::Pointer) as usize;
        put(&mut self.made.bytes, raw + 4 * k as usize, 4, word);
        put(buffer, self.place() + 4 * k as usize, 4, word);
    }

    /// Where the branches' section starts in the buffer.
    fn place(&self) -> usize {
        let before = self.made.sections_of(&[TEXT, DATA]).into_iter();
        before
            .filter(|&n| n < self.own)
            .map(|n| self.made.part(n, Part::Size) as usize)
            .sum()
    }

    /// These sections moved up by their amounts, all others where they are: a build,
    /// or a move from the recorded addresses.
    fn op(&self, rng: &mut Rng, amounts: &[(u64, i128)], buffer: Vec<u8>) -> Op {
        let from = recorded_list(rng, &self.made);
        let mut to = from.clone();
        for &(n, amount) in amounts {
            let place = &mut to[n as usize - 1];
            *place = (i128::from(*place) + amount) as u64;
        }
        if rng.chance(50) {
            Op::ObjectBuild { list: to, buffer }
        } else {
            Op::ObjectMove { from, to, buffer }
        }
    }
}

/// The rows of one word, how far sections move, and the word's value before.
struct Plan {
    rows: Vec<MadeRow>,
    amounts: Vec<(u64, i128)>,
    value: i128,
}

fn plan(rng: &mut Rng, bench: &mut Bench, aim: Aim) -> Option<Plan> {
    let count = rng.pick(&[1, 1, 2, 3]) as i128;
    let step = rng.between(1, 0x10_0000) as i128;
    let amount = match aim {
        Aim::Step => 4 * step + rng.between(1, 3) as i128,
        Aim::Wrap26 => rng.between(1, 60) as i128 * (1 << 26),
        Aim::Wrap64 | Aim::Cancel => match bench.made.bits {
            32 => rng.pick(&[1 << 31, 1 << 28, (1 << 32) - 0x1000]),
            _ => rng.pick(&[1 << 63, 1 << 62, 1 << 40, (1 << 64) - 0x1000]),
        },
        _ => 4 * step,
    };
    if amount > bench.most() {
        return None;
    }
    if aim == Aim::Cancel {
        return cancelled(rng, bench, amount);
    }
    let count = match aim {
        // 2^63 twice, and so on.
        Aim::Wrap64 if bench.made.bits == 64 && amount >= 1 << 62 => {
            if amount > 1 << 63 {
                return None;
            }
            (1 << 64) / amount
        }
        Aim::Wrap64 => return None,
        _ => count,
    };
    let sum = count * amount;
    let value = match aim {
        Aim::Above => HIGHEST + 4 * rng.pick(&[1, 1, 1, 2, 100]) - sum,
        Aim::Top => HIGHEST - sum,
        Aim::Step => 4 * (rng.between(0, 0x100_0000) as i128 - 0x80_0000) - 4 * step,
        Aim::Bottom | Aim::Below => return down(rng, bench, aim, amount, count),
        _ => 4 * (rng.between(0, 0x100_0000) as i128 - 0x80_0000),
    };
    if value < LOWEST || value > HIGHEST || (aim == Aim::Step && sum % 4 == 0) {
        return None;
    }
    let symbol = bench.symbol;
    let rows = (0..count)
        .map(|_| bench.branch(rng, 0, symbol, [0x08, 0x18]))
        .collect();
    let other = bench.other;
    Some(Plan {
        rows,
        amounts: vec![(other, amount)],
        value,
    })
}

/// Relative branches to a symbol that stays, in a section that moves up: their value
/// goes down.
fn down(rng: &mut Rng, bench: &mut Bench, aim: Aim, amount: i128, count: i128) -> Option<Plan> {
    let own = bench.own;
    bench.made.put_address(own, 0x1000);
    let sum = -count * amount;
    let lower = match aim {
        Aim::Bottom => 0,
        _ => rng.pick(&[1, 1, 1, 2, 100]),
    };
    let value = LOWEST - 4 * lower - sum;
    if value > HIGHEST {
        return None;
    }
    let fixed = bench.fixed;
    let rows = (0..count)
        .map(|_| bench.branch(rng, 0, fixed, [0x0A, 0x1A]))
        .collect();
    Some(Plan {
        rows,
        amounts: vec![(own, amount)],
        value,
    })
}

/// Both sections move up as far, and the word has a relative branch to the other one;
/// or an absolute one to it and a relative one to what stays.
fn cancelled(rng: &mut Rng, bench: &mut Bench, amount: i128) -> Option<Plan> {
    let (own, other, symbol, fixed) = (bench.own, bench.other, bench.symbol, bench.fixed);
    bench.made.put_address(own, 0);
    let size = bench.made.part(own, Part::Size);
    if amount + i128::from(size) > top(bench.made.bits) as i128 {
        return None;
    }
    let rows = if rng.chance(50) {
        vec![bench.branch(rng, 0, symbol, [0x0A, 0x1A])]
    } else {
        vec![
            bench.branch(rng, 0, fixed, [0x0A, 0x1A]),
            bench.branch(rng, 0, symbol, [0x08, 0x18]),
        ]
    };
    let value = rng.pick(&[LOWEST, HIGHEST, 0, -4]);
    Some(Plan {
        rows,
        amounts: vec![(own, amount), (other, amount)],
        value,
    })
}

/// An object with one branch word whose value goes there, and the operation.
fn aimed(rng: &mut Rng, aim: Aim) -> Option<(Bench, Op)> {
    let mut bench = Bench::any(rng)?;
    let plan = plan(rng, &mut bench, aim)?;
    let mut buffer = super::buffer(rng, &bench.made);
    bench.set_value(rng, &mut buffer, 0, plan.value);
    bench.add(&plan.rows);
    let op = bench.op(rng, &plan.amounts, buffer);
    Some((bench, op))
}

pub(super) fn refused(rng: &mut Rng, aim: Aim) -> Option<Hurt> {
    let (bench, op) = aimed(rng, aim)?;
    range(bench.made, op, 0)
}

pub(super) fn accepted(rng: &mut Rng, aim: Aim) -> Option<(Made, Vec<Op>)> {
    let (bench, op) = aimed(rng, aim)?;
    Some((bench.made, vec![op]))
}

fn range(made: Made, op: Op, i: usize) -> Option<Hurt> {
    let refusal = Refusal {
        number: RANGE,
        item: i as u64,
        offset: made.rows[i].at as u64,
    };
    Some(Hurt { made, op, refusal })
}

/// Some words, of which those that have a row on the moving symbol leave the range:
/// the lowest row on one of these is named, also a row that moves nothing, and
/// wherever its word lies.
pub(super) fn lowest(rng: &mut Rng) -> Option<Hurt> {
    let mut bench = Bench::any(rng)?;
    let amount = 1 << 27;
    if amount > bench.most() {
        return None;
    }
    let mut buffer = super::buffer(rng, &bench.made);
    let words = 5;
    let mut rows = Vec::new();
    for k in 0..words {
        let value = 4 * (rng.between(0, 0x100_0000) as i128 - 0x80_0000);
        bench.set_value(rng, &mut buffer, k, value);
        let (symbol, fixed) = (bench.symbol, bench.fixed);
        if rng.chance(60) {
            rows.push(bench.branch(rng, k, fixed, [0x08, 0x18]));
        }
        if rng.chance(50) {
            rows.push(bench.branch(rng, k, symbol, [0x08, 0x1A]));
        }
    }
    rng.shuffle(&mut rows);
    let bad = |row: &MadeRow| {
        rows.iter()
            .any(|r| r.address == row.address && r.symbol == bench.symbol)
    };
    let first = rows.iter().position(bad)?;
    bench.add(&rows);
    let amounts = [(bench.other, amount)];
    let op = bench.op(rng, &amounts, buffer);
    range(bench.made, op, first)
}
