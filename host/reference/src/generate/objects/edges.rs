//! Objects at an accepted edge, plain ones, and some with bytes changed at random.

use super::branches::{accepted, Aim};
use super::{any_op, buffer, fitting_list, recorded_list, rich, rich_with};
use crate::generate::changed::{flip, put_odd_numbers};
use crate::generate::make::linkable::{any_row, overflow, Sort};
use crate::generate::make::{self, Made, MadeRow, Part, RowPart, Wish};
use crate::generate::rng::Rng;
use crate::generate::{Edge, Op};
use crate::opening::{DATA, OVRFLO, TEXT};
use crate::ObjectCall;

pub(in crate::generate) static EDGES: &[Edge] = &[
    ("object", |rng| {
        let wish = Wish {
            rich: rng.chance(50),
            ..Wish::default()
        };
        let made = make::linkable(rng, &wish);
        Some(with_ops(rng, made))
    }),
    ("object with odd numbers", |rng| {
        let mut made = make::linkable(rng, &Wish::default());
        put_odd_numbers(rng, &mut made);
        Some(with_ops(rng, made))
    }),
    ("object with flipped bits", |rng| {
        let mut made = rich(rng);
        flip(rng, &mut made);
        Some(with_ops(rng, made))
    }),
    ("branch at the top", |rng| accepted(rng, Aim::Top)),
    ("branch at the bottom", |rng| accepted(rng, Aim::Bottom)),
    ("branch, amounts that cancel", |rng| {
        accepted(rng, Aim::Cancel)
    }),
    ("a chain of moves back to its start", |rng| {
        let made = rich(rng);
        let [p, q, r] = [0, 1, 2].map(|_| fitting_list(rng, &made));
        let calls = vec![
            ObjectCall::Build(p.clone()),
            ObjectCall::Move(p.clone(), q.clone()),
            ObjectCall::Move(q, r.clone()),
            ObjectCall::Move(r, p.clone()),
            ObjectCall::Move(p.clone(), p),
        ];
        let buffer = buffer(rng, &made);
        Some((made, vec![Op::ObjectCalls { calls, buffer }]))
    }),
    ("type 0F on anything", |rng| {
        let mut made = rich(rng);
        for i in 0..made.rows.len() {
            if rng.chance(50) {
                made.set_row(i, RowPart::Kind, 0x0F);
                let any = rng.next() >> rng.pick(&[0, 32]);
                made.set_row(i, RowPart::Address, any);
                made.set_row(i, RowPart::Size, rng.below(256));
            }
        }
        Some(with_ops(rng, made))
    }),
    ("table that ends with the file", |rng| {
        let mut made = rich(rng);
        let last = made.rows.last()?.at + made.row_length();
        made.bytes.truncate(last);
        Some(with_ops(rng, made))
    }),
    ("empty table at the file's end", |rng| {
        let mut made = rich(rng);
        let n = rng.pick(&made.sections_of(&[TEXT, DATA]));
        made.put_part(n, Part::RelocationCount, 0);
        let length = made.bytes.len() as u64;
        made.put_part(n, Part::RelocationPointer, length);
        made.rows.retain(|row| row.section != n);
        Some(with_ops(rng, made))
    }),
    ("count in an overflow header", |rng| {
        let mut made = rich_with(rng, |wish| {
            wish.bits = Some(32);
            wish.kinds = vec![OVRFLO];
        });
        for n in made.sections_of(&[TEXT, DATA, OVRFLO]) {
            let rows = made.rows.iter().filter(|row| row.section == n).count();
            made.put_part(n, Part::RelocationCount, rows as u64);
        }
        let header = rng.pick(&made.sections_of(&[OVRFLO]));
        let n = rng.pick(&made.sections_of(&[TEXT, DATA]));
        overflow(&mut made, n, header);
        Some(with_ops(rng, made))
    }),
    ("65,534 entries", |rng| many_entries(rng, 65_534)),
    ("65,535 entries", |rng| many_entries(rng, 65_535)),
    ("65,536 entries", |rng| many_entries(rng, 65_536)),
    ("entries on fields of their own", |rng| {
        let made = rich_with(rng, |wish| {
            wish.huge = true;
            wish.entries = Some(30_000);
        });
        let list = recorded_list(rng, &made);
        let buffer = buffer(rng, &made);
        Some((made, vec![Op::ObjectBuild { list, buffer }]))
    }),
    ("sections at one address", |rng| {
        let mut made = rich_with(rng, |wish| wish.entries = Some(0));
        let sections = made.sections_of(&[TEXT, DATA]);
        let symbol = rng.pick(&made.symbols).index;
        for (k, &n) in sections.iter().enumerate() {
            made.put_address(n, 0x1000);
            // Fields that would meet in one section.
            let sort = rng.pick(&[Sort::Narrow, Sort::Branch]);
            let row = any_row(rng, (0x1000 + k as u64 % 4, sort), symbol);
            made.add_rows(n, &[row]);
        }
        Some(with_ops(rng, made))
    }),
    ("symbols that do not move", |rng| {
        let mut made = rich_with(rng, |wish| wish.kinds = vec![crate::opening::TDATA]);
        let all: Vec<u64> = (1..=made.flags.len() as u64)
            .filter(|&n| !super::has_address(&made, n))
            .chain([0, 0xFFFF, 0xFFFE])
            .collect();
        for symbol in made.symbols.clone() {
            if rng.chance(70) {
                made.set_symbol_section(symbol.index, rng.pick(&all));
            }
        }
        Some(with_ops(rng, made))
    }),
];

fn with_ops(rng: &mut Rng, made: Made) -> (Made, Vec<Op>) {
    let mut ops = vec![Op::Object];
    for _ in 0..rng.between(2, 4) {
        ops.push(any_op(rng, &made));
    }
    (made, ops)
}

/// One table around the largest count of XCOFF32; from there on it is in an overflow
/// header.
fn many_entries(rng: &mut Rng, count: u64) -> Option<(Made, Vec<Op>)> {
    let mut made = rich_with(rng, |wish| {
        wish.entries = Some(0);
        wish.kinds = vec![OVRFLO];
    });
    let sections = made.sections_of(&[TEXT, DATA]);
    let n = rng.pick(&sections);
    let header = rng.pick(&made.sections_of(&[OVRFLO]));
    let start = made.part(n, Part::Paddr);
    let symbol = rng.pick(&made.symbols).index;
    let rows: Vec<MadeRow> = (0..count)
        .map(|_| {
            let field = (start + 4 * rng.below(10), Sort::Narrow);
            any_row(rng, field, symbol)
        })
        .collect();
    for &n in &sections {
        made.put_part(n, Part::RelocationCount, 0);
    }
    made.add_rows(n, &rows);
    if made.bits == 32 && count > 65_534 {
        // The field held what fits into it.
        made.put_part(n, Part::RelocationCount, 65_535);
        made.put_part(header, Part::RelocationCount, n);
        made.put_part(header, Part::Paddr, count);
    }
    let list = fitting_list(rng, &made);
    let buffer = buffer(rng, &made);
    Some((made, vec![Op::Object, Op::ObjectBuild { list, buffer }]))
}
