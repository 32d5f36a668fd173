//! The address table of two benches, request 6: lists of calls, damages and accepted
//! edges.

use super::damage::{hurt, of_loader, rich_with, row, Hurt, Row};
use super::make::{Head, Made};
use super::rng::Rng;
use super::{Edge, Op};
use crate::{
    loader_symbols, RowKey, TableCall, ABSENT, FULL, INDEX, LOADER, LONG, ROOM, SHORT, TABLE_ROWS,
};
use TableCall::{Add, Fill, LookUp, Remove};

pub static ROWS: &[Row] = &[
    row("table: bench", INDEX, |rng| {
        let made = module(rng);
        let bench = bad_bench(rng);
        let names = names(rng, &made);
        let mut key = any_key(rng, &names);
        key.bench = bench;
        if rng.chance(40) {
            // Before the name.
            key.name = bad_name(rng);
        }
        let call = match rng.below(3) {
            0 => Add(key, 5),
            1 => Remove(key),
            _ => LookUp(key),
        };
        last(rng, made, call, INDEX, bench)
    }),
    row("table: bench of a fill", INDEX, |rng| {
        let mut made = module(rng);
        let bench = bad_bench(rng);
        if rng.chance(40) {
            // Before the module.
            made.bytes.truncate(3);
        }
        let list = vec![7; rng.below(3) as usize];
        last(rng, made, Fill { bench, list }, INDEX, bench)
    }),
    row("table: long name", LONG, |rng| {
        hurt_name(rng, |rng| {
            let length = rng.pick(&[33, 33, 34, 64, 256, 256 + 5, 300]);
            rng.bytes(length)
        })
    }),
    row("table: empty name", LONG, |rng| {
        hurt_name(rng, |_| Vec::new())
    }),
    row("table: long before full", LONG, |rng| {
        let made = module(rng);
        let mut calls = full_table(rng);
        let name = bad_name(rng);
        let bench = rng.between(1, 2);
        let key = RowKey {
            bench,
            file_id: 1,
            name,
        };
        calls.push(Add(key, 1));
        hurt(made, Op::Table(calls), LONG, 0)
    }),
    row("table: full", FULL, |rng| {
        let made = module(rng);
        let mut calls = full_table(rng);
        if rng.chance(50) {
            // One is removed, and its row used again.
            let at = rng.below(calls.len() as u64) as usize;
            if let Add(key, address) = calls[at].clone() {
                let other = new_key(rng);
                let again = rng.pick(&[key.clone(), other]);
                calls.extend([Remove(key), Add(again, address)]);
            }
        }
        calls.push(Add(new_key(rng), 1));
        hurt(made, Op::Table(calls), FULL, 0)
    }),
    row("table: absent", ABSENT, |rng| {
        let made = module(rng);
        let names = names(rng, &made);
        let key = any_key(rng, &names);
        let mut calls = vec![Add(key.clone(), rng.next())];
        let other = match rng.below(5) {
            0 => RowKey {
                bench: 3 - key.bench,
                ..key.clone()
            },
            1 => RowKey {
                file_id: key.file_id ^ rng.pick(&[1, 0x100, 0x8000_0000]),
                ..key.clone()
            },
            2 => RowKey {
                name: other_name(rng, &key.name),
                ..key.clone()
            },
            _ => {
                // It was there.
                calls.push(Remove(key.clone()));
                key.clone()
            }
        };
        calls.push(if rng.chance(50) {
            Remove(other)
        } else {
            LookUp(other)
        });
        hurt(made, Op::Table(calls), ABSENT, 0)
    }),
    row("table: fill of no module", LOADER, |rng| {
        let mut made = module(rng);
        made.put(made.head(Head::Version)?, rng.pick(&[0, 3]));
        let refusal = of_loader(&made, LOADER, 1)?;
        let bench = rng.between(1, 2);
        // Before its list.
        let list = vec![7; rng.below(9) as usize];
        let op = Op::Table(vec![Fill { bench, list }]);
        Some(Hurt { made, op, refusal })
    }),
    row("table: fill of no file", SHORT, |rng| {
        let mut made = module(rng);
        made.bytes.truncate(rng.below(20) as usize);
        if made.bytes.len() < 2 {
            made.bytes.clear();
        }
        let bench = rng.between(1, 2);
        let op = Op::Table(vec![Fill {
            bench,
            list: Vec::new(),
        }]);
        hurt(made, op, SHORT, 0)
    }),
    row("table: room 2 of a fill", ROOM, |rng| {
        let made = module(rng);
        let right = made.loader_symbols.len();
        let wrong = rng.pick(&[0, right - 1, right + 1, right + 100]);
        let list = vec![7; wrong];
        let bench = rng.between(1, 2);
        last(rng, made, Fill { bench, list }, ROOM, 2)
    }),
];

fn module(rng: &mut Rng) -> Made {
    rich_with(rng, |_| ())
}

fn bad_bench(rng: &mut Rng) -> u64 {
    rng.pick(&[0, 0, 3, 3, 4, 255, 257, 0x1_0000_0001, 1 << 63, u64::MAX])
}

fn bad_name(rng: &mut Rng) -> Vec<u8> {
    let length = rng.pick(&[0, 0, 33, 33, 40, 288]);
    rng.bytes(length)
}

/// Names that rows may have: the module's own, others near them, and those at the
/// ends of what is allowed; with the file ids.
fn names(rng: &mut Rng, made: &Made) -> Vec<(u64, Vec<u8>)> {
    let mut all = Vec::new();
    for symbol in loader_symbols(&made.bytes)
        .unwrap_or_default()
        .iter()
        .take(12)
    {
        let name = made.bytes[symbol.name.clone()].to_vec();
        if !name.is_empty() && name.len() <= 32 {
            all.push((symbol.file_id, name.clone()));
            all.push((symbol.file_id ^ 1, name.clone()));
            all.push((symbol.file_id, other_name(rng, &name)));
        }
    }
    let long = rng.bytes(32);
    for name in [
        b"a".to_vec(),
        b"a\0".to_vec(),
        vec![0],
        long[..31].to_vec(),
        long,
    ] {
        let id = rng.pick(&[0, 1, 2, 0x0001_0001, 0xFFFF_FFFF]);
        all.push((id, name));
    }
    all
}

/// A name near another one: shorter, longer by a zero, or with another last byte.
fn other_name(rng: &mut Rng, name: &[u8]) -> Vec<u8> {
    let mut name = name.to_vec();
    match rng.below(3) {
        0 if name.len() > 1 => name.truncate(name.len() - 1),
        1 if name.len() < 32 => name.push(0),
        _ => {
            let last = name.len() - 1;
            name[last] ^= 0x80;
        }
    }
    name
}

fn any_key(rng: &mut Rng, names: &[(u64, Vec<u8>)]) -> RowKey {
    let (file_id, name) = rng.pick(names);
    RowKey {
        bench: rng.between(1, 2),
        file_id,
        name,
    }
}

/// A key that no list has drawn before.
fn new_key(rng: &mut Rng) -> RowKey {
    RowKey {
        bench: rng.between(1, 2),
        file_id: rng.below(4),
        name: rng.bytes(12),
    }
}

/// Additions that take all rows, in any mixture of both benches.
fn full_table(rng: &mut Rng) -> Vec<TableCall> {
    let mut calls = Vec::new();
    let mine = rng.pick(&[0, 50, 100]);
    for i in 0..TABLE_ROWS as u64 {
        let key = RowKey {
            bench: if rng.chance(mine) { 1 } else { 2 },
            file_id: i % 3,
            name: format!("n{i}").into_bytes(),
        };
        calls.push(Add(key, rng.next()));
    }
    calls
}

/// A call that is refused, after some that aren't.
fn last(rng: &mut Rng, made: Made, call: TableCall, number: u64, item: u64) -> Option<Hurt> {
    let names = names(rng, &made);
    let mut calls = Vec::new();
    for _ in 0..rng.below(4) {
        calls.push(Add(any_key(rng, &names), rng.next()));
    }
    calls.push(call);
    hurt(made, Op::Table(calls), number, item)
}

fn hurt_name(rng: &mut Rng, name: fn(&mut Rng) -> Vec<u8>) -> Option<Hurt> {
    let made = module(rng);
    let key = RowKey {
        bench: rng.between(1, 2),
        file_id: rng.below(3),
        name: name(rng),
    };
    let call = match rng.below(3) {
        0 => Add(key, 5),
        1 => Remove(key),
        _ => LookUp(key),
    };
    last(rng, made, call, LONG, 0)
}

fn fill(rng: &mut Rng, made: &Made, bench: u64) -> TableCall {
    let list = (0..made.loader_symbols.len()).map(|_| rng.next()).collect();
    Fill { bench, list }
}

pub(super) static EDGES: &[Edge] = &[
    ("table", |rng| {
        let made = module(rng);
        let calls = any_calls(rng, &made);
        Some((made, vec![Op::Table(calls)]))
    }),
    ("table filled for both benches", |rng| {
        let made = module(rng);
        let mut calls = Vec::new();
        for symbol in loader_symbols(&made.bytes).ok()? {
            let name = made.bytes[symbol.name.clone()].to_vec();
            if (1..=32).contains(&name.len()) {
                let bench = rng.between(1, 2);
                let file_id = symbol.file_id;
                let key = RowKey {
                    bench,
                    file_id,
                    name,
                };
                let address = rng.next();
                calls.push(Add(key, rng.pick(&[0, u64::MAX, 1 << 32, address])));
            }
        }
        calls.extend([fill(rng, &made, 1), fill(rng, &made, 2)]);
        Some((made, vec![Op::Table(calls)]))
    }),
    ("table of 512 rows", |rng| {
        let made = module(rng);
        let mut calls = full_table(rng);
        let at = rng.below(calls.len() as u64) as usize;
        if let Add(key, _) = calls[at].clone() {
            // Its address is replaced, it is removed, and another one comes.
            let other = new_key(rng);
            calls.extend([
                Add(key.clone(), 7),
                LookUp(key.clone()),
                Remove(key.clone()),
                Add(other.clone(), 8),
                LookUp(other),
            ]);
        }
        calls.push(fill(rng, &made, 1));
        Some((made, vec![Op::Table(calls)]))
    }),
    ("one row of each bench", |rng| {
        let made = module(rng);
        let names = names(rng, &made);
        let one = any_key(rng, &names);
        let other = RowKey {
            bench: 3 - one.bench,
            ..one.clone()
        };
        let calls = vec![
            Add(one.clone(), 1),
            Add(other.clone(), 2),
            LookUp(one.clone()),
            Remove(other),
            LookUp(one.clone()),
            fill(rng, &made, one.bench),
        ];
        Some((made, vec![Op::Table(calls)]))
    }),
    ("names that differ by a zero", |rng| {
        let made = module(rng);
        let key = |length: usize, zeros: usize| RowKey {
            bench: 1,
            file_id: 1,
            name: [vec![b'n'; length], vec![0; zeros]].concat(),
        };
        let length = rng.pick(&[1, 8, 30, 31]);
        let (one, other) = (key(length, 1), key(length, 0));
        let calls = vec![
            Add(one.clone(), 1),
            Add(other.clone(), 2),
            LookUp(one.clone()),
            Remove(other),
            LookUp(one),
        ];
        Some((made, vec![Op::Table(calls)]))
    }),
    ("fill for names that no row has", |rng| {
        let mut made = module(rng);
        // Imports by name of the string table, empty or of 33 bytes.
        made.bytes.extend_from_slice(&[0, 1, 0, 0, 34]);
        let long = made.bytes.len();
        made.bytes.extend(vec![b'n'; 33]);
        made.bytes.push(0);
        made.stretch_loader();
        for (head, value) in [
            (Head::StringOffset, (long - 5 - made.loader_at) as u64),
            (Head::StringLength, 39),
        ] {
            let field = made.head(head)?;
            made.put(field, value);
        }
        for i in 0..made.loader_symbols.len() {
            made.set_loader_name_offset(i, rng.pick(&[2, 5]));
        }
        let key = RowKey {
            bench: 1,
            file_id: 1,
            name: vec![b'n'; 32],
        };
        let calls = vec![Add(key, 9), fill(rng, &made, 1)];
        Some((made, vec![Op::Table(calls)]))
    }),
];

/// Calls of all sorts; refused ones are rare.
fn any_calls(rng: &mut Rng, made: &Made) -> Vec<TableCall> {
    let names = names(rng, made);
    let mut calls = Vec::new();
    let mut known = vec![any_key(rng, &names)];
    for _ in 0..rng.between(3, 20) {
        let mut key = if rng.chance(70) {
            rng.pick(&known)
        } else {
            any_key(rng, &names)
        };
        if rng.chance(3) {
            key.bench = bad_bench(rng);
        }
        if rng.chance(3) {
            key.name = bad_name(rng);
        }
        calls.push(match rng.below(8) {
            0..=2 => {
                known.push(key.clone());
                Add(key, rng.next())
            }
            3 => Remove(key),
            4 | 5 => LookUp(key),
            _ => fill(rng, made, key.bench),
        });
    }
    calls
}

/// For a part of the files.
pub(super) fn some_op(rng: &mut Rng, made: &Made) -> Option<Op> {
    if !rng.chance(25) || made.loader_symbols.len() > 1_000 {
        return None;
    }
    let mut calls = any_calls(rng, made);
    let bench = rng.between(1, 2);
    let mut last = fill(rng, made, bench);
    if let Fill { list, .. } = &mut last {
        if rng.chance(10) {
            list.push(1);
        }
    }
    calls.push(last);
    Some(Op::Table(calls))
}
