//! Request 6: the address table, by hand and against what its sentences say.

use reference::generate::make::{self, Made, Wish};
use reference::generate::rng::Rng;
use reference::generate::{case, Op};
use reference::*;

fn key(bench: u64, file_id: u64, name: &[u8]) -> RowKey {
    RowKey {
        bench,
        file_id,
        name: name.to_vec(),
    }
}

fn pair<T>(result: Result<T, Refusal>) -> Result<T, (u64, u64)> {
    result.map_err(|refusal| {
        assert_eq!(refusal.offset, 0);
        (refusal.number, refusal.item)
    })
}

#[test]
fn rows_of_both_benches() {
    let mut table = AddressTable::default();
    let (mine, other) = (key(1, 7, b"name"), key(2, 7, b"name"));
    assert_eq!(pair(table.look_up(&mine)), Err((ABSENT, 0)));
    table.add(&mine, 0x100).unwrap();
    assert_eq!(pair(table.look_up(&other)), Err((ABSENT, 0)));
    table.add(&other, 0x200).unwrap();
    table.add(&mine, 0x300).unwrap();
    assert_eq!((table.look_up(&mine), table.taken()), (Ok(0x300), 2));
    table.remove(&mine).unwrap();
    assert_eq!(pair(table.remove(&mine)), Err((ABSENT, 0)));
    assert_eq!(table.look_up(&other), Ok(0x200));
}

#[test]
fn names_and_benches() {
    let mut table = AddressTable::default();
    let long = [b'x'; 33];
    for bench in [1, 2] {
        assert_eq!(pair(table.add(&key(bench, 0, &long[..32]), 1)), Ok(()));
        assert_eq!(pair(table.add(&key(bench, 0, b"x"), 1)), Ok(()));
        for name in [&b""[..], &long] {
            let row = key(bench, 0, name);
            assert_eq!(pair(table.add(&row, 1)), Err((LONG, 0)));
            assert_eq!(pair(table.remove(&row)), Err((LONG, 0)));
            assert_eq!(pair(table.look_up(&row)), Err((LONG, 0)));
        }
    }
    for bench in [0, 3, u64::MAX] {
        let row = key(bench, 0, &long);
        assert_eq!(pair(table.add(&row, 1)), Err((INDEX, bench)));
        assert_eq!(pair(table.remove(&row)), Err((INDEX, bench)));
        assert_eq!(pair(table.look_up(&row)), Err((INDEX, bench)));
        assert_eq!(pair(table.fill(bench, b"", &mut [])), Err((INDEX, bench)));
    }
    assert_eq!(pair(table.fill(1, b"", &mut [])), Err((SHORT, 0)));
}

#[test]
fn a_full_table() {
    let mut table = AddressTable::default();
    let row = |i: u64| key(1 + i % 2, i, b"n");
    for i in 0..512 {
        assert_eq!(table.add(&row(i), i), Ok(()));
    }
    assert_eq!(pair(table.add(&row(512), 1)), Err((FULL, 0)));
    // One that is there is replaced, and a removed row is used again.
    assert_eq!(table.add(&row(5), 99), Ok(()));
    table.remove(&row(6)).unwrap();
    assert_eq!(table.add(&row(512), 1), Ok(()));
    assert_eq!(pair(table.add(&row(6), 1)), Err((FULL, 0)));
    assert_eq!((table.look_up(&row(5)), table.taken()), (Ok(99), 512));
}

fn module_of(seed: u64) -> Made {
    let wish = Wish {
        rich: true,
        ..Wish::default()
    };
    make::module(&mut Rng::new(seed), &wish)
}

#[test]
fn fills() {
    for seed in 0..500 {
        let made = module_of(seed);
        let symbols = loader_symbols(&made.bytes).unwrap();
        let mut table = AddressTable::default();
        for (i, symbol) in symbols.iter().enumerate() {
            let name = &made.bytes[symbol.name.clone()];
            let row = key(1 + i as u64 % 2, symbol.file_id, name);
            let _ = table.add(&row, u64::MAX - i as u64);
        }
        for bench in [1, 2] {
            let mut list = vec![7; symbols.len()];
            table.fill(bench, &made.bytes, &mut list).unwrap();
            for (symbol, &address) in symbols.iter().zip(&list) {
                let row = key(bench, symbol.file_id, &made.bytes[symbol.name.clone()]);
                let expected = match (symbol.from_plan(), table.look_up(&row)) {
                    (true, Ok(address)) => address,
                    (true, Err(_)) => symbol.value,
                    (false, _) => 0,
                };
                assert_eq!(address, expected);
            }
            let mut wrong = vec![7; symbols.len() + 1];
            let refusal = pair(table.fill(bench, &made.bytes, &mut wrong));
            assert_eq!(refusal, Err((ROOM, 2)));
            assert!(wrong.iter().all(|&place| place == 7));
        }
    }
}

/// The calls of one bench answer alike without those of the other, but for additions
/// that find the table full.
#[test]
fn a_bench_depends_on_its_own_rows() {
    let mut lists = 0;
    for seed in 0..6_000 {
        let case = case(seed);
        for op in &case.ops {
            let Op::Table(calls) = op else { continue };
            lists += 1;
            for bench in [1, 2] {
                let mut whole = AddressTable::default();
                let mut own = AddressTable::default();
                for call in calls {
                    let answer = run_table_call(&mut whole, &case.file, call);
                    let full = answer.refusal().is_some_and(|r| r.number == FULL);
                    if bench_of(call) == bench && !full {
                        assert_eq!(run_table_call(&mut own, &case.file, call), answer);
                    }
                    assert_eq!(whole.rows_of(bench), own.rows_of(bench));
                }
            }
        }
    }
    assert!(lists > 1_000, "{lists} lists");
}

fn bench_of(call: &TableCall) -> u64 {
    match call {
        TableCall::Add(row, _) | TableCall::Remove(row) | TableCall::LookUp(row) => row.bench,
        TableCall::Fill { bench, .. } => *bench,
    }
}
