//! The address table of two benches: its edges, that neither bench sees the other, and plans filled from it. Lists of calls are
//! compared with the second implementation by `agree`.

use reference::generate::rng::Rng;
use std::collections::BTreeMap;
use std::fs;
use std::path::PathBuf;
use std::process::Command;
use xcoff::{AddressTable, Refusal, RowName, TableCall, TableReplayed, TableRow};

const INDEX: u64 = 8;
const FULL: u64 = 26;
const ABSENT: u64 = 27;
const LONG: u64 = 28;

fn refusal(number: u64, item: u64) -> Refusal {
    Refusal {
        number,
        item,
        offset: 0,
    }
}

fn corpus() -> PathBuf {
    PathBuf::from(env!("CARGO_MANIFEST_DIR")).join("../tests/corpus")
}

fn real(name: &str) -> Vec<u8> {
    fs::read(corpus().join(name)).unwrap_or_else(|e| panic!("{name}: {e}"))
}

fn row(file_id: u64, name: &[u8], address: u64) -> TableRow {
    TableRow {
        file_id,
        name: name.to_vec(),
        address,
    }
}

/// A table with so many rows: of bench 1 and 2 in turn, ids and names of their own.
fn with_rows(count: u64) -> AddressTable {
    let mut table = AddressTable::new();
    for n in 0..count {
        let name = format!("row{n}");
        let added = table.add(1 + n % 2, n / 7, name.as_bytes(), 1_000 * n);
        assert_eq!(added, Ok(()), "{n}");
    }
    table
}

// ---- rows

#[test]
fn rows_are_added_found_replaced_and_removed() {
    let mut table = AddressTable::new();
    assert_eq!(table.find(1, 3, b"puts"), Err(refusal(ABSENT, 0)));
    assert_eq!(table.add(1, 3, b"puts", 0x1000), Ok(()));
    assert_eq!(table.add(1, 4, b"puts", u64::MAX), Ok(()));
    assert_eq!(table.add(1, 3, b"put", 0), Ok(()));
    assert_eq!(table.find(1, 3, b"puts"), Ok(0x1000));
    assert_eq!(table.find(1, 4, b"puts"), Ok(u64::MAX));
    assert_eq!(table.find(1, 3, b"put"), Ok(0));
    assert_eq!(table.add(1, 3, b"puts", 0x2000), Ok(()));
    assert_eq!(table.find(1, 3, b"puts"), Ok(0x2000));
    assert_eq!(table.remove(1, 3, b"puts"), Ok(()));
    assert_eq!(table.find(1, 3, b"puts"), Err(refusal(ABSENT, 0)));
    assert_eq!(table.remove(1, 3, b"puts"), Err(refusal(ABSENT, 0)));
    let left = [row(3, b"put", 0), row(4, b"puts", u64::MAX)];
    assert_eq!(table.rows(1), Ok(left.to_vec()));
    assert_eq!(table.rows(2), Ok(Vec::new()));
}

#[test]
fn a_row_is_of_one_bench() {
    let mut table = AddressTable::new();
    table.add(1, 3, b"puts", 1).unwrap();
    assert_eq!(table.find(2, 3, b"puts"), Err(refusal(ABSENT, 0)));
    assert_eq!(table.remove(2, 3, b"puts"), Err(refusal(ABSENT, 0)));
    table.add(2, 3, b"puts", 2).unwrap();
    assert_eq!(table.find(1, 3, b"puts"), Ok(1));
    table.remove(2, 3, b"puts").unwrap();
    assert_eq!(table.find(1, 3, b"puts"), Ok(1));
}

/// File id, then the name's bytes; a name before one that goes on.
#[test]
fn rows_are_listed_in_the_order_of_id_and_name() {
    let names: [&[u8]; 6] = [b"b", b"a\0", b"\xFF", b"a", b"ab", &[b'a'; 32]];
    let ids = [u64::MAX, 0, 5];
    let mut table = AddressTable::new();
    for (id, name) in ids.iter().flat_map(|id| names.map(|name| (id, name))) {
        table.add(2, *id, name, 7).unwrap();
    }
    let mut sorted: Vec<TableRow> = ids
        .iter()
        .flat_map(|&id| names.map(|name| row(id, name, 7)))
        .collect();
    sorted.sort_by(|a, b| (a.file_id, &a.name).cmp(&(b.file_id, &b.name)));
    assert_eq!(table.rows(2), Ok(sorted));
}

#[test]
fn names_have_1_to_32_bytes_and_are_all_of_them() {
    let mut table = AddressTable::new();
    let long = [b'x'; 33];
    for name in [&b""[..], &long] {
        assert_eq!(table.add(1, 0, name, 1), Err(refusal(LONG, 0)));
        assert_eq!(table.remove(1, 0, name), Err(refusal(LONG, 0)));
        assert_eq!(table.find(1, 0, name), Err(refusal(LONG, 0)));
    }
    // The last of 32 bytes counts, and so does a zero.
    let mut other = long;
    other[31] = b'y';
    table.add(1, 0, &long[..32], 1).unwrap();
    assert_eq!(table.find(1, 0, &other[..32]), Err(refusal(ABSENT, 0)));
    table.add(1, 0, &other[..32], 2).unwrap();
    table.add(1, 0, b"a", 3).unwrap();
    assert_eq!(table.find(1, 0, b"a\0"), Err(refusal(ABSENT, 0)));
    table.add(1, 0, b"a\0", 4).unwrap();
    table.add(1, 0, &[0; 32], 5).unwrap();
    table.add(1, 0, &[0], 6).unwrap();
    for (name, address) in [
        (&long[..32], 1),
        (&other[..32], 2),
        (b"a", 3),
        (b"a\0", 4),
        (&[0; 32], 5),
        (&[0], 6),
    ] {
        assert_eq!(table.find(1, 0, name), Ok(address));
    }
}

#[test]
fn the_512_rows_are_of_both_benches() {
    let mut table = with_rows(511);
    table.add(1, 99, b"last", 1).unwrap();
    let full = table.clone();
    for bench in [1, 2] {
        assert_eq!(table.add(bench, 99, b"more", 1), Err(refusal(FULL, 0)));
    }
    assert_eq!(table, full, "a refusal leaves the table");
    // One that is there is not new.
    assert_eq!(table.add(1, 99, b"last", 2), Ok(()));
    assert_eq!(table.find(1, 99, b"last"), Ok(2));
    // A removed row is used again, by either bench, as often as it is removed.
    for n in 0..1_000u64 {
        let name = n.to_be_bytes();
        table.remove(1, 99, b"last").unwrap();
        assert_eq!(table.add(2, n, &name, n), Ok(()));
        assert_eq!(table.add(1, 99, b"last", 1), Err(refusal(FULL, 0)));
        table.remove(2, n, &name).unwrap();
        assert_eq!(table.add(1, 99, b"last", 1), Ok(()));
    }
    let count = |bench| table.rows(bench).unwrap().len();
    assert_eq!((count(1), count(2)), (257, 255));
}

/// INDEX, LONG, then FULL or ABSENT; INDEX names the bench that was asked for.
#[test]
fn refusals_come_in_order() {
    let mut table = with_rows(512);
    let before = table.clone();
    let long = [b'x'; 33];
    for bench in [0, 3, 1 << 32, u64::MAX] {
        let index = Err(refusal(INDEX, bench));
        for name in [&b"new"[..], b"", &long] {
            assert_eq!(table.add(bench, 1, name, 1), index);
            assert_eq!(table.remove(bench, 1, name), index);
            assert_eq!(table.find(bench, 1, name), Err(refusal(INDEX, bench)));
        }
        assert_eq!(table.rows(bench), Err(refusal(INDEX, bench)));
        assert_eq!(table.fill(bench, b"no file", &mut [1]), index);
    }
    assert_eq!(table.add(1, 1, &long, 1), Err(refusal(LONG, 0)));
    assert_eq!(table.add(1, 1, b"new", 1), Err(refusal(FULL, 0)));
    assert_eq!(table, before);
}

// ---- neither bench sees the other

/// What a bench's calls answer, with rows of the other bench coming and going between them, or not.
fn answers(seed: u64, noise: bool) -> Vec<String> {
    let (mut own, mut other) = (Rng::new(seed), Rng::new(seed + 1));
    let file = real("exe-imports-32");
    let names: [&[u8]; 5] = [
        b"errno",
        b"malloc",
        b"sysvar",
        b"exactly8",
        b"environ_of_the_process",
    ];
    let mut table = AddressTable::new();
    let mut said = Vec::new();
    for _ in 0..200 {
        let name = names[own.below(5) as usize];
        let (id, address) = (own.below(4), own.next());
        said.push(match own.below(5) {
            0 | 1 => format!("{:?}", table.add(1, id, name, address)),
            2 => format!("{:?}", table.remove(1, id, name)),
            3 => format!("{:?}", table.find(1, id, name)),
            _ => {
                let mut list = [9; 9];
                format!("{:?} {list:?}", table.fill(1, &file, &mut list))
            }
        });
        said.push(format!("{:?}", table.rows(1)));
        for _ in 0..other.below(4) * u64::from(noise) {
            let name = names[other.below(5) as usize];
            let id = other.below(4);
            let _ = match other.below(3) {
                0 => table.remove(2, id, name),
                _ => table.add(2, id, name, other.next()),
            };
        }
    }
    said
}

/// As long as there is room, which 20 rows of each bench leave.
#[test]
fn a_bench_is_answered_alike_whatever_the_other_does() {
    for seed in 0..40 {
        assert_eq!(answers(seed, true), answers(seed, false), "seed {seed}");
    }
}

// ---- lists of calls by one

fn name(bench: u64, file_id: u64, name: &[u8]) -> RowName<'_> {
    RowName {
        bench,
        file_id,
        name,
    }
}

/// A call by its own function.
fn alone(
    table: &mut AddressTable,
    call: &TableCall,
    file: &[u8],
    list: &mut [u64],
) -> Result<u64, Refusal> {
    match *call {
        TableCall::Add(r, address) => table.add(r.bench, r.file_id, r.name, address).map(|()| 0),
        TableCall::Remove(r) => table.remove(r.bench, r.file_id, r.name).map(|()| 0),
        TableCall::Find(r) => table.find(r.bench, r.file_id, r.name),
        TableCall::Fill(bench) => table.fill(bench, file, list).map(|()| 0),
    }
}

/// Lists of every kind of call, refused ones among them, from the empty table and from any numbers: each list that begins one
/// answers and leaves what its calls do one by one.
#[test]
fn a_list_by_one_call_is_its_calls_one_by_one() {
    let file = real("exe-imports-32");
    let long = [b'x'; 40];
    let names: [&[u8]; 5] = [b"errno", b"sysvar", b"", &long[..33], &long];
    for seed in 0..60 {
        let mut rng = Rng::new(seed);
        let first = match seed % 3 {
            0 => AddressTable::from_bytes(&rng.bytes(AddressTable::BYTES)).unwrap(),
            1 => with_rows(511),
            _ => AddressTable::new(),
        };
        let places = if seed % 4 == 0 { 8 } else { 9 };
        let (mut table, mut list) = (first.clone(), vec![7; places]);
        let (mut calls, mut accepted) = (Vec::new(), 0);
        for n in 0..30u64 {
            let row = name(rng.below(4), rng.below(3), names[rng.below(5) as usize]);
            calls.push(match rng.below(5) {
                0 | 1 => TableCall::Add(row, rng.next()),
                2 => TableCall::Remove(row),
                3 => TableCall::Find(row),
                _ => TableCall::Fill(row.bench),
            });
            let last = alone(&mut table, &calls[n as usize], &file, &mut list);
            accepted += u64::from(last.is_ok());
            let (mut whole, mut filled) = (first.clone(), vec![7; places]);
            let told = TableReplayed {
                calls: n + 1,
                accepted,
                last,
            };
            assert_eq!(
                whole.replay(&calls, &file, &mut filled),
                told,
                "seed {seed}"
            );
            assert_eq!((&whole, &filled), (&table, &list), "seed {seed} call {n}");
        }
    }
}

/// A call that is cut short is not run, and nothing after it; what was run before it stands.
#[test]
fn a_list_that_is_cut_short_ends_there() {
    // An addition, a look-up, a removal, a fill: where each ends.
    let script = [
        &[0, 1, 5, 2, b'a'.into(), b'b'.into(), 99][..],
        &[2, 1, 5, 2, b'a'.into(), b'b'.into()],
        &[1, 1, 5, 2, b'a'.into(), b'b'.into()],
        &[3, 2],
    ]
    .concat();
    let ends = [7, 13, 19, 21];
    let last = [Ok(0), Ok(0), Ok(99), Ok(0), Err(refusal(20, 2))];
    let file = real("exe-imports-32");
    for length in 0..=script.len() {
        let mut table = AddressTable::new();
        let run = table.replay_script(&script[..length], &file, &mut []);
        let calls = ends.iter().filter(|&&end| end <= length).count();
        let told = TableReplayed {
            calls: calls as u64,
            accepted: calls.min(3) as u64,
            last: last[calls],
        };
        assert_eq!(run, told, "{length}");
        let there = (1..3).contains(&calls);
        assert_eq!(table.find(1, 5, b"ab").is_ok(), there, "{length}");
    }
    // A length that no script has the bytes for.
    for length in [3, 1 << 32, u64::MAX - 8, u64::MAX] {
        for kind in 0..3 {
            let script = [kind, 1, 5, length, 97, 98];
            let run = AddressTable::new().replay_script(&script, &file, &mut []);
            assert_eq!((run.calls, run.last), (0, Ok(0)), "{length}");
        }
    }
}

/// The low bytes of the numbers are the name, and every kind from 3 on is a fill.
#[test]
fn any_numbers_are_calls() {
    let mut table = AddressTable::new();
    let wide = [0, 2, u64::MAX, 2, 0xFF61, u64::MAX - 0x9D, 8];
    assert_eq!(table.replay_script(&wide, &[], &mut []).accepted, 1);
    assert_eq!(table.find(2, u64::MAX, b"ab"), Ok(8));
    let file = real("exe-imports-32");
    for kind in [3, 4, 1 << 32, u64::MAX] {
        let mut list = [7; 9];
        let run = table.replay_script(&[kind, 1], &file, &mut list);
        assert_eq!((run.accepted, list), (1, [0; 9]), "{kind}");
    }
    let mut rng = Rng::new(3);
    for _ in 0..2_000 {
        let length = rng.below(60);
        let script: Vec<u64> = (0..length)
            .map(|_| {
                if rng.below(9) == 0 {
                    rng.next()
                } else {
                    rng.below(5)
                }
            })
            .collect();
        let run = table.replay_script(&script, &[], &mut []);
        assert!(run.accepted <= run.calls && 2 * run.calls <= length);
    }
}

// ---- plans

#[test]
fn a_fill_takes_rows_recorded_values_and_zeros() {
    let file = real("exe-imports-32");
    let mut table = AddressTable::new();
    // Ids as the module has them: errno is of 1, environ_of_the_process of 2, sysvar of 3.
    table.add(1, 1, b"errno", u64::MAX).unwrap();
    table.add(1, 2, b"environ_of_the_process", 0x77).unwrap();
    // Another id, another bench, a deferred import, a defined symbol.
    table.add(1, 2, b"sysvar", 1).unwrap();
    table.add(2, 3, b"sysvar", 2).unwrap();
    table.add(1, 0, b"later", 3).unwrap();
    table.add(1, 0, b"__start", 4).unwrap();
    let mut list = [0xAAAA; 9];
    assert_eq!(table.fill(1, &file, &mut list), Ok(()));
    assert_eq!(list, [u64::MAX, 0, 0, 0, 0x77, 0, 0, 0, 0]);
    assert_eq!(table.fill(2, &file, &mut list), Ok(()));
    assert_eq!(list, [0, 0, 0, 0, 0, 0, 2, 0, 0]);
}

/// Of every real module: what is written is what the rows and the loader symbols say.
#[test]
fn every_real_module_is_filled_by_its_rows() {
    let mut filled = 0;
    for entry in fs::read_dir(corpus()).unwrap() {
        let path = entry.unwrap().path();
        let Ok(file) = fs::read(&path) else { continue };
        let symbols = xcoff::loader_symbol_table(&file).unwrap_or_default();
        if symbols.is_empty() {
            continue;
        }
        let mut table = AddressTable::new();
        for row in symbols.iter().step_by(3).take(512) {
            let _ = table.add(2, row.symbol.ifile, row.name, 5_000 + row.index);
        }
        let rows: BTreeMap<(u64, Vec<u8>), u64> = table
            .rows(2)
            .unwrap()
            .into_iter()
            .map(|row| ((row.file_id, row.name), row.address))
            .collect();
        let expected: Vec<u64> = symbols
            .iter()
            .map(
                |row| match row.symbol.is_import() && !row.symbol.is_deferred() {
                    true => *rows
                        .get(&(row.symbol.ifile, row.name.to_vec()))
                        .unwrap_or(&row.symbol.value),
                    false => 0,
                },
            )
            .collect();
        let mut list = vec![9; symbols.len()];
        assert_eq!(table.fill(2, &file, &mut list), Ok(()));
        assert_eq!(list, expected, "{}", path.display());
        filled += 1;
    }
    assert!(filled > 50, "{filled}");
}

#[test]
fn a_refused_fill_leaves_the_list() {
    let file = real("exe-imports-32");
    let table = with_rows(20);
    for places in [0, 8, 10, 100] {
        let mut list = vec![7; places];
        assert_eq!(table.fill(1, &file, &mut list), Err(refusal(20, 2)));
        assert!(list.iter().all(|&n| n == 7));
    }
    let mut list = vec![7; 9];
    let object = real("gas-stabs-32.o");
    assert_eq!(table.fill(1, &object, &mut list), Err(refusal(13, 0)));
    assert_eq!(table.fill(3, &object, &mut list), Err(refusal(INDEX, 3)));
    assert_eq!(list, [7; 9]);
}

/// A real module with 69,999 imports, and 512 rows for some of them; the second implementation's fill is the same.
#[test]
fn a_module_with_seventy_thousand_imports_is_filled() {
    let packed = corpus().join("big/shr-req10-32.xz");
    let output = Command::new("xz").arg("-dc").arg(packed).output();
    let file = output.expect("xz is installed").stdout;
    let symbols = xcoff::loader_symbol_table(&file).unwrap();
    let mut table = AddressTable::new();
    let mut theirs = reference::AddressTable::default();
    for row in symbols.iter().rev().step_by(130).take(512) {
        let key = reference::RowKey {
            bench: 1,
            file_id: row.symbol.ifile,
            name: row.name.to_vec(),
        };
        table.add(1, key.file_id, &key.name, 3 * row.index).unwrap();
        theirs.add(&key, 3 * row.index).unwrap();
    }
    assert_eq!(table.rows(1).unwrap().len(), 512);
    let (mut list, mut expected) = (vec![1; 70_000], vec![2; 70_000]);
    assert_eq!(table.fill(1, &file, &mut list), Ok(()));
    theirs.fill(1, &file, &mut expected).unwrap();
    assert!(list == expected);
    assert_eq!(list.iter().filter(|&&address| address != 0).count(), 512);
}

// ---- kept in a file

#[test]
fn a_table_is_kept_in_32776_bytes() {
    assert_eq!(AddressTable::BYTES, 32_776);
    assert_eq!(AddressTable::new().to_bytes(), vec![0; 32_776]);
    assert_eq!(AddressTable::default(), AddressTable::new());
    let table = with_rows(300);
    let bytes = table.to_bytes();
    assert_eq!(AddressTable::from_bytes(&bytes), Some(table));
    for length in [0, 1, 32_775, 32_777, 65_552] {
        assert_eq!(AddressTable::from_bytes(&vec![0; length]), None);
    }
}

/// Any numbers are a table: each call answers, a refusal leaves it, and what is added is found.
#[test]
fn any_bytes_of_that_length_are_a_table() {
    let mut rng = Rng::new(6);
    for n in 0..200 {
        let mut bytes = rng.bytes(AddressTable::BYTES);
        if n % 2 == 0 {
            // Small numbers: benches, ids and lengths that can be.
            for number in bytes.chunks_exact_mut(8) {
                number[..7].fill(0);
                number[7] %= 40;
            }
        }
        let mut table = AddressTable::from_bytes(&bytes).unwrap();
        for bench in [1, 2] {
            let rows = table.rows(bench).unwrap();
            assert!(rows.len() <= 512);
            let before = table.clone();
            match table.add(bench, 5, b"name", 9) {
                Ok(()) => assert_eq!(table.find(bench, 5, b"name"), Ok(9)),
                Err(refused) => {
                    assert_eq!(refused, refusal(FULL, 0));
                    assert_eq!(table, before);
                }
            }
            if table.remove(bench, 5, b"gone").is_err() {
                assert!(table.find(bench, 5, b"gone").is_err());
            }
        }
        let mut list = [1; 9];
        assert_eq!(table.fill(1, &real("exe-imports-32"), &mut list), Ok(()));
    }
}
