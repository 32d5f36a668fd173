//! Whole tables against the single look-ups, on every real file.

mod command_runner;

use command_runner::{real, tests_folder};
use xcoff::{Image, Refusal};

/// Every real file, with its name.
fn files() -> Vec<(String, Vec<u8>)> {
    let mut names = Vec::new();
    for folder in ["corpus", "corpus/large", "pairs"] {
        for entry in std::fs::read_dir(tests_folder().join(folder)).unwrap() {
            let path = entry.unwrap().path();
            let name = path.file_name().unwrap().to_str().unwrap().to_string();
            if path.is_file() && ![".txt", ".py", ".md"].iter().any(|end| name.ends_with(end)) {
                names.push(name);
            }
        }
    }
    assert!(names.len() >= 200, "{} files", names.len());
    let with_bytes = |name: String| (name.clone(), real(&name));
    names.into_iter().map(with_bytes).collect()
}

/// Where an entry of the symbol table lies.
fn symbol_at(file: &[u8], index: u64) -> u64 {
    let start = if file[1] == 0xDF { 8..12 } else { 8..16 };
    let number = file[start].iter().fold(0, |n, &b| n << 8 | u64::from(b));
    number + 18 * index
}

#[test]
fn the_symbol_table_is_what_a_walk_reads() {
    for (name, file) in files() {
        let table = match xcoff::symbol_table(&file) {
            Ok(table) => table,
            Err(refusal) => {
                assert_eq!(xcoff::open(&file).err(), Some(refusal), "{name}");
                continue;
            }
        };
        assert_eq!(Ok(table.walk), xcoff::walk(&file), "{name}");
        let mut index = 0;
        for row in table.rows() {
            assert_eq!(row.index, index, "{name}");
            assert_eq!(
                Ok(row.symbol),
                xcoff::symbol(&file, index),
                "{name} {index}"
            );
            assert_eq!(
                Ok(row.name()),
                xcoff::symbol_name(&file, index),
                "{name} {index}"
            );
            let csect = row.csect.ok_or(Refusal {
                number: 12,
                item: index,
                offset: symbol_at(&file, index),
            });
            assert_eq!(csect, xcoff::csect(&file, index), "{name} {index}");
            index += 1 + row.symbol.numaux;
        }
        assert_eq!(index, table.walk.end, "{name}");
        assert_eq!(table.rows().count() as u64, table.walk.visited, "{name}");
    }
}

#[test]
fn a_name_may_be_asked_for_in_part() {
    let file = real("exe-imports-32");
    let table = xcoff::symbol_table(&file).unwrap();
    let row = table.rows().nth(5).unwrap();
    assert_eq!(row.name(), b"environ_of_the_process");
    assert_eq!(row.name_up_to(7), b"environ");
    assert_eq!(row.name_up_to(0), b"");
    assert_eq!(row.name_up_to(1000), row.name());
}

#[test]
fn loader_symbols_and_import_ids_are_the_single_ones() {
    for (name, file) in files() {
        let module = match xcoff::module(&file) {
            Ok(module) => module,
            Err(refusal) => {
                assert_eq!(xcoff::loader_symbol_table(&file).err(), Some(refusal));
                assert_eq!(xcoff::relocation_table(&file).err(), Some(refusal));
                assert_eq!(xcoff::import_table(&file).err(), Some(refusal));
                continue;
            }
        };
        let rows = xcoff::loader_symbol_table(&file).unwrap();
        assert_eq!(rows.len() as u64, module.symbols, "{name}");
        // A look-up judges the module again: of a long table some do.
        for (n, row) in rows.iter().enumerate().step_by(1 + rows.len() / 100) {
            let index = n as u64 + 3;
            assert_eq!(row.index, index, "{name}");
            assert_eq!(Ok(row.symbol), xcoff::loader_symbol(&file, index), "{name}");
            assert_eq!(
                Ok(row.name),
                xcoff::loader_symbol_name(&file, index),
                "{name}"
            );
        }
        let ids = xcoff::import_table(&file).unwrap();
        assert_eq!(ids.rows().count() as u64, module.ids, "{name}");
        for (n, id) in ids.rows().enumerate() {
            assert_eq!(Ok(id.path), xcoff::import_path(&file, n as u64), "{name}");
            assert_eq!(Ok(id.base), xcoff::import_base(&file, n as u64), "{name}");
            assert_eq!(
                Ok(id.member),
                xcoff::import_member(&file, n as u64),
                "{name}"
            );
        }
    }
}

#[test]
fn relocation_entries_are_those_of_the_second_implementation() {
    let mut entries = 0;
    for (name, file) in files() {
        let Ok(module) = reference::module(&file) else {
            continue;
        };
        let got = xcoff::relocation_table(&file).unwrap();
        let expected = reference::relocations(&file).unwrap();
        assert_eq!(got.len(), expected.len(), "{name}");
        for (g, e) in got.iter().zip(&expected) {
            let (image, start) = match e.section == module.text {
                true => (Image::Text, module.text_address),
                false => (Image::Data, module.data_address),
            };
            assert_eq!(
                (g.address, g.symbol, g.rtype, g.scnum),
                (e.address, e.symbol, e.kind, e.section)
            );
            assert_eq!((g.image, g.offset), (image, e.address - start), "{name}");
            assert_eq!((8 * g.width, g.subtracts), (e.width, e.subtract), "{name}");
            entries += 1;
        }
    }
    assert!(entries >= 10_000, "{entries} entries");
}
