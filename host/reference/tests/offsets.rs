//! Request 4: the file offset of a refusal, for each sort of item.

use reference::bytes::put;
use reference::generate::make::{self, Head, Made, Part};
use reference::generate::plans::{buffers, fitting_plan};
use reference::generate::rng::Rng;
use reference::*;

/// A module of each format with some of everything.
fn modules() -> [Made; 2] {
    make::both_formats(|_| ())
}

fn triple<T>(result: Result<T, Refusal>) -> (u64, u64, u64) {
    match result {
        Ok(_) => panic!("accepted"),
        Err(refusal) => (refusal.number, refusal.item, refusal.offset),
    }
}

/// The refusal of a module after a change.
fn changed(made: &Made, part: Part, n: u64, value: u64) -> (u64, u64, u64) {
    let mut made = made.clone();
    made.put(made.section_field(n, part), value);
    triple(module(&made.bytes))
}

#[test]
fn section_headers() {
    for made in modules() {
        let n = made.flags.len() as u64;
        let at = |n| made.section_at(n) as u64;
        let text = made.text;
        assert_eq!(changed(&made, Part::Flags, n, 3), (KIND, n, at(n)));
        let far = made.bytes.len() as u64 + 1;
        let bounds = (BOUNDS, text, at(text));
        assert_eq!(changed(&made, Part::Pointer, text, far), bounds);
        let address = (ADDRESS, text, at(text));
        assert_eq!(changed(&made, Part::Vaddr, text, 1), address);
        let info = made.flags.iter().position(|&f| f == opening::INFO);
        let info = info.unwrap() as u64 + 1;
        let thread = (THREAD, info, at(info));
        assert_eq!(changed(&made, Part::Flags, info, opening::TDATA), thread);
        let mut low = made.clone();
        for part in [Part::Paddr, Part::Vaddr] {
            low.put(low.section_field(low.bss, part), 0);
        }
        let below = (ADDRESS, made.bss, at(made.bss));
        assert_eq!(triple(module(&low.bytes)), below);
    }
}

#[test]
fn the_string_table() {
    for mut made in modules() {
        let at = made.strings_at;
        put(&mut made.bytes, at, 4, 3);
        assert_eq!(triple(open(&made.bytes)), (STRINGS, 0, at as u64));
        put(&mut made.bytes, at, 4, 0xFFFF_FFFF);
        assert_eq!(triple(open(&made.bytes)), (BOUNDS, 0, 0));
    }
}

#[test]
fn symbol_entries() {
    for made in modules() {
        let index = made.symbols[1].index;
        let at = made.symbol_at(index);
        let hurt = |offset: usize, length, value| {
            let mut bytes = made.bytes.clone();
            put(&mut bytes, at + offset, length, value);
            let refusal = symbol(&bytes, index);
            let found = walk(&bytes).unwrap();
            assert_eq!(found.refusal, refusal.clone().err());
            triple(refusal)
        };
        assert_eq!(hurt(17, 1, 255), (AUX, index, at as u64));
        assert_eq!(hurt(12, 2, 0x7FFF), (SECTION, index, at as u64));
        let mut named = made.clone();
        named.set_name_offset(index, 1);
        let name = triple(symbol(&named.bytes, index));
        assert_eq!(name, (NAME, index, at as u64));
        let mut other = made.clone();
        other.set_class(index, 3);
        let csect = triple(csect(&other.bytes, index));
        assert_eq!(csect, (CSECT, index, at as u64));
        let past = made.symbol_count;
        assert_eq!(triple(symbol(&made.bytes, past)), (INDEX, past, 0));
    }
}

/// `f_symptr` 0 is a plain offset: the entries lie over the headers, symbol 0 at 0.
#[test]
fn symbol_entries_from_the_first_byte() {
    for mut made in modules() {
        let length = made.bytes.len().next_multiple_of(18);
        made.bytes.resize(length, 0);
        made.put(made.symptr_field(), 0);
        made.put(made.nsyms_field(), length as u64 / 18);
        for index in 0..length as u64 / 18 {
            match symbol(&made.bytes, index) {
                Ok(_) => (),
                Err(refusal) => assert_eq!(refusal.offset, 18 * index),
            }
        }
        let last = length as u64 / 18 - 1;
        put(&mut made.bytes, length - 1, 1, 1);
        let refusal = triple(symbol(&made.bytes, last));
        assert_eq!(refusal, (AUX, last, length as u64 - 18));
    }
}

#[test]
fn the_loader_section() {
    for made in modules() {
        let at = made.loader_at as u64;
        let hurt = |head, value| {
            let mut made = made.clone();
            made.put(made.head(head).unwrap(), value);
            triple(module(&made.bytes))
        };
        assert_eq!(hurt(Head::Version, 3), (LOADER, 1, at));
        assert_eq!(hurt(Head::Symbols, 70_001), (LIMIT, 2, at));
        assert_eq!(hurt(Head::Relocations, 100_001), (LIMIT, 3, at));
        assert_eq!(hurt(Head::Symbols, 70_000), (LOADER, 2, at));
        assert_eq!(hurt(Head::Relocations, 100_000), (LOADER, 3, at));
        assert_eq!(hurt(Head::Ids, 0xFFFF_FFFF), (LOADER, 4, at));
        assert_eq!(hurt(Head::StringLength, 0xFFFF_FFFF), (LOADER, 5, at));
        // Empty, without raw data or with it at the file's end.
        let mut empty = made.clone();
        empty.put(empty.section_field(made.loader, Part::Size), 0);
        assert_eq!(triple(module(&empty.bytes)), (LOADER, 0, at));
        let end = made.bytes.len() as u64;
        let refusal = changed(&empty, Part::Pointer, made.loader, end);
        assert_eq!(refusal, (LOADER, 0, end));
        let refusal = changed(&empty, Part::Pointer, made.loader, 0);
        assert_eq!(refusal, (LOADER, 0, 0));
    }
}

#[test]
fn loader_symbols_and_entries() {
    for made in modules() {
        let mut bad = made.clone();
        let at = made.loader_symbol_at(1);
        put(&mut bad.bytes, at + 14, 1, 7);
        assert_eq!(triple(module(&bad.bytes)), (LSYM, 4, at as u64));
        let at = made.entry_at(1) as u64;
        let hurt = |field, value| {
            let mut made = made.clone();
            made.put(field, value);
            triple(module(&made.bytes))
        };
        let symbol = made.entry_symbol_field(1);
        assert_eq!(hurt(symbol, 0xFFFF_FFFE), (THREAD, 1, at));
        assert_eq!(hurt(symbol, 0xFFFF_FFFD), (LREL, 1, at));
        // The first field at the section's start, the second one byte further on.
        let mut met = made.clone();
        for (i, address) in [made.text_address, made.text_address + 1]
            .iter()
            .enumerate()
        {
            met.put(met.entry_section_field(i), made.text);
            met.put(met.entry_type_field(i), 0x1F00);
            met.put(met.entry_address_field(i), *address);
        }
        assert_eq!(triple(module(&met.bytes)), (OVERLAP, 1, at));
    }
}

#[test]
fn no_place_for_plans_buffers_and_sheets() {
    for made in modules() {
        let mut rng = Rng::new(9);
        let (mut text, mut data) = buffers(&mut rng, &made);
        let mut plan = fitting_plan(&mut rng, &made);
        text.push(0);
        let room = triple(build(&made.bytes, &plan, &mut text, &mut data));
        assert_eq!(room, (ROOM, 0, 0));
        plan.text = u64::MAX;
        let bad = triple(build(&made.bytes, &plan, &mut text, &mut data));
        assert_eq!(bad, (PLAN, 0, 0));
        let index = triple(loader_symbol(&made.bytes, 2));
        assert_eq!(index, (INDEX, 2, 0));
        let long = vec![0; 70_001];
        let limit = triple(write_sheet(0, 0, &long, &mut []));
        assert_eq!(limit, (LIMIT, 2, 0));
        let deleted = changed(&made, Part::Flags, made.bss, opening::DELETED);
        assert_eq!(deleted, (MODULE, 1, 0));
    }
}
