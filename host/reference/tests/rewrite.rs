//! Request 8: a moved module as a file.

use reference::bytes::number;
use reference::generate::make::{self, Aux, Made, Part, Wish};
use reference::generate::plans::{buffers, fitting_plan};
use reference::generate::rng::Rng;
use reference::rewrite::shared_parts;
use reference::*;

fn module_of(seed: u64) -> Made {
    let wish = Wish {
        rich: seed % 2 == 0,
        ..Wish::default()
    };
    make::module(&mut Rng::new(seed), &wish)
}

/// Modules of which no two parts share bytes, with a plan that fits.
fn modules() -> impl Iterator<Item = (Made, Plan, Rng)> {
    (0..3_000).filter_map(|seed| {
        let made = module_of(seed);
        let mut rng = Rng::new(!seed);
        let plan = fitting_plan(&mut rng, &made);
        shared_parts(&made.bytes)
            .is_empty()
            .then_some((made, plan, rng))
    })
}

fn written(file: &[u8], plan: &Plan) -> Vec<u8> {
    let mut out = vec![0x99; file.len()];
    write_module(file, plan, &mut out).expect("a plan that fits");
    out
}

/// Plans for the first file and for the written one: places of deferred imports and
/// of what is no import say nothing.
#[test]
fn opened_again_its_addresses_are_the_plans() {
    let mut count = 0;
    for (made, plan, _) in modules() {
        let new = written(&made.bytes, &plan);
        let (before, after) = (module(&made.bytes).unwrap(), module(&new).unwrap());
        assert_eq!(
            (after.text_address, after.data_address),
            (plan.text, plan.data)
        );
        let old = loader_symbols(&made.bytes).unwrap();
        for (symbol, was) in loader_symbols(&new).unwrap().iter().zip(&old) {
            if was.from_plan() {
                assert_eq!(symbol.value, plan.list[was.index as usize - 3]);
            } else if was.imported() {
                assert_eq!(symbol.value, was.value);
            }
        }
        let expected = Module {
            text_address: plan.text,
            data_address: plan.data,
            bss_address: after.bss_address,
            entry_address: after.entry_address,
            toc_address: after.toc_address,
            ..before.clone()
        };
        assert_eq!(after, expected);
        if before.bss_size > 0 {
            let gap = |m: &Module| m.bss_address - m.data_address;
            assert_eq!(gap(&after), gap(&before));
        }
        count += 1;
    }
    assert!(count > 2_000, "{count} modules");
}

#[test]
fn building_it_gives_what_the_first_file_gives() {
    for (made, plan, mut rng) in modules() {
        let new = written(&made.bytes, &plan);
        for _ in 0..3 {
            let other = fitting_plan(&mut rng, &made);
            let (mut text, mut data) = buffers(&mut rng, &made);
            let (mut new_text, mut new_data) = buffers(&mut rng, &made);
            let one = build(&made.bytes, &other, &mut text, &mut data);
            let two = build(&new, &other, &mut new_text, &mut new_data);
            assert!(one.is_ok());
            assert_eq!((one, text, data), (two, new_text, new_data));
        }
    }
}

#[test]
fn written_for_its_own_addresses_it_is_the_same() {
    for (made, plan, _) in modules() {
        let own = Plan {
            text: made.text_address,
            data: made.data_address,
            list: made.loader_symbols.iter().map(|s| s.value).collect(),
        };
        assert_eq!(written(&made.bytes, &own), made.bytes);
        // And there and back.
        let new = written(&made.bytes, &plan);
        assert_eq!(written(&new, &own), made.bytes);
    }
}

/// Every byte that isn't named is as it was.
#[test]
fn other_bytes_stay() {
    for (made, plan, _) in modules() {
        let new = written(&made.bytes, &plan);
        let mut free = vec![false; new.len()];
        let word = made.word();
        let mut set = |at: usize, length: usize| free[at..at + length].fill(true);
        for n in [made.text, made.data, made.bss] {
            set(made.section_at(n) + 8, 2 * word);
        }
        for aux in [Aux::TextStart, Aux::DataStart, Aux::Entry, Aux::Toc] {
            set(made.aux(aux).at, word);
        }
        for (n, size) in [(made.text, made.text_size), (made.data, made.data_size)] {
            if size > 0 {
                set(made.part(n, Part::Pointer) as usize, size as usize);
            }
        }
        for i in 0..made.loader_symbols.len() {
            let value = if made.bits == 32 { 8 } else { 0 };
            set(made.loader_symbol_at(i) + value, word);
        }
        for i in 0..made.entries.len() {
            set(made.entry_at(i), word);
        }
        for (at, &may_change) in free.iter().enumerate() {
            assert!(may_change || new[at] == made.bytes[at], "byte {at}");
        }
    }
}

#[test]
fn without_an_entry_its_field_stays() {
    let (mut made, plan, _) = modules().next().unwrap();
    for (section, address) in [(Aux::EntrySection, Aux::Entry), (Aux::TocSection, Aux::Toc)] {
        made.put(made.aux(section), 0);
        made.put(made.aux(address), 0x1234);
    }
    let new = written(&made.bytes, &plan);
    for address in [Aux::Entry, Aux::Toc] {
        let field = made.aux(address);
        assert_eq!(number(&new, field.at, field.length), 0x1234);
    }
}

/// Two parts that share a byte are refused, after the plan and before the output.
#[test]
fn order_of_refusals() {
    let (mut made, mut plan, _) = modules().next().unwrap();
    let refused = |made: &Made, plan: &Plan, more: usize| {
        let mut out = vec![7; made.bytes.len() + more];
        let refusal = write_module(&made.bytes, plan, &mut out).unwrap_err();
        assert!(out.iter().all(|&byte| byte == 7));
        (refusal.number, refusal.item, refusal.offset)
    };
    assert_eq!(refused(&made, &plan, 1), (ROOM, 0, 0));
    let end = made.headers_end() as u64;
    made.put_part(made.text, Part::Pointer, end - 1);
    assert_eq!(refused(&made, &plan, 1), (SHARED, 0, 0));
    plan.text = u64::MAX;
    assert_eq!(refused(&made, &plan, 1), (PLAN, 0, 0));
    plan.list.pop();
    assert_eq!(refused(&made, &plan, 1), (ROOM, 2, 0));
}
