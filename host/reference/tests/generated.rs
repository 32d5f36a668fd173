//! Laws over generated cases.

use reference::generate::damage::{self, STEPS};
use reference::generate::make::{self, Made, Wish};
use reference::generate::plans::{buffers, fitting_plan};
use reference::generate::records::clear_plan;
use reference::generate::rng::Rng;
use reference::generate::{case, Op};
use reference::*;

const SEEDS: u64 = 3_000;

#[test]
fn the_same_seed_gives_the_same_case() {
    for seed in 0..300 {
        let (one, other) = (case(seed), case(seed));
        assert_eq!(one.file, other.file);
        assert_eq!(one.ops, other.ops);
        assert_eq!(one.label, other.label);
    }
}

#[test]
fn made_modules_are_accepted_and_objects_open() {
    for seed in 0..SEEDS {
        let mut rng = Rng::new(seed);
        let wish = Wish {
            rich: seed % 2 == 0,
            low: seed % 3 == 0,
            ..Wish::default()
        };
        let made = make::module(&mut rng, &wish);
        let found = module(&made.bytes).expect("a made module");
        assert_eq!(found.data_image, made.image);
        assert_eq!(found.text_size, made.text_size);
        assert_eq!(found.relocations, made.entries.len() as u64);
        assert_eq!(found.loader_symbols, made.loader_symbols.len() as u64);
        assert_eq!(found.import_ids, made.ids);
        check_symbols(&made);
        let made = make::object(&mut rng, &wish);
        assert!(open(&made.bytes).is_ok());
        check_symbols(&made);
    }
}

/// The walk meets just the entries that were made, and csects read as made.
fn check_symbols(made: &Made) {
    let found = walk(&made.bytes).unwrap();
    assert_eq!(found.refusal, None);
    assert_eq!(found.visited, made.symbols.len() as u64);
    assert_eq!(found.end, made.symbol_count);
    for symbol in &made.symbols {
        let read = csect(&made.bytes, symbol.index);
        match symbol.csect {
            Some(kind) => assert_eq!(read.unwrap().kind, kind),
            None => assert_eq!(
                read,
                Err(Refusal {
                    number: CSECT,
                    item: symbol.index,
                    offset: made.symbol_at(symbol.index) as u64
                })
            ),
        }
    }
}

#[test]
fn every_damage_gives_its_refusal() {
    for which in 0..damage::count() {
        let number = if which < STEPS.len() {
            STEPS[which].number
        } else {
            damage::rows().nth(which - STEPS.len()).unwrap().number
        };
        let times = if which == 0 { 3 } else { 60 };
        for seed in 0..times {
            let mut rng = Rng::new(1_000 * which as u64 + seed);
            let (name, hurt) = damage::single(&mut rng, which);
            assert_eq!(hurt.refusal.number, number, "{name}");
            let answer = answer::run(&hurt.made.bytes, &hurt.op);
            assert_eq!(
                answer.refusals,
                vec![hurt.refusal],
                "{name}, seed {seed}, {}",
                hurt.op.word()
            );
        }
    }
}

#[test]
fn the_earlier_of_two_damages_is_given() {
    for seed in 0..20_000 {
        let (name, hurt) = damage::pair(&mut Rng::new(seed));
        let answer = answer::run(&hurt.made.bytes, &hurt.op);
        assert_eq!(answer.refusals, vec![hurt.refusal], "{name}, seed {seed}");
    }
}

/// Runs the calls; gives the images after each.
fn run_calls(file: &[u8], calls: &[Call], text: &[u8], data: &[u8]) -> Vec<(Vec<u8>, Vec<u8>)> {
    let (mut text, mut data) = (text.to_vec(), data.to_vec());
    let mut all = Vec::new();
    for call in calls {
        let (old_text, old_data) = (text.clone(), data.clone());
        let result = match call {
            Call::Build(plan) => build(file, plan, &mut text, &mut data),
            Call::Move(from, to) => move_images(file, from, to, &mut text, &mut data),
        };
        if result.is_err() {
            assert!(
                text == old_text && data == old_data,
                "a refusal changed a byte"
            );
        }
        all.push((text.clone(), data.clone()));
    }
    all
}

#[test]
fn the_book_equals_running_the_calls() {
    let mut accepted = 0;
    for seed in 0..SEEDS {
        let case = case(seed);
        for op in &case.ops {
            if let Op::Calls { calls, text, data } = op {
                if data.len() > 1_000_000 {
                    continue;
                }
                let after = run_calls(&case.file, calls, text, data);
                for n in 0..calls.len() {
                    assert_eq!(
                        book(&case.file, &calls[..=n], text, data),
                        after[n],
                        "seed {seed}"
                    );
                }
                if let Some(last) = after.last() {
                    accepted += u64::from(last.0 != *text || last.1 != *data);
                }
            }
        }
    }
    assert!(accepted > 300, "{accepted} lists changed their images");
}

/// A module of every second seed rich, and three plans that fit it.
fn module_and_plans(rng: &mut Rng, seed: u64) -> (Made, [Plan; 3]) {
    let wish = Wish {
        rich: seed % 2 == 0,
        ..Wish::default()
    };
    let made = make::module(rng, &wish);
    let plans = [0, 1, 2].map(|_| fitting_plan(rng, &made));
    (made, plans)
}

#[test]
fn chains_of_moves() {
    for seed in 0..SEEDS {
        let mut rng = Rng::new(seed);
        let (made, [p, q, r]) = module_and_plans(&mut rng, seed);
        let file = &made.bytes;
        let [at_p, at_q, at_r] = [&p, &q, &r].map(|plan| {
            let (mut text, mut data) = buffers(&mut rng, &made);
            let reached = build(file, plan, &mut text, &mut data).expect("a fitting plan");
            (text, data, reached)
        });
        let (mut text, mut data) = (at_p.0.clone(), at_p.1.clone());
        for (from, to, built) in [
            (&p, &q, &at_q),
            (&q, &q, &at_q),
            (&q, &r, &at_r),
            (&r, &p, &at_p),
        ] {
            let reached = move_images(file, from, to, &mut text, &mut data).unwrap();
            assert_eq!((&text, &data, &reached), (&built.0, &built.1, &built.2));
        }
    }
}

#[test]
fn a_move_changes_nothing_outside_the_fields() {
    for seed in 0..SEEDS {
        let mut rng = Rng::new(seed);
        let (made, [p, _, r]) = module_and_plans(&mut rng, seed);
        let (start_text, start_data) = buffers(&mut rng, &made);
        let (mut text, mut data) = (start_text.clone(), start_data.clone());
        move_images(&made.bytes, &p, &r, &mut text, &mut data).unwrap();
        let (text_fields, data_fields) = in_fields(&made);
        for i in 0..text.len() {
            assert!(text_fields[i] || text[i] == start_text[i]);
        }
        for i in 0..data.len() {
            assert!(data_fields[i] || data[i] == start_data[i]);
        }
    }
}

/// For each byte of the text and the data image whether it is of a field.
fn in_fields(made: &Made) -> (Vec<bool>, Vec<bool>) {
    let mut text = vec![false; made.text_size as usize];
    let mut data = vec![false; made.image as usize];
    for entry in relocations(&made.bytes).unwrap() {
        let (image, start) = if entry.section == made.text {
            (&mut text, made.text_address)
        } else {
            (&mut data, made.data_address)
        };
        let at = (entry.address - start) as usize;
        image[at..at + entry.width as usize / 8].fill(true);
    }
    (text, data)
}

#[test]
fn own_addresses_give_the_raw_bytes() {
    for seed in 0..SEEDS {
        let mut rng = Rng::new(seed);
        let made = make::module(&mut rng, &Wish::default());
        let list = made
            .loader_symbols
            .iter()
            .map(|symbol| symbol.value)
            .collect();
        let plan = Plan {
            text: made.text_address,
            data: made.data_address,
            list,
        };
        let (mut text, mut data) = buffers(&mut rng, &made);
        build(&made.bytes, &plan, &mut text, &mut data).unwrap();
        let summary = open(&made.bytes).unwrap();
        let raw = |n: u64| match &summary.sections[n as usize - 1].raw {
            Some(range) => made.bytes[range.clone()].to_vec(),
            None => Vec::new(),
        };
        assert_eq!(text, raw(made.text));
        assert_eq!(data[..made.data_size as usize], raw(made.data));
        assert!(data[made.data_size as usize..]
            .iter()
            .all(|&byte| byte == 0));
    }
}

#[test]
fn ignored_places_do_not_matter() {
    for seed in 0..SEEDS {
        let mut rng = Rng::new(seed);
        let made = make::module(
            &mut rng,
            &Wish {
                rich: true,
                ..Wish::default()
            },
        );
        let plan = fitting_plan(&mut rng, &made);
        let mut other = plan.clone();
        for (i, symbol) in made.loader_symbols.iter().enumerate() {
            if !symbol.imported || symbol.file_id == 0 {
                other.list[i] = rng.next();
            }
        }
        let (mut text, mut data) = buffers(&mut rng, &made);
        let one = build(&made.bytes, &plan, &mut text, &mut data).unwrap();
        let (mut other_text, mut other_data) = buffers(&mut rng, &made);
        let two = build(&made.bytes, &other, &mut other_text, &mut other_data).unwrap();
        assert_eq!((one, text, data), (two, other_text, other_data));
    }
}

#[test]
fn sheets_come_back() {
    for seed in 0..300 {
        let mut rng = Rng::new(seed);
        let k = match seed {
            0 => 4_096,
            1 => 70_000,
            _ => rng.below(20) as usize,
        };
        let list = damage::junk_list(&mut rng, k);
        let (text, data) = (rng.next(), rng.next());
        let sheet = written(&mut rng, text, data, &list);
        let mut read = damage::junk_list(&mut rng, k);
        assert_eq!(read_sheet(&sheet, &mut read), Ok((text, data)));
        assert_eq!(read, list);
        // And a new sheet that was read writes back as the same bytes.
        let sheet = damage::good_sheet(&mut rng, Form::New, k);
        let (text, data) = read_sheet(&sheet, &mut read).unwrap();
        assert_eq!(written(&mut rng, text, data, &read), sheet);
    }
}

#[test]
fn an_old_sheet_gives_its_new_form() {
    for seed in 0..300 {
        let mut rng = Rng::new(seed);
        let k = match seed {
            0 => 4_096,
            _ => rng.below(20) as usize,
        };
        let old = damage::good_sheet(&mut rng, Form::Old, k);
        let mut list = damage::junk_list(&mut rng, k);
        let (text, data) = read_sheet(&old, &mut list).unwrap();
        // Both counts get two more bytes, all else stays.
        let new = [&[0, 0], &old[..18], &[0, 0], &old[18..]].concat();
        assert_eq!(written(&mut rng, text, data, &list), new);
    }
}

fn written(rng: &mut Rng, text: u64, data: u64, list: &[u64]) -> Vec<u8> {
    let mut sheet = rng.bytes(24 + 8 * list.len());
    write_sheet(text, data, list, &mut sheet).unwrap();
    sheet
}

/// OVERLAP as 01 says it, each field against all earlier ones.
fn first_overlap(fields: &[(u64, u64)]) -> Option<u64> {
    let meets = |&(one, length): &(u64, u64), &(other, width): &(u64, u64)| {
        let same = (one, length) == (other, width);
        let apart = one + length <= other || other + width <= one;
        !same && !apart
    };
    let later = |&i: &usize| fields[..i].iter().any(|earlier| meets(earlier, &fields[i]));
    (0..fields.len()).find(later).map(|i| i as u64)
}

#[test]
fn fields_meet_as_document_01_says() {
    let mut met = 0;
    for seed in 0..SEEDS {
        let mut rng = Rng::new(seed);
        let wish = Wish {
            rich: true,
            low: true,
            ..Wish::default()
        };
        let mut made = make::module(&mut rng, &wish);
        let mut fields = Vec::new();
        let step = rng.pick(&[1, 2, 4, 4, 8, 8]);
        for i in 0..made.entries.len() {
            let width = if made.bits == 64 {
                rng.pick(&[4, 8])
            } else {
                4
            };
            let last = (made.text_size - width) / step;
            let at = made.text_address + step * rng.between(0, last);
            made.put(made.entry_address_field(i), at);
            made.put(made.entry_section_field(i), made.text);
            made.put(made.entry_type_field(i), (8 * width - 1) << 8);
            fields.push((at, width));
        }
        let expected = first_overlap(&fields);
        let found = module(&made.bytes).err();
        assert_eq!(
            found.map(|r| (r.number, r.item)),
            expected.map(|i| (OVERLAP, i))
        );
        met += u64::from(expected.is_some());
    }
    assert!(
        met > 1_000 && met < 2_500,
        "{met} modules with fields that meet"
    );
}

#[test]
fn records_come_back() {
    for seed in 0..SEEDS {
        let mut rng = Rng::new(seed);
        let wish = Wish {
            bits: Some(32),
            rich: seed % 2 == 0,
            empty: seed % 50 == 0,
            ..Wish::default()
        };
        let made = make::module(&mut rng, &wish);
        let (file, plan) = (&made.bytes, clear_plan(&mut rng, &made));
        let (text, data) = buffers(&mut rng, &made);
        let length = records_length(file, &plan).expect("a clear plan");
        let mut records = rng.bytes(length as usize);
        write_records(file, &plan, &text, &data, &mut records).unwrap();
        let (mut read_text, mut read_data) = buffers(&mut rng, &made);
        read_records(file, &plan, &records, &mut read_text, &mut read_data).unwrap();
        assert_eq!((read_text, read_data), (text, data), "seed {seed}");
    }
}

#[test]
fn records_that_are_read_write_back() {
    let mut accepted = 0;
    for seed in 0..SEEDS {
        let case = case(seed);
        for op in &case.ops {
            if let Op::ReadRecords {
                plan,
                records,
                text,
                data,
            } = op
            {
                let (mut text, mut data) = (text.clone(), data.clone());
                if read_records(&case.file, plan, records, &mut text, &mut data).is_ok() {
                    let mut again = vec![0; records.len()];
                    write_records(&case.file, plan, &text, &data, &mut again).unwrap();
                    assert_eq!(again, *records, "seed {seed}");
                    accepted += 1;
                }
            }
        }
    }
    assert!(accepted > 100, "{accepted} texts were accepted");
}

#[test]
fn a_refusal_changes_no_byte() {
    for seed in 0..SEEDS {
        let case = case(seed);
        for op in &case.ops {
            judge_images(&case.file, op);
            judge_sheet(op);
            judge_records(&case.file, op);
        }
    }
}

/// A refused build or move, as `run_calls` judges it; large images are left out.
fn judge_images(file: &[u8], op: &Op) {
    let (call, text, data) = match op {
        Op::Build { plan, text, data } => (Call::Build(plan.clone()), text, data),
        Op::Move {
            from,
            to,
            text,
            data,
        } => (Call::Move(from.clone(), to.clone()), text, data),
        _ => return,
    };
    if data.len() < 1_000_000 {
        run_calls(file, &[call], text, data);
    }
}

/// A refused sheet.
fn judge_sheet(op: &Op) {
    match op {
        Op::ReadSheet { sheet, list } => {
            let mut after = list.clone();
            if read_sheet(sheet, &mut after).is_err() {
                assert_eq!(after, *list);
            }
        }
        Op::WriteSheet {
            text,
            data,
            list,
            sheet,
        } => {
            let mut after = sheet.clone();
            if write_sheet(*text, *data, list, &mut after).is_err() {
                assert_eq!(after, *sheet);
            }
        }
        _ => {}
    }
}

/// A refused record text.
fn judge_records(file: &[u8], op: &Op) {
    match op {
        Op::WriteRecords {
            plan,
            text,
            data,
            records,
        } => {
            let mut after = records.clone();
            if write_records(file, plan, text, data, &mut after).is_err() {
                assert_eq!(after, *records);
            }
        }
        Op::ReadRecords {
            plan,
            records,
            text,
            data,
        } => {
            let (mut read_text, mut read_data) = (text.clone(), data.clone());
            if read_records(file, plan, records, &mut read_text, &mut read_data).is_err() {
                assert!(read_text == *text && read_data == *data);
            }
        }
        _ => {}
    }
}
