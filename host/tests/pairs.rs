//! Modules that GNU ld linked twice, at other addresses: building one for the other's plan gives the other's bytes.

mod command_runner;

use command_runner::{has_fixed_text, linked_images, pairs, real};
use xcoff::{
    build_images, loader_symbol, module, move_images, read_sheet, replay, write_sheet, Call,
    Module, Plan, Reached, Refusal, Replayed,
};

struct Linked {
    file: Vec<u8>,
    module: Module,
    plan: Plan,
    text: Vec<u8>,
    data: Vec<u8>,
}

/// What ld wrote: the images, and the plan that they are for, every import at its recorded value.
fn linked(name: &str) -> Linked {
    let file = real(name);
    let m = module(&file).unwrap_or_else(|r| panic!("{name}: {r}"));
    let list = (3..m.symbols + 3)
        .map(|i| loader_symbol(&file, i).unwrap().value)
        .collect();
    let plan = Plan {
        text: m.text.address,
        data: m.data.address,
        list,
    };
    let (text, data) = linked_images(&file);
    Linked {
        file,
        module: m,
        plan,
        text,
        data,
    }
}

#[test]
fn building_for_the_others_plan_gives_its_bytes() {
    for name in pairs() {
        let a = linked(&name);
        let b = linked(&name.replace(".a-", ".b-"));
        let mut text = vec![0xAA; a.text.len()];
        let mut data = vec![0x55; a.data.len()];
        let r = build_images(&a.file, &b.plan, &mut text, &mut data).unwrap();
        assert_eq!(data, b.data, "{name}: data");
        if !has_fixed_text(&name) {
            assert_eq!(text, b.text, "{name}: text");
        }
        assert_eq!(r.entry, b.module.entry.map(|e| e.address), "{name}: entry");
        assert_eq!(r.toc, b.module.toc.map(|t| t.address), "{name}: TOC");

        let back = move_images(&a.file, &b.plan, &a.plan, &mut text, &mut data).unwrap();
        assert_eq!(text, a.text, "{name}: text moved back");
        assert_eq!(data, a.data, "{name}: data moved back");
        assert_eq!(
            back.entry,
            a.module.entry.map(|e| e.address),
            "{name}: entry moved back"
        );
        assert_eq!(
            back.toc,
            a.module.toc.map(|t| t.address),
            "{name}: TOC moved back"
        );
    }
}

#[test]
fn a_list_of_calls_reaches_the_last_plan() {
    for name in pairs() {
        let a = linked(&name);
        let b = linked(&name.replace(".a-", ".b-"));
        let mut short = a.plan.clone();
        short.list.push(0);
        let calls = [
            Call::Move(a.plan.clone(), b.plan.clone()),
            Call::Build(a.plan.clone()),
            Call::Build(short),
            Call::Move(a.plan.clone(), b.plan.clone()),
            Call::Move(b.plan.clone(), b.plan.clone()),
        ];
        let mut text = vec![0x11; a.text.len()];
        let mut data = vec![0x22; a.data.len()];
        let all = replay(&a.file, &calls, &mut text, &mut data);
        assert_eq!((all.calls, all.accepted), (5, 4), "{name}");
        let last = all.last.unwrap();
        assert_eq!(last.entry, b.module.entry.map(|e| e.address), "{name}");
        assert_eq!(last.toc, b.module.toc.map(|t| t.address), "{name}");
        assert_eq!(data, b.data, "{name}: data");
        if !has_fixed_text(&name) {
            assert_eq!(text, b.text, "{name}: text");
        }
    }
}

#[test]
fn a_list_of_calls_answers_for_its_last_call_and_counts_them() {
    let none = Reached {
        entry: None,
        toc: None,
    };
    let blank = Replayed {
        calls: 0,
        accepted: 0,
        last: Ok(none),
    };
    for name in pairs() {
        let a = linked(&name);
        let mut short = a.plan.clone();
        short.list.push(0);
        let (good, bad) = (Call::Build(a.plan.clone()), Call::Build(short));
        let mut text = vec![0x11; a.text.len()];
        let mut data = vec![0x22; a.data.len()];
        let mut run = |calls: &[Call]| replay(&a.file, calls, &mut text, &mut data);
        let refused = Err(Refusal {
            number: 20,
            item: 2,
            offset: 0,
        });
        assert_eq!(run(&[]), blank, "{name}: no call");
        let all = run(&[bad.clone(), bad.clone()]);
        assert_eq!((all.calls, all.accepted), (2, 0), "{name}: all refused");
        assert_eq!(all.last, refused, "{name}: all refused");
        let all = run(&[good.clone(), good.clone(), bad.clone()]);
        assert_eq!((all.calls, all.accepted), (3, 2), "{name}: last refused");
        assert_eq!(all.last, refused, "{name}: last refused");
        let all = run(&[bad, good]);
        assert_eq!((all.calls, all.accepted), (2, 1), "{name}: first refused");
        let last = all.last.unwrap();
        assert_eq!(last.entry, a.module.entry.map(|e| e.address), "{name}");
        assert_eq!(last.toc, a.module.toc.map(|t| t.address), "{name}");
    }
}

#[test]
fn a_refused_call_changes_no_byte() {
    for name in pairs() {
        let a = linked(&name);
        let b = linked(&name.replace(".a-", ".b-"));
        let mut text = a.text.clone();
        let mut data = vec![0; a.data.len() + 1];
        let r = move_images(&a.file, &a.plan, &b.plan, &mut text, &mut data).unwrap_err();
        assert_eq!((r.number, r.item, r.offset), (20, 1, 0), "{name}");
        assert_eq!(text, a.text, "{name}: text");
        assert!(data.iter().all(|&x| x == 0), "{name}: data");
    }
}

#[test]
fn a_sheet_reads_back_as_its_plan() {
    for name in pairs() {
        let a = linked(&name);
        let sheet = write_sheet(&a.plan).unwrap();
        assert_eq!(read_sheet(&sheet).unwrap(), a.plan, "{name}");
        assert_eq!(
            read_sheet(&sheet[..sheet.len() - 1]).unwrap_err().number,
            21,
            "{name}"
        );
    }
}
