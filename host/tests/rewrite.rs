//! Modules written as files for a plan: real modules against the same objects that GNU ld linked at these addresses, and
//! what the request says of every written file.

mod command_runner;

use command_runner::{has_fixed_text, pairs, real, tests_folder};
use std::fs;
use std::ops::Range;
use xcoff::{
    build_images, loader_symbol_table, module, recorded_plan, replay, section, write_module,
    write_module_into, Call, FilePart, Format, Plan, Refusal,
};

/// Real modules of which no two parts share bytes.
fn modules() -> Vec<(String, Vec<u8>)> {
    let mut names = Vec::new();
    for folder in ["corpus", "corpus/large", "pairs"] {
        let entries = fs::read_dir(tests_folder().join(folder)).unwrap();
        let files = entries.map(|e| e.unwrap()).filter(|e| e.path().is_file());
        names.extend(files.map(|e| e.file_name().into_string().unwrap()));
    }
    names.sort();
    names.dedup();
    let found = names.into_iter().map(|name| (real(&name), name));
    let modules = found.filter(|(file, _)| module(file).is_ok());
    modules.map(|(file, name)| (name, file)).collect()
}

fn number(file: &[u8], at: usize, width: usize) -> usize {
    let bytes = file[at..at + width].iter();
    bytes.fold(0, |number, &byte| number << 8 | usize::from(byte))
}

/// A file's layout, read here without the library.
struct Layout<'f> {
    file: &'f [u8],
    wide: bool,
}

impl Layout<'_> {
    fn of(file: &[u8]) -> Layout<'_> {
        let wide = file[1] == 0xF7;
        Layout { file, wide }
    }

    fn by<T>(&self, narrow: T, wide: T) -> T {
        match self.wide {
            false => narrow,
            true => wide,
        }
    }

    /// Bytes of an address.
    fn word(&self) -> usize {
        self.by(4, 8)
    }

    fn sections(&self) -> usize {
        number(self.file, 2, 2)
    }

    /// Of a section, from 1.
    fn header(&self, n: usize) -> usize {
        let first = self.by(20, 24) + number(self.file, 16, 2);
        first + self.by(40, 72) * (n - 1)
    }

    fn flags(&self, n: usize) -> usize {
        number(self.file, self.header(n) + self.by(36, 64), 4)
    }

    fn section_with(&self, flags: usize) -> usize {
        let mut all = 1..=self.sections();
        all.find(|&n| self.flags(n) == flags)
            .expect("such a section")
    }

    fn raw(&self, n: usize) -> Range<usize> {
        let at = self.header(n);
        let start = number(self.file, at + self.by(20, 32), self.word());
        let size = number(self.file, at + self.by(16, 24), self.word());
        start..start + size
    }

    /// `s_paddr` and `s_vaddr` of a section.
    fn addresses(&self, n: usize) -> Range<usize> {
        let at = self.header(n) + 8;
        at..at + 2 * self.word()
    }

    /// The value of each symbol that a walk reads.
    fn symbol_values(&self) -> Vec<Range<usize>> {
        let start = number(self.file, 8, self.word());
        let count = number(self.file, self.by(12, 20), 4);
        let mut values = Vec::new();
        let mut index = 0;
        while index < count {
            let entry = start + 18 * index;
            let at = entry + self.by(8, 0);
            values.push(at..at + self.word());
            index += 1 + usize::from(self.file[entry + 17]);
        }
        values
    }

    /// The address of each entry in the sections' own relocation tables, which ld keeps.
    fn section_relocations(&self) -> Vec<Range<usize>> {
        let table = |n| {
            let at = self.header(n);
            let start = number(self.file, at + self.by(24, 40), self.word());
            let count = number(self.file, at + self.by(32, 56), self.by(2, 4));
            (0..count).map(move |entry| start + self.by(10, 14) * entry)
        };
        let loaded = (1..=self.sections()).filter(|&n| [0x20, 0x40].contains(&self.flags(n)));
        let entries = loaded.flat_map(table);
        entries.map(|at| at..at + self.word()).collect()
    }
}

/// The fields that tell of addresses and that the request leaves alone: symbol values, addresses in the sections' own
/// relocation tables, the loader section's own addresses.
fn left_alone(file: &[u8]) -> Vec<Range<usize>> {
    let layout = Layout::of(file);
    let mut fields = layout.symbol_values();
    fields.extend(layout.section_relocations());
    fields.push(layout.addresses(layout.section_with(0x1000)));
    fields
}

/// Two files of one length with these fields zeroed.
fn without(file: &[u8], fields: &[Range<usize>]) -> Vec<u8> {
    let mut rest = file.to_vec();
    for field in fields {
        rest[field.clone()].fill(0);
    }
    rest
}

// ---- what ld wrote

#[test]
fn written_for_the_others_plan_it_is_the_other_but_for_the_fields_left_alone() {
    for name in pairs() {
        for (from, to) in [(".a-", ".b-"), (".b-", ".a-")] {
            let one = real(&name.replace(".a-", from));
            let other = real(&name.replace(".a-", to));
            let written = write_module(&one, &recorded_plan(&other).unwrap()).unwrap();
            let mut fields = left_alone(&one);
            if has_fixed_text(&name) {
                let layout = Layout::of(&one);
                fields.push(layout.raw(layout.section_with(0x20)));
            }
            let same = without(&written, &fields) == without(&other, &fields);
            assert!(same, "{name}: {from}");
            // And these are as the first file has them.
            for field in left_alone(&one) {
                assert_eq!(written[field.clone()], one[field], "{name}: {from}");
            }
        }
    }
}

/// The parts that the request names, by themselves: each is the other's, with nothing left out but the loader section's own
/// header.
#[test]
fn headers_loader_section_and_raw_data_are_the_others() {
    for name in pairs() {
        let [a, b] = [name.clone(), name.replace(".a-", ".b-")].map(|name| real(&name));
        let written = write_module(&a, &recorded_plan(&b).unwrap()).unwrap();
        let layout = Layout::of(&b);
        let first = layout.header(1);
        assert_eq!(
            written[..first],
            b[..first],
            "{name}: file and auxiliary header"
        );
        for n in 1..=layout.sections() {
            let header = layout.header(n)..layout.header(n) + layout.by(40, 72);
            if layout.flags(n) != 0x1000 {
                assert_eq!(written[header.clone()], b[header], "{name}: header {n}");
            }
            let has_raw = [0x20, 0x40, 0x1000].contains(&layout.flags(n));
            if has_raw && !(has_fixed_text(&name) && layout.flags(n) == 0x20) {
                assert_eq!(
                    written[layout.raw(n)],
                    b[layout.raw(n)],
                    "{name}: raw data {n}"
                );
            }
        }
    }
}

// ---- what holds of every written file

/// Plans for a module: its own, one with text and data elsewhere and each import at an address of its own, and a low one.
fn plans(file: &[u8]) -> Vec<Plan> {
    let own = recorded_plan(file).unwrap();
    let far = match module(file).unwrap().format {
        Format::Xcoff32 => 0x5123_4560,
        Format::Xcoff64 => 0x0900_0000_5123_4560,
    };
    let list = (0..own.list.len() as u64).map(|i| far + 0x10_0004 * (i % 1_000));
    let moved = Plan {
        text: far + 0x1000,
        data: far / 3,
        list: list.collect(),
    };
    let low = Plan {
        text: 0x1000_0001,
        data: 0,
        list: vec![7; own.list.len()],
    };
    vec![own, moved, low]
}

/// The plan with the file's own values at the places that no plan is asked for.
fn meant(file: &[u8], plan: &Plan) -> Plan {
    let symbols = loader_symbol_table(file).unwrap();
    let places = symbols.iter().zip(&plan.list);
    let value = |(row, &wanted): (&xcoff::LoaderRow, &u64)| {
        let follows = row.symbol.is_import() && !row.symbol.is_deferred();
        if follows {
            wanted
        } else {
            row.symbol.value
        }
    };
    let list = places.map(value).collect();
    Plan {
        list,
        ..plan.clone()
    }
}

#[test]
fn opened_again_its_recorded_addresses_are_the_plans() {
    let modules = modules();
    assert!(modules.len() > 100, "{} modules", modules.len());
    for (name, file) in modules {
        let before = module(&file).unwrap();
        for plan in plans(&file) {
            let new = write_module(&file, &plan).unwrap_or_else(|r| panic!("{name}: {r}"));
            let after = module(&new).unwrap();
            let recorded = recorded_plan(&new).unwrap();
            let wanted = meant(&file, &plan);
            assert_eq!(
                (recorded.text, recorded.data),
                (plan.text, plan.data),
                "{name}"
            );
            let symbols = loader_symbol_table(&file).unwrap();
            for ((row, &value), &wanted) in symbols.iter().zip(&recorded.list).zip(&wanted.list) {
                if row.symbol.is_import() {
                    assert_eq!(value, wanted, "{name}: import {}", row.index);
                }
            }
            let gap = |m: &xcoff::Module| m.bss.address.wrapping_sub(m.data.address);
            assert_eq!(gap(&after) as u32, gap(&before) as u32, "{name}: bss");
            for n in [after.text, after.data, after.bss] {
                let s = section(&new, n.number).unwrap();
                assert_eq!((s.paddr, s.vaddr), (n.address, n.address), "{name}");
            }
        }
    }
}

/// A build for every plan, and lists of builds and moves, answer as of the first file and leave the same images.
#[test]
fn building_it_gives_what_the_first_file_gives() {
    for (name, file) in modules() {
        let m = module(&file).unwrap();
        let plans = plans(&file);
        let new = write_module(&file, &plans[1]).unwrap();
        let mut lists: Vec<Vec<Call>> =
            plans.iter().map(|p| vec![Call::Build(p.clone())]).collect();
        let [p, q, r] = [0, 1, 2].map(|n| plans[n].clone());
        lists.push(vec![
            Call::Move(q.clone(), r.clone()),
            Call::Build(r.clone()),
            Call::Move(r, p.clone()),
            Call::Move(p, q),
        ]);
        for calls in lists {
            let images = |file: &[u8]| {
                let mut text = vec![0x5A; m.text.size as usize];
                let mut data = vec![0xA5; m.image as usize];
                let answer = replay(file, &calls, &mut text, &mut data);
                (answer, text, data)
            };
            assert!(images(&file) == images(&new), "{name}");
        }
    }
}

#[test]
fn written_there_and_on_and_back() {
    for (name, file) in modules() {
        let [own, p, q] = [0, 1, 2].map(|n| plans(&file)[n].clone());
        assert!(
            write_module(&file, &own).unwrap() == file,
            "{name}: for its own plan"
        );
        let written = write_module(&file, &p).unwrap();
        let on = write_module(&written, &q).unwrap();
        assert!(
            on == write_module(&file, &q).unwrap(),
            "{name}: by way of another"
        );
        assert!(write_module(&on, &own).unwrap() == file, "{name}: and back");
    }
}

/// Raw text and data are the images, and nothing but these, the headers' addresses, values and relocation addresses changes.
#[test]
fn every_other_byte_stays() {
    for (name, file) in modules() {
        let m = module(&file).unwrap();
        let layout = Layout::of(&file);
        let plan = &plans(&file)[1];
        let new = write_module(&file, plan).unwrap();
        let (mut text, mut data) = (vec![0; m.text.size as usize], vec![0; m.image as usize]);
        build_images(&file, plan, &mut text, &mut data).unwrap();
        let [text_at, data_at] = [m.text.number, m.data.number].map(|n| layout.raw(n as usize));
        assert!(new[text_at.clone()] == text, "{name}: raw text");
        assert!(
            new[data_at.clone()] == data[..data_at.len()],
            "{name}: raw data"
        );
        let mut fields = vec![text_at, data_at];
        for n in [m.text.number, m.data.number, m.bss.number] {
            fields.push(layout.addresses(n as usize));
        }
        let aux = layout.by(20, 24);
        let word = layout.word();
        for at in layout.by([16, 20, 24, 28], [8, 16, 24, 80]) {
            fields.push(aux + at..aux + at + word);
        }
        let loader = layout.raw(m.loader as usize).start;
        let at = |wide: usize| loader + number(&file, loader + wide, 8);
        let symbols = if layout.wide { at(40) } else { loader + 32 };
        let relocations = match layout.wide {
            true => at(48),
            false => symbols + 24 * m.symbols as usize,
        };
        for n in 0..m.symbols as usize {
            let value = symbols + 24 * n + layout.by(8, 0);
            fields.push(value..value + word);
        }
        for n in 0..m.relocations as usize {
            let address = relocations + layout.by(12, 16) * n;
            fields.push(address..address + word);
        }
        assert!(without(&new, &fields) == without(&file, &fields), "{name}");
    }
}

// ---- refusals

fn refused(file: &[u8], plan: &Plan, length: usize) -> (u64, u64, u64) {
    let mut output = vec![0xA5; length];
    let r = write_module_into(file, plan, &mut output).unwrap_err();
    assert!(output.iter().all(|&b| b == 0xA5), "a refusal writes");
    (r.number, r.item, r.offset)
}

#[test]
fn refusals_come_in_order_and_write_nothing() {
    let file = real("exe-imports-32");
    let good = recorded_plan(&file).unwrap();
    let length = file.len();
    let mut short = good.clone();
    short.list.pop();
    let high = |text: u64, data: u64| Plan {
        text,
        data,
        ..good.clone()
    };
    let mut import = good.clone();
    import.list[0] = 1 << 32;
    for room in [length, length - 1, 0] {
        assert_eq!(refused(&file, &short, room), (20, 2, 0));
        assert_eq!(refused(&file, &high(1 << 32, 1 << 32), room), (19, 0, 0));
        assert_eq!(refused(&file, &high(0, (1 << 32) - 159), room), (19, 1, 0));
        assert_eq!(refused(&file, &import, room), (19, 3, 0));
    }
    for room in [0, length - 1, length + 1] {
        assert_eq!(refused(&file, &good, room), (20, 0, 0));
    }
    let object = real("gas-stabs-32.o");
    let refusal = module(&object).unwrap_err();
    assert_eq!(write_module(&object, &good), Err(refusal));
}

const SHARED: Refusal = Refusal {
    number: 29,
    item: 0,
    offset: 0,
};

/// Raw data moved over what is before it, by its pointer in the section header: touching is no sharing.
#[test]
fn parts_that_share_a_byte_are_refused() {
    for (name, parts) in [("textrel.a-32", 32), ("textrel.a-64", 64)] {
        let file = real(name);
        let layout = Layout::of(&file);
        let plan = recorded_plan(&file).unwrap();
        let (text, data) = (layout.section_with(0x20), layout.section_with(0x40));
        let end = layout.raw(text).end;
        assert_eq!(end, layout.raw(data).start, "{parts} bits: side by side");
        let at = |n: usize, pointer: usize| {
            let mut moved = file.clone();
            let place = layout.header(n) + layout.by(20, 32);
            let bytes = &pointer.to_be_bytes()[8 - layout.word()..];
            moved[place..place + layout.word()].copy_from_slice(bytes);
            moved
        };
        assert!(write_module(&file, &plan).is_ok());
        for (file, parts) in [
            (at(data, end - 1), [FilePart::Text, FilePart::Data]),
            (at(data, end - 8), [FilePart::Text, FilePart::Data]),
            (
                at(text, layout.header(layout.sections())),
                [FilePart::HeaderArea, FilePart::Text],
            ),
        ] {
            // Other bytes of data may be refused for their entries, which are not looked at here.
            assert!(module(&file).is_ok(), "{name}");
            assert_eq!(write_module(&file, &plan), Err(SHARED), "{name}");
            let pairs = xcoff::shared_in_module(&file);
            let found: Vec<_> = pairs.iter().map(|(a, b)| [a.part, b.part]).collect();
            assert!(found.contains(&parts), "{name}: {found:?}");
        }
    }
}

/// Tables of the loader section over each other, by their offsets in its header.
#[test]
fn loader_tables_that_share_a_byte_are_refused() {
    let file = real("exe-imports-32");
    let plan = recorded_plan(&file).unwrap();
    let layout = Layout::of(&file);
    let loader = layout.raw(layout.section_with(0x1000)).start;
    let strings = number(&file, loader + 28, 4);
    let ids = number(&file, loader + 20, 4);
    let ids_length = number(&file, loader + 12, 4);
    assert_eq!(ids + ids_length, strings, "side by side");
    assert!(write_module(&file, &plan).is_ok());
    // One id byte more, which is the strings' first.
    let mut more = file.clone();
    more[loader + 12..loader + 16].copy_from_slice(&(ids_length as u32 + 1).to_be_bytes());
    assert!(module(&more).is_ok());
    assert_eq!(write_module(&more, &plan), Err(SHARED));
    let pairs = xcoff::shared_in_module(&more);
    let found: Vec<_> = pairs.iter().map(|(a, b)| [a.part, b.part]).collect();
    assert_eq!(found, [[FilePart::ImportIds, FilePart::LoaderStrings]]);
}
