//! What one address of a plan alone changes, on real and made modules: no byte outside the fields that
//! `xcoff relocations --follows` lists, and each listed field by what its entries add up to.

mod command_runner;
mod made;

use command_runner::{real, rows, tests_folder, Folder};
use made::{Module, Symbol};
use std::collections::{BTreeMap, BTreeSet};
use xcoff::{Format, Image, Plan, PlanAddress};

/// A field: its image and the offset in it.
type Place = (Image, u64);

/// The text image and the data image.
type Pair = [Vec<u8>; 2];

/// A module, and what the second implementation says of its entries.
struct Bench {
    folder: Folder,
    name: String,
    file: Vec<u8>,
    recorded: Plan,
    bits: u64,
    entries: Vec<Named>,
}

/// An entry: its field, the bits of it, the address that its symbol follows.
struct Named {
    place: Place,
    bits: u64,
    subtracts: bool,
    follows: Option<PlanAddress>,
}

impl Bench {
    /// None: the file is not a module.
    fn new(name: &str, file: Vec<u8>) -> Option<Bench> {
        let module = reference::module(&file).ok()?;
        let symbols = reference::loader_symbols(&file).unwrap();
        let follows = |symbol: u64| match symbol {
            0 => Some(PlanAddress::Text),
            1 | 2 => Some(PlanAddress::Data),
            index => match &symbols[index as usize - 3] {
                s if s.from_plan() => Some(PlanAddress::Import(index)),
                s if s.imported() => None,
                s if s.section == module.text => Some(PlanAddress::Text),
                _ => Some(PlanAddress::Data),
            },
        };
        let all: Vec<_> = (0..3 + module.loader_symbols).map(follows).collect();
        assert_eq!(xcoff::followed(&file), Ok(all), "{name}");
        let named = |e: &reference::Relocation| Named {
            place: match e.section == module.text {
                true => (Image::Text, e.address - module.text_address),
                false => (Image::Data, e.address - module.data_address),
            },
            bits: e.width,
            subtracts: e.subtract,
            follows: follows(e.symbol),
        };
        let folder = Folder::new();
        folder.write(name, &file);
        let recorded = Plan {
            text: module.text_address,
            data: module.data_address,
            list: symbols.iter().map(|s| s.value).collect(),
        };
        let entries = reference::relocations(&file).unwrap();
        let entries = entries.iter().map(named).collect();
        Some(Bench {
            folder,
            name: name.to_string(),
            file,
            recorded,
            bits: module.bits,
            entries,
        })
    }

    /// The addresses that a plan names: of many imports some.
    fn addresses(&self) -> Vec<PlanAddress> {
        let named: BTreeSet<PlanAddress> = self.entries.iter().filter_map(|e| e.follows).collect();
        let imports = named
            .iter()
            .copied()
            .filter(|a| matches!(a, PlanAddress::Import(_)));
        let step = 1 + named.len() / 8;
        [PlanAddress::Text, PlanAddress::Data]
            .into_iter()
            .chain(imports.step_by(step))
            .collect()
    }

    /// The fields that the command lists.
    fn listed(&self, address: PlanAddress) -> BTreeSet<Place> {
        let follows = match address {
            PlanAddress::Text => "text".to_string(),
            PlanAddress::Data => "data".to_string(),
            PlanAddress::Import(index) => format!("@{index}"),
        };
        let args = ["relocations", &self.name, "--follows", &follows];
        let out = self.folder.done(&args);
        let place = |row: &Vec<&str>| {
            let image = match row[2] {
                "text" => Image::Text,
                _ => Image::Data,
            };
            (image, row[3].parse().unwrap())
        };
        rows(&out, "entry").iter().map(place).collect()
    }

    /// Of each field with at least one entry that names what follows the address: its bits, and how often that is added.
    fn fields(&self, address: PlanAddress) -> BTreeMap<Place, (u64, i64)> {
        let mut fields = BTreeMap::new();
        for e in self.entries.iter().filter(|e| e.follows == Some(address)) {
            let (_, times) = fields.entry(e.place).or_insert((e.bits, 0));
            *times += if e.subtracts { -1 } else { 1 };
        }
        fields
    }

    /// A plan with one address moved, if it is accepted.
    fn moved(&self, address: PlanAddress, by: u64) -> Option<Plan> {
        let value = address.of(&self.recorded).wrapping_add(by) & low(self.bits);
        let plan = address.with(&self.recorded, value);
        self.build(&plan).map(|_| plan)
    }

    /// Another plan, with other values at the places that are ignored too.
    fn elsewhere(&self) -> Plan {
        Plan {
            text: 0x4000,
            data: 0x8000,
            list: self.recorded.list.iter().map(|a| a / 2 + 5).collect(),
        }
    }

    fn room(&self) -> Pair {
        let m = xcoff::module(&self.file).unwrap();
        [m.text.size, m.image].map(|length| vec![0; length as usize])
    }

    fn build(&self, plan: &Plan) -> Option<Pair> {
        let [mut text, mut data] = self.room();
        let answer = xcoff::build_images(&self.file, plan, &mut text, &mut data);
        answer.ok().map(|_| [text, data])
    }

    /// A move of bytes that are no images.
    fn carried(&self, from: &Plan, to: &Plan) -> Pair {
        let [mut text, mut data] = self.room();
        for (i, byte) in text.iter_mut().chain(&mut data).enumerate() {
            *byte = (i * 37 + i / 251) as u8;
        }
        xcoff::move_images(&self.file, from, to, &mut text, &mut data).unwrap();
        [text, data]
    }
}

fn low(bits: u64) -> u64 {
    u64::MAX >> (64 - bits)
}

fn image(pair: &Pair, image: Image) -> &[u8] {
    &pair[image as usize]
}

fn number(pair: &Pair, place: Place, bits: u64) -> u64 {
    let start = place.1 as usize;
    let bytes = &image(pair, place.0)[start..start + bits as usize / 8];
    bytes
        .iter()
        .fold(0, |number, &b| number << 8 | u64::from(b))
}

/// Compares images for two plans of which one address differs by `by`. Answers how many fields changed.
fn compare(
    what: &str,
    fields: &BTreeMap<Place, (u64, i64)>,
    by: u64,
    mut one: Pair,
    mut other: Pair,
) -> u64 {
    let mut changed = 0;
    for (&place, &(bits, times)) in fields {
        let difference = number(&other, place, bits).wrapping_sub(number(&one, place, bits));
        let expected = (times as u64).wrapping_mul(by) & low(bits);
        assert_eq!(difference & low(bits), expected, "{what}: {place:?}");
        changed += u64::from(expected != 0);
        // What is left are the bytes outside.
        for pair in [&mut one, &mut other] {
            let start = place.1 as usize;
            pair[place.0 as usize][start..start + bits as usize / 8].fill(0);
        }
    }
    assert!(one == other, "{what}: a byte outside the fields changed");
    changed
}

/// Every address of a module, moved in several ways. Answers how many fields were listed and how many changes were seen.
fn one_address_alone(bench: &Bench) -> (u64, u64) {
    let (mut listed, mut changed) = (0, 0);
    for address in bench.addresses() {
        let fields = bench.fields(address);
        let places: BTreeSet<Place> = fields.keys().copied().collect();
        assert_eq!(bench.listed(address), places, "{} {address:?}", bench.name);
        listed += places.len() as u64;
        for by in [1, 0x1234, 1 << 31, 1 << 32, 0u64.wrapping_sub(0x10)] {
            if let Some(plan) = bench.moved(address, by) {
                changed += built_and_moved(bench, address, &fields, &plan);
            }
        }
    }
    (listed, changed)
}

/// The images for the recorded plan and for `plan`, built, and moved from a third one.
fn built_and_moved(
    bench: &Bench,
    address: PlanAddress,
    fields: &BTreeMap<Place, (u64, i64)>,
    plan: &Plan,
) -> u64 {
    let by = address.of(plan).wrapping_sub(address.of(&bench.recorded));
    let what = format!("{} {address:?} by {by:x}", bench.name);
    let plans = [&bench.recorded, plan];
    let [one, other] = plans.map(|p| bench.build(p).unwrap());
    let changed = compare(&what, fields, by, one, other);
    let [one, other] = plans.map(|p| bench.carried(&bench.elsewhere(), p));
    assert_eq!(
        compare(&format!("{what}, moved"), fields, by, one, other),
        changed
    );
    changed
}

#[test]
fn an_address_changes_its_own_fields_and_no_other_byte_of_real_modules() {
    let (mut modules, mut listed, mut changed) = (0, 0, 0);
    for folder in ["corpus", "corpus/large", "pairs"] {
        for entry in std::fs::read_dir(tests_folder().join(folder)).unwrap() {
            let path = entry.unwrap().path();
            let name = path.file_name().unwrap().to_str().unwrap().to_string();
            if !path.is_file() {
                continue;
            }
            let Some(bench) = Bench::new(&name, real(&name)) else {
                continue;
            };
            let (one, two) = one_address_alone(&bench);
            modules += 1;
            listed += one;
            changed += two;
        }
    }
    assert!(modules >= 100, "{modules} modules");
    assert!(listed >= 10_000 && changed >= 20_000, "{listed} {changed}");
}

// ---- made modules: every mixture of entries on a field

/// Fields of a made module, each with the entries on it: symbol and whether it is subtracted.
const MIXTURES: [&[(u32, bool)]; 18] = [
    &[(0, false)],
    &[(1, false)],
    &[(2, false)],
    &[(2, true)],
    &[(3, false)],
    &[(4, true)],
    &[(5, false)],
    &[(7, false)],
    &[(8, false)],
    &[(8, true), (6, false)],
    &[(0, false), (1, true)],
    &[(0, false), (3, false)],
    &[(2, false), (1, false), (4, false)],
    &[(5, false), (6, true)],
    &[(7, false), (0, false)],
    &[(7, true), (5, true)],
    // These cancel: listed, and no change is seen.
    &[(0, false), (3, true)],
    &[(5, false), (5, true)],
];

fn made_module(format: Format, kind: u16) -> Module {
    let mut m = Module::new(format);
    m.symbols = vec![
        Symbol::Text,
        Symbol::Data,
        Symbol::Import,
        Symbol::Import,
        Symbol::Deferred,
        Symbol::Bss,
    ];
    for (section, start) in [(1, m.text_address), (2, m.data_address)] {
        m.relocate(section, start, kind, &MIXTURES);
    }
    m
}

#[test]
fn an_address_changes_its_own_fields_and_no_other_byte_of_made_modules() {
    for (format, kind) in [
        (Format::Xcoff32, 0x1F00),
        (Format::Xcoff64, 0x1F00),
        (Format::Xcoff64, 0x3F00),
    ] {
        let file = made_module(format, kind).bytes();
        let bench = Bench::new("made", file).unwrap();
        let named = |address| bench.fields(address).len();
        // In each image.
        assert_eq!(named(PlanAddress::Text), 2 * 6);
        assert_eq!(named(PlanAddress::Data), 2 * 8);
        assert_eq!(named(PlanAddress::Import(5)), 2 * 4);
        assert_eq!(named(PlanAddress::Import(6)), 2 * 2);
        let (listed, changed) = one_address_alone(&bench);
        assert_eq!(listed, 2 * 20);
        assert!(changed >= 2 * 18 * 3, "{format:?}: {changed}");
    }
}
