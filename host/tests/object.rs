//! Object files before linking, with real ones: what GNU ld made of one at other addresses, entries as other tools list them,
//! placed as a plain loop over these says, and the bench of edges that no real file has.

use reference::generate::rng::Rng;
use std::collections::BTreeMap;
use std::fs;
use std::path::PathBuf;
use std::process::Command;
use xcoff::{Comparison, Kind, NotMoved, ObjectCall, ObjectEntry, ObjectPlan, Refusal, Section};

fn corpus() -> PathBuf {
    PathBuf::from(env!("CARGO_MANIFEST_DIR")).join("../tests/corpus")
}

fn real(name: &str) -> Vec<u8> {
    fs::read(corpus().join(name)).unwrap_or_else(|e| panic!("{name}: {e}"))
}

/// A file that is stored compressed.
fn unpacked(name: &str) -> Vec<u8> {
    let path = corpus().join("big").join(name);
    let ran = Command::new("xz").arg("-dc").arg(path).output().unwrap();
    assert!(ran.status.success());
    ran.stdout
}

fn sections(file: &[u8]) -> Vec<Section> {
    let count = xcoff::open(file).unwrap().sections;
    (1..=count)
        .map(|n| xcoff::section(file, n).unwrap())
        .collect()
}

fn raw<'a>(file: &'a [u8], section: &Section) -> &'a [u8] {
    &file[section.scnptr as usize..(section.scnptr + section.size) as usize]
}

fn of_kind(file: &[u8], kind: Kind) -> Section {
    let mut own = sections(file).into_iter().filter(|s| s.kind == kind);
    own.next().expect("a section of the kind")
}

fn plan(addresses: &[u64]) -> ObjectPlan {
    ObjectPlan {
        addresses: addresses.to_vec(),
    }
}

fn built(file: &[u8], plan: &ObjectPlan) -> Result<Vec<u8>, Refusal> {
    let mut buffer = vec![0x5A; xcoff::object(file)?.length as usize];
    xcoff::build_object(file, plan, &mut buffer)?;
    Ok(buffer)
}

/// Text and data of a file, end to end in the order of its sections.
fn raw_image(file: &[u8]) -> Vec<u8> {
    let own = sections(file)
        .into_iter()
        .filter(|s| matches!(s.kind, Kind::Text | Kind::Data));
    own.flat_map(|s| raw(file, &s).to_vec()).collect()
}

// ---- what GNU ld makes of an object file

#[test]
fn gnu_ld_places_an_object_file_as_it_is_built_and_moved() {
    for bits in [32, 64] {
        let file = real(&format!("gas-objpair-{bits}.o"));
        let linked = real(&format!("placed/obj-mid.b-{bits}"));
        let at = |kind: Kind| of_kind(&linked, kind).paddr;
        let to = plan(&[at(Kind::Text), at(Kind::Data), at(Kind::Bss)]);
        let recorded = ObjectPlan::recorded(&file).unwrap();
        assert!((0..3).all(|n| to.addresses[n] != recorded.addresses[n]));
        let by_ld = raw_image(&linked);
        assert_ne!(raw_image(&file), by_ld);
        assert_eq!(built(&file, &to), Ok(by_ld.clone()), "{bits}");

        // As recorded it is the file's own bytes; moved there and back it is each.
        let mut buffer = built(&file, &recorded).unwrap();
        assert_eq!(buffer, raw_image(&file));
        xcoff::move_object_checked(&file, &recorded, &to, &mut buffer).unwrap();
        assert_eq!(buffer, by_ld);
        let other = Comparison::OtherFields(fields(&file).len() as u64 - unmoved(&file, &to));
        let again = xcoff::move_object_checked(&file, &recorded, &to, &mut buffer);
        assert_eq!(again, Err(NotMoved::NotFrom(other)), "{bits}");
        assert_eq!(buffer, by_ld);
        xcoff::move_object_checked(&file, &to, &recorded, &mut buffer).unwrap();
        assert_eq!(buffer, raw_image(&file));
    }
}

/// Every entry with the number of its section.
fn all_entries(file: &[u8]) -> Vec<(u64, ObjectEntry)> {
    let count = xcoff::open(file).unwrap().sections;
    let tables = (1..=count).filter_map(|n| Some((n, xcoff::object_entries(file, n).ok()?)));
    tables
        .flat_map(|(n, table)| table.rows().map(|e| (n, e)).collect::<Vec<_>>())
        .collect()
}

/// The fields of an object file by their places: the entries on each.
fn fields(file: &[u8]) -> BTreeMap<u64, Vec<(u64, ObjectEntry)>> {
    let mut all: BTreeMap<u64, Vec<(u64, ObjectEntry)>> = BTreeMap::new();
    for (n, entry) in all_entries(file) {
        if entry.width != 0 {
            all.entry(entry.place).or_default().push((n, entry));
        }
    }
    all
}

/// How far a section moves from its recorded address; 0 of what is no text, data or bss section.
fn moves(file: &[u8], plan: &ObjectPlan) -> Vec<i128> {
    let by = |(s, &to): (&Section, &u64)| match s.kind {
        Kind::Text | Kind::Data | Kind::Bss => i128::from(to) - i128::from(s.paddr),
        _ => 0,
    };
    sections(file).iter().zip(&plan.addresses).map(by).collect()
}

/// By how much an entry changes its field.
fn amount(file: &[u8], moves: &[i128], section: u64, entry: &ObjectEntry) -> i128 {
    let scnum = xcoff::symbol(file, entry.symbol).unwrap().scnum;
    let symbol = match scnum {
        1.. => moves[scnum as usize - 1],
        _ => 0,
    };
    match entry.rtype {
        0x01 => -symbol,
        0x0A | 0x1A => symbol - moves[section as usize - 1],
        _ => symbol,
    }
}

/// Fields that a plan leaves as they are.
fn unmoved(file: &[u8], plan: &ObjectPlan) -> u64 {
    let moves = moves(file, plan);
    let sum = |on: &Vec<(u64, ObjectEntry)>| -> i128 {
        on.iter().map(|(n, e)| amount(file, &moves, *n, e)).sum()
    };
    fields(file).values().filter(|on| sum(on) == 0).count() as u64
}

/// The image of a plan by a plain loop over the fields, or the lowest entry of a branch that does not fit.
fn placed(file: &[u8], plan: &ObjectPlan) -> Result<Vec<u8>, u64> {
    let moves = moves(file, plan);
    let numbers: Vec<(u64, ObjectEntry)> = all_entries(file);
    let mut image = raw_image(file);
    let mut bad: Option<u64> = None;
    for (place, on) in fields(file) {
        let sum: i128 = on.iter().map(|(n, e)| amount(file, &moves, *n, e)).sum();
        let width = on[0].1.width;
        let length = if width == 64 { 8 } else { 4 };
        let field = &mut image[place as usize..place as usize + length];
        let old = field.iter().fold(0i128, |n, &b| n << 8 | i128::from(b));
        let new = if width == 26 {
            let value = old & 0x03FF_FFFC;
            let value = (if value >= 1 << 25 {
                value - (1 << 26)
            } else {
                value
            }) + sum;
            if !(-33_554_432..=33_554_428).contains(&value) || value % 4 != 0 {
                let lowest = numbers
                    .iter()
                    .position(|(_, e)| e.width == 26 && e.place == place)
                    .unwrap() as u64;
                bad = Some(bad.map_or(lowest, |b| b.min(lowest)));
                continue;
            }
            old & !0x03FF_FFFC | value & 0x03FF_FFFC
        } else {
            old + sum
        };
        let bytes = new.to_be_bytes();
        field.copy_from_slice(&bytes[16 - length..]);
    }
    match bad {
        None => Ok(image),
        Some(entry) => Err(entry),
    }
}

fn names() -> Vec<String> {
    let mut names: Vec<String> = fs::read_dir(corpus())
        .unwrap()
        .map(|entry| entry.unwrap())
        .filter(|entry| entry.path().is_file())
        .map(|entry| entry.file_name().to_string_lossy().into_owned())
        .filter(|name| ![".txt", ".py", ".md"].iter().any(|end| name.ends_with(end)))
        .collect();
    names.sort();
    names
}

#[test]
fn every_real_object_file_is_placed_as_a_plain_loop_over_its_entries_says() {
    let mut rng = Rng::new(5);
    let (mut accepted, mut ranges, mut objects) = (0, 0, 0);
    for name in names() {
        let file = real(&name);
        let Ok(object) = xcoff::object(&file) else {
            continue;
        };
        objects += 1;
        let recorded = ObjectPlan::recorded(&file).unwrap();
        // Near, so that branches stay in range, and anywhere.
        for reach in [0x100, 1 << 20, 1 << 25, 1 << 31] {
            let any = |_: &u64| 4 * rng.below(reach / 4);
            let to = plan(&recorded.addresses.iter().map(any).collect::<Vec<_>>());
            let mut buffer = vec![0xA5; object.length as usize];
            let answer = xcoff::build_object(&file, &to, &mut buffer);
            match placed(&file, &to) {
                Ok(image) => {
                    assert_eq!((answer, &buffer), (Ok(()), &image), "{name}");
                    accepted += 1;
                    back_and_forth(&name, &file, &recorded, &to, image);
                }
                Err(entry) => {
                    let refusal = answer.unwrap_err();
                    assert_eq!((refusal.number, refusal.item), (25, entry), "{name}");
                    assert!(buffer.iter().all(|&byte| byte == 0xA5), "{name}");
                    ranges += 1;
                }
            }
        }
    }
    assert_eq!((objects, accepted, ranges), (74, 282, 14));
}

/// Moved from there to the recorded addresses it is the file's own bytes; a list of calls leaves the same.
fn back_and_forth(name: &str, file: &[u8], recorded: &ObjectPlan, to: &ObjectPlan, image: Vec<u8>) {
    let mut buffer = image.clone();
    xcoff::move_object(file, to, recorded, &mut buffer).unwrap();
    assert_eq!(buffer, raw_image(file), "{name}");
    let calls = [
        ObjectCall::Build(recorded.clone()),
        ObjectCall::Build(plan(&[0; 40])),
        ObjectCall::Move(recorded.clone(), to.clone()),
    ];
    let mut replayed = vec![0; image.len()];
    let all = xcoff::replay_object(file, &calls, &mut replayed);
    assert_eq!(
        (all.calls, all.accepted, all.last),
        (3, 2, Ok(())),
        "{name}"
    );
    assert_eq!(replayed, image, "{name}");
}

// ---- more than 65,535 entries

/// The entries of a fact `rel SECTION INDEX COUNT STEP ADDRESS SIZE TYPE SYMBOLS`: address, symbol, size, type.
fn listed(fact: &str) -> Vec<(u64, u64, u64, u64)> {
    let words: Vec<&str> = fact.split(' ').collect();
    let hex = |n: usize| u64::from_str_radix(words[n], 16).unwrap();
    let step: u64 = words[4].parse().unwrap();
    let symbols: Vec<u64> = words[8].split(',').map(|s| s.parse().unwrap()).collect();
    (0..hex(3))
        .map(|k| {
            let symbol = symbols[k as usize % symbols.len()];
            (hex(5) + k * step, symbol, hex(6), hex(7))
        })
        .collect()
}

#[test]
fn seventy_thousand_entries_are_read_as_other_tools_list_them_and_placed() {
    let file = unpacked("gas-ovrflo70000-32.o.xz");
    let listing = corpus().join("../expected/gas-ovrflo70000-32.o.txt");
    let listing = fs::read_to_string(listing).unwrap();
    let expected: Vec<_> = listing.lines().flat_map(listed).collect();
    assert_eq!(expected.len(), 70_000);
    let object = xcoff::object(&file).unwrap();
    assert_eq!(
        (object.sections, object.entries, object.length),
        (4, 70_000, 280_012)
    );
    let rows = xcoff::object_sections(&file).unwrap();
    assert_eq!(
        (rows[1].entries, rows[1].first, rows[1].place),
        (70_000, 0, 12)
    );
    let own = sections(&file);
    assert_eq!((own[1].nreloc, own[1].relptr), (65_535, rows[1].table));
    let entries = xcoff::object_entries(&file, 2).unwrap();
    let told: Vec<_> = entries
        .rows()
        .map(|e| (e.address, e.symbol, e.rsize, e.rtype))
        .collect();
    assert!(told == expected);
    assert!(entries
        .rows()
        .all(|e| e.width == 32 && e.place == 12 + e.address - own[1].paddr));
    for addresses in [
        [0x1000, 0x4000_0000, 0x7000_0000, 0],
        [0, 0, 0xFFFF_F000, 9],
    ] {
        let to = plan(&addresses);
        let image = placed(&file, &to).unwrap();
        assert!(built(&file, &to) == Ok(image.clone()));
        let recorded = ObjectPlan::recorded(&file).unwrap();
        let mut moved = raw_image(&file);
        xcoff::move_object_checked(&file, &recorded, &to, &mut moved).unwrap();
        assert!(moved == image);
    }
}

/// The overflow header's section is another, is deleted, or is there twice: BOUNDS. One entry more passes the file's end or
/// runs into what follows.
#[test]
fn the_count_is_that_of_the_one_overflow_header() {
    let file = unpacked("gas-ovrflo70000-32.o.xz");
    let header = |n: usize| {
        let opthdr = xcoff::open(&file).unwrap().opthdr as usize;
        20 + opthdr + 40 * (n - 1)
    };
    let changed = |places: &[(usize, &[u8])]| {
        let mut file = file.clone();
        for (at, bytes) in places {
            file[*at..at + bytes.len()].copy_from_slice(bytes);
        }
        file
    };
    let bounds = |file: &[u8]| {
        let refusal = xcoff::object(file).unwrap_err();
        assert_eq!((refusal.number, refusal.item), (5, 2));
        assert_eq!(refusal.offset, header(2) as u64);
        assert_eq!(xcoff::object_entries(file, 2).err(), Some(refusal));
        let shown = xcoff::object_places(file, &refusal);
        let names: Vec<&str> = shown[0].fields.iter().map(|f| f.name).collect();
        assert_eq!(names, ["s_relptr", "s_nreloc"]);
    };
    // s_nreloc of the overflow header, its flags, and its count in s_paddr.
    bounds(&changed(&[(header(4) + 32, &[0, 1])]));
    bounds(&changed(&[(header(4) + 36, &[0xFF; 4])]));
    bounds(&changed(&[(header(4) + 8, &[0x7F, 0xFF, 0xFF, 0xFF])]));
    let twice = file[header(4)..header(5)].to_vec();
    bounds(&changed(&[(header(3), &twice)]));
    // A plain count below it is no such count.
    let fewer = changed(&[(header(2) + 32, &[0xFF, 0xFE])]);
    assert_eq!(xcoff::object(&fewer).unwrap().entries, 65_534);
    let none = changed(&[(header(4) + 8, &[0; 4])]);
    assert_eq!(xcoff::object(&none).unwrap().entries, 0);
}

// ---- comparison

#[test]
fn a_changed_image_is_told_from_one_of_another_plan() {
    let file = real("gas-objpair-32.o");
    let to = plan(&[0x10000, 0x80000, 0x80400]);
    let image = built(&file, &to).unwrap();
    assert_eq!(
        xcoff::check_object(&file, &to, &image),
        Ok(Comparison::Equal)
    );
    let changed = |at: usize, by: u8| {
        let mut image = image.clone();
        image[at] ^= by;
        xcoff::check_object(&file, &to, &image)
    };
    // No field is at 16. The word at 8 is a branch: its top six and bottom two bits are the instruction's.
    assert_eq!(changed(16, 1), Ok(Comparison::OtherBytes(1)));
    assert_eq!(changed(8, 0x80), Ok(Comparison::OtherBytes(1)));
    assert_eq!(changed(11, 2), Ok(Comparison::OtherBytes(1)));
    assert_eq!(changed(8, 1), Ok(Comparison::OtherFields(1)));
    assert_eq!(changed(11, 4), Ok(Comparison::OtherFields(1)));
    // Two entries on one field: it counts once.
    assert_eq!(changed(104, 1), Ok(Comparison::OtherFields(1)));
    let short = xcoff::check_object(&file, &to, &image[1..]).unwrap_err();
    assert_eq!((short.number, short.item), (20, 0));
}

#[test]
fn words_of_refusals_are_those_of_object_files() {
    let file = real("gas-objpair-32.o");
    let mut buffer = vec![0; 112];
    let mut refused = |addresses: &[u64]| {
        let refusal = xcoff::build_object(&file, &plan(addresses), &mut buffer).unwrap_err();
        (refusal.number, refusal.item, refusal.object_meaning())
    };
    let words = |text: &str| text.to_string();
    assert_eq!(
        refused(&[0, 1 << 32, 0]),
        (
            19,
            2,
            words("section 2 at the plan's address passes the end of the address space")
        )
    );
    assert_eq!(
        refused(&[0, 0]),
        (
            20,
            2,
            words("the list of addresses is not exactly as long as needed")
        )
    );
    assert_eq!(
        refused(&[0, 0x800_0000, 0]),
        (25, 5, words("the branch of relocation entry 5 would leave -33,554,432 to 33,554,428, or be off a step of 4"))
    );
    let index = xcoff::object_entries(&file, 3).err().unwrap();
    assert_eq!(index.object_meaning(), "there is no text or data section 3");
}
