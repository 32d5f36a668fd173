//! S-records of real modules, beside the files that srec_cat wrote of the same images: tests/srec/README.md says how.

use std::fs;
use std::path::PathBuf;
use xcoff::{
    build_images, loader_symbol, module, read_records, records_length, write_records, Plan, Refusal,
};

const RECORD: u64 = 22;

/// A stored record file, the module and plan that it is of, and the images.
struct Stored {
    name: String,
    file: Vec<u8>,
    plan: Plan,
    text: Vec<u8>,
    data: Vec<u8>,
    records: Vec<u8>,
}

impl Stored {
    /// Of a line of tests/srec/plans.txt: the module's name, its text and data addresses and its entry's.
    fn of(line: &str) -> Stored {
        let words: Vec<&str> = line.split(' ').collect();
        let [name, text, data, entry] = words[..] else {
            panic!("{line}: not a plan")
        };
        let address = |word| u64::from_str_radix(word, 16).unwrap();
        let file = real(name);
        let plan = plan(&file, address(text), address(data));
        let (text, data, entry_built) = images(&file, &plan);
        assert_eq!(entry_built, address(entry), "{name}: the entry address");
        Stored {
            name: name.to_string(),
            records: read(&format!("srec/{name}.srec")).expect("a stored record file"),
            file,
            plan,
            text,
            data,
        }
    }

    /// Reads records into buffers that hold something else. A refusal leaves them as they were.
    fn read(&self, records: &[u8]) -> Result<(Vec<u8>, Vec<u8>), Refusal> {
        let (mut text, mut data) = (vec![0xA5; self.text.len()], vec![0x5A; self.data.len()]);
        let answer = read_records(&self.file, &self.plan, records, &mut text, &mut data);
        if answer.is_err() {
            assert!(text.iter().all(|&b| b == 0xA5) && data.iter().all(|&b| b == 0x5A));
        }
        answer.map(|()| (text, data))
    }

    /// The line that a text is refused for.
    fn bad_line(&self, records: &[u8]) -> u64 {
        let refusal = self
            .read(records)
            .expect_err("a text that is not as it must be");
        let no_place = (refusal.number, refusal.offset);
        assert_eq!(no_place, (RECORD, 0), "{}", self.name);
        refusal.item
    }

    fn lines(&self) -> u64 {
        self.records.iter().filter(|&&b| b == b'\n').count() as u64
    }
}

fn read(name: &str) -> Option<Vec<u8>> {
    let tests = PathBuf::from(env!("CARGO_MANIFEST_DIR")).join("../tests");
    fs::read(tests.join(name)).ok()
}

/// A real module, by its name.
fn real(name: &str) -> Vec<u8> {
    let found = ["corpus", "corpus/large"].map(|folder| read(&format!("{folder}/{name}")));
    found.into_iter().flatten().next().expect("a real module")
}

/// Every import at its recorded value.
fn plan(file: &[u8], text: u64, data: u64) -> Plan {
    let symbols = module(file).unwrap().symbols;
    let list = (3..symbols + 3).map(|i| loader_symbol(file, i).unwrap().value);
    Plan {
        text,
        data,
        list: list.collect(),
    }
}

/// The images, and the entry address or 0.
fn images(file: &[u8], plan: &Plan) -> (Vec<u8>, Vec<u8>, u64) {
    let m = module(file).unwrap();
    let (mut text, mut data) = (vec![0; m.text.size as usize], vec![0; m.image as usize]);
    let reached = build_images(file, plan, &mut text, &mut data).unwrap();
    (text, data, reached.entry.unwrap_or(0))
}

fn all() -> Vec<Stored> {
    let plans = String::from_utf8(read("srec/plans.txt").expect("the plans")).unwrap();
    plans.lines().map(Stored::of).collect()
}

#[test]
fn every_stored_file_is_what_the_library_writes() {
    let all = all();
    assert_eq!(all.len(), 7);
    for s in all {
        let written = write_records(&s.file, &s.plan, &s.text, &s.data).unwrap();
        assert!(written == s.records, "{}", s.name);
        assert_eq!(records_length(&s.file, &s.plan), Ok(s.records.len() as u64));
    }
}

#[test]
fn every_stored_file_reads_back_into_the_images() {
    for s in all() {
        assert!(
            s.read(&s.records) == Ok((s.text.clone(), s.data.clone())),
            "{}",
            s.name
        );
    }
}

/// Each byte of a file changed: the refusal names its line. Of a large file some bytes only.
#[test]
fn one_wrong_byte_is_refused_with_its_line() {
    for s in all() {
        let mut records = s.records.clone();
        let mut line = 1;
        let step = 1 + records.len() / 2000;
        for at in 0..records.len() {
            let was = records[at];
            for flip in [1, 4, 0x20, 0x80] {
                if at % step == 0 {
                    records[at] = was ^ flip;
                    assert_eq!(s.bad_line(&records), line, "{}: byte {at}", s.name);
                }
            }
            records[at] = was;
            line += u64::from(was == b'\n');
        }
    }
}

#[test]
fn a_file_cut_at_any_place_misses_a_line() {
    for s in all() {
        let step = 1 + s.records.len() / 2000;
        for length in (0..s.records.len()).step_by(step) {
            let whole = s.records[..length].iter().filter(|&&b| b == b'\n').count() as u64;
            assert_eq!(s.bad_line(&s.records[..length]), whole + 1, "{}", s.name);
        }
    }
}

#[test]
fn lines_that_are_too_many_doubled_or_exchanged() {
    for s in all() {
        for more in [&b"\n"[..], b"S", &s.records[s.records.len() - 15..]] {
            let longer = [&s.records, more].concat();
            assert_eq!(s.bad_line(&longer), s.lines() + 1, "{}", s.name);
        }
        let lines: Vec<&[u8]> = s.records.split_inclusive(|&b| b == b'\n').collect();
        for n in 0..lines.len().min(50) - 1 {
            let mut changed = lines.clone();
            changed.swap(n, n + 1);
            assert_eq!(s.bad_line(&changed.concat()), n as u64 + 1, "{}", s.name);
            changed = lines.clone();
            changed.remove(n);
            assert_eq!(s.bad_line(&changed.concat()), n as u64 + 1, "{}", s.name);
            changed = lines.clone();
            changed.insert(n, lines[n]);
            assert_eq!(s.bad_line(&changed.concat()), n as u64 + 2, "{}", s.name);
        }
    }
}

/// Images are taken as they are: any bytes are written, and read back.
#[test]
fn any_bytes_are_written_and_read_back() {
    for s in all() {
        for by in [0, 1, 37, 255] {
            let any =
                |length: usize| -> Vec<u8> { (0..length).map(|i| (i * by + by) as u8).collect() };
            let (text, data) = (any(s.text.len()), any(s.data.len()));
            let written = write_records(&s.file, &s.plan, &text, &data).unwrap();
            assert!(s.read(&written) == Ok((text, data)), "{}", s.name);
        }
    }
}

#[test]
fn form_comes_before_clash() {
    let file = real("exe-imports-64");
    let plan = plan(&file, 0x1000, 0x1000);
    let form = Refusal {
        number: 23,
        item: 0,
        offset: 0,
    };
    assert_eq!(records_length(&file, &plan), Err(form));
    assert_eq!(write_records(&file, &plan, &[], &[]), Err(form));
    let read = read_records(&file, &plan, &[], &mut [], &mut []);
    assert_eq!(read, Err(form));
}

/// Both images have 160 bytes: right before and right behind each other they do not clash, a byte nearer they do.
#[test]
fn images_that_share_an_address_clash_before_room() {
    let file = real("exe-imports-32");
    for (text, clash) in [
        (0xf60, false),
        (0xf61, true),
        (0x109f, true),
        (0x10a0, false),
    ] {
        let plan = plan(&file, text, 0x1000);
        assert_eq!(records_length(&file, &plan).is_err(), clash);
        let refused = read_records(&file, &plan, &[], &mut [], &mut []).unwrap_err();
        assert_eq!(refused.number, if clash { 24 } else { 20 });
        assert_eq!((refused.item, refused.offset), (0, 0));
    }
}
