//! The commands of `xcoff`, one after another in one process, on files that a fuzzer makes (tests/fuzz): this is a module
//! of a copy of the command. A panic, and whatever breaks a promise of docs/COMMANDS.md, aborts.
//!
//! With FUZZ_FILE=FILE in the environment it runs that one input.

use crate::problem::Problem;
use std::ffi::OsString;
use std::fs::{self, File, OpenOptions};
use std::io::Write;
use std::os::fd::{AsRawFd, FromRawFd};
use std::os::unix::fs::FileExt;

extern "C" {
    fn fuzz_next(input: *mut *const u8, length: *mut usize) -> i32;
    fn dup(fd: i32) -> i32;
    fn dup2(fd: i32, to: i32) -> i32;
}

/// A module that is always there, its sheet and its images.
const FIXED: &[u8] = include_bytes!("fixed-module");
/// Larger images are not written: a fuzzer lives from many runs.
const LARGE: u64 = 1 << 20;

pub fn main() {
    let folder = std::env::var_os("FUZZ_FOLDER").expect("FUZZ_FOLDER");
    let one = std::env::var_os("FUZZ_FILE").map(|path| fs::read(path).expect("FUZZ_FILE"));
    std::env::set_current_dir(folder).expect("FUZZ_FOLDER");
    let commands = Commands::new();
    commands.prepare();
    if let Some(input) = one {
        return commands.all(&input);
    }
    loop {
        let mut input = std::ptr::null();
        let mut length = 0;
        if unsafe { fuzz_next(&mut input, &mut length) } == 0 {
            return;
        }
        commands.all(unsafe { std::slice::from_raw_parts(input, length) });
    }
}

/// Runs commands and looks at what they print.
struct Commands {
    printed: File,
}

impl Commands {
    fn new() -> Commands {
        let mut options = OpenOptions::new();
        let printed = options.read(true).append(true).create(true).open("printed");
        let printed = printed.expect("a file for what is printed");
        let err = unsafe { dup(2) };
        std::panic::set_hook(Box::new(move |info| {
            let mut err = unsafe { File::from_raw_fd(err) };
            let _ = writeln!(err, "{info}");
            std::process::abort();
        }));
        unsafe { dup2(printed.as_raw_fd(), 1) };
        unsafe { dup2(printed.as_raw_fd(), 2) };
        Commands { printed }
    }

    fn prepare(&self) {
        fs::write("fixed", FIXED).unwrap();
        assert_eq!(self.run("plan fixed --recorded -o fixed.sheet"), 0);
        assert_eq!(self.run("plan fixed --text 1000 --data 80000 --recorded -o fixed.other"), 0);
        assert_eq!(self.run("build fixed fixed.sheet -o fixed.text fixed.data"), 0);
        assert_eq!(self.run("records fixed fixed.sheet -o fixed.srec"), 0);
        let _ = fs::remove_file("fixed.table");
        assert_eq!(self.run("table fixed.table new"), 0);
        assert_eq!(self.run("table fixed.table add 1 1 errno fff01200"), 0);
    }

    fn all(&self, input: &[u8]) {
        fs::write("m", input).unwrap();
        let mut module = 0;
        for listing in ["headers", "symbols", "module", "imports", "relocations"] {
            let status = self.run(&format!("{listing} m"));
            assert!(status <= 1, "{listing}: status {status}");
            assert_eq!(self.run(&format!("{listing} m --json")), status, "{listing}");
            module = status;
        }
        self.lines();
        self.tables(input, module);
        assert!(self.run("symbols m --sort name --name *a*") <= 1);
        assert!(self.run("symbols m --sort value") <= 1);
        for address in ["text", "data", "@3", "puts"] {
            let status = self.run(&format!("relocations m --follows {address}"));
            assert!(status == module || module == 0 && status == 2, "{address}: status {status}");
        }
        self.salvage(input);
        self.objects(input);
        self.as_sheet();
        self.as_imports();
        self.as_image(input);
        self.as_records();
        if module == 0 {
            let image = xcoff::module(input).expect("it is listed as one").image;
            if image <= LARGE {
                self.images(input);
            }
        }
        let names = fs::read_dir(".").unwrap().map(|entry| entry.unwrap().file_name());
        assert!(!names.into_iter().any(|name| name.to_string_lossy().ends_with(".tmp")));
    }

    /// The input as an address table, and one that is filled for it.
    fn tables(&self, input: &[u8], module: u8) {
        let listed = self.run("table m list 1");
        assert_eq!(listed, u8::from(input.len() != xcoff::AddressTable::BYTES));
        assert_eq!(self.run("table m list 1 --json"), listed);
        assert!(self.run("table m add 1 1 errno 5") <= 1);
        assert!(self.run("table m remove 2 1 errno") <= 1);
        fs::write("m", input).unwrap();
        let filled = self.run("table fixed.table fill 1 m -o filled.sheet");
        assert!(filled == module || module == 0 && filled == 1, "{filled} {module}");
        if module == 0 {
            assert_eq!(self.run("plan m --table fixed.table --bench 1 -o filled.sheet"), filled);
        }
    }

    /// Line tables: one address is found or not, of several each has a row.
    fn lines(&self) {
        let listed = self.run("lines m");
        assert!(listed <= 1);
        assert_eq!(self.run("lines m --json"), listed);
        let found = self.run("line m 10000100 --json");
        assert!(found <= 1);
        assert!(self.run("line m 0 10000100 ffffffffffffffff") <= 1);
        let named = self.run("line m 10000100 --section 1");
        assert!(named <= 1);
        // A table that is refused has no line.
        assert!(self.run("lines m --section 1") <= named);
        assert!(self.run("line m 10000100 --sheet fixed.sheet") <= 1);
    }

    /// A file that opens is salvaged, or its parts share bytes; of the copy every symbol is listed, and nothing is left to mend.
    fn salvage(&self, input: &[u8]) {
        let status = self.run("salvage m -o copy --report report --force");
        assert!(status <= 1);
        assert_eq!(self.run("salvage m -o copy --force --json"), status);
        let opens = xcoff::open(input).is_ok();
        assert!(status == 1 || opens);
        if status == 1 {
            assert!(!opens || !xcoff::shared_with_symbols(input).is_empty());
            return;
        }
        assert_eq!(self.run("symbols copy"), 0);
        assert_eq!(self.run("salvage copy -o again --report report --force"), 0);
        assert_eq!(fs::read("copy").unwrap(), fs::read("again").unwrap());
        assert!(fs::read("report").unwrap().is_empty());
    }

    /// An object file: as recorded it is placed as the file has it; placed elsewhere and moved back it is that again.
    fn objects(&self, input: &[u8]) {
        let listed = self.run("object m");
        assert!(listed <= 1);
        assert_eq!(self.run("object m --json"), listed);
        assert!(self.run("object m --section 1") <= 1);
        assert_eq!(listed == 0, xcoff::object(input).is_ok());
        let Ok(object) = xcoff::object(input) else {
            assert_eq!(self.run("place m --recorded -o placed --force"), 1);
            return;
        };
        if object.length > LARGE {
            return;
        }
        assert_eq!(self.run("place m --recorded -o placed --force"), 0);
        let raw = fs::read("placed").unwrap();
        assert_eq!(self.run("place-move m --recorded placed --force"), 0);
        assert_eq!(fs::read("placed").unwrap(), raw);
        let kind = xcoff::section(input, 1).map(|section| section.kind);
        if !matches!(kind, Ok(xcoff::Kind::Text | xcoff::Kind::Data | xcoff::Kind::Bss)) {
            assert_eq!(self.run("place m --recorded --at 1=40 -o other --force"), 2);
            return;
        }
        let placed = self.run("place m --recorded --at 1=40 -o other --force");
        assert!(placed <= 1);
        if placed == 0 {
            assert!(self.run("place-move m --recorded --from 1=80 --to 1=40 other --force") <= 1);
            assert_eq!(self.run("place m --recorded --at 1=40 -o other --force"), 0);
            assert_eq!(self.run("place-move m --recorded --from 1=40 other --force"), 0);
            assert_eq!(fs::read("other").unwrap(), raw);
        }
    }

    /// The input as a file of addresses, which is taken apart before anything is judged.
    fn as_imports(&self) {
        assert!(self.run("plan fixed --imports m --recorded -o other.sheet") <= 2);
    }

    fn as_sheet(&self) {
        let sheet = self.run("sheet m");
        assert_eq!(self.run("sheet m --json"), sheet);
        assert!(sheet <= 1);
        let fits = self.run("sheet m fixed");
        assert!(fits <= 1 && fits >= sheet);
        let built = self.run("build fixed m -o other.text other.data");
        assert!(built <= 1 && built >= fits);
        if built == 0 {
            assert_eq!(self.run("check fixed m other.text other.data"), 0);
            assert_eq!(self.run("move fixed m fixed.sheet other.text other.data"), 0);
            assert_eq!(self.run("check fixed fixed.sheet other.text other.data"), 0);
        }
    }

    fn as_image(&self, input: &[u8]) {
        assert!(self.run("check fixed fixed.sheet m fixed.data") <= 1);
        assert!(self.run("check fixed fixed.other fixed.text m --or fixed.sheet --or m") <= 1);
        assert!(self.run("move fixed fixed.sheet fixed.other fixed.text m -o other.text other.data") <= 1);
        assert!(self.run("move fixed fixed.sheet fixed.other m fixed.data --unchecked -o other.text other.data") <= 1);
        assert_eq!(fs::read("m").unwrap(), input, "the input is changed");
    }

    fn as_records(&self) {
        let read = self.run("images fixed fixed.sheet m --unchecked -o other.text other.data");
        assert!(read <= 1);
        let checked = self.run("images fixed fixed.sheet m -o third.text third.data");
        assert!(checked <= 1 && checked >= read);
        let equal = self.run("check fixed fixed.sheet --records m --or fixed.other --or m");
        assert!(equal <= 1);
        if read == 0 {
            assert_eq!(self.run("records fixed fixed.sheet --images other.text other.data --unchecked -o other.srec"), 0);
            assert_eq!(fs::read("other.srec").unwrap(), fs::read("m").unwrap(), "other records");
        }
    }

    /// A module: planned, built, moved there and back.
    fn images(&self, input: &[u8]) {
        let hash = input.iter().fold(0xcbf29ce484222325u64, |h, &b| (h ^ b as u64).wrapping_mul(0x100000001b3));
        assert_eq!(self.run("plan m --recorded -o s"), 0);
        assert_eq!(self.run("sheet s m"), 0);
        assert_eq!(self.run("build m s -o t d --force"), 0);
        assert_eq!(self.run("check m s t d"), 0);
        assert_eq!(self.run("dump m s"), 0);
        assert_eq!(self.run("map m s"), 0);
        assert_eq!(self.run("map m s --json"), 0);
        assert_eq!(self.run("map m s --svg picture --force"), 0);
        self.records();
        self.rewrite(input);
        assert!(self.run("plan m --import @3=ffffffff --text 0 --recorded -o s2") <= 2);
        let shift = if hash & 1 == 0 { 36 } else { hash >> 1 & 31 };
        let planned = self.run(&format!(
            "plan m --text {:x} --data {:x} --recorded -o s2",
            hash >> shift,
            hash.rotate_left(32) >> shift
        ));
        assert!(planned <= 1);
        if planned == 1 {
            return;
        }
        if self.run("rewrite m s2 -o m2 --force") == 0 {
            assert_eq!(self.run("rewrite m2 s -o m3 --force"), 0);
            assert_eq!(fs::read("m3").unwrap(), input);
            assert_eq!(self.run("build m2 s -o t2 d2 --force"), 0);
            assert_eq!(self.run("check m s t2 d2"), 0);
        }
        assert_eq!(self.run("move m s s2 t d -o t2 d2 --force"), 0);
        assert_eq!(self.run("check m s t d"), 0);
        assert_eq!(self.run("check m s2 t2 d2"), 0);
        assert_eq!(self.run("move m s s2 t d --force"), 0);
        assert_eq!(self.run("check m s t d --or s2"), 0);
        // A second time it is refused, or changes nothing since the plan's fields are the same.
        assert!(self.run("move m s s2 t d --force") <= 1);
        assert_eq!(self.run("check m s2 t d"), 0);
        assert_eq!(self.run("move m s2 s t d --force"), 0);
        assert_eq!(self.run("check m s t d"), 0);
    }

    /// For its own plan it is the file itself, unless its parts share bytes.
    fn rewrite(&self, input: &[u8]) {
        let written = self.run("rewrite m s -o m2 --force");
        assert_eq!(written == 0, xcoff::shared_in_module(input).is_empty());
        if written == 0 {
            assert_eq!(fs::read("m2").unwrap(), input);
            assert_eq!(self.run("check m2 s t d"), 0);
        }
    }

    /// Its images as records and back; an XCOFF64 module or one whose images overlap has none.
    fn records(&self) {
        let written = self.run("records m s -o r");
        assert!(written <= 1);
        assert_eq!(self.run("records m s --images t d -o r2"), written);
        if written == 0 {
            assert_eq!(fs::read("r").unwrap(), fs::read("r2").unwrap());
            assert_eq!(self.run("check m s --records r"), 0);
            assert_eq!(self.run("images m s r -o t2 d2 --force"), 0);
            assert_eq!(self.run("check m s t2 d2"), 0);
        }
    }

    fn run(&self, line: &str) -> u8 {
        self.printed.set_len(0).unwrap();
        let words: Vec<OsString> = line.split(' ').map(OsString::from).collect();
        let json = line.ends_with("--json");
        let (status, said, told) = match crate::run(words) {
            Ok(()) => (0, String::new(), false),
            Err(problem) => (problem.status(), problem.to_string(), matches!(problem, Problem::Told(_))),
        };
        // Of one of several addresses it was said before.
        assert_eq!(status == 0 || told, said.is_empty(), "{line}: {said}");
        assert!(said.is_empty() || said.starts_with("xcoff: ") && said.ends_with('\n'), "{line}: {said}");
        // What stands where a refusal points is shown below it.
        assert!(offset_of(&said).unwrap_or(0) == 0 || said.lines().count() > 1, "{line}: {said}");
        let mut printed = vec![0; self.printed.metadata().unwrap().len() as usize];
        self.printed.read_exact_at(&mut printed, 0).unwrap();
        let plain = |b: &u8| *b == b'\n' || (0x20..0x7f).contains(b);
        assert!(printed.iter().chain(said.as_bytes()).all(plain), "{line}: not printable");
        if json {
            let mut lines = printed.split_inclusive(|&b| b == b'\n');
            assert!(lines.all(|l| l.starts_with(b"{\"table\":\"") && l.ends_with(b"}\n")), "{line}");
        }
        status
    }
}

/// The third number of a refusal.
fn offset_of(said: &str) -> Option<u64> {
    let numbers = said.split(": refused ").nth(1)?.split(':').next()?;
    numbers.split(' ').nth(2)?.parse().ok()
}
