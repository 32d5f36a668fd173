//! Runs the command as its users do: the real program, in a folder of its own.
#![allow(dead_code)]

use std::fs;
use std::path::{Path, PathBuf};
use std::process::{Command, Output, Stdio};
use std::sync::atomic::{AtomicUsize, Ordering};
use xcoff::{module, section};

/// A folder for one test, removed at its end.
pub struct Folder(PathBuf);

impl Folder {
    pub fn new() -> Folder {
        static COUNT: AtomicUsize = AtomicUsize::new(0);
        let n = COUNT.fetch_add(1, Ordering::Relaxed);
        let name = format!("xcoff-command-{}-{n}", std::process::id());
        let path = std::env::temp_dir().join(name);
        fs::create_dir(&path).unwrap_or_else(|e| panic!("{}: {e}", path.display()));
        Folder(path)
    }

    pub fn path(&self, name: &str) -> PathBuf {
        self.0.join(name)
    }

    pub fn write(&self, name: &str, bytes: &[u8]) {
        fs::write(self.path(name), bytes).unwrap();
    }

    pub fn read(&self, name: &str) -> Vec<u8> {
        fs::read(self.path(name)).unwrap_or_else(|e| panic!("{name}: {e}"))
    }

    /// A file of tests/corpus or tests/pairs under its own name.
    pub fn copy(&self, name: &str) -> Vec<u8> {
        let bytes = real(name);
        self.write(name, &bytes);
        bytes
    }

    /// Everything in the folder, hidden files too.
    pub fn names(&self) -> Vec<String> {
        let entries = fs::read_dir(&self.0).unwrap();
        let mut names: Vec<String> = entries
            .map(|e| e.unwrap().file_name().into_string().unwrap())
            .collect();
        names.sort();
        names
    }

    pub fn command(&self, args: &[&str]) -> Command {
        let mut command = Command::new(env!("CARGO_BIN_EXE_xcoff"));
        command.current_dir(&self.0).args(args).stdin(Stdio::null());
        command
    }

    pub fn run(&self, args: &[&str]) -> Ran {
        Ran::of(self.command(args).output().unwrap())
    }

    /// A run that ends well and says nothing on standard error.
    pub fn done(&self, args: &[&str]) -> String {
        let ran = self.run(args);
        assert_eq!((ran.status, ran.err.as_str()), (Some(0), ""), "{args:?}");
        ran.out
    }

    /// A run with this exit status and this text on standard error, that prints nothing.
    pub fn fails(&self, args: &[&str], status: i32, err: &str) {
        let ran = self.run(args);
        let got = (ran.status, ran.err.as_str(), ran.out.as_str());
        assert_eq!(got, (Some(status), err, ""), "{args:?}");
    }

    /// The same for what follows a usage line.
    pub fn misused(&self, args: &[&str], text: &str) {
        let ran = self.run(args);
        let lines: Vec<&str> = ran.err.lines().collect();
        assert_eq!(
            (ran.status, lines[0], ran.out.as_str()),
            (Some(2), text, ""),
            "{args:?}"
        );
        assert_eq!(lines.len(), 2, "{args:?}: {}", ran.err);
        assert!(
            lines[1].starts_with("usage: xcoff "),
            "{args:?}: {}",
            ran.err
        );
    }
}

impl Drop for Folder {
    fn drop(&mut self) {
        let _ = fs::remove_dir_all(&self.0);
    }
}

pub struct Ran {
    /// None: ended by a signal.
    pub status: Option<i32>,
    pub out: String,
    pub err: String,
}

impl Ran {
    pub fn of(output: Output) -> Ran {
        Ran {
            status: output.status.code(),
            out: String::from_utf8(output.stdout).unwrap(),
            err: String::from_utf8(output.stderr).unwrap(),
        }
    }
}

pub fn tests_folder() -> PathBuf {
    Path::new(env!("CARGO_MANIFEST_DIR")).join("../tests")
}

/// A real file, by its name.
pub fn real(name: &str) -> Vec<u8> {
    let folders = ["corpus", "corpus/large", "pairs"];
    let mut paths = folders.iter().map(|f| tests_folder().join(f).join(name));
    let path = paths.find(|p| p.is_file());
    fs::read(path.unwrap_or_else(|| panic!("no real file {name}"))).unwrap()
}

/// The first module of each pair that GNU ld linked at two places; the other one has `.b-` for `.a-`.
pub fn pairs() -> Vec<String> {
    let entries = fs::read_dir(tests_folder().join("pairs")).unwrap();
    let names = entries.map(|e| e.unwrap().file_name().into_string().unwrap());
    let mut names: Vec<String> = names.filter(|name| name.contains(".a-")).collect();
    names.sort();
    assert!(names.len() >= 34, "{} pairs", names.len());
    names
}

/// ld keeps no loader entries for the read-only text of this pair: its data agrees, its text does not.
pub fn has_fixed_text(name: &str) -> bool {
    name.starts_with("rotext")
}

/// The images that ld wrote: the raw bytes of text and data, then zeros.
pub fn linked_images(file: &[u8]) -> (Vec<u8>, Vec<u8>) {
    let m = module(file).unwrap();
    let raw = |n, length: u64| {
        let s = section(file, n).unwrap();
        let bytes = s.scnptr as usize..(s.scnptr + s.size) as usize;
        let mut image = if s.raw {
            file[bytes].to_vec()
        } else {
            Vec::new()
        };
        image.resize(length as usize, 0);
        image
    };
    (raw(m.text.number, m.text.size), raw(m.data.number, m.image))
}

/// The arguments that make the sheet `s` of a module for two addresses, imports as recorded.
pub fn recorded<'a>(module: &'a str, text: &'a str, data: &'a str) -> [&'a str; 9] {
    [
        "plan",
        module,
        "--recorded",
        "--text",
        text,
        "--data",
        data,
        "-o",
        "s",
    ]
}

/// A plan sheet, written from its description and not by the library: counts of 4 bytes.
pub fn sheet(text: u64, data: u64, list: &[u64]) -> Vec<u8> {
    sheet_with(4, text, data, list)
}

/// An old one: counts of 2 bytes.
pub fn old_sheet(text: u64, data: u64, list: &[u64]) -> Vec<u8> {
    sheet_with(2, text, data, list)
}

fn sheet_with(width: usize, text: u64, data: u64, list: &[u64]) -> Vec<u8> {
    let count = |n: usize| (n as u32).to_be_bytes()[4 - width..].to_vec();
    let mut bytes = count(2);
    bytes.extend(text.to_be_bytes());
    bytes.extend(data.to_be_bytes());
    bytes.extend(count(list.len()));
    for address in list {
        bytes.extend(address.to_be_bytes());
    }
    bytes
}

/// The cells of a table: the lines after its heading, which begins with `first`, up to an empty line or the end.
pub fn rows<'a>(listing: &'a str, first: &str) -> Vec<Vec<&'a str>> {
    let mut lines = listing.lines();
    lines
        .find(|line| line.split_whitespace().next() == Some(first))
        .unwrap_or_else(|| panic!("no table {first} in {listing}"));
    lines
        .take_while(|line| !line.is_empty())
        .map(|line| line.split_whitespace().collect())
        .collect()
}

/// Runs through a shell that lets no file grow at all: every write to a file fails, as on a full disk.
pub fn without_room(folder: &Folder, args: &[&str]) -> Ran {
    let mut shell = Command::new("bash");
    shell
        .current_dir(folder.path(""))
        .args(["-c", "trap '' XFSZ; ulimit -f 0; exec \"$0\" \"$@\""])
        .arg(env!("CARGO_BIN_EXE_xcoff"))
        .args(args)
        .stdin(Stdio::null());
    Ran::of(shell.output().unwrap())
}
