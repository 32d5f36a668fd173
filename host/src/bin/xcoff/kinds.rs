//! What kind of file something is, by its first bytes: so that no module is replaced by a sheet, and that a file which is
//! no XCOFF file is named for what it looks like. Nothing is accepted or refused by it.

use crate::args::Arguments;
use crate::escape;
use crate::files;
use crate::problem::Problem;
use std::fs;
use std::path::Path;

/// What a command writes.
#[derive(Clone, Copy, PartialEq, Eq)]
pub enum Written {
    Sheet,
    Image,
    Records,
    Picture,
    /// A copy of an XCOFF file.
    Copy,
    /// A module written back.
    Module,
    Report,
}

impl Written {
    fn words(self) -> &'static str {
        match self {
            Written::Sheet => "a plan sheet",
            Written::Image => "an image",
            Written::Records => "S-records",
            Written::Picture => "a picture",
            Written::Copy => "a copy of another",
            Written::Report => "a report",
            Written::Module => "a module written back",
        }
    }
}

const XCOFF: &str = "an XCOFF file";
const SHEET: &str = "a plan sheet";

/// An XCOFF file or a sheet is not replaced by something else, unless `--force` is given.
pub fn may_replace(args: &Arguments, path: &Path, by: Written) -> Result<(), Problem> {
    if args.has("--force") || !fs::metadata(path).is_ok_and(|old| old.is_file()) {
        return Ok(());
    }
    // What cannot be read cannot be looked at: whether it may be replaced is for the system to say.
    let Ok(old) = files::read(path, files::SHEET) else {
        return Ok(());
    };
    let kept = match () {
        () if is_xcoff(&old) => XCOFF,
        () if is_sheet(&old) && by != Written::Sheet => SHEET,
        () => return Ok(()),
    };
    Err(Problem::Unequal(vec![format!(
        "xcoff: {} is {kept} and would be replaced by {}; nothing is changed (--force replaces it)",
        escape::argument(path),
        by.words()
    )]))
}

fn is_xcoff(bytes: &[u8]) -> bool {
    matches!(bytes, [0x01, 0xDF | 0xF7, ..]) && bytes.len() >= 20
}

fn is_sheet(bytes: &[u8]) -> bool {
    xcoff::read_sheet(bytes).is_ok()
}

/// First bytes, and what a file looks like that begins with them.
const STARTS: [(&[u8], &str); 12] = [
    (b"\x7fELF", "an ELF file"),
    (
        b"<bigaf>\n",
        "an AIX archive: 'ar -x' takes its members out",
    ),
    (
        b"<aiaff>\n",
        "an AIX archive: 'ar -x' takes its members out",
    ),
    (b"!<arch>\n", "an archive: 'ar -x' takes its members out"),
    (b"\xfd7zXZ\0", "a file that is compressed by xz"),
    (b"\x1f\x8b", "a file that is compressed by gzip"),
    (b"S0", "S-records"),
    (b"S1", "S-records"),
    (b"S2", "S-records"),
    (b"S3", "S-records"),
    (b"\x01\xef", "an XCOFF64 file of AIX 4.3, which is not read"),
    (b"MZ", "a DOS or Windows program"),
];

/// How long a file is of which at most so many bytes were read.
fn length(bytes: &[u8], most: u64) -> String {
    match bytes.len() as u64 {
        read if read == most => format!("more than {} bytes", most - 1),
        read => format!("{read} bytes"),
    }
}

/// A line for a file that does not begin as an XCOFF file: what it looks like, and how it begins. At most so many bytes of
/// it were read.
pub fn looks_like(bytes: &[u8], most: u64) -> String {
    let start = STARTS.iter().find(|(start, _)| bytes.starts_with(start));
    let what = match start {
        _ if is_sheet(bytes) => "a plan sheet: the module comes first on the command line",
        Some((_, what)) => what,
        None if bytes.is_empty() => return "the file is empty".to_string(),
        None if is_text(bytes) => "text",
        None => "no kind of file that is known here, perhaps an image",
    };
    let first: Vec<String> = bytes
        .iter()
        .take(8)
        .map(|byte| format!("{byte:02x}"))
        .collect();
    let length = length(bytes, most);
    format!(
        "the file begins {} and has {length}: it looks like {what}",
        first.join(" ")
    )
}

fn is_text(bytes: &[u8]) -> bool {
    let printed = |byte: &u8| matches!(byte, b' '..=b'~' | b'\t' | b'\n' | b'\r');
    bytes.iter().take(256).all(printed)
}

/// Lines for a file that is refused as a sheet (21 SHEET): its length, how it begins and what its count asks for.
pub fn sheet_lines(bytes: &[u8]) -> Vec<String> {
    let number = |at: usize, length: usize| {
        let own = bytes.get(at..at + length)?;
        Some(own.iter().fold(0u64, |n, &byte| n << 8 | u64::from(byte)))
    };
    let form = match (number(0, 4), number(0, 2)) {
        (Some(2), _) => Some((20, 4, 24)),
        (_, Some(2)) => Some((18, 2, 20)),
        _ => None,
    };
    let Some((at, width, head)) = form else {
        return vec![format!(
            "  {}",
            if is_xcoff(bytes) {
                "the file begins as an XCOFF file does: the sheet comes after the module on the command line".to_string()
            } else {
                looks_like(bytes, files::SHEET)
            }
        )];
    };
    let asked = match number(at, width) {
        Some(count) => format!(
            "its count at offset {at} is {count}: {} bytes are asked for",
            head + 8 * count
        ),
        None => format!("{head} bytes are asked for before any address"),
    };
    let length = length(bytes, files::SHEET);
    vec![format!("  the file has {length}; {asked}")]
}
