//! Bytes of others as text that is safe to print: no name reaches a terminal as it stands.

use crate::listing::push_digits;
use std::os::unix::ffi::OsStrExt;
use std::path::Path;

/// Bytes of a name that are shown. Names may share their bytes, so that without it a listing could be far longer than
/// its file.
pub const MOST: usize = 256;

/// A name as one word: printable characters as they are, every other byte, blanks and quotes as `\xNN`, a backslash
/// doubled. The empty name is `""`. A longer name than is shown ends in `\...`.
pub fn name(bytes: &[u8]) -> String {
    let mut out = String::new();
    push_name(bytes, &mut out);
    out
}

pub fn push_name(bytes: &[u8], out: &mut String) {
    if bytes.is_empty() {
        out.push_str("\"\"");
    }
    for &byte in &bytes[..bytes.len().min(MOST)] {
        match byte {
            b'\\' => out.push_str("\\\\"),
            b'"' => push_hex(byte, out),
            b'!'..=b'~' => out.push(byte as char),
            _ => push_hex(byte, out),
        }
    }
    if bytes.len() > MOST {
        out.push_str("\\...");
    }
}

fn push_hex(byte: u8, out: &mut String) {
    out.push_str("\\x");
    push_digits::<16>(out, byte.into(), 2);
}

/// How many characters [`name`] has.
pub fn width(bytes: &[u8]) -> usize {
    let shown = &bytes[..bytes.len().min(MOST)];
    let one = |&byte: &u8| match byte {
        b'\\' => 2,
        b'"' => 4,
        b'!'..=b'~' => 1,
        _ => 4,
    };
    let mark = if bytes.len() > MOST { 4 } else { 0 };
    match bytes.len() {
        0 => 2,
        _ => shown.iter().map(one).sum::<usize>() + mark,
    }
}

/// The bytes of a name that is written as [`name`] shows it; none where a backslash begins nothing of that kind.
pub fn unescape(shown: &[u8]) -> Option<Vec<u8>> {
    let mut bytes = Vec::new();
    let mut rest = if shown == b"\"\"" { b"" } else { shown };
    while let Some((&first, after)) = rest.split_first() {
        rest = match (first, after) {
            (b'\\', [b'\\', more @ ..]) => {
                bytes.push(b'\\');
                more
            }
            (b'\\', [b'x', high, low, more @ ..]) => {
                bytes.push(16 * digit(*high)? + digit(*low)?);
                more
            }
            (b'\\', _) => return None,
            _ => {
                bytes.push(first);
                after
            }
        };
    }
    Some(bytes)
}

fn digit(byte: u8) -> Option<u8> {
    (byte as char).to_digit(16).map(|d| d as u8)
}

/// A word of a text that is read, as it stands there: a byte that is no printable character of ASCII as `\xNN`. A longer one
/// than is shown ends in `\...`.
pub fn word(bytes: &[u8]) -> String {
    let mut out = String::new();
    for &byte in &bytes[..bytes.len().min(MOST)] {
        match byte {
            b'!'..=b'~' => out.push(byte as char),
            _ => push_hex(byte, &mut out),
        }
    }
    if bytes.len() > MOST {
        out.push_str("\\...");
    }
    out
}

/// A path or an argument of the command line: control characters and bytes that are no UTF-8 as `\xNN`; `''` where it
/// is empty.
pub fn argument(text: impl AsRef<Path>) -> String {
    let bytes = text.as_ref().as_os_str().as_bytes();
    if bytes.is_empty() {
        return "''".to_string();
    }
    let mut out = String::new();
    for chunk in bytes.utf8_chunks() {
        chunk.valid().chars().for_each(|c| push_char(c, &mut out));
        chunk.invalid().iter().for_each(|&b| push_hex(b, &mut out));
    }
    out
}

fn push_char(c: char, out: &mut String) {
    if c.is_control() {
        let mut bytes = [0; 4];
        let bytes = c.encode_utf8(&mut bytes).bytes();
        bytes.for_each(|byte| push_hex(byte, out));
    } else {
        out.push(c);
    }
}
