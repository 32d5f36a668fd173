//! Document 02, request 2: an XCOFF32 module's two images as S-records.
//!
//! A record is `S`, a type, and bytes in two upper-case hex digits each: the
//! count of the bytes after it, the address (4 bytes in S3 and S7), the data,
//! and a checksum, the ones' complement of the low byte of the sum of the rest.

use crate::images::{judge_buffers, judge_list, judge_plan, reached, Plan};
use crate::module::{load, Loaded};
use crate::{refuse, Refusal, CLASH, FORM, RECORD, ROOM};
use std::ops::Range;

/// Data bytes of a line; only an image's last one has fewer.
pub const LINE: u64 = 32;

/// How long the record text is.
pub fn records_length(file: &[u8], plan: &Plan) -> Result<u64, Refusal> {
    let loaded = load(file)?;
    judge(&loaded, plan)?;
    Ok(text_length(&loaded))
}

/// Writes the images, as they are, as records.
pub fn write_records(
    file: &[u8],
    plan: &Plan,
    text: &[u8],
    data: &[u8],
    records: &mut [u8],
) -> Result<(), Refusal> {
    let loaded = load(file)?;
    judge(&loaded, plan)?;
    judge_buffers(&loaded, text.len(), data.len())?;
    if records.len() as u64 != text_length(&loaded) {
        return refuse(ROOM, 0);
    }
    let mut all = Vec::with_capacity(records.len());
    for (image, start) in [(text, plan.text), (data, plan.data)] {
        for (i, bytes) in image.chunks(LINE as usize).enumerate() {
            add_line(&mut all, b'3', start + LINE * i as u64, bytes);
        }
    }
    add_line(&mut all, b'7', entry(&loaded, plan), &[]);
    records.copy_from_slice(&all);
    Ok(())
}

/// Reads records into the images: exactly the lines that are written for this
/// module and plan, with any data bytes.
pub fn read_records(
    file: &[u8],
    plan: &Plan,
    records: &[u8],
    text: &mut [u8],
    data: &mut [u8],
) -> Result<(), Refusal> {
    let loaded = load(file)?;
    judge(&loaded, plan)?;
    judge_buffers(&loaded, text.len(), data.len())?;
    match judge_lines(&expected_lines(&loaded, plan), records) {
        Ok(found) => {
            let (of_text, of_data) = found.split_at(text.len());
            text.copy_from_slice(of_text);
            data.copy_from_slice(of_data);
            Ok(())
        }
        Err(bad) => refuse(RECORD, bad.line),
    }
}

/// What is wrong with the first bad line of these records; none where they are
/// good, or refused for something else.
pub fn bad_line(file: &[u8], plan: &Plan, records: &[u8]) -> Option<Bad> {
    let loaded = load(file).ok()?;
    judge(&loaded, plan).ok()?;
    judge_lines(&expected_lines(&loaded, plan), records).err()
}

/// Order: ROOM 2, PLAN, FORM, CLASH.
fn judge(loaded: &Loaded, plan: &Plan) -> Result<(), Refusal> {
    judge_list(loaded, plan)?;
    judge_plan(loaded, plan)?;
    if loaded.module.bits != 32 {
        return refuse(FORM, 0);
    }
    let text = plan.text..plan.text + loaded.module.text_size;
    let data = plan.data..plan.data + loaded.module.data_image;
    if share(&text, &data) {
        return refuse(CLASH, 0);
    }
    Ok(())
}

/// Whether some address is in both.
fn share(one: &Range<u64>, other: &Range<u64>) -> bool {
    one.start.max(other.start) < one.end.min(other.end)
}

/// The moved entry address, 0 where there is none.
fn entry(loaded: &Loaded, plan: &Plan) -> u64 {
    reached(loaded, plan).entry.unwrap_or(0)
}

/// `S`, type, count, address, checksum and newline are 15 characters.
fn text_length(loaded: &Loaded) -> u64 {
    let image = |length: u64| length.div_ceil(LINE) * 15 + 2 * length;
    image(loaded.module.text_size) + image(loaded.module.data_image) + 15
}

fn add_line(all: &mut Vec<u8>, kind: u8, address: u64, data: &[u8]) {
    let mut bytes = vec![data.len() as u8 + 5];
    bytes.extend_from_slice(&(address as u32).to_be_bytes());
    bytes.extend_from_slice(data);
    bytes.push(!sum(&bytes));
    all.extend_from_slice(&[b'S', kind]);
    for byte in bytes {
        all.extend_from_slice(&[digit(byte / 16), digit(byte % 16)]);
    }
    all.push(b'\n');
}

/// The low byte of the sum.
fn sum(bytes: &[u8]) -> u8 {
    bytes.iter().fold(0, |sum, &byte| sum.wrapping_add(byte))
}

fn digit(value: u8) -> u8 {
    b"0123456789ABCDEF"[usize::from(value)]
}

/// A line of the text, as the rules of S-records read it.
#[derive(Debug, PartialEq, Eq)]
pub struct Record {
    /// The digit after `S`.
    pub kind: u8,
    pub address: u64,
    pub data: Vec<u8>,
}

/// What is wrong with a line.
#[derive(Clone, Copy, Debug, PartialEq, Eq)]
pub enum Fault {
    Type,
    Count,
    Address,
    Digit,
    Checksum,
    /// Something before the newline.
    End,
    /// The text ends before the line does.
    Missing,
    /// Something after the last line.
    Surplus,
}

/// A bad line, from 1.
#[derive(Clone, Copy, Debug, PartialEq, Eq)]
pub struct Bad {
    pub line: u64,
    pub fault: Fault,
}

/// What a line must be, but for its data bytes.
struct Expected {
    kind: u8,
    address: u64,
    length: usize,
}

fn expected_lines(loaded: &Loaded, plan: &Plan) -> Vec<Expected> {
    let mut all = Vec::new();
    let images = [
        (plan.text, loaded.module.text_size),
        (plan.data, loaded.module.data_image),
    ];
    for (start, length) in images {
        let mut done = 0;
        while done < length {
            let now = LINE.min(length - done);
            all.push(Expected {
                kind: 3,
                address: start + done,
                length: now as usize,
            });
            done += now;
        }
    }
    all.push(Expected {
        kind: 7,
        address: entry(loaded, plan),
        length: 0,
    });
    all
}

/// The data bytes of all lines, or the first line that is bad.
fn judge_lines(expected: &[Expected], records: &[u8]) -> Result<Vec<u8>, Bad> {
    let mut found = Vec::new();
    let mut rest = records;
    for (i, wanted) in expected.iter().enumerate() {
        let bad = |fault| Bad {
            line: i as u64 + 1,
            fault,
        };
        let end = rest.iter().position(|&character| character == b'\n');
        let end = end.ok_or(bad(Fault::Missing))?;
        let record = parse(&rest[..end]).map_err(bad)?;
        compare(&record, wanted).map_err(bad)?;
        found.extend_from_slice(&record.data);
        rest = &rest[end + 1..];
    }
    if !rest.is_empty() {
        return Err(Bad {
            line: expected.len() as u64 + 1,
            fault: Fault::Surplus,
        });
    }
    Ok(found)
}

fn compare(record: &Record, wanted: &Expected) -> Result<(), Fault> {
    if record.kind != wanted.kind {
        return Err(Fault::Type);
    }
    if record.data.len() != wanted.length {
        return Err(Fault::Count);
    }
    if record.address != wanted.address {
        return Err(Fault::Address);
    }
    Ok(())
}

/// Reads a line without its newline: a record of any type with an address.
pub fn parse(line: &[u8]) -> Result<Record, Fault> {
    let (kind, digits) = match line {
        [b'S', kind, digits @ ..] => (*kind, digits),
        _ => return Err(Fault::Type),
    };
    let width = address_width(kind).ok_or(Fault::Type)?;
    let bytes = bytes_of(digits)?;
    let (&count, counted) = bytes.split_first().ok_or(Fault::Count)?;
    if usize::from(count) != counted.len() || counted.len() < width + 1 {
        return Err(Fault::Count);
    }
    // With the checksum all bits of the sum are set.
    if sum(&bytes) != 0xFF {
        return Err(Fault::Checksum);
    }
    let (address, data) = counted[..counted.len() - 1].split_at(width);
    Ok(Record {
        kind: kind - b'0',
        address: address.iter().fold(0, |a, &b| 256 * a + u64::from(b)),
        data: data.to_vec(),
    })
}

/// How many bytes the address of a type has.
fn address_width(kind: u8) -> Option<usize> {
    match kind {
        b'0' | b'1' | b'5' | b'9' => Some(2),
        b'2' | b'6' | b'8' => Some(3),
        b'3' | b'7' => Some(4),
        _ => None,
    }
}

fn bytes_of(digits: &[u8]) -> Result<Vec<u8>, Fault> {
    if let Some(b' ' | b'\t' | b'\r' | 0) = digits.last() {
        return Err(Fault::End);
    }
    let mut bytes = Vec::new();
    for pair in digits.chunks(2) {
        match pair {
            [high, low] => bytes.push(16 * value(*high)? + value(*low)?),
            _ => return Err(Fault::End),
        }
    }
    Ok(bytes)
}

/// The value of an upper-case hex digit.
fn value(character: u8) -> Result<u8, Fault> {
    match character {
        b'0'..=b'9' => Ok(character - b'0'),
        b'A'..=b'F' => Ok(character - b'A' + 10),
        _ => Err(Fault::Digit),
    }
}
