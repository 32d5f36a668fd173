//! What stands where a refusal points, in lines below it: the bytes as a hex dump has them, and the fields that the rule
//! speaks of.

use crate::listing::{number, word, Cell, Listing};
use xcoff::{object_places, places, FieldValue, FileRange, Place, Refusal};

/// Bytes in a line of the dump.
const LINE: usize = 16;

/// None where the refusal names nothing in the file.
pub fn lines(file: &[u8], refusal: &Refusal) -> Vec<String> {
    let places = places(file, refusal);
    places.iter().flat_map(place_lines).collect()
}

/// The same of a refusal by an operation on an object file.
pub fn object_lines(file: &[u8], refusal: &Refusal) -> Vec<String> {
    let places = object_places(file, refusal);
    places.iter().flat_map(place_lines).collect()
}

/// Pairs of parts of a file that share bytes.
pub fn shared(pairs: &[(FileRange, FileRange)]) -> Vec<String> {
    let line = |(one, other): &(FileRange, FileRange)| format!("  {one} and {other}");
    pairs.iter().map(line).collect()
}

fn place_lines(place: &Place) -> Vec<String> {
    let mut lines = vec![heading(place)];
    lines.extend(dump(place.offset, place.bytes));
    if !place.fields.is_empty() {
        lines.extend(table(&place.fields));
    }
    lines.iter().map(|line| format!("  {line}")).collect()
}

fn heading(place: &Place) -> String {
    let what = place.what;
    match place.bytes.len() {
        0 => format!("{what}: no bytes in the file"),
        bytes => format!("{what}: {bytes} bytes at offset {}", place.offset),
    }
}

/// Each line begins with the offset of its first byte, in hex.
fn dump(offset: u64, bytes: &[u8]) -> impl Iterator<Item = String> + '_ {
    let starts = (offset..).step_by(LINE);
    starts.zip(bytes.chunks(LINE)).map(|(start, bytes)| {
        let digits: String = bytes.iter().map(|byte| format!(" {byte:02x}")).collect();
        format!("{start:08x} {digits}")
    })
}

/// Name, offset in the file and value of each field.
fn table(fields: &[FieldValue]) -> Vec<String> {
    let mut text = Vec::new();
    let mut list = Listing::new(&mut text, false);
    let columns = vec![
        word(
            "field",
            fields.iter().map(|f| f.name.len()).max().unwrap_or(0),
        ),
        number("offset", fields.iter().map(|f| f.offset).max().unwrap_or(0)),
        word("value", 0),
    ];
    let written = list.table("fields", columns).and_then(|()| {
        fields.iter().try_for_each(|f| {
            list.row(&[
                Cell::Word(f.name),
                Cell::Number(f.offset),
                Cell::Name(f.value.to_string().as_bytes()),
            ])
        })
    });
    written.expect("a buffer takes any text");
    let text = String::from_utf8_lossy(&text);
    text.lines().map(str::to_string).collect()
}
