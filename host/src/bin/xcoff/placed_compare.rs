//! An object file's image compared with that of a plan: the relocated fields, and all other bytes.

use crate::compare::{hex_of, places_words, runs, SHOWN};
use crate::escape;
use crate::listing::{hex, number, word, Cell, Listing};
use crate::output::{complain, refused_object};
use crate::place::FoundImage;
use crate::problem::Problem;
use xcoff::{ObjectEntry, ObjectPlan};

/// An image as it was found, beside that of the plan that it should be for.
pub struct PlacedBeside<'a> {
    found: &'a FoundImage<'a>,
    plan: &'a ObjectPlan,
    /// How many fields there are: several entries may stand on one.
    fields: u64,
    /// How many of them differ.
    wrong: u64,
    /// The first of these, in the order of the image: place, bytes and what the plan's image has there.
    shown: Vec<(u64, usize, Vec<u8>)>,
    /// The plan's image with the found fields in it: what else differs is no field.
    mixed: Vec<u8>,
}

impl<'a> PlacedBeside<'a> {
    pub fn new(
        found: &'a FoundImage,
        plan: &'a ObjectPlan,
        built: Vec<u8>,
    ) -> Result<PlacedBeside<'a>, Problem> {
        let mut beside = PlacedBeside {
            found,
            plan,
            fields: 0,
            wrong: 0,
            shown: Vec::new(),
            mixed: built,
        };
        let file = found.file;
        // A bit for each byte of the image at which a field starts.
        let mut starts = vec![0u64; found.bytes.len().div_ceil(64)];
        for n in file.with_entries() {
            let entries = file.row(n).map_or(0, |row| row.entries);
            let entries = xcoff::object_entries_of(&file.bytes, n, entries);
            let entries = refused_object(file.path, &file.bytes, entries)?;
            for entry in entries.rows().filter(|entry| entry.width != 0) {
                let (at, bit) = (entry.place as usize / 64, 1 << (entry.place % 64));
                if starts[at] & bit == 0 {
                    starts[at] |= bit;
                    beside.take(&entry);
                }
            }
        }
        Ok(beside)
    }

    /// Counts a field, and puts what was found of it into the plan's image.
    fn take(&mut self, entry: &ObjectEntry) {
        let (start, mask) = (entry.place as usize, entry.mask());
        let range = start..start + mask.len();
        let (found, own) = (&self.found.bytes[range.clone()], &mut self.mixed[range]);
        let expected = own.to_vec();
        for ((own, found), mask) in own.iter_mut().zip(found).zip(mask) {
            *own = *own & !mask | found & mask;
        }
        self.fields += 1;
        if *own == expected {
            return;
        }
        self.wrong += 1;
        let beyond = |shown: &Vec<(u64, usize, Vec<u8>)>| shown.len() == SHOWN;
        if !beyond(&self.shown) || self.shown[SHOWN - 1].0 > entry.place {
            let at = self
                .shown
                .partition_point(|(place, ..)| *place < entry.place);
            self.shown.insert(at, (entry.place, mask.len(), expected));
            self.shown.truncate(SHOWN);
        }
    }

    pub fn fields_equal(&self) -> bool {
        self.wrong == 0
    }

    pub fn all_equal(&self) -> bool {
        self.fields_equal() && self.mixed == self.found.bytes
    }

    /// Relocated fields are not the plan's: a line that says so, what else there is to say, and the fields.
    pub fn not_its_fields(&self, more: impl IntoIterator<Item = String>) -> Problem {
        let mut lines = vec![format!(
            "xcoff: {}: {} of {} relocated fields are not those of {} at {}; nothing is changed",
            escape::argument(self.found.path),
            self.wrong,
            self.fields,
            escape::argument(self.found.file.path),
            self.found.file.plan_words(self.plan)
        )];
        lines.extend(more);
        lines.extend(self.table());
        if self.wrong > SHOWN as u64 {
            lines.push(format!("  and {} more", self.wrong - SHOWN as u64));
        }
        Problem::Unequal(lines)
    }

    fn table(&self) -> Vec<String> {
        let file = self.found.file;
        let mut text = Vec::new();
        let mut list = Listing::new(&mut text, false);
        let columns = vec![
            hex("address", file.digits()),
            number("offset", self.shown.last().map_or(0, |(place, ..)| *place)),
            word("found", 8),
            word("expected", 8),
        ];
        let written = list.table("fields", columns).and_then(|()| {
            self.shown.iter().try_for_each(|(place, length, expected)| {
                let start = *place as usize;
                let found = &self.found.bytes[start..start + length];
                list.row(&[
                    Cell::Hex(file.address(self.plan, *place)),
                    Cell::Number(*place),
                    Cell::Name(hex_of(found).as_bytes()),
                    Cell::Name(hex_of(expected).as_bytes()),
                ])
            })
        });
        written.expect("a buffer takes any text");
        let text = String::from_utf8_lossy(&text).into_owned();
        text.lines().map(|line| format!("  {line}")).collect()
    }

    /// Bytes outside the relocated fields that are not the file's: how many and where.
    fn changes(&self) -> Option<String> {
        let whole = vec![0..self.mixed.len()];
        let runs = runs(&self.found.bytes, &self.mixed, whole);
        let count = runs.iter().map(|run| run.len()).sum::<usize>();
        let (bytes, are) = match count {
            0 => return None,
            1 => ("byte", "is"),
            _ => ("bytes", "are"),
        };
        let (file, digits) = (self.found.file, self.found.file.digits());
        let place = |start: usize| {
            let address = file.address(self.plan, start as u64);
            format!("{address:0digits$x} (offset {start})")
        };
        Some(format!(
            "{}: {count} {bytes} outside the relocated fields {are} not the file's: {}",
            escape::argument(self.found.path),
            places_words(&runs, place)
        ))
    }
}

/// The relocated fields are the plan's: so must all other bytes be, unless changes are to be kept. Then a warning says how many
/// there are, and where.
pub fn kept_or_equal(beside: &PlacedBeside, keep_changes: bool) -> Result<(), Problem> {
    let Some(change) = beside.changes() else {
        return Ok(());
    };
    if keep_changes {
        complain(&[format!("xcoff: warning: {change}; kept as found")]);
        return Ok(());
    }
    Err(Problem::Unequal(vec![
        format!("xcoff: {change}; nothing is changed"),
        format!(
            "xcoff: the relocated fields are those of {}: --keep-changes takes the other bytes as they are",
            beside.found.file.plan_words(beside.plan)
        ),
    ]))
}
