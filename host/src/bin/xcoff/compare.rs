//! Images compared with those of a plan: the relocated fields, and all other bytes.

use crate::escape;
use crate::found::Found;
use crate::listing::{hex, number, word, Cell, Listing};
use crate::lists::image_word;
use crate::load::{Loaded, Pair, Sheet};
use crate::output::complain;
use crate::problem::Problem;
use std::ops::Range;
use xcoff::{Image, Relocation};

/// Fields that a report shows before it only counts.
pub const SHOWN: usize = 8;

pub const IMAGES: [Image; 2] = [Image::Text, Image::Data];

/// The fields that relocation entries name, each once: several entries may stand on one field.
pub struct Fields(Vec<Relocation>);

/// Where two images first differ.
struct Difference {
    offset: usize,
    found: u8,
    expected: u8,
    /// Bytes that differ in all.
    count: usize,
}

/// Images as they were found, beside those of the plan that they should be for.
pub struct Beside<'a> {
    pub file: &'a Loaded<'a>,
    pub sheet: &'a Sheet<'a>,
    pub found: &'a Found<'a>,
    pub fields: Fields,
    pub expected: Pair,
}

impl Fields {
    pub fn of(file: &Loaded) -> Result<Fields, Problem> {
        let mut fields = file.entries()?;
        fields.sort_by_key(|f| (f.image, f.offset));
        fields.dedup_by_key(|f| (f.image, f.offset));
        Ok(Fields(fields))
    }

    pub fn count(&self) -> usize {
        self.0.len()
    }

    /// Those of one image.
    pub fn within(&self, image: Image) -> Fields {
        Fields(
            self.0
                .iter()
                .filter(|f| f.image == image)
                .copied()
                .collect(),
        )
    }

    /// Those that differ.
    pub fn wrong(&self, found: &Pair, expected: &Pair) -> Fields {
        let differs = |f: &&Relocation| bytes_of(found, f) != bytes_of(expected, f);
        Fields(self.0.iter().filter(differs).copied().collect())
    }

    pub fn equal(&self, found: &Pair, expected: &Pair) -> bool {
        self.wrong(found, expected).count() == 0
    }

    /// What lies before, between and after the fields of one image.
    fn gaps(&self, image: Image, length: usize) -> Vec<Range<usize>> {
        let fields = self.0.iter().filter(|f| f.image == image).map(range_of);
        let ends = fields.chain([length..length]);
        let mut start = 0;
        ends.map(|next| std::mem::replace(&mut start, next.end)..next.start)
            .collect()
    }

    /// The first of these fields, a line for each, with their addresses in the sheet's plan.
    pub fn table(
        &self,
        sheet: &Sheet,
        digits: usize,
        found: &Pair,
        expected: &Pair,
    ) -> Vec<String> {
        let mut text = Vec::new();
        let mut list = Listing::new(&mut text, false);
        let shown = &self.0[..self.0.len().min(SHOWN)];
        let columns = vec![
            hex("address", digits),
            word("image", 5),
            number("offset", shown.iter().map(|f| f.offset).max().unwrap_or(0)),
            word("found", digits),
            word("expected", digits),
        ];
        let written = list.table("fields", columns).and_then(|()| {
            shown.iter().try_for_each(|f| {
                list.row(&[
                    Cell::Hex(sheet.address(f.image) + f.offset),
                    Cell::Word(image_word(f.image)),
                    Cell::Number(f.offset),
                    Cell::Name(hex_of(bytes_of(found, f)).as_bytes()),
                    Cell::Name(hex_of(bytes_of(expected, f)).as_bytes()),
                ])
            })
        });
        written.expect("a buffer takes any text");
        let text = String::from_utf8_lossy(&text).into_owned();
        let mut lines: Vec<String> = text.lines().map(|line| format!("  {line}")).collect();
        if self.count() > SHOWN {
            lines.push(format!("  and {} more", self.count() - SHOWN));
        }
        lines
    }
}

fn range_of(f: &Relocation) -> Range<usize> {
    f.offset as usize..(f.offset + f.width) as usize
}

fn bytes_of<'a>(pair: &'a Pair, f: &Relocation) -> &'a [u8] {
    &pair.image(f.image)[range_of(f)]
}

fn number_in(pair: &Pair, f: &Relocation) -> u64 {
    let bytes = bytes_of(pair, f).iter();
    bytes.fold(0, |number, &byte| number << 8 | u64::from(byte))
}

pub fn hex_of(bytes: &[u8]) -> String {
    bytes.iter().map(|byte| format!("{byte:02x}")).collect()
}

/// Images of the same length.
fn difference(found: &[u8], expected: &[u8]) -> Option<Difference> {
    let mut differing = (0..found.len()).filter(|&at| found[at] != expected[at]);
    let offset = differing.next()?;
    Some(Difference {
        offset,
        found: found[offset],
        expected: expected[offset],
        count: 1 + differing.count(),
    })
}

/// Where two images of the same length differ in these places: bytes that follow each other as one.
pub fn runs(found: &[u8], expected: &[u8], places: Vec<Range<usize>>) -> Vec<Range<usize>> {
    let mut runs: Vec<Range<usize>> = Vec::new();
    let places = places.into_iter().flatten();
    for at in places.filter(|&at| found[at] != expected[at]) {
        match runs.last_mut() {
            Some(last) if last.end == at => last.end += 1,
            _ => runs.push(at..at + 1),
        }
    }
    runs
}

/// The first places that differ, each with how many bytes it has and where it is.
pub fn places_words(runs: &[Range<usize>], place: impl Fn(usize) -> String) -> String {
    let words = |run: &Range<usize>| format!("{} at {}", run.len(), place(run.start));
    let shown: Vec<String> = runs.iter().take(SHOWN).map(words).collect();
    match runs.len() {
        n if n > SHOWN => format!("{} and at {} more places", shown.join(", "), n - SHOWN),
        _ => shown.join(", "),
    }
}

impl<'a> Beside<'a> {
    pub fn new(
        file: &'a Loaded,
        sheet: &'a Sheet,
        found: &'a Found,
    ) -> Result<Beside<'a>, Problem> {
        Ok(Beside {
            file,
            sheet,
            found,
            fields: Fields::of(file)?,
            expected: file.build_sheet(sheet)?.0,
        })
    }

    fn wrong(&self) -> Fields {
        self.fields.wrong(&self.found.pair, &self.expected)
    }

    pub fn fields_equal(&self) -> bool {
        self.wrong().count() == 0
    }

    /// The fields that differ, each with the number that was found and the plan's.
    pub fn wrong_numbers(&self) -> Vec<(Relocation, u64, u64)> {
        let numbers = |f: &Relocation| {
            let [found, expected] = [&self.found.pair, &self.expected].map(|p| number_in(p, f));
            (*f, found, expected)
        };
        self.wrong().0.iter().map(numbers).collect()
    }

    /// "N of M relocated fields are not those of SHEET".
    fn wrong_words(&self) -> String {
        format!(
            "{} of {} relocated fields are not those of {}",
            self.wrong().count(),
            self.fields.count(),
            escape::argument(self.sheet.path)
        )
    }

    /// The address of a byte that differs, and where it was found.
    fn first(&self, image: Image, d: &Difference) -> String {
        format!(
            "the first at {:0digits$x} ({})",
            self.sheet.address(image) + d.offset as u64,
            self.found.at(image, d.offset),
            digits = self.file.digits()
        )
    }

    /// Relocated fields are not the plan's: a line that says so, what else there is to say, and the fields.
    pub fn not_its_fields(&self, more: impl IntoIterator<Item = String>) -> Problem {
        let mut lines = vec![format!(
            "xcoff: {}: {}; nothing is changed",
            self.found.names(),
            self.wrong_words()
        )];
        lines.extend(more);
        let digits = self.file.digits();
        let (found, expected) = (&self.found.pair, &self.expected);
        lines.extend(self.wrong().table(self.sheet, digits, found, expected));
        Problem::Unequal(lines)
    }

    /// The relocated fields are the plan's: so must all other bytes be, unless changes are to be kept. Then a warning says
    /// how many there are, and where: a card's program may have written there, but whoever goes on with them should know.
    pub fn all_equal_or_kept(&self, keep_changes: bool) -> Result<(), Problem> {
        let changes = self.changes();
        if keep_changes {
            let warning = |change: &String| format!("xcoff: warning: {change}; kept as found");
            complain(&changes.iter().map(warning).collect::<Vec<_>>());
            return Ok(());
        }
        if changes.is_empty() {
            return Ok(());
        }
        let refused = |change: &String| format!("xcoff: {change}; nothing is changed");
        let mut lines: Vec<String> = changes.iter().map(refused).collect();
        lines.push(format!(
            "xcoff: the relocated fields are those of {}: --keep-changes takes the other bytes as they are",
            escape::argument(self.sheet.path)
        ));
        Err(Problem::Unequal(lines))
    }

    /// Bytes outside the relocated fields that are not the module's: for each image that has some, how many and where.
    fn changes(&self) -> Vec<String> {
        let change = |image: Image| {
            let (found, expected) = (self.found.pair.image(image), self.expected.image(image));
            let runs = runs(found, expected, self.fields.gaps(image, found.len()));
            let count = runs.iter().map(|run| run.len()).sum::<usize>();
            let (bytes, are) = match count {
                0 => return None,
                1 => ("byte", "is"),
                _ => ("bytes", "are"),
            };
            Some(format!(
                "{}: {count} {bytes} outside the relocated fields {are} not the module's: {}",
                escape::argument(self.found.path(image)),
                self.places(image, &runs)
            ))
        };
        IMAGES.into_iter().filter_map(change).collect()
    }

    /// The first places of an image, each with its address, where it was found and how many bytes it has.
    fn places(&self, image: Image, runs: &[Range<usize>]) -> String {
        places_words(runs, |start| {
            format!(
                "{:0digits$x} ({})",
                self.sheet.address(image) + start as u64,
                self.found.at(image, start),
                digits = self.file.digits()
            )
        })
    }

    /// How the images differ from the plan's, a line for each thing to say; none where they do not.
    pub fn differences(&self) -> Vec<String> {
        if self.found.pair == self.expected {
            return Vec::new();
        }
        let mut lines: Vec<String> = IMAGES.map(|image| self.image_line(image)).into();
        lines.push(if self.fields_equal() {
            let name = escape::argument(self.sheet.path);
            format!("xcoff: the relocated fields are those of {name}")
        } else {
            format!("xcoff: {}", self.wrong_words())
        });
        lines
    }

    fn image_line(&self, image: Image) -> String {
        let d = difference(self.found.pair.image(image), self.expected.image(image));
        let line = format!(
            "xcoff: {} the {} image for {}",
            self.found.is_or_not(image, d.is_none()),
            image_word(image),
            escape::argument(self.sheet.path)
        );
        let Some(d) = d else {
            return line;
        };
        format!(
            "{line}: {} {}, {}, found {:02x}, expected {:02x}",
            d.count,
            if d.count == 1 {
                "byte differs"
            } else {
                "bytes differ"
            },
            self.first(image, &d),
            d.found,
            d.expected
        )
    }
}
