//! What the commands about object files work on: the file with its sections, plans given by section, and images.

use crate::args::Arguments;
use crate::escape;
use crate::files;
use crate::lists;
use crate::object::{is_relative, Symbols};
use crate::output::{complain, object_problem, refused_object};
use crate::plans::hex_value;
use crate::problem::Problem;
use crate::words::kind_word;
use std::os::unix::ffi::OsStrExt;
use std::path::Path;
use xcoff::{Format, Kind, Object, ObjectEntry, ObjectPlan, ObjectSection, Refusal, Section};

/// Memory from which on it is said beforehand how much is needed.
const SAID: u64 = 64 << 20;

/// A file that is accepted as an object file.
pub struct ObjectFile<'p> {
    pub path: &'p Path,
    pub bytes: Vec<u8>,
    pub format: Format,
    pub object: Object,
    /// With their names.
    pub sections: Vec<(Section, Vec<u8>)>,
    pub rows: Vec<ObjectSection>,
}

impl<'p> ObjectFile<'p> {
    pub fn read(path: &'p Path) -> Result<ObjectFile<'p>, Problem> {
        let bytes = files::read(path, files::FILE)?;
        let opened = refused_object(path, &bytes, xcoff::open(&bytes))?;
        let rows = refused_object(path, &bytes, xcoff::object_sections(&bytes))?;
        // What xcoff::object answers, without judging millions of entries once more.
        let object = Object {
            sections: opened.sections,
            entries: rows.iter().map(|row| row.entries).sum(),
            length: rows.iter().map(|row| row.size).sum(),
        };
        let one = |n| {
            Ok((
                xcoff::section(&bytes, n)?,
                xcoff::section_name(&bytes, n)?.to_vec(),
            ))
        };
        let sections = (1..=opened.sections).map(one).collect::<Result<_, _>>();
        let sections = refused_object(path, &bytes, sections)?;
        Ok(ObjectFile {
            path,
            bytes,
            format: opened.format,
            object,
            sections,
            rows,
        })
    }

    pub fn digits(&self) -> usize {
        lists::digits(self.format)
    }

    /// By its number, where there is such a section.
    fn section(&self, n: u64) -> Option<&Section> {
        let place = usize::try_from(n).ok()?.checked_sub(1)?;
        self.sections.get(place).map(|(section, _)| section)
    }

    pub fn row(&self, n: u64) -> Option<&ObjectSection> {
        self.rows.get(usize::try_from(n).ok()?.checked_sub(1)?)
    }

    /// Text and data are in the image.
    pub fn is_in_image(&self, n: u64) -> bool {
        self.section(n)
            .is_some_and(|s| matches!(s.kind, Kind::Text | Kind::Data))
    }

    /// Text, data and bss have addresses in a plan.
    pub fn is_placed(&self, n: u64) -> bool {
        self.is_in_image(n) || self.section(n).is_some_and(|s| s.kind == Kind::Bss)
    }

    /// The numbers of these sections.
    pub fn placed(&self) -> impl Iterator<Item = u64> + '_ {
        (1..=self.object.sections).filter(|&n| self.is_placed(n))
    }

    /// The numbers of the sections whose tables have entries.
    pub fn with_entries(&self) -> impl Iterator<Item = u64> + '_ {
        let own = (1..).zip(&self.rows).filter(|(_, row)| row.entries > 0);
        own.map(|(n, _)| n)
    }

    /// The section that a symbol with this section number moves with.
    pub fn moving(&self, scnum: i64) -> Option<u64> {
        let n = u64::try_from(scnum).ok()?;
        self.is_placed(n).then_some(n)
    }

    /// "section N (KIND)".
    pub fn section_words(&self, n: u64) -> String {
        let kind = self.section(n).map_or("none", |s| kind_word(s.kind));
        format!("section {n} ({kind})")
    }

    // ---- memory

    /// Of the file and so many images.
    pub fn image_memory(&self, images: u64) -> u64 {
        self.bytes.len() as u64 + images * self.object.length
    }

    /// Of the file, its symbols and the longest table.
    pub fn listing_memory(&self) -> u64 {
        let longest = self.rows.iter().map(|row| row.entries).max();
        let symbols = xcoff::open(&self.bytes).map_or(0, |opened| opened.symbols);
        self.bytes.len() as u64 + 48 * longest.unwrap_or(0) + 200 * symbols
    }

    /// Said before it is taken: sections may share their bytes and their tables, so that a small file asks for much.
    pub fn say_needed(&self, memory: u64) {
        if memory >= SAID {
            complain(&[format!(
                "xcoff: {}: {} relocation entries, an image of {} bytes: up to {} MiB of memory are needed",
                escape::argument(self.path),
                self.object.entries,
                self.object.length,
                memory.div_ceil(1 << 20)
            )]);
        }
    }

    /// Room for an image.
    pub fn room(&self, length: u64) -> Result<Vec<u8>, Problem> {
        let mut room = files::room(length).ok_or_else(|| Problem::System {
            doing: format!(
                "cannot take {length} bytes of memory for the image of {}",
                escape::argument(self.path)
            ),
            reason: "there is not so much".to_string(),
        })?;
        room.resize(length as usize, 0);
        Ok(room)
    }

    // ---- plans

    /// The plan that an option gives, N=HEX each time. What is not given stops the command, or is as recorded.
    pub fn plan(
        &self,
        args: &Arguments,
        option: &'static str,
        out: &Path,
    ) -> Result<ObjectPlan, Problem> {
        let mut given: Vec<Option<u64>> = vec![None; self.sections.len()];
        for value in args.each(option) {
            let (n, address) = self.placing(args, option, value[0].as_bytes())?;
            if given[n as usize - 1].replace(address).is_some() {
                return Err(args.wrong(format!("{option}: section {n} is given twice")));
            }
        }
        let missing = |n: &u64| given[*n as usize - 1].is_none();
        let missing: Vec<u64> = self.placed().filter(missing).collect();
        if !missing.is_empty() && !args.has("--recorded") {
            return Err(self.not_given(option, out, &missing));
        }
        let recorded = self.sections.iter().map(|(section, _)| section.paddr);
        let addresses = given.iter().zip(recorded);
        let addresses = addresses.map(|(given, recorded)| given.unwrap_or(recorded));
        Ok(ObjectPlan {
            addresses: addresses.collect(),
        })
    }

    /// N=HEX.
    fn placing(&self, args: &Arguments, option: &str, value: &[u8]) -> Result<(u64, u64), Problem> {
        let shown = escape::argument(std::ffi::OsStr::from_bytes(value));
        let wrong = |what: &str| args.wrong(format!("{option} {shown}: {what}"));
        let at = value.iter().position(|&byte| byte == b'=');
        let at = at.ok_or_else(|| wrong("it is not N=HEX, a section's number and its address"))?;
        let n = crate::args::decimal(&value[..at]).filter(|_| at > 0);
        let n = n.ok_or_else(|| wrong("it is not N=HEX, a section's number and its address"))?;
        let address = hex_value(args, option, &value[at + 1..])?;
        match self.section(n) {
            None => Err(wrong(&format!(
                "{} has no section {n}, it has {}",
                escape::argument(self.path),
                self.sections.len()
            ))),
            Some(section) if !self.is_placed(n) => Err(wrong(&format!(
                "section {n} is {}: only text, data and bss have addresses",
                kind_word(section.kind)
            ))),
            Some(_) => Ok((n, address)),
        }
    }

    fn not_given(&self, option: &str, out: &Path, missing: &[u64]) -> Problem {
        let digits = self.digits();
        let words = |&n: &u64| {
            let (section, name) = &self.sections[n as usize - 1];
            format!(
                "{n} {} {} (recorded {:0digits$x})",
                kind_word(section.kind),
                escape::name(name),
                section.paddr
            )
        };
        let all: Vec<String> = missing.iter().map(words).collect();
        Problem::Unequal(vec![
            format!(
                "xcoff: {} is not written: {} of {} sections of {} have no address: {}",
                escape::argument(out),
                missing.len(),
                self.placed().count(),
                escape::argument(self.path),
                all.join(", ")
            ),
            format!("xcoff: give each by {option} N=HEX; --recorded takes the recorded addresses"),
        ])
    }

    /// "1=00010000 2=00080000": the addresses that are used.
    pub fn plan_words(&self, plan: &ObjectPlan) -> String {
        let digits = self.digits();
        let one = |n: u64| format!("{n}={:0digits$x}", plan.addresses[n as usize - 1]);
        self.placed().map(one).collect::<Vec<_>>().join(" ")
    }

    /// First and last address of a section; none of an empty one.
    pub fn first_and_last(&self, plan: &ObjectPlan, n: u64) -> Option<(u64, u64)> {
        let (first, size) = (plan.addresses[n as usize - 1], self.section(n)?.size);
        (size > 0).then(|| (first, first + (size - 1)))
    }

    /// Where each section is to be written on the card: "section 1 text FIRST-LAST, ...".
    pub fn ranges(&self, plan: &ObjectPlan) -> String {
        let digits = self.digits();
        let one = |n: u64| {
            let kind = self.section(n).map_or("", |s| kind_word(s.kind));
            match self.first_and_last(plan, n) {
                Some((first, last)) => format!("{n} {kind} {first:0digits$x}-{last:0digits$x}"),
                None => format!("{n} {kind} none"),
            }
        };
        match self.placed().map(one).collect::<Vec<_>>().join(", ") {
            none if none.is_empty() => "no section".to_string(),
            all => format!("section {all}"),
        }
    }

    /// Where the byte at an offset of the image is on the card.
    pub fn address(&self, plan: &ObjectPlan, offset: u64) -> u64 {
        let own = (1..).zip(&self.rows);
        let holds = |row: &ObjectSection| offset >= row.place && offset - row.place < row.size;
        let found = own.clone().find(|(_, row)| holds(row));
        found.map_or(0, |(n, row): (u64, _)| {
            plan.addresses[n as usize - 1].wrapping_add(offset - row.place)
        })
    }

    /// Warns of sections that overlap on the card.
    pub fn warn_of_overlaps(&self, plan: &ObjectPlan) {
        let digits = self.digits();
        let all: Vec<u64> = self.placed().collect();
        let mut lines = Vec::new();
        for (i, &n) in all.iter().enumerate() {
            for &m in &all[..i] {
                let (Some(a), Some(b)) =
                    (self.first_and_last(plan, m), self.first_and_last(plan, n))
                else {
                    continue;
                };
                let (first, last) = (a.0.max(b.0), a.1.min(b.1));
                if first <= last {
                    lines.push(format!(
                        "xcoff: warning: {} and {} overlap: {first:0digits$x}-{last:0digits$x} is in both; on the card one is written over the other",
                        self.section_words(m),
                        self.section_words(n),
                    ));
                }
            }
        }
        complain(&lines);
    }

    // ---- refusals of a plan

    /// An answer about a plan for this file; `image` is what a branch was judged in, none: the file's own bytes.
    pub fn judged<T>(
        &self,
        plans: &[&ObjectPlan],
        image: Option<&[u8]>,
        answer: Result<T, Refusal>,
    ) -> Result<T, Problem> {
        answer.map_err(|refusal| {
            let name = escape::argument(self.path);
            let shown: Vec<String> = plans.iter().map(|plan| self.plan_words(plan)).collect();
            let about = match refusal.number {
                19 => format!("{name}{}", self.plan_values(plans, refusal.item)),
                _ => format!("{name} at {}", shown.join(" to ")),
            };
            let more = match refusal.number {
                25 => self.range_lines(plans, image, refusal.item),
                _ => Vec::new(),
            };
            object_problem(about, &self.bytes, refusal, more)
        })
    }

    /// What a plan has where it is refused, in parentheses: of two the first that does not fit.
    fn plan_values(&self, plans: &[&ObjectPlan], n: u64) -> String {
        let Some(section) = self.section(n) else {
            return String::new();
        };
        let top = match self.format {
            Format::Xcoff32 => 1u128 << 32,
            Format::Xcoff64 => 1u128 << 64,
        };
        let past = |plan: &&&ObjectPlan| {
            let address = u128::from(plan.addresses[n as usize - 1]);
            address >= top || address + u128::from(section.size) > top
        };
        let plan = plans.iter().find(past).or(plans.last());
        plan.map_or(String::new(), |plan| {
            format!(
                " ({} at {:x}, {} bytes)",
                self.section_words(n),
                plan.addresses[n as usize - 1],
                section.size
            )
        })
    }

    /// Where the branch is that is refused, what it holds, and by how much its entries would change it.
    fn range_lines(&self, plans: &[&ObjectPlan], image: Option<&[u8]>, number: u64) -> Vec<String> {
        self.range_line(plans, image, number).into_iter().collect()
    }

    fn range_line(
        &self,
        plans: &[&ObjectPlan],
        image: Option<&[u8]>,
        number: u64,
    ) -> Option<String> {
        let own = |row: &ObjectSection| number >= row.first && number - row.first < row.entries;
        let (n, row) = (1..).zip(&self.rows).find(|(_, row)| own(row))?;
        let entries = xcoff::object_entries_of(&self.bytes, n, row.entries).ok()?;
        let entry = entries.rows().nth((number - row.first) as usize)?;
        let symbols = Symbols::read(self).ok()?;
        let on_word = entries
            .rows()
            .filter(|e| e.width == 26 && e.place == entry.place);
        let sum: i128 = on_word
            .map(|e| self.amount(plans, n, &e, symbols.of(e.symbol).section))
            .sum();
        let word = self.word(image, n, &entry)?;
        let value = branch_value(word);
        let digits = self.digits();
        let last = plans.last()?;
        Some(format!(
            "  entry {number} is in {}: the branch at address {:0digits$x}, {:0digits$x} in the plan, to symbol {} {}: the word {word:08x} has the value {value}, and would have {}",
            self.section_words(n),
            entry.address,
            self.address(last, entry.place),
            entry.symbol,
            escape::name(symbols.of(entry.symbol).name),
            i128::from(value) + sum
        ))
    }

    /// By how much an entry changes its word: the symbol's move, of a relative branch less its own section's.
    fn amount(&self, plans: &[&ObjectPlan], n: u64, entry: &ObjectEntry, scnum: i64) -> i128 {
        let by = |n: u64| {
            let address = |plan: &ObjectPlan| i128::from(plan.addresses[n as usize - 1]);
            match plans {
                [from, to] => address(to) - address(from),
                [to] => address(to) - self.section(n).map_or(0, |s| i128::from(s.paddr)),
                _ => 0,
            }
        };
        let symbol = self.moving(scnum).map_or(0, by);
        match is_relative(entry) {
            true => symbol - by(n),
            false => symbol,
        }
    }

    /// The word of a branch, in an image or in the file.
    fn word(&self, image: Option<&[u8]>, n: u64, entry: &ObjectEntry) -> Option<u32> {
        let start = match image {
            Some(_) => entry.place,
            None => {
                let section = self.section(n)?;
                section.scnptr + entry.address.checked_sub(section.paddr)?
            }
        };
        let start = usize::try_from(start).ok()?;
        let bytes = image.unwrap_or(&self.bytes).get(start..start + 4)?;
        Some(u32::from_be_bytes(bytes.try_into().ok()?))
    }
}

/// The signed value of a branch word: without its top six and bottom two bits.
fn branch_value(word: u32) -> i32 {
    ((word << 6) as i32 >> 6) & !3
}
