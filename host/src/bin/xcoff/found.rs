//! Images as they are found: in two files, or in one with records.

use crate::escape;
use crate::files;
use crate::lists::image_word;
use crate::load::{Loaded, Pair, Sheet};
use crate::problem::Problem;
use std::path::Path;
use xcoff::{Image, Reached, Refusal};

/// Data bytes of a full line of records.
const LINE: usize = 32;

pub struct Found<'p> {
    place: Place<'p>,
    pub pair: Pair,
}

enum Place<'p> {
    Files([&'p Path; 2]),
    Records(&'p Path),
}

impl<'p> Found<'p> {
    pub fn read(text: &'p Path, data: &'p Path) -> Result<Found<'p>, Problem> {
        Ok(Found {
            place: Place::Files([text, data]),
            pair: Pair::read(text, data)?,
        })
    }

    /// Whether the files still hold what was read: another program, which knows of no lock, may have written there. What is
    /// no plain file cannot be read again.
    pub fn unchanged(&self) -> Result<(), Problem> {
        let Place::Files(paths) = self.place else {
            return Ok(());
        };
        for (path, bytes) in paths.into_iter().zip([&self.pair.text, &self.pair.data]) {
            let plain = std::fs::metadata(path).is_ok_and(|file| file.is_file());
            if plain && files::read(path, files::IMAGE)? != *bytes {
                return Err(Problem::Unequal(vec![format!(
                    "xcoff: {} was changed by another program after it was read; nothing is changed",
                    escape::argument(path)
                )]));
            }
        }
        Ok(())
    }

    /// The file that an image was found in.
    pub fn path(&self, image: Image) -> &'p Path {
        match (&self.place, image) {
            (Place::Files([text, _]), Image::Text) => text,
            (Place::Files([_, data]), Image::Data) => data,
            (Place::Records(path), _) => path,
        }
    }

    pub fn names(&self) -> String {
        match self.place {
            Place::Files([text, data]) => {
                format!("{} and {}", escape::argument(text), escape::argument(data))
            }
            Place::Records(path) => escape::argument(path),
        }
    }

    /// "FILE is" or "is not" an image.
    pub fn is_or_not(&self, image: Image, equal: bool) -> String {
        let verb = match (&self.place, equal) {
            (Place::Files(_), true) => "is",
            (Place::Files(_), false) => "is not",
            (Place::Records(_), true) => "holds",
            (Place::Records(_), false) => "does not hold",
        };
        format!("{} {verb}", escape::argument(self.path(image)))
    }

    /// Where in its file a byte of an image was found.
    pub fn at(&self, image: Image, offset: usize) -> String {
        let before = match image {
            Image::Text => 0,
            Image::Data => self.pair.text.len().div_ceil(LINE),
        };
        match self.place {
            Place::Files(_) => format!("offset {offset}"),
            Place::Records(_) => format!("line {}", before + offset / LINE + 1),
        }
    }

    /// The images moved. The library judges everything, the lengths of the images too.
    pub fn moved(
        &self,
        file: &Loaded,
        from: &Sheet,
        to: &Sheet,
    ) -> Result<(Pair, Reached), Problem> {
        let mut pair = self.pair.clone();
        let answer = xcoff::move_images(
            &file.bytes,
            &from.plan,
            &to.plan,
            &mut pair.text,
            &mut pair.data,
        );
        let about = |refusal: &Refusal| {
            // A move does not say which of its plans it is: a build for the first one does.
            let first = file.build(&from.plan).err() == Some(*refusal);
            file.with(if first { from } else { to }, refusal)
        };
        let reached = self.judged(file, answer, about)?;
        Ok((pair, reached))
    }

    /// The records of the images as they are.
    pub fn records(&self, file: &Loaded, sheet: &Sheet) -> Result<Vec<u8>, Problem> {
        let answer = self.pair.records(file, sheet);
        self.judged(file, answer, |refusal| file.with(sheet, refusal))
    }

    /// An answer that may be about a length, or else is about a plan.
    fn judged<T>(
        &self,
        file: &Loaded,
        answer: Result<T, Refusal>,
        about_plan: impl FnOnce(&Refusal) -> String,
    ) -> Result<T, Problem> {
        answer.map_err(|refusal| {
            let about = match (refusal.number, refusal.item) {
                (20, 0) => self.length(file, Image::Text),
                (20, 1) => self.length(file, Image::Data),
                _ => about_plan(&refusal),
            };
            Problem::refused(about, refusal)
        })
    }

    fn length(&self, file: &Loaded, image: Image) -> String {
        let needed = match image {
            Image::Text => file.module.text.size,
            Image::Data => file.module.image,
        };
        format!(
            "{} ({}, where the {} image of {} has {needed})",
            escape::argument(self.path(image)),
            files::length(self.pair.image(image)),
            image_word(image),
            escape::argument(file.path)
        )
    }
}

/// A file with records, as it was found.
pub struct RecordText<'p> {
    pub path: &'p Path,
    bytes: Vec<u8>,
}

impl<'p> RecordText<'p> {
    /// As many bytes as a plan can need, and so many more that a line which is one too many can be shown.
    pub fn read(path: &'p Path, file: &Loaded, sheets: &[Sheet]) -> Result<Self, Problem> {
        let lengths = sheets
            .iter()
            .filter_map(|sheet| xcoff::records_length(&file.bytes, &sheet.plan).ok());
        let bytes = match lengths.max() {
            Some(length) => files::read(path, length + escape::MOST as u64 + 1)?,
            // Every plan is refused before its records are looked at.
            None => Vec::new(),
        };
        Ok(RecordText { path, bytes })
    }

    pub fn name(&self) -> String {
        escape::argument(self.path)
    }

    /// The images for a plan.
    pub fn images(&self, file: &Loaded, sheet: &Sheet) -> Result<Found<'p>, Problem> {
        let mut pair = file.room();
        let answer = xcoff::read_records(
            &file.bytes,
            &sheet.plan,
            &self.bytes,
            &mut pair.text,
            &mut pair.data,
        );
        match answer {
            Err(refusal) if refusal.number == 22 => {
                let (own, _) = file.build_sheet(sheet)?;
                let own = file.with_sheet(sheet, own.records(file, sheet))?;
                Err(Problem::refused_and_shown(
                    format!("{} for {}", self.name(), escape::argument(sheet.path)),
                    refusal,
                    self.shown(refusal.item as usize, &own),
                ))
            }
            answer => {
                file.with_sheet(sheet, answer)?;
                let place = Place::Records(self.path);
                Ok(Found { place, pair })
            }
        }
    }

    /// A line that is refused, counted from 1, beside that of the plan's own images.
    fn shown(&self, number: usize, own: &[u8]) -> Vec<String> {
        let found = match line(&self.bytes, number) {
            None => "nothing: the file ends before this line".to_string(),
            Some(bytes) => match bytes.strip_suffix(b"\n") {
                Some(whole) => escape::name(whole),
                None if bytes.len() > escape::MOST => escape::name(bytes),
                None => format!("{} and no newline: the file ends here", escape::name(bytes)),
            },
        };
        let expected = match line(own, number) {
            None => "nothing: the line before is the last one".to_string(),
            Some(bytes) => escape::name(bytes.trim_ascii_end()),
        };
        vec![
            format!("  found     {found}"),
            format!("  expected  {expected}"),
        ]
    }
}

/// A line with its newline, counted from 1; none where the text ends before it.
fn line(text: &[u8], number: usize) -> Option<&[u8]> {
    text.split_inclusive(|&byte| byte == b'\n').nth(number - 1)
}
