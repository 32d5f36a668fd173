//! What the commands about plans and images work on: a module, plans from sheets, pairs of images.

use crate::args::Arguments;
use crate::escape;
use crate::files;
use crate::kinds;
use crate::lists;
use crate::output::refused_in;
use crate::problem::Problem;
use std::path::Path;
use xcoff::{Image, LoaderRow, Module, Plan, Reached, Refusal, Relocation};

/// A file that is accepted as a module.
pub struct Loaded<'p> {
    pub path: &'p Path,
    pub bytes: Vec<u8>,
    pub module: Module,
}

/// A plan and the sheet it was read from.
pub struct Sheet<'p> {
    pub path: &'p Path,
    pub plan: Plan,
}

/// The two images of a module.
#[derive(Clone, PartialEq, Eq)]
pub struct Pair {
    pub text: Vec<u8>,
    pub data: Vec<u8>,
}

impl<'p> Loaded<'p> {
    pub fn read(path: &'p Path) -> Result<Loaded<'p>, Problem> {
        let bytes = files::read(path, files::FILE)?;
        let module = refused_in(path, &bytes, xcoff::module(&bytes))?;
        Ok(Loaded {
            path,
            bytes,
            module,
        })
    }

    pub fn digits(&self) -> usize {
        lists::digits(self.module.format)
    }

    /// The file is judged once more; so it is for each call below.
    pub fn symbols(&self) -> Result<Vec<LoaderRow<'_>>, Problem> {
        let symbols = self.module.loader_symbol_table(&self.bytes);
        refused_in(self.path, &self.bytes, symbols)
    }

    pub fn entries(&self) -> Result<Vec<Relocation>, Problem> {
        let entries = self.module.relocation_table(&self.bytes);
        refused_in(self.path, &self.bytes, entries)
    }

    /// Room for both images.
    pub fn room(&self) -> Pair {
        Pair {
            text: vec![0; self.module.text.size as usize],
            data: vec![0; self.module.image as usize],
        }
    }

    /// The images for a plan, and the addresses reached.
    pub fn build(&self, plan: &Plan) -> Result<(Pair, Reached), Refusal> {
        let mut pair = self.room();
        let reached = xcoff::build_images(&self.bytes, plan, &mut pair.text, &mut pair.data)?;
        Ok((pair, reached))
    }

    /// The same for a sheet's plan: a refusal is about the two together, since the module itself is accepted.
    pub fn build_sheet(&self, sheet: &Sheet) -> Result<(Pair, Reached), Problem> {
        self.with_sheet(sheet, self.build(&sheet.plan))
    }

    /// An answer about a sheet for this module.
    pub fn with_sheet<T>(&self, sheet: &Sheet, answer: Result<T, Refusal>) -> Result<T, Problem> {
        answer.map_err(|refusal| Problem::refused(self.with(sheet, &refusal), refusal))
    }

    /// "SHEET for FILE", with the values that are refused.
    pub fn with(&self, sheet: &Sheet, refusal: &Refusal) -> String {
        let both = format!(
            "{} for {}",
            escape::argument(sheet.path),
            escape::argument(self.path)
        );
        format!("{both}{}", self.plan_values(&sheet.plan, refusal))
    }

    /// What a plan has where it is refused, in parentheses.
    pub fn plan_values(&self, plan: &Plan, refusal: &Refusal) -> String {
        let m = &self.module;
        match (refusal.number, refusal.item) {
            (19, 0) => format!(" (text at {:x}, {} bytes)", plan.text, m.text.size),
            (19, 1) => format!(" (data at {:x}, {} bytes)", plan.data, m.image),
            (19, i) => match plan.list.get((i as usize).wrapping_sub(3)) {
                Some(address) => format!(" (loader symbol {i} at {address:x})"),
                None => String::new(),
            },
            (20, 2) => format!(
                " (addresses: {}, loader symbols: {})",
                plan.list.len(),
                m.symbols
            ),
            (24, _) => format!(" ({})", self.ranges(plan)),
            _ => String::new(),
        }
    }
}

impl<'p> Sheet<'p> {
    pub fn read(path: &'p Path) -> Result<Sheet<'p>, Problem> {
        let bytes = files::read(path, files::SHEET)?;
        let plan = xcoff::read_sheet(&bytes).map_err(|refusal| {
            Problem::refused_and_shown(escape::argument(path), refusal, kinds::sheet_lines(&bytes))
        })?;
        Ok(Sheet { path, plan })
    }

    /// Where an image lies in the card's memory.
    pub fn address(&self, image: Image) -> u64 {
        match image {
            Image::Text => self.plan.text,
            Image::Data => self.plan.data,
        }
    }
}

impl Pair {
    pub fn read(text: &Path, data: &Path) -> Result<Pair, Problem> {
        Ok(Pair {
            text: files::read(text, files::IMAGE)?,
            data: files::read(data, files::IMAGE)?,
        })
    }

    /// The images as S-records, as they are.
    pub fn records(&self, file: &Loaded, sheet: &Sheet) -> Result<Vec<u8>, Refusal> {
        xcoff::write_records(&file.bytes, &sheet.plan, &self.text, &self.data)
    }

    pub fn image(&self, image: Image) -> &[u8] {
        match image {
            Image::Text => &self.text,
            Image::Data => &self.data,
        }
    }
}

/// No output may be another file of the same command: one of the two would be lost.
pub fn apart(
    args: &Arguments,
    outputs: &[(&str, &Path)],
    inputs: &[(&str, &Path)],
) -> Result<(), Problem> {
    for (n, (name, path)) in outputs.iter().enumerate() {
        for (other, place) in inputs.iter().chain(&outputs[..n]) {
            if files::same(path, place) {
                let text = format!(
                    "{other} and {name} are the same file, {}",
                    escape::argument(path)
                );
                return Err(Problem::usage(args.command, text));
            }
        }
    }
    Ok(())
}
