//! The command `rewrite`.

use crate::args::Arguments;
use crate::escape;
use crate::files;
use crate::imports::takes_address;
use crate::kinds::{may_replace, Written};
use crate::load::{apart, Loaded, Sheet};
use crate::lock;
use crate::output::{reached_words, refused_in, say_done};
use crate::problem::Problem;
use crate::shown;
use crate::warnings;
use std::path::Path;
use xcoff::{LoaderRow, Module, Refusal};

pub fn rewrite(args: &Arguments) -> Result<(), Problem> {
    let out = args.paths("-o").expect("the syntax asks for it")[0];
    let inputs = [("FILE", args.path(0)), ("SHEET", args.path(1))];
    apart(args, &[("FILE2", out)], &inputs)?;
    let _lock = lock::to_write(args, &[out])?;
    let file = Loaded::read(args.path(0))?;
    let sheet = Sheet::read(args.path(1))?;
    let written = judged(&file, &sheet, xcoff::write_module(&file.bytes, &sheet.plan))?;

    let moved = Moved::new(&file, &sheet)?;
    may_replace(args, out, Written::Module)?;
    files::replace_read_back(out, &written, |bytes| moved.is(out, bytes))?;
    warnings::of_sheet(&file, &sheet)?;
    warnings::of_addresses(&file, &sheet.plan);
    say_done(&moved.done_line(out, written.len()))
}

/// SHARED is about the file alone, and shown with what shares bytes; every other refusal is about the sheet for it.
fn judged<T>(file: &Loaded, sheet: &Sheet, answer: Result<T, Refusal>) -> Result<T, Problem> {
    match answer {
        Err(refusal) if refusal.number == 29 => Err(Problem::refused_and_shown(
            escape::argument(file.path),
            refusal,
            shown::shared(&xcoff::shared_in_module(&file.bytes)),
        )),
        answer => file.with_sheet(sheet, answer),
    }
}

/// What is known of the moved module without having written it.
struct Moved<'a> {
    file: &'a Loaded<'a>,
    sheet: &'a Sheet<'a>,
    symbols: Vec<LoaderRow<'a>>,
    /// Its addresses are the sheet's; the rest is the file's.
    module: Module,
}

impl<'a> Moved<'a> {
    fn new(file: &'a Loaded, sheet: &'a Sheet) -> Result<Moved<'a>, Problem> {
        let symbols = file.symbols()?;
        let (_, reached) = file.build_sheet(sheet)?;
        let mut module = file.module;
        let by_data = sheet.plan.data.wrapping_sub(module.data.address);
        let bss = module.bss.address.wrapping_add(by_data);
        module.text.address = sheet.plan.text;
        module.data.address = sheet.plan.data;
        module.bss.address = bss & address_mask(file.digits());
        for (anchor, address) in [
            (&mut module.entry, reached.entry),
            (&mut module.toc, reached.toc),
        ] {
            if let (Some(anchor), Some(address)) = (anchor, address) {
                anchor.address = address;
            }
        }
        Ok(Moved {
            file,
            sheet,
            symbols,
            module,
        })
    }

    /// What was written, read again: its addresses are the sheet's, its images those of the first file, and written for the
    /// first file's addresses it is the first file.
    fn is(&self, path: &Path, bytes: &[u8]) -> Result<(), Problem> {
        let again = Loaded {
            path,
            bytes: bytes.to_vec(),
            module: refused_in(path, bytes, xcoff::module(bytes))?,
        };
        if again.module != self.module {
            return Err(self.differs(path, "its addresses are not the sheet's"));
        }
        if !self.has_imports(&again)? {
            return Err(self.differs(path, "its imports are not the sheet's"));
        }
        if again.build_sheet(self.sheet)? != self.file.build_sheet(self.sheet)? {
            return Err(self.differs(path, "its images are others"));
        }
        let recorded = xcoff::recorded_plan(&self.file.bytes);
        let recorded = refused_in(self.file.path, &self.file.bytes, recorded)?;
        let back = refused_in(path, bytes, xcoff::write_module(bytes, &recorded))?;
        match back == self.file.bytes {
            true => Ok(()),
            false => Err(self.differs(path, "moved back it is another file")),
        }
    }

    /// Whether each import that takes an address of the sheet has it.
    fn has_imports(&self, again: &Loaded) -> Result<bool, Problem> {
        let symbols = again.symbols()?;
        let mut rows = symbols.iter().zip(&self.sheet.plan.list);
        Ok(rows.all(|(row, &address)| !takes_address(row) || row.symbol.value == address))
    }

    fn differs(&self, path: &Path, how: &str) -> Problem {
        Problem::Unequal(vec![format!(
            "xcoff: {}: read again it is not {} moved to {}: {how}; nothing is replaced",
            escape::argument(path),
            escape::argument(self.file.path),
            escape::argument(self.sheet.path)
        )])
    }

    fn done_line(&self, out: &Path, length: usize) -> String {
        let reached = xcoff::Reached {
            entry: self.module.entry.map(|anchor| anchor.address),
            toc: self.module.toc.map(|anchor| anchor.address),
        };
        format!(
            "wrote {} ({length} bytes): {}, {} of {} imports moved; {}",
            escape::argument(out),
            self.file.ranges(&self.sheet.plan),
            self.moved_imports(),
            self.symbols.iter().filter(|row| takes_address(row)).count(),
            reached_words(&reached, self.file.digits())
        )
    }

    /// Imports whose address in the sheet is not the recorded one.
    fn moved_imports(&self) -> usize {
        let rows = self.symbols.iter().zip(&self.sheet.plan.list);
        rows.filter(|(row, &address)| takes_address(row) && row.symbol.value != address)
            .count()
    }
}

/// The bits of an address of so many hexadecimal digits.
fn address_mask(digits: usize) -> u64 {
    u64::MAX >> (64 - 4 * digits as u32)
}
