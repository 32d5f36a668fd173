//! The option --follows: the fields that one address of a plan alone can change.

use crate::args::Arguments;
use crate::escape;
use crate::imports::Choice;
use crate::problem::Problem;
use std::collections::BTreeSet;
use std::ffi::OsStr;
use std::os::unix::ffi::OsStrExt;
use xcoff::{Image, LoaderRow, Module, PlanAddress, Relocation};

/// Fields by their image and the offset in it; none: every field.
pub struct Selected(Option<BTreeSet<(Image, u64)>>);

impl Selected {
    /// Those with at least one entry that names what follows the address given.
    pub fn read(
        args: &Arguments,
        module: &Module,
        symbols: &[LoaderRow],
        entries: &[Relocation],
    ) -> Result<Selected, Problem> {
        let Some(value) = args.each("--follows").next() else {
            return Ok(Selected(None));
        };
        let address = address(args, &value[0], symbols)?;
        let followed = module.followed(symbols);
        let named = |e: &&Relocation| followed[e.symbol as usize] == Some(address);
        let fields = entries.iter().filter(named).map(field);
        Ok(Selected(Some(fields.collect())))
    }

    pub fn has(&self, entry: &Relocation) -> bool {
        match &self.0 {
            None => true,
            Some(fields) => fields.contains(&field(entry)),
        }
    }
}

/// Two fields of one image are the same bytes or share none.
pub fn field(entry: &Relocation) -> (Image, u64) {
    (entry.image, entry.offset)
}

/// `text`, `data`, or an import: its name as listings show it, or @INDEX.
fn address(args: &Arguments, value: &OsStr, symbols: &[LoaderRow]) -> Result<PlanAddress, Problem> {
    match value.as_bytes() {
        b"text" => Ok(PlanAddress::Text),
        b"data" => Ok(PlanAddress::Data),
        import => Choice::parse(import)
            .map_err(str::to_string)
            .and_then(|choice| choice.index(symbols, |index| format!("--follows @{index}")))
            .map(PlanAddress::Import)
            .map_err(|why| {
                let text = format!("--follows {}: {why}", escape::argument(value));
                Problem::usage(args.command, text)
            }),
    }
}
