//! What the rules accept and a bench should know all the same: images that overlap on the card, addresses that are not
//! aligned as the module's own, a sheet that was made for another module. Each is a warning; the status stays.

use crate::escape;
use crate::imports::takes_address;
use crate::load::{Loaded, Sheet};
use crate::output::complain;
use crate::problem::Problem;
use xcoff::{Format, Image, LoaderRow, Plan};

/// Warns of images that overlap, and of addresses that are not aligned as the module's own.
pub fn of_addresses(file: &Loaded, plan: &Plan) {
    complain(
        &overlap(file, plan)
            .into_iter()
            .chain(alignments(file, plan))
            .collect::<Vec<_>>(),
    );
}

fn overlap(file: &Loaded, plan: &Plan) -> Option<String> {
    // First and last: the end of an image may be that of the address space.
    let text = file.first_and_last(plan, Image::Text)?;
    let data = file.first_and_last(plan, Image::Data)?;
    let shared = text.1.min(data.1).checked_sub(text.0.max(data.0))? + 1;
    let records = match file.module.format {
        Format::Xcoff32 => ", and S-records of them are refused (24 CLASH)",
        Format::Xcoff64 => "",
    };
    Some(format!(
        "xcoff: warning: the images overlap: {}, {shared} {} in both; on the card one is written over the other{records}",
        file.ranges(plan),
        if shared == 1 { "address" } else { "addresses" },
    ))
}

/// By the auxiliary header: log 2 of the alignment of text and of data.
fn alignments(file: &Loaded, plan: &Plan) -> Vec<String> {
    let Some(fields) = xcoff::header_fields(&file.bytes) else {
        return Vec::new();
    };
    let one = |(name, field, address, own): (&str, &str, u64, u64)| {
        let bits = fields.value(field).filter(|&bits| bits < 32)?;
        let off = address.wrapping_sub(own) & ((1 << bits) - 1);
        let digits = file.digits();
        (off != 0).then(|| {
            format!(
                "xcoff: warning: the {name} address {address:0digits$x} is not aligned as the module's own, {own:0digits$x}: {field} asks for {} bytes, and it is {off} beyond",
                1u64 << bits
            )
        })
    };
    let m = &file.module;
    [
        ("text", "o_algntext", plan.text, m.text.address),
        ("data", "o_algndata", plan.data, m.data.address),
    ]
    .into_iter()
    .filter_map(one)
    .collect()
}

/// Warns of a sheet that was probably made for another module. `plan` writes the recorded values into the places that the
/// rules ignore; where these are neither that nor all 0, it was another's, unless `rewrite` moved the module in between.
pub fn of_sheet(file: &Loaded, sheet: &Sheet) -> Result<(), Problem> {
    of_sheets(file, [sheet])
}

/// The same of each.
pub fn of_sheets<'s>(
    file: &Loaded,
    sheets: impl IntoIterator<Item = &'s Sheet<'s>>,
) -> Result<(), Problem> {
    let symbols = file.symbols()?;
    for sheet in sheets {
        of_listed(file, &symbols, sheet);
    }
    Ok(())
}

fn of_listed(file: &Loaded, symbols: &[LoaderRow], sheet: &Sheet) {
    if symbols.len() != sheet.plan.list.len() {
        // It does not fit at all, and is refused where it is used.
        return;
    }
    let ignored = || {
        let rows = symbols.iter().zip(&sheet.plan.list);
        rows.filter(|(row, _)| !takes_address(row))
    };
    let other = ignored().find(|(row, &address)| address != row.symbol.value);
    let another = ignored().any(|(_, &address)| address != 0) && !is_moved(file, ignored());
    let Some((row, address)) = other.filter(|_| another) else {
        return;
    };
    let digits = file.digits();
    complain(&[format!(
        "xcoff: warning: {} was probably made for another module than {}: the place of @{} {}, which is ignored, has {address:0digits$x}, where the module has {:0digits$x}",
        escape::argument(sheet.path),
        escape::argument(file.path),
        row.index,
        escape::name(row.name),
        row.symbol.value,
    )]);
}

/// How many of the places that differ are looked at.
const LOOKED_AT: usize = 16;

/// Whether a sheet was made for this module before `rewrite` moved it: the symbol table, which stays, has the first values.
fn is_moved<'r>(file: &Loaded, rows: impl Iterator<Item = (&'r LoaderRow<'r>, &'r u64)>) -> bool {
    let Ok(table) = xcoff::symbol_table(&file.bytes) else {
        return false;
    };
    let differing = rows.filter(|(row, &address)| row.symbol.value != address);
    differing.take(LOOKED_AT).all(|(row, &address)| {
        let mut symbols = table.rows();
        symbols.any(|s| s.symbol.value == address && s.name() == row.name)
    })
}

impl Loaded<'_> {
    /// Where the images are to be written on the card: "text FIRST-LAST, data FIRST-LAST".
    pub fn ranges(&self, plan: &Plan) -> String {
        let text = self.range(plan, Image::Text);
        let data = self.range(plan, Image::Data);
        format!("text {text}, data {data}")
    }

    /// FIRST-LAST, or that the image is empty.
    pub fn range(&self, plan: &Plan, image: Image) -> String {
        let digits = self.digits();
        match self.first_and_last(plan, image) {
            Some((first, last)) => format!("{first:0digits$x}-{last:0digits$x}"),
            None => "none".to_string(),
        }
    }

    /// None of an empty image.
    pub fn first_and_last(&self, plan: &Plan, image: Image) -> Option<(u64, u64)> {
        let (first, size) = match image {
            Image::Text => (plan.text, self.module.text.size),
            Image::Data => (plan.data, self.module.image),
        };
        (size > 0).then(|| (first, first + (size - 1)))
    }
}
