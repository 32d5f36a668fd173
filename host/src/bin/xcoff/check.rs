//! The command `check`.

use crate::args::Arguments;
use crate::compare::{Beside, IMAGES};
use crate::escape;
use crate::explain;
use crate::found::{Found, RecordText};
use crate::images::{image_columns, image_row};
use crate::listing::Listing;
use crate::load::{Loaded, Sheet};
use crate::lock;
use crate::output::{print, say};
use crate::problem::Problem;
use crate::warnings;
use std::io::{self, Write};
use std::path::Path;
use xcoff::Image;

/// What is compared with plans.
enum Given<'p> {
    Images(Found<'p>),
    Records(RecordText<'p>),
}

impl<'p> Given<'p> {
    fn read(args: &'p Arguments, file: &Loaded, sheets: &[Sheet]) -> Result<Given<'p>, Problem> {
        match args.paths("--records") {
            Some(path) => RecordText::read(path[0], file, sheets).map(Given::Records),
            None => {
                let paths = [args.path(2), args.path(3)];
                let _lock = lock::to_read(args, &paths)?;
                Found::read(paths[0], paths[1]).map(Given::Images)
            }
        }
    }

    fn differences(&self, file: &Loaded, sheet: &Sheet) -> Result<Vec<String>, Problem> {
        match self {
            Given::Images(found) => differences(file, sheet, found),
            Given::Records(records) => differences(file, sheet, &records.images(file, sheet)?),
        }
    }

    fn path(&self, image: Image) -> &'p Path {
        match self {
            Given::Images(found) => found.path(image),
            Given::Records(records) => records.path,
        }
    }

    /// "FILES are" the images.
    fn are(&self) -> String {
        match self {
            Given::Images(found) => format!("{} are", found.names()),
            Given::Records(records) => format!("{} holds", records.name()),
        }
    }
}

pub fn check(args: &Arguments) -> Result<(), Problem> {
    let operands = ["FILE", "SHEET", "TEXT", "DATA"];
    let needed = if args.has("--records") { 2 } else { 4 };
    args.operands_are(&operands[..needed], 0)?;
    let file = Loaded::read(args.path(0))?;
    let others = args.each("--or").map(|value| Path::new(&value[0]));
    let sheets = [args.path(1)]
        .into_iter()
        .chain(others)
        .map(Sheet::read)
        .collect::<Result<Vec<_>, _>>()?;
    let given = Given::read(args, &file, &sheets)?;
    warnings::of_sheets(&file, &sheets)?;
    let mut equal = Vec::new();
    let mut lines = Vec::new();
    for sheet in &sheets {
        match given.differences(&file, sheet) {
            Ok(none) if none.is_empty() => equal.push(sheet),
            Ok(differences) => lines.extend(differences),
            Err(problem) if sheets.len() == 1 => return Err(problem),
            // Of several sheets, one that does not fit is one that the images are not for.
            Err(problem) => lines.push(problem.to_string().trim_end().to_string()),
        }
    }
    if equal.is_empty() {
        return Err(Problem::Unequal(lines));
    }
    if args.has("--json") {
        return print(|out| rows(out, &file, &equal, &given));
    }
    let is_for = |sheet: &&Sheet| {
        let name = escape::argument(sheet.path);
        format!("{name} ({})", file.ranges(&sheet.plan))
    };
    say(&format!(
        "{} the images of {} for {}",
        given.are(),
        escape::argument(file.path),
        equal.iter().map(is_for).collect::<Vec<_>>().join(" and ")
    ))
}

/// The images for each sheet that they are for.
fn rows(out: &mut dyn Write, file: &Loaded, equal: &[&Sheet], given: &Given) -> io::Result<()> {
    let mut list = Listing::new(out, true);
    image_columns(&mut list, file.digits())?;
    for sheet in equal {
        for image in IMAGES {
            image_row(&mut list, file, sheet, image, Some(given.path(image)))?;
        }
    }
    Ok(())
}

/// How the images differ from a plan's, a line for each thing to say; none where they do not.
fn differences(file: &Loaded, sheet: &Sheet, found: &Found) -> Result<Vec<String>, Problem> {
    // A move to the same plan changes nothing and judges everything.
    found.moved(file, sheet, sheet)?;
    let beside = Beside::new(file, sheet, found)?;
    let mut lines = beside.differences();
    lines.extend(explain::lines(&beside)?);
    Ok(lines)
}
