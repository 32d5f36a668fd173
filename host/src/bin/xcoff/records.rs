//! The commands about S-records: `records` writes them, `images` reads them.

use crate::args::Arguments;
use crate::compare::Beside;
use crate::escape;
use crate::files;
use crate::found::{Found, RecordText};
use crate::images::Made;
use crate::kinds::{may_replace, Written};
use crate::load::{apart, Loaded, Sheet};
use crate::lock;
use crate::output::{entry_words, say_done};
use crate::problem::Problem;
use crate::warnings;
use std::slice;

pub fn records(args: &Arguments) -> Result<(), Problem> {
    let out = args.paths("-o").expect("the syntax asks for it")[0];
    let images = args.paths("--images");
    for option in ["--unchecked", "--keep-changes"] {
        if args.has(option) && images.is_none() {
            return Err(args.wrong(format!("{option} goes with --images TEXT DATA")));
        }
    }
    let mut inputs = vec![("FILE", args.path(0)), ("SHEET", args.path(1))];
    if let Some(images) = &images {
        inputs.extend([("TEXT", images[0]), ("DATA", images[1])]);
    }
    apart(args, &[("RECORDS", out)], &inputs)?;

    let mut locked = vec![out];
    locked.extend(images.iter().flatten());
    let _lock = lock::to_write(args, &locked)?;
    let file = Loaded::read(args.path(0))?;
    let sheet = Sheet::read(args.path(1))?;
    let (built, reached) = file.build_sheet(&sheet)?;
    let found = images.map(|images| Found::read(images[0], images[1]));
    let found = found.transpose()?;
    let text = match &found {
        None => file.with_sheet(&sheet, built.records(&file, &sheet))?,
        Some(found) => {
            let text = found.records(&file, &sheet)?;
            check_images(args, &file, &sheet, found)?;
            text
        }
    };
    may_replace(args, out, Written::Records)?;
    files::replace_if(&[(out, &text)], || {
        found.as_ref().map_or(Ok(()), Found::unchanged)
    })?;
    warnings::of_sheet(&file, &sheet)?;
    say_done(&format!(
        "wrote {} ({} bytes, {} lines): {}, {}",
        escape::argument(out),
        text.len(),
        text.iter().filter(|&&byte| byte == b'\n').count(),
        file.ranges(&sheet.plan),
        entry_words(&reached, file.digits())
    ))
}

pub fn images(args: &Arguments) -> Result<(), Problem> {
    let out = args.paths("-o").expect("the syntax asks for it");
    let inputs = [
        ("FILE", args.path(0)),
        ("SHEET", args.path(1)),
        ("RECORDS", args.path(2)),
    ];
    apart(args, &[("TEXT", out[0]), ("DATA", out[1])], &inputs)?;
    let _lock = lock::to_write(args, &out)?;
    let file = Loaded::read(args.path(0))?;
    let sheet = Sheet::read(args.path(1))?;
    let records = RecordText::read(args.path(2), &file, slice::from_ref(&sheet))?;
    let found = records.images(&file, &sheet)?;
    check_images(args, &file, &sheet, &found)?;
    let (_, reached) = file.build_sheet(&sheet)?;
    let made = Made {
        done: "wrote",
        file: &file,
        sheet: &sheet,
        out: [out[0], out[1]],
        pair: &found.pair,
        reached: &reached,
    };
    made.write(args, || Ok(()))?;
    warnings::of_sheet(&file, &sheet)?;
    made.say(args)
}

/// Images for another plan are no images for this one: on the card they fail without a sign of it.
fn check_images(
    args: &Arguments,
    file: &Loaded,
    sheet: &Sheet,
    found: &Found,
) -> Result<(), Problem> {
    if args.has("--unchecked") {
        return Ok(());
    }
    let beside = Beside::new(file, sheet, found)?;
    match beside.fields_equal() {
        true => beside.all_equal_or_kept(args.has("--keep-changes")),
        false => Err(beside.not_its_fields(None)),
    }
}
