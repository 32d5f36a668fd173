//! The command `dump`: images in hexadecimal, with the card's addresses.

use crate::args::Arguments;
use crate::compare::IMAGES;
use crate::found::Found;
use crate::lists::image_word;
use crate::load::{Loaded, Pair, Sheet};
use crate::lock;
use crate::output::print;
use crate::problem::Problem;
use crate::warnings;
use std::io::{self, Write};

/// Bytes in a line.
const LINE: usize = 16;

pub fn dump(args: &Arguments) -> Result<(), Problem> {
    let needed = args.operands().len().max(2);
    args.operands_are(
        &["FILE", "SHEET", "TEXT", "DATA"][..if needed == 2 { 2 } else { 4 }],
        0,
    )?;
    let file = Loaded::read(args.path(0))?;
    let sheet = Sheet::read(args.path(1))?;
    let pair = images(args, &file, &sheet)?;
    warnings::of_sheet(&file, &sheet)?;
    print(|out| {
        for (n, image) in IMAGES.into_iter().enumerate() {
            if n > 0 {
                writeln!(out)?;
            }
            writeln!(
                out,
                "{} {}",
                image_word(image),
                file.range(&sheet.plan, image)
            )?;
            lines(out, sheet.address(image), file.digits(), pair.image(image))?;
        }
        Ok(())
    })
}

/// Those of the sheet, or those in two files, whose lengths the library judges.
fn images(args: &Arguments, file: &Loaded, sheet: &Sheet) -> Result<Pair, Problem> {
    let (Some(text), Some(data)) = (args.optional_path(2), args.optional_path(3)) else {
        return Ok(file.build_sheet(sheet)?.0);
    };
    let _lock = lock::to_read(args, &[text, data])?;
    let found = Found::read(text, data)?;
    // A move to the same plan changes nothing and judges everything.
    found.moved(file, sheet, sheet)?;
    Ok(found.pair)
}

/// Each line has its address, its bytes, and what of them can be read. A line like the one before it is left out, and a * stands
/// for all of these.
fn lines(out: &mut dyn Write, address: u64, digits: usize, image: &[u8]) -> io::Result<()> {
    let mut before: Option<&[u8]> = None;
    let mut left_out = false;
    let last = image.len().div_ceil(LINE).saturating_sub(1);
    for (n, bytes) in image.chunks(LINE).enumerate() {
        let same = before == Some(bytes) && n < last;
        if same && !left_out {
            writeln!(out, "*")?;
        }
        if !same {
            let at = address + (LINE * n) as u64;
            writeln!(out, "{at:0digits$x}  {}", line(bytes))?;
        }
        left_out = same;
        before = Some(bytes);
    }
    Ok(())
}

fn line(bytes: &[u8]) -> String {
    let hex: Vec<String> = bytes.iter().map(|byte| format!("{byte:02x}")).collect();
    let text: String = bytes
        .iter()
        .map(|&byte| match byte {
            b' '..=b'~' => byte as char,
            _ => '.',
        })
        .collect();
    format!("{:<47}  |{text}|", hex.join(" "))
}
