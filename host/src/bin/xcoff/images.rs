//! The commands that build and move images.

use crate::args::Arguments;
use crate::compare::{Beside, IMAGES};
use crate::escape;
use crate::files;
use crate::found::Found;
use crate::kinds::{may_replace, Written};
use crate::listing::{hex, number, word, Cell, Listing};
use crate::lists::image_word;
use crate::load::{apart, Loaded, Pair, Sheet};
use crate::lock;
use crate::output::{print_done, reached_words};
use crate::problem::Problem;
use crate::warnings;
use std::io::{self, Write};
use std::path::Path;
use xcoff::{Image, Reached};

pub fn build(args: &Arguments) -> Result<(), Problem> {
    let out = args.paths("-o").expect("the syntax asks for it");
    let inputs = [("FILE", args.path(0)), ("SHEET", args.path(1))];
    apart(args, &[("TEXT", out[0]), ("DATA", out[1])], &inputs)?;
    let _lock = lock::to_write(args, &out)?;
    let file = Loaded::read(args.path(0))?;
    let sheet = Sheet::read(args.path(1))?;
    let (pair, reached) = file.build_sheet(&sheet)?;
    let made = Made {
        done: "built",
        file: &file,
        sheet: &sheet,
        out: [out[0], out[1]],
        pair: &pair,
        reached: &reached,
    };
    made.write(args, || Ok(()))?;
    warnings::of_sheet(&file, &sheet)?;
    warnings::of_addresses(&file, &sheet.plan);
    made.say(args)
}

/// Images that take the place of two files.
pub struct Made<'a> {
    /// What the command did, in a word.
    pub done: &'static str,
    pub file: &'a Loaded<'a>,
    /// The plan that the images are for.
    pub sheet: &'a Sheet<'a>,
    pub out: [&'a Path; 2],
    pub pair: &'a Pair,
    pub reached: &'a Reached,
}

impl Made<'_> {
    pub fn write(
        &self,
        args: &Arguments,
        last_look: impl FnOnce() -> Result<(), Problem>,
    ) -> Result<(), Problem> {
        for path in self.out {
            may_replace(args, path, Written::Image)?;
        }
        let files: [(&Path, &[u8]); 2] = [
            (self.out[0], &self.pair.text),
            (self.out[1], &self.pair.data),
        ];
        files::replace_if(&files, last_look)
    }

    pub fn say(&self, args: &Arguments) -> Result<(), Problem> {
        let line = format!(
            "{} {} ({} bytes) and {} ({} bytes): {}, {}",
            self.done,
            escape::argument(self.out[0]),
            self.pair.text.len(),
            escape::argument(self.out[1]),
            self.pair.data.len(),
            self.file.ranges(&self.sheet.plan),
            reached_words(self.reached, self.file.digits())
        );
        print_done(&line, |out| match args.has("--json") {
            true => self.rows(out),
            false => writeln!(out, "{line}"),
        })
    }

    fn rows(&self, out: &mut dyn Write) -> io::Result<()> {
        let digits = self.file.digits();
        let mut list = Listing::new(out, true);
        image_columns(&mut list, digits)?;
        for (image, path) in IMAGES.into_iter().zip(self.out) {
            image_row(&mut list, self.file, self.sheet, image, Some(path))?;
        }
        let columns = vec![hex("entry_address", digits), hex("toc_address", digits)];
        list.table("reached", columns)?;
        let cell = |address: Option<u64>| address.map_or(Cell::Nothing, Cell::Hex);
        list.row(&[cell(self.reached.entry), cell(self.reached.toc)])
    }
}

pub fn image_columns(list: &mut Listing, digits: usize) -> io::Result<()> {
    let columns = vec![
        word("sheet", 0),
        word("image", 4),
        word("path", 0),
        number("size", 0),
        hex("address", digits),
        hex("last", digits),
    ];
    list.table("images", columns)
}

/// An image and where it is to be written on the card.
pub fn image_row(
    list: &mut Listing,
    file: &Loaded,
    sheet: &Sheet,
    image: Image,
    path: Option<&Path>,
) -> io::Result<()> {
    let range = file.first_and_last(&sheet.plan, image);
    let size = range.map_or(0, |(first, last)| last - first + 1);
    list.row(&[
        Cell::Path(sheet.path),
        Cell::Word(image_word(image)),
        path.map_or(Cell::Nothing, Cell::Path),
        Cell::Number(size),
        Cell::Hex(sheet.address(image)),
        range.map_or(Cell::Nothing, |(_, last)| Cell::Hex(last)),
    ])
}

pub fn move_images(args: &Arguments) -> Result<(), Problem> {
    let (text, data) = (args.path(3), args.path(4));
    let plans = [
        ("FILE", args.path(0)),
        ("FROM", args.path(1)),
        ("TO", args.path(2)),
    ];
    apart(args, &[("TEXT", text), ("DATA", data)], &plans)?;
    let out = match args.paths("-o") {
        None => [text, data],
        Some(out) => {
            let given = [plans[0], plans[1], plans[2], ("TEXT", text), ("DATA", data)];
            apart(args, &[("TEXT2", out[0]), ("DATA2", out[1])], &given)?;
            [out[0], out[1]]
        }
    };
    let _lock = lock::to_write(args, &[text, data, out[0], out[1]])?;
    let file = Loaded::read(args.path(0))?;
    let from = Sheet::read(args.path(1))?;
    let to = Sheet::read(args.path(2))?;
    let found = Found::read(text, data)?;
    let (mut moved, reached) = found.moved(&file, &from, &to)?;
    if !args.has("--unchecked") {
        check_before(args, &file, [&from, &to], &found, &mut moved)?;
    }
    let made = Made {
        done: "moved",
        file: &file,
        sheet: &to,
        out,
        pair: &moved,
        reached: &reached,
    };
    made.write(args, || found.unchanged())?;
    warnings::of_sheets(&file, [&from, &to])?;
    made.say(args)
}

/// Images may only be moved from the plan they are for: the library moves whatever it finds, and images that are moved
/// twice are wrong without a sign of it. Where they are not, `moved` is of no use and lends its room.
fn check_before(
    args: &Arguments,
    file: &Loaded,
    [from, to]: [&Sheet; 2],
    found: &Found,
    moved: &mut Pair,
) -> Result<(), Problem> {
    let beside = Beside::new(file, from, found)?;
    if beside.fields_equal() {
        return beside.all_equal_or_kept(args.has("--keep-changes"));
    }
    let built = xcoff::build_images(&file.bytes, &to.plan, &mut moved.text, &mut moved.data);
    file.with_sheet(to, built)?;
    let reached = &*moved;
    let [old, new] = [from, to].map(|sheet| escape::argument(sheet.path));
    if beside.fields.equal(&found.pair, reached) {
        let fields = match found.pair == *reached {
            true => "these images are for",
            false => "the relocated fields of these images are those of",
        };
        return Err(Problem::Unequal(vec![format!(
            "xcoff: {}: {fields} {new}, which was given as TO: they are already moved, or FROM and TO are exchanged; nothing is changed",
            found.names()
        )]));
    }
    let more = interrupted(&beside, to, reached).unwrap_or_else(|| {
        format!("xcoff: they are for neither {old} nor {new}; xcoff check --or finds the sheet that images are for")
    });
    Err(beside.not_its_fields([more]))
}

/// Whether one image is for the one plan and the other image for the other plan: a move that did not end.
fn interrupted(beside: &Beside, to: &Sheet, reached: &Pair) -> Option<String> {
    let found = beside.found;
    let sheets = [beside.sheet, to];
    let is_for = |image: Image, plan: &Pair| beside.fields.within(image).equal(&found.pair, plan);
    let [text, data] = IMAGES.map(|i| [is_for(i, &beside.expected), is_for(i, reached)]);
    let (text_plan, data_plan) = match (text, data) {
        ([false, true], [true, false]) => (1, 0),
        ([true, false], [false, true]) => (0, 1),
        _ => return None,
    };
    Some(format!(
        "xcoff: {} is for {}, {} for {}: a move was interrupted; xcoff build makes both again",
        escape::argument(found.path(Image::Text)),
        escape::argument(sheets[text_plan].path),
        escape::argument(found.path(Image::Data)),
        escape::argument(sheets[data_plan].path)
    ))
}
