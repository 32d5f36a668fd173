//! The commands `place` and `place-move`: the image of an object file for addresses of its sections.

use crate::args::Arguments;
use crate::escape;
use crate::files;
use crate::kinds::{may_replace, Written};
use crate::listing::{hex, number, word, Cell, Listing};
use crate::load::apart;
use crate::lock;
use crate::output::{object_problem, print_done};
use crate::placed::ObjectFile;
use crate::placed_compare::{kept_or_equal, PlacedBeside};
use crate::problem::Problem;
use crate::words::kind_word;
use std::io::{self, Write};
use std::path::Path;
use xcoff::{ObjectPlan, Refusal};

pub fn place(args: &Arguments) -> Result<(), Problem> {
    let out = args.paths("-o").expect("the syntax asks for it")[0];
    apart(args, &[("IMAGE", out)], &[("FILE", args.path(0))])?;
    let _lock = lock::to_write(args, &[out])?;
    let file = ObjectFile::read(args.path(0))?;
    let plan = file.plan(args, "--at", out)?;
    file.say_needed(file.image_memory(1));
    let mut image = file.room(file.object.length)?;
    let built = xcoff::build_object(&file.bytes, &plan, &mut image);
    file.judged(&[&plan], None, built)?;
    let made = Made {
        done: "placed",
        file: &file,
        plan: &plan,
        out,
    };
    may_replace(args, out, Written::Image)?;
    files::replace(&[(out, &image)])?;
    file.warn_of_overlaps(&plan);
    made.say(args)
}

pub fn place_move(args: &Arguments) -> Result<(), Problem> {
    let (path, image) = (args.path(0), args.path(1));
    apart(args, &[("IMAGE", image)], &[("FILE", path)])?;
    let out = match args.paths("-o") {
        None => image,
        Some(out) => {
            let inputs = [("FILE", path), ("IMAGE", image)];
            apart(args, &[("IMAGE2", out[0])], &inputs)?;
            out[0]
        }
    };
    let _lock = lock::to_write(args, &[image, out])?;
    let file = ObjectFile::read(path)?;
    let from = file.plan(args, "--from", out)?;
    let to = file.plan(args, "--to", out)?;
    file.say_needed(file.image_memory(3));
    let found = FoundImage::read(&file, image)?;
    let moved = found.moved(args, &from, &to)?;
    let made = Made {
        done: "moved",
        file: &file,
        plan: &to,
        out,
    };
    may_replace(args, out, Written::Image)?;
    files::replace_if(&[(out, &moved)], || found.unchanged())?;
    file.warn_of_overlaps(&to);
    made.say(args)
}

/// An image as it was found in a file.
pub struct FoundImage<'a> {
    pub file: &'a ObjectFile<'a>,
    pub path: &'a Path,
    pub bytes: Vec<u8>,
}

impl<'a> FoundImage<'a> {
    /// At most one byte more than the image has: whether its length is right is for the library to say.
    fn read(file: &'a ObjectFile, path: &'a Path) -> Result<FoundImage<'a>, Problem> {
        let bytes = files::read_roomy(path, file.object.length + 1)?;
        Ok(FoundImage { file, path, bytes })
    }

    /// The image for the plan that it is moved to. It is compared with that of the plan it is moved from first, unless
    /// `--unchecked` is given: the library moves whatever it finds, and an image that is moved twice is wrong without a sign.
    fn moved(
        &self,
        args: &Arguments,
        from: &ObjectPlan,
        to: &ObjectPlan,
    ) -> Result<Vec<u8>, Problem> {
        let mut image = match args.has("--unchecked") {
            true => self.copied()?,
            false => self.checked(args, from, to)?,
        };
        let moved = xcoff::move_object(&self.file.bytes, from, to, &mut image);
        self.judged(&[from, to], Some(&self.bytes), moved)?;
        Ok(image)
    }

    fn copied(&self) -> Result<Vec<u8>, Problem> {
        let mut copy = self.file.room(self.bytes.len() as u64)?;
        copy.copy_from_slice(&self.bytes);
        Ok(copy)
    }

    /// The image, where it is that of the plan it is moved from.
    fn checked(
        &self,
        args: &Arguments,
        from: &ObjectPlan,
        to: &ObjectPlan,
    ) -> Result<Vec<u8>, Problem> {
        let built = self.built(from)?;
        if built == self.bytes {
            return Ok(built);
        }
        let beside = PlacedBeside::new(self, from, built)?;
        if beside.fields_equal() {
            kept_or_equal(&beside, args.has("--keep-changes"))?;
            return self.copied();
        }
        Err(beside.not_its_fields([self.whose(from, to)?]))
    }

    /// The plan that the fields of the image are for, as far as that is known.
    fn whose(&self, from: &ObjectPlan, to: &ObjectPlan) -> Result<String, Problem> {
        let reached = PlacedBeside::new(self, to, self.built(to)?)?;
        let words = self.file.plan_words(to);
        Ok(match (reached.fields_equal(), reached.all_equal()) {
            (true, true) => format!("xcoff: this image is for {words}, which was given by --to: it is already moved, or --from and --to are exchanged"),
            (true, false) => format!("xcoff: the relocated fields of this image are those of {words}, which was given by --to: it is already moved, or --from and --to are exchanged"),
            _ => format!("xcoff: it is neither for {} nor for {words}", self.file.plan_words(from)),
        })
    }

    /// The image of a plan, in as much room as this one has.
    fn built(&self, plan: &ObjectPlan) -> Result<Vec<u8>, Problem> {
        let mut image = self.file.room(self.bytes.len() as u64)?;
        let built = xcoff::build_object(&self.file.bytes, plan, &mut image);
        self.judged(&[plan], None, built)?;
        Ok(image)
    }

    /// An answer that may be about the image's length, or else is about plans.
    fn judged<T>(
        &self,
        plans: &[&ObjectPlan],
        image: Option<&[u8]>,
        answer: Result<T, Refusal>,
    ) -> Result<T, Problem> {
        match answer {
            Err(refusal) if (refusal.number, refusal.item) == (20, 0) => {
                let (file, needed) = (self.file, self.file.object.length);
                let about = format!(
                    "{} ({}, where the image of {} has {needed})",
                    escape::argument(self.path),
                    match self.bytes.len() as u64 {
                        more if more > needed => format!("more than {needed} bytes"),
                        bytes => format!("{bytes} bytes"),
                    },
                    escape::argument(file.path)
                );
                Err(object_problem(about, &file.bytes, refusal, Vec::new()))
            }
            answer => self.file.judged(plans, image, answer),
        }
    }

    /// Whether the file still holds what was read: another program, which knows of no lock, may have written there.
    fn unchanged(&self) -> Result<(), Problem> {
        let plain = std::fs::metadata(self.path).is_ok_and(|file| file.is_file());
        if plain && !files::holds(self.path, &self.bytes)? {
            return Err(Problem::Unequal(vec![format!(
                "xcoff: {} was changed by another program after it was read; nothing is changed",
                escape::argument(self.path)
            )]));
        }
        Ok(())
    }
}

/// An image that takes the place of a file.
struct Made<'a> {
    /// What the command did, in a word.
    done: &'static str,
    file: &'a ObjectFile<'a>,
    /// The plan that the image is for.
    plan: &'a ObjectPlan,
    out: &'a Path,
}

impl Made<'_> {
    fn say(&self, args: &Arguments) -> Result<(), Problem> {
        let object = &self.file.object;
        let line = format!(
            "{} {} ({} bytes): {}; {} relocation entries",
            self.done,
            escape::argument(self.out),
            object.length,
            self.file.ranges(self.plan),
            object.entries
        );
        print_done(&line, |out| match args.has("--json") {
            true => self.rows(out),
            false => writeln!(out, "{line}"),
        })
    }

    fn rows(&self, out: &mut dyn Write) -> io::Result<()> {
        let mut list = Listing::new(out, true);
        let object = &self.file.object;
        let columns = vec![word("path", 0), number("size", 0), number("entries", 0)];
        list.table("image", columns)?;
        list.row(&[
            Cell::Path(self.out),
            Cell::Number(object.length),
            Cell::Number(object.entries),
        ])?;
        let digits = self.file.digits();
        let columns = vec![
            number("section", 0),
            word("kind", 0),
            number("offset", 0),
            number("size", 0),
            hex("address", digits),
            hex("last", digits),
        ];
        list.table("placed", columns)?;
        self.file.placed().try_for_each(|n| self.row(&mut list, n))
    }

    /// A section and where it is to be written on the card; of bss there is nothing to write.
    fn row(&self, list: &mut Listing, n: u64) -> io::Result<()> {
        let file = self.file;
        let (section, _) = &file.sections[n as usize - 1];
        let own = &file.rows[n as usize - 1];
        let last = file.first_and_last(self.plan, n);
        list.row(&[
            Cell::Number(n),
            Cell::Word(kind_word(section.kind)),
            match file.is_in_image(n) {
                true => Cell::Number(own.place),
                false => Cell::Nothing,
            },
            Cell::Number(section.size),
            Cell::Hex(self.plan.addresses[n as usize - 1]),
            last.map_or(Cell::Nothing, |(_, last)| Cell::Hex(last)),
        ])
    }
}
