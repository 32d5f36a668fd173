//! The command `map`: where everything of a module lies on the card.

use crate::args::Arguments;
use crate::compare::IMAGES;
use crate::escape;
use crate::files;
use crate::imports::takes_address;
use crate::kinds::{may_replace, Written};
use crate::listing::{hex, number, word, Cell, Listing};
use crate::lists::image_word;
use crate::load::{apart, Loaded, Sheet};
use crate::lock;
use crate::output::{print, say_done};
use crate::picture;
use crate::problem::Problem;
use crate::warnings;
use std::collections::BTreeMap;
use std::io::{self, Write};
use xcoff::{Image, LoaderRow, PlanAddress, Reached};

/// Cells in a line of the drawing, and lines of an image at most.
const CELLS: u64 = 64;
const LINES: u64 = 16;

/// What a field follows: one address of the plan, or several.
#[derive(Clone, Copy, PartialEq, Eq, PartialOrd, Ord)]
pub enum Follows {
    Text,
    Data,
    Import,
    Nothing,
    Several,
}

/// A part of an image.
pub struct Block {
    pub name: &'static str,
    pub image: Image,
    /// In its image.
    pub start: u64,
    pub size: u64,
}

/// Where everything lies.
pub struct Map<'a> {
    pub file: &'a Loaded<'a>,
    pub sheet: &'a Sheet<'a>,
    pub reached: Reached,
    pub blocks: Vec<Block>,
    /// Of each field, by its image and the offset in it.
    pub fields: BTreeMap<(Image, u64), Follows>,
    /// Those whose address a plan has, with how many fields follow it.
    pub imports: Vec<(LoaderRow<'a>, usize)>,
}

pub fn map(args: &Arguments) -> Result<(), Problem> {
    let inputs = [("FILE", args.path(0)), ("SHEET", args.path(1))];
    let svg = args.paths("--svg").map(|paths| paths[0]);
    if let Some(path) = svg {
        apart(args, &[("PICTURE", path)], &inputs)?;
    }
    let _lock = lock::to_write(args, &svg.into_iter().collect::<Vec<_>>())?;
    let file = Loaded::read(args.path(0))?;
    let sheet = Sheet::read(args.path(1))?;
    let map = Map::of(&file, &sheet)?;
    warnings::of_sheet(&file, &sheet)?;
    warnings::of_addresses(&file, &sheet.plan);
    if let Some(path) = svg {
        may_replace(args, path, Written::Picture)?;
        let picture = picture::svg(&map);
        files::replace(&[(path, picture.as_bytes())])?;
        return say_done(&format!(
            "wrote {} ({} bytes): {}",
            escape::argument(path),
            picture.len(),
            file.ranges(&sheet.plan)
        ));
    }
    print(|out| {
        let json = args.has("--json");
        map.tables(&mut Listing::new(out, json))?;
        if json {
            return Ok(());
        }
        map.draw(out)
    })
}

impl<'a> Map<'a> {
    fn of(file: &'a Loaded, sheet: &'a Sheet) -> Result<Map<'a>, Problem> {
        let (_, reached) = file.build_sheet(sheet)?;
        let symbols = file.symbols()?;
        let followed = file.module.followed(&symbols);
        let entries = file.entries()?;
        let mut fields: BTreeMap<(Image, u64), Follows> = BTreeMap::new();
        let mut counts: BTreeMap<u64, std::collections::BTreeSet<(Image, u64)>> = BTreeMap::new();
        for entry in &entries {
            let place = (entry.image, entry.offset);
            let follows = match followed[entry.symbol as usize] {
                Some(PlanAddress::Text) => Follows::Text,
                Some(PlanAddress::Data) => Follows::Data,
                Some(PlanAddress::Import(index)) => {
                    counts.entry(index).or_default().insert(place);
                    Follows::Import
                }
                None => Follows::Nothing,
            };
            fields
                .entry(place)
                .and_modify(|f| *f = f.and(follows))
                .or_insert(follows);
        }
        let imports = symbols.into_iter().filter(takes_address).map(|row| {
            let count = counts.get(&row.index).map_or(0, |places| places.len());
            (row, count)
        });
        Ok(Map {
            file,
            sheet,
            reached,
            blocks: blocks(file),
            fields,
            imports: imports.collect(),
        })
    }

    /// An empty block may lie at the end of the address space, which is shown as 0.
    pub fn address(&self, block: &Block) -> u64 {
        self.sheet.address(block.image).wrapping_add(block.start)
    }

    /// The fields that begin in a part of an image.
    pub fn fields_in(
        &self,
        image: Image,
        start: u64,
        size: u64,
    ) -> impl Iterator<Item = (u64, Follows)> + '_ {
        let range = (image, start)..(image, start + size);
        self.fields
            .range(range)
            .map(|(&(_, offset), &follows)| (offset, follows))
    }

    // ---- tables

    fn tables(&self, list: &mut Listing) -> io::Result<()> {
        let digits = self.file.digits();
        let most = |sizes: &mut dyn Iterator<Item = u64>| sizes.max().unwrap_or(0);
        let size = most(&mut self.blocks.iter().map(|block| block.size));
        list.table(
            "blocks",
            vec![
                word("part", 5),
                hex("address", digits),
                hex("last", digits),
                number("size", size),
                number("fields", 99_999),
            ],
        )?;
        for block in &self.blocks {
            let first = self.address(block);
            let last = (block.size > 0).then(|| first + (block.size - 1));
            list.row(&[
                Cell::Word(block.name),
                Cell::Hex(first),
                last.map_or(Cell::Nothing, Cell::Hex),
                Cell::Number(block.size),
                Cell::Number(self.fields_in(block.image, block.start, block.size).count() as u64),
            ])?;
        }
        list.table(
            "anchors",
            vec![
                word("anchor", 6),
                hex("address", digits),
                word("image", 5),
                number("offset", size),
            ],
        )?;
        for (name, address) in [("entry", self.reached.entry), ("TOC", self.reached.toc)] {
            let place = address.and_then(|address| self.place(address));
            list.row(&[
                Cell::Word(name),
                address.map_or(Cell::Nothing, Cell::Hex),
                place.map_or(Cell::Nothing, |(image, _)| Cell::Word(image_word(image))),
                place.map_or(Cell::Nothing, |(_, offset)| Cell::Number(offset)),
            ])?;
        }
        self.import_rows(list)
    }

    fn import_rows(&self, list: &mut Listing) -> io::Result<()> {
        let last = self.imports.last().map_or(0, |(row, _)| row.index);
        list.table(
            "imports",
            vec![
                number("index", last),
                hex("address", self.file.digits()),
                number("fields", 99_999),
                word("lies", 8),
                word("name", 0),
            ],
        )?;
        for (row, count) in &self.imports {
            let address = self.sheet.plan.list[row.index as usize - 3];
            let lies = match self.place(address) {
                Some((Image::Text, _)) => "in text",
                Some((Image::Data, _)) => "in data",
                None => "outside",
            };
            list.row(&[
                Cell::Number(row.index),
                Cell::Hex(address),
                Cell::Number(*count as u64),
                Cell::Word(lies),
                Cell::Name(row.name),
            ])?;
        }
        Ok(())
    }

    /// The image that an address of the card lies in, and where.
    pub fn place(&self, address: u64) -> Option<(Image, u64)> {
        let within = |image: &Image| {
            let range = self.file.first_and_last(&self.sheet.plan, *image);
            range.is_some_and(|(first, last)| (first..=last).contains(&address))
        };
        let image = IMAGES.into_iter().find(within)?;
        Some((image, address - self.sheet.address(image)))
    }

    // ---- the drawing

    fn draw(&self, out: &mut dyn Write) -> io::Result<()> {
        let mut images = IMAGES;
        images.sort_by_key(|&image| self.sheet.address(image));
        let mut end: Option<u64> = None;
        for image in images {
            let Some((first, last)) = self.file.first_and_last(&self.sheet.plan, image) else {
                continue;
            };
            writeln!(out)?;
            if let Some(free) = end.and_then(|end| first.checked_sub(end)?.checked_sub(1)) {
                let pad = self.file.digits();
                writeln!(out, "{:pad$} : {free} bytes between\n", "")?;
            }
            self.draw_image(out, image, last - first + 1)?;
            end = Some(last);
        }
        writeln!(out, "\n. no field   t d i field that follows text, data, an import   - none of these   * several   _ zeros up to bss   b bss")
    }

    /// Lines of cells; behind a line what points into it. A line that is like the one before, without a field or anything that
    /// points into it, is left out, and a * stands for all of these.
    fn draw_image(&self, out: &mut dyn Write, image: Image, size: u64) -> io::Result<()> {
        let digits = self.file.digits();
        let unit = unit(size, CELLS * LINES);
        writeln!(
            out,
            "{:digits$} {} image, {unit} bytes a cell",
            "",
            image_word(image)
        )?;
        let cells = self.cells(image, size, unit);
        let address = self.sheet.address(image);
        let last = size.div_ceil(CELLS * unit) - 1;
        let mut before = String::new();
        let mut left_out = false;
        for (n, line) in cells.chunks(CELLS as usize).enumerate() {
            let start = n as u64 * CELLS * unit;
            let end = (start + CELLS * unit).min(size);
            let line: String = line.iter().collect();
            let points = self.points(image, start..end);
            let plain = line.chars().all(|cell| matches!(cell, '.' | '_' | 'b'));
            let same = line == before && plain && points.is_empty() && (n as u64) < last;
            if same && !left_out {
                writeln!(out, "{:digits$} *", "")?;
            }
            if !same {
                writeln!(out, "{:0digits$x} |{line}|{points}", address + start)?;
            }
            left_out = same;
            before = line;
        }
        Ok(())
    }

    fn points(&self, image: Image, range: std::ops::Range<u64>) -> String {
        let named = [("entry", self.reached.entry), ("TOC", self.reached.toc)];
        let own = named.into_iter().filter_map(|(name, address)| {
            let (at, offset) = self.place(address?)?;
            (at == image && range.contains(&offset))
                .then(|| format!(" {name} at {:x}", address.unwrap_or(0)))
        });
        own.collect()
    }

    /// A character for each `unit` bytes of an image.
    fn cells(&self, image: Image, size: u64, unit: u64) -> Vec<char> {
        let mut cells = vec!['.'; size.div_ceil(unit) as usize];
        for block in self.blocks.iter().filter(|block| block.image == image) {
            let mark = match block.name {
                "gap" => '_',
                "bss" => 'b',
                _ => continue,
            };
            let from = block.start.div_ceil(unit) as usize;
            let to = ((block.start + block.size).div_ceil(unit) as usize).min(cells.len());
            cells[from.min(to)..to].fill(mark);
        }
        for (offset, follows) in self.fields_in(image, 0, size) {
            let cell = &mut cells[(offset / unit) as usize];
            *cell = match *cell {
                '.' | '_' | 'b' => follows.mark(),
                other if other == follows.mark() => other,
                _ => '*',
            };
        }
        cells
    }
}

/// Bytes that a cell stands for, so that so many cells are enough: a power of two, 4 at least.
pub fn unit(size: u64, cells: u64) -> u64 {
    size.div_ceil(cells).next_power_of_two().max(4)
}

/// The text image is one part; the data image has data, zeros up to bss, and bss.
fn blocks(file: &Loaded) -> Vec<Block> {
    let m = &file.module;
    let bss = m.image - m.bss.size;
    let part = |name, image, start, size| Block {
        name,
        image,
        start,
        size,
    };
    vec![
        part("text", Image::Text, 0, m.text.size),
        part("data", Image::Data, 0, m.data.size),
        part("gap", Image::Data, m.data.size, bss - m.data.size),
        part("bss", Image::Data, bss, m.bss.size),
    ]
}

impl Follows {
    /// Of a field with one entry more.
    fn and(self, other: Follows) -> Follows {
        match self == other {
            true => self,
            false => Follows::Several,
        }
    }

    fn mark(self) -> char {
        match self {
            Follows::Text => 't',
            Follows::Data => 'd',
            Follows::Import => 'i',
            Follows::Nothing => '-',
            Follows::Several => '*',
        }
    }
}
