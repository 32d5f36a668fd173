//! The map as a picture (SVG), to hang beside the card.

use crate::compare::IMAGES;
use crate::escape;
use crate::lists::image_word;
use crate::map::{unit, Follows, Map};
use std::fmt::Write;
use xcoff::Image;

/// Sizes in the picture's own unit.
const WIDTH: u64 = 900;
const LEFT: u64 = 190;
const STRIP: u64 = 512;
const CELLS: u64 = 64;
const CELL: u64 = STRIP / CELLS;
const LINES: u64 = 24;
/// Imports that are listed before they are only counted.
const SHOWN: usize = 60;

/// A picture that grows downwards.
struct Picture {
    body: String,
    y: u64,
}

pub fn svg(map: &Map) -> String {
    let mut picture = Picture {
        body: String::new(),
        y: 40,
    };
    let title = format!("{} for {}", name_of(map.file.path), name_of(map.sheet.path));
    picture.text(20, 20, "bold", &title);
    picture.legend();
    let mut images = IMAGES;
    images.sort_by_key(|&image| map.sheet.address(image));
    for image in images {
        picture.image(map, image);
    }
    picture.imports(map);
    let height = picture.y + 20;
    format!(
        "<svg xmlns=\"http://www.w3.org/2000/svg\" viewBox=\"0 0 {WIDTH} {height}\" width=\"{WIDTH}\" height=\"{height}\" font-family=\"monospace\" font-size=\"12\">\n<rect width=\"{WIDTH}\" height=\"{height}\" fill=\"white\"/>\n{}</svg>\n",
        picture.body
    )
}

fn name_of(path: &std::path::Path) -> String {
    escape::argument(path.file_name().unwrap_or(path.as_os_str()))
}

fn colour(follows: Follows) -> &'static str {
    match follows {
        Follows::Text => "#c0392b",
        Follows::Data => "#2471a3",
        Follows::Import => "#1e8449",
        Follows::Nothing => "#7f8c8d",
        Follows::Several => "#8e44ad",
    }
}

const LEGEND: [(Follows, &str); 5] = [
    (Follows::Text, "follows text"),
    (Follows::Data, "follows data"),
    (Follows::Import, "follows an import"),
    (Follows::Several, "follows several"),
    (Follows::Nothing, "deferred"),
];

impl Picture {
    fn text(&mut self, x: u64, y: u64, weight: &str, words: &str) {
        let words = words
            .replace('&', "&amp;")
            .replace('<', "&lt;")
            .replace('>', "&gt;");
        self.push(format_args!("<text x=\"{x}\" y=\"{y}\" font-weight=\"{weight}\" xml:space=\"preserve\">{words}</text>\n"));
    }

    fn rect(&mut self, (x, y): (u64, u64), (width, height): (u64, u64), fill: &str, stroke: &str) {
        self.push(format_args!("<rect x=\"{x}\" y=\"{y}\" width=\"{width}\" height=\"{height}\" fill=\"{fill}\" stroke=\"{stroke}\"/>\n"));
    }

    fn push(&mut self, text: std::fmt::Arguments) {
        self.body.write_fmt(text).expect("a string takes any text");
    }

    fn legend(&mut self) {
        for (n, (follows, words)) in LEGEND.into_iter().enumerate() {
            let x = 20 + 165 * n as u64;
            self.rect((x, self.y - 8), (10, 10), colour(follows), "none");
            self.text(x + 16, self.y + 1, "normal", words);
        }
        self.y += 24;
    }

    /// A box of lines, with its parts, its fields and what points into it.
    fn image(&mut self, map: &Map, image: Image) {
        let plan = &map.sheet.plan;
        let Some((first, last)) = map.file.first_and_last(plan, image) else {
            return;
        };
        let size = last - first + 1;
        let unit = unit(size, CELLS * LINES);
        let heading = format!(
            "{} image: {}, {size} bytes, {unit} bytes a cell",
            image_word(image),
            map.file.range(plan, image)
        );
        self.y += 8;
        self.text(20, self.y, "bold", &heading);
        self.y += 10;
        let top = self.y;
        let lines = size.div_ceil(unit * CELLS);
        let place = |offset: u64| {
            let cell = offset / unit;
            (LEFT + CELL * (cell % CELLS), top + 14 * (cell / CELLS))
        };
        for block in map
            .blocks
            .iter()
            .filter(|block| block.image == image && block.size > 0)
        {
            let fill = match block.name {
                "text" => "#fdebd0",
                "data" => "#d6eaf8",
                "gap" => "#f2f3f4",
                _ => "#e8daef",
            };
            let cells = block.start / unit..(block.start + block.size).div_ceil(unit);
            cells.for_each(|cell| self.rect(place(cell * unit), (CELL, 12), fill, "none"));
        }
        for (offset, follows) in map.fields_in(image, 0, size) {
            self.rect(place(offset), (CELL - 1, 12), colour(follows), "none");
        }
        let digits = map.file.digits();
        for line in 0..lines {
            let y = top + 14 * line;
            self.text(
                20,
                y + 11,
                "normal",
                &format!("{:0digits$x}", first + line * unit * CELLS),
            );
        }
        self.points(map, image, &place);
        self.y = top + 14 * lines + 16;
    }

    /// The entry and the TOC: a frame around the cell, and a word beside the line.
    fn points(&mut self, map: &Map, image: Image, place: &dyn Fn(u64) -> (u64, u64)) {
        let digits = map.file.digits();
        let mut beside: Vec<(u64, String)> = Vec::new();
        for (name, address) in [("entry", map.reached.entry), ("TOC", map.reached.toc)] {
            let Some(address) = address else { continue };
            let Some((_, offset)) = map.place(address).filter(|(own, _)| *own == image) else {
                continue;
            };
            let (x, y) = place(offset);
            self.rect((x, y), (CELL - 1, 12), "none", "black");
            let words = format!("{name} {address:0digits$x}");
            match beside.iter_mut().find(|(line, _)| *line == y) {
                Some((_, own)) => own.push_str(&format!(", {words}")),
                None => beside.push((y, words)),
            }
        }
        for (y, words) in beside {
            self.text(LEFT + STRIP + 8, y + 11, "normal", &words);
        }
    }

    fn imports(&mut self, map: &Map) {
        if map.imports.is_empty() {
            return;
        }
        self.y += 8;
        self.text(20, self.y, "bold", "imports");
        let digits = map.file.digits();
        for (row, count) in map.imports.iter().take(SHOWN) {
            self.y += 14;
            let address = map.sheet.plan.list[row.index as usize - 3];
            let fields = if *count == 1 { "field" } else { "fields" };
            let line = format!(
                "{address:0digits$x}  @{} {}: {count} {fields}",
                row.index,
                escape::name(row.name)
            );
            self.text(20, self.y, "normal", &line);
        }
        if map.imports.len() > SHOWN {
            self.y += 14;
            let line = format!("and {} more", map.imports.len() - SHOWN);
            self.text(20, self.y, "normal", &line);
        }
    }
}
