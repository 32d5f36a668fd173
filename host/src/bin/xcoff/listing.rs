//! Tables for people, in aligned columns, or for programs, one JSON object a line.
//!
//! Rows are written as they come, with widths given beforehand: a listing's memory and time stay linear in the file.

use crate::escape;
use std::fmt::Write as _;
use std::io::{self, Write};
use std::path::Path;

pub enum Cell<'a> {
    /// An address, a type, flags.
    Hex(u64),
    Number(u64),
    /// A number that people know by a word.
    Named(i64, Option<&'static str>),
    Word(&'static str),
    Name(&'a [u8]),
    /// A file as the command line names it.
    Path(&'a Path),
    /// "yes" or "no" for people.
    Flag(bool),
    /// Seconds since 1970, for people a date.
    Time(u64),
    Nothing,
}

pub struct Column {
    name: &'static str,
    /// What people read above it, where that is another word.
    heading: Option<&'static str>,
    shape: Shape,
}

enum Shape {
    /// Digits.
    Hex(usize),
    /// Least width, to the right.
    Right(usize),
    /// Least width, to the left.
    Left(usize),
}

/// A number of so many hexadecimal digits.
pub fn hex(name: &'static str, digits: usize) -> Column {
    Column::new(name, Shape::Hex(digits))
}

/// Numbers up to the greatest one.
pub fn number(name: &'static str, greatest: u64) -> Column {
    let digits = greatest.checked_ilog10().unwrap_or(0) as usize + 1;
    Column::new(name, Shape::Right(digits))
}

/// Words of at most so many characters. A longer one pushes the rest of its line to the right.
pub fn word(name: &'static str, width: usize) -> Column {
    Column::new(name, Shape::Left(width))
}

/// Names that are not the last column: wide enough for all of them, up to a bound, since every row pays for it.
pub fn names<'a>(name: &'static str, all: impl Iterator<Item = &'a [u8]>) -> Column {
    word(name, all.map(escape::width).max().unwrap_or(0).min(40))
}

impl Column {
    fn new(name: &'static str, shape: Shape) -> Column {
        Column {
            name,
            heading: None,
            shape,
        }
    }

    /// The column with another word above it for people.
    pub fn headed(self, word: &'static str) -> Column {
        Column {
            heading: Some(word),
            ..self
        }
    }

    fn heading(&self) -> &'static str {
        self.heading.unwrap_or(self.name)
    }

    fn width(&self) -> usize {
        let (Shape::Hex(width) | Shape::Right(width) | Shape::Left(width)) = self.shape;
        width.max(self.heading().len())
    }
}

pub struct Listing<'w> {
    out: &'w mut dyn Write,
    json: bool,
    /// The file that is listed, where there are several.
    file: Option<&'w Path>,
    table: &'static str,
    columns: Vec<Column>,
    line: String,
    cell: String,
}

impl<'w> Listing<'w> {
    pub fn new(out: &'w mut dyn Write, json: bool) -> Listing<'w> {
        Listing {
            out,
            json,
            file: None,
            table: "",
            columns: Vec::new(),
            line: String::new(),
            cell: String::new(),
        }
    }

    /// A listing of one file of several: it stands under the file's name, for programs each row has it.
    pub fn of(mut self, file: Option<&'w Path>) -> Listing<'w> {
        self.file = file;
        self
    }

    /// Begins a table; for programs each of its rows bears the table's name.
    pub fn table(&mut self, name: &'static str, columns: Vec<Column>) -> io::Result<()> {
        let first = self.table.is_empty();
        self.table = name;
        self.columns = columns;
        if self.json {
            return Ok(());
        }
        match self.file {
            Some(file) if first => writeln!(self.out, "{}:", escape::argument(file))?,
            _ if !first => writeln!(self.out)?,
            _ => {}
        }
        self.line.clear();
        for column in &self.columns {
            pad(&mut self.line, column, column.heading());
        }
        self.end_line()
    }

    pub fn row(&mut self, cells: &[Cell]) -> io::Result<()> {
        debug_assert_eq!(cells.len(), self.columns.len());
        self.line.clear();
        if self.json {
            self.json_row(cells);
        } else {
            for (column, cell) in self.columns.iter().zip(cells) {
                self.cell.clear();
                push_text(&mut self.cell, column, cell);
                pad(&mut self.line, column, &self.cell);
            }
        }
        self.end_line()
    }

    /// What was listed so far goes out at once.
    pub fn flush(&mut self) -> io::Result<()> {
        self.out.flush()
    }

    fn json_row(&mut self, cells: &[Cell]) {
        for text in ["{\"table\":\"", self.table, "\""] {
            self.line.push_str(text);
        }
        if let Some(file) = self.file {
            self.line.push_str(",\"file\":");
            push_json_text(&mut self.line, &escape::argument(file));
        }
        for (column, cell) in self.columns.iter().zip(cells) {
            for text in [",\"", column.name, "\":"] {
                self.line.push_str(text);
            }
            push_json(&mut self.line, column, cell);
        }
        self.line.push('}');
    }

    fn end_line(&mut self) -> io::Result<()> {
        writeln!(self.out, "{}", self.line.trim_end())
    }
}

/// A cell behind what the line holds, two blanks between.
fn pad(line: &mut String, column: &Column, cell: &str) {
    if !line.is_empty() {
        line.push_str("  ");
    }
    let blanks = column.width().saturating_sub(cell.chars().count());
    let blanks = std::iter::repeat_n(' ', blanks);
    match column.shape {
        Shape::Right(_) => {
            line.extend(blanks);
            line.push_str(cell);
        }
        _ => {
            line.push_str(cell);
            line.extend(blanks);
        }
    }
}

fn push_text(out: &mut String, column: &Column, cell: &Cell) {
    match cell {
        Cell::Hex(value) => push_hex(out, column, *value),
        Cell::Number(value) => push_decimal(out, *value),
        Cell::Named(_, Some(word)) => out.push_str(word),
        Cell::Named(value, None) => push_signed(out, *value),
        Cell::Word(word) => out.push_str(word),
        Cell::Name(bytes) => escape::push_name(bytes, out),
        Cell::Path(path) => out.push_str(&escape::argument(path)),
        Cell::Flag(yes) => out.push_str(if *yes { "yes" } else { "no" }),
        Cell::Time(seconds) => push_time(out, *seconds),
        Cell::Nothing => out.push('-'),
    }
}

fn push_json(out: &mut String, column: &Column, cell: &Cell) {
    match cell {
        Cell::Hex(value) => {
            out.push('"');
            push_hex(out, column, *value);
            out.push('"');
        }
        Cell::Number(value) => push_decimal(out, *value),
        Cell::Named(value, _) => push_signed(out, *value),
        Cell::Word(word) => {
            out.push('"');
            out.push_str(word);
            out.push('"');
        }
        Cell::Name(bytes) => push_json_name(out, column, bytes),
        Cell::Path(path) => push_json_text(out, &escape::argument(path)),
        Cell::Flag(yes) => out.push_str(if *yes { "true" } else { "false" }),
        Cell::Time(seconds) => push_decimal(out, *seconds),
        Cell::Nothing => out.push_str("null"),
    }
}

fn push_hex(out: &mut String, column: &Column, value: u64) {
    let digits = match column.shape {
        Shape::Hex(digits) => digits,
        _ => 1,
    };
    push_digits::<16>(out, value, digits);
}

fn push_decimal(out: &mut String, value: u64) {
    push_digits::<10>(out, value, 1);
}

fn push_signed(out: &mut String, value: i64) {
    if value < 0 {
        out.push('-');
    }
    push_decimal(out, value.unsigned_abs());
}

/// A number in digits, at least so many: a listing has millions of them, and a format is read anew for each.
pub fn push_digits<const BASE: u64>(out: &mut String, mut value: u64, least: usize) {
    let mut digits = [b'0'; 20];
    let mut first = digits.len();
    while value > 0 {
        first -= 1;
        digits[first] = b"0123456789abcdef"[(value % BASE) as usize];
        value /= BASE;
    }
    let shown = &digits[first.min(digits.len() - least)..];
    out.push_str(std::str::from_utf8(shown).expect("digits are ASCII"));
}

/// A name's bytes as the characters U+0000 to U+00FF, and whether it is cut.
fn push_json_name(out: &mut String, column: &Column, bytes: &[u8]) {
    out.push('"');
    for &byte in &bytes[..bytes.len().min(escape::MOST)] {
        match byte {
            b'"' | b'\\' => out.extend(['\\', char::from(byte)]),
            b' '..=b'~' => out.push(char::from(byte)),
            _ => {
                out.push_str("\\u");
                push_digits::<16>(out, byte.into(), 4);
            }
        }
    }
    out.push('"');
    if bytes.len() > escape::MOST {
        push(out, format_args!(",\"{}_cut\":true", column.name));
    }
}

/// In UTC; of 0, which stands for no time, a dash.
fn push_time(out: &mut String, seconds: u64) {
    if seconds == 0 {
        out.push('-');
        return;
    }
    let (days, rest) = (seconds / 86_400, seconds % 86_400);
    let (year, month, day) = date(days);
    let (hour, minute, second) = (rest / 3600, rest / 60 % 60, rest % 60);
    push(
        out,
        format_args!("{year:04}-{month:02}-{day:02}T{hour:02}:{minute:02}:{second:02}Z"),
    );
}

/// Of so many days since 1970-01-01: years count from March, so that a leap day is the last one.
fn date(days: u64) -> (u64, u64, u64) {
    let from_0 = days + 719_468;
    let (era, day) = (from_0 / 146_097, from_0 % 146_097);
    let year = (day - day / 1460 + day / 36_524 - day / 146_096) / 365;
    let day = day - (365 * year + year / 4 - year / 100);
    let month = (5 * day + 2) / 153;
    let day = day - (153 * month + 2) / 5 + 1;
    let (year, month) = match month < 10 {
        true => (era * 400 + year, month + 3),
        false => (era * 400 + year + 1, month - 9),
    };
    (year, month, day)
}

/// A text of ours as a JSON string.
pub fn push_json_text(out: &mut String, text: &str) {
    out.push('"');
    for c in text.chars() {
        match c {
            '"' | '\\' => push(out, format_args!("\\{c}")),
            '\n' => out.push_str("\\n"),
            ' '.. => out.push(c),
            _ => push(out, format_args!("\\u{:04x}", c as u32)),
        }
    }
    out.push('"');
}

fn push(out: &mut String, text: std::fmt::Arguments) {
    out.write_fmt(text).expect("a string takes any text");
}
