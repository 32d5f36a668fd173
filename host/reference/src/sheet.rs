//! Document 01, "Plans, images, moves": the sheet. Its new form is request 10 of
//! document 02.

use crate::bytes::{number, put};
use crate::{refuse, Refusal, LIMIT, LOADER_SYMBOL_LIMIT, OLD_SHEET_LIMIT, ROOM, SHEET};

/// The two forms differ in the width of their counts, and in how many addresses
/// they hold at most.
#[derive(Clone, Copy, Debug, PartialEq, Eq)]
pub enum Form {
    Old,
    New,
}

impl Form {
    /// The form that a sheet's first two bytes name.
    pub fn of(sheet: &[u8]) -> Option<Form> {
        match sheet {
            [0, 2, ..] => Some(Form::Old),
            [0, 0, ..] => Some(Form::New),
            _ => None,
        }
    }

    /// Bytes of each count.
    pub fn width(self) -> usize {
        match self {
            Form::Old => 2,
            Form::New => 4,
        }
    }

    /// The most addresses.
    pub fn limit(self) -> u64 {
        match self {
            Form::Old => OLD_SHEET_LIMIT,
            Form::New => LOADER_SYMBOL_LIMIT,
        }
    }

    /// Where the second count lies, after the first one and two addresses.
    pub fn second_count(self) -> usize {
        self.width() + 16
    }

    /// Where the addresses start; a sheet of none ends there.
    pub fn list_at(self) -> usize {
        self.second_count() + self.width()
    }

    /// The length of a sheet with `k` addresses.
    pub fn length(self, k: u64) -> u64 {
        self.list_at() as u64 + 8 * k
    }
}

/// Reads a sheet: the text and data addresses, and the list into `list`.
pub fn read_sheet(sheet: &[u8], list: &mut [u64]) -> Result<(u64, u64), Refusal> {
    let Some(form) = Form::of(sheet) else {
        return refuse(SHEET, 0);
    };
    let width = form.width();
    if sheet.len() < form.list_at() || number(sheet, 0, width) != 2 {
        return refuse(SHEET, 0);
    }
    let k = number(sheet, form.second_count(), width);
    if k > form.limit() {
        return refuse(LIMIT, 2);
    }
    if sheet.len() as u64 != form.length(k) {
        return refuse(SHEET, 0);
    }
    if list.len() as u64 != k {
        return refuse(ROOM, 2);
    }
    for (i, address) in list.iter_mut().enumerate() {
        *address = number(sheet, form.list_at() + 8 * i, 8);
    }
    Ok((number(sheet, width, 8), number(sheet, width + 8, 8)))
}

/// How many addresses a sheet says that it holds, up to its form's limit.
pub fn sheet_count(sheet: &[u8]) -> usize {
    match Form::of(sheet) {
        Some(form) if sheet.len() >= form.list_at() => {
            let k = number(sheet, form.second_count(), form.width());
            k.min(form.limit()) as usize
        }
        _ => 0,
    }
}

/// Writes a sheet, always in the new form.
pub fn write_sheet(text: u64, data: u64, list: &[u64], sheet: &mut [u8]) -> Result<(), Refusal> {
    let form = Form::New;
    let k = list.len() as u64;
    if k > form.limit() {
        return refuse(LIMIT, 2);
    }
    if sheet.len() as u64 != form.length(k) {
        return refuse(ROOM, 0);
    }
    let width = form.width();
    put(sheet, 0, width, 2);
    put(sheet, width, 8, text);
    put(sheet, width + 8, 8, data);
    put(sheet, form.second_count(), width, k);
    for (i, &address) in list.iter().enumerate() {
        put(sheet, form.list_at() + 8 * i, 8, address);
    }
    Ok(())
}
