//! The entries of any module applied by a plain loop, for a move from one plan to another. Nothing is judged: a module that breaks a
//! rule makes it panic or write nonsense.

use std::ops::Range;
use xcoff::{Format, Part};

/// Where a module's sections and loader tables are.
pub struct Tables {
    format: Format,
    text: Part,
    data: Part,
    symbols: Range<usize>,
    entries: Range<usize>,
}

/// What the images move by: text, data and bss, and each import from its address in one list to that in the other.
#[derive(Clone, Copy)]
pub struct Shifts<'a> {
    pub parts: [u64; 3],
    pub from: &'a [u64],
    pub to: &'a [u64],
}

struct Entry {
    address: u64,
    symbol: u32,
    rtype: [u8; 2],
    section: u16,
}

impl Tables {
    pub fn of(file: &[u8]) -> Tables {
        let m = xcoff::module(file).unwrap();
        let start = xcoff::section(file, m.loader).unwrap().scnptr as usize;
        let count = |at| read32(file, start + at) as usize;
        let offset = |at| start + read64(file, start + at) as usize;
        let (symbols, entries, length) = match m.format {
            Format::Xcoff32 => (start + 32, start + 32 + 24 * count(4), 12),
            Format::Xcoff64 => (offset(40), offset(48), 16),
        };
        Tables {
            format: m.format,
            text: m.text,
            data: m.data,
            symbols: symbols..symbols + 24 * count(4),
            entries: entries..entries + length * count(8),
        }
    }

    /// Applies every entry. The format is asked for once.
    pub fn relocate(&self, file: &[u8], by: Shifts, text: &mut [u8], data: &mut [u8]) {
        match self.format {
            Format::Xcoff32 => self.apply(file, entry32, by, text, data),
            Format::Xcoff64 => self.apply(file, entry64, by, text, data),
        }
    }

    fn apply<const N: usize>(
        &self,
        file: &[u8],
        read: impl Fn(&[u8; N]) -> Entry,
        by: Shifts,
        text: &mut [u8],
        data: &mut [u8],
    ) {
        let symbols = &file[self.symbols.clone()];
        let (number, text_base, data_base) = (
            self.text.number as u16,
            self.text.address,
            self.data.address,
        );
        for bytes in file[self.entries.clone()].chunks_exact(N) {
            let e = read(bytes.try_into().unwrap());
            let shift = match e.symbol {
                n @ 0..=2 => by.parts[n as usize],
                n => self.loader_shift(symbols, n as usize - 3, by),
            };
            let field = if e.section == number {
                &mut text[(e.address - text_base) as usize..]
            } else {
                &mut data[(e.address - data_base) as usize..]
            };
            change(field, e.rtype, shift);
        }
    }

    /// The shift of a loader symbol: that of its section, or an import's, or none where no file gives it.
    fn loader_shift(&self, symbols: &[u8], k: usize, by: Shifts) -> u64 {
        let symbol = &symbols[24 * k..24 * k + 24];
        if symbol[14] & 0x40 == 0 {
            let section = u16::from_be_bytes([symbol[12], symbol[13]]);
            return by.parts[usize::from(u64::from(section) != self.text.number)];
        }
        if read32(symbol, 16) == 0 {
            return 0;
        }
        by.to[k].wrapping_sub(by.from[k])
    }
}

fn entry32(b: &[u8; 12]) -> Entry {
    Entry {
        address: read32(b, 0).into(),
        symbol: read32(b, 4),
        rtype: [b[8], b[9]],
        section: u16::from_be_bytes([b[10], b[11]]),
    }
}

fn entry64(b: &[u8; 16]) -> Entry {
    Entry {
        address: read64(b, 0),
        symbol: read32(b, 12),
        rtype: [b[8], b[9]],
        section: u16::from_be_bytes([b[10], b[11]]),
    }
}

/// Adds to the field at the start of the bytes, or subtracts from it: 8 bytes or 4, by the entry's type.
fn change(bytes: &mut [u8], [width, kind]: [u8; 2], shift: u64) {
    let shift = if kind == 1 {
        shift.wrapping_neg()
    } else {
        shift
    };
    if width & 0x3F == 63 {
        let field = bytes.first_chunk_mut().unwrap();
        *field = u64::from_be_bytes(*field).wrapping_add(shift).to_be_bytes();
    } else {
        let field = bytes.first_chunk_mut().unwrap();
        *field = u32::from_be_bytes(*field)
            .wrapping_add(shift as u32)
            .to_be_bytes();
    }
}

fn read32(bytes: &[u8], at: usize) -> u32 {
    u32::from_be_bytes(bytes[at..at + 4].try_into().unwrap())
}

fn read64(bytes: &[u8], at: usize) -> u64 {
    u64::from_be_bytes(bytes[at..at + 8].try_into().unwrap())
}
