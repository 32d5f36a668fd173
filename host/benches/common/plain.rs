//! Builds and moves, and the least that any program must do for them: the raw bytes copied, and the entries applied in a plain loop.

use super::made::{Entry, Module, Symbol};
use super::relocate::{Shifts, Tables};
use std::hint::black_box;
use xcoff::{build_images, move_images, Format, Plan};

pub const ENTRIES: u64 = 4096;
/// So many of them are on fields of text, the others on fields of data.
const IN_TEXT: u64 = ENTRIES / 8;

pub fn plan(text: u64, data: u64) -> Plan {
    Plan {
        text,
        data,
        list: Vec::new(),
    }
}

/// A module without relocation entries, its plan and the buffers of its images.
pub struct Build {
    pub file: Vec<u8>,
    pub plan: Plan,
    pub text: Vec<u8>,
    pub data: Vec<u8>,
    /// Where the raw data lies in the file.
    raw: std::ops::Range<usize>,
}

impl Build {
    /// Of so many bytes of data, followed by so many of bss.
    pub fn new(format: Format, data: u64, bss: u32) -> Build {
        let mut m = Module::new(format);
        m.data_size = data;
        let mut file = m.bytes();
        // The loader section, which is last, is its header alone and, in XCOFF64, a string.
        let loader = match format {
            Format::Xcoff32 => 32,
            Format::Xcoff64 => 60,
        };
        let end = file.len() - loader;
        with_bss(&mut file, format, bss);
        Build {
            file,
            plan: plan(0x3000_0000, 0x4000_0000),
            text: vec![1; m.text_size as usize],
            data: vec![1; data as usize + bss as usize],
            raw: end - data as usize..end,
        }
    }

    pub fn judge(&mut self) {
        black_box(xcoff::module(&self.file).unwrap());
    }

    pub fn whole(&mut self) {
        black_box(build_images(&self.file, &self.plan, &mut self.text, &mut self.data).unwrap());
    }

    /// The raw data copied, the bss cleared.
    pub fn copy(&mut self) {
        let (data, bss) = self.data.split_at_mut(self.raw.len());
        data.copy_from_slice(&self.file[self.raw.clone()]);
        bss.fill(0);
        black_box(&mut self.data);
    }
}

/// Gives the empty bss of a made module a size: in the auxiliary header and in the header of section 3.
pub fn with_bss(file: &mut [u8], format: Format, size: u32) {
    let places = match format {
        Format::Xcoff32 => [20 + 12, 20 + 72 + 2 * 40 + 16],
        Format::Xcoff64 => [24 + 72 + 4, 24 + 110 + 2 * 72 + 24 + 4],
    };
    for at in places {
        file[at..at + 4].copy_from_slice(&size.to_be_bytes());
    }
}

/// A module with entries, two plans and its images; and a copy of the images for the plain loop.
pub struct Move {
    pub file: Vec<u8>,
    pub from: Plan,
    pub to: Plan,
    pub text: Vec<u8>,
    pub data: Vec<u8>,
    tables: Tables,
    plain_text: Vec<u8>,
    plain_data: Vec<u8>,
}

impl Move {
    pub fn new(format: Format) -> Move {
        let mut m = Module::new(format);
        m.text_size = 8 * IN_TEXT;
        m.data_size = 8 * (ENTRIES - IN_TEXT);
        m.symbols = vec![Symbol::Text, Symbol::Data, Symbol::Import, Symbol::Deferred];
        m.entries = entries(&m);
        let file = m.bytes();
        let images = (vec![0; m.text_size as usize], vec![0; m.data_size as usize]);
        Move {
            tables: Tables::of(&file),
            file,
            from: Plan {
                list: vec![0, 0, 0x1234_5678, 0],
                ..plan(0x3000_0000, 0x4000_0000)
            },
            to: Plan {
                list: vec![0, 0, 0x2345_0004, 0],
                ..plan(0x3123_0000, 0x5000_0010)
            },
            text: images.0.clone(),
            data: images.1.clone(),
            plain_text: images.0,
            plain_data: images.1,
        }
    }

    pub fn judge(&mut self) {
        black_box(xcoff::module(&self.file).unwrap());
    }

    pub fn whole(&mut self) {
        black_box(
            move_images(
                &self.file,
                &self.from,
                &self.to,
                &mut self.text,
                &mut self.data,
            )
            .unwrap(),
        );
    }

    /// The same loop in plain Rust, which judges nothing.
    pub fn plain(&mut self) {
        let by = Shifts {
            parts: [
                self.to.text.wrapping_sub(self.from.text),
                self.to.data.wrapping_sub(self.from.data),
                self.to.data.wrapping_sub(self.from.data),
            ],
            from: &self.from.list,
            to: &self.to.list,
        };
        self.tables
            .relocate(&self.file, by, &mut self.plain_text, &mut self.plain_data);
        black_box((&mut self.plain_text, &mut self.plain_data));
    }

    /// Whether both have the same bytes, after equally many calls.
    pub fn same(&self) -> bool {
        self.text == self.plain_text && self.data == self.plain_data
    }
}

/// What the entries do, by turns: the symbol, and the type in XCOFF32 and in XCOFF64. Symbols 0 to 2 are text, data and bss; 3 to 6 the
/// loader symbols: in text, in data, an import, and one that no file gives.
const KINDS: [(u32, u16, u16); 16] = [
    (0, 0x1F00, 0x3F00),
    (1, 0x1F00, 0x3F00),
    (1, 0x1F00, 0x3F00),
    (5, 0x1F00, 0x3F00),
    (0, 0x1F01, 0x1F01),
    (1, 0x1F00, 0x3F00),
    (0, 0x1F00, 0x3F00),
    (2, 0x1F00, 0x3F00),
    (3, 0x1F00, 0x3F00),
    (1, 0x1F00, 0x3F00),
    (0, 0x1F00, 0x1F00),
    (5, 0x1F00, 0x3F00),
    (1, 0x1F01, 0x3F01),
    (4, 0x1F00, 0x3F00),
    (0, 0x1F00, 0x3F00),
    (6, 0x1F00, 0x3F00),
];

/// Entries in ascending order, first on fields of text, then on fields of data.
fn entries(m: &Module) -> Vec<Entry> {
    let entry = |i: u64| {
        let (symbol, narrow, wide) = KINDS[i as usize % KINDS.len()];
        let kind = match m.format {
            Format::Xcoff32 => narrow,
            Format::Xcoff64 => wide,
        };
        let (section, address) = match i.checked_sub(IN_TEXT) {
            None => (1, m.text_address + 8 * i),
            Some(i) => (2, m.data_address + 8 * i),
        };
        Entry {
            address,
            symbol,
            kind,
            section,
        }
    };
    (0..ENTRIES).map(entry).collect()
}
