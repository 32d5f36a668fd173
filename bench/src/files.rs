//! Files with symbols, lines or relocation tables, made for the benchmarks; `made` in host/tests makes modules.

use xcoff::Format;

/// A file of sections without raw data, and symbols named by 13 bytes of the string table.
#[derive(Clone, Copy)]
pub struct Symbols {
    pub format: Format,
    pub sections: u16,
    pub count: u32,
    /// Every symbol is a csect of its own, with the auxiliary entry for it.
    pub csects: bool,
}

impl Symbols {
    pub fn bytes(&self) -> Vec<u8> {
        let mut out = self.header();
        for n in 0..self.sections {
            self.section(&mut out, n);
        }
        for n in 0..self.count {
            self.symbol(&mut out, n);
        }
        let names = (0..self.count).flat_map(|n| format!("symbol_{n:06x}\0").into_bytes());
        let start = out.len();
        out.extend([0; 4]);
        out.extend(names);
        let length = (out.len() - start) as u32;
        out[start..start + 4].copy_from_slice(&length.to_be_bytes());
        out
    }

    /// Entries of the symbol table.
    fn entries(&self) -> u32 {
        self.count * if self.csects { 2 } else { 1 }
    }

    fn header(&self) -> Vec<u8> {
        let sections = u32::from(self.sections);
        let mut out = Vec::new();
        match self.format {
            Format::Xcoff32 => {
                out.extend([0x01, 0xDF]);
                out.extend(self.sections.to_be_bytes());
                out.extend([0; 4]);
                out.extend((20 + 40 * sections).to_be_bytes());
                out.extend(self.entries().to_be_bytes());
                out.extend([0; 4]);
            }
            Format::Xcoff64 => {
                out.extend([0x01, 0xF7]);
                out.extend(self.sections.to_be_bytes());
                out.extend([0; 8]);
                out.extend((24 + 72 * sections).to_be_bytes());
                out.extend([0; 4]);
                out.extend(self.entries().to_be_bytes());
            }
        }
        out
    }

    fn section(&self, out: &mut Vec<u8>, n: u16) {
        out.extend(b".text\0\0\0");
        let address = 0x1000 * u32::from(n);
        for number in [address, address, 0x1000, 0, 0, 0] {
            self.word(out, number);
        }
        match self.format {
            Format::Xcoff32 => out.extend([0, 0, 0, 0, 0, 0, 0, 0x20]),
            Format::Xcoff64 => out.extend([0, 0, 0, 0, 0, 0, 0, 0, 0, 0, 0, 0x20, 0, 0, 0, 0]),
        }
    }

    fn symbol(&self, out: &mut Vec<u8>, n: u32) {
        let name = 4 + 14 * n;
        match self.format {
            Format::Xcoff32 => {
                out.extend([0; 4]);
                out.extend(name.to_be_bytes());
                out.extend((4 * n).to_be_bytes());
            }
            Format::Xcoff64 => {
                self.word(out, 4 * n);
                out.extend(name.to_be_bytes());
            }
        }
        // section 1, type 0, then the class (HIDEXT or STAT) and the auxiliary entries
        out.extend(if self.csects {
            [0, 1, 0, 0, 107, 1]
        } else {
            [0, 1, 0, 0, 3, 0]
        });
        if self.csects {
            // length 4, SD of alignment 2, mapping class PR
            out.extend([0, 0, 0, 4, 0, 0, 0, 0, 0, 0, 0x11, 0, 0, 0, 0, 0, 0]);
            out.push(if self.format == Format::Xcoff64 { 251 } else { 0 });
        }
    }

    fn word(&self, out: &mut Vec<u8>, n: u32) {
        if self.format == Format::Xcoff64 {
            out.extend([0; 4]);
        }
        out.extend(n.to_be_bytes());
    }
}

/// A file with one text section and its line table: functions of 99 lines each, a line for every 4 bytes.
#[derive(Clone, Copy)]
pub struct Lines {
    pub format: Format,
    /// Entries of the table, those of functions included.
    pub count: u32,
}

impl Lines {
    pub fn bytes(&self) -> Vec<u8> {
        let wide = self.format == Format::Xcoff64;
        let overflows = !wide && self.count >= 65_535;
        let sections = if overflows { 2 } else { 1 };
        let start = if wide { 24 + 72 } else { 20 + 40 * sections };
        let mut out = if wide { vec![0x01, 0xF7, 0, 1] } else { vec![0x01, 0xDF, 0, sections as u8] };
        out.resize(if wide { 24 } else { 20 }, 0);
        let counts = if overflows { [65_535; 2] } else { [0, self.count] };
        self.section(&mut out, [0, 0, 4 * self.count, start], counts, 0x20);
        if overflows {
            self.section(&mut out, [0, self.count, 0, start], [1, 1], 0x8000);
        }
        for n in 0..self.count {
            let (value, line) = (4 * n, n % 100);
            match self.format {
                Format::Xcoff32 => out.extend(value.to_be_bytes()),
                // A symbol's index is in the first half.
                Format::Xcoff64 if line == 0 => out.extend((u64::from(value) << 32).to_be_bytes()),
                Format::Xcoff64 => out.extend(u64::from(value).to_be_bytes()),
            }
            out.extend(&line.to_be_bytes()[if wide { 0 } else { 2 }..]);
        }
        out
    }

    /// Physical and virtual address, size and where the line table is; the counts of both tables.
    fn section(&self, out: &mut Vec<u8>, numbers: [u32; 4], counts: [u32; 2], flag: u32) {
        let wide = self.format == Format::Xcoff64;
        let [paddr, vaddr, size, lines] = numbers;
        out.extend(b".text\0\0\0");
        for number in [paddr, vaddr, size, 0, 0, lines] {
            out.extend(&u64::from(number).to_be_bytes()[if wide { 0 } else { 4 }..]);
        }
        for count in counts {
            out.extend(&count.to_be_bytes()[if wide { 0 } else { 2 }..]);
        }
        out.extend(flag.to_be_bytes());
        out.extend(vec![0; if wide { 4 } else { 0 }]);
    }
}

/// An object file: a text section of zeros with a relocation table, a data section of 8 bytes, and one symbol in data, which all
/// entries name.
pub struct Placed {
    pub format: Format,
    /// Of the text section.
    pub size: u64,
    /// Size and type of each entry.
    pub kind: [u8; 2],
    pub addresses: Vec<u64>,
}

impl Placed {
    pub fn bytes(&self) -> Vec<u8> {
        let wide = self.format == Format::Xcoff64;
        let count = self.addresses.len() as u64;
        let overflows = !wide && count >= 65_535;
        let sections = if overflows { 3 } else { 2 };
        let raw = if wide { 24 + 72 * sections } else { 20 + 40 * sections };
        let (data, table) = (raw + self.size, raw + self.size + 8);
        let symbols = table + count * if wide { 14 } else { 10 };
        let mut out = vec![0x01, if wide { 0xF7 } else { 0xDF }, 0, sections as u8, 0, 0, 0, 0];
        self.word(&mut out, symbols);
        out.extend(if wide { vec![0; 4] } else { Vec::new() });
        out.extend(1u32.to_be_bytes());
        out.extend(if wide { Vec::new() } else { vec![0; 4] });
        let own = if overflows { [65_535; 2] } else { [count, 0] };
        self.section(&mut out, [0, 0, self.size, raw, table], own, 0x20);
        self.section(&mut out, [self.size, self.size, 8, data, 0], [0; 2], 0x40);
        if overflows {
            self.section(&mut out, [count, 0, 0, 0, table], [1; 2], 0x8000);
        }
        out.resize(table as usize, 0);
        for &address in &self.addresses {
            self.word(&mut out, address);
            out.extend([0; 4]);
            out.extend(self.kind);
        }
        // In section 2, with the empty name.
        out.extend([0; 12]);
        out.extend([0, 2, 0, 0, 2, 0]);
        out
    }

    /// Physical and virtual address, size, where the raw data and the relocation table are; the counts of both tables.
    fn section(&self, out: &mut Vec<u8>, numbers: [u64; 5], counts: [u64; 2], flag: u32) {
        let wide = self.format == Format::Xcoff64;
        out.extend(b".text\0\0\0");
        for number in numbers.into_iter().chain([0]) {
            self.word(out, number);
        }
        for count in counts {
            out.extend(&count.to_be_bytes()[if wide { 4 } else { 6 }..]);
        }
        out.extend(flag.to_be_bytes());
        out.extend(vec![0; if wide { 4 } else { 0 }]);
    }

    fn word(&self, out: &mut Vec<u8>, n: u64) {
        let from = if self.format == Format::Xcoff64 { 0 } else { 4 };
        out.extend(&n.to_be_bytes()[from..]);
    }
}
