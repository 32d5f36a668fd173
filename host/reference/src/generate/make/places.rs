//! Where the parts of a made file lie.

use super::debug::DebugSection;
use super::loader_section::LoaderSection;
use crate::bytes::{by, number, put};

/// A number field of the file.
#[derive(Clone, Copy, Debug)]
pub struct Field {
    pub at: usize,
    pub length: usize,
}

#[derive(Clone, Debug)]
pub struct MadeSymbol {
    pub index: u64,
    pub class: u64,
    pub auxiliaries: u64,
    /// The csect type, for an entry with a good csect.
    pub csect: Option<u64>,
}

#[derive(Clone, Debug)]
pub struct MadeLoaderSymbol {
    pub imported: bool,
    pub file_id: u64,
    /// Its name lies in the string table.
    pub string: bool,
    pub value: u64,
}

#[derive(Clone, Debug)]
pub struct MadeEntry {
    pub address: u64,
    pub width: u64,
    pub section: u64,
    pub symbol: u64,
}

/// A relocation entry of an object's section.
#[derive(Clone, Debug)]
pub struct MadeRow {
    pub section: u64,
    /// Where it lies in the file.
    pub at: usize,
    pub address: u64,
    pub symbol: u64,
    /// `r_rsize` and `r_rtype`.
    pub size: u64,
    pub kind: u64,
}

/// An entry of a line table; with line 0 its value is a function's.
#[derive(Clone, Debug)]
pub struct MadeLine {
    pub section: u64,
    /// Where it lies in the file.
    pub at: usize,
    pub value: u64,
    pub line: u64,
}

/// A made file and its places.
#[derive(Clone, Debug, Default)]
pub struct Made {
    pub bits: u64,
    pub bytes: Vec<u8>,
    pub fields: Vec<Field>,
    pub opthdr: usize,
    /// Flags of each section.
    pub flags: Vec<u64>,
    /// Section numbers, 0 for none (or an object).
    pub text: u64,
    pub data: u64,
    pub bss: u64,
    pub loader: u64,
    pub text_address: u64,
    pub text_size: u64,
    pub data_address: u64,
    pub data_size: u64,
    pub image: u64,
    pub symbols_at: usize,
    pub symbol_count: u64,
    pub symbols: Vec<MadeSymbol>,
    pub strings_at: usize,
    /// 0 for none.
    pub strings_length: usize,
    pub loader_at: usize,
    pub loader_size: usize,
    pub loader_symbols_at: usize,
    pub loader_symbols: Vec<MadeLoaderSymbol>,
    pub entries_at: usize,
    pub entries: Vec<MadeEntry>,
    pub ids_at: usize,
    pub ids_length: usize,
    pub ids: u64,
    pub loader_strings_at: usize,
    pub loader_strings_length: usize,
    /// The one debug section with raw data, 0 for none.
    pub debug: u64,
    pub debug_at: usize,
    pub debug_size: usize,
    /// Where its strings start, past their lengths.
    pub debug_names: Vec<u64>,
    /// The relocation entries of an object's sections, as they are numbered.
    pub rows: Vec<MadeRow>,
    /// The line tables of an object's text sections, one after the other.
    pub lines: Vec<MadeLine>,
}

/// Parts of a section header.
#[derive(Clone, Copy)]
pub enum Part {
    Paddr,
    Vaddr,
    Size,
    Pointer,
    RelocationPointer,
    LinePointer,
    RelocationCount,
    LineCount,
    Flags,
}

/// Fields of the auxiliary header, 002 table 2.
#[derive(Clone, Copy)]
pub enum Aux {
    TextSize,
    DataSize,
    BssSize,
    Entry,
    TextStart,
    DataStart,
    Toc,
    EntrySection,
    Text,
    Data,
    TocSection,
    Loader,
    Bss,
}

impl Aux {
    const ALL: [Aux; 13] = [
        Aux::TextSize,
        Aux::DataSize,
        Aux::BssSize,
        Aux::Entry,
        Aux::TextStart,
        Aux::DataStart,
        Aux::Toc,
        Aux::EntrySection,
        Aux::Text,
        Aux::Data,
        Aux::TocSection,
        Aux::Loader,
        Aux::Bss,
    ];
}

/// Fields of the loader header.
#[derive(Clone, Copy)]
pub enum Head {
    Version,
    Symbols,
    Relocations,
    IdLength,
    Ids,
    StringLength,
    IdOffset,
    StringOffset,
    SymbolOffset,
    RelocationOffset,
}

impl Head {
    const ALL: [Head; 10] = [
        Head::Version,
        Head::Symbols,
        Head::Relocations,
        Head::IdLength,
        Head::Ids,
        Head::StringLength,
        Head::IdOffset,
        Head::StringOffset,
        Head::SymbolOffset,
        Head::RelocationOffset,
    ];
}

pub fn head_field(bits: u64, head: Head) -> Option<Field> {
    let wide = bits == 64;
    let (at, length) = match head {
        Head::Version => (0, 4),
        Head::Symbols => (4, 4),
        Head::Relocations => (8, 4),
        Head::IdLength => (12, 4),
        Head::Ids => (16, 4),
        Head::StringLength => (by(bits, 24, 20), 4),
        Head::IdOffset => (by(bits, 20, 24), by(bits, 4, 8)),
        Head::StringOffset => (by(bits, 28, 32), by(bits, 4, 8)),
        Head::SymbolOffset if wide => (40, 8),
        Head::RelocationOffset if wide => (48, 8),
        _ => return None,
    };
    Some(Field { at, length })
}

pub fn aux_field(bits: u64, aux: Aux) -> Field {
    let word = by(bits, 4, 8);
    let (at, length) = match aux {
        Aux::TextSize => (by(bits, 4, 56), word),
        Aux::DataSize => (by(bits, 8, 64), word),
        Aux::BssSize => (by(bits, 12, 72), word),
        Aux::Entry => (by(bits, 16, 80), word),
        Aux::TextStart => (by(bits, 20, 8), word),
        Aux::DataStart => (by(bits, 24, 16), word),
        Aux::Toc => (by(bits, 28, 24), word),
        Aux::EntrySection => (32, 2),
        Aux::Text => (34, 2),
        Aux::Data => (36, 2),
        Aux::TocSection => (38, 2),
        Aux::Loader => (40, 2),
        Aux::Bss => (42, 2),
    };
    Field { at, length }
}

impl Made {
    pub fn put(&mut self, field: Field, value: u64) {
        put(&mut self.bytes, field.at, field.length, value);
    }

    pub fn get(&self, field: Field) -> u64 {
        number(&self.bytes, field.at, field.length)
    }

    pub fn word(&self) -> usize {
        by(self.bits, 4, 8)
    }

    pub fn header(&self) -> usize {
        by(self.bits, 20, 24)
    }

    /// The end of all headers.
    pub fn headers_end(&self) -> usize {
        self.header() + self.opthdr + self.flags.len() * by(self.bits, 40, 72)
    }

    pub fn section_count_field(&self) -> Field {
        Field { at: 2, length: 2 }
    }

    pub fn symptr_field(&self) -> Field {
        Field {
            at: 8,
            length: self.word(),
        }
    }

    pub fn nsyms_field(&self) -> Field {
        Field {
            at: by(self.bits, 12, 20),
            length: 4,
        }
    }

    pub fn opthdr_field(&self) -> Field {
        Field { at: 16, length: 2 }
    }

    /// The version of the auxiliary header.
    pub fn version_field(&self) -> Field {
        Field {
            at: self.header() + 2,
            length: 2,
        }
    }

    pub fn section_at(&self, n: u64) -> usize {
        self.header() + self.opthdr + (n as usize - 1) * by(self.bits, 40, 72)
    }

    pub fn section_field(&self, n: u64, part: Part) -> Field {
        let (at, length) = match part {
            Part::Paddr => (8, self.word()),
            Part::Vaddr => (by(self.bits, 12, 16), self.word()),
            Part::Size => (by(self.bits, 16, 24), self.word()),
            Part::Pointer => (by(self.bits, 20, 32), self.word()),
            Part::RelocationPointer => (by(self.bits, 24, 40), self.word()),
            Part::LinePointer => (by(self.bits, 28, 48), self.word()),
            Part::RelocationCount => (by(self.bits, 32, 56), by(self.bits, 2, 4)),
            Part::LineCount => (by(self.bits, 34, 60), by(self.bits, 2, 4)),
            Part::Flags => (by(self.bits, 36, 64), 4),
        };
        Field {
            at: self.section_at(n) + at,
            length,
        }
    }

    /// What the header of section `n` has there.
    pub fn part(&self, n: u64, part: Part) -> u64 {
        self.get(self.section_field(n, part))
    }

    pub fn put_part(&mut self, n: u64, part: Part, value: u64) {
        self.put(self.section_field(n, part), value);
    }

    /// Both addresses of section `n`.
    pub fn put_address(&mut self, n: u64, address: u64) {
        self.put_part(n, Part::Paddr, address);
        self.put_part(n, Part::Vaddr, address);
    }

    /// The numbers of the sections whose kind is one of these.
    pub fn sections_of(&self, kinds: &[u64]) -> Vec<u64> {
        let numbers = 1..=self.flags.len() as u64;
        numbers
            .filter(|&n| kinds.contains(&self.flags[n as usize - 1]))
            .collect()
    }

    pub fn aux(&self, aux: Aux) -> Field {
        let field = aux_field(self.bits, aux);
        Field {
            at: self.header() + field.at,
            length: field.length,
        }
    }

    pub fn head(&self, head: Head) -> Option<Field> {
        let field = head_field(self.bits, head)?;
        Some(Field {
            at: self.loader_at + field.at,
            length: field.length,
        })
    }

    pub fn symbol_at(&self, index: u64) -> usize {
        self.symbols_at + 18 * index as usize
    }

    /// The name offset of a symbol entry.
    pub fn name_offset_field(&self, index: u64) -> Field {
        Field {
            at: self.symbol_at(index) + by(self.bits, 4, 8),
            length: 4,
        }
    }

    /// Makes the entry's name a string of the table at this offset.
    pub fn set_name_offset(&mut self, index: u64, offset: u64) {
        if self.bits == 32 {
            let at = self.symbol_at(index);
            put(&mut self.bytes, at, 4, 0);
        }
        self.put(self.name_offset_field(index), offset);
    }

    /// The entry's section number; a negative one in two's complement.
    pub fn set_symbol_section(&mut self, index: u64, number: u64) {
        let at = self.symbol_at(index) + 12;
        put(&mut self.bytes, at, 2, number);
    }

    pub fn set_class(&mut self, index: u64, class: u64) {
        let at = self.symbol_at(index) + 16;
        put(&mut self.bytes, at, 1, class);
    }

    /// How many bytes the length before a debug string has.
    pub fn debug_prefix(&self) -> usize {
        by(self.bits, 2, 4)
    }

    /// The length before the debug string at this offset.
    pub fn debug_length_field(&self, offset: u64) -> Field {
        let length = self.debug_prefix();
        Field {
            at: self.debug_at + offset as usize - length,
            length,
        }
    }

    /// Makes the loader section end with the file.
    pub fn stretch_loader(&mut self) {
        self.loader_size = self.bytes.len() - self.loader_at;
        let size = self.section_field(self.loader, Part::Size);
        self.put(size, self.loader_size as u64);
    }

    /// The `i`-th loader symbol, from 0.
    pub fn loader_symbol_at(&self, i: usize) -> usize {
        self.loader_symbols_at + 24 * i
    }

    /// Makes the loader symbol's name a string of the table at this offset.
    pub fn set_loader_name_offset(&mut self, i: usize, offset: u64) {
        let at = self.loader_symbol_at(i);
        if self.bits == 32 {
            put(&mut self.bytes, at, 4, 0);
        }
        put(&mut self.bytes, at + by(self.bits, 4, 8), 4, offset);
    }

    pub fn loader_name_offset(&self, i: usize) -> usize {
        number(
            &self.bytes,
            self.loader_symbol_at(i) + by(self.bits, 4, 8),
            4,
        ) as usize
    }

    pub fn entry_at(&self, i: usize) -> usize {
        self.entries_at + by(self.bits, 12, 16) * i
    }

    pub fn entry_address_field(&self, i: usize) -> Field {
        Field {
            at: self.entry_at(i),
            length: self.word(),
        }
    }

    pub fn entry_symbol_field(&self, i: usize) -> Field {
        Field {
            at: self.entry_at(i) + by(self.bits, 4, 12),
            length: 4,
        }
    }

    pub fn entry_type_field(&self, i: usize) -> Field {
        Field {
            at: self.entry_at(i) + 8,
            length: 2,
        }
    }

    pub fn entry_section_field(&self, i: usize) -> Field {
        Field {
            at: self.entry_at(i) + 10,
            length: 2,
        }
    }
}

/// Relocation entries of an object's sections.
impl Made {
    /// Length of one.
    pub fn row_length(&self) -> usize {
        by(self.bits, 10, 14)
    }

    pub fn row_field(&self, i: usize, part: RowPart) -> Field {
        let (at, length) = match part {
            RowPart::Address => (0, self.word()),
            RowPart::Symbol => (self.word(), 4),
            RowPart::Size => (by(self.bits, 8, 12), 1),
            RowPart::Kind => (by(self.bits, 9, 13), 1),
        };
        Field {
            at: self.rows[i].at + at,
            length,
        }
    }

    /// Changes a row, in the file and in the list.
    pub fn set_row(&mut self, i: usize, part: RowPart, value: u64) {
        self.put(self.row_field(i, part), value);
        let row = &mut self.rows[i];
        *match part {
            RowPart::Address => &mut row.address,
            RowPart::Symbol => &mut row.symbol,
            RowPart::Size => &mut row.size,
            RowPart::Kind => &mut row.kind,
        } = value;
    }

    /// Adds the table of section `n` at the file's end; tables are added in the order
    /// of the sections.
    pub fn add_rows(&mut self, n: u64, rows: &[MadeRow]) {
        let start = self.bytes.len();
        self.put_part(n, Part::RelocationPointer, start as u64);
        self.put_part(n, Part::RelocationCount, rows.len() as u64);
        for row in rows {
            let at = self.bytes.len();
            self.bytes.resize(at + self.row_length(), 0);
            self.rows.push(MadeRow {
                section: n,
                at,
                ..row.clone()
            });
            let i = self.rows.len() - 1;
            for (part, value) in [
                (RowPart::Address, row.address),
                (RowPart::Symbol, row.symbol),
                (RowPart::Size, row.size),
                (RowPart::Kind, row.kind),
            ] {
                self.put(self.row_field(i, part), value);
            }
        }
    }

    /// The tables' places in the headers, and the first rows.
    pub(super) fn record_rows(&mut self) {
        for n in 1..=self.flags.len() as u64 {
            for part in [Part::RelocationPointer, Part::RelocationCount] {
                self.fields.push(self.section_field(n, part));
            }
        }
        for i in 0..self.rows.len().min(16) {
            for part in RowPart::ALL {
                self.fields.push(self.row_field(i, part));
            }
        }
    }
}

/// Line tables.
impl Made {
    /// Length of an entry.
    pub fn line_length(&self) -> usize {
        by(self.bits, 6, 12)
    }

    /// The value, and the line number, of the `i`-th entry.
    pub fn line_fields(&self, i: usize) -> [Field; 2] {
        let at = self.lines[i].at;
        let number = Field {
            at: at + self.word(),
            length: by(self.bits, 2, 4),
        };
        let length = self.word();
        [Field { at, length }, number]
    }

    /// Changes an entry, in the file and in the list.
    pub fn set_line(&mut self, i: usize, value: u64, line: u64) {
        let [value_field, line_field] = self.line_fields(i);
        self.put(value_field, value);
        self.put(line_field, line);
        (self.lines[i].value, self.lines[i].line) = (value, line);
    }

    /// Adds the line table of section `n` at the file's end; tables are added in the
    /// order of the sections.
    pub fn add_lines(&mut self, n: u64, lines: &[MadeLine]) {
        self.put_part(n, Part::LinePointer, self.bytes.len() as u64);
        self.put_part(n, Part::LineCount, lines.len() as u64);
        for line in lines {
            let at = self.bytes.len();
            self.bytes.resize(at + self.line_length(), 0);
            self.lines.push(MadeLine {
                section: n,
                at,
                ..line.clone()
            });
            self.set_line(self.lines.len() - 1, line.value, line.line);
        }
    }

    /// The entries of section `n`, by their places in the list.
    pub fn lines_of(&self, n: u64) -> Vec<usize> {
        let of_section = |&i: &usize| self.lines[i].section == n;
        (0..self.lines.len()).filter(of_section).collect()
    }

    pub(super) fn record_lines(&mut self) {
        for n in 1..=self.flags.len() as u64 {
            for part in [Part::LinePointer, Part::LineCount] {
                self.fields.push(self.section_field(n, part));
            }
        }
        for i in 0..self.lines.len().min(16) {
            self.fields.extend(self.line_fields(i));
        }
    }
}

/// Parts of a relocation entry of an object's section.
#[derive(Clone, Copy)]
pub enum RowPart {
    Address,
    Symbol,
    Size,
    Kind,
}

impl RowPart {
    const ALL: [RowPart; 4] = [
        RowPart::Address,
        RowPart::Symbol,
        RowPart::Size,
        RowPart::Kind,
    ];
}

/// The list of fields.
impl Made {
    /// Parts of a table's row at `at`, as offsets and lengths.
    fn record_row(&mut self, at: usize, parts: &[(usize, usize)]) {
        for &(offset, length) in parts {
            let at = at + offset;
            self.fields.push(Field { at, length });
        }
    }

    pub(super) fn record_file_header(&mut self) {
        self.fields.push(self.section_count_field());
        self.fields.push(self.symptr_field());
        self.fields.push(self.nsyms_field());
        self.fields.push(self.opthdr_field());
        self.record_row(18, &[(0, 2)]);
        if self.opthdr >= 4 {
            self.fields.push(self.version_field());
        }
    }

    /// Nothing where the auxiliary header is too short for a module.
    pub(super) fn record_aux_header(&mut self) {
        if self.opthdr >= by(self.bits, 72, 110) {
            for aux in Aux::ALL {
                self.fields.push(self.aux(aux));
            }
        }
    }

    /// The first symbol entries, auxiliaries included.
    pub(super) fn record_symbols(&mut self) {
        const PARTS: [(usize, usize); 11] = [
            (0, 4),
            (0, 8),
            (4, 4),
            (8, 4),
            (10, 1),
            (11, 1),
            (12, 2),
            (12, 4),
            (14, 2),
            (16, 1),
            (17, 1),
        ];
        for index in 0..self.symbol_count.min(24) {
            self.record_row(self.symbol_at(index), &PARTS);
        }
    }

    /// The length of the string table.
    pub(super) fn record_strings(&mut self) {
        self.record_row(self.strings_at, &[(0, 4)]);
    }

    /// The loader section and all its tables, once its header is placed.
    pub(super) fn record_loader(&mut self, section: LoaderSection) {
        let at = self.get(self.section_field(self.loader, Part::Pointer)) as usize;
        self.loader_at = at;
        self.loader_size = section.bytes.len();
        self.loader_symbols_at = at + section.symbols_at;
        self.loader_symbols = section.symbols;
        self.entries_at = at + section.entries_at;
        self.entries = section.entries;
        self.ids_at = at + section.ids_at;
        self.ids_length = section.ids_length;
        self.ids = section.ids;
        self.loader_strings_at = at + section.strings_at;
        self.loader_strings_length = section.strings_length;
        for head in Head::ALL {
            self.fields.extend(self.head(head));
        }
        self.record_loader_symbols();
        self.record_entries();
    }

    /// The debug section and the lengths of its strings, once its header is placed.
    pub(super) fn record_debug(&mut self, section: DebugSection) {
        if section.number == 0 {
            return;
        }
        self.debug = section.number;
        self.debug_at = self.get(self.section_field(self.debug, Part::Pointer)) as usize;
        self.debug_size = self.get(self.section_field(self.debug, Part::Size)) as usize;
        self.debug_names = section.names;
        let lengths: Vec<Field> = self
            .debug_names
            .iter()
            .map(|&name| self.debug_length_field(name))
            .collect();
        self.fields.extend(lengths);
    }

    /// The first loader symbols, and the lengths of their names.
    fn record_loader_symbols(&mut self) {
        const PARTS: [(usize, usize); 8] = [
            (0, 4),
            (0, 8),
            (4, 4),
            (8, 4),
            (12, 2),
            (14, 1),
            (16, 4),
            (20, 4),
        ];
        for i in 0..self.loader_symbols.len().min(16) {
            self.record_row(self.loader_symbol_at(i), &PARTS);
            if self.loader_symbols[i].string {
                let length_at = self.loader_strings_at + self.loader_name_offset(i) - 2;
                self.record_row(length_at, &[(0, 2)]);
            }
        }
    }

    /// The first relocation entries.
    fn record_entries(&mut self) {
        for i in 0..self.entries.len().min(16) {
            self.fields.push(self.entry_address_field(i));
            self.fields.push(self.entry_symbol_field(i));
            self.fields.push(self.entry_type_field(i));
            self.fields.push(self.entry_section_field(i));
        }
    }
}
