//! Modules made for tests and benchmarks: as small as the rules allow, with the sections and relocation entries asked for.

use xcoff::Format;

/// A relocation entry. `section` is 1 for text, 2 for data; `kind` is the relocation type, such as 1F00.
#[derive(Clone, Copy)]
pub struct Entry {
    pub address: u64,
    pub symbol: u32,
    pub kind: u16,
    pub section: u16,
}

/// What a loader symbol is: defined at the start of text, of data or of bss, imported from import id 1, or imported from
/// no file.
#[derive(Clone, Copy)]
#[allow(dead_code)] // not every test has each
pub enum Symbol {
    Text,
    Data,
    Bss,
    Import,
    Deferred,
}

impl Symbol {
    /// Its value, section number, type and import id.
    fn fields(self, m: &Module) -> (u64, u16, u8, u32) {
        match self {
            Symbol::Text => (m.text_address, 1, 0, 0),
            Symbol::Data => (m.data_address, 2, 0, 0),
            Symbol::Bss => (m.data_address + m.data_size, 3, 0, 0),
            Symbol::Import => (0, 0, 0x40, 1),
            Symbol::Deferred => (0, 0, 0x40, 0),
        }
    }
}

/// What a module is made of. Its bss is empty, and text, data, bss and loader are sections 1 to 4.
#[derive(Clone)]
pub struct Module {
    pub format: Format,
    pub text_address: u64,
    pub text_size: u64,
    pub data_address: u64,
    pub data_size: u64,
    /// Loader symbols, all of one name.
    pub symbols: Vec<Symbol>,
    /// How long it is: `s` so many times. XCOFF32 has a name of up to 8 bytes in each symbol, all others are the one string.
    pub name: u16,
    pub entries: Vec<Entry>,
}

impl Module {
    pub fn new(format: Format) -> Module {
        Module {
            format,
            text_address: 0x1000_0000,
            text_size: 0x100,
            data_address: 0x2000_0000,
            data_size: 0x100,
            symbols: Vec::new(),
            name: 1,
            entries: Vec::new(),
        }
    }

    /// A field of 8 bytes for each list of entries, from an address of section 1 or 2 on; an entry by its symbol, and whether it
    /// subtracts, which is one above the kind.
    #[allow(dead_code)] // not every test has it
    pub fn relocate(&mut self, section: u16, start: u64, kind: u16, fields: &[&[(u32, bool)]]) {
        for (n, entries) in fields.iter().enumerate() {
            self.entries
                .extend(entries.iter().map(|&(symbol, subtracts)| Entry {
                    address: start + 8 * n as u64,
                    symbol,
                    kind: kind + u16::from(subtracts),
                    section,
                }));
        }
    }

    /// The file.
    pub fn bytes(&self) -> Vec<u8> {
        let mut out = Writer {
            format: self.format,
            bytes: Vec::new(),
        };
        let (header, aux, section) = match self.format {
            Format::Xcoff32 => (20, 72, 40),
            Format::Xcoff64 => (24, 110, 72),
        };
        let text = header + aux + 4 * section;
        let data = text + self.text_size;
        let loader = data + self.data_size;
        let table = self.loader();
        out.file_header(aux);
        self.aux_header(&mut out);
        out.section(b".text", self.text_address, self.text_size, text, 0x20);
        out.section(b".data", self.data_address, self.data_size, data, 0x40);
        out.section(b".bss", self.data_address + self.data_size, 0, 0, 0x80);
        out.section(b".loader", 0, table.len() as u64, loader, 0x1000);
        assert_eq!(out.bytes.len() as u64, text);
        out.bytes.resize(loader as usize, 0);
        out.bytes.extend(table);
        out.bytes
    }

    fn aux_header(&self, out: &mut Writer) {
        let start = out.bytes.len();
        match self.format {
            Format::Xcoff32 => {
                out.zeros(4);
                for n in [
                    self.text_size,
                    self.data_size,
                    0,
                    0,
                    self.text_address,
                    self.data_address,
                    0,
                ] {
                    out.word(n);
                }
            }
            Format::Xcoff64 => {
                out.zeros(8);
                for n in [self.text_address, self.data_address, 0] {
                    out.word(n);
                }
            }
        }
        // sections of entry, text, data, TOC, loader, bss
        for n in [0, 1, 2, 0, 4, 3] {
            out.u16(n);
        }
        match self.format {
            Format::Xcoff32 => out.zeros(start + 72 - out.bytes.len()),
            Format::Xcoff64 => {
                out.zeros(start + 56 - out.bytes.len());
                for n in [self.text_size, self.data_size, 0] {
                    out.word(n);
                }
                out.zeros(start + 110 - out.bytes.len());
            }
        }
    }

    /// The import ids: two where a symbol needs one.
    fn import_ids(&self) -> &'static [u8] {
        match self.symbols.iter().any(|s| matches!(s, Symbol::Import)) {
            true => b"/lib\0\0\0\0libc.a\0shr.o\0",
            false => b"",
        }
    }

    /// The loader section: header, symbols, relocation entries, import ids, strings.
    fn loader(&self) -> Vec<u8> {
        let mut out = Writer {
            format: self.format,
            bytes: Vec::new(),
        };
        self.loader_header(&mut out);
        for symbol in &self.symbols {
            self.loader_symbol(symbol, &mut out);
        }
        for entry in &self.entries {
            out.relocation(entry);
        }
        out.bytes.extend(self.import_ids());
        out.bytes.extend(self.strings());
        out.bytes
    }

    /// The name behind its length, which counts the zero at its end.
    fn strings(&self) -> Vec<u8> {
        if self.name_in_symbol() {
            return Vec::new();
        }
        let mut string = (self.name + 1).to_be_bytes().to_vec();
        string.resize(2 + self.name as usize, b's');
        string.push(0);
        string
    }

    fn name_in_symbol(&self) -> bool {
        self.format == Format::Xcoff32 && self.name <= 8
    }

    fn loader_header(&self, out: &mut Writer) {
        let count = self.symbols.len() as u64;
        let entries = self.entries.len() as u64;
        let ids = self.import_ids();
        let strings = self.strings().len() as u32;
        out.u32(1);
        out.u32(count as u32);
        out.u32(entries as u32);
        out.u32(ids.len() as u32);
        out.u32(if ids.is_empty() { 0 } else { 2 });
        match self.format {
            Format::Xcoff32 => {
                let rest = 32 + 24 * count + 12 * entries;
                out.word(rest);
                out.u32(strings);
                out.word(if strings == 0 {
                    0
                } else {
                    rest + ids.len() as u64
                });
            }
            Format::Xcoff64 => {
                let symbols = 56;
                let relocations = symbols + 24 * count;
                let rest = relocations + 16 * entries;
                out.u32(strings);
                for n in [rest, rest + ids.len() as u64, symbols, relocations] {
                    out.word(n);
                }
            }
        }
    }

    fn loader_symbol(&self, symbol: &Symbol, out: &mut Writer) {
        let (value, section, kind, id) = symbol.fields(self);
        match self.format {
            Format::Xcoff32 => {
                match self.name_in_symbol() {
                    true => {
                        out.bytes.extend(vec![b's'; self.name as usize]);
                        out.zeros(8 - self.name as usize);
                    }
                    false => {
                        out.zeros(4);
                        out.u32(2);
                    }
                }
                out.word(value);
            }
            Format::Xcoff64 => {
                out.word(value);
                out.u32(2);
            }
        }
        out.u16(section);
        out.bytes.extend([kind, 0]);
        out.u32(id);
        out.zeros(4);
    }
}

struct Writer {
    format: Format,
    bytes: Vec<u8>,
}

impl Writer {
    fn relocation(&mut self, e: &Entry) {
        self.word(e.address);
        if self.format == Format::Xcoff32 {
            self.u32(e.symbol);
        }
        self.u16(e.kind);
        self.u16(e.section);
        if self.format == Format::Xcoff64 {
            self.u32(e.symbol);
        }
    }

    fn zeros(&mut self, n: usize) {
        self.bytes.resize(self.bytes.len() + n, 0);
    }

    fn u16(&mut self, n: u16) {
        self.bytes.extend(n.to_be_bytes());
    }

    fn u32(&mut self, n: u32) {
        self.bytes.extend(n.to_be_bytes());
    }

    /// 4 bytes in XCOFF32, 8 in XCOFF64.
    fn word(&mut self, n: u64) {
        match self.format {
            Format::Xcoff32 => self.u32(n.try_into().expect("an XCOFF32 address")),
            Format::Xcoff64 => self.bytes.extend(n.to_be_bytes()),
        }
    }

    fn file_header(&mut self, aux: u64) {
        match self.format {
            Format::Xcoff32 => self.u16(0x01DF),
            Format::Xcoff64 => self.u16(0x01F7),
        }
        self.u16(4);
        self.zeros(12);
        self.u16(aux as u16);
        self.u16(0);
        if self.format == Format::Xcoff64 {
            self.zeros(4);
        }
    }

    fn section(&mut self, name: &[u8], address: u64, size: u64, offset: u64, flags: u32) {
        self.bytes.extend(name);
        self.zeros(8 - name.len());
        for n in [address, address, size, offset, 0, 0] {
            self.word(n);
        }
        match self.format {
            Format::Xcoff32 => self.zeros(4),
            Format::Xcoff64 => self.zeros(8),
        }
        self.u32(flags);
        if self.format == Format::Xcoff64 {
            self.zeros(4);
        }
    }
}
