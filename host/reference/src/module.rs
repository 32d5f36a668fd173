//! Document 01, "The loadable module".

use crate::bytes::{by, number};
use crate::fields::{Fields, Sort};
use crate::opening::{self, file_header, header_at, open, Section, Summary};
use crate::symbols::short_name;
use crate::{
    refuse, refuse_at, Refusal, ADDRESS, IMAGE_LIMIT, INDEX, LIMIT, LOADER, LOADER_SYMBOL_LIMIT,
    LREL, LSYM, MODULE, OVERLAP, RELOCATION_LIMIT, THREAD,
};
use std::ops::Range;

#[derive(Clone, Debug, PartialEq, Eq)]
pub struct Module {
    pub bits: u64,
    /// Section numbers.
    pub text: u64,
    pub data: u64,
    pub bss: u64,
    pub loader: u64,
    pub text_address: u64,
    pub data_address: u64,
    pub bss_address: u64,
    pub text_size: u64,
    pub data_size: u64,
    pub bss_size: u64,
    /// Length of the data image.
    pub data_image: u64,
    /// How many of each.
    pub loader_symbols: u64,
    pub relocations: u64,
    pub import_ids: u64,
    /// Section 0: there is none.
    pub entry_section: u64,
    pub entry_address: u64,
    pub toc_section: u64,
    pub toc_address: u64,
}

#[derive(Clone, Debug, PartialEq, Eq)]
pub struct LoaderSymbol {
    /// From 3.
    pub index: u64,
    pub value: u64,
    pub section: u64,
    /// `l_smtype`.
    pub kind: u64,
    /// `l_smclas`.
    pub class: u64,
    pub file_id: u64,
    pub parameter: u64,
    /// Where the name lies in the file, without its closing zero.
    pub name: Range<usize>,
}

impl LoaderSymbol {
    pub fn imported(&self) -> bool {
        self.kind & 0x40 != 0
    }

    /// An import whose address the plan names.
    pub fn from_plan(&self) -> bool {
        self.imported() && self.file_id != 0
    }
}

#[derive(Clone, Debug, PartialEq, Eq)]
pub struct Relocation {
    pub address: u64,
    pub symbol: u64,
    /// The type's two bytes.
    pub kind: u64,
    pub section: u64,
    pub subtract: bool,
    /// In bits: 32 or 64.
    pub width: u64,
}

/// An accepted module with its tables.
#[derive(Clone, Debug)]
pub(crate) struct Loaded {
    pub module: Module,
    /// Raw bytes in the file; empty where a section of size 0 has none.
    pub text: Range<usize>,
    pub data: Range<usize>,
    pub symbols: Vec<LoaderSymbol>,
    pub entries: Vec<Relocation>,
    pub summary: Summary,
    pub tables: Tables,
}

/// The module's own facts.
pub fn module(file: &[u8]) -> Result<Module, Refusal> {
    Ok(load(file)?.module)
}

/// The relocation entries of an accepted module.
pub fn relocations(file: &[u8]) -> Result<Vec<Relocation>, Refusal> {
    Ok(load(file)?.entries)
}

/// All loader symbols of an accepted module.
pub fn loader_symbols(file: &[u8]) -> Result<Vec<LoaderSymbol>, Refusal> {
    Ok(load(file)?.symbols)
}

/// The loader symbol at `index`, from 3.
pub fn loader_symbol(file: &[u8], index: u64) -> Result<LoaderSymbol, Refusal> {
    let loaded = load(file)?;
    if index < 3 || index - 3 >= loaded.module.loader_symbols {
        return refuse(INDEX, index);
    }
    Ok(loaded.symbols[index as usize - 3].clone())
}

/// Where the name of the loader symbol at `index` lies.
pub fn loader_symbol_name(file: &[u8], index: u64) -> Result<Range<usize>, Refusal> {
    Ok(loader_symbol(file, index)?.name)
}

/// The three strings of import id `id`: 3 id, 3 id + 1, 3 id + 2.
pub fn import_path(file: &[u8], id: u64) -> Result<Range<usize>, Refusal> {
    import_string(file, id, 0)
}

pub fn import_base(file: &[u8], id: u64) -> Result<Range<usize>, Refusal> {
    import_string(file, id, 1)
}

pub fn import_member(file: &[u8], id: u64) -> Result<Range<usize>, Refusal> {
    import_string(file, id, 2)
}

fn import_string(file: &[u8], id: u64, part: u64) -> Result<Range<usize>, Refusal> {
    let loaded = load(file)?;
    if id >= loaded.module.import_ids {
        return refuse(INDEX, id);
    }
    Ok(id_strings(file, &loaded)[(3 * id + part) as usize].clone())
}

/// The three strings of every import id.
pub fn import_ids(file: &[u8]) -> Result<Vec<[Range<usize>; 3]>, Refusal> {
    let loaded = load(file)?;
    let strings = id_strings(file, &loaded);
    let of = |id: usize| [0, 1, 2].map(|part| strings[3 * id + part].clone());
    Ok((0..loaded.module.import_ids as usize).map(of).collect())
}

/// The zero-ended strings of the id table, without their zeros.
fn id_strings(file: &[u8], loaded: &Loaded) -> Vec<Range<usize>> {
    let mut strings = Vec::new();
    let mut start = loaded.tables.ids.start;
    for at in loaded.tables.ids.clone() {
        if file[at] == 0 {
            strings.push(start..at);
            start = at + 1;
        }
    }
    strings
}

/// Reads everything of the module, in the order of 01.
pub(crate) fn load(file: &[u8]) -> Result<Loaded, Refusal> {
    let summary = open(file)?;
    let bits = summary.bits;
    let parts = read_parts(&summary)?;
    let aux = read_aux_header(file, bits);
    judge_aux_header(&aux, &parts)?;
    judge_raw_data(&parts)?;
    judge_places(&aux, &parts)?;
    let data_image = read_data_image(&parts)?;

    // The loader section: header and tables, then symbols, then entries.
    let tables = read_tables(file, bits, &raw_of(parts.loader.section))?;
    let symbols = read_symbols(file, bits, &tables, &parts)?;
    let entries = read_relocations(file, bits, &tables, &parts)?;
    Ok(Loaded {
        module: facts(bits, &parts, &aux, &tables, data_image),
        text: raw_of(parts.text.section),
        data: raw_of(parts.data.section),
        symbols,
        entries,
        tables,
        summary,
    })
}

/// A section with its number and where its header starts.
struct Part<'a> {
    number: u64,
    header: usize,
    section: &'a Section,
}

/// The sections that a module has once each.
struct Parts<'a> {
    text: Part<'a>,
    data: Part<'a>,
    bss: Part<'a>,
    loader: Part<'a>,
}

/// MODULE 0, MODULE 1 and THREAD.
fn read_parts(summary: &Summary) -> Result<Parts<'_>, Refusal> {
    if summary.opthdr < by(summary.bits, 72, 110) as u64 {
        return refuse(MODULE, 0);
    }

    // Exactly one each.
    let parts = Parts {
        text: only(summary, opening::TEXT)?,
        data: only(summary, opening::DATA)?,
        bss: only(summary, opening::BSS)?,
        loader: only(summary, opening::LOADER)?,
    };

    // The lowest section first.
    for (i, section) in summary.sections.iter().enumerate() {
        if section.flags == opening::TDATA || section.flags == opening::TBSS {
            let n = i as u64 + 1;
            return refuse_at(THREAD, n, header_at(summary, n));
        }
    }
    Ok(parts)
}

/// The auxiliary header, 002 table 2.
struct AuxHeader {
    text_size: u64,
    data_size: u64,
    bss_size: u64,
    entry: u64,
    text_start: u64,
    data_start: u64,
    toc: u64,
    /// Section numbers.
    entry_section: u64,
    text: u64,
    data: u64,
    toc_section: u64,
    loader: u64,
    bss: u64,
}

/// Where it has addresses, in XCOFF32 and in XCOFF64.
pub(crate) const AUX_ENTRY: (usize, usize) = (16, 80);
pub(crate) const AUX_TEXT_START: (usize, usize) = (20, 8);
pub(crate) const AUX_DATA_START: (usize, usize) = (24, 16);
pub(crate) const AUX_TOC: (usize, usize) = (28, 24);

fn read_aux_header(file: &[u8], bits: u64) -> AuxHeader {
    let aux = file_header(bits);
    let word = |(narrow, wide)| number(file, aux + by(bits, narrow, wide), by(bits, 4, 8));
    let section = |at| number(file, aux + at, 2);
    AuxHeader {
        text_size: word((4, 56)),
        data_size: word((8, 64)),
        bss_size: word((12, 72)),
        entry: word(AUX_ENTRY),
        text_start: word(AUX_TEXT_START),
        data_start: word(AUX_DATA_START),
        toc: word(AUX_TOC),
        entry_section: section(32),
        text: section(34),
        data: section(36),
        toc_section: section(38),
        loader: section(40),
        bss: section(42),
    }
}

/// MODULE 2: the auxiliary header says what the section headers say.
fn judge_aux_header(aux: &AuxHeader, parts: &Parts) -> Result<(), Refusal> {
    let (text, data, bss) = (&parts.text, &parts.data, &parts.bss);
    let numbers = [text.number, data.number, bss.number, parts.loader.number];
    let sizes = [text.section.size, data.section.size, bss.section.size];
    let starts = [text.section.paddr, data.section.paddr];
    let same = [aux.text, aux.data, aux.bss, aux.loader] == numbers
        && [aux.text_size, aux.data_size, aux.bss_size] == sizes
        && [aux.text_start, aux.data_start] == starts;
    if !same {
        return refuse(MODULE, 2);
    }
    Ok(())
}

/// MODULE 3.
fn judge_raw_data(parts: &Parts) -> Result<(), Refusal> {
    for part in [&parts.text, &parts.data, &parts.loader] {
        if part.section.size != 0 && part.section.raw.is_none() {
            return refuse(MODULE, 3);
        }
    }
    Ok(())
}

/// MODULE 4: entry and TOC.
fn judge_places(aux: &AuxHeader, parts: &Parts) -> Result<(), Refusal> {
    for number in [aux.entry_section, aux.toc_section] {
        if number != 0 && number != parts.text.number && number != parts.data.number {
            return refuse(MODULE, 4);
        }
    }
    Ok(())
}

/// The length of the data image: ADDRESS and LIMIT 4.
fn read_data_image(parts: &Parts) -> Result<u64, Refusal> {
    let (data, bss) = (parts.data.section, parts.bss.section);
    let length = if bss.size == 0 {
        u128::from(data.size)
    } else {
        if u128::from(bss.paddr) < u128::from(data.paddr) + u128::from(data.size) {
            return refuse_at(ADDRESS, parts.bss.number, parts.bss.header);
        }
        u128::from(bss.paddr - data.paddr) + u128::from(bss.size)
    };
    if length > u128::from(IMAGE_LIMIT) {
        return refuse(LIMIT, 4);
    }
    Ok(length as u64)
}

fn facts(bits: u64, parts: &Parts, aux: &AuxHeader, tables: &Tables, data_image: u64) -> Module {
    Module {
        bits,
        text: parts.text.number,
        data: parts.data.number,
        bss: parts.bss.number,
        loader: parts.loader.number,
        text_address: parts.text.section.paddr,
        data_address: parts.data.section.paddr,
        bss_address: parts.bss.section.paddr,
        text_size: parts.text.section.size,
        data_size: parts.data.section.size,
        bss_size: parts.bss.section.size,
        data_image,
        loader_symbols: tables.symbol_count,
        relocations: tables.relocation_count,
        import_ids: tables.id_count,
        entry_section: aux.entry_section,
        entry_address: aux.entry,
        toc_section: aux.toc_section,
        toc_address: aux.toc,
    }
}

/// The only section with this kind; MODULE 1 if it isn't alone.
fn only(summary: &Summary, flags: u64) -> Result<Part<'_>, Refusal> {
    let mut found = None;
    for (i, section) in summary.sections.iter().enumerate() {
        if section.flags == flags {
            if found.is_some() {
                return refuse(MODULE, 1);
            }
            let number = i as u64 + 1;
            found = Some(Part {
                number,
                header: header_at(summary, number),
                section,
            });
        }
    }
    match found {
        Some(part) => Ok(part),
        None => refuse(MODULE, 1),
    }
}

/// Raw data in the file; empty where there is none.
fn raw_of(section: &Section) -> Range<usize> {
    match &section.raw {
        Some(range) => range.clone(),
        None => 0..0,
    }
}

/// The loader section and its tables, as parts of the file.
#[derive(Clone, Debug)]
pub(crate) struct Tables {
    pub section: Range<usize>,
    symbol_count: u64,
    relocation_count: u64,
    id_count: u64,
    pub symbols: Range<usize>,
    pub relocations: Range<usize>,
    pub ids: Range<usize>,
    pub strings: Range<usize>,
    /// Where the string table has zeros, in order.
    zeros: Vec<usize>,
}

/// The loader section's header, with what XCOFF32 leaves to be worked out.
struct LoaderHeader {
    version: u64,
    symbol_count: u64,
    relocation_count: u64,
    id_length: u64,
    id_count: u64,
    string_length: u64,
    id_offset: u64,
    string_offset: u64,
    symbol_offset: u64,
    relocation_offset: u64,
}

/// Length of the loader section's header.
pub(crate) fn loader_header_length(bits: u64) -> usize {
    by(bits, 32, 56)
}

/// Length of a relocation entry.
pub(crate) fn relocation_length(bits: u64) -> usize {
    by(bits, 12, 16)
}

/// The header at the start of the loader section.
fn read_loader_header(file: &[u8], bits: u64, at: usize) -> LoaderHeader {
    let symbol_count = number(file, at + 4, 4);
    let (symbol_offset, relocation_offset) = if bits == 32 {
        (32, 32 + 24 * symbol_count)
    } else {
        (number(file, at + 40, 8), number(file, at + 48, 8))
    };
    LoaderHeader {
        version: number(file, at, 4),
        symbol_count,
        relocation_count: number(file, at + 8, 4),
        id_length: number(file, at + 12, 4),
        id_count: number(file, at + 16, 4),
        string_length: number(file, at + by(bits, 24, 20), 4),
        id_offset: number(file, at + by(bits, 20, 24), by(bits, 4, 8)),
        string_offset: number(file, at + by(bits, 28, 32), by(bits, 4, 8)),
        symbol_offset,
        relocation_offset,
    }
}

/// LOADER, and LIMIT 2 and 3, all at the start of the loader section; without raw
/// data its pointer is 0.
fn read_tables(file: &[u8], bits: u64, loader: &Range<usize>) -> Result<Tables, Refusal> {
    if loader.len() < loader_header_length(bits) {
        return refuse_at(LOADER, 0, loader.start);
    }
    let header = read_loader_header(file, bits, loader.start);
    if header.version != 1 && header.version != 2 {
        return refuse_at(LOADER, 1, loader.start);
    }
    if header.symbol_count > LOADER_SYMBOL_LIMIT {
        return refuse_at(LIMIT, 2, loader.start);
    }
    if header.relocation_count > RELOCATION_LIMIT {
        return refuse_at(LIMIT, 3, loader.start);
    }
    let symbols_length = 24 * header.symbol_count;
    let symbols = table(loader, header.symbol_offset, symbols_length, 2)?;
    let relocations_length = relocation_length(bits) as u64 * header.relocation_count;
    let relocations = table(loader, header.relocation_offset, relocations_length, 3)?;
    let ids = table(loader, header.id_offset, header.id_length, 4)?;
    let zeros = file[ids.clone()].iter().filter(|&&byte| byte == 0).count();
    if (zeros as u64) < 3 * header.id_count {
        return refuse_at(LOADER, 4, loader.start);
    }
    let strings = table(loader, header.string_offset, header.string_length, 5)?;
    let zeros = strings.clone().filter(|&at| file[at] == 0).collect();
    Ok(Tables {
        section: loader.clone(),
        symbol_count: header.symbol_count,
        relocation_count: header.relocation_count,
        id_count: header.id_count,
        symbols,
        relocations,
        ids,
        strings,
        zeros,
    })
}

/// A table inside the loader section; of length 0 its offset is ignored.
fn table(
    loader: &Range<usize>,
    offset: u64,
    length: u64,
    item: u64,
) -> Result<Range<usize>, Refusal> {
    if length == 0 {
        return Ok(loader.start..loader.start);
    }
    if u128::from(offset) + u128::from(length) > loader.len() as u128 {
        return refuse_at(LOADER, item, loader.start);
    }
    let start = loader.start + offset as usize;
    Ok(start..start + length as usize)
}

/// All loader symbols.
fn read_symbols(
    file: &[u8],
    bits: u64,
    tables: &Tables,
    parts: &Parts,
) -> Result<Vec<LoaderSymbol>, Refusal> {
    let mut symbols = Vec::new();
    for i in 0..tables.symbol_count {
        symbols.push(read_symbol(file, bits, tables, parts, i)?);
    }
    Ok(symbols)
}

/// The `i`-th loader symbol of the table, whose index is `i` + 3: LSYM.
fn read_symbol(
    file: &[u8],
    bits: u64,
    tables: &Tables,
    parts: &Parts,
    i: u64,
) -> Result<LoaderSymbol, Refusal> {
    let index = i + 3;
    let at = tables.symbols.start + 24 * i as usize;
    let mut symbol = LoaderSymbol {
        index,
        value: number(file, at + by(bits, 8, 0), by(bits, 4, 8)),
        section: number(file, at + 12, 2),
        kind: number(file, at + 14, 1),
        class: number(file, at + 15, 1),
        file_id: number(file, at + 16, 4),
        parameter: number(file, at + 20, 4),
        name: 0..0,
    };
    if !symbol_allowed(&symbol, tables.id_count, parts) {
        return refuse_at(LSYM, index, at);
    }
    symbol.name = match symbol_name(file, bits, tables, at) {
        Some(name) => name,
        None => return refuse_at(LSYM, index, at),
    };
    Ok(symbol)
}

/// Whether all is good but the name.
fn symbol_allowed(symbol: &LoaderSymbol, id_count: u64, parts: &Parts) -> bool {
    if symbol.kind & 7 > 3 {
        return false;
    }
    if symbol.imported() {
        return symbol.section == 0 && (symbol.file_id == 0 || symbol.file_id < id_count);
    }
    let numbers = [parts.text.number, parts.data.number, parts.bss.number];
    symbol.file_id == 0 && numbers.contains(&symbol.section)
}

/// The name of the loader symbol at `at`: in its entry, or in the string table.
fn symbol_name(file: &[u8], bits: u64, tables: &Tables, at: usize) -> Option<Range<usize>> {
    if bits == 32 && number(file, at, 4) != 0 {
        return Some(short_name(file, at));
    }
    let offset = number(file, at + by(bits, 4, 8), 4);
    string_name(file, tables, offset)
}

/// A name of the loader's string table, without its closing zero, the first one in
/// it. Names may share their bytes, so none is searched.
fn string_name(file: &[u8], tables: &Tables, offset: u64) -> Option<Range<usize>> {
    let strings = &tables.strings;
    if offset < 2 || offset > strings.len() as u64 {
        return None;
    }
    let start = strings.start + offset as usize;
    let length = number(file, start - 2, 2) as usize;
    if length == 0 || start + length > strings.end {
        return None;
    }
    let last = start + length - 1;
    let first = tables.zeros.partition_point(|&zero| zero < start);
    if tables.zeros.get(first) != Some(&last) {
        return None;
    }
    Some(start..last)
}

/// All relocation entries, each judged with those before it.
fn read_relocations(
    file: &[u8],
    bits: u64,
    tables: &Tables,
    parts: &Parts,
) -> Result<Vec<Relocation>, Refusal> {
    let mut entries = Vec::new();
    let mut text = Fields::new(parts.text.section.size);
    let mut data = Fields::new(parts.data.section.size);
    for i in 0..tables.relocation_count {
        let at = tables.relocations.start + relocation_length(bits) * i as usize;
        let entry = read_relocation(file, bits, at);
        if entry.symbol == 0xFFFF_FFFF || entry.symbol == 0xFFFF_FFFE {
            return refuse_at(THREAD, i, at);
        }
        if !entry_allowed(&entry, tables.symbol_count, parts, bits) {
            return refuse_at(LREL, i, at);
        }
        let (fields, section) = if entry.section == parts.text.number {
            (&mut text, parts.text.section)
        } else {
            (&mut data, parts.data.section)
        };
        let place = (entry.address - section.paddr) as usize;
        if !fields.add(place, Sort::of_width(entry.width)) {
            return refuse_at(OVERLAP, i, at);
        }
        entries.push(entry);
    }
    Ok(entries)
}

/// The relocation entry at `at`.
fn read_relocation(file: &[u8], bits: u64, at: usize) -> Relocation {
    let kind = number(file, at + 8, 2);
    Relocation {
        address: number(file, at, by(bits, 4, 8)),
        symbol: number(file, at + by(bits, 4, 12), 4),
        kind,
        section: number(file, at + 10, 2),
        subtract: kind & 0xFF == 1,
        width: width_of(kind),
    }
}

/// The high byte's low six bits plus one; its two top bits are ignored.
pub fn width_of(kind: u64) -> u64 {
    ((kind >> 8) & 0x3F) + 1
}

/// Whether an entry is good by itself: LREL where it isn't.
fn entry_allowed(entry: &Relocation, symbol_count: u64, parts: &Parts, bits: u64) -> bool {
    let section = if entry.section == parts.text.number {
        parts.text.section
    } else if entry.section == parts.data.number {
        parts.data.section
    } else {
        return false;
    };
    let start = u128::from(section.paddr);
    let end = start + u128::from(section.size);
    let field = u128::from(entry.address);
    type_allowed(entry.kind, bits)
        && field >= start
        && field + u128::from(entry.width / 8) <= end
        && entry.symbol < 3 + symbol_count
}

/// Whether a type's low byte and width are among those of 01.
pub fn type_allowed(kind: u64, bits: u64) -> bool {
    let low = kind & 0xFF;
    let width = width_of(kind);
    (low == 0x00 || low == 0x0C || low == 0x0D || low == 0x01)
        && (width == 32 || (bits == 64 && width == 64))
}
