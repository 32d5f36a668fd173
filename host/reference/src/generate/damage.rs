//! Damages, each aimed at one rule of document 01.
//!
//! `STEPS` damage a file in place. They are listed in the order in which 01
//! checks; a step's `stage` is its place in that order, so that of two damages
//! in one file the one with the lower stage must be given. `ROWS` make whole
//! cases: symbols, csects, look-ups, plans, buffers and sheets. Those of S-records
//! are in `records`, those of debugger names in `debug`, those of visibilities in
//! `visibility`, those of offsets in `offsets`, those of sizes in `sizes`,
//! those of objects in `objects`, those of lines in `lines`,
//! those of the address table in `benches`, those of moved modules in `rewrites`,
//! those of salvage in `salvages`.

use super::make::{self, top, Aux, Field, Head, Made, MadeEntry, Part, Wish};
use super::plans::{buffers, fitting_plan, past_end, reveal_module, reveal_open};
use super::rng::Rng;
use super::{
    benches, debug, lines, objects, offsets, records, rewrites, salvages, sizes, visibility, Op,
};
use crate::bytes::put;
use crate::opening::{
    BSS, DATA, DELETED, DWARF, INFO, KINDS, LOADER as LOADER_KIND, OVRFLO, TBSS, TDATA, TEXT,
};
use crate::sheet::Form;
use crate::symbols::{is_debug_class, CM, ER, LD, SD};
use crate::*;

pub struct Step {
    pub name: &'static str,
    pub number: u64,
    pub stage: u64,
    /// None where this file doesn't suit.
    pub hurt: fn(&mut Made, &mut Rng) -> Option<Refusal>,
}

pub struct Row {
    pub name: &'static str,
    pub number: u64,
    pub make: fn(&mut Rng) -> Option<Hurt>,
}

const fn step(
    name: &'static str,
    number: u64,
    stage: u64,
    hurt: fn(&mut Made, &mut Rng) -> Option<Refusal>,
) -> Step {
    Step {
        name,
        number,
        stage,
        hurt,
    }
}

pub const fn row(name: &'static str, number: u64, make: fn(&mut Rng) -> Option<Hurt>) -> Row {
    Row { name, number, make }
}

/// A damaged case: this operation must give this refusal.
pub struct Hurt {
    pub made: Made,
    pub op: Op,
    pub refusal: Refusal,
}

/// One whose item names no place in the file.
fn given(number: u64, item: u64) -> Option<Refusal> {
    given_at(number, item, 0)
}

fn given_at(number: u64, item: u64, at: usize) -> Option<Refusal> {
    Some(Refusal {
        number,
        item,
        offset: at as u64,
    })
}

fn of_section(made: &Made, number: u64, n: u64) -> Option<Refusal> {
    given_at(number, n, made.section_at(n))
}

/// One of the loader section, wherever its header says that it is.
pub(super) fn of_loader(made: &Made, number: u64, item: u64) -> Option<Refusal> {
    let at = made.get(made.section_field(made.loader, Part::Pointer));
    given_at(number, item, at as usize)
}

fn of_loader_symbol(made: &Made, i: usize) -> Option<Refusal> {
    given_at(LSYM, i as u64 + 3, made.loader_symbol_at(i))
}

fn of_entry(made: &Made, number: u64, i: usize) -> Option<Refusal> {
    given_at(number, i as u64, made.entry_at(i))
}

/// Stages up to this one are found in opening.
pub const OPENING: u64 = 8;

pub static STEPS: &[Step] = &[
    // Opening.
    step("limit file", LIMIT, 1, |made, rng| {
        let over = rng.pick(&[1, 1, 2, 100]);
        made.bytes.resize(FILE_LIMIT as usize + over, 0);
        given(LIMIT, 0)
    }),
    step("short empty", SHORT, 2, |made, rng| {
        made.bytes.truncate(rng.below(2) as usize);
        given(SHORT, 0)
    }),
    step("magic", MAGIC, 3, |made, rng| {
        let magic = rng.pick(&[
            0, 0x01DE, 0x01E0, 0x01EF, 0x01F6, 0x01F8, 0xDF01, 0xF701, 0xFFFF,
        ]);
        put(&mut made.bytes, 0, 2, magic);
        given(MAGIC, 0)
    }),
    step("short file header", SHORT, 4, |made, rng| {
        made.bytes
            .truncate(rng.between(2, made.header() as u64 - 1) as usize);
        given(SHORT, 0)
    }),
    step("limit sections", LIMIT, 5, |made, rng| {
        let count = rng.pick(&[33, 33, 34, 0x00FF, 0x7FFF, 0x8000, 0xFFFF]);
        made.put(made.section_count_field(), count);
        given(LIMIT, 1)
    }),
    step("short header area", SHORT, 6, |made, rng| {
        let end = made.headers_end() as u64;
        made.bytes
            .truncate(rng.between(made.header() as u64, end - 1) as usize);
        given(SHORT, 0)
    }),
    step("short by f_opthdr", SHORT, 6, |made, rng| {
        let rest = made.headers_end() - made.opthdr;
        let least = (made.bytes.len() + 1 - rest) as u64;
        if least > 0xFFFF {
            return None;
        }
        let opthdr = rng.pick(&[least, rng_between(least, 0xFFFF), 0xFFFF]);
        made.put(made.opthdr_field(), opthdr);
        given(SHORT, 0)
    }),
    step("short by f_nscns", SHORT, 6, |made, rng| {
        let each = if made.bits == 32 { 40 } else { 72 };
        let least = ((made.bytes.len() - made.header() - made.opthdr) / each + 1) as u64;
        if least > 32 {
            return None;
        }
        made.put(made.section_count_field(), rng.between(least, 32));
        given(SHORT, 0)
    }),
    step("kind", KIND, 7, |made, rng| {
        let n = any_section(made, rng);
        let flags = match rng.below(8) {
            0 => rng.pick(&[0x0000_FFFF, 0xFFFF_0000, 0xFFFF_FFFE, 0x7FFF_FFFF, 0]),
            1 => rng.pick(&[1, 2, 4]),
            2 => rng.pick(&KINDS).0 | rng.pick(&[1, 2, 4]),
            3 => {
                let (one, other) = (rng.pick(&KINDS).0, rng.pick(&KINDS).0);
                if one == other {
                    0x60
                } else {
                    one | other
                }
            }
            _ => {
                let kind = rng.pick(&KINDS).0;
                let high = rng.pick(&[1, 2, 0x8000, 0xFFFF]);
                if kind == DWARF {
                    0x11 | high << 16
                } else {
                    kind | high << 16
                }
            }
        };
        made.put(made.section_field(n, Part::Flags), flags);
        of_section(made, KIND, n)
    }),
    step("bounds raw data", BOUNDS, 7, |made, rng| {
        let n = section_where(made, rng, |flags| {
            flags != BSS && flags != TBSS && flags != OVRFLO && flags != DELETED
        })?;
        kind_stands(made, n)?;
        let length = made.bytes.len() as u64;
        let most = if made.bits == 32 {
            0xFFFF_FFFF
        } else {
            u64::MAX
        };
        let size = made.get(made.section_field(n, Part::Size));
        let (pointer, size) = match rng.below(7) {
            0 => (length + 1, 0),
            1 => (most - rng.below(3), size),
            2 => (most, 1),
            3 => (rng.between(1, length), most),
            4 => (length, 1),
            5 => (most / 2 + 1, most / 2 + 1),
            _ if size >= 1 && size <= length => (length - size + 1, size),
            _ => (length + 1, 0),
        };
        made.put(made.section_field(n, Part::Pointer), pointer);
        made.put(made.section_field(n, Part::Size), size);
        of_section(made, BOUNDS, n)
    }),
    step("address differs", ADDRESS, 7, |made, rng| {
        let n = rng.pick(&[made.text, made.data, made.bss]);
        kind_stands(made, n)?;
        let field = made.section_field(n, rng.pick(&[Part::Paddr, Part::Vaddr]));
        let change = rng.pick(&[1, 1 << 31, u64::MAX, 0x1000]);
        made.put(field, made.get(field) ^ change);
        of_section(made, ADDRESS, n)
    }),
    step("address past the top", ADDRESS, 7, |made, rng| {
        let n = rng.pick(&[made.text, made.data, made.bss]);
        kind_stands(made, n)?;
        let mut size = made.get(made.section_field(n, Part::Size));
        if n == made.bss && rng.chance(50) {
            size = (top(made.bits) - 1) as u64 - rng.below(4);
            made.put(made.section_field(n, Part::Size), size);
        }
        if size == 0 {
            return None;
        }
        let over = rng.pick(&[1, 1, size]);
        let address =
            (top(made.bits) - u128::from(size) + u128::from(over)).min(top(made.bits) - 1);
        if address + u128::from(size) <= top(made.bits) {
            return None;
        }
        made.put(made.section_field(n, Part::Paddr), address as u64);
        made.put(made.section_field(n, Part::Vaddr), address as u64);
        of_section(made, ADDRESS, n)
    }),
    step("bounds symbol table", BOUNDS, 8, |made, rng| {
        let length = made.bytes.len() as u64;
        let most = if made.bits == 32 {
            0xFFFF_FFFF
        } else {
            u64::MAX
        };
        let bytes = 18 * made.symbol_count;
        match rng.below(5) {
            0 => made.put(made.symptr_field(), length - bytes + 1),
            1 => made.put(made.symptr_field(), most - rng.below(20)),
            2 => made.put(made.symptr_field(), most - bytes + 1),
            3 => made.put(
                made.nsyms_field(),
                rng.pick(&[0xFFFF_FFFF, 0x8000_0000, 0x0E38_E38F]),
            ),
            _ => {
                let room = (length - made.symbols_at as u64) / 18;
                made.put(made.nsyms_field(), room + 1);
            }
        }
        given(BOUNDS, 0)
    }),
    step("bounds string length cut", BOUNDS, 8, |made, rng| {
        if raw_end(made) > made.strings_at {
            return None;
        }
        made.bytes
            .truncate(made.strings_at + rng.between(1, 3) as usize);
        given(BOUNDS, 0)
    }),
    step("strings length 1 to 3", STRINGS, 8, |made, rng| {
        put(&mut made.bytes, made.strings_at, 4, rng.between(1, 3));
        given_at(STRINGS, 0, made.strings_at)
    }),
    step("bounds string table", BOUNDS, 8, |made, rng| {
        let left = (made.bytes.len() - made.strings_at) as u64;
        let length = rng.pick(&[left + 1, left + 2, 0xFFFF_FFFF, 0x8000_0000]);
        put(&mut made.bytes, made.strings_at, 4, length);
        given(BOUNDS, 0)
    }),
    // The loadable module.
    step("module 0: f_opthdr", MODULE, 9, |made, rng| {
        let need = if made.bits == 32 { 72 } else { 110 };
        let less = rng.pick(&[need - 1, need - 2, 28, 4, 0]);
        // The rest of the auxiliary header goes behind the section headers.
        let from = made.header() + less;
        let to = made.header() + made.opthdr;
        let end = made.headers_end();
        let cut = made.bytes[from..to].to_vec();
        made.bytes.copy_within(to..end, from);
        made.bytes[end - cut.len()..end].copy_from_slice(&cut);
        made.opthdr = less;
        made.put(made.opthdr_field(), less as u64);
        given(MODULE, 0)
    }),
    step("module 1: one is missing", MODULE, 10, |made, rng| {
        let n = rng.pick(&[made.text, made.data, made.bss, made.loader]);
        let flags = if n == made.bss {
            DELETED
        } else {
            rng.pick(&[DELETED, INFO])
        };
        made.put(made.section_field(n, Part::Flags), flags);
        given(MODULE, 1)
    }),
    step("module 1: one is there twice", MODULE, 10, |made, rng| {
        let n = extra_section(made, rng)?;
        let kind = rng.pick(&[TEXT, DATA, BSS, LOADER_KIND]);
        made.put(made.section_field(n, Part::Flags), kind);
        for part in [Part::Paddr, Part::Vaddr, Part::Size, Part::Pointer] {
            made.put(made.section_field(n, part), 0);
        }
        given(MODULE, 1)
    }),
    step("thread section", THREAD, 11, |made, rng| {
        let n = extra_section(made, rng)?;
        let flags = rng.pick(&[TDATA, TBSS]);
        made.put(made.section_field(n, Part::Flags), flags);
        if flags == TDATA && rng.chance(50) {
            made.put(made.section_field(n, Part::Pointer), 0);
        } else if flags == TDATA {
            made.put(made.section_field(n, Part::Pointer), 1);
            made.put(made.section_field(n, Part::Size), 1);
        }
        of_section(made, THREAD, n)
    }),
    step("module 2: auxiliary header", MODULE, 12, |made, rng| {
        let field = made.aux(rng.pick(&[
            Aux::Text,
            Aux::Data,
            Aux::Bss,
            Aux::Loader,
            Aux::TextSize,
            Aux::DataSize,
            Aux::BssSize,
            Aux::TextStart,
            Aux::DataStart,
        ]));
        let change = 1 << rng.below(8 * field.length as u64);
        made.put(field, made.get(field) ^ change);
        given(MODULE, 2)
    }),
    step("module 3: size but no raw data", MODULE, 13, |made, rng| {
        let n = rng.pick(&[made.text, made.data, made.loader]);
        if made.get(made.section_field(n, Part::Size)) == 0 {
            return None;
        }
        made.put(made.section_field(n, Part::Pointer), 0);
        given(MODULE, 3)
    }),
    step("module 4: entry or TOC section", MODULE, 14, |made, rng| {
        let field = made.aux(rng.pick(&[Aux::EntrySection, Aux::TocSection]));
        let count = made.flags.len() as u64;
        let mut bad = vec![made.bss, made.loader, count + 1, 0xFFFF, 0xFFFE, 0x8000];
        bad.extend([made.text + 0x100, made.data + 0x8000]);
        bad.extend(extra_section(made, rng));
        made.put(field, rng.pick(&bad));
        given(MODULE, 4)
    }),
    step(
        "address of bss below data's end",
        ADDRESS,
        15,
        |made, rng| {
            let end = made.data_address + made.data_size;
            let address = match rng.below(4) {
                0 => made.data_address,
                1 => 0,
                2 => end - rng.between(1, made.data_size),
                _ => end - 1,
            };
            if address >= end {
                return None;
            }
            made.put(made.section_field(made.bss, Part::Paddr), address);
            made.put(made.section_field(made.bss, Part::Vaddr), address);
            of_section(made, ADDRESS, made.bss)
        },
    ),
    step("limit data image", LIMIT, 16, |made, rng| {
        let address = made.section_field(made.bss, Part::Paddr);
        let size = made.section_field(made.bss, Part::Size);
        let before = made.get(address) - made.data_address;
        if rng.chance(50) {
            let most =
                (top(made.bits) - u128::from(made.get(address))).min(u128::from(u64::MAX)) as u64;
            let least = IMAGE_LIMIT - before + 1;
            if least > most {
                return None;
            }
            let new = rng.pick(&[least, least, rng_between(least, most), most]);
            made.put(size, new);
            made.put(made.aux(Aux::BssSize), new);
        } else {
            let bss = made.get(size);
            let new = u128::from(made.data_address) + u128::from(IMAGE_LIMIT - bss + 1);
            if new + u128::from(bss) > top(made.bits) {
                return None;
            }
            let last = (top(made.bits) - u128::from(bss)) as u64;
            let new = rng.pick(&[new as u64, rng_between(new as u64, last), last]);
            made.put(address, new);
            made.put(made.section_field(made.bss, Part::Vaddr), new);
        }
        given(LIMIT, 4)
    }),
    step("loader 0: short", LOADER, 17, |made, rng| {
        let need = if made.bits == 32 { 32 } else { 56 };
        let size = rng.pick(&[0, 1, need - 1, rng_between(0, need - 1)]);
        made.put(made.section_field(made.loader, Part::Size), size);
        if size == 0 && rng.chance(50) {
            made.put(made.section_field(made.loader, Part::Pointer), 0);
        }
        // An empty one has no raw data, or has it at the file's end.
        let end = made.bytes.len() as u64;
        if let Some(pointer) = rng.aside().pick(&[None, None, Some(0), Some(end)]) {
            made.put(made.section_field(made.loader, Part::Size), 0);
            made.put(made.section_field(made.loader, Part::Pointer), pointer);
        }
        of_loader(made, LOADER, 0)
    }),
    step("loader 1: version", LOADER, 18, |made, rng| {
        let version = rng.pick(&[0, 3, 0x0100_0000, 0x0001_0000, 0xFFFF_FFFF]);
        made.put(made.head(Head::Version)?, version);
        of_loader(made, LOADER, 1)
    }),
    step("limit loader symbols", LIMIT, 19, |made, rng| {
        let count = rng.pick(&[70_001, 70_002, 0x0002_0000, 0x8000_0000, 0xFFFF_FFFF]);
        made.put(made.head(Head::Symbols)?, count);
        of_loader(made, LIMIT, 2)
    }),
    step("limit relocation entries", LIMIT, 20, |made, rng| {
        let count = rng.pick(&[100_001, 100_002, 0x0002_0000, 0x8000_0000, 0xFFFF_FFFF]);
        made.put(made.head(Head::Relocations)?, count);
        of_loader(made, LIMIT, 3)
    }),
    step("loader 2: symbols", LOADER, 21, |made, rng| {
        let count = made.loader_symbols.len() as u64;
        hurt_table(
            made,
            rng,
            Head::Symbols,
            Head::SymbolOffset,
            count,
            24,
            32,
            LOADER_SYMBOL_LIMIT,
        )?;
        of_loader(made, LOADER, 2)
    }),
    step("loader 3: relocations", LOADER, 22, |made, rng| {
        let each = if made.bits == 32 { 12 } else { 16 };
        let start = 32 + 24 * made.loader_symbols.len() as u64;
        let count = made.entries.len() as u64;
        hurt_table(
            made,
            rng,
            Head::Relocations,
            Head::RelocationOffset,
            count,
            each,
            start,
            RELOCATION_LIMIT,
        )?;
        of_loader(made, LOADER, 3)
    }),
    step(
        "loader 4: id table past the section",
        LOADER,
        23,
        |made, rng| {
            let length = made.ids_length as u64;
            hurt_table(
                made,
                rng,
                Head::IdLength,
                Head::IdOffset,
                length,
                1,
                0,
                0xFFFF_FFFF,
            )?;
            of_loader(made, LOADER, 4)
        },
    ),
    step("loader 4: too few strings", LOADER, 23, |made, rng| {
        if rng.chance(25) {
            made.put(made.head(Head::IdLength)?, 0);
            return of_loader(made, LOADER, 4);
        }
        let table = &made.bytes[made.ids_at..made.ids_at + made.ids_length];
        let zeros = table.iter().filter(|&&byte| byte == 0).count() as u64;
        let count = rng.pick(&[
            zeros / 3 + 1,
            zeros / 3 + 2,
            0x5555_5555,
            0x5555_5556,
            0xFFFF_FFFF,
        ]);
        made.put(made.head(Head::Ids)?, count);
        of_loader(made, LOADER, 4)
    }),
    step("loader 5: string table", LOADER, 24, |made, rng| {
        let length = made.get(made.head(Head::StringLength)?);
        hurt_table(
            made,
            rng,
            Head::StringLength,
            Head::StringOffset,
            length,
            1,
            0,
            0xFFFF_FFFF,
        )?;
        of_loader(made, LOADER, 5)
    }),
    step("lsym type", LSYM, 25, |made, rng| {
        let i = rng.below(made.loader_symbols.len() as u64) as usize;
        let field = Field {
            at: made.loader_symbol_at(i) + 14,
            length: 1,
        };
        made.put(field, made.get(field) & 0xF8 | rng.between(4, 7));
        of_loader_symbol(made, i)
    }),
    step("lsym import with a section", LSYM, 25, |made, rng| {
        let i = loader_symbol_where(made, rng, true)?;
        let field = Field {
            at: made.loader_symbol_at(i) + 12,
            length: 2,
        };
        made.put(
            field,
            rng.pick(&[
                made.text, made.data, made.bss, 0xFFFF, 0xFFFE, 0x0100, 0x8000,
            ]),
        );
        of_loader_symbol(made, i)
    }),
    step("lsym import with no such id", LSYM, 25, |made, rng| {
        let i = loader_symbol_where(made, rng, true)?;
        let field = Field {
            at: made.loader_symbol_at(i) + 16,
            length: 4,
        };
        made.put(
            field,
            rng.pick(&[
                made.ids,
                made.ids + 1,
                0x0100_0000,
                0x8000_0000,
                0xFFFF_FFFF,
            ]),
        );
        of_loader_symbol(made, i)
    }),
    step("lsym defined with an id", LSYM, 25, |made, rng| {
        let i = loader_symbol_where(made, rng, false)?;
        let field = Field {
            at: made.loader_symbol_at(i) + 16,
            length: 4,
        };
        made.put(field, rng.pick(&[1, made.ids, 0x0100_0000, 0xFFFF_FFFF]));
        of_loader_symbol(made, i)
    }),
    step("lsym defined elsewhere", LSYM, 25, |made, rng| {
        let i = loader_symbol_where(made, rng, false)?;
        let field = Field {
            at: made.loader_symbol_at(i) + 12,
            length: 2,
        };
        let count = made.flags.len() as u64;
        let mut bad = vec![0, made.loader, count + 1, 0xFFFF, 0xFFFE];
        bad.extend([made.text + 0x100, made.text + 0x8000, made.bss + 0x8000]);
        bad.extend(extra_section(made, rng));
        made.put(field, rng.pick(&bad));
        of_loader_symbol(made, i)
    }),
    step("lsym name offset", LSYM, 25, |made, rng| {
        let i = rng.below(made.loader_symbols.len() as u64) as usize;
        let length = made.loader_strings_length as u64;
        let offset = rng.pick(&[
            0,
            1,
            length,
            length + 1,
            length + 2,
            0x8000_0000,
            0xFFFF_FFFF,
            0xFFFF_FFFE,
        ]);
        // At the table's end its last two bytes would have to be a length; any
        // length but 0 passes the end, and 0 has no closing zero.
        made.set_loader_name_offset(i, offset);
        of_loader_symbol(made, i)
    }),
    step("lsym name length", LSYM, 25, |made, rng| {
        let i = string_loader_symbol(made, rng)?;
        let at = made.loader_strings_at + made.loader_name_offset(i) - 2;
        let field = Field { at, length: 2 };
        let left = (made.loader_strings_at + made.loader_strings_length - at - 2) as u64;
        // 0 has no closing zero; past the table; one more holds two zeros or
        // ends without one.
        made.put(field, rng.pick(&[0, left + 1, 0xFFFF, 0x8000]));
        of_loader_symbol(made, i)
    }),
    step(
        "lsym name offset 1, length as if before the table",
        LSYM,
        25,
        |made, _| {
            // The byte before the table and its first one would be a length of 1.
            let i = made
                .loader_symbols
                .iter()
                .position(|symbol| symbol.string)?;
            let at = made.loader_strings_at;
            if made.bytes[at - 1] != 0 {
                return None;
            }
            made.set_loader_name_offset(i, 1);
            made.bytes[at] = 1;
            made.bytes[at + 1] = 0;
            of_loader_symbol(made, i)
        },
    ),
    step("lsym name one past the table", LSYM, 25, |made, _| {
        // The table ends before the last name's closing zero.
        let mut last = None;
        for (i, symbol) in made.loader_symbols.iter().enumerate() {
            if symbol.string {
                last = Some(i);
            }
        }
        let length = made.head(Head::StringLength)?;
        made.put(length, made.loader_strings_length as u64 - 1);
        of_loader_symbol(made, last?)
    }),
    step("lsym name closing zero", LSYM, 25, |made, rng| {
        let i = string_loader_symbol(made, rng)?;
        let start = made.loader_strings_at + made.loader_name_offset(i);
        let length = made.get(Field {
            at: start - 2,
            length: 2,
        }) as usize;
        made.bytes[start + length - 1] = rng.between(1, 255) as u8;
        of_loader_symbol(made, i)
    }),
    step("lsym name with another zero", LSYM, 25, |made, rng| {
        let i = string_loader_symbol(made, rng)?;
        let start = made.loader_strings_at + made.loader_name_offset(i);
        let length = made.get(Field {
            at: start - 2,
            length: 2,
        });
        if length < 2 {
            return None;
        }
        made.bytes[start + rng.below(length - 1) as usize] = 0;
        of_loader_symbol(made, i)
    }),
    step("thread entry", THREAD, 26, |made, rng| {
        let i = rng.below(made.entries.len() as u64) as usize;
        made.put(
            made.entry_symbol_field(i),
            rng.pick(&[0xFFFF_FFFF, 0xFFFF_FFFE]),
        );
        if rng.chance(30) {
            // THREAD comes before the same entry's LREL.
            made.put(made.entry_type_field(i), 0xFFFF);
        }
        of_entry(made, THREAD, i)
    }),
    step("lrel type", LREL, 26, |made, rng| {
        let i = rng.below(made.entries.len() as u64) as usize;
        let field = made.entry_type_field(i);
        let low = rng.pick(&[
            0x02, 0x03, 0x0A, 0x0B, 0x0E, 0x0F, 0x10, 0x1A, 0x20, 0x80, 0xFF,
        ]);
        made.put(field, made.get(field) & 0xFF00 | low);
        of_entry(made, LREL, i)
    }),
    step("lrel width", LREL, 26, |made, rng| {
        let i = rng.below(made.entries.len() as u64) as usize;
        let field = made.entry_type_field(i);
        let mut widths = vec![1, 8, 16, 26, 31, 33, 48, 63];
        if made.bits == 32 {
            widths.push(64);
        }
        let width: u64 = rng.pick(&widths);
        made.put(field, made.get(field) & 0xC0FF | (width - 1) << 8);
        of_entry(made, LREL, i)
    }),
    step("lrel width 64 in XCOFF32", LREL, 26, |made, rng| {
        let i = rng.below(made.entries.len() as u64) as usize;
        let entry = made.entries[i].clone();
        let (start, size) = if entry.section == made.text {
            (made.text_address, made.text_size)
        } else {
            (made.data_address, made.data_size)
        };
        if made.bits != 32 || entry.address + 8 > start + size {
            return None;
        }
        let field = made.entry_type_field(i);
        made.put(field, made.get(field) & 0xC0FF | 0x3F00);
        of_entry(made, LREL, i)
    }),
    step("lrel section", LREL, 26, |made, rng| {
        let i = rng.below(made.entries.len() as u64) as usize;
        let count = made.flags.len() as u64;
        let mut bad = vec![0, made.bss, made.loader, count + 1, 0xFFFF];
        bad.extend([made.data + 0x100, made.data + 0x8000, made.text + 0x8000]);
        made.put(made.entry_section_field(i), rng.pick(&bad));
        of_entry(made, LREL, i)
    }),
    step("lrel field outside", LREL, 26, |made, rng| {
        let i = rng.below(made.entries.len() as u64) as usize;
        let entry = made.entries[i].clone();
        let (start, size) = if entry.section == made.text {
            (made.text_address, made.text_size)
        } else {
            (made.data_address, made.data_size)
        };
        let most = (top(made.bits) - 1) as u64;
        let bytes = u128::from(entry.width / 8);
        let end = u128::from(start) + u128::from(size);
        let past = end - bytes + 1;
        let choices = [
            past,
            past + u128::from(rng.below(entry.width / 8)),
            end,
            u128::from(start).wrapping_sub(1),
            u128::from(start).wrapping_sub(bytes),
            u128::from(most),
            u128::from(most) + 1 - bytes,
            0,
        ];
        let address = rng.pick(&choices);
        if address > u128::from(most) {
            return None;
        }
        if address >= u128::from(start) && address + bytes <= end {
            return None;
        }
        made.put(made.entry_address_field(i), address as u64);
        of_entry(made, LREL, i)
    }),
    step("lrel symbol", LREL, 26, |made, rng| {
        let i = rng.below(made.entries.len() as u64) as usize;
        let past = 3 + made.loader_symbols.len() as u64;
        made.put(
            made.entry_symbol_field(i),
            rng.pick(&[past, past + 1, 0x8000_0000, 0xFFFF_FFFD]),
        );
        of_entry(made, LREL, i)
    }),
    step("overlap", OVERLAP, 26, |made, rng| {
        let (earlier, later) = two_entries(made, rng);
        let (one, other) = (made.entries[earlier].clone(), made.entries[later].clone());
        let (start, end) = section_of(made, &one);
        // The later one starts inside the earlier one, or the other way round.
        let address = if rng.chance(50) {
            u128::from(one.address) + u128::from(rng.below(one.width / 8))
        } else {
            u128::from(one.address).checked_sub(u128::from(rng.below(other.width / 8)))?
        };
        let same = address == u128::from(one.address) && one.width == other.width;
        let bytes = u128::from(other.width / 8);
        if same || address < u128::from(start) || address + bytes > end {
            return None;
        }
        made.put(made.entry_address_field(later), address as u64);
        made.put(made.entry_section_field(later), one.section);
        of_entry(made, OVERLAP, later)
    }),
    step("overlap at the same start", OVERLAP, 26, |made, rng| {
        let (earlier, later) = two_entries(made, rng);
        let (one, other) = (made.entries[earlier].clone(), made.entries[later].clone());
        let (_, end) = section_of(made, &one);
        if one.width == other.width || u128::from(one.address) + u128::from(other.width / 8) > end {
            return None;
        }
        made.put(made.entry_address_field(later), one.address);
        made.put(made.entry_section_field(later), one.section);
        of_entry(made, OVERLAP, later)
    }),
    step(
        "overlap of a wide field's far half",
        OVERLAP,
        26,
        |made, rng| {
            let later = rng.between(1, made.entries.len() as u64 - 1) as usize;
            let earlier = rng.below(later as u64) as usize;
            let (one, other) = (made.entries[earlier].clone(), made.entries[later].clone());
            if one.width != 64 || other.width != 32 {
                return None;
            }
            made.put(made.entry_address_field(later), one.address + 4);
            made.put(made.entry_section_field(later), one.section);
            of_entry(made, OVERLAP, later)
        },
    ),
];

pub static ROWS: &[Row] = &[
    // Look-ups.
    row("index section", INDEX, |rng| {
        let made = rich(rng);
        let count = made.flags.len() as u64;
        let n = rng.pick(&[0, count + 1, count + 2, 33, 0x1_0000_0001, u64::MAX]);
        let op = if rng.chance(50) {
            Op::Section(n)
        } else {
            Op::SectionName(n)
        };
        hurt(made, op, INDEX, n)
    }),
    row("index symbol entry", INDEX, |rng| {
        let made = rich(rng);
        let count = made.symbol_count;
        let index = rng.pick(&[count, count + 1, 0x1_0000_0000, 0xFFFF_FFFF, u64::MAX]);
        let op = rng.pick(&[Op::Symbol(index), Op::SymbolName(index), Op::Csect(index)]);
        hurt(made, op, INDEX, index)
    }),
    row("index symbol entry without symbols", INDEX, |rng| {
        let mut made = rich(rng);
        made.put(made.nsyms_field(), 0);
        let index = rng.pick(&[0, 1, u64::MAX]);
        let op = rng.pick(&[Op::Symbol(index), Op::SymbolName(index), Op::Csect(index)]);
        hurt(made, op, INDEX, index)
    }),
    row("index loader symbol", INDEX, |rng| {
        let made = rich(rng);
        let past = 3 + made.loader_symbols.len() as u64;
        let index = rng.pick(&[
            0,
            1,
            2,
            past,
            past + 1,
            0xFFFF_FFFF,
            0x1_0000_0003,
            u64::MAX,
        ]);
        let op = rng.pick(&[Op::LoaderSymbol(index), Op::LoaderSymbolName(index)]);
        hurt(made, op, INDEX, index)
    }),
    row("index import id", INDEX, |rng| {
        let made = rich(rng);
        let id = rng.pick(&[
            made.ids,
            made.ids + 1,
            0x1_0000_0000,
            0x5555_5555_5555_5556,
            u64::MAX,
        ]);
        let op = rng.pick(&[Op::ImportPath(id), Op::ImportBase(id), Op::ImportMember(id)]);
        hurt(made, op, INDEX, id)
    }),
    // Symbols: AUX, SECTION, NAME, the first of those that were done.
    row("aux", AUX, |rng| hurt_symbol(rng, AUX)),
    row("section of a symbol", SECTION, |rng| {
        hurt_symbol(rng, SECTION)
    }),
    row("name offset", NAME, |rng| hurt_symbol(rng, NAME)),
    row("name without a zero", NAME, |rng| {
        let mut made = rich(rng);
        let index = rng.pick(&made.symbols).index;
        let end = made.strings_at + made.strings_length;
        below_80(&mut made, index);
        let tail = rng.between(1, 3).min(made.strings_length as u64 - 4) as usize;
        for at in end - tail..end {
            made.bytes[at] = b'x';
        }
        let offset = (made.strings_length - rng.between(1, tail as u64) as usize) as u64;
        made.set_name_offset(index, offset);
        if rng.chance(60) {
            // A zero behind the table doesn't help.
            made.bytes.truncate(end.max(raw_end(&made)));
            made.bytes.extend_from_slice(&[0; 3]);
        }
        let op = rng.pick(&[Op::Symbol(index), Op::SymbolName(index), Op::Csect(index)]);
        hurt(made, op, NAME, index)
    }),
    row("name without a string table", NAME, |rng| {
        let mut made = rich(rng);
        let index = rng.pick(&made.symbols).index;
        let offset = rng.pick(&[1, 4, 5, 0xFFFF_FFFF]);
        below_80(&mut made, index);
        made.set_name_offset(index, offset);
        if rng.chance(50) {
            put(&mut made.bytes, made.strings_at, 4, rng.pick(&[0, 4]));
        } else {
            if raw_end(&made) > made.strings_at {
                return None;
            }
            made.bytes.truncate(made.strings_at);
        }
        let op = rng.pick(&[Op::Symbol(index), Op::SymbolName(index), Op::Csect(index)]);
        hurt(made, op, NAME, index)
    }),
    // Csects.
    row("csect of another class", CSECT, |rng| {
        let mut made = rich(rng);
        let index = csect_where(&made, rng, None)?;
        let class = rng.pick(&[0, 1, 3, 106, 108, 110, 112, 130, 255]);
        made.set_class(index, class);
        if is_debug_class(class) {
            // Its name would be looked for elsewhere.
            made.set_name_offset(index, 0);
        }
        hurt(made, Op::Csect(index), CSECT, index)
    }),
    row("csect without auxiliary", CSECT, |rng| {
        let mut made = rich(rng);
        let index = csect_where(&made, rng, None)?;
        let at = made.symbol_at(index) + 17;
        put(&mut made.bytes, at, 1, 0);
        hurt(made, Op::Csect(index), CSECT, index)
    }),
    row("csect without 251", CSECT, |rng| {
        let mut made = rich_with(rng, |wish| wish.bits = Some(64));
        let index = csect_where(&made, rng, None)?;
        let at = csect_at(&made, index);
        put(
            &mut made.bytes,
            at + 17,
            1,
            rng.pick(&[0, 250, 252, 253, 254, 255]),
        );
        hurt(made, Op::Csect(index), CSECT, index)
    }),
    row("csect type above 3", CSECT, |rng| {
        let mut made = rich(rng);
        let index = csect_where(&made, rng, None)?;
        let at = csect_at(&made, index);
        put(
            &mut made.bytes,
            at + 10,
            1,
            rng.below(32) << 3 | rng.between(4, 7),
        );
        hurt(made, Op::Csect(index), CSECT, index)
    }),
    row("csect class not listed", CSECT, |rng| {
        let mut made = rich(rng);
        let kind = rng.pick(&[SD, CM]);
        let index = csect_where(&made, rng, Some(kind))?;
        let at = csect_at(&made, index);
        put(
            &mut made.bytes,
            at + 11,
            1,
            rng.pick(&[14, 19, 23, 24, 128, 255]),
        );
        hurt(made, Op::Csect(index), CSECT, index)
    }),
    row("csect class 9 or 11 with SD", CSECT, |rng| {
        let mut made = rich(rng);
        let index = csect_where(&made, rng, Some(SD))?;
        let at = csect_at(&made, index);
        put(&mut made.bytes, at + 11, 1, rng.pick(&[9, 11]));
        hurt(made, Op::Csect(index), CSECT, index)
    }),
    row("csect LD not smaller", CSECT, |rng| {
        let mut made = rich(rng);
        let index = csect_where(&made, rng, Some(LD))?;
        let at = csect_at(&made, index);
        let value = rng.pick(&[index, index + 1, made.symbol_count, 0xFFFF_FFFF]);
        put(&mut made.bytes, at, 4, value);
        hurt(made, Op::Csect(index), CSECT, index)
    }),
    row("csect LD high half", CSECT, |rng| {
        let mut made = rich_with(rng, |wish| wish.bits = Some(64));
        let index = csect_where(&made, rng, Some(LD))?;
        let at = csect_at(&made, index);
        put(
            &mut made.bytes,
            at + 12,
            4,
            rng.pick(&[1, 0x8000_0000, 0xFFFF_FFFF]),
        );
        hurt(made, Op::Csect(index), CSECT, index)
    }),
    row("csect LD in no SD", CSECT, |rng| {
        let mut made = rich(rng);
        let index = csect_where(&made, rng, Some(LD))?;
        let bad: Vec<u64> = made
            .symbols
            .iter()
            .filter(|symbol| symbol.index < index && symbol.csect != Some(SD))
            .map(|symbol| symbol.index)
            .collect();
        if bad.is_empty() {
            return None;
        }
        let at = csect_at(&made, index);
        put(&mut made.bytes, at, 4, rng.pick(&bad));
        hurt(made, Op::Csect(index), CSECT, index)
    }),
    row("csect LD in a refused SD", CSECT, |rng| {
        let mut made = rich(rng);
        let index = csect_where(&made, rng, Some(LD))?;
        let container = made.get(Field {
            at: csect_at(&made, index),
            length: 4,
        });
        let at = made.symbol_at(container);
        let own = csect_at(&made, container);
        match rng.below(6) {
            0 => put(&mut made.bytes, at + 17, 1, 255),
            1 => put(&mut made.bytes, at + 12, 2, 0xFFFD),
            2 => made.set_name_offset(container, 0xFFFF_FFFF),
            3 => put(&mut made.bytes, at + 16, 1, 3),
            4 => put(&mut made.bytes, own + 11, 1, 9),
            _ => put(&mut made.bytes, own + 10, 1, rng.pick(&[ER, LD, CM, 4, 7])),
        }
        hurt(made, Op::Csect(index), CSECT, index)
    }),
    // Plans and buffers: some of these, and the first in order is given.
    row("room 2 list", ROOM, |rng| hurt_plan(rng, 0)),
    row("plan text", PLAN, |rng| hurt_plan(rng, 1)),
    row("plan data", PLAN, |rng| hurt_plan(rng, 2)),
    row("plan import", PLAN, |rng| hurt_plan(rng, 3)),
    row("room 0 text", ROOM, |rng| hurt_plan(rng, 4)),
    row("room 1 data", ROOM, |rng| hurt_plan(rng, 5)),
    row("room 2 in a move", ROOM, |rng| hurt_move(rng, 0)),
    row("plan text in a move", PLAN, |rng| hurt_move(rng, 1)),
    row("plan data in a move", PLAN, |rng| hurt_move(rng, 2)),
    row("plan import in a move", PLAN, |rng| hurt_move(rng, 3)),
    row("room 0 in a move", ROOM, |rng| hurt_move(rng, 4)),
    row("room 1 in a move", ROOM, |rng| hurt_move(rng, 5)),
    row("plan text, empty image", PLAN, |rng| hurt_empty(rng, 0)),
    row("plan data, empty image", PLAN, |rng| hurt_empty(rng, 1)),
    // Sheets.
    row("sheet short", SHEET, |rng| {
        let mut sheet = good_sheet(rng, Form::Old, 2);
        sheet.truncate(rng.below(20) as usize);
        let list = junk_list(rng, 2);
        hurt(plain(rng), Op::ReadSheet { sheet, list }, SHEET, 0)
    }),
    row("sheet first count", SHEET, |rng| {
        let k = rng.below(5) as usize;
        let mut sheet = good_sheet(rng, Form::Old, k);
        put(&mut sheet, 0, 2, rng.pick(&[4, 1, 3, 0x0200, 0xFFFF]));
        if rng.chance(20) {
            put(&mut sheet, 18, 2, 0xFFFF);
        }
        let list = junk_list(rng, k);
        hurt(plain(rng), Op::ReadSheet { sheet, list }, SHEET, 0)
    }),
    row("sheet length", SHEET, |rng| {
        let k = rng.between(1, 5) as usize;
        let mut sheet = good_sheet(rng, Form::Old, k);
        match rng.below(4) {
            0 => sheet.push(0),
            1 => sheet.truncate(20 + 8 * k - 1),
            2 => put(
                &mut sheet,
                18,
                2,
                rng.pick(&[k as u64 - 1, k as u64 + 1, 4_096]),
            ),
            _ => sheet.extend_from_slice(&[0; 8]),
        }
        let list = junk_list(rng, k);
        hurt(plain(rng), Op::ReadSheet { sheet, list }, SHEET, 0)
    }),
    row("limit sheet list", LIMIT, |rng| {
        let k = rng.pick(&[4_097u64, 4_098, 0x8000, 0xFFFF]);
        let held = if rng.chance(50) { 0 } else { 4_097 };
        let mut sheet = good_sheet(rng, Form::Old, held);
        put(&mut sheet, 18, 2, k);
        let list = junk_list(rng, held);
        hurt(plain(rng), Op::ReadSheet { sheet, list }, LIMIT, 2)
    }),
    row("room 2 sheet list", ROOM, |rng| {
        let k = rng.below(6) as usize;
        let sheet = good_sheet(rng, Form::Old, k);
        let wrong = if k > 0 && rng.chance(50) {
            k - 1
        } else {
            k + 1
        };
        let list = junk_list(rng, wrong);
        hurt(plain(rng), Op::ReadSheet { sheet, list }, ROOM, 2)
    }),
    row("limit sheet writing", LIMIT, |rng| {
        let k = rng.pick(&[70_001, 70_001, 70_100]);
        let length = rng.pick(&[24, 24 + 8 * k, 24 + 8 * 70_000]);
        let list = junk_list(rng, k);
        let op = Op::WriteSheet {
            text: rng.next(),
            data: rng.next(),
            list,
            sheet: rng.bytes(length),
        };
        hurt(plain(rng), op, LIMIT, 2)
    }),
    row("room 0 sheet writing", ROOM, |rng| {
        let k = rng.below(6) as usize;
        let right = 24 + 8 * k;
        // Among them the old form's length.
        let length = rng.pick(&[0, right - 1, right + 1, right + 8, right - 8, right - 4]);
        let list = junk_list(rng, k);
        let op = Op::WriteSheet {
            text: rng.next(),
            data: rng.next(),
            list,
            sheet: rng.bytes(length),
        };
        hurt(plain(rng), op, ROOM, 0)
    }),
];

/// How many damages of document 01 there are.
pub fn base_count() -> usize {
    STEPS.len() + ROWS.len()
}

/// How many damages there are with those of S-records.
pub fn records_count() -> usize {
    base_count() + records::ROWS.len()
}

/// How many damages there are with those of symbols and offsets.
pub fn symbols_count() -> usize {
    records_count() + debug::ROWS.len() + visibility::ROWS.len() + offsets::ROWS.len()
}

/// How many damages there are with those of sizes, objects and lines.
pub fn lines_count() -> usize {
    symbols_count() + sizes::ROWS.len() + objects::ROWS.len() + lines::ROWS.len()
}

/// How many damages there are in all.
pub fn count() -> usize {
    lines_count() + benches::ROWS.len() + rewrites::ROWS.len() + salvages::ROWS.len()
}

/// The rows in their order: document 01, then the requests.
pub fn rows() -> impl Iterator<Item = &'static Row> {
    ROWS.iter()
        .chain(records::ROWS)
        .chain(debug::ROWS)
        .chain(visibility::ROWS)
        .chain(offsets::ROWS)
        .chain(sizes::ROWS)
        .chain(objects::ROWS)
        .chain(lines::ROWS)
        .chain(benches::ROWS)
        .chain(rewrites::ROWS)
        .chain(salvages::ROWS)
}

/// The names of all damages.
pub fn names() -> impl Iterator<Item = &'static str> {
    STEPS
        .iter()
        .map(|step| step.name)
        .chain(rows().map(|row| row.name))
}

/// Damage number `which`: first the steps, then the rows.
pub fn single(rng: &mut Rng, which: usize) -> (String, Hurt) {
    loop {
        if which < STEPS.len() {
            let step = &STEPS[which];
            let mut made = rich(rng);
            if let Some(refusal) = (step.hurt)(&mut made, rng) {
                let op = reveal(rng, &made, step.stage);
                return (step.name.to_string(), Hurt { made, op, refusal });
            }
        } else {
            let row = rows().nth(which - STEPS.len()).expect("a row");
            if let Some(hurt) = (row.make)(rng) {
                return (row.name.to_string(), hurt);
            }
        }
    }
}

/// Two damages of different stages in one file: the earlier stage is given.
pub fn pair(rng: &mut Rng) -> (String, Hurt) {
    loop {
        // Not the file limit: it would make most pairs large.
        let one = &STEPS[rng.between(1, STEPS.len() as u64 - 1) as usize];
        let other = &STEPS[rng.between(1, STEPS.len() as u64 - 1) as usize];
        if one.stage == other.stage {
            continue;
        }
        let (first, second) = if one.stage < other.stage {
            (one, other)
        } else {
            (other, one)
        };
        let mut made = rich(rng);
        // The earlier one is done last, so that it stands.
        if (second.hurt)(&mut made, rng).is_none() {
            continue;
        }
        if let Some(refusal) = (first.hurt)(&mut made, rng) {
            let op = reveal(rng, &made, first.stage);
            let name = format!("{} before {}", first.name, second.name);
            return (name, Hurt { made, op, refusal });
        }
    }
}

fn reveal(rng: &mut Rng, made: &Made, stage: u64) -> Op {
    if stage <= OPENING && rng.chance(60) {
        reveal_open(rng, made)
    } else {
        reveal_module(rng, made)
    }
}

fn rng_between(low: u64, high: u64) -> u64 {
    // A fixed place between two bounds, for lists of choices.
    low + (high - low) / 2
}

pub(super) fn hurt(made: Made, op: Op, number: u64, item: u64) -> Option<Hurt> {
    let at = match number {
        AUX | NAME | SECTION | CSECT | VISIBILITY => made.symbol_at(item),
        _ => 0,
    };
    let refusal = given_at(number, item, at)?;
    Some(Hurt { made, op, refusal })
}

/// A module with some of everything.
fn rich(rng: &mut Rng) -> Made {
    rich_with(rng, |_| ())
}

pub(super) fn rich_with(rng: &mut Rng, change: fn(&mut Wish)) -> Made {
    let mut wish = Wish {
        rich: true,
        low: rng.chance(40),
        symbols_last: rng.chance(50),
        ..Wish::default()
    };
    change(&mut wish);
    make::module(rng, &wish)
}

/// A file for cases where it doesn't matter.
pub(super) fn plain(rng: &mut Rng) -> Made {
    make::object(rng, &Wish::default())
}

fn any_section(made: &Made, rng: &mut Rng) -> u64 {
    rng.between(1, made.flags.len() as u64)
}

fn section_where(made: &Made, rng: &mut Rng, fits: fn(u64) -> bool) -> Option<u64> {
    let mut all = Vec::new();
    for (i, &flags) in made.flags.iter().enumerate() {
        let kind = if flags == DELETED {
            DELETED
        } else {
            flags & 0xFFFF
        };
        if fits(kind) {
            all.push(i as u64 + 1);
        }
    }
    if all.is_empty() {
        return None;
    }
    Some(rng.pick(&all))
}

/// None where another damage has changed the section's kind.
fn kind_stands(made: &Made, n: u64) -> Option<()> {
    if made.get(made.section_field(n, Part::Flags)) == made.flags[n as usize - 1] {
        Some(())
    } else {
        None
    }
}

/// Where the last raw data ends.
fn raw_end(made: &Made) -> usize {
    let mut end = 0;
    for (i, &flags) in made.flags.iter().enumerate() {
        let n = i as u64 + 1;
        let pointer = made.get(made.section_field(n, Part::Pointer));
        if pointer != 0 && flags != BSS && flags != TBSS && flags != OVRFLO && flags != DELETED {
            end = end.max(pointer as usize + made.get(made.section_field(n, Part::Size)) as usize);
        }
    }
    end
}

/// A section that isn't text, data, bss or loader.
pub(super) fn extra_section(made: &Made, rng: &mut Rng) -> Option<u64> {
    section_where(made, rng, |kind| {
        kind != TEXT && kind != DATA && kind != BSS && kind != LOADER_KIND
    })
}

fn loader_symbol_where(made: &Made, rng: &mut Rng, imported: bool) -> Option<usize> {
    let mut all = Vec::new();
    for (i, symbol) in made.loader_symbols.iter().enumerate() {
        if symbol.imported == imported {
            all.push(i);
        }
    }
    if all.is_empty() {
        return None;
    }
    Some(rng.pick(&all))
}

fn string_loader_symbol(made: &Made, rng: &mut Rng) -> Option<usize> {
    let mut all = Vec::new();
    for (i, symbol) in made.loader_symbols.iter().enumerate() {
        if symbol.string {
            all.push(i);
        }
    }
    if all.is_empty() {
        return None;
    }
    Some(rng.pick(&all))
}

/// Makes a loader table pass the section: by its length, or by its offset.
fn hurt_table(
    made: &mut Made,
    rng: &mut Rng,
    length: Head,
    offset: Head,
    count: u64,
    each: u64,
    start: u64,
    most: u64,
) -> Option<()> {
    let size = made.loader_size as u64;
    let bytes = count * each;
    if bytes == 0 {
        return None;
    }
    match made.head(offset) {
        Some(field) if rng.chance(60) => {
            let last = if field.length == 4 {
                0xFFFF_FFFF
            } else {
                u64::MAX
            };
            let value = rng.pick(&[
                size - bytes + 1,
                size,
                last,
                last - bytes + 1,
                last - bytes + 2,
            ]);
            made.put(field, value);
        }
        place => {
            let start = match place {
                Some(field) => made.get(field),
                None => start,
            };
            let least = (size - start) / each + 1;
            if least > most {
                return None;
            }
            let value = rng.pick(&[least, rng_between(least, most), most]);
            made.put(made.head(length)?, value);
        }
    }
    Some(())
}

/// Damages a symbol entry with the aim `number`, perhaps with later ones too.
fn hurt_symbol(rng: &mut Rng, number: u64) -> Option<Hurt> {
    let mut made = rich(rng);
    let index = rng.pick(&made.symbols).index;
    let at = made.symbol_at(index);
    let name = number == NAME || rng.chance(30);
    let section = number == SECTION || (number == AUX && rng.chance(30));
    if name {
        below_80(&mut made, index);
        let length = made.strings_length as u64;
        let offset = rng.pick(&[1, 2, 3, length, length + 1, 0x8000_0004, 0xFFFF_FFFF]);
        made.set_name_offset(index, offset);
    }
    if section {
        let count = made.flags.len() as u64;
        put(
            &mut made.bytes,
            at + 12,
            2,
            rng.pick(&[count + 1, count + 2, 0x7FFF, 0x8000, 0xFFFD]),
        );
    }
    if number == AUX {
        let left = made.symbol_count - index - 1;
        if left >= 255 {
            return None;
        }
        put(&mut made.bytes, at + 17, 1, rng.pick(&[left + 1, 255]));
    }
    let op = rng.pick(&[Op::Symbol(index), Op::SymbolName(index), Op::Csect(index)]);
    hurt(made, op, number, index)
}

/// Takes bit 80 off the entry's class: its name offset leads into the string table.
fn below_80(made: &mut Made, index: u64) {
    let class = made.bytes[made.symbol_at(index) + 16];
    made.set_class(index, u64::from(class & 0x7F));
}

pub(super) fn csect_where(made: &Made, rng: &mut Rng, kind: Option<u64>) -> Option<u64> {
    let mut all = Vec::new();
    for symbol in &made.symbols {
        if symbol.csect.is_some() && (kind.is_none() || symbol.csect == kind) {
            all.push(symbol.index);
        }
    }
    if all.is_empty() {
        return None;
    }
    Some(rng.pick(&all))
}

/// Where the csect auxiliary of the entry at `index` lies.
pub(super) fn csect_at(made: &Made, index: u64) -> usize {
    let auxiliaries = u64::from(made.bytes[made.symbol_at(index) + 17]);
    made.symbol_at(index + auxiliaries)
}

/// A build in which problem `aim` is the first; later ones may be there too.
/// Problems: 0 list, 1 text, 2 data, 3 import, 4 text buffer, 5 data buffer.
fn hurt_plan(rng: &mut Rng, aim: u64) -> Option<Hurt> {
    let made = rich_for(rng, aim);
    let mut plan = fitting_plan(rng, &made);
    let (mut text, mut data) = buffers(rng, &made);
    let mut item = 0;
    for problem in (aim..=5).rev() {
        if problem != aim && rng.chance(60) {
            continue;
        }
        let done = spoil(rng, &made, &mut plan, &mut text, &mut data, problem);
        if problem == aim {
            item = done?;
        }
    }
    let number = if (1..=3).contains(&aim) { PLAN } else { ROOM };
    hurt(made, Op::Build { plan, text, data }, number, item)
}

/// A move in which problem `aim` is the first, in the from or the to plan.
fn hurt_move(rng: &mut Rng, aim: u64) -> Option<Hurt> {
    let made = rich_for(rng, aim);
    let mut from = fitting_plan(rng, &made);
    let mut to = fitting_plan(rng, &made);
    let (mut text, mut data) = buffers(rng, &made);
    let in_from = rng.chance(50);
    let mut item = None;
    // Problems of the to plan may stay beside one of the from plan.
    if in_from && (1..=3).contains(&aim) && rng.chance(50) {
        let other = rng.between(1, 3);
        spoil(rng, &made, &mut to, &mut text, &mut data, other);
    }
    for problem in (aim..=5).rev() {
        if problem != aim && rng.chance(60) {
            continue;
        }
        // A later problem of the from plan would come before one of the to plan.
        let plan = if in_from || (problem != aim && problem == 0) {
            &mut from
        } else {
            &mut to
        };
        let done = spoil(rng, &made, plan, &mut text, &mut data, problem);
        if problem == aim {
            item = done;
        }
    }
    let number = if (1..=3).contains(&aim) { PLAN } else { ROOM };
    hurt(
        made,
        Op::Move {
            from,
            to,
            text,
            data,
        },
        number,
        item?,
    )
}

/// Empty images in XCOFF32: 2^32 is no address, though nothing lies past it.
fn hurt_empty(rng: &mut Rng, item: u64) -> Option<Hurt> {
    let made = make::module(
        rng,
        &Wish {
            bits: Some(32),
            empty: true,
            ..Wish::default()
        },
    );
    let mut plan = fitting_plan(rng, &made);
    let address = rng.pick(&[1 << 32, 1 << 32, u64::MAX]);
    if item == 0 {
        plan.text = address;
    } else {
        plan.data = address;
    }
    let (text, data) = buffers(rng, &made);
    hurt(made, Op::Build { plan, text, data }, PLAN, item)
}

fn rich_for(rng: &mut Rng, aim: u64) -> Made {
    if aim == 3 {
        rich_with(rng, |wish| wish.bits = Some(32))
    } else {
        rich(rng)
    }
}

/// Does one problem; gives its item.
pub(super) fn spoil(
    rng: &mut Rng,
    made: &Made,
    plan: &mut Plan,
    text: &mut Vec<u8>,
    data: &mut Vec<u8>,
    problem: u64,
) -> Option<u64> {
    match problem {
        0 => {
            let right = plan.list.len();
            let wrong = rng.pick(&[0, right - 1, right + 1, right + 100]);
            plan.list.resize(wrong, 7);
            Some(2)
        }
        1 => {
            plan.text = past_end(rng, made.bits, made.text_size)?;
            Some(0)
        }
        2 => {
            plan.data = past_end(rng, made.bits, made.image)?;
            Some(1)
        }
        3 => {
            if made.bits != 32 {
                return None;
            }
            let mut lowest = None;
            for (i, symbol) in made.loader_symbols.iter().enumerate() {
                if symbol.imported && symbol.file_id != 0 && i < plan.list.len() {
                    if lowest.is_none() || rng.chance(50) {
                        plan.list[i] = rng.pick(&[0x1_0000_0000, 0x1_0000_0001, u64::MAX]);
                        lowest = lowest.or(Some(i as u64 + 3));
                    }
                }
            }
            lowest
        }
        4 => {
            wrong_length(rng, text);
            Some(0)
        }
        _ => {
            wrong_length(rng, data);
            Some(1)
        }
    }
}

/// Two entries, the earlier one first.
fn two_entries(made: &Made, rng: &mut Rng) -> (usize, usize) {
    let later = rng.between(1, made.entries.len() as u64 - 1) as usize;
    (rng.below(later as u64) as usize, later)
}

/// Where the section of an entry's field starts and ends.
fn section_of(made: &Made, entry: &MadeEntry) -> (u64, u128) {
    let (start, size) = if entry.section == made.text {
        (made.text_address, made.text_size)
    } else {
        (made.data_address, made.data_size)
    };
    (start, u128::from(start) + u128::from(size))
}

/// Offsets past the file's end: by one, by two, the highest, and one of its upper half.
pub(super) fn far_offsets(made: &Made) -> [u64; 4] {
    let length = made.bytes.len() as u64;
    let most = (top(made.bits) - 1) as u64;
    [length + 1, length + 2, most, most / 2 + 1]
}

/// Lets a table of section `n`, by its count and its pointer, have no rows and start
/// at `offset`.
pub(super) fn empty_table(made: &mut Made, n: u64, parts: [Part; 2], offset: u64) {
    let [count, pointer] = parts;
    made.put_part(n, count, 0);
    made.put_part(n, pointer, offset);
}

pub(super) fn wrong_length(rng: &mut Rng, buffer: &mut Vec<u8>) {
    let right = buffer.len();
    let wrong = rng.pick(&[0, right - 1, right + 1, right + 8]);
    buffer.resize(wrong, 0xA5);
}

pub fn good_sheet(rng: &mut Rng, form: Form, k: usize) -> Vec<u8> {
    let mut sheet = rng.bytes(form.length(k as u64) as usize);
    put(&mut sheet, 0, form.width(), 2);
    put(&mut sheet, form.second_count(), form.width(), k as u64);
    sheet
}

pub fn junk_list(rng: &mut Rng, k: usize) -> Vec<u64> {
    (0..k).map(|_| rng.next()).collect()
}
