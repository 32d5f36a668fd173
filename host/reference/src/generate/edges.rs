//! Files at a limit or an edge, on the accepted side or one past it.

use super::make::{self, Made, Wish};
use super::rng::Rng;
use super::{either, Op};
use crate::bytes::put;
use crate::opening::{BSS, TBSS, TDATA};
use crate::symbols::{LD, SD};

/// A file with its label.
type Labelled = (String, Made);

fn labelled(label: &str, made: Made) -> Labelled {
    (format!("edge: {label}"), made)
}

/// Any edge, and operations that look at it.
pub(super) fn edge(rng: &mut Rng, more: &mut Vec<Op>) -> Labelled {
    match rng.below(25) {
        0 => labelled("32 sections", make::module(rng, &sections(32))),
        1 => labelled("32 sections", make::object(rng, &sections(32))),
        2 => labelled("33 sections", make::object(rng, &sections(33))),
        3 => loader_symbol_limit(rng),
        4 => relocation_limit(rng),
        5 if rng.chance(25) => file_limit(rng),
        6 if rng.chance(25) => image_limit(rng),
        7 => raw_data_at_the_end(rng),
        8 => lister_limit(rng),
        9 => no_symbols(rng),
        10 => shared_fields(rng),
        11 => text_over_data(rng),
        12 | 13 => inner_container(rng, more),
        14 | 15 => edge_symbols(rng, more),
        16 => section_names(rng),
        18.. => shape(rng),
        _ => thread_sections(rng),
    }
}

fn low() -> Wish {
    Wish {
        low: true,
        ..Wish::default()
    }
}

fn rich() -> Wish {
    Wish {
        rich: true,
        ..Wish::default()
    }
}

fn low_and_rich() -> Wish {
    Wish {
        rich: true,
        ..low()
    }
}

fn sections(count: usize) -> Wish {
    Wish {
        sections: Some(count),
        ..low()
    }
}

fn loader_symbol_limit(rng: &mut Rng) -> Labelled {
    let count = rng.pick(&[69_999, 70_000, 70_001]);
    let wish = Wish {
        loader_symbols: Some(count),
        ..low_and_rich()
    };
    labelled(&format!("{count} loader symbols"), make::module(rng, &wish))
}

fn relocation_limit(rng: &mut Rng) -> Labelled {
    let count = rng.pick(&[99_999, 100_000, 100_001]);
    let wish = Wish {
        entries: Some(count),
        ..low_and_rich()
    };
    labelled(&format!("{count} entries"), make::module(rng, &wish))
}

fn file_limit(rng: &mut Rng) -> Labelled {
    let length = rng.pick(&[16_777_215, 16_777_216, 16_777_217]);
    let mut made = make::module(rng, &low_and_rich());
    made.bytes.resize(length, 0);
    labelled(&format!("file of {length}"), made)
}

fn image_limit(rng: &mut Rng) -> Labelled {
    let image = rng.pick(&[16_777_215, 16_777_216, 16_777_217]);
    let wish = Wish {
        image: Some(image),
        ..low_and_rich()
    };
    let mut made = make::module(rng, &wish);
    made.image = image;
    labelled(&format!("image of {image}"), made)
}

/// Empty sections whose raw data starts at the file's end.
fn raw_data_at_the_end(rng: &mut Rng) -> Labelled {
    let wish = Wish {
        symbols_last: true,
        ..low()
    };
    let mut made = make::object(rng, &wish);
    let length = made.bytes.len() as u64;
    for n in 1..=made.flags.len() as u64 {
        if rng.chance(50) {
            made.put(made.section_field(n, make::Part::Size), 0);
            let pointer = length + rng.pick(&[0, 0, 0, 1]);
            made.put(made.section_field(n, make::Part::Pointer), pointer);
        }
    }
    labelled("raw data at the end", made)
}

/// The file around the lister's limit.
fn lister_limit(rng: &mut Rng) -> Labelled {
    let length = rng.pick(&[65_535, 65_536, 65_537, 70_000]);
    let mut made = either(rng);
    made.bytes.resize(length, 0);
    labelled(&format!("file of {length}"), made)
}

/// No symbols: the pointer isn't looked at.
fn no_symbols(rng: &mut Rng) -> Labelled {
    let mut made = either(rng);
    made.put(made.nsyms_field(), 0);
    made.put(made.symptr_field(), rng.next());
    labelled("no symbols", made)
}

/// One field, several entries; both signs, whole module at the top.
fn shared_fields(rng: &mut Rng) -> Labelled {
    let wish = Wish {
        entries: Some(40),
        ..rich()
    };
    labelled("shared fields", make::module(rng, &wish))
}

fn text_over_data(rng: &mut Rng) -> Labelled {
    let mut made = make::module(rng, &low_and_rich());
    overlay(&mut made);
    labelled("text over data", made)
}

/// Moves the data section, its bss, and its fields to text's address.
fn overlay(made: &mut Made) {
    let old = made.data_address;
    let new = made.text_address;
    let shift = |address: u64| address.wrapping_sub(old).wrapping_add(new);
    for n in [made.data, made.bss] {
        for part in [make::Part::Paddr, make::Part::Vaddr] {
            let field = made.section_field(n, part);
            made.put(field, shift(made.get(field)));
        }
    }
    let start = made.aux(make::Aux::DataStart);
    made.put(start, new);
    for i in 0..made.entries.len() {
        if made.entries[i].section == made.data {
            let field = made.entry_address_field(i);
            made.put(field, shift(made.get(field)));
            made.entries[i].address = shift(made.entries[i].address);
        }
    }
    made.data_address = new;
}

/// An auxiliary reads as an entry of its own, with the csect entry of the
/// symbol it belongs to, and an LD points there.
fn inner_container(rng: &mut Rng, more: &mut Vec<Op>) -> Labelled {
    let mut made = either(rng);
    let mut inner = None;
    for symbol in made.symbols.clone() {
        if symbol.csect == Some(SD) && symbol.auxiliaries >= 2 {
            let index = symbol.index + 1;
            let at = made.symbol_at(index);
            made.set_name_offset(index, 0);
            put(&mut made.bytes, at + 12, 2, 0);
            put(&mut made.bytes, at + 16, 1, rng.pick(&[2, 107, 111]));
            put(&mut made.bytes, at + 17, 1, symbol.auxiliaries - 1);
            inner = Some(index);
            more.push(Op::Csect(index));
        }
        if symbol.csect == Some(LD) {
            if let Some(index) = inner {
                let last = made.symbol_at(symbol.index + symbol.auxiliaries);
                put(&mut made.bytes, last, 4, index);
            }
            more.push(Op::Csect(symbol.index));
        }
    }
    labelled("container among auxiliaries", made)
}

/// Numbers at the ends of what is allowed in all entries: name offset, section,
/// auxiliaries, csect class.
fn edge_symbols(rng: &mut Rng, more: &mut Vec<Op>) -> Labelled {
    let mut made = either(rng);
    for symbol in made.symbols.clone() {
        match rng.below(5) {
            0 | 1 => edge_name(rng, &mut made, symbol.index),
            2 => edge_section(rng, &mut made, symbol.index),
            3 => edge_auxiliaries(rng, &mut made, symbol.index),
            _ if symbol.csect.is_some() => {
                let last = made.symbol_at(symbol.index + symbol.auxiliaries);
                put(&mut made.bytes, last + 11, 1, rng.below(26));
                put(&mut made.bytes, last + 10, 1, rng.below(256));
            }
            _ => {}
        }
        more.push(Op::Symbol(symbol.index));
        more.push(Op::Csect(symbol.index));
    }
    labelled("symbols", made)
}

/// A name offset at an end of the string table.
fn edge_name(rng: &mut Rng, made: &mut Made, index: u64) {
    let length = made.strings_length as u64;
    let before = length.saturating_sub(1);
    let offsets = [0, 1, 2, 3, 4, 5, before, length, length + 1];
    made.set_name_offset(index, rng.pick(&offsets));
}

/// A section number at an end of those that exist or have a meaning.
fn edge_section(rng: &mut Rng, made: &mut Made, index: u64) {
    let last = made.flags.len() as u64;
    let numbers = [0, 1, last, last + 1, 0xFFFF, 0xFFFE, 0xFFFD, 0x7FFF, 0x8000];
    let at = made.symbol_at(index);
    put(&mut made.bytes, at + 12, 2, rng.pick(&numbers));
}

/// Auxiliaries up to the table's end, or one past it.
fn edge_auxiliaries(rng: &mut Rng, made: &mut Made, index: u64) {
    let left = made.symbol_count - index - 1;
    let count = rng.pick(&[0, left, left + 1, 255]).min(255);
    let at = made.symbol_at(index);
    put(&mut made.bytes, at + 17, 1, count);
}

/// Section names of any bytes.
fn section_names(rng: &mut Rng) -> Labelled {
    let mut made = make::module(rng, &rich());
    for n in 1..=made.flags.len() as u64 {
        let at = made.section_at(n);
        let name = rng.bytes(8);
        made.bytes[at..at + 8].copy_from_slice(&name);
    }
    labelled("section names", made)
}

fn thread_sections(rng: &mut Rng) -> Labelled {
    let kinds = vec![rng.pick(&[TDATA, TBSS])];
    let without = if rng.chance(30) { Some(BSS) } else { None };
    let wish = Wish {
        kinds,
        without,
        ..low_and_rich()
    };
    labelled("thread sections", make::module(rng, &wish))
}

/// Accepted files of rarer shapes: large tables, and tables over each other.
fn shape(rng: &mut Rng) -> Labelled {
    let wish = Wish {
        rich: rng.chance(50),
        ..low()
    };
    match rng.below(7) {
        0 => many_symbols(rng),
        1 => many_loader_symbols(rng),
        2 | 3 => many_entries(rng),
        4 => {
            let mut made = make::module(rng, &wish);
            stretch_tables(rng, &mut made);
            labelled("loader tables over each other", made)
        }
        5 => {
            let mut made = make::module(rng, &wish);
            share_raw_data(rng, &mut made);
            labelled("sections over each other", made)
        }
        _ => {
            let mut made = either(rng);
            symbols_over_all(rng, &mut made);
            labelled("symbols over everything", made)
        }
    }
}

fn many_symbols(rng: &mut Rng) -> Labelled {
    let wish = Wish {
        symbols: Some(rng.between(50, 600) as usize),
        ..low()
    };
    let made = if rng.chance(50) {
        make::module(rng, &wish)
    } else {
        make::object(rng, &wish)
    };
    labelled("many symbols", made)
}

fn many_loader_symbols(rng: &mut Rng) -> Labelled {
    let wish = Wish {
        loader_symbols: Some(rng.between(20, 200) as usize),
        ..low()
    };
    labelled("many loader symbols", make::module(rng, &wish))
}

fn many_entries(rng: &mut Rng) -> Labelled {
    let wish = Wish {
        large: true,
        entries: Some(rng.between(50, 400) as usize),
        loader_symbols: Some(rng.between(0, 40) as usize),
        low: rng.chance(50),
        ..Wish::default()
    };
    labelled("many entries", make::module(rng, &wish))
}

/// The string table, and at times the id table, becomes the whole loader
/// section, its own header included; names stay where they are.
fn stretch_tables(rng: &mut Rng, made: &mut Made) {
    let size = made.loader_size as u64;
    let before = (made.loader_strings_at - made.loader_at) as u64;
    for i in 0..made.loader_symbols.len() {
        if made.loader_symbols[i].string {
            let offset = made.loader_name_offset(i) as u64 + before;
            made.set_loader_name_offset(i, offset);
        }
    }
    let mut whole = vec![
        (make::Head::StringOffset, 0),
        (make::Head::StringLength, size),
    ];
    if rng.chance(50) {
        whole.extend([(make::Head::IdOffset, 0), (make::Head::IdLength, size)]);
    }
    for (head, value) in whole {
        if let Some(field) = made.head(head) {
            made.put(field, value);
        }
    }
}

/// Text and data get their bytes from anywhere in the file.
fn share_raw_data(rng: &mut Rng, made: &mut Made) {
    let length = made.bytes.len() as u64;
    for (n, size) in [(made.text, made.text_size), (made.data, made.data_size)] {
        let pointer = made.section_field(n, make::Part::Pointer);
        let last = length - size;
        made.put(
            pointer,
            rng.pick(&[1, last, made.loader_at as u64]).min(last),
        );
    }
}

/// The symbol table starts with the file or ends with it, over whatever is there.
fn symbols_over_all(rng: &mut Rng, made: &mut Made) {
    let most = made.bytes.len() as u64 / 18;
    let count = rng.between(1, most.max(1));
    let start = if rng.chance(50) {
        0
    } else {
        (made.bytes.len() as u64).saturating_sub(18 * count)
    };
    made.put(made.nsyms_field(), count);
    made.put(made.symptr_field(), start);
    made.symbol_count = count;
    made.symbols.clear();
}
