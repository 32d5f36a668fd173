//! What is read of a file: headers, symbols, csects, the module and its tables.

use crate::compare::{
    answers, our_refusal, their_refusal, whole, Agreed, Agreement, Difference, Refused,
};
use crate::tables;
use reference::generate::Op;
use std::ops::Range;

pub fn read(file: &[u8], op: &Op) -> Agreement {
    match *op {
        Op::Open => opened(file),
        Op::Section(n) => whole(
            xcoff::section(file, n).map(our_section),
            reference::section(file, n).map(their_section),
        ),
        Op::SectionName(n) => {
            // The reference hands back all 8 bytes of the field.
            let theirs = reference::section_name(file, n)
                .map(|name| their_name(file, up_to_zero(file, name)));
            whole(
                xcoff::section_name(file, n).map(|name| our_name(file, name)),
                theirs,
            )
        }
        Op::Symbol(i) => whole(
            xcoff::symbol(file, i).map(our_symbol),
            reference::symbol(file, i).map(|s| their_symbol(&s)),
        ),
        Op::SymbolName(i) => names(
            file,
            xcoff::symbol_name(file, i),
            reference::symbol_name(file, i),
        ),
        Op::Walk => walk(file),
        Op::Csect(i) => whole(
            xcoff::csect(file, i).map(our_csect),
            reference::csect(file, i).map(their_csect),
        ),
        Op::Symbols => tables::symbols(file),
        Op::List => Ok(Agreed::default()),
        _ => loaded(file, op),
    }
}

/// What is read of a loadable module.
fn loaded(file: &[u8], op: &Op) -> Agreement {
    match *op {
        Op::LoaderSymbol(i) => whole(
            xcoff::loader_symbol(file, i).map(our_loader_symbol),
            reference::loader_symbol(file, i).map(|s| their_loader_symbol(&s)),
        ),
        Op::LoaderSymbolName(i) => names(
            file,
            xcoff::loader_symbol_name(file, i),
            reference::loader_symbol_name(file, i),
        ),
        Op::ImportPath(n) => names(
            file,
            xcoff::import_path(file, n),
            reference::import_path(file, n),
        ),
        Op::ImportBase(n) => names(
            file,
            xcoff::import_base(file, n),
            reference::import_base(file, n),
        ),
        Op::ImportMember(n) => names(
            file,
            xcoff::import_member(file, n),
            reference::import_member(file, n),
        ),
        Op::LoaderSymbols => tables::loader_symbols(file),
        Op::ImportIds => tables::import_ids(file),
        Op::Relocations => tables::relocations(file),
        _ => module(file),
    }
}

// ---- names

/// A name's bytes and, where it is not empty, its place: a name is the very bytes of the file.
pub type Name = (Vec<u8>, Option<usize>);

pub fn our_name(file: &[u8], name: &[u8]) -> Name {
    let place = (name.as_ptr() as usize).wrapping_sub(file.as_ptr() as usize);
    (name.to_vec(), (!name.is_empty()).then_some(place))
}

pub fn their_name(file: &[u8], name: Range<usize>) -> Name {
    (
        file[name.clone()].to_vec(),
        (!name.is_empty()).then_some(name.start),
    )
}

fn names(
    file: &[u8],
    ours: Result<&[u8], xcoff::Refusal>,
    theirs: Result<Range<usize>, reference::Refusal>,
) -> Agreement {
    whole(
        ours.map(|name| our_name(file, name)),
        theirs.map(|name| their_name(file, name)),
    )
}

fn up_to_zero(file: &[u8], name: Range<usize>) -> Range<usize> {
    let end = name.clone().find(|&at| file[at] == 0).unwrap_or(name.end);
    name.start..end
}

// ---- headers

/// The record, and the two tables as the header has them.
type Section = ((u64, u64, u64, u64, u64, bool), [u64; 4]);

fn our_section(s: xcoff::Section) -> Section {
    let flag = match s.kind {
        xcoff::Kind::Deleted => 0xFFFF_FFFF,
        kind => 8 << kind as u64,
    };
    let tables = [s.relptr, s.nreloc, s.lnnoptr, s.nlnno];
    ((flag, s.paddr, s.vaddr, s.size, s.scnptr, s.raw), tables)
}

fn their_section(s: reference::Section) -> Section {
    let record = (s.flags, s.paddr, s.vaddr, s.size, s.scnptr, s.raw.is_some());
    (record, [s.relptr, s.nreloc, s.lnnoptr, s.nlnno])
}

fn bits(format: xcoff::Format) -> u64 {
    match format {
        xcoff::Format::Xcoff32 => 32,
        xcoff::Format::Xcoff64 => 64,
    }
}

/// The file header, and every section.
fn opened(file: &[u8]) -> Agreement {
    let theirs = reference::open(file);
    let agreed = whole(
        xcoff::open(file).map(|o| (bits(o.format), o.sections, o.symbols, o.opthdr, o.flags)),
        theirs.clone().map(|o| {
            (
                o.bits,
                o.sections.len() as u64,
                o.symbols,
                o.opthdr,
                o.flags,
            )
        }),
    )?;
    for (i, section) in theirs.into_iter().flat_map(|o| o.sections).enumerate() {
        let n = i as u64 + 1;
        answers(
            &format!("section {n}"),
            xcoff::section(file, n).map(our_section),
            Ok(their_section(section)),
        )?;
    }
    Ok(agreed)
}

// ---- symbols

pub type Symbol = (u64, i64, u64, u64, u64, Option<u64>);

pub fn our_symbol(s: xcoff::Symbol) -> Symbol {
    let visibility = s.visibility.map(|v| v as u64);
    (s.value, s.scnum, s.ntype, s.sclass, s.numaux, visibility)
}

pub fn their_symbol(s: &reference::Symbol) -> Symbol {
    (
        s.value,
        s.section,
        s.kind,
        s.class,
        s.auxiliaries,
        s.visibility,
    )
}

pub type Csect = (u64, u64, u64, u64);

pub fn our_csect(c: xcoff::Csect) -> Csect {
    (c.length, c.align, c.kind as u64, c.smclas)
}

pub fn their_csect(c: reference::Csect) -> Csect {
    (c.length, c.alignment, c.kind, c.class)
}

pub type Walk = (u64, u64, Option<Refused>);

pub fn our_walk(w: xcoff::Walk) -> Walk {
    (w.visited, w.end, w.cause.map(our_refusal))
}

pub fn their_walk(w: reference::Walk) -> Walk {
    (w.visited, w.end, w.refusal.map(their_refusal))
}

fn walk(file: &[u8]) -> Agreement {
    let theirs = reference::walk(file);
    let cause = theirs.as_ref().ok().and_then(|w| w.refusal);
    let mut agreed = whole(xcoff::walk(file).map(our_walk), theirs.map(their_walk))?;
    agreed.refusals.extend(cause);
    Ok(agreed)
}

// ---- modules

/// Number, address and size of text, data and bss; of entry and TOC the section and address, where there is one.
type Parts = ([(u64, u64, u64); 3], [Option<(u64, u64)>; 2]);
type Module = ((u64, u64, u64, u64, u64, u64), Parts);

fn our_module(m: xcoff::Module) -> Module {
    (
        (
            bits(m.format),
            m.loader,
            m.image,
            m.symbols,
            m.relocations,
            m.ids,
        ),
        (
            [m.text, m.data, m.bss].map(|p| (p.number, p.address, p.size)),
            [m.entry, m.toc].map(|a| a.map(|a| (a.section, a.address))),
        ),
    )
}

fn their_module(m: reference::Module) -> Module {
    let anchor = |section, address| (section != 0).then_some((section, address));
    (
        (
            m.bits,
            m.loader,
            m.data_image,
            m.loader_symbols,
            m.relocations,
            m.import_ids,
        ),
        (
            [
                (m.text, m.text_address, m.text_size),
                (m.data, m.data_address, m.data_size),
                (m.bss, m.bss_address, m.bss_size),
            ],
            [
                anchor(m.entry_section, m.entry_address),
                anchor(m.toc_section, m.toc_address),
            ],
        ),
    )
}

fn module(file: &[u8]) -> Agreement {
    whole(
        xcoff::module(file).map(our_module),
        reference::module(file).map(their_module),
    )
}

pub type LoaderSymbol = (u64, u64, u64, u64, u64, u64);

pub fn our_loader_symbol(s: xcoff::LoaderSymbol) -> LoaderSymbol {
    (s.value, s.scnum, s.smtype, s.smclas, s.ifile, s.parm)
}

pub fn their_loader_symbol(s: &reference::LoaderSymbol) -> LoaderSymbol {
    (s.value, s.section, s.kind, s.class, s.file_id, s.parameter)
}

pub fn our_id(file: &[u8], n: u64) -> Result<[Name; 3], xcoff::Refusal> {
    let name = |part| our_name(file, part);
    Ok([
        name(xcoff::import_path(file, n)?),
        name(xcoff::import_base(file, n)?),
        name(xcoff::import_member(file, n)?),
    ])
}

/// The file is as it was.
pub fn unchanged(file: &[u8], before: &[u8]) -> Result<(), Difference> {
    if file == before {
        return Ok(());
    }
    Err(Difference {
        part: "file".into(),
        ours: "changed".into(),
        theirs: "unchanged".into(),
    })
}
