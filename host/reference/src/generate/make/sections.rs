//! Sections: which kinds, and what each holds.

use super::layout::{fitting_address, Layout};
use super::Wish;
use crate::generate::rng::Rng;
use crate::opening::{
    BSS, DATA, DEBUG, DELETED, DWARF, EXCEPT, INFO, KINDS, LOADER, OVRFLO, PAD, TBSS, TEXT, TYPCHK,
};

/// A section to be put into the file.
pub(super) struct Piece {
    pub flags: u64,
    pub paddr: u64,
    pub vaddr: u64,
    pub size: u64,
    /// Bytes to place, if it gets raw data.
    pub raw: Option<Vec<u8>>,
    /// The pointer, if it has no raw data.
    pub pointer: u64,
    /// Added to the others, and so drawn aside.
    pub added: bool,
}

impl Piece {
    /// A section beside those that were drawn.
    pub(super) fn added(flags: u64) -> Piece {
        Piece {
            flags,
            paddr: 0,
            vaddr: 0,
            size: 0,
            raw: None,
            pointer: 0,
            added: true,
        }
    }

    fn set_address(&mut self, address: u64) {
        self.paddr = address;
        self.vaddr = address;
    }

    /// Raw data of any bytes; one of size 0 at times has none.
    fn fill(&mut self, rng: &mut Rng, size: u64) {
        self.size = size;
        self.pointer = 0;
        self.raw = if size == 0 && rng.chance(50) {
            None
        } else {
            Some(rng.bytes(size as usize))
        };
    }
}

/// Section numbers of a module, 0 for none.
pub(super) struct Numbers {
    pub text: u64,
    pub data: u64,
    pub bss: u64,
    pub loader: u64,
}

impl Numbers {
    pub(super) fn of(kinds: &[u64]) -> Numbers {
        let number = |kind: u64| match kinds.iter().position(|&k| k == kind) {
            Some(i) => i as u64 + 1,
            None => 0,
        };
        Numbers {
            text: number(TEXT),
            data: number(DATA),
            bss: number(BSS),
            loader: number(LOADER),
        }
    }
}

/// The kinds of a module's sections, in any order.
pub(super) fn module_kinds(rng: &mut Rng, wish: &Wish) -> Vec<u64> {
    let mut kinds = vec![TEXT, DATA, BSS, LOADER];
    if let Some(left_out) = wish.without {
        kinds.retain(|&kind| kind != left_out);
    }
    for _ in 0..further_sections(rng, wish, kinds.len() + wish.kinds.len()) {
        kinds.push(rng.pick(&[PAD, DWARF, EXCEPT, INFO, DEBUG, TYPCHK, OVRFLO, DELETED]));
    }
    kinds.extend_from_slice(&wish.kinds);
    rng.shuffle(&mut kinds);
    kinds
}

/// How many sections nobody asked for, beside the `given` ones.
fn further_sections(rng: &mut Rng, wish: &Wish, given: usize) -> usize {
    let mut count = if rng.chance(40) { 0 } else { rng.between(1, 4) };
    if rng.chance(3) {
        count = rng.between(5, 28);
    }
    if wish.rich && count == 0 {
        count = 1;
    }
    match wish.sections {
        Some(sections) => sections - given,
        None => count as usize,
    }
}

/// A module's sections.
pub(super) fn module_pieces(
    rng: &mut Rng,
    bits: u64,
    kinds: &[u64],
    layout: &Layout,
    loader: &[u8],
) -> Vec<Piece> {
    let mut pieces = Vec::new();
    for &kind in kinds {
        let mut piece = any_piece(rng, bits, kind);
        match kind {
            TEXT => {
                piece.set_address(layout.text_address);
                piece.fill(rng, layout.text_size);
            }
            DATA => {
                piece.set_address(layout.data_address);
                piece.fill(rng, layout.data_size);
            }
            BSS => {
                piece.set_address(layout.bss_address);
                piece.size = layout.bss_size;
            }
            LOADER => {
                piece.size = loader.len() as u64;
                piece.raw = Some(loader.to_vec());
            }
            _ => {}
        }
        pieces.push(piece);
    }
    pieces
}

/// An object's sections, of any kinds.
pub(super) fn object_pieces(rng: &mut Rng, bits: u64, count: u64) -> Vec<Piece> {
    let mut pieces = Vec::new();
    for _ in 0..count {
        let kind = object_kind(rng);
        let mut piece = any_piece(rng, bits, kind);
        if kind == TEXT || kind == DATA || kind == BSS {
            piece.size = piece.size.min(64);
            piece.set_address(fitting_address(rng, bits, piece.size));
        }
        pieces.push(piece);
    }
    pieces
}

/// The sections of an object that can be placed: text and data with raw data.
pub(super) fn linkable_pieces(rng: &mut Rng, bits: u64, wish: &Wish) -> Vec<Piece> {
    let mut pieces = Vec::new();
    for kind in linkable_kinds(rng, wish) {
        let mut piece = any_piece(rng, bits, kind);
        if kind == TEXT || kind == DATA || kind == BSS {
            let size = match wish {
                _ if wish.huge => rng.between(300_000, 400_000),
                _ if wish.rich => rng.between(40, 90),
                _ if rng.chance(15) => 0,
                _ => rng.between(1, 90),
            };
            piece.size = size;
            piece.set_address(fitting_address(rng, bits, size));
            if kind != BSS {
                piece.fill(rng, size);
            }
        }
        pieces.push(piece);
    }
    pieces
}

/// Some of text, data and bss, and others, in any order.
fn linkable_kinds(rng: &mut Rng, wish: &Wish) -> Vec<u64> {
    let mut kinds = wish.kinds.clone();
    if wish.rich {
        kinds.extend([TEXT, DATA, BSS]);
    }
    let more = if wish.rich { 3 } else { 7 };
    for _ in 0..rng.between(0, more) {
        kinds.push(match rng.below(10) {
            0 => OVRFLO,
            _ => object_kind(rng),
        });
    }
    rng.shuffle(&mut kinds);
    kinds
}

fn object_kind(rng: &mut Rng) -> u64 {
    if rng.chance(60) {
        rng.pick(&[TEXT, DATA, BSS])
    } else if rng.chance(10) {
        DELETED
    } else {
        rng.pick(&KINDS).0
    }
}

/// A section of any kind, with junk where nothing is asked.
fn any_piece(rng: &mut Rng, bits: u64, kind: u64) -> Piece {
    let mask = if bits == 32 { 0xFFFF_FFFF } else { u64::MAX };
    let junk = |rng: &mut Rng| if rng.chance(50) { 0 } else { rng.next() & mask };
    let mut piece = Piece {
        flags: kind,
        paddr: junk(rng),
        vaddr: junk(rng),
        size: 0,
        raw: None,
        pointer: 0,
        added: false,
    };
    if kind == DWARF {
        let subtype = rng.pick(&[0, 1, 2, 8, 9, 0xFFFF, 0x8000]);
        piece.flags |= subtype << 16;
    }
    if kind == BSS || kind == TBSS || kind == OVRFLO || kind == DELETED {
        // Never looked at: any size and pointer.
        piece.size = junk(rng);
        piece.pointer = junk(rng);
        return piece;
    }
    if rng.chance(20) {
        // No raw data: any size.
        piece.size = junk(rng);
    } else {
        piece.size = if rng.chance(15) {
            0
        } else {
            rng.between(1, 24)
        };
        piece.raw = Some(rng.bytes(piece.size as usize));
    }
    piece
}
