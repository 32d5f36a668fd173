//! A module's file laid out anew, so that just two of its parts share bytes, or none
//! does and all lie side by side.

use crate::bytes::put;
use crate::generate::make::{Made, Part};
use crate::generate::rng::Rng;
use crate::opening::{DELETED, OVRFLO};

/// What SHARED is about; the string table goes with the symbols.
#[derive(Clone, Copy, Debug, PartialEq)]
pub(super) enum Piece {
    Headers,
    Text,
    Data,
    Loader,
    Symbols,
}

/// The same module with its parts in any order. Where `shared` names two, the last
/// bytes of the first one are the first bytes of the second one.
pub(super) fn laid_out(
    rng: &mut Rng,
    source: &Made,
    shared: Option<(Piece, Piece, usize)>,
) -> Option<Made> {
    let order = any_order(rng, shared)?;
    let mut made = source.clone();
    forget_others(&mut made);
    made.bytes.truncate(made.headers_end());
    close_headers(&mut made, shared);
    let mut before = Piece::Headers;
    for piece in order {
        let bytes = bytes_of(source, piece);
        let common = match shared {
            Some((one, other, count)) if (one, other) == (before, piece) => count,
            _ => 0,
        };
        if common == 0 && shared.is_some() && rng.chance(50) {
            let gap = rng.between(1, 5) as usize;
            made.bytes.extend(rng.bytes(gap));
        }
        let start = made.bytes.len() - common;
        join(&mut made, source, piece, &bytes, common)?;
        set_place(&mut made, source, piece, start);
        before = piece;
    }
    Some(made)
}

/// The four parts after the headers; the two that share bytes are neighbours.
fn any_order(rng: &mut Rng, shared: Option<(Piece, Piece, usize)>) -> Option<Vec<Piece>> {
    let mut order = vec![Piece::Text, Piece::Data, Piece::Loader, Piece::Symbols];
    rng.shuffle(&mut order);
    if let Some((one, other, _)) = shared {
        order.retain(|&piece| piece != other);
        let at = match one {
            Piece::Headers => 0,
            _ => order.iter().position(|&piece| piece == one)? + 1,
        };
        order.insert(at, other);
    }
    Some(order)
}

/// Sections that no part is of lose their raw data.
fn forget_others(made: &mut Made) {
    for n in 1..=made.flags.len() as u64 {
        let flags = made.flags[n as usize - 1];
        let kept = [made.text, made.data, made.loader].contains(&n);
        if !kept && flags != DELETED && flags != OVRFLO {
            made.put_part(n, Part::Pointer, 0);
        }
    }
}

/// Before a loader section the headers must end with zeros, as its version begins: in
/// XCOFF64 they do with four bytes that are nobody's.
fn close_headers(made: &mut Made, shared: Option<(Piece, Piece, usize)>) {
    if let (64, Some((Piece::Headers, Piece::Loader, _))) = (made.bits, shared) {
        let end = made.bytes.len();
        made.bytes[end - 4..].fill(0);
    }
}

fn bytes_of(source: &Made, piece: Piece) -> Vec<u8> {
    let raw = |n: u64| {
        let start = source.part(n, Part::Pointer) as usize;
        start..start + source.part(n, Part::Size) as usize
    };
    let range = match piece {
        Piece::Headers => 0..source.headers_end(),
        Piece::Text => raw(source.text),
        Piece::Data => raw(source.data),
        Piece::Loader => raw(source.loader),
        Piece::Symbols => source.symbols_at..source.strings_at + source.strings_length.max(4),
    };
    source.bytes[range].to_vec()
}

/// Adds the part, whose first `common` bytes are there already. A loader section needs
/// its own ones, all 0: whatever ends there must have them, text and data can.
fn join(made: &mut Made, source: &Made, piece: Piece, bytes: &[u8], common: usize) -> Option<()> {
    let length = made.bytes.len();
    let there = &mut made.bytes[length - common..];
    if piece == Piece::Loader && common > 0 {
        let headers = length == source.headers_end();
        if headers && there.iter().any(|&byte| byte != 0) {
            return None;
        }
        if common > 3 {
            return None;
        }
        there.fill(0);
    }
    made.bytes.extend_from_slice(&bytes[common..]);
    Some(())
}

fn set_place(made: &mut Made, source: &Made, piece: Piece, start: usize) {
    match piece {
        Piece::Headers => {}
        Piece::Text => made.put_part(made.text, Part::Pointer, start as u64),
        Piece::Data => made.put_part(made.data, Part::Pointer, start as u64),
        Piece::Loader => {
            made.put_part(made.loader, Part::Pointer, start as u64);
            let moved = |at: usize| at - source.loader_at + start;
            made.loader_at = start;
            made.loader_symbols_at = moved(source.loader_symbols_at);
            made.entries_at = moved(source.entries_at);
            made.ids_at = moved(source.ids_at);
            made.loader_strings_at = moved(source.loader_strings_at);
        }
        Piece::Symbols => {
            made.symbols_at = start;
            made.strings_at = start + source.strings_at - source.symbols_at;
            let field = made.symptr_field();
            put(&mut made.bytes, field.at, field.length, start as u64);
        }
    }
}
