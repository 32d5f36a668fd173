//! The auxiliary header's version, and with version 2 good visibilities. Drawn
//! aside, as the debug section.

use super::symbol_table::SymbolTable;
use super::Wish;
use crate::bytes::{number, put};
use crate::generate::rng::Rng;
use crate::symbols::is_csect_class;

/// Sets the version, 2 most times, where the header has one.
pub(super) fn version(
    side: &mut Rng,
    bits: u64,
    wish: &Wish,
    aux: &mut [u8],
    symbols: Option<&mut SymbolTable>,
) {
    if aux.len() < 4 {
        return;
    }
    let any = side.pick(&[2, 2, 2, 2, 1, 1, 3, 0x0102]);
    put(aux, 2, 2, wish.version.unwrap_or(any));
    if let Some(table) = symbols {
        if bits == 32 && number(aux, 2, 2) == 2 {
            allow_types(side, table);
        }
    }
}

/// Types whose bits 7000 are no visibility get one.
fn allow_types(side: &mut Rng, table: &mut SymbolTable) {
    for symbol in &table.symbols {
        let at = 18 * symbol.index as usize + 14;
        let kind = number(&table.bytes, at, 2);
        if is_csect_class(symbol.class) && (kind >> 12) & 7 > 4 {
            let kind = kind & 0x8FFF | side.below(5) << 12;
            put(&mut table.bytes, at, 2, kind);
        }
    }
}
