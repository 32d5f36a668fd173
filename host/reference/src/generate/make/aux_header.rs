//! A module's auxiliary header.

use super::layout::Layout;
use super::places::{aux_field, Aux};
use super::sections::Numbers;
use super::Wish;
use crate::bytes::{by, put};
use crate::generate::rng::Rng;

/// The auxiliary header, junk where nobody looks.
pub(super) fn aux_header(
    rng: &mut Rng,
    bits: u64,
    wish: &Wish,
    numbers: &Numbers,
    layout: &Layout,
) -> Vec<u8> {
    let whole = by(bits, 72, 110);
    let length = match wish.opthdr {
        Some(length) => length,
        None if rng.chance(70) => whole,
        None => whole + rng.below(20) as usize,
    };
    let full = length.max(whole);
    let mut aux = if rng.chance(50) {
        rng.bytes(full)
    } else {
        vec![0; full]
    };
    for (which, value) in known_values(numbers, layout) {
        set(&mut aux, bits, which, value);
    }
    for (section, address) in [(Aux::EntrySection, Aux::Entry), (Aux::TocSection, Aux::Toc)] {
        let (number, value) = any_place(rng, numbers, layout);
        set(&mut aux, bits, section, number);
        set(&mut aux, bits, address, value);
    }
    aux.truncate(length);
    aux
}

fn set(aux: &mut [u8], bits: u64, which: Aux, value: u64) {
    let field = aux_field(bits, which);
    put(aux, field.at, field.length, value);
}

/// What must be as in the section headers.
fn known_values(numbers: &Numbers, layout: &Layout) -> [(Aux, u64); 9] {
    [
        (Aux::TextSize, layout.text_size),
        (Aux::DataSize, layout.data_size),
        (Aux::BssSize, layout.bss_size),
        (Aux::TextStart, layout.text_address),
        (Aux::DataStart, layout.data_address),
        (Aux::Text, numbers.text),
        (Aux::Data, numbers.data),
        (Aux::Bss, numbers.bss),
        (Aux::Loader, numbers.loader),
    ]
}

/// Section and address of the entry or the TOC: none, in text, or in data.
fn any_place(rng: &mut Rng, numbers: &Numbers, layout: &Layout) -> (u64, u64) {
    let number = rng.pick(&[0, numbers.text, numbers.data]);
    let start = if number == numbers.text {
        layout.text_address
    } else {
        layout.data_address
    };
    let address = match rng.below(4) {
        0 => rng.next(),
        1 => u64::MAX,
        _ => start.wrapping_add(rng.below(64)),
    };
    (number, address)
}
