//! Limits and sheets, request 10: damages, and operations at an accepted edge.

use super::damage::{good_sheet, hurt, junk_list, plain, row, Hurt, Row};
use super::make::{self, Made, Wish};
use super::rng::Rng;
use super::{Edge, Op};
use crate::bytes::put;
use crate::sheet::Form;
use crate::{LIMIT, LOADER_SYMBOL_LIMIT, ROOM, SHEET};

pub static ROWS: &[Row] = &[
    row("sheet of fewer than two bytes", SHEET, |rng| {
        let length = rng.below(2) as usize;
        read(rng, vec![0; length], 0, SHEET, 0)
    }),
    row("sheet that begins neither 0002 nor 0000", SHEET, |rng| {
        let k = rng.below(5) as usize;
        let form = any_form(rng);
        let mut sheet = good_sheet(rng, form, k);
        let first = rng.pick(&[0x0001, 0x0003, 0x0100, 0x0200, 0x8000, 0xFF00, 0xFF02]);
        put(&mut sheet, 0, 2, first);
        read(rng, sheet, k, SHEET, 0)
    }),
    row("new sheet short", SHEET, |rng| {
        let mut sheet = good_sheet(rng, Form::New, 0);
        let length = rng.between(2, 23);
        let length = rng.pick(&[length, 20, 23, 23]) as usize;
        sheet.truncate(length);
        read(rng, sheet, 0, SHEET, 0)
    }),
    row("new sheet first count", SHEET, |rng| {
        let k = rng.below(5) as usize;
        let mut sheet = good_sheet(rng, Form::New, k);
        put(
            &mut sheet,
            2,
            2,
            rng.pick(&[0, 1, 3, 0x0102, 0x0200, 0x8002, 0xFFFF]),
        );
        if rng.chance(20) {
            put(&mut sheet, 20, 4, 0xFFFF_FFFF);
        }
        read(rng, sheet, k, SHEET, 0)
    }),
    row("new sheet length", SHEET, |rng| {
        let k = rng.between(1, 5) as usize;
        let mut sheet = good_sheet(rng, Form::New, k);
        let other = [
            k as u64 - 1,
            k as u64 + 1,
            4_097,
            0x0001_0000 + k as u64,
            70_000,
        ];
        match rng.below(5) {
            0 => sheet.push(0),
            1 => sheet.truncate(24 + 8 * k - 1),
            2 => sheet.truncate(20 + 8 * k),
            3 => put(&mut sheet, 20, 4, rng.pick(&other)),
            _ => sheet.extend_from_slice(&[0; 8]),
        }
        read(rng, sheet, k, SHEET, 0)
    }),
    row("limit new sheet", LIMIT, |rng| {
        let held = rng.pick(&[0, 0, 3, 70_001]);
        let mut sheet = good_sheet(rng, Form::New, held);
        // Among them counts that are small in their low half, or whose addresses
        // are no bytes in 32 bits.
        let over = [
            70_001,
            70_001,
            70_002,
            0x0002_0000,
            0x2000_0000,
            0x8000_0000,
            0xFFFF_FFFF,
        ];
        put(&mut sheet, 20, 4, rng.pick(&over));
        read(rng, sheet, held, LIMIT, 2)
    }),
    row("limit old sheet, whole", LIMIT, |rng| {
        let k = rng.pick(&[4_097, 4_097, 4_098, 0xFFFF]);
        let sheet = good_sheet(rng, Form::Old, k);
        read(rng, sheet, k, LIMIT, 2)
    }),
    row("room 2 new sheet", ROOM, |rng| {
        let k = rng.below(6) as usize;
        let sheet = good_sheet(rng, Form::New, k);
        let wrong = rng.pick(&[k + 1, k + 1, k + 4, k.saturating_sub(1), 0]);
        if wrong == k {
            return None;
        }
        read(rng, sheet, wrong, ROOM, 2)
    }),
];

fn any_form(rng: &mut Rng) -> Form {
    rng.pick(&[Form::Old, Form::New])
}

/// A sheet that is read into a list of this length, and refused.
fn read(rng: &mut Rng, sheet: Vec<u8>, length: usize, number: u64, item: u64) -> Option<Hurt> {
    let list = junk_list(rng, length);
    hurt(plain(rng), Op::ReadSheet { sheet, list }, number, item)
}

pub(super) static EDGES: &[Edge] = &[
    ("short sheets", |rng| {
        let k = rng.below(2) as usize;
        let ops = vec![
            good_read(rng, Form::Old, 0),
            good_read(rng, Form::New, 0),
            good_read(rng, Form::New, k),
            good_write(rng, 0),
        ];
        Some((plain(rng), ops))
    }),
    ("sheets around 4,096", |rng| {
        let k = rng.pick(&[4_095, 4_096]);
        let ops = vec![
            good_read(rng, Form::Old, k),
            good_read(rng, Form::Old, 4_096),
            good_read(rng, Form::New, 4_097),
            good_write(rng, 4_097),
        ];
        Some((plain(rng), ops))
    }),
    ("sheets of 70,000", |rng| {
        let ops = vec![good_read(rng, Form::New, 70_000), good_write(rng, 70_000)];
        Some((plain(rng), ops))
    }),
    ("70,000 loader symbols", |rng| {
        let made = module(rng, |wish| wish.loader_symbols = Some(70_000));
        Some((made, vec![Op::Module, Op::LoaderSymbol(70_002)]))
    }),
    ("100,000 entries", |rng| {
        let made = module(rng, |wish| {
            wish.entries = Some(100_000);
            wish.huge = true;
        });
        Some((made, vec![Op::Module]))
    }),
    ("many loader symbols of one long name", |rng| {
        let mut made = module(rng, |wish| wish.loader_symbols = Some(2_000));
        one_long_name(&mut made);
        Some((made, vec![Op::Module, Op::LoaderSymbolName(2_002)]))
    }),
];

fn good_read(rng: &mut Rng, form: Form, k: usize) -> Op {
    Op::ReadSheet {
        sheet: good_sheet(rng, form, k),
        list: junk_list(rng, k),
    }
}

fn good_write(rng: &mut Rng, k: usize) -> Op {
    Op::WriteSheet {
        text: rng.next(),
        data: rng.next(),
        list: junk_list(rng, k),
        sheet: rng.bytes(Form::New.length(k as u64) as usize),
    }
}

fn module(rng: &mut Rng, change: fn(&mut Wish)) -> Made {
    let mut wish = Wish {
        rich: true,
        low: true,
        ..Wish::default()
    };
    change(&mut wish);
    make::module(rng, &wish)
}

/// Gives every loader symbol the same name of 65,534 bytes: the string table moves
/// to the file's end, and the loader section grows up to there.
fn one_long_name(made: &mut Made) {
    made.bytes.extend_from_slice(&[0xFF, 0xFF]);
    let start = made.bytes.len();
    made.bytes.extend(vec![b'n'; 65_534]);
    made.bytes.push(0);
    made.stretch_loader();
    let strings_at = (start - 2 - made.loader_at) as u64;
    for (head, value) in [
        (make::Head::StringOffset, strings_at),
        (make::Head::StringLength, 65_537),
    ] {
        if let Some(field) = made.head(head) {
            made.put(field, value);
        }
    }
    for i in 0..made.loader_symbols.len() {
        made.set_loader_name_offset(i, 2);
    }
}

/// A sheet of the new form that is read, good most times, for a part of the files.
pub(super) fn some_op(rng: &mut Rng) -> Option<Op> {
    if !rng.chance(15) {
        return None;
    }
    let k = if rng.chance(3) {
        rng.pick(&[4_097, 69_999, LOADER_SYMBOL_LIMIT as usize])
    } else {
        rng.below(8) as usize
    };
    let form = rng.pick(&[Form::New, Form::New, Form::Old]);
    let mut sheet = good_sheet(rng, form, k);
    if rng.chance(30) {
        let at = rng.below(24.min(sheet.len() as u64)) as usize;
        sheet[at] = rng.pick(&[0, 1, 2, 0xFF]);
    }
    if rng.chance(10) {
        sheet.truncate(rng.below(sheet.len() as u64) as usize);
    }
    let length = if rng.chance(90) {
        k
    } else {
        rng.below(9) as usize
    };
    let list = junk_list(rng, length);
    Some(Op::ReadSheet { sheet, list })
}
