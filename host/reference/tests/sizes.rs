//! Request 10 by hand: both forms of a sheet, and tables at the new limits.

use reference::bytes::put;
use reference::generate::make::{self, Head, Wish};
use reference::generate::rng::Rng;
use reference::*;

fn sheet(width: usize, first: u64, k: u64, addresses: usize) -> Vec<u8> {
    let start = 2 * width + 16;
    let mut sheet = vec![0; start + 8 * addresses];
    put(&mut sheet, 0, width, first);
    put(&mut sheet, width, 8, 0x1111);
    put(&mut sheet, width + 8, 8, 0x2222);
    put(&mut sheet, width + 16, width, k);
    for i in 0..addresses {
        put(&mut sheet, start + 8 * i, 8, 7 + i as u64);
    }
    sheet
}

/// The addresses, or the refusal, with a list of this length.
fn read(sheet: &[u8], length: usize) -> Result<Vec<u64>, (u64, u64)> {
    let mut list = vec![9; length];
    match read_sheet(sheet, &mut list) {
        Ok((text, data)) => {
            assert_eq!((text, data), (0x1111, 0x2222));
            Ok(list)
        }
        Err(refusal) => {
            assert_eq!((list, refusal.offset), (vec![9; length], 0));
            Err((refusal.number, refusal.item))
        }
    }
}

#[test]
fn both_forms_are_read() {
    for width in [2, 4] {
        assert_eq!(read(&sheet(width, 2, 0, 0), 0), Ok(vec![]));
        assert_eq!(read(&sheet(width, 2, 2, 2), 2), Ok(vec![7, 8]));
        assert_eq!(read(&sheet(width, 2, 2, 2), 1), Err((ROOM, 2)));
        assert_eq!(read(&sheet(width, 2, 2, 1), 2), Err((SHEET, 0)));
        assert_eq!(read(&sheet(width, 2, 1, 2), 2), Err((SHEET, 0)));
        assert_eq!(read(&sheet(width, 3, 0, 0), 0), Err((SHEET, 0)));
        let whole = sheet(width, 2, 0, 0);
        for length in 0..whole.len() {
            assert_eq!(read(&whole[..length], 0), Err((SHEET, 0)));
        }
    }
    assert_eq!(read(&sheet(4, 0x1_0002, 0, 0), 0), Err((SHEET, 0)));
    assert_eq!(read(&sheet(4, 0, 0, 0), 0), Err((SHEET, 0)));
}

#[test]
fn each_form_has_its_limit() {
    for (width, limit) in [(2, 4_096), (4, 70_000)] {
        let list = read(&sheet(width, 2, limit, limit as usize), limit as usize);
        assert_eq!(list.unwrap().len(), limit as usize);
        let over = limit + 1;
        let whole = sheet(width, 2, over, over as usize);
        assert_eq!(read(&whole, over as usize), Err((LIMIT, 2)));
        // Before its length.
        assert_eq!(read(&sheet(width, 2, over, 0), 0), Err((LIMIT, 2)));
    }
    assert_eq!(read(&sheet(4, 2, 0x2000_0000, 0), 0), Err((LIMIT, 2)));
}

#[test]
fn the_new_form_is_written() {
    let mut room = vec![9; 40];
    assert_eq!(write_sheet(0x1111, 0x2222, &[7, 8], &mut room), Ok(()));
    assert_eq!(room, sheet(4, 2, 2, 2));
    let refused = |list: &[u64], length| {
        let mut room = vec![9; length];
        let refusal = write_sheet(1, 2, list, &mut room).unwrap_err();
        assert_eq!(room, vec![9; length]);
        (refusal.number, refusal.item)
    };
    for length in [0, 36, 39, 41] {
        assert_eq!(refused(&[7, 8], length), (ROOM, 0));
    }
    assert_eq!(refused(&vec![0; 70_001], 24 + 8 * 70_001), (LIMIT, 2));
    let mut room = vec![9; 24 + 8 * 70_000];
    assert_eq!(write_sheet(1, 2, &vec![3; 70_000], &mut room), Ok(()));
}

/// 70,000 names of 65,534 bytes, all the same ones: they aren't searched one by one.
#[test]
fn names_that_share_their_bytes() {
    for bits in [32, 64] {
        let wish = Wish {
            bits: Some(bits),
            rich: true,
            low: true,
            loader_symbols: Some(70_000),
            ..Wish::default()
        };
        let mut made = make::module(&mut Rng::new(10), &wish);
        let start = made.bytes.len() - made.loader_at;
        made.bytes.extend_from_slice(&[0xFF, 0xFF]);
        made.bytes.extend(vec![b'n'; 65_534]);
        made.bytes.push(0);
        made.stretch_loader();
        for (head, value) in [
            (Head::StringOffset, start as u64),
            (Head::StringLength, 65_537),
        ] {
            made.put(made.head(head).unwrap(), value);
        }
        for i in 0..70_000 {
            made.set_loader_name_offset(i, 2);
        }
        let last = loader_symbol(&made.bytes, 70_002).unwrap();
        assert_eq!(last.name.len(), 65_534);
        // A zero in the middle is one too many for all of them.
        let middle = last.name.start + 30_000;
        made.bytes[middle] = 0;
        let refusal = module(&made.bytes).unwrap_err();
        assert_eq!((refusal.number, refusal.item), (LSYM, 3));
    }
}
