//! The bench figures of document 01, and its example for the lister.

use reference::bytes::{number, put};
use reference::generate::make::{self, Field, Made, Part, Wish};
use reference::generate::rng::Rng;
use reference::images::change;
use reference::module::{type_allowed, width_of};
use reference::*;

#[test]
fn p1_to_p6_fields() {
    assert_eq!(change(0x1000_0104, 0x2000_0000, false, 32), 0x3000_0104);
    assert_eq!(change(0x1000_0104, 0x2000_0000, true, 32), 0xF000_0104);
    assert_eq!(change(0xFFFF_FFF0, 0x20, false, 32), 0x10);
    let once = change(0x40, 0x1000, false, 32);
    assert_eq!(change(once, 0x400, true, 32), 0xC40);
    assert_eq!(
        change(0x1_1000_0000, 0xFFFF_FFFF_F000_0000, false, 64),
        0x1_0000_0000
    );
    assert_eq!(change(1, 0x1_0000_0008, false, 32), 9);
    // An amount below zero is the same as one above the width.
    assert_eq!(
        change(0x1_1000_0000, -0x1000_0000, false, 64),
        0x1_0000_0000
    );
}

#[test]
fn p7_p8_types() {
    assert!(type_allowed(0x3F01, 64));
    assert_eq!(width_of(0x3F01), 64);
    assert!(!type_allowed(0x3F01, 32));
    assert!(!type_allowed(0x0F00, 32));
    assert!(!type_allowed(0x0F00, 64));
    assert!(type_allowed(0xDF0C, 32));
}

/// A file of headers with one section of these flags.
fn one_section(flags: u64) -> Vec<u8> {
    let mut file = vec![0; 60];
    put(&mut file, 0, 2, 0x01DF);
    put(&mut file, 2, 2, 1);
    put(&mut file, 20 + 36, 4, flags);
    file
}

#[test]
fn p9_flags() {
    assert_eq!(
        open(&one_section(0x60)),
        Err(Refusal {
            number: KIND,
            item: 1,
            offset: 20
        })
    );
    assert_eq!(
        open(&one_section(0x0001_0020)),
        Err(Refusal {
            number: KIND,
            item: 1,
            offset: 20
        })
    );
    let summary = open(&one_section(0x0002_0010)).unwrap();
    assert_eq!(summary.sections[0].flags, 0x10);
}

#[test]
fn p10_names() {
    let mut file = vec![0; 20 + 4 * 18];
    put(&mut file, 0, 2, 0x01DF);
    put(&mut file, 8, 4, 20);
    put(&mut file, 12, 4, 4);
    for (i, offset) in [4, 6, 3, 7].into_iter().enumerate() {
        put(&mut file, 20 + 18 * i + 4, 4, offset);
    }
    file.extend_from_slice(&[0, 0, 0, 7, 0x61, 0x62, 0]);
    assert_eq!(&file[symbol_name(&file, 0).unwrap()], b"ab");
    assert_eq!(&file[symbol_name(&file, 1).unwrap()], b"");
    assert_eq!(
        symbol_name(&file, 2),
        Err(Refusal {
            number: NAME,
            item: 2,
            offset: 20 + 2 * 18
        })
    );
    assert_eq!(
        symbol_name(&file, 3),
        Err(Refusal {
            number: NAME,
            item: 3,
            offset: 20 + 3 * 18
        })
    );
    let found = walk(&file).unwrap();
    assert_eq!((found.visited, found.end), (2, 2));
}

#[test]
fn p11_smtyp() {
    let mut file = vec![0; 20 + 2 * 18];
    put(&mut file, 0, 2, 0x01DF);
    put(&mut file, 8, 4, 20);
    put(&mut file, 12, 4, 2);
    put(&mut file, 20 + 16, 1, 2);
    put(&mut file, 20 + 17, 1, 1);
    put(&mut file, 38 + 10, 1, 0x21);
    let found = csect(&file, 0).unwrap();
    assert_eq!((found.alignment, found.kind), (4, 1));
}

/// An XCOFF32 module with text at 10000000 of hex 100 bytes and these fields.
fn with_fields(addresses: &[u64]) -> Vec<u8> {
    let count = addresses.len();
    let loader = 32 + 12 * count;
    let start = 20 + 72 + 4 * 40;
    let mut file = vec![0; start + 0x100 + loader];
    put(&mut file, 0, 2, 0x01DF);
    put(&mut file, 2, 2, 4);
    put(&mut file, 16, 2, 72);
    // Text 1, data 2, bss 3, loader 4.
    for (at, value) in [(34, 1), (36, 2), (42, 3), (40, 4)] {
        put(&mut file, 20 + at, 2, value);
    }
    put(&mut file, 20 + 4, 4, 0x100);
    put(&mut file, 20 + 20, 4, 0x1000_0000);
    let sizes = [0x100, 0, 0, loader];
    let pointers = [start, 0, 0, start + 0x100];
    for (i, flags) in [0x20, 0x40, 0x80, 0x1000].into_iter().enumerate() {
        let at = 92 + 40 * i;
        if i == 0 {
            put(&mut file, at + 8, 4, 0x1000_0000);
            put(&mut file, at + 12, 4, 0x1000_0000);
        }
        put(&mut file, at + 16, 4, sizes[i] as u64);
        put(&mut file, at + 20, 4, pointers[i] as u64);
        put(&mut file, at + 36, 4, flags);
    }
    let at = start + 0x100;
    put(&mut file, at, 4, 1);
    put(&mut file, at + 8, 4, count as u64);
    for (i, &address) in addresses.iter().enumerate() {
        let at = at + 32 + 12 * i;
        put(&mut file, at, 4, address);
        put(&mut file, at + 8, 2, 0x1F00);
        put(&mut file, at + 10, 2, 1);
    }
    file
}

#[test]
fn fields_in_a_section() {
    // The entries follow the loader section's header.
    let refusal = |number, item| {
        let offset = 20 + 72 + 4 * 40 + 0x100 + 32 + 12 * item;
        Err(Refusal {
            number,
            item,
            offset,
        })
    };
    assert!(module(&with_fields(&[0x1000_00FC])).is_ok());
    assert_eq!(module(&with_fields(&[0x1000_00FD])), refusal(LREL, 0));
    assert!(module(&with_fields(&[0x1000_0010, 0x1000_0014])).is_ok());
    assert!(module(&with_fields(&[0x1000_0010, 0x1000_0010])).is_ok());
    assert_eq!(
        module(&with_fields(&[0x1000_0010, 0x1000_0012])),
        refusal(OVERLAP, 1)
    );
}

#[test]
fn the_lister() {
    let mut file = vec![0; 64];
    put(&mut file, 0, 2, 0x01DF);
    put(&mut file, 2, 2, 1);
    file[20..25].copy_from_slice(b".text");
    put(&mut file, 28, 4, 0x1000_0000);
    put(&mut file, 32, 4, 0x1000_0000);
    put(&mut file, 36, 4, 4);
    put(&mut file, 40, 4, 60);
    put(&mut file, 56, 4, 0x20);
    assert_eq!(list_headers(&file), "XCOFF32 1 0\n1 text 10000000 4\n");
    assert_eq!(list_headers(&file[..59]), "refused 1 0 0\n");
    put(&mut file, 56, 4, 0x60);
    assert_eq!(list_headers(&file), "refused 4 1 20\n");
    put(&mut file, 56, 4, 0x20);
    file.resize(65_536, 0);
    assert_eq!(list_headers(&file), "XCOFF32 1 0\n1 text 10000000 4\n");
    file.push(0);
    assert_eq!(list_headers(&file), "too long\n");
}

fn made(wish: Wish) -> Made {
    make::module(
        &mut Rng::new(7),
        &Wish {
            rich: true,
            low: true,
            ..wish
        },
    )
}

/// A wish for each format.
fn formats() -> [Wish; 2] {
    [Some(32), Some(64)].map(|bits| Wish {
        bits,
        ..Wish::default()
    })
}

fn limit<T>(item: u64) -> Result<T, Refusal> {
    limit_at(item, 0)
}

fn limit_at<T>(item: u64, offset: usize) -> Result<T, Refusal> {
    Err(Refusal {
        number: LIMIT,
        item,
        offset: offset as u64,
    })
}

#[test]
fn file_limit() {
    for wish in formats() {
        let mut file = made(wish).bytes;
        file.resize(16_777_216, 0);
        assert!(module(&file).is_ok());
        file.push(0);
        assert_eq!(module(&file), limit(0));
    }
}

#[test]
fn section_limit() {
    for wish in formats() {
        let with = |count| Wish {
            sections: Some(count),
            ..wish.clone()
        };
        let file = made(with(32)).bytes;
        assert_eq!(open(&file).unwrap().sections.len(), 32);
        let file = make::object(&mut Rng::new(1), &with(33)).bytes;
        assert_eq!(open(&file), limit(1));
    }
}

#[test]
fn loader_symbol_limit() {
    for wish in formats() {
        let with = |count| Wish {
            loader_symbols: Some(count),
            ..wish.clone()
        };
        let file = made(with(70_000)).bytes;
        assert_eq!(module(&file).unwrap().loader_symbols, 70_000);
        let over = made(with(70_001));
        assert_eq!(module(&over.bytes), limit_at(2, over.loader_at));
    }
}

#[test]
fn relocation_limit() {
    for wish in formats() {
        let with = |count| Wish {
            entries: Some(count),
            ..wish.clone()
        };
        let file = made(with(100_000)).bytes;
        assert_eq!(module(&file).unwrap().relocations, 100_000);
        let over = made(with(100_001));
        assert_eq!(module(&over.bytes), limit_at(3, over.loader_at));
    }
}

#[test]
fn image_limit() {
    for wish in formats() {
        let with = |length| Wish {
            image: Some(length),
            ..wish.clone()
        };
        let file = made(with(16_777_216)).bytes;
        assert_eq!(module(&file).unwrap().data_image, 16_777_216);
        assert_eq!(module(&made(with(16_777_217)).bytes), limit(4));
    }
}

#[test]
fn deleted_sections_are_not_examined() {
    let mut made = made(Wish {
        kinds: vec![0xFFFF_FFFF],
        ..Wish::default()
    });
    let n = made
        .flags
        .iter()
        .position(|&flags| flags == 0xFFFF_FFFF)
        .unwrap() as u64
        + 1;
    for part in [Part::Paddr, Part::Vaddr, Part::Size, Part::Pointer] {
        let field = made.section_field(n, part);
        made.put(field, u64::MAX);
    }
    let found = section(&made.bytes, n).unwrap();
    assert_eq!(found.raw, None);
    assert_eq!(found.flags, 0xFFFF_FFFF);
    let size: Field = made.section_field(n, Part::Size);
    assert_eq!(found.size, number(&made.bytes, size.at, size.length));
}
