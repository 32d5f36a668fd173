//! S-records by hand: lines from the public rules, a text that another program
//! wrote, and the ends of the address space and of the images.

use reference::bytes::put;
use reference::records::{bad_line, parse, Bad, Fault, Record};
use reference::*;

#[test]
fn lines_of_the_public_rules() {
    let text = b"S1137AF00A0A0D0000000000000000000000000061";
    let mut data = vec![0x0A, 0x0A, 0x0D];
    data.resize(16, 0);
    let record = |kind, address, data: &[u8]| {
        let data = data.to_vec();
        Ok(Record {
            kind,
            address,
            data,
        })
    };
    assert_eq!(parse(text), record(1, 0x7AF0, &data));
    assert_eq!(parse(b"S00600004844521B"), record(0, 0, b"HDR"));
    assert_eq!(parse(b"S5030003F9"), record(5, 3, &[]));
    assert_eq!(parse(b"S9030000FC"), record(9, 0, &[]));
    assert_eq!(parse(b"S70500000000FA"), record(7, 0, &[]));
}

#[test]
fn lines_that_are_none() {
    for (line, fault) in [
        (&b""[..], Fault::Type),
        (b"S", Fault::Type),
        (b"S4030000FC", Fault::Type),
        (b"s9030000FC", Fault::Type),
        (b"S9", Fault::Count),
        (b"S9040000FC", Fault::Count),
        (b"S70400000000", Fault::Count),
        (b"S9030000fc", Fault::Digit),
        (b"S9030000FG", Fault::Digit),
        (b"S9030000FB", Fault::Checksum),
        (b"S9030000FC\r", Fault::End),
        (b"S9030000FC0", Fault::End),
    ] {
        assert_eq!(parse(line), Err(fault), "{}", line.escape_ascii());
    }
}

/// Lengths and the entry of a module without symbols or relocation entries: text
/// is recorded at 10000000, data at 20000000.
#[derive(Clone, Copy)]
struct Shape {
    text: usize,
    data: usize,
    bss: u64,
    /// Section and address.
    entry: (u64, u64),
}

fn module_of(shape: Shape) -> Vec<u8> {
    let start = 20 + 72 + 4 * 40;
    let mut file = vec![0; start + shape.text + shape.data + 32];
    put(&mut file, 0, 2, 0x01DF);
    put(&mut file, 2, 2, 4);
    put(&mut file, 16, 2, 72);
    let (text, data) = (shape.text as u64, shape.data as u64);
    for (at, value) in [(4, text), (8, data), (12, shape.bss), (16, shape.entry.1)] {
        put(&mut file, 20 + at, 4, value);
    }
    put(&mut file, 20 + 20, 4, 0x1000_0000);
    put(&mut file, 20 + 24, 4, 0x2000_0000);
    // Text 1, data 2, bss 3, loader 4.
    for (at, value) in [(32, shape.entry.0), (34, 1), (36, 2), (40, 4), (42, 3)] {
        put(&mut file, 20 + at, 2, value);
    }
    let first = start as u64;
    let sections = [
        (0x1000_0000, text, first, 0x20),
        (0x2000_0000, data, first + text, 0x40),
        (0x2000_0000 + data, shape.bss, 0, 0x80),
        (0, 32, first + text + data, 0x1000),
    ];
    for (i, (address, size, pointer, flags)) in sections.into_iter().enumerate() {
        let at = 92 + 40 * i;
        let values = [address, address, size, pointer, flags];
        for (part, value) in [8, 12, 16, 20, 36].into_iter().zip(values) {
            put(&mut file, at + part, 4, value);
        }
    }
    put(&mut file, start + shape.text + shape.data, 4, 1);
    file
}

fn plan(text: u64, data: u64) -> Plan {
    let list = Vec::new();
    Plan { text, data, list }
}

fn written(file: &[u8], plan: &Plan, text: &[u8], data: &[u8]) -> Result<String, Refusal> {
    let mut records = vec![0; records_length(file, plan)? as usize];
    write_records(file, plan, text, data, &mut records)?;
    Ok(String::from_utf8(records).expect("text"))
}

const SMALL: Shape = Shape {
    text: 36,
    data: 2,
    bss: 1,
    entry: (1, 0x1000_0020),
};

const TEXT: &str =
    "S325000000004E80002000000000000000000000000000000000000000000000000000000000EC\n\
                    S309000000204E800020E8\n\
                    S308FFFFFFFD010203F7\n\
                    S70500000020DA\n";

/// Text at 0, and data with its bss up to the end of the address space.
fn small() -> (Vec<u8>, Plan, Vec<u8>, [u8; 3]) {
    let mut text = vec![0; 36];
    put(&mut text, 0, 4, 0x4E80_0020);
    put(&mut text, 32, 4, 0x4E80_0020);
    (module_of(SMALL), plan(0, 0xFFFF_FFFD), text, [1, 2, 3])
}

#[test]
fn a_text_by_hand() {
    let (file, plan, text, data) = small();
    assert_eq!(written(&file, &plan, &text, &data), Ok(TEXT.to_string()));
    let (mut read_text, mut read_data) = (vec![9; 36], [9; 3]);
    let records = TEXT.as_bytes();
    read_records(&file, &plan, records, &mut read_text, &mut read_data).unwrap();
    assert_eq!((read_text, read_data), (text, data));
}

/// 100 bytes at 10000004 and 70 at 20000010, entry 10000044, as srec_cat 1.64
/// writes them (`-motorola -address-length=4 -output_block_size=32`, no header,
/// no count of lines).
const OTHER: &str = "\
S32510000004030A11181F262D343B424950575E656C737A81888F969DA4ABB2B9C0C7CED5DCD6
S32510000024E3EAF1F8FF060D141B222930373E454C535A61686F767D848B9299A0A7AEB5BCB6
S32510000044C3CAD1D8DFE6EDF4FB020910171E252C333A41484F565D646B727980878E959C96
S30910000064A3AAB1B8CC
S32520000010FFFAF5F0EBE6E1DCD7D2CDC8C3BEB9B4AFAAA5A09B96918C87827D78736E69647A
S325200000305F5A55504B46413C37322D28231E19140F0A0500FBF6F1ECE7E2DDD8D3CEC9C45A
S30B20000050BFBAB5B0ABA655
S70510000044A6
";

#[test]
fn a_text_of_another_program() {
    let file = module_of(Shape {
        text: 100,
        data: 60,
        bss: 10,
        entry: (1, 0x1000_0040),
    });
    let plan = plan(0x1000_0004, 0x2000_0010);
    let text: Vec<u8> = (0..100u32).map(|i| (7 * i + 3) as u8).collect();
    let data: Vec<u8> = (0..70u8)
        .map(|i| 255u8.wrapping_sub(i.wrapping_mul(5)))
        .collect();
    assert_eq!(written(&file, &plan, &text, &data), Ok(OTHER.to_string()));
    let (mut read_text, mut read_data) = (vec![0; 100], vec![0; 70]);
    let records = OTHER.as_bytes();
    read_records(&file, &plan, records, &mut read_text, &mut read_data).unwrap();
    assert!(read_text == text && read_data == data);
}

#[test]
fn every_character_counts() {
    let (file, plan, ..) = small();
    let right = TEXT.as_bytes();
    let mut line = 1;
    for at in 0..right.len() {
        let mut wrong = right.to_vec();
        // No bit of a character makes another good line of it by itself.
        for bit in 0..8 {
            wrong[at] = right[at] ^ 1 << bit;
            let bad = bad_line(&file, &plan, &wrong).expect("a bad line");
            assert_eq!(bad.line, line, "character {at}");
        }
        let cut = bad_line(&file, &plan, &right[..at]).expect("a bad line");
        assert_eq!(
            cut,
            Bad {
                line,
                fault: Fault::Missing
            }
        );
        line += u64::from(right[at] == b'\n');
    }
    let surplus = [right, b"\n"].concat();
    let fault = Fault::Surplus;
    assert_eq!(bad_line(&file, &plan, right), None);
    assert_eq!(bad_line(&file, &plan, &surplus), Some(Bad { line, fault }));
}

#[test]
fn the_entry_moves() {
    let with = |entry| module_of(Shape { entry, ..SMALL });
    let last = |file: &[u8]| {
        let text = written(file, &plan(0x5000, 0x7000), &[0; 36], &[0; 3]).unwrap();
        text.lines().last().unwrap().to_string()
    };
    assert_eq!(last(&with((0, 0x1000_0020))), "S70500000000FA");
    assert_eq!(last(&with((1, 0x1000_0020))), "S705000050208A");
    assert_eq!(last(&with((2, 0x2000_0002))), "S7050000700288");
    // Below its section it drops at 2^32.
    assert_eq!(last(&with((1, 0x0FFF_0000))), "S705FFFF5000AC");
}

#[test]
fn empty_images_have_no_line() {
    let empty = Shape {
        text: 0,
        data: 0,
        bss: 0,
        entry: (0, 0),
    };
    let file = module_of(empty);
    let end = "S70500000000FA\n".to_string();
    for plan in [plan(0, 0), plan(0xFFFF_FFFF, 0xFFFF_FFFF)] {
        assert_eq!(written(&file, &plan, &[], &[]), Ok(end.clone()));
    }
    // An empty range in another shares nothing.
    let file = module_of(Shape { text: 32, ..empty });
    let text = written(&file, &plan(0x100, 0x110), &[0; 32], &[]).unwrap();
    assert_eq!(text.lines().count(), 2);
}

#[test]
fn ranges_that_touch_and_share() {
    let file = module_of(SMALL);
    let clash = Err(Refusal {
        number: CLASH,
        item: 0,
        offset: 0,
    });
    let length = Ok(4 * 15 + 2 * (36 + 3));
    for (text, data, expected) in [
        (0x100, 0x124, length),
        (0x100, 0x123, clash),
        (0x100, 0x0FD, length),
        (0x100, 0x0FE, clash),
        (0x100, 0x100, clash),
        (0xFFFF_FFDC, 0xFFFF_FFD9, length),
        (0xFFFF_FFDC, 0xFFFF_FFDA, clash),
        (0, 0xFFFF_FFFD, length),
    ] {
        assert_eq!(records_length(&file, &plan(text, data)), expected);
    }
}

#[test]
fn the_longest_image() {
    let file = module_of(Shape {
        bss: 16_777_214,
        ..SMALL
    });
    let (text, data) = (vec![0xA5; 36], vec![0x5A; 16_777_216]);
    let plan = plan(0, 0xFF00_0000);
    let records = written(&file, &plan, &text, &data).unwrap();
    assert_eq!(
        records.len(),
        2 * (36 + 16_777_216) + 15 * (2 + 524_288 + 1)
    );
    let last = records.lines().nth(524_289).unwrap();
    assert!(last.starts_with("S325FFFFFFE05A5A"));
    let (mut read_text, mut read_data) = (vec![0; 36], vec![0; 16_777_216]);
    read_records(
        &file,
        &plan,
        records.as_bytes(),
        &mut read_text,
        &mut read_data,
    )
    .unwrap();
    assert!(read_text == text && read_data == data);
}
