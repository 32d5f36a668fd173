//! Request 9: the visibility in a symbol's type.

use reference::bytes::put;
use reference::*;

/// An XCOFF32 file without sections, with this auxiliary header and an entry for
/// each class and type; each has a csect entry of type SD.
fn file(aux: &[u8], entries: &[(u64, u64)]) -> Vec<u8> {
    let mut file = vec![0; 20];
    put(&mut file, 0, 2, 0x01DF);
    put(&mut file, 8, 4, 20 + aux.len() as u64);
    put(&mut file, 12, 4, 2 * entries.len() as u64);
    put(&mut file, 16, 2, aux.len() as u64);
    file.extend_from_slice(aux);
    for &(class, kind) in entries {
        let mut entry = [0; 36];
        put(&mut entry, 14, 2, kind);
        put(&mut entry, 16, 1, class);
        put(&mut entry, 17, 1, 1);
        put(&mut entry, 18 + 10, 1, 1);
        file.extend_from_slice(&entry);
    }
    file
}

const VERSION_2: &[u8] = &[0, 0, 0, 2];

/// The visibility of the first entry.
fn first(aux: &[u8], class: u64, kind: u64) -> Result<Option<u64>, Refusal> {
    let found = symbol(&file(aux, &[(class, kind)]), 0)?;
    assert_eq!((found.kind, found.class), (kind, class));
    Ok(found.visibility)
}

#[test]
fn five_visibilities_and_three_that_are_none() {
    for class in [2, 107, 111] {
        for number in 0..8 {
            for rest in [0, 0x8000, 0x0FFF, 0x8020] {
                let found = first(VERSION_2, class, number << 12 | rest);
                match number {
                    0..=4 => assert_eq!(found, Ok(Some(number))),
                    _ => {
                        let refusal = found.unwrap_err();
                        assert_eq!((refusal.number, refusal.item), (VISIBILITY, 0));
                    }
                }
            }
        }
    }
}

#[test]
fn a_plain_number_elsewhere() {
    for class in [0, 3, 103, 106, 108, 110, 112, 130, 255] {
        assert_eq!(first(VERSION_2, class, 0x7000), Ok(None));
    }
    for version in [[0, 0], [0, 1], [0, 3], [2, 0], [1, 2]] {
        let aux = [[0, 0], version].concat();
        assert_eq!(first(&aux, 2, 0x7000), Ok(None));
    }
    // Of a shorter header the version is no part.
    assert_eq!(first(&[0, 0, 0], 2, 0x7000), Ok(None));
    assert_eq!(first(&[], 2, 0x7000), Ok(None));
    assert!(first(VERSION_2, 2, 0x7000).is_err());
}

#[test]
fn a_plain_number_in_xcoff64() {
    let mut file = vec![0; 24];
    put(&mut file, 0, 2, 0x01F7);
    put(&mut file, 8, 8, 28);
    put(&mut file, 20, 4, 1);
    put(&mut file, 16, 2, 4);
    file.extend_from_slice(VERSION_2);
    let mut entry = [0; 18];
    put(&mut entry, 14, 2, 0x5000);
    put(&mut entry, 16, 1, 2);
    file.extend_from_slice(&entry);
    assert_eq!(symbol(&file, 0).unwrap().visibility, None);
}

#[test]
fn after_the_name_and_before_the_csect() {
    let mut file = file(VERSION_2, &[(2, 0x1000), (2, 0x6000)]);
    let number = |file: &[u8]| csect(file, 2).unwrap_err().number;
    assert_eq!(number(&file), VISIBILITY);
    let found = walk(&file).unwrap();
    assert_eq!((found.visited, found.end), (1, 2));
    assert_eq!(found.refusal.unwrap().number, VISIBILITY);
    // No string table: a bad name.
    put(&mut file, 24 + 36 + 4, 4, 4);
    assert_eq!(number(&file), NAME);
}

#[test]
fn a_container_that_is_refused_so() {
    let mut file = file(VERSION_2, &[(2, 0x5000), (2, 0x1000)]);
    put(&mut file, 24 + 36 + 18 + 10, 1, 2);
    let refusal = csect(&file, 2).unwrap_err();
    assert_eq!((refusal.number, refusal.item), (CSECT, 2));
    put(&mut file, 24 + 14, 2, 0x4000);
    assert!(csect(&file, 2).is_ok());
}
