//! Request 7: from address to line, by hand and against a plain search.

use reference::bytes::put;
use reference::generate::make::{self, Part, Wish};
use reference::generate::rng::Rng;
use reference::*;

/// A file with one empty text section and these entries (value, line), at its end.
fn file(bits: u64, entries: &[(u64, u64)]) -> Vec<u8> {
    let narrow = bits == 32;
    let by = |one: usize, other: usize| if narrow { one } else { other };
    let start = by(20, 24);
    let mut file = vec![0; start + by(40, 72)];
    put(&mut file, 0, 2, if narrow { 0x01DF } else { 0x01F7 });
    put(&mut file, 2, 2, 1);
    let table = file.len() as u64;
    put(&mut file, start + by(28, 48), by(4, 8), table);
    put(
        &mut file,
        start + by(34, 60),
        by(2, 4),
        entries.len() as u64,
    );
    put(&mut file, start + by(36, 64), 4, 0x20);
    for &(value, line) in entries {
        let mut entry = vec![0; by(6, 12)];
        // A function's index is in the first four bytes.
        put(&mut entry, 0, if line == 0 { 4 } else { by(4, 8) }, value);
        put(&mut entry, by(4, 8), by(2, 4), line);
        file.extend(entry);
    }
    file
}

/// Entry, address, line, symbol; or number and item.
fn found(file: &[u8], n: u64, address: u64) -> Result<[u64; 4], (u64, u64)> {
    match find_line(file, n, address) {
        Ok(line) => Ok([line.entry, line.address, line.line, line.symbol]),
        Err(refusal) => Err((refusal.number, refusal.item)),
    }
}

#[test]
fn the_greatest_address_not_above() {
    let entries = [
        (5, 0),
        (0x100, 1),
        (0x200, 2),
        (0x180, 3),
        (9, 0),
        (0x180, 4),
        (0x300, 5),
    ];
    for bits in [32, 64] {
        let file = file(bits, &entries);
        assert_eq!(found(&file, 1, 0x100), Ok([1, 0x100, 1, 5]));
        assert_eq!(found(&file, 1, 0x17F), Ok([1, 0x100, 1, 5]));
        // The first of two.
        assert_eq!(found(&file, 1, 0x1FF), Ok([3, 0x180, 3, 5]));
        assert_eq!(found(&file, 1, 0x2FF), Ok([2, 0x200, 2, 5]));
        assert_eq!(found(&file, 1, u64::MAX), Ok([6, 0x300, 5, 9]));
        assert_eq!(found(&file, 1, 0xFF), Err((NOLINE, 0)));
        assert_eq!(found(&file, 1, 8), Err((NOLINE, 0)));
        assert_eq!(found(&file, 0, 0x100), Err((INDEX, 0)));
        assert_eq!(found(&file, 2, 0x100), Err((INDEX, 2)));
        assert_eq!(found(&file, u64::MAX, 0x100), Err((INDEX, u64::MAX)));
        let cut = find_line(&file[..file.len() - 1], 1, 0x100).unwrap_err();
        let header = if bits == 32 { 20 } else { 24 };
        assert_eq!((cut.number, cut.item, cut.offset), (BOUNDS, 1, header));
    }
}

#[test]
fn groups() {
    for bits in [32, 64] {
        assert_eq!(found(&file(bits, &[]), 1, 0), Err((NOLINE, 0)));
        assert_eq!(found(&file(bits, &[(0, 0)]), 1, 0), Err((NOLINE, 0)));
        let open = file(bits, &[(0x100, 1), (5, 0), (0x100, 2)]);
        for address in [0, 0x100, u64::MAX] {
            assert_eq!(found(&open, 1, address), Err((GROUP, 0)));
        }
        let last = file(bits, &[(7, 0), (8, 0), (0, 1)]);
        assert_eq!(found(&last, 1, 0), Ok([2, 0, 1, 8]));
    }
}

#[test]
fn values_of_their_width() {
    let wide = file(64, &[(0xFFFF_FFFF, 0), (0x1_0000_0000, 0xFFFF_FFFF)]);
    let expected = [1, 0x1_0000_0000, 0xFFFF_FFFF, 0xFFFF_FFFF];
    assert_eq!(found(&wide, 1, 0x1_0000_0000), Ok(expected));
    assert_eq!(found(&wide, 1, 0xFFFF_FFFF), Err((NOLINE, 0)));
    let narrow = file(32, &[(0xFFFF_FFFF, 0), (0xFFFF_FFFF, 0xFFFF)]);
    let expected = [1, 0xFFFF_FFFF, 0xFFFF, 0xFFFF_FFFF];
    assert_eq!(found(&narrow, 1, 1 << 40), Ok(expected));
}

/// The answer is among the lines as made, and none is better.
#[test]
fn against_a_plain_search() {
    let mut hits = 0;
    for seed in 0..3_000 {
        let mut rng = Rng::new(seed);
        let wish = Wish {
            lines: seed % 2 == 0,
            ..Wish::default()
        };
        let made = make::linkable(&mut rng, &wish);
        for n in made.sections_of(&[opening::TEXT]) {
            let lines = made.lines_of(n);
            let asked = match rng.below(3) {
                0 => made.part(n, Part::Paddr).wrapping_add(rng.below(20)),
                1 if !lines.is_empty() => made.lines[rng.pick(&lines)].value,
                _ => rng.next() >> 32,
            };
            let good: Vec<(u64, u64)> = lines
                .iter()
                .enumerate()
                .map(|(i, &k)| (i as u64, &made.lines[k]))
                .filter(|(_, line)| line.line != 0 && line.value <= asked)
                .map(|(i, line)| (i, line.value))
                .collect();
            match find_line(&made.bytes, n, asked) {
                Ok(found) => {
                    assert!(good.contains(&(found.entry, found.address)));
                    let better = |&(i, value): &(u64, u64)| {
                        value > found.address || (value == found.address && i < found.entry)
                    };
                    assert!(!good.iter().any(better), "seed {seed}");
                    hits += 1;
                }
                Err(refusal) => {
                    assert_eq!((refusal.number, good.len()), (NOLINE, 0), "seed {seed}");
                }
            }
        }
    }
    assert!(hits > 1_000, "{hits} lines were found");
}
