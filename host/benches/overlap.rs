//! How long judging a module with 4,096 relocation entries takes, by the order of its entries and the size of its data.
//! Run by `cargo bench --offline`; it prints times.

mod common;

use common::orders::{module, ORDERS};
use common::turns::by_turns;
use std::hint::black_box;
use std::time::Duration;
use xcoff::Format;

const ENTRIES: u64 = 4096;
const TIME: Duration = Duration::from_millis(200);

fn main() {
    println!("xcoff::module, {ENTRIES} entries: fastest time");
    for format in [Format::Xcoff32, Format::Xcoff64] {
        for (spread, size) in [("32 KiB data", 8 * ENTRIES), ("16 MB data", 16_000_000)] {
            for order in ORDERS {
                let mut file = module(format, ENTRIES, size, order);
                assert_eq!(xcoff::module(&file).map(|m| m.relocations), Ok(ENTRIES));
                let judge = |file: &mut Vec<u8>| {
                    black_box(xcoff::module(black_box(file)).unwrap());
                };
                let [time] = by_turns(TIME, &mut file, [&judge]);
                println!(
                    "{format:?} {spread:12} {:10} {:8.1} us",
                    order.word(),
                    time / 1e3
                );
            }
        }
    }
}
