//! Modules whose relocation entries stand in a given order.

use super::made::{Entry, Module};
use xcoff::Format;

#[derive(Clone, Copy)]
pub enum Order {
    Ascending,
    Descending,
    Random,
}

impl Order {
    pub fn word(self) -> &'static str {
        match self {
            Order::Ascending => "ascending",
            Order::Descending => "descending",
            Order::Random => "random",
        }
    }
}

pub const ORDERS: [Order; 3] = [Order::Ascending, Order::Descending, Order::Random];

/// A module with so many entries, spread evenly over so many bytes of data, at multiples of 8.
pub fn module(format: Format, entries: u64, data: u64, order: Order) -> Vec<u8> {
    module_at(format, entries, data, order, 0)
}

/// The same, so many bytes after multiples of 8: at 0 no two fields can overlap, and none is looked for.
pub fn module_at(format: Format, entries: u64, data: u64, order: Order, after: u64) -> Vec<u8> {
    order_module(format, entries, data, order, after).bytes()
}

pub fn order_module(format: Format, entries: u64, data: u64, order: Order, after: u64) -> Module {
    let mut m = Module::new(format);
    m.data_size = data;
    let step = data / entries / 8 * 8;
    let entry = |i| Entry {
        address: m.data_address + i * step + after,
        symbol: 0,
        kind: 0x1F00,
        section: 2,
    };
    let mut list: Vec<Entry> = (0..entries).map(entry).collect();
    match order {
        Order::Ascending => {}
        Order::Descending => list.reverse(),
        Order::Random => shuffle(&mut list),
    }
    m.entries = list;
    m
}

/// A fixed order that looks random.
pub fn shuffle<T>(entries: &mut [T]) {
    let mut x = 88_172_645_463_325_252_u64;
    for i in (1..entries.len()).rev() {
        x ^= x << 13;
        x ^= x >> 7;
        x ^= x << 17;
        entries.swap(i, (x % (i as u64 + 1)) as usize);
    }
}
