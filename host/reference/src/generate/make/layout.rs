//! Sizes and addresses of text, data and bss.

use super::Wish;
use crate::bytes::top;
use crate::generate::rng::Rng;

/// Text, data and bss as the module records them.
pub(super) struct Layout {
    pub text_address: u64,
    pub text_size: u64,
    pub data_address: u64,
    pub data_size: u64,
    pub bss_address: u64,
    pub bss_size: u64,
    /// Length of the data image.
    pub image: u64,
}

impl Layout {
    pub(super) fn any(rng: &mut Rng, bits: u64, wish: &Wish) -> Layout {
        let sizes = Sizes::any(rng, wish);
        let image = sizes.image();
        let mut text_address = fitting_address(rng, bits, sizes.text);
        let mut data_address = fitting_address(rng, bits, image);
        if wish.low {
            text_address = rng.between(0x10, 0x2000_0000);
            data_address = rng.between(0x10, 0x2000_0000);
        }
        Layout {
            text_address,
            text_size: sizes.text,
            data_address,
            data_size: sizes.data,
            bss_address: bss_address(rng, bits, data_address, &sizes),
            bss_size: sizes.bss,
            image,
        }
    }
}

struct Sizes {
    text: u64,
    data: u64,
    bss: u64,
    /// Bytes between data and bss.
    gap: u64,
}

impl Sizes {
    fn any(rng: &mut Rng, wish: &Wish) -> Sizes {
        let rich = wish.rich;
        let least = if rich { 40 } else { 1 };
        let mut sizes = Sizes {
            text: size(rng, if rich { 0 } else { 20 }, least, 90),
            data: size(rng, if rich { 0 } else { 15 }, least, 100),
            bss: size(rng, if rich { 0 } else { 35 }, 1, 64),
            gap: size(rng, 60, 1, 40),
        };
        if wish.empty {
            (sizes.text, sizes.data, sizes.bss) = (0, 0, 0);
        }
        if wish.large {
            sizes.text = rng.between(1_000, 4_000);
            sizes.data = rng.between(1_000, 4_000);
        }
        if wish.huge {
            sizes.text = rng.between(300_000, 400_000);
            sizes.data = rng.between(300_000, 400_000);
        }
        if let Some(image) = wish.image {
            sizes.reach(rng, image);
        }
        sizes
    }

    /// Makes the data image this long, by bss or by the gap before it.
    fn reach(&mut self, rng: &mut Rng, image: u64) {
        if rng.chance(50) {
            self.gap = 0;
            self.bss = image - self.data;
        } else {
            self.bss = rng.between(1, 64);
            self.gap = image - self.data - self.bss;
        }
    }

    fn image(&self) -> u64 {
        if self.bss == 0 {
            self.data
        } else {
            self.data + self.gap + self.bss
        }
    }
}

/// 0 in `empty` of 100.
fn size(rng: &mut Rng, empty: u64, least: u64, most: u64) -> u64 {
    if empty != 0 && rng.chance(empty) {
        0
    } else {
        rng.between(least, most)
    }
}

/// Of an empty bss any address.
fn bss_address(rng: &mut Rng, bits: u64, data_address: u64, sizes: &Sizes) -> u64 {
    if sizes.bss != 0 {
        return data_address + sizes.data + sizes.gap;
    }
    match rng.below(3) {
        0 => fitting_address(rng, bits, 0),
        1 => 0,
        _ => (u128::from(data_address) + u128::from(sizes.data)).min(top(bits) - 1) as u64,
    }
}

/// An address at which `size` bytes fit.
pub fn fitting_address(rng: &mut Rng, bits: u64, size: u64) -> u64 {
    let last = if size == 0 {
        top(bits) - 1
    } else {
        top(bits) - u128::from(size)
    } as u64;
    match rng.below(8) {
        0 => 0,
        1 => last,
        2 => last - rng.below(16).min(last),
        3 => rng.between(0, last),
        4 => (0x8000_0000 - rng.below(64)).min(last),
        5 if bits == 64 => (0x1_0000_0000 - rng.below(64)).min(last),
        _ => (0x1000_0000 + rng.below(0x1_0000)).min(last),
    }
}
