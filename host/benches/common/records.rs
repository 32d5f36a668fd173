//! Images written as S-records and read back, and the same by plain loops that judge no module. The loops have no table of digits and know
//! the length of a whole line, so that the compiler makes vector instructions of them.

use super::made::Module;
use super::plain::{plan, with_bss};
use super::turns::by_turns;
use std::hint::black_box;
use std::time::Duration;
use xcoff::{read_records, records_length, write_records_into, Format, Plan};

/// Data bytes of a whole line.
const RUN: usize = 32;
/// Characters of a line besides those of its data: S, type, count, address; checksum, newline.
const LEAD: usize = 12;
const TAIL: usize = 3;
const LINE: usize = LEAD + 2 * RUN + TAIL;

/// A module, its plan, its images, their record text, and another buffer for that text.
pub struct Records {
    file: Vec<u8>,
    plan: Plan,
    text: Vec<u8>,
    data: Vec<u8>,
    records: Vec<u8>,
    plain: Vec<u8>,
}

impl Records {
    /// Images of so many bytes in all: a quarter text, a half data, a quarter bss. The module has no entry address.
    pub fn new(size: u64) -> Records {
        let mut m = Module::new(Format::Xcoff32);
        m.text_size = size / 4;
        m.data_size = size / 2;
        let mut file = m.bytes();
        with_bss(&mut file, m.format, (size / 4) as u32);
        let plan = plan(0x3000_0000, 0x4000_0000);
        let length = records_length(&file, &plan).unwrap() as usize;
        Records {
            file,
            plan,
            text: noise(size as usize / 4),
            data: noise(size as usize / 4 * 3),
            records: vec![1; length],
            plain: vec![1; length],
        }
    }

    pub fn write(&mut self) {
        write_records_into(
            &self.file,
            &self.plan,
            &self.text,
            &self.data,
            &mut self.records,
        )
        .unwrap();
        black_box(&mut self.records);
    }

    pub fn read(&mut self) {
        read_records(
            &self.file,
            &self.plan,
            &self.records,
            &mut self.text,
            &mut self.data,
        )
        .unwrap();
        black_box((&mut self.text, &mut self.data));
    }

    pub fn plain_write(&mut self) {
        let rest = put_image(&mut self.plain, self.plan.text as u32, &self.text);
        let rest = put_image(rest, self.plan.data as u32, &self.data);
        put_line(rest, b'7', 0, &[]);
        black_box(&mut self.plain);
    }

    /// Every line is checked before the images are filled.
    pub fn plain_read(&mut self) {
        let good = check_image(&self.records, self.plan.text as u32, self.text.len())
            .and_then(|rest| check_image(rest, self.plan.data as u32, self.data.len()))
            .is_some_and(|rest| rest.len() == LEAD + TAIL && check_line(rest, b'7', 0));
        assert!(good);
        let rest = fill_image(&self.records, &mut self.text);
        fill_image(rest, &mut self.data);
        black_box((&mut self.text, &mut self.data));
    }

    /// The record text copied.
    pub fn copy(&mut self) {
        self.plain.copy_from_slice(&self.records);
        black_box(&mut self.plain);
    }

    /// Whether both write the same text, and both read it back.
    pub fn same(&mut self) -> bool {
        let images = (self.text.clone(), self.data.clone());
        self.write();
        self.plain_write();
        let mut same = self.records == self.plain;
        for read in [Records::read, Records::plain_read] {
            self.text.fill(1);
            self.data.fill(1);
            read(self);
            same &= self.text == images.0 && self.data == images.1;
        }
        same
    }
}

/// Times of one call on 16 MiB of images, in nanoseconds.
pub struct Times {
    pub write: f64,
    pub plain_write: f64,
    pub read: f64,
    pub plain_read: f64,
    pub copy: f64,
}

/// Each work by turns, after a look that all give the same bytes.
pub fn measure(time: Duration) -> Times {
    let mut state = Records::new(16 << 20);
    assert!(state.same());
    let [write, plain_write, read, plain_read, copy] = by_turns(
        time,
        &mut state,
        [
            &Records::write,
            &Records::plain_write,
            &Records::read,
            &Records::plain_read,
            &Records::copy,
        ],
    );
    Times {
        write,
        plain_write,
        read,
        plain_read,
        copy,
    }
}

/// Bytes without a pattern, always the same.
fn noise(length: usize) -> Vec<u8> {
    let mut x = 88_172_645_463_325_252_u64;
    let next = || {
        x ^= x << 13;
        x ^= x >> 7;
        x ^= x << 17;
        x as u8
    };
    std::iter::repeat_with(next).take(length).collect()
}

// ---- writing

#[inline]
fn digit(value: u8) -> u8 {
    b'0' + value + if value > 9 { 7 } else { 0 }
}

/// Bytes in hex; their sum.
#[inline]
fn put_hex(out: &mut [u8], bytes: &[u8]) -> u8 {
    let mut sum = 0_u8;
    for (pair, &b) in out.chunks_exact_mut(2).zip(bytes) {
        pair[0] = digit(b >> 4);
        pair[1] = digit(b & 15);
        sum = sum.wrapping_add(b);
    }
    sum
}

/// S, the type, the count and the address; the sum of the last two.
#[inline]
fn put_lead(out: &mut [u8], kind: u8, address: u32, count: usize) -> u8 {
    let [a, b, c, d] = address.to_be_bytes();
    out[0] = b'S';
    out[1] = kind;
    put_hex(&mut out[2..LEAD], &[count as u8 + 5, a, b, c, d])
}

#[inline]
fn put_line(out: &mut [u8], kind: u8, address: u32, data: &[u8]) {
    let end = LEAD + 2 * data.len();
    let lead = put_lead(out, kind, address, data.len());
    let sum = lead.wrapping_add(put_hex(&mut out[LEAD..end], data));
    put_hex(&mut out[end..end + 2], &[!sum]);
    out[end + 2] = b'\n';
}

/// The lines of an image; what is left of the text.
fn put_image<'a>(mut out: &'a mut [u8], mut address: u32, image: &[u8]) -> &'a mut [u8] {
    let (whole, last) = image.split_at(image.len() / RUN * RUN);
    for data in whole.chunks_exact(RUN) {
        let (line, rest) = out.split_first_chunk_mut::<LINE>().unwrap();
        let data: &[u8; RUN] = data.try_into().unwrap();
        put_line(line, b'3', address, data);
        out = rest;
        address = address.wrapping_add(RUN as u32);
    }
    if last.is_empty() {
        return out;
    }
    let (line, rest) = out.split_at_mut(LEAD + 2 * last.len() + TAIL);
    put_line(line, b'3', address, last);
    rest
}

// ---- reading

#[inline]
fn is_digit(c: u8) -> bool {
    (c.wrapping_sub(b'0') < 10) | (c.wrapping_sub(b'A') < 6)
}

#[inline]
fn value(c: u8) -> u8 {
    (c & 15) + (c >> 6) * 9
}

#[inline]
fn byte(pair: &[u8]) -> u8 {
    value(pair[0]) << 4 | value(pair[1])
}

/// Whether a line is as it must be: its start, its digits, the sum of its bytes, its end.
#[inline]
fn check_line(line: &[u8], kind: u8, address: u32) -> bool {
    let mut lead = [0; LEAD];
    put_lead(&mut lead, kind, address, (line.len() - LEAD - TAIL) / 2);
    let (digits, end) = line[2..].split_at(line.len() - 3);
    let wrong = digits.iter().fold(false, |wrong, &c| wrong | !is_digit(c));
    let sum = digits
        .chunks_exact(2)
        .fold(0_u8, |sum, pair| sum.wrapping_add(byte(pair)));
    !wrong && sum == 255 && line[..LEAD] == lead && end == b"\n"
}

/// What is left of the text after the good lines of an image.
fn check_image(mut records: &[u8], mut address: u32, size: usize) -> Option<&[u8]> {
    for _ in 0..size / RUN {
        let (line, rest) = records.split_first_chunk::<LINE>()?;
        if !check_line(line, b'3', address) {
            return None;
        }
        records = rest;
        address = address.wrapping_add(RUN as u32);
    }
    if size % RUN == 0 {
        return Some(records);
    }
    let (line, rest) = records.split_at_checked(LEAD + 2 * (size % RUN) + TAIL)?;
    check_line(line, b'3', address).then_some(rest)
}

/// The bytes of a whole line. All digits become values before any two are joined: so the compiler joins many at once.
#[inline]
fn run(digits: &[u8; 2 * RUN]) -> [u8; RUN] {
    let values = digits.map(value);
    std::array::from_fn(|i| values[2 * i] << 4 | values[2 * i + 1])
}

/// An image from its lines; what is left of the text.
fn fill_image<'a>(mut records: &'a [u8], image: &mut [u8]) -> &'a [u8] {
    let (whole, last) = image.split_at_mut(image.len() / RUN * RUN);
    for data in whole.chunks_exact_mut(RUN) {
        let (line, rest) = records.split_first_chunk::<LINE>().unwrap();
        data.copy_from_slice(&run(line[LEAD..LINE - TAIL].try_into().unwrap()));
        records = rest;
    }
    if last.is_empty() {
        return records;
    }
    let (line, rest) = records.split_at(LEAD + 2 * last.len() + TAIL);
    for (b, pair) in last.iter_mut().zip(line[LEAD..].chunks_exact(2)) {
        *b = byte(pair);
    }
    rest
}
