//! Lines of a record text, right ones, and ones with one thing wrong.

use crate::generate::make::{Aux, Made};
use crate::generate::rng::Rng;
use crate::Plan;

/// What a line says; the checksum follows from it.
#[derive(Clone, Debug)]
pub(super) struct Line {
    pub kind: char,
    pub count: u64,
    pub address: u64,
    pub data: Vec<u8>,
}

impl Line {
    pub(super) fn new(kind: char, address: u64, data: &[u8]) -> Line {
        Line {
            kind,
            count: data.len() as u64 + 5,
            address,
            data: data.to_vec(),
        }
    }

    /// Count, address and data as digits.
    fn digits(&self) -> String {
        let mut text = format!("{:02X}{:08X}", self.count as u8, self.address as u32);
        for byte in &self.data {
            text += &format!("{byte:02X}");
        }
        text
    }

    /// The bytes of the digits added up.
    fn sum(&self) -> u64 {
        let address = (self.address as u32).to_be_bytes();
        let all = address.iter().chain(&self.data);
        self.count + all.map(|&byte| u64::from(byte)).sum::<u64>()
    }

    fn checksum(&self) -> u64 {
        255 - self.sum() % 256
    }

    fn with_checksum(&self, checksum: u64) -> Vec<u8> {
        let checksum = checksum as u8;
        format!("S{}{}{checksum:02X}\n", self.kind, self.digits()).into_bytes()
    }

    pub(super) fn text(&self) -> Vec<u8> {
        self.with_checksum(self.checksum())
    }
}

/// The lines of two images.
pub(super) fn lines(made: &Made, plan: &Plan, text: &[u8], data: &[u8]) -> Vec<Line> {
    let mut all = Vec::new();
    for (start, image) in [(plan.text, text), (plan.data, data)] {
        let mut address = start;
        for bytes in image.chunks(32) {
            all.push(Line::new('3', address, bytes));
            address = address.wrapping_add(bytes.len() as u64);
        }
    }
    all.push(Line::new('7', moved_entry(made, plan), &[]));
    all
}

pub(super) fn record_text(made: &Made, plan: &Plan, text: &[u8], data: &[u8]) -> Vec<u8> {
    let all = lines(made, plan, text, data);
    all.iter().flat_map(Line::text).collect()
}

/// A field of the auxiliary header, 0 where the file ends before it.
fn auxiliary(made: &Made, which: Aux) -> u64 {
    let field = made.aux(which);
    if made.bytes.len() < field.at + field.length {
        return 0;
    }
    made.get(field)
}

/// The entry address as the module records it, also where there is no entry.
pub(super) fn recorded_entry(made: &Made) -> u64 {
    auxiliary(made, Aux::Entry)
}

/// The entry address moved with its section, 0 for none.
pub(super) fn moved_entry(made: &Made, plan: &Plan) -> u64 {
    let section = auxiliary(made, Aux::EntrySection);
    let (new, old) = if section == 0 {
        return 0;
    } else if section == made.text {
        (plan.text, made.text_address)
    } else {
        (plan.data, made.data_address)
    };
    recorded_entry(made).wrapping_add(new).wrapping_sub(old) & 0xFFFF_FFFF
}

/// A line with one thing wrong, as text; none where it doesn't suit.
pub(super) type Spoil = fn(&mut Rng, &Line) -> Option<Vec<u8>>;

pub(super) static SPOILS: &[Spoil] = &[
    bad_type,
    bad_count,
    other_length,
    bad_address,
    lower_case,
    bad_digit,
    bad_checksum,
    carriage_return,
    bad_end,
];

/// Another type, or no `S`.
pub(super) fn bad_type(rng: &mut Rng, line: &Line) -> Option<Vec<u8>> {
    let mut text = line.text();
    if rng.chance(20) {
        text[0] = rng.pick(b"s5:T ");
    } else {
        let others = if line.kind == '3' { b'7' } else { b'3' };
        text[1] = rng.pick(&[
            others, others, b'0', b'1', b'2', b'5', b'8', b'9', b'A', b's',
        ]);
    }
    Some(text)
}

/// Another count beside the same bytes, the checksum mended or not.
pub(super) fn bad_count(rng: &mut Rng, line: &Line) -> Option<Vec<u8>> {
    let right = line.count;
    let mut wrong = line.clone();
    wrong.count = rng.pick(&[right - 1, right + 1, right - 5, right ^ 0x80, 0, 0xFF]);
    let checksum = rng.pick(&[line.checksum(), wrong.checksum()]);
    Some(wrong.with_checksum(checksum))
}

/// A good record with more or fewer data bytes.
pub(super) fn other_length(rng: &mut Rng, line: &Line) -> Option<Vec<u8>> {
    let right = line.data.len();
    let length = rng.pick(&[right + 1, right.saturating_sub(1), right + 32, right / 2]);
    if length == right {
        return None;
    }
    let mut data = line.data.clone();
    data.resize(length, 0);
    Some(Line::new(line.kind, line.address, &data).text())
}

/// A good record at another address.
pub(super) fn bad_address(rng: &mut Rng, line: &Line) -> Option<Vec<u8>> {
    let mut wrong = line.clone();
    let bit = 1 << rng.below(32);
    let changes = [1, 32, bit, 0xFFFF_FFFF, 0xFFFF_FFE0, bit];
    wrong.address = line.address.wrapping_add(rng.pick(&changes)) & 0xFFFF_FFFF;
    Some(wrong.text())
}

/// One digit in lower case, or all.
pub(super) fn lower_case(rng: &mut Rng, line: &Line) -> Option<Vec<u8>> {
    let mut text = line.text();
    let is_letter = |&i: &usize| text[i].is_ascii_uppercase();
    let letters: Vec<usize> = (2..text.len()).filter(is_letter).collect();
    if letters.is_empty() {
        return None;
    }
    let one = rng.pick(&letters);
    for i in letters {
        if i == one || rng.chance(20) {
            text[i] = text[i].to_ascii_lowercase();
        }
    }
    Some(text)
}

/// A character that is no digit.
pub(super) fn bad_digit(rng: &mut Rng, line: &Line) -> Option<Vec<u8>> {
    let mut text = line.text();
    let at = rng.between(2, text.len() as u64 - 2) as usize;
    text[at] = rng.pick(b"/:@GOSZ`glo -+.\0\x7F\x80\xB0\xFF");
    Some(text)
}

/// Another checksum: two's complement, none, of too few bytes, a bit changed.
pub(super) fn bad_checksum(rng: &mut Rng, line: &Line) -> Option<Vec<u8>> {
    let right = line.checksum();
    let bit = right ^ 1 << rng.below(8);
    let wrong = rng.pick(&[right + 1, 255 - right, right + line.count, right + 255, bit]);
    if wrong % 256 == right {
        return None;
    }
    Some(line.with_checksum(wrong))
}

/// The line ends of another system.
pub(super) fn carriage_return(_: &mut Rng, line: &Line) -> Option<Vec<u8>> {
    let mut text = line.text();
    text.insert(text.len() - 1, b'\r');
    Some(text)
}

/// Something more or less at the end or in front.
pub(super) fn bad_end(rng: &mut Rng, line: &Line) -> Option<Vec<u8>> {
    let mut text = line.text();
    let end = text.len() - 1;
    match rng.below(7) {
        0 => text[end] = rng.pick(b"\r \0;0"),
        1 => text.truncate(end),
        2 => text.insert(end, rng.pick(b" \t\00F")),
        3 => {
            text.remove(end - 1);
        }
        4 => text.insert(0, rng.pick(b"\n \r")),
        5 => text.splice(end..end, *b"00").for_each(drop),
        _ => text.truncate(0),
    }
    Some(text)
}
