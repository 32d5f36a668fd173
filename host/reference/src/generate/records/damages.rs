//! Damages of S-records, each aimed at one rule of request 2.

use super::lines::*;
use super::{clash, clear_plan, length};
use crate::generate::damage::{hurt, rich_with, row, spoil, wrong_length, Hurt, Row};
use crate::generate::make::{self, Made, Wish};
use crate::generate::plans::{buffers, fitting_plan};
use crate::generate::rng::Rng;
use crate::generate::Op;
use crate::*;

pub static ROWS: &[Row] = &[
    // In the order of the checks: some of these, and the first is given.
    row("records: room 2 list", ROOM, |rng| hurt_call(rng, 0)),
    row("records: plan text", PLAN, |rng| hurt_call(rng, 1)),
    row("records: plan data", PLAN, |rng| hurt_call(rng, 2)),
    row("records: plan import", PLAN, |rng| hurt_call(rng, 3)),
    row("records: form", FORM, |rng| hurt_call(rng, 4)),
    row("records: clash", CLASH, |rng| hurt_call(rng, 5)),
    row("records: room 0 text", ROOM, |rng| hurt_call(rng, 6)),
    row("records: room 1 data", ROOM, |rng| hurt_call(rng, 7)),
    row("records: room 0 record text", ROOM, |rng| hurt_call(rng, 8)),
    // One bad line.
    row("record type", RECORD, |rng| hurt_line(rng, bad_type)),
    row("record count", RECORD, |rng| hurt_line(rng, bad_count)),
    row("record length", RECORD, |rng| hurt_line(rng, other_length)),
    row("record address", RECORD, |rng| hurt_line(rng, bad_address)),
    row("record digit in lower case", RECORD, |rng| {
        hurt_line(rng, lower_case)
    }),
    row("record digit", RECORD, |rng| hurt_line(rng, bad_digit)),
    row("record checksum", RECORD, |rng| {
        hurt_line(rng, bad_checksum)
    }),
    row("record carriage return", RECORD, |rng| {
        hurt_line(rng, carriage_return)
    }),
    row("record end", RECORD, |rng| hurt_line(rng, bad_end)),
    row("record: the earlier of two bad lines", RECORD, |rng| {
        hurt_text(rng, two_bad_lines)
    }),
    // Lines that are missing, surplus or elsewhere.
    row("record missing", RECORD, |rng| hurt_text(rng, missing)),
    row("record text cut at a line", RECORD, |rng| {
        hurt_text(rng, cut_at_a_line)
    }),
    row("record text cut in a line", RECORD, |rng| {
        hurt_text(rng, cut_in_a_line)
    }),
    row("record twice", RECORD, |rng| hurt_text(rng, twice)),
    row("record swapped", RECORD, |rng| hurt_text(rng, swapped)),
    row("record divided", RECORD, |rng| hurt_text(rng, divided)),
    row("record of no type in use", RECORD, |rng| {
        hurt_text(rng, unused_type)
    }),
    row("record surplus byte", RECORD, |rng| {
        hurt_text(rng, surplus_byte)
    }),
    row("record surplus line", RECORD, |rng| {
        hurt_text(rng, surplus_line)
    }),
    row("record empty line", RECORD, |rng| {
        hurt_text(rng, empty_line)
    }),
    row("record of another entry", RECORD, |rng| {
        hurt_text(rng, other_entry)
    }),
    row("records of another plan", RECORD, |rng| {
        hurt_text(rng, other_plan)
    }),
];

/// A call in which problem `aim` is the first; later ones may be there too.
/// Problems: 0 list, 1 text, 2 data, 3 import, 4 format, 5 shared addresses,
/// 6 text buffer, 7 data buffer, 8 record text.
fn hurt_call(rng: &mut Rng, aim: u64) -> Option<Hurt> {
    let made = match aim {
        4 => rich_with(rng, |wish| wish.bits = Some(64)),
        0..=2 => rich_with(rng, |_| ()),
        _ => rich_with(rng, |wish| wish.bits = Some(32)),
    };
    let mut lent = Lent::any(rng, &made);
    let mut item = 0;
    for problem in (aim..=8).rev() {
        if problem == 4 || (problem != aim && rng.chance(60)) {
            continue;
        }
        let done = lent.spoil(rng, &made, problem);
        if problem == aim {
            item = done?;
        }
    }
    let number = match aim {
        1..=3 => PLAN,
        4 => FORM,
        5 => CLASH,
        _ => ROOM,
    };
    hurt(made, lent.op(rng, aim), number, item)
}

/// What is lent.
struct Lent {
    plan: Plan,
    text: Vec<u8>,
    data: Vec<u8>,
    /// The buffer to be written, and the text to be read.
    room: Vec<u8>,
    records: Vec<u8>,
}

impl Lent {
    fn any(rng: &mut Rng, made: &Made) -> Lent {
        let plan = if made.bits == 32 {
            clear_plan(rng, made)
        } else {
            fitting_plan(rng, made)
        };
        let (text, data) = buffers(rng, made);
        let room = rng.bytes(length(made));
        let records = record_text(made, &plan, &text, &data);
        Lent {
            plan,
            text,
            data,
            room,
            records,
        }
    }

    /// Does one problem; gives its item.
    fn spoil(&mut self, rng: &mut Rng, made: &Made, problem: u64) -> Option<u64> {
        let (plan, text, data) = (&mut self.plan, &mut self.text, &mut self.data);
        match problem {
            0..=3 => spoil(rng, made, plan, text, data, problem),
            5 => clash(rng, made, plan).map(|()| 0),
            6 => spoil(rng, made, plan, text, data, 4),
            7 => spoil(rng, made, plan, text, data, 5),
            _ => {
                wrong_length(rng, &mut self.room);
                self.records.pop();
                Some(0)
            }
        }
    }

    /// An operation that gets as far as problem `aim`.
    fn op(self, rng: &mut Rng, aim: u64) -> Op {
        let which = match aim {
            0..=5 => rng.below(3),
            6 | 7 => rng.below(2),
            _ => 0,
        };
        match which {
            0 => Op::WriteRecords {
                plan: self.plan,
                text: self.text,
                data: self.data,
                records: self.room,
            },
            1 => Op::ReadRecords {
                plan: self.plan,
                records: self.records,
                text: self.text,
                data: self.data,
            },
            _ => Op::RecordsLength(self.plan),
        }
    }
}

/// A module, a plan, and the right lines of two images.
struct Good {
    made: Made,
    plan: Plan,
    text: Vec<u8>,
    data: Vec<u8>,
    lines: Vec<Line>,
}

impl Good {
    /// Images of all lengths, empty ones too.
    fn any(rng: &mut Rng) -> Good {
        let wish = Wish {
            bits: Some(32),
            rich: rng.chance(40),
            empty: rng.chance(5),
            large: rng.chance(5),
            ..Wish::default()
        };
        let made = make::module(rng, &wish);
        let plan = clear_plan(rng, &made);
        let (text, data) = buffers(rng, &made);
        let lines = lines(&made, &plan, &text, &data);
        Good {
            made,
            plan,
            text,
            data,
            lines,
        }
    }

    /// The first line, the last or any.
    fn place(&self, rng: &mut Rng) -> usize {
        let last = self.lines.len() - 1;
        let any = rng.below(last as u64 + 1) as usize;
        rng.pick(&[0, last, any, any])
    }

    fn texts(&self) -> Vec<Vec<u8>> {
        self.lines.iter().map(Line::text).collect()
    }

    /// Reading `texts` must name `line`; the buffers hold something else.
    fn read(self, rng: &mut Rng, texts: Vec<Vec<u8>>, line: usize) -> Option<Hurt> {
        let (text, data) = buffers(rng, &self.made);
        let op = Op::ReadRecords {
            plan: self.plan,
            records: texts.concat(),
            text,
            data,
        };
        hurt(self.made, op, RECORD, line as u64)
    }
}

/// One bad line, anywhere.
fn hurt_line(rng: &mut Rng, spoil: Spoil) -> Option<Hurt> {
    let good = Good::any(rng);
    let i = good.place(rng);
    let mut texts = good.texts();
    texts[i] = spoil(rng, &good.lines[i])?;
    good.read(rng, texts, i + 1)
}

/// Changes the right lines; gives the number, from 1, of the first bad one.
type Change = fn(&mut Rng, &Good, &mut Vec<Vec<u8>>) -> Option<usize>;

fn hurt_text(rng: &mut Rng, change: Change) -> Option<Hurt> {
    let good = Good::any(rng);
    let mut texts = good.texts();
    let line = change(rng, &good, &mut texts)?;
    good.read(rng, texts, line)
}

fn two_bad_lines(rng: &mut Rng, good: &Good, texts: &mut Vec<Vec<u8>>) -> Option<usize> {
    let (one, other) = (good.place(rng), good.place(rng));
    if one == other {
        return None;
    }
    for i in [one, other] {
        texts[i] = rng.pick(SPOILS)(rng, &good.lines[i])?;
    }
    Some(one.min(other) + 1)
}

fn missing(rng: &mut Rng, good: &Good, texts: &mut Vec<Vec<u8>>) -> Option<usize> {
    let i = good.place(rng);
    texts.remove(i);
    Some(i + 1)
}

fn cut_at_a_line(rng: &mut Rng, good: &Good, texts: &mut Vec<Vec<u8>>) -> Option<usize> {
    let i = good.place(rng);
    texts.truncate(i);
    Some(i + 1)
}

fn cut_in_a_line(rng: &mut Rng, good: &Good, texts: &mut Vec<Vec<u8>>) -> Option<usize> {
    let i = good.place(rng);
    let end = texts[i].len() - 1;
    let keep = rng.pick(&[1, end, end / 2]);
    texts[i].truncate(keep);
    texts.truncate(i + 1);
    Some(i + 1)
}

fn twice(rng: &mut Rng, good: &Good, texts: &mut Vec<Vec<u8>>) -> Option<usize> {
    let i = good.place(rng);
    texts.insert(i, texts[i].clone());
    Some(i + 2)
}

/// Two lines change places; at times the two images.
fn swapped(rng: &mut Rng, good: &Good, texts: &mut Vec<Vec<u8>>) -> Option<usize> {
    if rng.chance(20) && !good.text.is_empty() && !good.data.is_empty() {
        let data_lines = good.data.len().div_ceil(32);
        let end = texts.len() - 1;
        texts[..end].rotate_right(data_lines);
        return Some(1);
    }
    let (one, other) = (good.place(rng), good.place(rng));
    if one == other {
        return None;
    }
    texts.swap(one, other);
    Some(one.min(other) + 1)
}

/// Two good records in place of one.
fn divided(rng: &mut Rng, good: &Good, texts: &mut Vec<Vec<u8>>) -> Option<usize> {
    let i = good.place(rng);
    let line = &good.lines[i];
    if line.data.len() < 2 {
        return None;
    }
    let at = rng.between(1, line.data.len() as u64 - 1);
    let (one, other) = line.data.split_at(at as usize);
    texts[i] = [
        Line::new(line.kind, line.address, one).text(),
        Line::new(line.kind, line.address + at, other).text(),
    ]
    .concat();
    Some(i + 1)
}

/// A header in front, or a count of lines before the last.
fn unused_type(rng: &mut Rng, good: &Good, texts: &mut Vec<Vec<u8>>) -> Option<usize> {
    if rng.chance(50) {
        texts.insert(0, b"S00600004844521B\n".to_vec());
        return Some(1);
    }
    let count = good.lines.len() - 1;
    let checksum = 255 - (3 + count / 256 + count % 256) % 256;
    let line = format!("S503{count:04X}{checksum:02X}\n");
    texts.insert(count, line.into_bytes());
    Some(count + 1)
}

fn surplus_byte(rng: &mut Rng, _: &Good, texts: &mut Vec<Vec<u8>>) -> Option<usize> {
    texts.push(vec![rng.pick(b"\n\r \0S\x1A\xFF")]);
    Some(texts.len())
}

/// Another last line, or one of data, whole or cut.
fn surplus_line(rng: &mut Rng, good: &Good, texts: &mut Vec<Vec<u8>>) -> Option<usize> {
    let mut line = good.lines[good.place(rng)].text();
    if rng.chance(30) {
        line.pop();
    }
    texts.push(line);
    Some(texts.len())
}

/// An empty line after a right one.
fn empty_line(rng: &mut Rng, good: &Good, texts: &mut Vec<Vec<u8>>) -> Option<usize> {
    let i = good.place(rng);
    texts[i].push(b'\n');
    Some(i + 2)
}

/// The entry address as recorded, also where there is no entry; one of text; 0.
fn other_entry(rng: &mut Rng, good: &Good, texts: &mut Vec<Vec<u8>>) -> Option<usize> {
    let last = good.lines.len() - 1;
    let right = good.lines[last].address;
    let wrong = rng.pick(&[recorded_entry(&good.made), good.plan.text, 0]);
    if wrong == right {
        return None;
    }
    texts[last] = Line::new('7', wrong, &[]).text();
    Some(last + 1)
}

/// The records of the same images for another plan.
fn other_plan(rng: &mut Rng, good: &Good, texts: &mut Vec<Vec<u8>>) -> Option<usize> {
    let other = clear_plan(rng, &good.made);
    let all = lines(&good.made, &other, &good.text, &good.data);
    let right = std::mem::replace(texts, all.iter().map(Line::text).collect());
    let first = right
        .iter()
        .zip(&*texts)
        .position(|(one, two)| one != two)?;
    Some(first + 1)
}
