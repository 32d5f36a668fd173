//! Document 02, request 5: object files before linking.

use crate::bytes::{by, number, put, top};
use crate::fields::{Fields, Sort};
use crate::images::change;
use crate::opening::{header_at, open, Section, Summary, BSS, DATA, TEXT};
use crate::section_table::{table_rows, Table, TableFault};
use crate::symbols::read_entry;
use crate::{refuse, refuse_at, Refusal, BOUNDS, LREL, MODULE, OVERLAP, PLAN, RANGE, ROOM};
use std::collections::{BTreeMap, HashMap};
use std::ops::Range;

/// An accepted object file.
#[derive(Clone, Debug, PartialEq, Eq)]
pub struct Object {
    pub summary: Summary,
    /// Its text and data sections, in order.
    pub placed: Vec<Placed>,
    /// Length of the buffer that takes these end to end.
    pub length: u64,
    /// The entries of all their tables, numbered on from table to table.
    pub entries: Vec<ObjectEntry>,
}

/// A text or data section.
#[derive(Clone, Debug, PartialEq, Eq)]
pub struct Placed {
    pub number: u64,
    /// Where it starts in the buffer.
    pub start: u64,
    /// Raw bytes in the file; empty where a section of size 0 has none.
    raw: Range<usize>,
    /// Its relocation table in the file.
    rows: Range<usize>,
}

#[derive(Clone, Debug, PartialEq, Eq)]
pub struct ObjectEntry {
    /// Where it lies in the file.
    pub at: usize,
    pub address: u64,
    pub symbol: u64,
    /// `r_rsize`.
    pub size: u64,
    /// `r_rtype`.
    pub kind: u64,
    pub change: Change,
    /// In bits: 32, 64, or 26 for a branch; 0 where nothing is changed.
    pub width: u64,
    /// The section in whose table it is.
    pub section: u64,
    /// The section that its symbol moves with, 0 for none.
    pub moves_with: u64,
    /// Where its field starts in the buffer.
    pub place: usize,
}

/// What an entry does.
#[derive(Clone, Copy, Debug, PartialEq, Eq)]
pub enum Change {
    Add,
    Subtract,
    /// A branch to an address.
    Absolute,
    /// A branch by a distance.
    Relative,
    Nothing,
}

impl Change {
    fn of(kind: u64) -> Option<Change> {
        match kind {
            0x00 | 0x0C | 0x0D => Some(Change::Add),
            0x01 => Some(Change::Subtract),
            0x08 | 0x18 => Some(Change::Absolute),
            0x0A | 0x1A => Some(Change::Relative),
            0x0F => Some(Change::Nothing),
            _ => None,
        }
    }

    pub fn is_branch(self) -> bool {
        self == Change::Absolute || self == Change::Relative
    }
}

/// What is wrong with an entry.
#[derive(Clone, Copy, Debug, PartialEq, Eq)]
pub enum EntryFault {
    Type,
    Width,
    /// The field isn't inside the section.
    Outside,
    /// The symbol's own read is refused with this number.
    Symbol(u64),
    /// It meets an earlier field.
    Overlap,
    /// A branch and a plain entry have one field.
    OneField,
}

impl EntryFault {
    fn number(self) -> u64 {
        match self {
            EntryFault::Overlap | EntryFault::OneField => OVERLAP,
            _ => LREL,
        }
    }
}

/// What is wrong with a branch.
#[derive(Clone, Copy, Debug, PartialEq, Eq)]
pub enum RangeFault {
    /// It leaves the values that there are.
    Outside,
    /// It isn't a step of 4.
    Step,
}

/// A call on an object's buffer; a list has an address for each section.
#[derive(Clone, Debug, PartialEq, Eq)]
pub enum ObjectCall {
    Build(Vec<u64>),
    Move(Vec<u64>, Vec<u64>),
}

/// Reads an object file: what opening refuses, then the tables, then the entries.
pub fn object(file: &[u8]) -> Result<Object, Refusal> {
    let mut object = read_tables(file)?;
    object.entries = match read_entries(file, &object) {
        Ok(entries) => entries,
        Err((i, at, fault)) => return refuse_at(fault.number(), i, at),
    };
    Ok(object)
}

/// What is wrong with the first bad entry; none where opening or a table is refused.
pub fn entry_fault(file: &[u8]) -> Option<EntryFault> {
    let object = read_tables(file).ok()?;
    read_entries(file, &object).err().map(|(.., fault)| fault)
}

/// What is wrong with the first bad relocation table.
pub fn table_fault(file: &[u8]) -> Option<TableFault> {
    let summary = open(file).ok()?;
    let each = row_length(summary.bits);
    let mut numbers = text_and_data(&summary);
    numbers.find_map(|n| table_rows(file, &summary, n, Table::Relocations, each).err())
}

/// Builds the sections for a list of addresses.
pub fn object_build(file: &[u8], list: &[u64], buffer: &mut [u8]) -> Result<(), Refusal> {
    let object = object(file)?;
    judge(&object, &[list], buffer.len())?;
    let mut image = raw_image(file, &object);
    place(&object, &moves(&object, list), &mut image)?;
    buffer.copy_from_slice(&image);
    Ok(())
}

/// Moves the sections from one list of addresses to another, taking the buffer as
/// it is.
pub fn object_move(
    file: &[u8],
    from: &[u64],
    to: &[u64],
    buffer: &mut [u8],
) -> Result<(), Refusal> {
    let object = object(file)?;
    judge(&object, &[from, to], buffer.len())?;
    place(&object, &difference(&object, from, to), buffer)
}

/// Runs one call on the buffer.
pub fn run_object_call(file: &[u8], call: &ObjectCall, buffer: &mut [u8]) -> Result<(), Refusal> {
    match call {
        ObjectCall::Build(list) => object_build(file, list, buffer),
        ObjectCall::Move(from, to) => object_move(file, from, to, buffer),
    }
}

/// The book's image after these calls, from what the buffer holds before the first:
/// the base, and an exact shift for each section. No call is run.
pub fn object_book(file: &[u8], calls: &[ObjectCall], buffer: &[u8]) -> Vec<u8> {
    let object = match object(file) {
        Ok(object) => object,
        Err(_) => return buffer.to_vec(),
    };
    let mut base = buffer.to_vec();
    let mut shifts = vec![0; object.summary.sections.len() + 1];
    for call in calls {
        match call {
            ObjectCall::Build(list) => {
                if judge(&object, &[list], buffer.len()).is_ok() {
                    let raw = raw_image(file, &object);
                    let amounts = moves(&object, list);
                    if branches(&object, &amounts, &raw).is_ok() {
                        (base, shifts) = (raw, amounts);
                    }
                }
            }
            ObjectCall::Move(from, to) => {
                if judge(&object, &[from, to], buffer.len()).is_ok() {
                    let amounts = difference(&object, from, to);
                    let image = book_image(&object, &base, &shifts);
                    if branches(&object, &amounts, &image).is_ok() {
                        shifts.iter_mut().zip(amounts).for_each(|(s, a)| *s += a);
                    }
                }
            }
        }
    }
    book_image(&object, &base, &shifts)
}

/// The base with each entry applied by its shift. While no call is accepted all
/// shifts are 0, and it is the base.
fn book_image(object: &Object, base: &[u8], shifts: &[i128]) -> Vec<u8> {
    let mut image = base.to_vec();
    if image.len() as u64 == object.length {
        place(object, shifts, &mut image).expect("each accepted call stayed in range");
    }
    image
}

/// Length of a relocation entry.
fn row_length(bits: u64) -> usize {
    by(bits, 10, 14)
}

/// The numbers of the text and data sections.
fn text_and_data(summary: &Summary) -> impl Iterator<Item = u64> + '_ {
    let placed = |n: &u64| [TEXT, DATA].contains(&summary.sections[*n as usize - 1].flags);
    (1..=summary.sections.len() as u64).filter(placed)
}

fn section(object: &Object, n: u64) -> &Section {
    &object.summary.sections[n as usize - 1]
}

/// The object without its entries. For each text or data section MODULE 3, then
/// BOUNDS.
fn read_tables(file: &[u8]) -> Result<Object, Refusal> {
    let summary = open(file)?;
    let mut placed = Vec::new();
    let mut length = 0;
    for n in text_and_data(&summary) {
        let section = &summary.sections[n as usize - 1];
        if section.size != 0 && section.raw.is_none() {
            return refuse(MODULE, 3);
        }
        let rows = match table_rows(
            file,
            &summary,
            n,
            Table::Relocations,
            row_length(summary.bits),
        ) {
            Ok(rows) => rows,
            Err(_) => return refuse_at(BOUNDS, n, header_at(&summary, n)),
        };
        placed.push(Placed {
            number: n,
            start: length,
            raw: section.raw.clone().unwrap_or(0..0),
            rows,
        });
        length += section.size;
    }
    Ok(Object {
        summary,
        placed,
        length,
        entries: Vec::new(),
    })
}

/// All entries, each judged with those before it; of a bad one its number, place and
/// fault.
fn read_entries(
    file: &[u8],
    object: &Object,
) -> Result<Vec<ObjectEntry>, (u64, usize, EntryFault)> {
    let mut entries = Vec::new();
    let mut symbols = Symbols {
        file,
        summary: &object.summary,
        known: HashMap::new(),
    };
    for part in &object.placed {
        let own = section(object, part.number);
        let mut fields = Fields::new(own.size);
        for at in part.rows.clone().step_by(row_length(object.summary.bits)) {
            let bad = |fault| (entries.len() as u64, at, fault);
            let mut entry = read_row(file, object.summary.bits, part, at).map_err(bad)?;
            entry.moves_with = symbols.moves_with(entry.symbol).map_err(bad)?;
            if entry.change != Change::Nothing {
                let sort = judge_width(&entry, object.summary.bits).map_err(bad)?;
                let offset = inside(&entry, own, sort).map_err(bad)?;
                add_field(&mut fields, offset, sort).map_err(bad)?;
                entry.place = part.start as usize + offset;
            }
            entries.push(entry);
        }
    }
    Ok(entries)
}

/// The entry at `at`, of a type that is taken.
fn read_row(file: &[u8], bits: u64, part: &Placed, at: usize) -> Result<ObjectEntry, EntryFault> {
    let size = number(file, at + by(bits, 8, 12), 1);
    let kind = number(file, at + by(bits, 9, 13), 1);
    let change = Change::of(kind).ok_or(EntryFault::Type)?;
    let width = match change {
        Change::Nothing => 0,
        _ => (size & 0x3F) + 1,
    };
    Ok(ObjectEntry {
        at,
        address: number(file, at, by(bits, 4, 8)),
        symbol: number(file, at + by(bits, 4, 8), 4),
        size,
        kind,
        change,
        width,
        section: part.number,
        moves_with: 0,
        place: 0,
    })
}

/// Symbols that entries name; each is read once.
struct Symbols<'a> {
    file: &'a [u8],
    summary: &'a Summary,
    known: HashMap<u64, Result<u64, EntryFault>>,
}

impl Symbols<'_> {
    fn moves_with(&mut self, index: u64) -> Result<u64, EntryFault> {
        if let Some(&known) = self.known.get(&index) {
            return known;
        }
        let found = match read_entry(self.file, self.summary, index) {
            Ok(entry) => Ok(moving_section(self.summary, entry.section)),
            Err(refusal) => Err(EntryFault::Symbol(refusal.number)),
        };
        self.known.insert(index, found);
        found
    }
}

/// The section that a symbol with this section number moves with: that one, if it is
/// text, data or bss, else none, which is 0.
fn moving_section(summary: &Summary, number: i64) -> u64 {
    let place = usize::try_from(number - 1).ok();
    match place.and_then(|i| summary.sections.get(i)) {
        Some(section) if is_moved(section) => number as u64,
        _ => 0,
    }
}

/// Text, data and bss have addresses in a plan.
fn is_moved(section: &Section) -> bool {
    [TEXT, DATA, BSS].contains(&section.flags)
}

/// The field's sort, if its width is one of its type's.
fn judge_width(entry: &ObjectEntry, bits: u64) -> Result<Sort, EntryFault> {
    match (entry.change.is_branch(), entry.width) {
        (true, 26) => Ok(Sort::Branch),
        (false, 32) => Ok(Sort::Narrow),
        (false, 64) if bits == 64 => Ok(Sort::Wide),
        _ => Err(EntryFault::Width),
    }
}

/// Where the field starts in its section, if it lies whole inside.
fn inside(entry: &ObjectEntry, own: &Section, sort: Sort) -> Result<usize, EntryFault> {
    let offset = entry.address.checked_sub(own.paddr);
    let fits = |offset: &u64| u128::from(*offset) + sort.length() as u128 <= own.size.into();
    match offset.filter(fits) {
        Some(offset) => Ok(offset as usize),
        None => Err(EntryFault::Outside),
    }
}

fn add_field(fields: &mut Fields, at: usize, sort: Sort) -> Result<(), EntryFault> {
    let other = fields.starting(at);
    if fields.add(at, sort) {
        return Ok(());
    }
    match other {
        Some(other) if other.length() == sort.length() => Err(EntryFault::OneField),
        _ => Err(EntryFault::Overlap),
    }
}

/// Order: ROOM 2 for each list, PLAN for each, ROOM 0 for the buffer.
fn judge(object: &Object, lists: &[&[u64]], buffer: usize) -> Result<(), Refusal> {
    for list in lists {
        if list.len() != object.summary.sections.len() {
            return refuse(ROOM, 2);
        }
    }
    for list in lists {
        judge_plan(&object.summary, list)?;
    }
    if buffer as u64 != object.length {
        return refuse(ROOM, 0);
    }
    Ok(())
}

/// PLAN with the first section that doesn't fit.
fn judge_plan(summary: &Summary, list: &[u64]) -> Result<(), Refusal> {
    let top = top(summary.bits);
    for (i, (section, &address)) in summary.sections.iter().zip(list).enumerate() {
        let address = u128::from(address);
        if is_moved(section) && (address >= top || address + u128::from(section.size) > top) {
            return refuse(PLAN, i as u64 + 1);
        }
    }
    Ok(())
}

/// The raw bytes of the text and data sections, end to end.
fn raw_image(file: &[u8], object: &Object) -> Vec<u8> {
    let mut image = Vec::with_capacity(object.length as usize);
    for part in &object.placed {
        image.extend_from_slice(&file[part.raw.clone()]);
    }
    image
}

/// How far each section moves from its recorded address, by its number; 0 for none
/// and for those that have no address in a plan.
fn moves(object: &Object, list: &[u64]) -> Vec<i128> {
    let mut all = vec![0];
    for (section, &address) in object.summary.sections.iter().zip(list) {
        all.push(if is_moved(section) {
            i128::from(address) - i128::from(section.paddr)
        } else {
            0
        });
    }
    all
}

fn difference(object: &Object, from: &[u64], to: &[u64]) -> Vec<i128> {
    let (old, new) = (moves(object, from), moves(object, to));
    new.iter().zip(&old).map(|(n, o)| n - o).collect()
}

/// By how much an entry changes its field.
fn amount(entry: &ObjectEntry, moves: &[i128]) -> i128 {
    let symbol = moves[entry.moves_with as usize];
    match entry.change {
        Change::Relative => symbol - moves[entry.section as usize],
        _ => symbol,
    }
}

/// Applies all entries to the image, or refuses with RANGE and leaves it.
fn place(object: &Object, moves: &[i128], image: &mut [u8]) -> Result<(), Refusal> {
    let words = match branches(object, moves, image) {
        Ok(words) => words,
        Err((i, _)) => return refuse_at(RANGE, i, object.entries[i as usize].at),
    };
    for entry in &object.entries {
        if let Change::Add | Change::Subtract = entry.change {
            let length = entry.width as usize / 8;
            let old = number(image, entry.place, length);
            let subtract = entry.change == Change::Subtract;
            let new = change(old, amount(entry, moves), subtract, entry.width);
            put(image, entry.place, length, new);
        }
    }
    for (at, word) in words {
        put(image, at, 4, word);
    }
    Ok(())
}

/// The word's bits that are a branch's value; its bottom two bits are the
/// instruction's, as its top six.
const VALUE: u64 = 0x03FF_FFFC;

/// The signed value of a branch.
pub fn branch_value(word: u64) -> i128 {
    let value = i128::from(word & VALUE);
    if value < 1 << 25 {
        value
    } else {
        value - (1 << 26)
    }
}

/// The word with its value changed by a sum.
pub fn change_branch(word: u64, sum: i128) -> Result<u64, RangeFault> {
    let value = branch_value(word) + sum;
    if !(-33_554_432..=33_554_428).contains(&value) {
        return Err(RangeFault::Outside);
    }
    if value % 4 != 0 {
        return Err(RangeFault::Step);
    }
    Ok(word & !VALUE | value as u64 & VALUE)
}

/// Every word of the image that branches change, after the sum of all entries on it;
/// or the lowest entry of all bad words.
fn branches(
    object: &Object,
    moves: &[i128],
    image: &[u8],
) -> Result<Vec<(usize, u64)>, (u64, RangeFault)> {
    // By place: the lowest entry and the sum.
    let mut sums: BTreeMap<usize, (u64, i128)> = BTreeMap::new();
    for (i, entry) in object.entries.iter().enumerate() {
        if entry.change.is_branch() {
            let (_, sum) = sums.entry(entry.place).or_insert((i as u64, 0));
            *sum += amount(entry, moves);
        }
    }
    let mut words = Vec::new();
    let mut bad: Option<(u64, RangeFault)> = None;
    for (at, (lowest, sum)) in sums {
        match change_branch(number(image, at, 4), sum) {
            Ok(word) => words.push((at, word)),
            Err(fault) if bad.map_or(true, |(first, _)| lowest < first) => {
                bad = Some((lowest, fault));
            }
            Err(_) => {}
        }
    }
    match bad {
        None => Ok(words),
        Some(bad) => Err(bad),
    }
}

/// What is wrong with the branch that RANGE names in this call; none where it isn't
/// given.
pub fn range_fault(file: &[u8], call: &ObjectCall, buffer: &[u8]) -> Option<RangeFault> {
    let object = object(file).ok()?;
    let (amounts, image) = match call {
        ObjectCall::Build(list) => {
            judge(&object, &[list], buffer.len()).ok()?;
            (moves(&object, list), raw_image(file, &object))
        }
        ObjectCall::Move(from, to) => {
            judge(&object, &[from, to], buffer.len()).ok()?;
            (difference(&object, from, to), buffer.to_vec())
        }
    };
    branches(&object, &amounts, &image)
        .err()
        .map(|(_, fault)| fault)
}
