//! Object files before linking: their relocation entries, and their text and data sections placed.

use crate::{accepted, ffi, open, section, Comparison, NotMoved, Refusal};

/// Numbers in a row of each table.
const SECTION: usize = 5;
const ENTRY: usize = 6;

/// What an object file holds.
#[derive(Clone, Copy, Debug, PartialEq, Eq)]
pub struct Object {
    /// Addresses in a plan: one for each section.
    pub sections: u64,
    /// Of all tables together, by which entries are numbered on from table to table.
    pub entries: u64,
    /// Bytes of the buffer that takes the text and data sections end to end.
    pub length: u64,
}

/// A section of an object file, as it is placed.
#[derive(Clone, Copy, Debug, PartialEq, Eq)]
pub struct ObjectSection {
    /// Its first byte in the buffer.
    pub place: u64,
    /// Bytes in the buffer; 0 unless it is text or data, as are the numbers below.
    pub size: u64,
    /// File offset of its relocation table.
    pub table: u64,
    /// Entries of the table, in XCOFF32 from the overflow header where 65,535 stands in the section's own.
    pub entries: u64,
    /// The number of its first entry.
    pub first: u64,
}

/// An entry of a section's relocation table.
#[derive(Clone, Copy, Debug, PartialEq, Eq)]
pub struct ObjectEntry {
    pub address: u64,
    /// An index of the symbol table.
    pub symbol: u64,
    pub rsize: u64,
    pub rtype: u64,
    /// Of the field, in bits: 32, 64, 26 of a branch; 0 of an entry that changes nothing (type 0F).
    pub width: u64,
    /// Of the field's first byte in the buffer; 0 of an entry that changes nothing.
    pub place: u64,
}

/// The entries of one section. They are made as they are asked for, since a file may hold millions.
pub struct ObjectEntries {
    numbers: Vec<u64>,
}

/// Where an object file's sections lie: an address for each, of which those of text, data and bss are used.
#[derive(Clone, Debug, PartialEq, Eq)]
pub struct ObjectPlan {
    pub addresses: Vec<u64>,
}

/// A call of a list that [`replay_object`] runs.
#[derive(Clone, Debug, PartialEq, Eq)]
pub enum ObjectCall {
    Build(ObjectPlan),
    Move(ObjectPlan, ObjectPlan),
}

/// What [`replay_object`] answers.
#[derive(Clone, Copy, Debug, PartialEq, Eq)]
pub struct ObjectReplayed {
    /// Calls run: all that the list has.
    pub calls: u64,
    /// Those of them that were accepted.
    pub accepted: u64,
    /// The last call's own answer; where no call was run it is accepted.
    pub last: Result<(), Refusal>,
}

/// Judges a file as an object file, down to its last relocation entry.
pub fn object(file: &[u8]) -> Result<Object, Refusal> {
    let a = ffi::object(file);
    accepted(a.head)?;
    Ok(Object {
        sections: a.sections,
        entries: a.entries,
        length: a.length,
    })
}

/// Every section of an object file, in the order of the section headers.
pub fn object_sections(file: &[u8]) -> Result<Vec<ObjectSection>, Refusal> {
    // A file that does not open is refused here as it would be below; the entries are judged once.
    let mut numbers = vec![0; SECTION * open(file)?.sections as usize];
    accepted(ffi::object_sections(file, &mut numbers))?;
    Ok(numbers.chunks_exact(SECTION).map(section_row).collect())
}

/// Every entry of the relocation table of text or data section `n`.
pub fn object_entries(file: &[u8], n: u64) -> Result<ObjectEntries, Refusal> {
    let sections = object_sections(file)?;
    // A number that names no section is refused below.
    let own = usize::try_from(n).ok().and_then(|n| n.checked_sub(1));
    let own = own.and_then(|place| sections.get(place));
    object_entries_of(file, n, own.map_or(0, |own| own.entries))
}

/// The same where it is known how many there are, as from [`object_sections`]: the file is judged once. Another count than the
/// table's is refused (20 ROOM).
pub fn object_entries_of(file: &[u8], n: u64, entries: u64) -> Result<ObjectEntries, Refusal> {
    let mut numbers = vec![0; ENTRY * entries as usize];
    accepted(ffi::object_entries(file, n, &mut numbers))?;
    Ok(ObjectEntries { numbers })
}

impl ObjectEntries {
    pub fn len(&self) -> usize {
        self.numbers.len() / ENTRY
    }

    pub fn is_empty(&self) -> bool {
        self.numbers.is_empty()
    }

    pub fn rows(&self) -> impl Iterator<Item = ObjectEntry> + '_ {
        self.numbers.chunks_exact(ENTRY).map(entry_row)
    }
}

impl ObjectPlan {
    /// The addresses that the file itself records.
    pub fn recorded(file: &[u8]) -> Result<ObjectPlan, Refusal> {
        let numbers = 1..=open(file)?.sections;
        let addresses = numbers.map(|n| section(file, n).map(|s| s.paddr));
        Ok(ObjectPlan {
            addresses: addresses.collect::<Result<_, _>>()?,
        })
    }
}

/// Builds the buffer of the object file in `file` for a plan: its text and data sections end to end, their entries applied. A
/// refusal changes no byte of it.
pub fn build_object(file: &[u8], plan: &ObjectPlan, buffer: &mut [u8]) -> Result<(), Refusal> {
    accepted(ffi::build_object(file, &plan.addresses, buffer))
}

/// Moves the buffer from one plan to another, taking it as it is. A refusal changes no byte of it.
///
/// A buffer that is moved twice, or from a plan that it is not for, is wrong, and nothing in it shows that:
/// [`move_object_checked`] compares it first.
pub fn move_object(
    file: &[u8],
    from: &ObjectPlan,
    to: &ObjectPlan,
    buffer: &mut [u8],
) -> Result<(), Refusal> {
    let moved = ffi::move_object(file, &from.addresses, &to.addresses, buffer);
    accepted(moved)
}

/// Runs a list of calls on the buffer. A call that is refused changes nothing and does not end the list; how many were accepted
/// is in the answer.
pub fn replay_object(file: &[u8], calls: &[ObjectCall], buffer: &mut [u8]) -> ObjectReplayed {
    let mut script = Vec::new();
    for call in calls {
        match call {
            ObjectCall::Build(p) => {
                script.push(0);
                numbers(p, &mut script);
            }
            ObjectCall::Move(p, q) => {
                script.push(1);
                numbers(p, &mut script);
                numbers(q, &mut script);
            }
        }
    }
    let run = ffi::replay_object(file, &script, buffer);
    ObjectReplayed {
        calls: run.calls,
        accepted: run.accepted,
        last: accepted(run.last),
    }
}

/// Compares a buffer with the one that the object file has for a plan. Its length is judged too.
pub fn check_object(file: &[u8], plan: &ObjectPlan, buffer: &[u8]) -> Result<Comparison, Refusal> {
    // A build in a copy judges everything, the length too.
    let mut built = buffer.to_vec();
    build_object(file, plan, &mut built)?;
    if built == buffer {
        return Ok(Comparison::Equal);
    }
    let mut wrong = 0;
    for (n, own) in (1..).zip(object_sections(file)?) {
        if own.entries == 0 {
            continue;
        }
        for entry in object_entries_of(file, n, own.entries)?.rows() {
            wrong += u64::from(take_field(&entry, buffer, &mut built));
        }
    }
    let other = buffer.iter().zip(&built).filter(|(a, b)| a != b).count();
    Ok(match wrong {
        0 => Comparison::OtherBytes(other as u64),
        fields => Comparison::OtherFields(fields),
    })
}

/// Moves a buffer from one plan to another if it is exactly that of the first, as the command `xcoff place-move` does.
pub fn move_object_checked(
    file: &[u8],
    from: &ObjectPlan,
    to: &ObjectPlan,
    buffer: &mut [u8],
) -> Result<(), NotMoved> {
    match check_object(file, from, buffer).map_err(NotMoved::Refused)? {
        Comparison::Equal => move_object(file, from, to, buffer).map_err(NotMoved::Refused),
        other => Err(NotMoved::NotFrom(other)),
    }
}

impl ObjectEntry {
    /// The bits of its field, byte by byte from its place on: a branch has those between the instruction's own. None of an entry
    /// that changes nothing.
    pub fn mask(&self) -> &'static [u8] {
        match self.width {
            26 => &[0x03, 0xFF, 0xFF, 0xFC],
            32 => &[0xFF; 4],
            64 => &[0xFF; 8],
            _ => &[],
        }
    }
}

/// Puts the found field into the built bytes, so that what differs after this is no field; says whether it was another. A
/// field that several entries name is counted once.
fn take_field(entry: &ObjectEntry, found: &[u8], built: &mut [u8]) -> bool {
    let place = entry.place as usize;
    let mut other = false;
    for (at, mask) in (place..).zip(entry.mask()) {
        let new = built[at] & !mask | found[at] & mask;
        other |= new != built[at];
        built[at] = new;
    }
    other
}

fn section_row(row: &[u64]) -> ObjectSection {
    ObjectSection {
        place: row[0],
        size: row[1],
        table: row[2],
        entries: row[3],
        first: row[4],
    }
}

fn entry_row(row: &[u64]) -> ObjectEntry {
    ObjectEntry {
        address: row[0],
        symbol: row[1],
        rsize: row[2],
        rtype: row[3],
        width: row[4],
        place: row[5],
    }
}

fn numbers(plan: &ObjectPlan, script: &mut Vec<u64>) {
    script.push(plan.addresses.len() as u64);
    script.extend(&plan.addresses);
}
