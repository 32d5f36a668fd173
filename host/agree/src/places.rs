//! What stands where a refusal points: the library's reader of it takes the bytes at the refusal's own offset, as many as
//! the thing named has, and finds every field in them. Whatever the file is, it reads.

use crate::compare::{same, Difference};
use reference::generate::Op;
use reference::reached::bits_of;
use reference::Refusal;
use xcoff::{object_places, places, What};

pub fn read(file: &[u8], op: &Op, refusal: &Refusal) -> Result<(), Difference> {
    let ours = xcoff::Refusal {
        number: refusal.number,
        item: refusal.item,
        offset: refusal.offset,
    };
    let found = match op {
        Op::Object | Op::ObjectBuild { .. } | Op::ObjectMove { .. } | Op::ObjectCalls { .. } => {
            object_places(file, &ours)
        }
        _ => places(file, &ours),
    };
    let shown = found.first().map(|place| place.what);
    same(
        "whether something is shown",
        &shown.is_some(),
        &has_place(refusal),
    )?;
    let first = found.first().map(|place| place.offset);
    let offset = shown.map(|_| refusal.offset);
    same("offset of what is shown", &first, &offset)?;
    for place in found {
        let start = place.offset as usize;
        let whole = start + length_of(file, place.what);
        same("bytes that are shown", &place.bytes, &&file[start..whole])?;
        let inside = |at: u64| (start..whole).contains(&(at as usize));
        let all = place.fields.iter().all(|field| inside(field.offset));
        same("fields inside of what is shown", &all, &true)?;
    }
    Ok(())
}

/// Whether the item names something in the file; of LIMIT 2 and 3 a sheet has no place there.
fn has_place(refusal: &Refusal) -> bool {
    match (refusal.number, refusal.item) {
        (3, item) => (item == 2 || item == 3) && refusal.offset != 0,
        (5, item) => item != 0,
        (4 | 6 | 7 | 9..=12 | 14..=18 | 25 | 30, _) => true,
        _ => false,
    }
}

/// Of a loader section as much of its header as it has.
fn length_of(file: &[u8], what: What) -> usize {
    let by = |narrow, wide| if bits_of(file) == 32 { narrow } else { wide };
    match what {
        What::SectionHeader(_) => by(40, 72),
        What::Symbol(_) | What::CsectEntry(_) => 18,
        What::StringTable => 4,
        What::LoaderSection(_, size) => by(32, 56).min(size as usize),
        What::LoaderSymbol(_) => 24,
        What::Relocation(_) => by(12, 16),
        What::ObjectEntry(_) => by(10, 14),
    }
}
