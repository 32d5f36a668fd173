//! Fields of relocation entries: two of one section are the same or share no byte.

/// Nothing is here.
const FREE: u8 = 0;
/// A field goes on here.
const INSIDE: u8 = 1;

/// A field's sort; two fields at one place are the same if their sorts are.
#[derive(Clone, Copy, Debug, PartialEq, Eq)]
pub(crate) enum Sort {
    Narrow = 2,
    Wide = 3,
    /// The word of a branch.
    Branch = 4,
}

impl Sort {
    /// By the width in bits.
    pub(crate) fn of_width(width: u64) -> Sort {
        match width {
            64 => Sort::Wide,
            _ => Sort::Narrow,
        }
    }

    pub(crate) fn length(self) -> usize {
        match self {
            Sort::Narrow | Sort::Branch => 4,
            Sort::Wide => 8,
        }
    }
}

/// The fields of one section so far: for each of its bytes the sort of the field
/// that starts there, or that one goes on there. So a field costs its length only.
pub(crate) struct Fields {
    bytes: Vec<u8>,
}

impl Fields {
    pub(crate) fn new(size: u64) -> Fields {
        Fields {
            bytes: vec![FREE; size as usize],
        }
    }

    /// The sort of the field that starts here.
    pub(crate) fn starting(&self, at: usize) -> Option<Sort> {
        let sorts = [Sort::Narrow, Sort::Wide, Sort::Branch];
        sorts.into_iter().find(|&sort| self.bytes[at] == sort as u8)
    }

    /// Adds a field inside the section; false where it meets an earlier one that
    /// isn't the same.
    pub(crate) fn add(&mut self, at: usize, sort: Sort) -> bool {
        let field = &mut self.bytes[at..at + sort.length()];
        if field[0] == sort as u8 {
            return true;
        }
        if field.iter().any(|&byte| byte != FREE) {
            return false;
        }
        field.fill(INSIDE);
        field[0] = sort as u8;
        true
    }
}
