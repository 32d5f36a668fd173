//! One table of resolved imports for two benches: 512 rows, each with a bench, a file id, a name and an address.

use crate::{accepted, ffi, Refusal};

/// 64-bit numbers that a table is kept in.
const NUMBERS: usize = 4_097;
/// Numbers in a row of a bench's list: file id, length of the name, its bytes in four numbers, address.
const ROW: usize = 7;

/// The table as memory that is lent to each call. Any numbers are a table; where a row lies in them is the library's own.
#[derive(Clone, Debug, PartialEq, Eq)]
pub struct AddressTable(Box<[u64; NUMBERS]>);

/// A row of a bench.
#[derive(Clone, Debug, PartialEq, Eq)]
pub struct TableRow {
    pub file_id: u64,
    pub name: Vec<u8>,
    pub address: u64,
}

/// A call of a list that [`AddressTable::replay`] runs.
#[derive(Clone, Debug, PartialEq, Eq)]
pub enum TableCall<'a> {
    /// With the address.
    Add(RowName<'a>, u64),
    Remove(RowName<'a>),
    Find(RowName<'a>),
    /// Of a bench, for the module and into the list that the calls are run with.
    Fill(u64),
}

/// What a row is found by.
#[derive(Clone, Copy, Debug, PartialEq, Eq)]
pub struct RowName<'a> {
    pub bench: u64,
    pub file_id: u64,
    pub name: &'a [u8],
}

/// What [`AddressTable::replay`] answers.
#[derive(Clone, Copy, Debug, PartialEq, Eq)]
pub struct TableReplayed {
    /// Calls run: all that the list has.
    pub calls: u64,
    /// Those of them that were accepted.
    pub accepted: u64,
    /// The last call's own answer: the address that is found, 0 of every other call and where no call was run.
    pub last: Result<u64, Refusal>,
}

impl AddressTable {
    /// Bytes of a table that is kept in a file.
    pub const BYTES: usize = 8 * NUMBERS;

    /// Without a row.
    pub fn new() -> AddressTable {
        AddressTable(Box::new([0; NUMBERS]))
    }

    /// A table that was kept as bytes, its numbers big-endian; none where it has another length.
    pub fn from_bytes(bytes: &[u8]) -> Option<AddressTable> {
        if bytes.len() != AddressTable::BYTES {
            return None;
        }
        let mut table = AddressTable::new();
        for (number, bytes) in table.0.iter_mut().zip(bytes.chunks_exact(8)) {
            *number = bytes.iter().fold(0, |n, &byte| n << 8 | u64::from(byte));
        }
        Some(table)
    }

    pub fn to_bytes(&self) -> Vec<u8> {
        self.0.iter().flat_map(|n| n.to_be_bytes()).collect()
    }

    /// Adds a row of a bench, 1 or 2; one that is there gets this address. A refusal leaves the table as it was.
    pub fn add(
        &mut self,
        bench: u64,
        file_id: u64,
        name: &[u8],
        address: u64,
    ) -> Result<(), Refusal> {
        accepted(ffi::table_add(&mut self.0, bench, file_id, name, address))
    }

    /// Removes a row, whose place is then used again. A refusal leaves the table as it was.
    pub fn remove(&mut self, bench: u64, file_id: u64, name: &[u8]) -> Result<(), Refusal> {
        accepted(ffi::table_remove(&mut self.0, bench, file_id, name))
    }

    /// The address of a row.
    pub fn find(&self, bench: u64, file_id: u64, name: &[u8]) -> Result<u64, Refusal> {
        let a = ffi::table_find(&self.0, bench, file_id, name);
        accepted(a.head)?;
        Ok(a.address)
    }

    /// Writes a plan's list for the module in `file`: of each import the address of the bench's row, or the recorded value
    /// where it has none; 0 for deferred imports and all other places. A refusal leaves the list as it was.
    pub fn fill(&self, bench: u64, file: &[u8], list: &mut [u64]) -> Result<(), Refusal> {
        accepted(ffi::table_fill(file, &self.0, bench, list))
    }

    /// Runs a list of calls, each on the table that the last one left. Fills are of the module in `file`, and write `list`. A call
    /// that is refused changes nothing and does not end the list; how many were accepted is in the answer.
    pub fn replay(&mut self, calls: &[TableCall], file: &[u8], list: &mut [u64]) -> TableReplayed {
        let mut script = Vec::new();
        for call in calls {
            match call {
                TableCall::Add(row, address) => {
                    numbers(0, row, &mut script);
                    script.push(*address);
                }
                TableCall::Remove(row) => numbers(1, row, &mut script),
                TableCall::Find(row) => numbers(2, row, &mut script),
                TableCall::Fill(bench) => script.extend([3, *bench]),
            }
        }
        self.replay_script(&script, file, list)
    }

    /// The same of calls as numbers, as `xcoff.h` says them: what is cut short ends the list.
    pub fn replay_script(
        &mut self,
        script: &[u64],
        file: &[u8],
        list: &mut [u64],
    ) -> TableReplayed {
        let run = ffi::table_replay(file, script, &mut self.0, list);
        TableReplayed {
            calls: run.calls,
            accepted: run.accepted,
            last: accepted(run.last.head).map(|()| run.last.address),
        }
    }

    /// The rows of a bench, in the order of file id, then name.
    pub fn rows(&self, bench: u64) -> Result<Vec<TableRow>, Refusal> {
        let count = ffi::table_count(&self.0, bench);
        accepted(count.head)?;
        let mut numbers = vec![0; ROW * count.count as usize];
        accepted(ffi::table_rows(&self.0, bench, &mut numbers))?;
        Ok(numbers.chunks_exact(ROW).map(row).collect())
    }
}

impl Default for AddressTable {
    fn default() -> AddressTable {
        AddressTable::new()
    }
}

/// The numbers of a call on one row, but for an address.
fn numbers(kind: u64, row: &RowName, script: &mut Vec<u64>) {
    script.extend([kind, row.bench, row.file_id, row.name.len() as u64]);
    script.extend(row.name.iter().map(|&byte| u64::from(byte)));
}

fn row(numbers: &[u64]) -> TableRow {
    let mut name: Vec<u8> = numbers[2..6].iter().flat_map(|n| n.to_be_bytes()).collect();
    name.truncate(numbers[1] as usize);
    TableRow {
        file_id: numbers[0],
        name,
        address: numbers[6],
    }
}
