//! Document 02, request 6: one table of resolved imports for two benches.

use crate::module::load;
use crate::{refuse, Refusal, ABSENT, FULL, INDEX, LONG, ROOM, TABLE_ROWS};
use std::collections::BTreeMap;

/// The longest name of a row.
const NAME_LIMIT: usize = 32;

/// What a row is found by.
#[derive(Clone, Debug, PartialEq, Eq, PartialOrd, Ord)]
pub struct RowKey {
    pub bench: u64,
    pub file_id: u64,
    pub name: Vec<u8>,
}

/// The rows that are taken, with their addresses.
#[derive(Clone, Debug, Default, PartialEq, Eq)]
pub struct AddressTable {
    rows: BTreeMap<RowKey, u64>,
}

/// A call on the table; a fill takes the file that it is called with.
#[derive(Clone, Debug, PartialEq, Eq)]
pub enum TableCall {
    /// With the address.
    Add(RowKey, u64),
    Remove(RowKey),
    LookUp(RowKey),
    Fill {
        bench: u64,
        list: Vec<u64>,
    },
}

impl AddressTable {
    /// Adds a row; one that is there gets this address.
    pub fn add(&mut self, row: &RowKey, address: u64) -> Result<(), Refusal> {
        judge_row(row)?;
        if !self.rows.contains_key(row) && self.taken() == TABLE_ROWS {
            return refuse(FULL, 0);
        }
        self.rows.insert(row.clone(), address);
        Ok(())
    }

    pub fn remove(&mut self, row: &RowKey) -> Result<(), Refusal> {
        judge_row(row)?;
        match self.rows.remove(row) {
            Some(_) => Ok(()),
            None => refuse(ABSENT, 0),
        }
    }

    pub fn look_up(&self, row: &RowKey) -> Result<u64, Refusal> {
        judge_row(row)?;
        match self.rows.get(row) {
            Some(&address) => Ok(address),
            None => refuse(ABSENT, 0),
        }
    }

    /// Writes a plan's list for a module: each import that isn't deferred gets the
    /// address of the bench's row, or its recorded value; all other places get 0.
    pub fn fill(&self, bench: u64, file: &[u8], list: &mut [u64]) -> Result<(), Refusal> {
        judge_bench(bench)?;
        let loaded = load(file)?;
        if list.len() != loaded.symbols.len() {
            return refuse(ROOM, 2);
        }
        for (symbol, place) in loaded.symbols.iter().zip(list) {
            *place = 0;
            if symbol.from_plan() {
                let row = RowKey {
                    bench,
                    file_id: symbol.file_id,
                    name: file[symbol.name.clone()].to_vec(),
                };
                *place = *self.rows.get(&row).unwrap_or(&symbol.value);
            }
        }
        Ok(())
    }

    /// How many rows are taken.
    pub fn taken(&self) -> usize {
        self.rows.len()
    }

    /// A bench's own rows, with their addresses.
    pub fn rows_of(&self, bench: u64) -> BTreeMap<&RowKey, u64> {
        let own = self.rows.iter().filter(|(row, _)| row.bench == bench);
        own.map(|(row, &address)| (row, address)).collect()
    }
}

/// INDEX for a bench that isn't 1 or 2.
fn judge_bench(bench: u64) -> Result<(), Refusal> {
    match bench {
        1 | 2 => Ok(()),
        _ => refuse(INDEX, bench),
    }
}

/// Order: INDEX, LONG.
fn judge_row(row: &RowKey) -> Result<(), Refusal> {
    judge_bench(row.bench)?;
    if row.name.is_empty() || row.name.len() > NAME_LIMIT {
        return refuse(LONG, 0);
    }
    Ok(())
}

/// What a call gives.
#[derive(Clone, Debug, PartialEq, Eq)]
pub enum TableAnswer {
    Done,
    Address(u64),
    /// The list afterwards, whether it was filled or not.
    Filled(Result<(), Refusal>, Vec<u64>),
    Refused(Refusal),
}

impl TableAnswer {
    pub fn refusal(&self) -> Option<Refusal> {
        match self {
            TableAnswer::Refused(refusal) | TableAnswer::Filled(Err(refusal), _) => Some(*refusal),
            _ => None,
        }
    }
}

/// Runs one call.
pub fn run_table_call(table: &mut AddressTable, file: &[u8], call: &TableCall) -> TableAnswer {
    let result = match call {
        TableCall::Add(row, address) => table.add(row, *address).map(|()| TableAnswer::Done),
        TableCall::Remove(row) => table.remove(row).map(|()| TableAnswer::Done),
        TableCall::LookUp(row) => table.look_up(row).map(TableAnswer::Address),
        TableCall::Fill { bench, list } => {
            let mut list = list.clone();
            let result = table.fill(*bench, file, &mut list);
            Ok(TableAnswer::Filled(result, list))
        }
    };
    result.unwrap_or_else(TableAnswer::Refused)
}
