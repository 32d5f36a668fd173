//! Which address of a plan a symbol follows. One address alone changes no byte but in fields with an entry whose symbol
//! follows it.

use crate::{module, LoaderRow, LoaderSymbol, Module, Plan, Refusal};

/// One address of a plan.
#[derive(Clone, Copy, Debug, PartialEq, Eq, PartialOrd, Ord)]
pub enum PlanAddress {
    Text,
    /// Of data and bss.
    Data,
    /// Of the import with this loader symbol index, from 3.
    Import(u64),
}

impl PlanAddress {
    /// What a plan has, whose list has a place for each loader symbol.
    pub fn of(self, plan: &Plan) -> u64 {
        match self {
            PlanAddress::Text => plan.text,
            PlanAddress::Data => plan.data,
            PlanAddress::Import(index) => plan.list[index as usize - 3],
        }
    }

    /// The plan with another value of this one address.
    pub fn with(self, plan: &Plan, value: u64) -> Plan {
        let mut plan = plan.clone();
        match self {
            PlanAddress::Text => plan.text = value,
            PlanAddress::Data => plan.data = value,
            PlanAddress::Import(index) => plan.list[index as usize - 3] = value,
        }
        plan
    }
}

/// The address that each symbol of a loadable module follows, by its index: 0 text, 1 data, 2 bss, from 3 the loader
/// symbols. None: a deferred import, which follows no address.
pub fn followed(file: &[u8]) -> Result<Vec<Option<PlanAddress>>, Refusal> {
    let module = module(file)?;
    Ok(module.followed(&module.loader_symbol_table(file)?))
}

impl Module {
    /// The same of a module whose loader symbols are listed.
    pub fn followed(&self, symbols: &[LoaderRow]) -> Vec<Option<PlanAddress>> {
        let implicit = [PlanAddress::Text, PlanAddress::Data, PlanAddress::Data].map(Some);
        let loader = symbols.iter();
        let loader = loader.map(|row| followed_by(self, row.index, &row.symbol));
        implicit.into_iter().chain(loader).collect()
    }
}

fn followed_by(module: &Module, index: u64, symbol: &LoaderSymbol) -> Option<PlanAddress> {
    match symbol {
        s if s.is_deferred() => None,
        s if s.is_import() => Some(PlanAddress::Import(index)),
        s if s.scnum == module.text.number => Some(PlanAddress::Text),
        _ => Some(PlanAddress::Data),
    }
}
