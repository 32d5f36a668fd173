//! Which single address of a plan would explain every field in which images differ from the plan's.
//!
//! The fields propose a value for the address; a build of the library for the plan with it confirms it.

use crate::compare::Beside;
use crate::escape;
use crate::follows::field;
use crate::load::Loaded;
use crate::problem::Problem;
use std::collections::BTreeMap;
use xcoff::{Image, LoaderRow, PlanAddress, Relocation};

/// Addresses that are named: where a field has many entries, each of them may explain it.
const SHOWN: usize = 4;

/// What an address has to do with a field.
struct Share {
    bits: u32,
    /// What was found in the field less what was expected.
    amount: u64,
    /// How many of its entries add what follows the address, less those that subtract it.
    times: i64,
}

/// The fields with at least one entry that names what follows an address.
type Shares = BTreeMap<(Image, u64), Share>;

/// A line for each address that explains every field that differs.
pub fn lines(beside: &Beside) -> Result<Vec<String>, Problem> {
    let amount = |(entry, found, expected): &(Relocation, u64, u64)| {
        (field(entry), found.wrapping_sub(*expected))
    };
    let amounts: BTreeMap<(Image, u64), u64> = beside.wrong_numbers().iter().map(amount).collect();
    if amounts.is_empty() {
        return Ok(Vec::new());
    }
    let file = beside.file;
    let symbols = file.symbols()?;
    let shares = shares(file, &symbols, &amounts)?;
    let explained = shares.iter().filter_map(|(&address, shares)| {
        let value = proposed(shares, amounts.len(), address.of(&beside.sheet.plan))?;
        confirmed(beside, &symbols, address, value)
    });
    Ok(explained.take(SHOWN).collect())
}

/// Of each address that is named, its fields; `amounts` are of those that differ.
fn shares(
    file: &Loaded,
    symbols: &[LoaderRow],
    amounts: &BTreeMap<(Image, u64), u64>,
) -> Result<BTreeMap<PlanAddress, Shares>, Problem> {
    let followed = file.module.followed(symbols);
    let mut all: BTreeMap<PlanAddress, Shares> = BTreeMap::new();
    for entry in file.entries()? {
        let Some(address) = followed[entry.symbol as usize] else {
            continue;
        };
        let bits = 8 * entry.width as u32;
        let place = field(&entry);
        let shares = all.entry(address).or_default();
        let share = shares.entry(place).or_insert_with(|| Share {
            bits,
            amount: amounts.get(&place).map_or(0, |amount| amount & mask(bits)),
            times: 0,
        });
        share.times += if entry.subtracts { -1 } else { 1 };
    }
    Ok(all)
}

/// A value of an address that has `old` in the plan, with which its fields are those found; `differing` fields differ in
/// all. The field that tells most of the address's low bits decides it; the other bits are the plan's.
fn proposed(shares: &Shares, differing: usize, old: u64) -> Option<u64> {
    let own = shares.values().filter(|share| share.amount != 0);
    let moves = own.map(Share::move_of).collect::<Option<Vec<_>>>()?;
    if moves.len() != differing {
        return None;
    }
    let (bits, by) = moves.into_iter().max_by_key(|(bits, _)| *bits)?;
    let new = old & !mask(bits) | old.wrapping_add(by) & mask(bits);
    let fits = |share: &Share| share.change(new.wrapping_sub(old)) == share.amount;
    shares.values().all(fits).then_some(new)
}

/// A line about an address, if the images for the plan with this value of it have every field that was found.
fn confirmed(
    beside: &Beside,
    symbols: &[LoaderRow],
    address: PlanAddress,
    value: u64,
) -> Option<String> {
    let plan = &beside.sheet.plan;
    let (built, _) = beside.file.build(&address.with(plan, value)).ok()?;
    if !beside.fields.equal(&beside.found.pair, &built) {
        return None;
    }
    Some(format!(
        "xcoff: {} alone explains every field that differs: {value:0digits$x} instead of {:0digits$x}; {}",
        address_words(symbols, address),
        address.of(plan),
        match beside.found.pair == built {
            true => "the images are then the plan's",
            false => "then only other bytes differ",
        },
        digits = beside.file.digits(),
    ))
}

fn address_words(symbols: &[LoaderRow], address: PlanAddress) -> String {
    match address {
        PlanAddress::Text => "the text address".to_string(),
        PlanAddress::Data => "the data address".to_string(),
        PlanAddress::Import(index) => {
            let name = escape::name(symbols[index as usize - 3].name);
            format!("the address of import @{index} {name}")
        }
    }
}

impl Share {
    /// How far the address would have to move: so many low bits of it.
    fn move_of(&self) -> Option<(u32, u64)> {
        // Of an even number of entries only a multiple is seen, and its top bits are dropped.
        let lost = self.times.trailing_zeros().min(self.bits);
        let bits = self.bits - lost;
        let whole = self.times != 0 && bits > 0 && self.amount & mask(lost) == 0;
        whole.then(|| {
            let by = (self.amount >> lost).wrapping_mul(inverse((self.times >> lost) as u64));
            (bits, by & mask(bits))
        })
    }

    /// What a move of the address changes the field by.
    fn change(&self, by: u64) -> u64 {
        (self.times as u64).wrapping_mul(by) & mask(self.bits)
    }
}

fn mask(bits: u32) -> u64 {
    match bits {
        0 => 0,
        _ => u64::MAX >> (64 - bits),
    }
}

/// Of an odd number, modulo 2^64: each step doubles the bits that are right, from 3.
fn inverse(odd: u64) -> u64 {
    (0..5).fold(odd, |x, _| {
        x.wrapping_mul(2u64.wrapping_sub(odd.wrapping_mul(x)))
    })
}
