//! A run over many seeds: what was compared, and which refusals were reached.

use crate::compare::{compare, Agreed, Difference};
use crate::lister::listed;
use crate::read::unchanged;
use reference::answer::arguments;
use reference::generate::{case, damage, Case, Op};
use reference::reached::{bits_of, Table};
use std::collections::BTreeMap;
use std::fmt;
use std::panic::{catch_unwind, AssertUnwindSafe};
use std::path::PathBuf;

/// The first difference of a run, with all that is needed to look at it.
#[derive(Debug)]
pub struct Failure {
    pub seed: u64,
    pub label: String,
    pub operation: String,
    pub difference: Difference,
    pub file: Vec<u8>,
}

impl fmt::Display for Failure {
    fn fmt(&self, f: &mut fmt::Formatter<'_>) -> fmt::Result {
        writeln!(f, "seed {} ({}), {}", self.seed, self.label, self.operation)?;
        writeln!(f, "  {} (numbers in hex)", self.difference.part)?;
        writeln!(f, "  the library:   {}", self.difference.ours)?;
        write!(f, "  the reference: {}", self.difference.theirs)
    }
}

/// What has been compared so far.
#[derive(Default)]
pub struct Run {
    pub table: Table,
    /// The lister's program, if its texts are to be compared too.
    pub lister: Option<PathBuf>,
    pub texts: u64,
    pub cases: u64,
    pub operations: u64,
    pub modules: u64,
    pub lists: u64,
    pub calls: u64,
    pub refused_calls: u64,
    pub broken_moves: u64,
    pub chained_lists: u64,
    /// Aimed damages whose refusal was given, by name and bits.
    aimed: BTreeMap<(String, u64), u64>,
}

impl Run {
    /// Runs the case of a seed through both implementations.
    pub fn seed(&mut self, seed: u64) -> Result<(), Box<Failure>> {
        let case = case(seed);
        let before = case.file.clone();
        self.cases += 1;
        self.modules += u64::from(reference::module(&case.file).is_ok());
        for (i, op) in case.ops.iter().enumerate() {
            let agreed = compared(&case, op).and_then(|agreed| aim_met(&case, i, agreed));
            let agreed = agreed.map_err(|difference| failure(&case, op, difference))?;
            self.count(&case, i, op, agreed);
            if let (Op::List, Some(program)) = (op, &self.lister) {
                listed(program, &case.file).map_err(|difference| failure(&case, op, difference))?;
                self.texts += 1;
            }
        }
        unchanged(&case.file, &before).map_err(|difference| failure(&case, &Op::Open, difference))
    }

    fn count(&mut self, case: &Case, i: usize, op: &Op, agreed: Agreed) {
        self.operations += 1;
        for refusal in &agreed.refusals {
            self.table.count(&case.file, op, refusal);
        }
        if agreed.refusals.is_empty() {
            self.table.accept(&case.file, op);
        }
        if matches!(op, Op::Calls { .. }) {
            self.lists += 1;
            self.calls += agreed.calls;
            self.refused_calls += agreed.refusals.len() as u64;
            self.broken_moves += agreed.broken_moves;
            self.chained_lists += u64::from(agreed.chained);
        }
        let aimed = case
            .expected
            .as_ref()
            .is_some_and(|expected| expected.op == i);
        if let Some(name) = case.label.strip_prefix("aimed: ").filter(|_| aimed) {
            *self
                .aimed
                .entry((name.to_string(), bits_of(&case.file)))
                .or_insert(0) += 1;
        }
    }

    /// Damages of the generator that no case has had yet.
    pub fn unused_damages(&self) -> Vec<&'static str> {
        let used = |name: &str| self.aimed.keys().any(|(n, _)| n == name);
        damage::names().filter(|name| !used(name)).collect()
    }

    /// How often each damage was made, by format.
    pub fn damages(&self) -> String {
        let times = |name: &str, bits| {
            self.aimed
                .get(&(name.to_string(), bits))
                .copied()
                .unwrap_or(0)
        };
        let mut text = format!(
            "{:<52} {:>7} {:>7} {:>7}\n",
            "aimed damage", "32", "64", "neither"
        );
        for name in damage::names() {
            let [narrow, wide, neither] = [32, 64, 0].map(|bits| times(name, bits));
            text += &format!("{name:<52} {narrow:>7} {wide:>7} {neither:>7}\n");
        }
        text
    }

    pub fn summary(&self) -> String {
        format!(
            "{} cases, {} operations, {} refusals, {} loadable modules\n\
             {} lists with {} calls, {} of them refused, {} moves from a plan not reached; \
             {} lists end in the images of a plan\n\
             {} texts of the lister",
            self.cases,
            self.operations,
            self.table.refusals(),
            self.modules,
            self.lists,
            self.calls,
            self.refused_calls,
            self.broken_moves,
            self.chained_lists,
            self.texts
        )
    }
}

/// A panic counts as a difference.
fn compared(case: &Case, op: &Op) -> Result<Agreed, Difference> {
    catch_unwind(AssertUnwindSafe(|| compare(&case.file, op))).unwrap_or_else(|_| {
        Err(Difference {
            part: "panic, see above".into(),
            ours: "?".into(),
            theirs: "?".into(),
        })
    })
}

/// An aimed case must give the refusal that its damage is aimed at: a third say, besides the two implementations.
fn aim_met(case: &Case, i: usize, agreed: Agreed) -> Result<Agreed, Difference> {
    let Some(expected) = case.expected.as_ref().filter(|expected| expected.op == i) else {
        return Ok(agreed);
    };
    if agreed.refusals.first() == Some(&expected.refusal) {
        return Ok(agreed);
    }
    Err(Difference {
        part: format!("the damage is aimed at {:?}", expected.refusal),
        ours: format!("{:?}", agreed.refusals),
        theirs: "the same".into(),
    })
}

fn failure(case: &Case, op: &Op, difference: Difference) -> Box<Failure> {
    Box::new(Failure {
        seed: case.seed,
        label: case.label.clone(),
        operation: format!("{} {}", op.word(), arguments(op))
            .chars()
            .take(4_000)
            .collect(),
        difference,
        file: case.file.clone(),
    })
}
