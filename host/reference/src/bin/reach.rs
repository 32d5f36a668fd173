//! `reach [COUNT [FIRST]]`: runs the cases of COUNT seeds from FIRST and prints
//! how often each refusal number was reached, by class of item. Ends with an
//! error if a class wasn't reached, an aimed refusal wasn't given, or a list of
//! calls differs from the book.
#![forbid(unsafe_code)]

use reference::generate::{case, damage, Case, Op};
use reference::reached::Table;
use reference::{answer, book, object_book, run_object_call, Call, ObjectCall};
use std::collections::BTreeMap;

/// Whether the book gives what the calls give.
fn book_agrees(file: &[u8], calls: &[Call], text: &[u8], data: &[u8]) -> bool {
    let (mut run_text, mut run_data) = (text.to_vec(), data.to_vec());
    for n in 0..calls.len() {
        let _ = answer::run_call(file, &calls[n], &mut run_text, &mut run_data);
        let large = data.len() > 1_000_000 || file.len() > 40_000;
        if !large || n + 1 == calls.len() {
            let (book_text, book_data) = book(file, &calls[..=n], text, data);
            if book_text != run_text || book_data != run_data {
                return false;
            }
        }
    }
    true
}

/// The same for an object file.
fn object_book_agrees(file: &[u8], calls: &[ObjectCall], buffer: &[u8]) -> bool {
    let mut run = buffer.to_vec();
    (0..calls.len()).all(|n| {
        let _ = run_object_call(file, &calls[n], &mut run);
        object_book(file, &calls[..=n], buffer) == run
    })
}

#[derive(Default)]
struct Run {
    table: Table,
    /// Cases, those that open, modules: by sort of case.
    sorts: BTreeMap<String, [u64; 3]>,
    /// Run and refusing, by operation.
    operations: BTreeMap<&'static str, (u64, u64)>,
    aimed: u64,
    lists: u64,
    faults: u64,
}

impl Run {
    fn case(&mut self, case: &Case) {
        let sort = case.label.split(':').next().unwrap_or("").to_string();
        let counts = self.sorts.entry(sort).or_insert([0; 3]);
        counts[0] += 1;
        counts[1] += u64::from(reference::open(&case.file).is_ok());
        counts[2] += u64::from(reference::module(&case.file).is_ok());
        for (i, op) in case.ops.iter().enumerate() {
            self.operation(case, i, op);
        }
    }

    fn operation(&mut self, case: &Case, i: usize, op: &Op) {
        let answer = answer::run(&case.file, op);
        let counts = self.operations.entry(op.word()).or_insert((0, 0));
        counts.0 += 1;
        counts.1 += u64::from(!answer.refusals.is_empty());
        for refusal in &answer.refusals {
            self.table.count(&case.file, op, refusal);
        }
        if answer.refusals.is_empty() {
            self.table.accept(&case.file, op);
        }
        if let Some(expected) = case.expected.as_ref().filter(|expected| expected.op == i) {
            self.aimed += 1;
            if answer.refusals.first() != Some(&expected.refusal) {
                self.faults += 1;
                println!(
                    "seed {} ({}): {:?} is not given",
                    case.seed, case.label, expected.refusal
                );
            }
        }
        let agrees = match op {
            Op::Calls { calls, text, data } => book_agrees(&case.file, calls, text, data),
            Op::ObjectCalls { calls, buffer } => object_book_agrees(&case.file, calls, buffer),
            _ => return,
        };
        self.lists += 1;
        if !agrees {
            self.faults += 1;
            println!("seed {}: the book differs", case.seed);
        }
    }

    fn print(&self) {
        println!("{}", self.table.text());
        println!(
            "{:<12} {:>8} {:>8} {:>8}",
            "sort", "cases", "opened", "modules"
        );
        for (sort, [cases, opened, modules]) in &self.sorts {
            println!("{sort:<12} {cases:>8} {opened:>8} {modules:>8}");
        }
        println!("\n{:<18} {:>8} {:>8}", "operation", "run", "refusing");
        for (word, (run, refused)) in &self.operations {
            println!("{word:<18} {run:>8} {refused:>8}");
        }
        println!(
            "\n{} lists compared with the book, {} aimed refusals of {} damages, {} faults",
            self.lists,
            self.aimed,
            damage::count(),
            self.faults
        );
        for row in self.table.missing() {
            println!("never reached: {row}");
        }
        for key in self.table.strange() {
            println!("in no row: {key}");
        }
    }
}

fn main() {
    let mut arguments = std::env::args().skip(1);
    let mut read = |default: u64| match arguments.next() {
        Some(text) => text.parse().expect("a number"),
        None => default,
    };
    let count = read(20_000);
    let first = read(0);
    let mut run = Run::default();
    for seed in first..first + count {
        run.case(&case(seed));
    }
    run.print();
    if run.faults > 0 || !run.table.missing().is_empty() || !run.table.strange().is_empty() {
        std::process::exit(1);
    }
}
