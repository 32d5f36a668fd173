//! `soak [CASES] [--first SEED] [--lister PROGRAM] [--keep FOLDER]`: compares the proved library with the second
//! implementation on generated cases, and prints which refusals were reached.
#![forbid(unsafe_code)]

use agree::{Failure, Run};
use std::path::PathBuf;
use std::process::exit;
use std::time::{Duration, Instant};

const USAGE: &str = "usage: soak [CASES] [--first SEED] [--lister PROGRAM] [--keep FOLDER]
  CASES    how many cases, 200000 if not given
  SEED     the first case's seed, 0 if not given; the case of a seed is always the same
  PROGRAM  the header lister, whose texts are compared too
  FOLDER   where a file is kept on which the two differ";

/// From this many cases on, a class of refusal that was never reached is a failure.
const THRESHOLD: u64 = 20_000;

struct Wanted {
    cases: u64,
    first: u64,
    lister: Option<PathBuf>,
    keep: PathBuf,
}

fn usage(why: &str) -> ! {
    eprintln!("soak: {why}\n{USAGE}");
    exit(2)
}

fn wanted() -> Wanted {
    let mut wanted = Wanted {
        cases: 200_000,
        first: 0,
        lister: None,
        keep: std::env::temp_dir(),
    };
    let mut arguments = std::env::args().skip(1);
    let number = |text: String| {
        text.parse()
            .unwrap_or_else(|_| usage(&format!("{text} is no number")))
    };
    while let Some(word) = arguments.next() {
        let mut value = || {
            arguments
                .next()
                .unwrap_or_else(|| usage(&format!("{word} needs a value")))
        };
        match word.as_str() {
            "--first" => wanted.first = number(value()),
            "--lister" => wanted.lister = Some(value().into()),
            "--keep" => wanted.keep = value().into(),
            "--help" => {
                println!("{USAGE}");
                exit(0)
            }
            _ if word.starts_with('-') => usage(&format!("there is no {word}")),
            _ => wanted.cases = number(word),
        }
    }
    if wanted.first.checked_add(wanted.cases).is_none() {
        usage("there is no such seed");
    }
    wanted
}

fn main() {
    let wanted = wanted();
    let mut run = Run::default();
    run.lister = wanted.lister.clone();
    let started = Instant::now();
    let mut told = started;
    for seed in wanted.first..wanted.first + wanted.cases {
        if let Err(failure) = run.seed(seed) {
            differs(&failure, &wanted);
        }
        if told.elapsed() >= Duration::from_secs(5) {
            told = Instant::now();
            progress(&run, &wanted, started);
        }
    }
    finish(&run, &wanted, started);
}

fn progress(run: &Run, wanted: &Wanted, started: Instant) {
    let rate = run.cases as f64 / started.elapsed().as_secs_f64();
    let (reached, classes) = run.table.coverage();
    eprintln!(
        "soak: {} of {} cases, {rate:.0} a second, {} refusals in {reached} of {classes} rows, no difference",
        run.cases,
        wanted.cases,
        run.table.refusals()
    );
}

fn differs(failure: &Failure, wanted: &Wanted) -> ! {
    println!("DIFFERENCE at {failure}");
    let path = wanted.keep.join(format!("soak-{}.xcoff", failure.seed));
    match std::fs::write(&path, &failure.file) {
        Ok(()) => println!("  the file: {}", path.display()),
        Err(error) => println!("  the file cannot be kept in {}: {error}", path.display()),
    }
    exit(1)
}

fn finish(run: &Run, wanted: &Wanted, started: Instant) {
    println!("{}", run.table.text());
    println!("{}", run.damages());
    println!("{}", run.summary());
    let mut faults: Vec<String> = run.table.strange();
    if wanted.cases >= THRESHOLD {
        faults.extend(
            run.table
                .missing_places()
                .into_iter()
                .map(|place| format!("never reached: {place}")),
        );
        faults.extend(
            run.unused_damages()
                .into_iter()
                .map(|name| format!("never made: {name}")),
        );
    }
    let last = wanted.first + wanted.cases.saturating_sub(1);
    println!(
        "seeds {} to {last}, {:.0} seconds: no difference, {} faults",
        wanted.first,
        started.elapsed().as_secs_f64(),
        faults.len()
    );
    for fault in &faults {
        println!("  {fault}");
    }
    exit(if faults.is_empty() && run.cases > 0 {
        0
    } else {
        1
    })
}
