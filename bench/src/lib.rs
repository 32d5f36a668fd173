//! Benchmarks against peers, as one table (docs/BENCHMARKS.md). `bench/run` builds what is needed and runs it.
#![forbid(unsafe_code)]

#[path = "../../host/benches/common/mod.rs"]
mod common;

pub mod files;
mod growth;
mod least;
mod object_rows;
mod placed_rows;
mod processes;
mod reference_rows;
mod report;
mod rewrite_rows;
mod salvage_rows;

use report::Report;
use std::path::PathBuf;
use std::process::exit;
use std::time::Duration;
use xcoff::Format;

pub use object_rows::{Object, Total};

const FORMATS: [Format; 2] = [Format::Xcoff32, Format::Xcoff64];

const USAGE: &str = "usage: bench --xcoff COMMAND --corpus FOLDER --scratch FOLDER [--seconds S] [--object NOTE]";

/// What the command line gives.
struct Options {
    /// The command `xcoff`.
    xcoff: PathBuf,
    /// Real files.
    corpus: PathBuf,
    /// Where made files are written.
    scratch: PathBuf,
    /// How long the turns of one row are taken.
    time: Duration,
    /// The version of the crate `object`, or why there are no rows against it.
    object: String,
}

/// Prints the table.
pub fn main(object: Option<Object>) {
    let options = options().unwrap_or_else(|| {
        eprintln!("{USAGE}");
        exit(2);
    });
    let mut report = Report::new(options.time);
    reference_rows::rows(&mut report);
    object_rows::rows(&mut report, object, &options.object);
    least::rows(&mut report);
    if let Err(problem) = processes::rows(&mut report, &options.xcoff, &options.corpus, &options.scratch) {
        eprintln!("bench: {problem}");
        exit(3);
    }
    growth::rows(&mut report);
    salvage_rows::rows(&mut report);
    rewrite_rows::rows(&mut report);
    if let Err(problem) = placed_rows::rows(&mut report, &options.xcoff, &options.scratch) {
        eprintln!("bench: {problem}");
        exit(3);
    }
}

fn options() -> Option<Options> {
    let mut options = Options {
        xcoff: PathBuf::new(),
        corpus: PathBuf::new(),
        scratch: PathBuf::new(),
        time: Duration::from_secs(1),
        object: "not asked for".to_string(),
    };
    let mut words = std::env::args().skip(1);
    while let Some(word) = words.next() {
        let value = words.next()?;
        match word.as_str() {
            "--xcoff" => options.xcoff = value.into(),
            "--corpus" => options.corpus = value.into(),
            "--scratch" => options.scratch = value.into(),
            "--seconds" => options.time = Duration::try_from_secs_f64(value.parse().ok()?).ok()?,
            "--object" => options.object = value,
            _ => return None,
        }
    }
    let given = [&options.xcoff, &options.corpus, &options.scratch];
    given.iter().all(|path| !path.as_os_str().is_empty()).then_some(options)
}
