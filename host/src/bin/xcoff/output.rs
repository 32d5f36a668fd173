//! What is printed on standard output, and answers of the library as problems.

use crate::escape;
use crate::problem::Problem;
use crate::shown;
use crate::values;
use std::io::{self, BufWriter, ErrorKind, Write};
use std::path::Path;
use xcoff::{Reached, Refusal};

/// Prints; a full disk is a problem like any other. Whoever closed the pipe, as `head` does, wants no more: it ends there.
pub fn print(write: impl FnOnce(&mut dyn Write) -> io::Result<()>) -> Result<(), Problem> {
    let mut out = BufWriter::with_capacity(1 << 16, io::stdout().lock());
    let done = write(&mut out).and_then(|()| out.flush());
    // What could not be written is not tried again.
    let _ = out.into_parts();
    done.map_err(|e| match e.kind() {
        ErrorKind::BrokenPipe => Problem::Closed,
        _ => Problem::system("cannot write standard output", &e),
    })
}

/// Prints one line.
pub fn say(line: &str) -> Result<(), Problem> {
    print(|out| writeln!(out, "{line}"))
}

/// Prints one line about files that are written. Where that fails, whoever reads the reason must not take them for
/// the old ones.
pub fn say_done(line: &str) -> Result<(), Problem> {
    print_done(line, |out| writeln!(out, "{line}"))
}

/// The same where what is printed has another form.
pub fn print_done(
    line: &str,
    write: impl FnOnce(&mut dyn Write) -> io::Result<()>,
) -> Result<(), Problem> {
    print(write).map_err(|problem| match problem {
        Problem::System { doing, reason } => Problem::System {
            doing: format!("{line}; but {doing}"),
            reason,
        },
        Problem::Closed => Problem::System {
            doing: format!("{line}; but cannot write standard output"),
            reason: "the pipe is closed".to_string(),
        },
        other => other,
    })
}

/// An answer about a sheet.
pub fn refused<T>(path: &Path, answer: Result<T, Refusal>) -> Result<T, Problem> {
    answer.map_err(|refusal| Problem::refused(escape::argument(path), refusal))
}

/// An answer about an XCOFF file: what stands where a refusal points is shown.
pub fn refused_in<T>(path: &Path, file: &[u8], answer: Result<T, Refusal>) -> Result<T, Problem> {
    refused_about(|| escape::argument(path), file, answer)
}

/// The same about a part of a file.
pub fn refused_about<T>(
    about: impl FnOnce() -> String,
    file: &[u8],
    answer: Result<T, Refusal>,
) -> Result<T, Problem> {
    answer.map_err(|refusal| Problem::refused_and_shown(about(), refusal, shown_of(file, &refusal)))
}

/// An answer of an operation on an object file.
pub fn refused_object<T>(
    path: &Path,
    file: &[u8],
    answer: Result<T, Refusal>,
) -> Result<T, Problem> {
    answer.map_err(|refusal| object_problem(escape::argument(path), file, refusal, Vec::new()))
}

/// A refusal by an operation on an object file, with more lines to show.
pub fn object_problem(about: String, file: &[u8], refusal: Refusal, more: Vec<String>) -> Problem {
    let mut shown = shown::object_lines(file, &refusal);
    shown.extend(values::object_lines(file, &refusal));
    shown.extend(more);
    Problem::Refused {
        about,
        refusal,
        meaning: refusal.object_meaning(),
        shown,
    }
}

/// What stands where a refusal points, and the values that a rule with several alternatives speaks of.
fn shown_of(file: &[u8], refusal: &Refusal) -> Vec<String> {
    let mut lines = shown::lines(file, refusal);
    lines.extend(values::lines(file, refusal));
    lines
}

/// The entry and TOC addresses that a call reached.
pub fn reached_words(reached: &Reached, digits: usize) -> String {
    format!(
        "{}, TOC {}",
        entry_words(reached, digits),
        address_or_none(reached.toc, digits)
    )
}

pub fn entry_words(reached: &Reached, digits: usize) -> String {
    format!("entry {}", address_or_none(reached.entry, digits))
}

fn address_or_none(address: Option<u64>, digits: usize) -> String {
    address.map_or("none".to_string(), |a| format!("{a:0digits$x}"))
}

/// Lines on standard error. Where no one can be told, there is nothing more to do.
pub fn complain(lines: &[String]) {
    let mut err = io::stderr().lock();
    for line in lines {
        let _ = writeln!(err, "{line}");
    }
}
