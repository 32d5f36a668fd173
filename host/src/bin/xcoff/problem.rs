//! What can go wrong, and the one place that gives it words and an exit status.

use crate::listing::push_json_text;
use crate::output::print;
use crate::syntax::Command;
use std::fmt;
use std::io::Write;
use xcoff::Refusal;

pub enum Problem {
    /// The command line makes no sense.
    Usage {
        command: Option<&'static Command>,
        text: String,
    },
    /// The rules refuse a file, a sheet, a plan or records.
    Refused {
        about: String,
        refusal: Refusal,
        /// Of the operation that refused: an object file's plan has other items than a module's.
        meaning: String,
        /// Lines that show what is refused.
        shown: Vec<String>,
    },
    /// What was given is not what it should be, as images that are not the plan's: a line for each thing to say.
    Unequal(Vec<String>),
    /// The system refuses.
    System { doing: String, reason: String },
    /// Whoever reads the output has closed it: there is nothing to say.
    Closed,
    /// Said already, of one of several files: the status that is left.
    Told(u8),
}

impl Problem {
    pub fn status(&self) -> u8 {
        match self {
            Problem::Refused { .. } | Problem::Unequal(_) => 1,
            Problem::Usage { .. } => 2,
            Problem::System { .. } | Problem::Closed => 3,
            Problem::Told(status) => *status,
        }
    }

    /// Says it on standard error; with `--json` also as an object on standard output, after what was listed.
    pub fn tell(&self, json: bool) {
        // Standard error may be closed: the status is then all that can be told.
        let _ = write!(std::io::stderr(), "{self}");
        if json {
            let _ = print(|out| {
                self.object()
                    .map_or(Ok(()), |object| writeln!(out, "{object}"))
            });
        }
    }

    /// None where there is nothing to say, and of a command line that makes no sense.
    fn object(&self) -> Option<String> {
        let mut line = String::new();
        match self {
            Problem::Usage { .. } | Problem::Closed | Problem::Told(_) => return None,
            Problem::Refused {
                about,
                refusal,
                meaning,
                ..
            } => {
                let (number, item, offset) = (refusal.number, refusal.item, refusal.offset);
                line.push_str("{\"table\":\"refusal\",\"about\":");
                push_json_text(&mut line, about);
                let numbers = format!(",\"number\":{number},\"item\":{item},\"offset\":{offset}");
                line.push_str(&numbers);
                line.push_str(",\"rule\":");
                push_json_text(&mut line, refusal.name());
                line.push_str(",\"meaning\":");
                push_json_text(&mut line, meaning);
            }
            _ => line.push_str("{\"table\":\"problem\""),
        }
        line.push_str(&format!(",\"status\":{},\"text\":", self.status()));
        push_json_text(&mut line, self.to_string().trim_end());
        line.push('}');
        Some(line)
    }

    pub fn usage(command: &'static Command, text: impl Into<String>) -> Problem {
        Problem::Usage {
            command: Some(command),
            text: text.into(),
        }
    }

    pub fn refused(about: String, refusal: Refusal) -> Problem {
        Problem::refused_and_shown(about, refusal, Vec::new())
    }

    pub fn refused_and_shown(about: String, refusal: Refusal, shown: Vec<String>) -> Problem {
        Problem::Refused {
            about,
            refusal,
            meaning: refusal.meaning(),
            shown,
        }
    }

    /// `doing` is as in "cannot read FILE".
    pub fn system(doing: impl Into<String>, error: &std::io::Error) -> Problem {
        Problem::System {
            doing: doing.into(),
            reason: reason(error),
        }
    }
}

impl fmt::Display for Problem {
    fn fmt(&self, f: &mut fmt::Formatter<'_>) -> fmt::Result {
        match self {
            Problem::Usage {
                command: None,
                text,
            } => {
                writeln!(f, "xcoff: {text}")?;
                writeln!(
                    f,
                    "usage: xcoff COMMAND ARGUMENT...; xcoff --help lists the commands"
                )
            }
            Problem::Usage {
                command: Some(c),
                text,
            } => {
                writeln!(f, "xcoff: {}: {text}", c.name)?;
                writeln!(
                    f,
                    "usage: xcoff {} {}; xcoff {} --help says more",
                    c.name, c.usage, c.name
                )
            }
            Problem::Refused {
                about,
                refusal,
                meaning,
                shown,
            } => {
                let numbers = format!("{} {} {}", refusal.number, refusal.item, refusal.offset);
                let name = refusal.name();
                writeln!(f, "xcoff: {about}: refused {numbers}: {name}, {meaning}")?;
                write_lines(f, shown)
            }
            Problem::Unequal(lines) => write_lines(f, lines),
            Problem::System { doing, reason } => writeln!(f, "xcoff: {doing}: {reason}"),
            Problem::Closed | Problem::Told(_) => Ok(()),
        }
    }
}

fn write_lines(f: &mut fmt::Formatter<'_>, lines: &[String]) -> fmt::Result {
    lines.iter().try_for_each(|line| writeln!(f, "{line}"))
}

/// The system's own words, without the number that Rust puts behind them.
fn reason(error: &std::io::Error) -> String {
    let text = error.to_string();
    match text.find(" (os error ") {
        Some(end) => text[..end].to_string(),
        None => text,
    }
}
