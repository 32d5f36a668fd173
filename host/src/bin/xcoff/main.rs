//! `xcoff`: lists XCOFF files, builds and moves the images of modules and of object files, writes and reads them as S-records.
//!
//! Every file, sheet, plan, image and record text goes to the proved library as it is; nothing is judged here. The one
//! check of this command's own is that images are for the plan that they are moved from, or that their records are for.
#![forbid(unsafe_code)]

mod args;
mod check;
mod compare;
mod dump;
mod escape;
mod explain;
mod files;
mod follows;
mod found;
mod given;
mod images;
mod imports;
mod kinds;
mod line;
mod lined;
mod listing;
mod lists;
mod load;
mod lock;
mod map;
mod near;
mod object;
mod output;
mod pages;
mod picture;
mod place;
mod placed;
mod placed_compare;
mod plans;
mod problem;
mod records;
mod rewrite;
mod salvage;
mod shown;
mod symbols;
mod syntax;
mod table;
mod values;
mod warnings;
mod words;

use args::Arguments;
use problem::Problem;
use std::ffi::{OsStr, OsString};
use std::process::ExitCode;
use syntax::{Command, COMMANDS};

fn main() -> ExitCode {
    let words: Vec<OsString> = std::env::args_os().skip(1).collect();
    let json = has_option(&words, "--json");
    match run(words) {
        Ok(()) => ExitCode::SUCCESS,
        Err(problem) => {
            problem.tell(json);
            ExitCode::from(problem.status())
        }
    }
}

fn run(mut words: Vec<OsString>) -> Result<(), Problem> {
    if words.is_empty() {
        return Err(no_command("a command is missing".to_string()));
    }
    let first = words.remove(0);
    if first == "--help" || first == "-h" || first == "help" {
        return help(&words);
    }
    if first == "--version" || first == "-V" || first == "version" {
        return print_text(concat!("xcoff ", env!("CARGO_PKG_VERSION"), "\n"));
    }
    let command = named(&first)?;
    // Anywhere among the options, since who asks for help has not got the rest right.
    if has_option(&words, "--help") || has_option(&words, "-h") {
        return print_text(&command.help_text());
    }
    (command.run)(&Arguments::parse(command, words)?)
}

/// `help`, `help COMMAND`; for those who install the command also `help --man`, `help --man COMMAND` and `help --bash`.
fn help(words: &[OsString]) -> Result<(), Problem> {
    print_text(&match words {
        [] => syntax::overview(),
        [bash] if bash == "--bash" => pages::bash(),
        [man] if man == "--man" => pages::man(None),
        [man, name, ..] if man == "--man" => pages::man(Some(named(name)?)),
        [name, ..] => named(name)?.help_text(),
    })
}

fn named(name: &OsStr) -> Result<&'static Command, Problem> {
    Command::named(name).ok_or_else(|| {
        let known = COMMANDS.iter().map(|command| command.name);
        let near = name.to_str().and_then(|name| near::nearest(name, known));
        let meant = near.map_or(String::new(), |near| format!("; did you mean '{near}'?"));
        no_command(format!("unknown command {}{meant}", escape::argument(name)))
    })
}

fn has_option(words: &[OsString], name: &str) -> bool {
    let mut options = words.iter().take_while(|&word| word != "--");
    options.any(|word| word == name)
}

fn no_command(text: String) -> Problem {
    Problem::Usage {
        command: None,
        text,
    }
}

fn print_text(text: &str) -> Result<(), Problem> {
    output::print(|out| out.write_all(text.as_bytes()))
}
