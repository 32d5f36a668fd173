//! docs/COMMANDS.md shows what the command prints: every line of it that starts with `$` is run, in one folder.

mod command_runner;

use command_runner::{tests_folder, Folder};
use std::os::unix::fs::symlink;
use std::process::Command;

/// A command line, and the text below it.
struct Example {
    line: String,
    shown: String,
}

fn examples() -> Vec<Example> {
    let text = std::fs::read_to_string(tests_folder().join("../docs/COMMANDS.md")).unwrap();
    let mut found: Vec<Example> = Vec::new();
    let mut indent = None;
    for line in text.lines() {
        let trimmed = line.trim_start();
        let depth = line.len() - trimmed.len();
        if let Some(command) = trimmed.strip_prefix("$ ") {
            indent = Some(depth);
            found.push(Example {
                line: command.to_string(),
                shown: String::new(),
            });
            continue;
        }
        // What is printed stands as deep as the command, with empty lines in between.
        match indent {
            Some(deep) if line.is_empty() || depth >= deep => {
                let shown = &mut found.last_mut().unwrap().shown;
                shown.push_str(line.get(deep..).unwrap_or(""));
                shown.push('\n');
            }
            _ => indent = None,
        }
    }
    found
}

#[test]
fn the_document_shows_what_is_printed() {
    let folder = Folder::new();
    symlink(env!("CARGO_BIN_EXE_xcoff"), folder.path("xcoff")).unwrap();
    symlink(tests_folder(), folder.path("tests")).unwrap();
    let examples = examples();
    assert!(examples.len() >= 25, "{} examples", examples.len());
    for example in examples {
        let mut shell = Command::new("bash");
        shell.current_dir(folder.path(""));
        let output = shell
            .arg("-c")
            .arg(format!("exec 2>&1; {}", example.line))
            .output()
            .unwrap();
        let printed = String::from_utf8(output.stdout).unwrap();
        assert_eq!(
            printed.trim_end(),
            example.shown.trim_end(),
            "{}",
            example.line
        );
    }
}
