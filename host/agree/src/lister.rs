//! The header lister is a program, not a function of the library: it is run on the file, and its text compared.

use crate::compare::{same, Difference};
use std::io::Write;
use std::path::Path;
use std::process::{Command, Stdio};

pub fn listed(program: &Path, file: &[u8]) -> Result<(), Difference> {
    let text = output(program, file).map_err(|error| Difference {
        part: format!("{} cannot be run", program.display()),
        ours: error.to_string(),
        theirs: String::new(),
    })?;
    same("text of the lister", &text, &reference::list_headers(file))
}

fn output(program: &Path, file: &[u8]) -> std::io::Result<String> {
    let mut child = Command::new(program)
        .stdin(Stdio::piped())
        .stdout(Stdio::piped())
        .spawn()?;
    if let Some(mut input) = child.stdin.take() {
        // It need not read all of a file that is too long.
        let _ = input.write_all(file);
    }
    let output = child.wait_with_output()?;
    Ok(String::from_utf8_lossy(&output.stdout).into_owned())
}
