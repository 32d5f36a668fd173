//! The command line of one command, taken apart.

use crate::escape;
use crate::near::nearest;
use crate::problem::Problem;
use crate::syntax::{Command, Flag};
use std::ffi::{OsStr, OsString};
use std::os::unix::ffi::OsStrExt;
use std::path::{Path, PathBuf};

pub struct Arguments {
    pub command: &'static Command,
    operands: Vec<PathBuf>,
    options: Vec<(&'static Flag, Vec<OsString>)>,
}

impl Arguments {
    pub fn parse(command: &'static Command, words: Vec<OsString>) -> Result<Arguments, Problem> {
        let mut parsed = Arguments {
            command,
            operands: Vec::new(),
            options: Vec::new(),
        };
        let mut words = words.into_iter();
        let mut only_operands = false;
        while let Some(word) = words.next() {
            if only_operands || !is_option(&word) {
                parsed.operands.push(word.into());
            } else if word == "--" {
                only_operands = true;
            } else {
                parsed.option(word, &mut words)?;
            }
        }
        parsed.complete()?;
        Ok(parsed)
    }

    pub fn operands(&self) -> &[PathBuf] {
        &self.operands
    }

    /// Operand `n`, which the syntax asks for.
    pub fn path(&self, n: usize) -> &Path {
        &self.operands[n]
    }

    pub fn optional_path(&self, n: usize) -> Option<&Path> {
        self.operands.get(n).map(PathBuf::as_path)
    }

    pub fn has(&self, name: &str) -> bool {
        self.options.iter().any(|(flag, _)| flag.name == name)
    }

    /// The values of an option each time that it is given.
    pub fn each(&self, name: &'static str) -> impl Iterator<Item = &[OsString]> + '_ {
        self.options
            .iter()
            .filter(move |(flag, _)| flag.name == name)
            .map(|(_, values)| values.as_slice())
    }

    /// The values of an option that is given at most once, as paths.
    pub fn paths(&self, name: &'static str) -> Option<Vec<&Path>> {
        let values = self.each(name).next()?;
        Some(values.iter().map(Path::new).collect())
    }

    /// The decimal number of an option that is given at most once.
    pub fn number(&self, name: &'static str) -> Result<Option<u64>, Problem> {
        let Some(value) = self.each(name).next() else {
            return Ok(None);
        };
        decimal(value[0].as_bytes()).map(Some).ok_or_else(|| {
            let shown = escape::argument(&value[0]);
            self.wrong(format!(
                "{name}: {shown} is not a decimal number of at most 64 bits"
            ))
        })
    }

    fn option(
        &mut self,
        word: OsString,
        more: &mut impl Iterator<Item = OsString>,
    ) -> Result<(), Problem> {
        let (name, joined) = split_option(&word);
        let known = self.command.options.iter().find(|flag| name == flag.name);
        let Some(flag) = known else {
            let known = self.command.options.iter().map(|flag| flag.name);
            let near = name.to_str().and_then(|name| nearest(name, known));
            let meant = near.map_or(String::new(), |near| format!("; did you mean {near}?"));
            let word = escape::argument(&word);
            return Err(self.wrong(format!("unknown option {word}{meant}")));
        };
        if !flag.repeated && self.has(flag.name) {
            return Err(self.wrong(format!("{} is given twice", flag.name)));
        }
        let values = match joined {
            Some(value) if flag.values.len() == 1 => vec![value.to_os_string()],
            Some(_) => return Err(self.wrong(format!("{} takes no value after =", flag.name))),
            None => self.values(flag, more)?,
        };
        self.options.push((flag, values));
        Ok(())
    }

    fn values(
        &self,
        flag: &Flag,
        more: &mut impl Iterator<Item = OsString>,
    ) -> Result<Vec<OsString>, Problem> {
        let values: Vec<OsString> = more.take(flag.values.len()).collect();
        if values.len() < flag.values.len() || values.iter().any(|v| is_option(v)) {
            let needed = flag.values.join(" ");
            return Err(self.wrong(format!("{} needs {needed}", flag.name)));
        }
        Ok(values)
    }

    /// Everything that must be given is, and nothing more.
    fn complete(&self) -> Result<(), Problem> {
        let syntax = self.command;
        self.operands_are(syntax.operands, syntax.optional)?;
        match syntax
            .options
            .iter()
            .find(|flag| flag.required && !self.has(flag.name))
        {
            Some(flag) => Err(self.wrong(format!(
                "{} {} is missing",
                flag.name,
                flag.values.join(" ")
            ))),
            None => Ok(()),
        }
    }

    /// The operands are these, and at most so many more.
    pub fn operands_are(&self, names: &[&str], optional: usize) -> Result<(), Problem> {
        if let Some(missing) = names.get(self.operands.len()) {
            return Err(self.wrong(format!("{missing} is missing")));
        }
        match self.operands.get(names.len().saturating_add(optional)) {
            Some(extra) => {
                let extra = escape::argument(extra);
                Err(self.wrong(format!("{extra} is one argument too many")))
            }
            None => Ok(()),
        }
    }

    pub fn wrong(&self, text: String) -> Problem {
        Problem::usage(self.command, text)
    }
}

/// A word that begins with a minus; a lone minus is a file name like any other.
fn is_option(word: &OsStr) -> bool {
    let bytes = word.as_bytes();
    bytes.len() > 1 && bytes[0] == b'-'
}

/// `--name=value` or `--name`.
fn split_option(word: &OsStr) -> (&OsStr, Option<&OsStr>) {
    let bytes = word.as_bytes();
    match bytes.iter().position(|&byte| byte == b'=') {
        Some(at) if bytes.starts_with(b"--") => (
            OsStr::from_bytes(&bytes[..at]),
            Some(OsStr::from_bytes(&bytes[at + 1..])),
        ),
        _ => (word, None),
    }
}

/// A number of at most 64 bits in hexadecimal digits, with or without 0x before them.
pub fn hex(text: &[u8]) -> Option<u64> {
    let digits = text
        .strip_prefix(b"0x")
        .or(text.strip_prefix(b"0X"))
        .unwrap_or(text);
    let plain = !digits.is_empty() && digits.iter().all(u8::is_ascii_hexdigit);
    let digits = std::str::from_utf8(digits).ok().filter(|_| plain)?;
    u64::from_str_radix(digits, 16).ok()
}

/// A number of at most 64 bits in decimal digits.
pub fn decimal(text: &[u8]) -> Option<u64> {
    let plain = text.iter().all(u8::is_ascii_digit);
    std::str::from_utf8(text)
        .ok()
        .filter(|_| plain)?
        .parse()
        .ok()
}
