//! Listing a file, as processes: `xcoff` against llvm-readobj and GNU objdump, where these are installed and can read the file.

use crate::common::turns::by_turns;
use crate::files::Symbols;
use crate::report::{name, Report};
use crate::FORMATS;
use std::path::{Path, PathBuf};
use std::process::{Command, Stdio};
use xcoff::Format;

const SYMBOLS: u32 = 20_000;

/// A tool with the options that list sections and symbols, and what the first line of a symbol starts with.
struct Tool {
    name: &'static str,
    package: &'static str,
    programs: &'static [&'static str],
    sections: &'static str,
    symbols: &'static str,
    mark: &'static str,
}

const TOOLS: [Tool; 2] = [
    Tool {
        name: "llvm-readobj",
        package: "llvm",
        programs: &["llvm-readobj"],
        sections: "--sections",
        symbols: "--symbols",
        mark: "  Symbol {",
    },
    Tool {
        name: "GNU objdump",
        package: "binutils-powerpc-linux-gnu",
        programs: &["powerpc-linux-gnu-objdump", "objdump"],
        sections: "-h",
        symbols: "-t",
        mark: "[",
    },
];

/// A file on the disk, and how many symbols a listing of it has.
struct Listed {
    what: String,
    path: PathBuf,
    symbols: usize,
}

pub fn rows(report: &mut Report, xcoff: &Path, corpus: &Path, scratch: &Path) -> std::io::Result<()> {
    let files = files(corpus, scratch)?;
    for tool in &TOOLS {
        let mut installed = tool
            .programs
            .iter()
            .filter_map(|program| Some((program, version(program)?)));
        let Some((program, version)) = installed.next() else {
            report.against(&format!("{} as a process", tool.name));
            report.left_out(&format!("not installed (apt install {})", tool.package));
            continue;
        };
        report.against(&format!("{} {version} as a process", tool.name));
        for file in &files {
            if tool.lists(program, file)? {
                tool.rows(report, xcoff, program, file);
            } else {
                let why = format!("{program} does not list {} (apt install {})", file.what, tool.package);
                report.left_out(&why);
            }
        }
    }
    Ok(())
}

/// A real module and a made file of many symbols, of each format.
fn files(corpus: &Path, scratch: &Path) -> std::io::Result<Vec<Listed>> {
    std::fs::create_dir_all(scratch)?;
    let mut files = Vec::new();
    for format in FORMATS {
        let real = corpus.join(if format == Format::Xcoff32 {
            "exe-imports-32"
        } else {
            "exe-imports-64"
        });
        let bytes = std::fs::read(&real)?;
        files.push(Listed {
            what: format!(
                "{} {}",
                name(format),
                real.file_name().unwrap_or_default().to_string_lossy()
            ),
            path: real,
            symbols: xcoff::walk(&bytes).expect("a real file opens").visited as usize,
        });
        let made = Symbols {
            format,
            sections: 4,
            count: SYMBOLS,
            csects: true,
        };
        let path = scratch.join(format!("symbols-{}", name(format)));
        std::fs::write(&path, made.bytes())?;
        files.push(Listed {
            what: format!("{} 20,000 symbols", name(format)),
            path,
            symbols: SYMBOLS as usize,
        });
    }
    Ok(files)
}

impl Tool {
    /// Whether the listing has every symbol.
    fn lists(&self, program: &str, file: &Listed) -> std::io::Result<bool> {
        let output = Command::new(program).arg(self.symbols).arg(&file.path).output()?;
        let text = String::from_utf8_lossy(&output.stdout);
        let found = text.lines().filter(|line| line.starts_with(self.mark)).count();
        Ok(output.status.success() && found == file.symbols)
    }

    fn rows(&self, report: &mut Report, xcoff: &Path, program: &str, file: &Listed) {
        let path = &file.path;
        let ours = |command: &str| run(Command::new(xcoff).arg(command).arg(path));
        let sections = || run(Command::new(program).arg(self.sections).arg(path));
        let symbols = || run(Command::new(program).arg(self.symbols).arg(path));
        let both = || run(Command::new(program).args([self.sections, self.symbols]).arg(path));
        let [headers, listing, a, b, c] = by_turns(
            report.time,
            &mut (),
            [
                &|_| ours("headers"),
                &|_| ours("symbols"),
                &|_| sections(),
                &|_| symbols(),
                &|_| both(),
            ],
        );
        report.row(&format!("{}, sections", file.what), headers, a);
        report.row(&format!("{}, symbols", file.what), listing, b);
        report.row(&format!("{}, both (ours twice)", file.what), headers + listing, c);
    }
}

/// What a program says of its version; none where it is not installed.
fn version(program: &str) -> Option<String> {
    let output = Command::new(program).arg("--version").output().ok()?;
    let text = String::from_utf8_lossy(&output.stdout);
    let number = |word: &&str| word.starts_with(|c: char| c.is_ascii_digit()) && word.contains('.');
    let found = text.split_whitespace().find(number).unwrap_or("of no known version");
    Some(found.to_string())
}

fn run(command: &mut Command) {
    let status = command.stdin(Stdio::null()).stdout(Stdio::null()).status();
    assert!(status.is_ok_and(|status| status.success()), "{command:?} fails");
}
