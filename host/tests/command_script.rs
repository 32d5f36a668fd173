//! `./xcoff` of the repository's root: what it builds and when, with tools that only note that they are called.

use std::fs::{self, Permissions};
use std::os::unix::fs::{symlink, PermissionsExt};
use std::path::{Path, PathBuf};
use std::process::Command;
use std::sync::{Mutex, MutexGuard, PoisonError};
use std::time::Duration;

/// One repository at a time: a process that another test starts while a script is written would have it open, and the system
/// does not run a file that is open for writing.
static ONE: Mutex<()> = Mutex::new(());

/// A repository with the script, sources to build from, and a folder with all tools that it may use.
struct Repository(PathBuf, #[allow(dead_code)] MutexGuard<'static, ()>);

impl Repository {
    fn new(name: &str) -> Repository {
        let root = std::env::temp_dir().join(format!("xcoff-script-{}-{name}", std::process::id()));
        let one = ONE.lock().unwrap_or_else(PoisonError::into_inner);
        let new = Repository(root, one);
        for folder in [
            "crates/word/src",
            "crates/xcoff_c/src",
            "host/src",
            "tools",
            "elsewhere",
        ] {
            fs::create_dir_all(new.path(folder)).unwrap();
        }
        let sources = [
            "crates.txt",
            "crates/word/src/lib.rt",
            "host/src/lib.rs",
            "host/Cargo.toml",
            "host/Cargo.lock",
            "host/build.rs",
        ];
        for source in sources {
            fs::write(new.path(source), "").unwrap();
        }
        fs::write(
            new.path("crates.txt"),
            "# crates\nword:\nxcoff_c staticlib: word text # the library\ntext:\nlister: text\n",
        )
        .unwrap();
        let script = Path::new(env!("CARGO_MANIFEST_DIR")).join("../xcoff");
        fs::copy(script, new.path("xcoff")).unwrap();
        for tool in
            "awk bash cat cc dirname env find flock mkdir mktemp mv readlink rm touch wc".split(' ')
        {
            new.link(tool);
        }
        // One core, so that no memory is too small for as many crates at once.
        new.tool("nproc", "echo 1");
        new.tool("rt", LIBRARY);
        new.tool(
            "cargo",
            "mkdir -p target/cargo/release && printf '#!%s\\necho \"$PWD: $*\"; exit 7\\n' \"$BASH\" \
             >target/cargo/release/xcoff && chmod +x target/cargo/release/xcoff",
        );
        new.link("chmod");
        new
    }

    fn path(&self, name: &str) -> PathBuf {
        self.0.join(name)
    }

    /// A real tool.
    fn link(&self, tool: &str) {
        let folders = std::env::var_os("PATH").unwrap();
        let found = std::env::split_paths(&folders)
            .map(|f| f.join(tool))
            .find(|p| p.is_file());
        let found = found.unwrap_or_else(|| panic!("{tool} is not installed"));
        symlink(found, self.path("tools").join(tool)).unwrap();
    }

    /// A tool that notes its call, but for nproc, and does this where it is called.
    fn tool(&self, name: &str, action: &str) {
        let path = self.path("tools").join(name);
        let log = self.path("log");
        let call = match name {
            "nproc" => String::new(),
            _ => format!("echo \"{name} $*\" >>'{}'", log.display()),
        };
        let text = format!("#!/usr/bin/env bash\n{call}\n{action}\n");
        fs::write(&path, text).unwrap();
        fs::set_permissions(&path, Permissions::from_mode(0o755)).unwrap();
    }

    /// Runs the script in another folder: status, standard output, standard error, and the tools that were called.
    fn run(&self, args: &[&str]) -> (i32, String, String, String) {
        let _ = fs::remove_file(self.path("log"));
        let mut command = Command::new(self.path("xcoff"));
        command
            .args(args)
            .current_dir(self.path("elsewhere"))
            .env("PATH", self.path("tools"));
        let output = command.output().unwrap();
        let called = fs::read_to_string(self.path("log")).unwrap_or_default();
        let text = |bytes| String::from_utf8(bytes).unwrap();
        (
            output.status.code().unwrap(),
            text(output.stdout),
            text(output.stderr),
            called,
        )
    }

    /// Changes a source, after what was built.
    fn change(&self, source: &str) {
        std::thread::sleep(Duration::from_millis(50));
        let path = self.path(source);
        let mut text = fs::read_to_string(&path).unwrap_or_default();
        text.push_str("# changed\n");
        fs::write(path, text).unwrap();
    }
}

impl Drop for Repository {
    fn drop(&mut self) {
        let _ = fs::remove_dir_all(&self.0);
    }
}

/// What rt lib makes, in the crate's folder.
const LIBRARY: &str = "[ $1 != lib ] || { mkdir -p out && echo lib >out/libxcoff_c.a; }";
const PROVING: &str =
    "xcoff: proving and building the library (rt lib in crates/xcoff_c); this takes some minutes\n";
const BUILDING: &str = "xcoff: building the command\n";
const RT: &str = "rt lib\nrt lib\n";
/// The same where nothing is kept of the crate that all others stand on.
const RT_ANEW: &str = "rt lib\nrt all check --jobs 1\nrt lib\n";
const CARGO: &str = "cargo build --quiet --release --offline --locked --manifest-path host/Cargo.toml --target-dir target/cargo --bin xcoff\n";

#[test]
fn what_is_missing_is_built_once_and_the_command_runs_where_it_was_called() {
    let repository = Repository::new("fresh");
    let ran = format!(
        "{}: headers a  b\n",
        repository
            .path("elsewhere")
            .canonicalize()
            .unwrap()
            .display()
    );
    let (status, out, err, called) = repository.run(&["headers", "a  b"]);
    assert_eq!((status, &out), (7, &ran));
    assert_eq!(
        (err, called),
        ([PROVING, BUILDING].concat(), [RT, CARGO].concat())
    );
    for _ in 0..2 {
        let again = repository.run(&["headers", "a  b"]);
        assert_eq!(again, (7, ran.clone(), String::new(), String::new()));
    }
}

/// A terminal: what is written to the second file is read from the first.
fn terminal() -> (fs::File, fs::File) {
    use std::ffi::{c_char, c_int, CStr};
    use std::os::fd::FromRawFd;
    extern "C" {
        fn posix_openpt(flags: c_int) -> c_int;
        fn grantpt(file: c_int) -> c_int;
        fn unlockpt(file: c_int) -> c_int;
        fn ptsname(file: c_int) -> *const c_char;
    }
    const READ_WRITE_NOT_CONTROLLING: c_int = 0o402;
    // SAFETY: the calls of POSIX in their order; the name is copied before any other call.
    let (reader, name) = unsafe {
        let file = posix_openpt(READ_WRITE_NOT_CONTROLLING);
        assert!(file >= 0 && grantpt(file) == 0 && unlockpt(file) == 0);
        let name = CStr::from_ptr(ptsname(file)).to_str().unwrap().to_string();
        (fs::File::from_raw_fd(file), name)
    };
    let writer = fs::OpenOptions::new().write(true).open(name).unwrap();
    (reader, writer)
}

#[test]
fn on_a_terminal_a_line_says_which_crate_of_how_many_is_proved() {
    let repository = Repository::new("terminal");
    let lib = "[ $1 != lib ] || { echo \"rt: chose --jobs 2 for ${PWD##*/}\"; echo logic=proved; }";
    let proved = "for crate in word text lister xcoff_c; do echo \"== $crate\"; echo more; done";
    let all = format!("[ $1 != all ] || {{ {proved}; echo '== summary'; echo 'word: ok'; }}");
    repository.tool("rt", &format!("{LIBRARY}\n{lib}\n{all}"));
    let (reader, writer) = terminal();
    let mut command = Command::new(repository.path("xcoff"));
    command
        .current_dir(repository.path("elsewhere"))
        .env("PATH", repository.path("tools"))
        .stderr(writer);
    assert_eq!(command.output().unwrap().status.code(), Some(7));
    drop(command);
    // The last one to have it open is gone: what is left to read ends with an error.
    let mut said = Vec::new();
    let _ = std::io::Read::read_to_end(&mut &reader, &mut said);
    let said = String::from_utf8(said).unwrap().replace("\r\n", "\n");
    let progress = "\r\x1b[Kxcoff: 1 of 3 crates proved: word\
                    \r\x1b[Kxcoff: 2 of 3 crates proved: text\
                    \r\x1b[Kxcoff: 3 of 3 crates proved: xcoff_c\n";
    assert_eq!(said, [PROVING, progress, BUILDING].concat());
    let called = fs::read_to_string(repository.path("log")).unwrap();
    assert_eq!(called, [RT_ANEW, CARGO].concat());
}

#[test]
fn what_rt_kept_is_taken() {
    let repository = Repository::new("kept");
    let kept = "echo \"rt: ${PWD##*/}: begins with what a check kept in /elsewhere\"";
    for proved in ["", "; echo logic=proved"] {
        repository.tool("rt", &format!("{LIBRARY}\n{kept}{proved}"));
        repository.change("crates.txt");
        assert_eq!(repository.run(&[]).3, [RT, CARGO].concat());
    }
}

#[test]
fn a_closed_output_is_not_taken_for_an_empty_one() {
    let repository = Repository::new("closed");
    repository.run(&[]);
    let mut shell = Command::new("bash");
    shell.args(["-c", "\"$0\" headers a >&-"]);
    let output = shell.arg(repository.path("xcoff")).output().unwrap();
    assert_eq!(output.status.code(), Some(3));
    assert_eq!(
        String::from_utf8(output.stderr).unwrap(),
        "xcoff: cannot write standard output: it is closed\n"
    );
}

#[test]
fn what_is_out_of_date_is_built_again() {
    let repository = Repository::new("stale");
    repository.run(&[]);
    let both = ([PROVING, BUILDING].concat(), [RT, CARGO].concat());
    let command = (BUILDING.to_string(), CARGO.to_string());
    for source in [
        "crates/word/src/lib.rt",
        "crates/word/src/new.rt",
        "crates.txt",
    ] {
        repository.change(source);
        let (_, _, err, called) = repository.run(&[]);
        assert_eq!((err, called), both, "{source}");
    }
    for source in [
        "host/src/lib.rs",
        "host/src/new.rs",
        "host/Cargo.toml",
        "host/Cargo.lock",
        "host/build.rs",
    ] {
        repository.change(source);
        let (_, _, err, called) = repository.run(&[]);
        assert_eq!((err, called), command, "{source}");
    }
    // A library that someone else built.
    repository.change("crates/xcoff_c/out/libxcoff_c.a");
    assert_eq!(repository.run(&[]).3, CARGO);
    assert_eq!(repository.run(&[]).3, "");
}

#[test]
fn tools_that_find_nothing_to_do_are_not_called_again() {
    let repository = Repository::new("same");
    repository.run(&[]);
    repository.tool("rt", "");
    repository.tool("cargo", "");
    repository.change("crates/word/src/lib.rt");
    assert_eq!(repository.run(&[]).3, RT);
    assert_eq!(repository.run(&[]).3, "");
    repository.change("host/src/lib.rs");
    assert_eq!(repository.run(&[]).3, CARGO);
    assert_eq!(repository.run(&[]).3, "");
}

#[test]
fn a_missing_tool_is_named() {
    let repository = Repository::new("tools");
    for (tool, said) in [("rt", ""), ("cc", ""), ("cargo", PROVING)] {
        let hidden = repository.path("elsewhere").join(tool);
        fs::rename(repository.path("tools").join(tool), &hidden).unwrap();
        let (status, out, err, _) = repository.run(&["--version"]);
        let expected =
            format!("{said}xcoff: {tool} is needed to build the command and is not installed\n");
        assert_eq!((status, out.as_str(), err), (3, "", expected));
        fs::rename(&hidden, repository.path("tools").join(tool)).unwrap();
    }
    // Nothing is needed where everything is built.
    assert_eq!(repository.run(&[]).0, 7);
    for tool in ["rt", "cc", "cargo"] {
        fs::remove_file(repository.path("tools").join(tool)).unwrap();
    }
    assert_eq!(repository.run(&[]).0, 7);
}

#[test]
fn a_failed_build_is_shown_and_tried_again() {
    let repository = Repository::new("failed");
    repository.tool("rt", "echo 'not proved'; exit 1");
    for _ in 0..2 {
        let (status, out, err, called) = repository.run(&[]);
        let expected = format!("{PROVING}not proved\nxcoff: the library is not built\n");
        assert_eq!(
            (status, out.as_str(), err, called.as_str()),
            (3, "", expected, "rt lib\n")
        );
    }
    repository.tool("rt", LIBRARY);
    repository.tool("cargo", "echo 'no compiler'; exit 101");
    let (status, _, err, _) = repository.run(&[]);
    let expected = format!("{PROVING}{BUILDING}no compiler\nxcoff: the command is not built\n");
    assert_eq!((status, err), (3, expected));
}
