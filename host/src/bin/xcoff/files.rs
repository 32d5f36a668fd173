//! Files read up to what can be accepted, and replaced whole.

use crate::escape;
use crate::problem::Problem;
use std::fs::{self, File, Metadata, OpenOptions, Permissions};
use std::io::{self, ErrorKind, Read, Write};
use std::os::unix::ffi::OsStrExt;
use std::os::unix::fs::{fchown, MetadataExt, OpenOptionsExt, PermissionsExt};
use std::path::{Path, PathBuf};

/// One byte more than is ever accepted: whether it is too much is for the library to say.
pub const FILE: u64 = 16_777_216 + 1;
pub const IMAGE: u64 = 16_777_216 + 1;
pub const SHEET: u64 = 24 + 8 * 70_000 + 1;
/// What a file of addresses for imports may have, which only this command reads: as much as a module.
pub const IMPORTS: u64 = 16_777_216;

/// The first bytes of a file, at most so many.
pub fn read(path: &Path, most: u64) -> Result<Vec<u8>, Problem> {
    let read = || {
        let file = File::open(path)?;
        // As long as the system says that it is: what grows piece by piece takes up to twice that.
        let length = file.metadata().map_or(0, |data| data.len());
        let mut bytes = Vec::with_capacity(length.min(most) as usize);
        file.take(most).read_to_end(&mut bytes)?;
        Ok(bytes)
    };
    read().map_err(|e| Problem::system(format!("cannot read {}", escape::argument(path)), &e))
}

/// Room for so many bytes, none of them there yet; none where the system has not so much.
pub fn room(bytes: u64) -> Option<Vec<u8>> {
    let mut room = Vec::new();
    room.try_reserve_exact(usize::try_from(bytes).ok()?).ok()?;
    Some(room)
}

/// The first bytes of a file, at most so many, read into room that is taken once: of a large image there is no second copy
/// while it is read.
pub fn read_roomy(path: &Path, most: u64) -> Result<Vec<u8>, Problem> {
    let doing = || format!("cannot read {}", escape::argument(path));
    let read = || {
        let file = File::open(path)?;
        let length = file.metadata()?.len().min(most);
        // One byte more, by which the end is seen.
        let mut bytes = room(length + 1).ok_or(ErrorKind::OutOfMemory)?;
        file.take(most).read_to_end(&mut bytes)?;
        Ok(bytes)
    };
    read().map_err(|e: io::Error| Problem::system(doing(), &e))
}

/// Whether a file holds exactly these bytes.
pub fn holds(path: &Path, bytes: &[u8]) -> Result<bool, Problem> {
    let compare = || {
        let mut file = File::open(path)?;
        let mut part = vec![0; 1 << 16];
        let mut rest = bytes;
        loop {
            let read = match file.read(&mut part) {
                Err(e) if e.kind() == ErrorKind::Interrupted => continue,
                read => read?,
            };
            if read == 0 {
                return Ok(rest.is_empty());
            }
            match rest.strip_prefix(&part[..read]) {
                Some(more) => rest = more,
                None => return Ok(false),
            }
        }
    };
    compare().map_err(|e: io::Error| {
        Problem::system(format!("cannot read {}", escape::argument(path)), &e)
    })
}

/// How long an image file is, which is not known where it was not read to its end.
pub fn length(image: &[u8]) -> String {
    match image.len() as u64 {
        IMAGE => format!("more than {} bytes", IMAGE - 1),
        bytes => format!("{bytes} bytes"),
    }
}

/// Whether two paths lead to the same file, be it there or not.
pub fn same(a: &Path, b: &Path) -> bool {
    let identity = |path| fs::metadata(path).map(|m: Metadata| (m.dev(), m.ino()));
    match (identity(a), identity(b)) {
        (Ok(a), Ok(b)) => a == b,
        _ => matches!((place(a), place(b)), (Ok(a), Ok(b)) if a == b),
    }
}

/// Replaces files whole: all are written beside their targets and synced before the first is renamed, so that no one ever
/// sees a part of a file. If anything fails, the targets stay as they were. A kill between two renames leaves the first
/// file new and the second old, each of them whole.
pub fn replace(files: &[(&Path, &[u8])]) -> Result<(), Problem> {
    replace_if(files, || Ok(()))
}

/// The same, unless a last look before the first renaming finds a problem.
pub fn replace_if(
    files: &[(&Path, &[u8])],
    last_look: impl FnOnce() -> Result<(), Problem>,
) -> Result<(), Problem> {
    let written = write_all(files)?;
    last_look()?;
    put_all(written, files)
}

/// Replaces a file whole. What was written is read again and judged before that: where it is not as it must be, the
/// target stays as it was.
pub fn replace_read_back(
    path: &Path,
    bytes: &[u8],
    judge: impl FnOnce(&[u8]) -> Result<(), Problem>,
) -> Result<(), Problem> {
    let files = [(path, bytes)];
    let written = write_all(&files)?;
    let doing = || {
        format!(
            "cannot read again what was written for {}",
            escape::argument(path)
        )
    };
    let again = fs::read(&written[0].content.0).map_err(|e| Problem::system(doing(), &e))?;
    judge(&again)?;
    put_all(written, &files)
}

fn write_all(files: &[(&Path, &[u8])]) -> Result<Vec<New>, Problem> {
    let write = |(path, bytes): &(&Path, &[u8])| {
        write_beside(path, bytes).map_err(|e| cannot_write(path, &e))
    };
    files.iter().map(write).collect()
}

fn put_all(mut written: Vec<New>, files: &[(&Path, &[u8])]) -> Result<(), Problem> {
    for n in 0..written.len() {
        if n + 1 < written.len() {
            written[n].keep_old();
        }
        if let Err(error) = written[n].put() {
            return Err(undo(&mut written[..n], cannot_write(files[n].0, &error)));
        }
    }
    for (new, (path, _)) in written.iter().zip(files) {
        new.folder.sync_all().map_err(|e| not_synced(path, &e))?;
    }
    Ok(())
}

/// New contents beside its target.
struct New {
    target: PathBuf,
    folder: File,
    content: Temporary,
    /// A second name of the target's old file, to put it back.
    old: Option<Temporary>,
    existed: bool,
}

/// A file that is removed when it is no longer needed.
struct Temporary(PathBuf);

impl Drop for Temporary {
    fn drop(&mut self) {
        // After its renaming it is gone already.
        let _ = fs::remove_file(&self.0);
    }
}

impl New {
    fn keep_old(&mut self) {
        let folder = self.content.0.parent().filter(|_| self.existed);
        self.old = folder.and_then(|folder| second_name(folder, &self.target));
    }

    fn put(&mut self) -> io::Result<()> {
        fs::rename(&self.content.0, &self.target)
    }

    /// Puts the old file back; says whether that worked.
    fn take_back(&mut self) -> bool {
        match &self.old {
            Some(old) => fs::rename(&old.0, &self.target).is_ok(),
            None => !self.existed && fs::remove_file(&self.target).is_ok(),
        }
    }
}

fn undo(put: &mut [New], problem: Problem) -> Problem {
    let stuck: Vec<String> = put
        .iter_mut()
        .filter_map(|new| (!new.take_back()).then(|| escape::argument(&new.target)))
        .collect();
    match problem {
        Problem::System { doing, reason } if !stuck.is_empty() => Problem::System {
            doing,
            reason: format!("{reason}; {} is already replaced", stuck.join(", ")),
        },
        other => other,
    }
}

fn write_beside(path: &Path, bytes: &[u8]) -> io::Result<New> {
    let old = old_file(path)?;
    let target = place(path)?;
    let parent = target.parent().unwrap_or(Path::new("/"));
    let folder = File::open(parent)?;
    let (mut file, content) = create_beside(parent, &old)?;
    file.write_all(bytes)?;
    if let Some(old) = &old {
        // Where a file system knows no owners or modes there is nothing to keep.
        let _ = fchown(&file, Some(old.uid()), Some(old.gid()));
        let _ = file.set_permissions(Permissions::from_mode(old.mode() & 0o777));
    }
    file.sync_all()?;
    Ok(New {
        target,
        folder,
        content,
        old: None,
        existed: old.is_some(),
    })
}

/// What stands at the target and may be replaced: nothing, or a plain file that is not write-protected.
fn old_file(path: &Path) -> io::Result<Option<Metadata>> {
    let name = path.as_os_str().as_bytes();
    if name.ends_with(b"/") || name.ends_with(b"/.") {
        return Err(io::Error::other("it names a directory"));
    }
    let old = match fs::metadata(path) {
        Ok(old) => old,
        Err(e) if e.kind() == ErrorKind::NotFound => return Ok(None),
        Err(e) => return Err(e),
    };
    if old.is_dir() {
        return Err(io::Error::other("it is a directory"));
    }
    if !old.is_file() {
        return Err(io::Error::other("it is not a regular file"));
    }
    if old.mode() & 0o222 == 0 {
        return Err(io::Error::other("it is write-protected"));
    }
    if is_printed_to(&old) {
        return Err(io::Error::other("what is printed goes there"));
    }
    Ok(Some(old))
}

/// Whether standard output or standard error goes to the file: to replace it would lose what is printed, and with `>>`
/// all that stood there before.
fn is_printed_to(file: &Metadata) -> bool {
    let identity = |m: &Metadata| (m.dev(), m.ino());
    ["/dev/stdout", "/dev/stderr"]
        .iter()
        .any(|stream| fs::metadata(stream).is_ok_and(|m| identity(&m) == identity(file)))
}

/// Where a path leads: symbolic links are followed, so that a link stays and its target is replaced.
pub fn place(path: &Path) -> io::Result<PathBuf> {
    let missing = match fs::canonicalize(path) {
        Err(e) if e.kind() == ErrorKind::NotFound => e,
        found => return found,
    };
    if fs::symlink_metadata(path).is_ok() {
        return Err(io::Error::other("it is a symbolic link that leads nowhere"));
    }
    let Some(name) = path.file_name() else {
        return Err(missing);
    };
    let parent = match path.parent() {
        Some(parent) if parent != Path::new("") => parent,
        _ => Path::new("."),
    };
    Ok(fs::canonicalize(parent)?.join(name))
}

/// A new file of its own in the folder of the target, so that it can be renamed to it.
fn create_beside(folder: &Path, old: &Option<Metadata>) -> io::Result<(File, Temporary)> {
    let mode = old.as_ref().map_or(0o666, |old| old.mode() & 0o777);
    let mut options = OpenOptions::new();
    options.write(true).create_new(true).mode(mode);
    for path in temporary_names(folder) {
        match options.open(&path) {
            Err(e) if e.kind() == ErrorKind::AlreadyExists => {}
            Err(e) => return Err(e),
            Ok(file) => return Ok((file, Temporary(path))),
        }
    }
    Err(ErrorKind::AlreadyExists.into())
}

/// None where the file system has no second names; then a file that was renamed cannot be put back.
fn second_name(folder: &Path, target: &Path) -> Option<Temporary> {
    temporary_names(folder)
        .find(|path| fs::hard_link(target, path).is_ok())
        .map(Temporary)
}

fn temporary_names(folder: &Path) -> impl Iterator<Item = PathBuf> + '_ {
    let process = std::process::id();
    (0..100).map(move |n| folder.join(format!(".xcoff-{process}-{n}.tmp")))
}

fn cannot_write(path: &Path, error: &io::Error) -> Problem {
    Problem::system(format!("cannot write {}", escape::argument(path)), error)
}

fn not_synced(path: &Path, error: &io::Error) -> Problem {
    let shown = escape::argument(path);
    Problem::system(
        format!("{shown} is replaced, but its folder is not synced"),
        error,
    )
}
