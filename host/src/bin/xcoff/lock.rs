//! One command at a time in a folder: what is read, compared and replaced there is not replaced by another in between.
//!
//! The lock is the system's (flock) and on the folder itself: there is no lock file to be left behind, a file that is not
//! there yet is locked too, and it ends with the process, however that ends. It binds this command alone.

use crate::args::Arguments;
use crate::escape;
use crate::files;
use crate::output::complain;
use crate::problem::Problem;
use std::fs::{self, File, Metadata, TryLockError};
use std::io::{self, ErrorKind};
use std::os::unix::fs::MetadataExt;
use std::path::{Path, PathBuf};

/// Held until it is dropped.
pub struct Lock(#[allow(dead_code)] Vec<File>);

#[derive(Clone, Copy, PartialEq, Eq)]
enum Sort {
    /// Held by one.
    Write,
    /// Held by any number that only read.
    Read,
}

/// A folder, and the file in it that the command line names.
struct Folder<'p> {
    path: PathBuf,
    named: &'p Path,
    identity: (u64, u64),
}

/// Locks the folders of files that are replaced, and of those that are read with them as one. Waits for another command,
/// with a word, unless `--no-wait` is given.
pub fn to_write(args: &Arguments, paths: &[&Path]) -> Result<Lock, Problem> {
    take(args, paths, Sort::Write)
}

/// The same for files that are only read, but must not be replaced one by one meanwhile.
pub fn to_read(args: &Arguments, paths: &[&Path]) -> Result<Lock, Problem> {
    take(args, paths, Sort::Read)
}

/// In one order for all, so that no two commands wait for each other.
fn take(args: &Arguments, paths: &[&Path], sort: Sort) -> Result<Lock, Problem> {
    let wait = !args.has("--no-wait");
    let mut folders: Vec<Folder> = paths.iter().filter_map(|path| folder_of(path)).collect();
    folders.sort_by_key(|folder| folder.identity);
    folders.dedup_by_key(|folder| folder.identity);
    let mut held = Vec::new();
    for folder in &folders {
        held.extend(lock(folder, sort, wait)?);
    }
    Ok(Lock(held))
}

/// None where no lock is of use: a pipe, a folder that is not there. Whoever reads or writes the file says so.
fn folder_of(named: &Path) -> Option<Folder<'_>> {
    if fs::metadata(named).is_ok_and(|file| !file.is_file()) {
        return None;
    }
    let path = files::place(named).ok()?.parent()?.to_path_buf();
    let identity = identity(&fs::metadata(&path).ok()?);
    Some(Folder {
        path,
        named,
        identity,
    })
}

fn identity(file: &Metadata) -> (u64, u64) {
    (file.dev(), file.ino())
}

/// None where the folder cannot be opened, and where its file system has no locks.
fn lock(folder: &Folder, sort: Sort, wait: bool) -> Result<Option<File>, Problem> {
    let Ok(file) = File::open(&folder.path) else {
        return Ok(None);
    };
    let locked = match try_lock(&file, sort) {
        Err(TryLockError::WouldBlock) if wait => {
            complain(&[format!(
                "xcoff: waiting: another xcoff is at work in the folder of {}; --no-wait would end here",
                escape::argument(folder.named)
            )]);
            wait_for(&file, sort)
        }
        Err(TryLockError::WouldBlock) => return Err(busy(folder)),
        Err(TryLockError::Error(error)) => Err(error),
        Ok(()) => Ok(()),
    };
    match locked {
        Ok(()) => Ok(Some(file)),
        Err(error) if has_no_locks(&error) => {
            complain(&[format!(
                "xcoff: warning: the folder of {} cannot be locked on this file system: no other xcoff may write there now",
                escape::argument(folder.named)
            )]);
            Ok(None)
        }
        Err(error) => {
            let doing = format!(
                "cannot lock the folder of {}",
                escape::argument(folder.named)
            );
            Err(Problem::system(doing, &error))
        }
    }
}

fn try_lock(file: &File, sort: Sort) -> Result<(), TryLockError> {
    loop {
        let tried = match sort {
            Sort::Write => file.try_lock(),
            Sort::Read => file.try_lock_shared(),
        };
        match tried {
            Err(TryLockError::Error(e)) if e.kind() == ErrorKind::Interrupted => {}
            other => return other,
        }
    }
}

fn wait_for(file: &File, sort: Sort) -> io::Result<()> {
    loop {
        let locked = match sort {
            Sort::Write => file.lock(),
            Sort::Read => file.lock_shared(),
        };
        match locked {
            Err(e) if e.kind() == ErrorKind::Interrupted => {}
            other => return other,
        }
    }
}

/// EBADF (NFS, of a folder), EINVAL, ENOLCK, ENOSYS, EOPNOTSUPP.
fn has_no_locks(error: &io::Error) -> bool {
    matches!(error.raw_os_error(), Some(9 | 22 | 37 | 38 | 95))
}

fn busy(folder: &Folder) -> Problem {
    Problem::System {
        doing: escape::argument(folder.named),
        reason: "another xcoff is at work in its folder; nothing is changed".to_string(),
    }
}
