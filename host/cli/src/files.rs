//! Files that are replaced whole or not at all.
//!
//! A file's new content is written beside it, synced and renamed over it, so a program that is killed leaves the old
//! file or the new one.

use std::ffi::{OsStr, OsString};
use std::fs::{self, File, Metadata, OpenOptions, Permissions};
use std::io::{self, ErrorKind, Write};
use std::os::unix::ffi::OsStrExt;
use std::os::unix::fs::{fchown, MetadataExt, OpenOptionsExt, PermissionsExt};
use std::path::{Path, PathBuf};
use std::process;
use std::time::{Duration, SystemTime};

use crate::failure::Failure;

/// How the name of a file ends that is not in place yet.
const ENDING: &str = ".gelumbrio-new";

/// How long what a killed program has left beside a picture stays there. No program needs as long to write one.
const AN_HOUR: Duration = Duration::from_secs(3_600);

/// A file that is written and not yet in place. It is removed again unless it is put there.
#[derive(Debug)]
pub struct Staged {
    /// What the file was called that it is for.
    named: PathBuf,
    /// Where that is.
    target: PathBuf,
    /// Where it was written.
    written: PathBuf,
    /// Whether it is still there.
    is_there: bool,
}

impl Staged {
    /// Writes what is to stand at this path, in a file beside it.
    pub fn new(path: &Path, content: &[u8]) -> Result<Staged, Failure> {
        Staged::write(path, content, AN_HOUR).map_err(|error| Failure::writing(path.display(), &error))
    }

    /// The same, where no other program may be writing there meanwhile.
    pub fn alone(path: &Path, content: &[u8]) -> Result<Staged, Failure> {
        Staged::write(path, content, Duration::ZERO).map_err(|error| Failure::writing(path.display(), &error))
    }

    /// What killed programs have left there at least so long ago is removed.
    fn write(path: &Path, content: &[u8], age: Duration) -> io::Result<Staged> {
        let target = target(path)?;
        let old = fs::metadata(&target).ok();
        if let Some(old) = &old {
            if !old.is_file() {
                return Err(io::Error::other("it is there, and is no file that could be replaced"));
            }
            // Who may not write the file does not replace it either.
            OpenOptions::new().write(true).open(&target)?;
        }
        sweep(&target, age);
        // Nobody may read it meanwhile who may not read the file that it replaces.
        let mode = if old.is_some() { 0o600 } else { 0o666 };
        let (staged, mut file) = Staged::beside(path, target, mode)?;
        file.write_all(content)?;
        if let Some(old) = old {
            keep_access(&file, &old)?;
        }
        file.sync_all()?;
        Ok(staged)
    }

    /// A new file beside another, under a name that nobody else has: programs of two machines, or of two containers of
    /// one, may have the same number.
    fn beside(named: &Path, target: PathBuf, mode: u32) -> io::Result<(Staged, File)> {
        let now = SystemTime::now().duration_since(SystemTime::UNIX_EPOCH).unwrap_or_default();
        for attempt in now.as_nanos().. {
            let mut name = beginning(&target)?;
            name.push(format!("{}-{attempt}{ENDING}", process::id()));
            let written = folder(&target).join(name);
            match OpenOptions::new().write(true).create_new(true).mode(mode).open(&written) {
                Err(error) if error.kind() == ErrorKind::AlreadyExists => {}
                Err(error) => return Err(error),
                Ok(file) => {
                    let named = named.to_path_buf();
                    return Ok((Staged { named, target, written, is_there: true }, file));
                }
            }
        }
        unreachable!("there are more names than files")
    }

    /// The file whose place it takes.
    pub fn target(&self) -> &Path {
        &self.target
    }

    /// Puts the file in its place, over the one that is there.
    pub fn put_in_place(mut self) -> Result<(), Failure> {
        self.rename().map_err(|error| self.failure(&error))
    }

    fn rename(&mut self) -> io::Result<()> {
        fs::rename(&self.written, &self.target)?;
        // The name may be another program's by now.
        self.is_there = false;
        settle(&self.target);
        Ok(())
    }

    /// Puts the file in its place, unless there is one: renaming would replace it, and a link never does.
    pub fn put_in_free_place(mut self) -> Result<(), Failure> {
        match self.link() {
            // Whatever else went wrong, it would not have been put there.
            Err(_) if fs::symlink_metadata(&self.target).is_ok() => Err(self.failure(&there_already())),
            linked => linked.map_err(|error| self.failure(&error)),
        }
    }

    fn link(&mut self) -> io::Result<()> {
        match fs::hard_link(&self.written, &self.target) {
            // Some disks and shares have no links. There an empty file keeps the place until the file is renamed.
            Err(error) if matches!(error.kind(), ErrorKind::Unsupported | ErrorKind::PermissionDenied) => {
                OpenOptions::new().write(true).create_new(true).open(&self.target)?;
                self.rename().inspect_err(|_error| drop(fs::remove_file(&self.target)))
            }
            Err(error) => Err(error),
            Ok(()) => {
                self.remove();
                settle(&self.target);
                Ok(())
            }
        }
    }

    /// Takes away the name under which it was written, if it still has it.
    fn remove(&mut self) {
        if self.is_there {
            let _ = fs::remove_file(&self.written);
            self.is_there = false;
        }
    }

    fn failure(&self, error: &io::Error) -> Failure {
        Failure::writing(self.named.display(), error)
    }
}

impl Drop for Staged {
    fn drop(&mut self) {
        self.remove();
    }
}

/// The file that a path names, links followed, so that a link to it stays one.
fn target(path: &Path) -> io::Result<PathBuf> {
    if path.as_os_str().as_encoded_bytes().ends_with(b"/") {
        return Err(io::Error::other("it is a name of a folder"));
    }
    match fs::canonicalize(path) {
        Err(error) if error.kind() == ErrorKind::NotFound => {
            if fs::symlink_metadata(path).is_ok() {
                return Err(io::Error::other("it is a link to a file that is not there"));
            }
            let name = path.file_name().ok_or(error)?;
            Ok(fs::canonicalize(folder(path))?.join(name))
        }
        found => found,
    }
}

/// Removes what killed programs have left beside a file at least so long ago, as far as that can be done. What may be
/// a running program's must be younger.
fn sweep(target: &Path, age: Duration) {
    let (Ok(beginning), Ok(entries)) = (beginning(target), fs::read_dir(folder(target))) else { return };
    for entry in entries.flatten() {
        let is_old = || Some(entry.metadata().ok()?.modified().ok()?.elapsed().ok()? >= age);
        let is_left = is_left(entry.file_name().as_encoded_bytes(), beginning.as_encoded_bytes());
        if is_left && (age.is_zero() || is_old() == Some(true)) {
            let _ = fs::remove_file(entry.path());
        }
    }
}

/// Whether a name is one that [`Staged`] gives beside a file: of `ward`, and not of `ward.2`.
fn is_left(name: &[u8], beginning: &[u8]) -> bool {
    let numbers = name.strip_prefix(beginning).and_then(|rest| rest.strip_suffix(ENDING.as_bytes()));
    let is_number = |part: &[u8]| !part.is_empty() && part.iter().all(u8::is_ascii_digit);
    numbers.is_some_and(|numbers| {
        let parts: Vec<&[u8]> = numbers.split(|&byte| byte == b'-').collect();
        parts.len() == 2 && parts.into_iter().all(is_number)
    })
}

/// How the names of files beside this one begin.
fn beginning(target: &Path) -> io::Result<OsString> {
    let name = target.file_name().ok_or_else(|| io::Error::other("it has no name of a file"))?;
    // A system's longest name has 255 bytes, and what follows needs some.
    let name = OsStr::from_bytes(&name.as_bytes()[..name.len().min(180)]);
    Ok([OsStr::new("."), name, OsStr::new(".")].into_iter().collect())
}

fn folder(path: &Path) -> &Path {
    match path.parent() {
        Some(folder) if folder != Path::new("") => folder,
        _ => Path::new("."),
    }
}

/// Lets the same people read and write a new file as an old one. Where the system does not let its group be kept, the
/// group that it has may do no more than others may.
fn keep_access(file: &File, old: &Metadata) -> io::Result<()> {
    let is_kept =
        fchown(file, Some(old.uid()), Some(old.gid())).is_ok() || fchown(file, None, Some(old.gid())).is_ok();
    let mode = old.mode() & 0o777;
    let mode = if is_kept { mode } else { mode & !0o070 | mode & (mode << 3) & 0o070 };
    file.set_permissions(Permissions::from_mode(mode))
}

/// Why a new file is not written.
pub fn there_already() -> io::Error {
    io::Error::new(ErrorKind::AlreadyExists, "it is there already")
}

/// Which file something is of, whatever the file is called: its disk and its number there.
pub type Identity = (u64, u64);

/// Which file this is of.
pub fn identity(metadata: &Metadata) -> Identity {
    (metadata.dev(), metadata.ino())
}

/// Makes a new name last through a power failure. Where a system cannot, the old name's file or the new one's is there
/// all the same.
fn settle(path: &Path) {
    if let Ok(folder) = File::open(folder(path)) {
        let _ = folder.sync_all();
    }
}

#[cfg(test)]
mod tests {
    use super::*;

    #[test]
    fn only_what_was_left_beside_a_file_is_swept_away() {
        let beginning = beginning(Path::new("/clinic/ward")).unwrap();
        let is_left = |name: &str| is_left(name.as_bytes(), beginning.as_encoded_bytes());
        assert!(is_left(".ward.4711-0.gelumbrio-new"));
        for other in [
            "ward",
            ".ward.gelumbrio-new",
            ".ward.4711.gelumbrio-new",
            ".ward.-0.gelumbrio-new",
            ".ward.2.4711-0.gelumbrio-new",
            ".ward.1-2.4711-0.gelumbrio-new",
            ".ward.4711-0.gelumbrio-new.old",
            ".wards.4711-0.gelumbrio-new",
        ] {
            assert!(!is_left(other), "{other}");
        }
    }
}
