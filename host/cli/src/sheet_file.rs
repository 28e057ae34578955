//! A sheet in a file: its words, little-endian, and nothing else.
//!
//! A program that changes a sheet holds a lock on the sheet's own file. As that file is renamed over by whoever has
//! changed it, a program that gets the lock looks whether its file still is the sheet's, and else begins again. One
//! that only reads needs no lock: the file that it opened is never written to.

use std::fs::{self, File, OpenOptions};
use std::io::{self, Read};
use std::path::{Path, PathBuf};

use gelumbrio::layout::SLOT_WORDS;
use gelumbrio::limits::MAX_SLOTS;
use gelumbrio::Sheet;

use crate::failure::Failure;
use crate::files::{identity, there_already, Staged};

/// A slot's bytes.
const SLOT_BYTES: usize = SLOT_WORDS * size_of::<u32>();

/// A sheet's file that this program alone may change.
#[derive(Debug)]
pub struct LockedSheet {
    /// What it was called.
    named: PathBuf,
    /// Where it is.
    path: PathBuf,
    /// The lock is given up where the file is closed.
    file: File,
}

/// Writes a new sheet to a file that is not there yet.
pub fn create(path: &Path, sheet: &Sheet) -> Result<(), Failure> {
    // The link asks it again; so early it is told of files too that could not be replaced.
    if fs::symlink_metadata(path).is_ok() {
        return Err(Failure::writing(path.display(), &there_already()));
    }
    Staged::new(path, &bytes(sheet))?.put_in_free_place()
}

/// Reads a sheet.
pub fn read(path: &Path) -> Result<Sheet, Failure> {
    let opened = ordinary(path).and_then(|()| File::open(path));
    let file = opened.map_err(|error| Failure::reading(path.display(), &error))?;
    sheet_in(&file, path)
}

impl LockedSheet {
    /// Waits until no other program is changing the sheet.
    pub fn open(path: &Path) -> Result<LockedSheet, Failure> {
        LockedSheet::lock(path).map_err(|error| Failure::writing(path.display(), &error))
    }

    fn lock(named: &Path) -> io::Result<LockedSheet> {
        let path = fs::canonicalize(named)?;
        loop {
            ordinary(&path)?;
            let file = OpenOptions::new().read(true).write(true).open(&path)?;
            file.lock()?;
            let locked = LockedSheet { named: named.to_path_buf(), path: path.clone(), file };
            if locked.is_named()? {
                return Ok(locked);
            }
        }
    }

    /// Whether the locked file still is the one that has the sheet's name.
    fn is_named(&self) -> io::Result<bool> {
        Ok(identity(&self.file.metadata()?) == identity(&fs::metadata(&self.path)?))
    }

    /// The sheet as it is.
    pub fn read(&self) -> Result<Sheet, Failure> {
        sheet_in(&self.file, &self.named)
    }

    /// Puts a changed sheet in its place, and lets others go on.
    pub fn replace(self, sheet: &Sheet) -> Result<(), Failure> {
        let staged = Staged::alone(&self.path, &bytes(sheet))?;
        // Programs keep to the lock, but people move files.
        match self.is_named() {
            Ok(true) => staged.put_in_place(),
            _ => Err(Failure::plain(format!("{} was moved away meanwhile", self.named.display()))
                .advising("Nothing is changed: try again.")),
        }
    }
}

/// Refuses a folder, a device or a pipe, which one would wait for.
fn ordinary(path: &Path) -> io::Result<()> {
    match fs::metadata(path)?.is_file() {
        true => Ok(()),
        false => Err(io::Error::other("it is no file of words")),
    }
}

fn sheet_in(file: &File, path: &Path) -> Result<Sheet, Failure> {
    let mut bytes = Vec::new();
    let longest = MAX_SLOTS * SLOT_BYTES;
    let limited = file.take(longest as u64 + 1).read_to_end(&mut bytes);
    limited.map_err(|error| Failure::reading(path.display(), &error))?;
    if bytes.is_empty() || !bytes.len().is_multiple_of(SLOT_BYTES) || bytes.len() > longest {
        let length = file.metadata().map_or(bytes.len() as u64, |metadata| metadata.len());
        return Err(no_sheet(path, length));
    }
    let (words, _) = bytes.as_chunks::<4>();
    let sheet = Sheet::from_words(words.iter().map(|&word| u32::from_le_bytes(word)).collect());
    sheet.map_err(|_refusal| no_sheet(path, bytes.len() as u64))
}

fn no_sheet(path: &Path, length: u64) -> Failure {
    Failure::numbered(1, format!("{} is no sheet: it has {length} bytes", path.display()))
        .advising(format!("A sheet's file has {SLOT_BYTES} bytes for each of its 1 to {MAX_SLOTS} slots."))
        .advising("`gelumbrio sheet new` makes one.")
}

fn bytes(sheet: &Sheet) -> Vec<u8> {
    sheet.words().iter().flat_map(|word| word.to_le_bytes()).collect()
}
