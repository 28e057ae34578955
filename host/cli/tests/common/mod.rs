//! The program run, and folders for its files.

// Each test file uses a part of these.
#![allow(dead_code)]

use std::ffi::OsStr;
use std::fs::{self, Permissions};
use std::io::{ErrorKind, Write};
use std::os::unix::fs::PermissionsExt;
use std::path::{Path, PathBuf};
use std::process::{Command, Output, Stdio};
use std::sync::atomic::{AtomicUsize, Ordering};

use gelumbrio::{Clinic, Sheet, SlotNumber};

/// The real program.
pub const PROGRAM: &str = env!("CARGO_BIN_EXE_gelumbrio");

/// What the program has said.
#[derive(Debug, PartialEq, Eq)]
pub struct Said {
    pub status: i32,
    pub out: String,
    pub err: String,
}

impl From<Output> for Said {
    fn from(output: Output) -> Said {
        Said {
            status: output.status.code().expect("it ended by itself"),
            out: String::from_utf8(output.stdout).expect("text"),
            err: String::from_utf8(output.stderr).expect("text"),
        }
    }
}

impl Said {
    /// What an accepted call says, and nothing besides.
    #[track_caller]
    pub fn accepted(self) -> String {
        assert_eq!((self.status, self.err.as_str()), (0, ""), "{self:?}");
        self.out
    }

    /// What a refusal says.
    #[track_caller]
    pub fn refused(self) -> String {
        assert_eq!((self.status, self.out.as_str()), (1, ""), "{self:?}");
        self.err
    }

    /// What is said to wrong usage.
    #[track_caller]
    pub fn misused(self) -> String {
        assert_eq!((self.status, self.out.as_str()), (2, ""), "{self:?}");
        assert!(self.err.starts_with("gelumbrio: wrong usage: "), "{self:?}");
        self.err
    }
}

/// The repository's root.
pub fn root() -> PathBuf {
    let package = Path::new(env!("CARGO_MANIFEST_DIR"));
    package.ancestors().nth(2).expect("the package stands in host/ of the repository").to_path_buf()
}

/// The program, to be run in a folder.
pub fn command(folder: &Path, arguments: &[&str]) -> Command {
    let mut command = Command::new(PROGRAM);
    command.args(arguments).current_dir(folder).env_remove("NO_COLOR").stdin(Stdio::null());
    command
}

/// Runs the program at the repository's root.
pub fn run(arguments: &[&str]) -> Said {
    command(&root(), arguments).output().expect("the program runs").into()
}

/// Runs a command, with this on its standard input.
pub fn run_with(mut command: Command, input: impl AsRef<[u8]>) -> Said {
    command.stdin(Stdio::piped()).stdout(Stdio::piped()).stderr(Stdio::piped());
    let mut running = command.spawn().expect("the program runs");
    // A program that refuses its arguments does not read on.
    let _ = running.stdin.take().expect("a pipe").write_all(input.as_ref());
    running.wait_with_output().expect("the program ends").into()
}

/// A folder of a test's own, removed after it.
pub struct Folder {
    pub path: PathBuf,
}

impl Folder {
    /// Open to everybody, whatever the tests' own rights are.
    pub fn new() -> Folder {
        static COUNT: AtomicUsize = AtomicUsize::new(0);
        loop {
            let number = COUNT.fetch_add(1, Ordering::Relaxed);
            let name = format!("gelumbrio-test-{}-{number}", std::process::id());
            let folder = Folder { path: std::env::temp_dir().join(name) };
            match fs::create_dir(&folder.path) {
                Ok(()) => {
                    folder.open_to(0o755);
                    return folder;
                }
                // Left by tests that were killed.
                Err(error) if error.kind() == ErrorKind::AlreadyExists => std::mem::forget(folder),
                Err(error) => panic!("{}: {error}", folder.path.display()),
            }
        }
    }

    /// Sets who may read and write in it.
    pub fn open_to(&self, mode: u32) {
        fs::set_permissions(&self.path, Permissions::from_mode(mode)).expect("the folder is ours");
    }

    /// With a sheet of two slots, that of clinic 7 taken: 22 characters a line, an indent of 1.
    pub fn with_sheet() -> Folder {
        let folder = Folder::new();
        folder.run(&["sheet", "new", "ward", "--slot", "7:22:1", "--slot", "9:30:0"]).accepted();
        folder.run(&["take", "ward", "--clinic", "7"]).accepted();
        folder
    }

    /// Runs the program in the folder.
    pub fn run(&self, arguments: &[&str]) -> Said {
        command(&self.path, arguments).output().expect("the program runs").into()
    }

    /// Runs the program in the folder, with this on its standard input.
    pub fn run_with(&self, arguments: &[&str], input: impl AsRef<[u8]>) -> Said {
        run_with(command(&self.path, arguments), input)
    }

    pub fn write(&self, name: &str, content: impl AsRef<[u8]>) {
        fs::write(self.path.join(name), content).expect("the file is written");
    }

    pub fn read(&self, name: &str) -> Vec<u8> {
        fs::read(self.path.join(name)).expect("the file is read")
    }

    /// The names of its files, in order.
    pub fn names(&self) -> Vec<String> {
        let entries = fs::read_dir(&self.path).expect("the folder is read");
        let mut names: Vec<String> = entries
            .map(|entry| entry.expect("an entry").file_name().to_string_lossy().into_owned())
            .collect();
        names.sort();
        names
    }

    /// A sheet's words.
    pub fn sheet(&self, name: &str) -> Sheet {
        let bytes = self.read(name);
        let (words, rest) = bytes.as_chunks::<4>();
        assert!(rest.is_empty());
        Sheet::from_words(words.iter().map(|&word| u32::from_le_bytes(word)).collect()).expect("a sheet")
    }

    /// Stores a sheet's words.
    pub fn store(&self, name: &str, sheet: &Sheet) {
        self.write(name, sheet.words().iter().flat_map(|word| word.to_le_bytes()).collect::<Vec<u8>>());
    }

    pub fn file(&self, name: impl AsRef<OsStr>) -> PathBuf {
        self.path.join(Path::new(name.as_ref()))
    }
}

impl Drop for Folder {
    fn drop(&mut self) {
        let _ = fs::set_permissions(&self.path, Permissions::from_mode(0o755));
        let _ = fs::remove_dir_all(&self.path);
    }
}

/// The characters that a slot holds.
pub fn text(sheet: &Sheet, slot: u32) -> String {
    let slot = sheet.slot(SlotNumber(slot)).expect("a slot of the sheet");
    slot.records().filter_map(|record| record.character()).collect()
}

/// A sheet as `Folder::with_sheet` makes it, by the library.
pub fn ward() -> Sheet {
    let mut sheet = Sheet::new(2).unwrap();
    sheet.set_up_words(&[7, 9], &[1760, 2400], &[80, 0]).unwrap();
    assert_eq!(sheet.take(Clinic(7)), Ok(SlotNumber(0)));
    sheet
}
