//! Builds the proved program as a static library and links it.
//!
//! `rt lib`, run in crates/gelumbrio, proves the program and leaves the library in that crate's out/,
//! which `rt ci` clears; so a copy is kept in target/staticlib at the repository's root.
//! GELUMBRIO_STATICLIB names a library that is already built, and then `rt` is not run.

use std::env;
use std::path::{Path, PathBuf};
use std::process::Command;

const NAMED: &str = "GELUMBRIO_STATICLIB";
// Paths in the repository: the crate whose static library it is, where `rt` leaves that, and where it is kept.
const CRATE: &str = "crates/gelumbrio";
const MADE: &str = "crates/gelumbrio/out/libgelumbrio.a";
const KEPT: &str = "target/staticlib/libgelumbrio.a";
/// What a crate is made of. `rt` itself writes to the folders beside them.
const SOURCES: [&str; 3] = ["src", "specs", "proofs"];
/// In bytes.
const CACHE_LINE: u32 = 64;

fn main() {
    println!("cargo:rerun-if-changed=build.rs");
    println!("cargo:rerun-if-env-changed={NAMED}");

    let root = repository_root();
    watch(&root);
    let library = match env::var_os(NAMED) {
        Some(path) => named_library(PathBuf::from(path)),
        None => built_library(&root),
    };
    link(&library);
}

/// The folder above host/, which is the folder above this package.
fn repository_root() -> PathBuf {
    let package = PathBuf::from(env::var_os("CARGO_MANIFEST_DIR").expect("cargo sets CARGO_MANIFEST_DIR"));
    match package.ancestors().nth(2) {
        Some(root) => root.to_path_buf(),
        None => fail("This package does not stand in host/ of the repository."),
    }
}

/// Has cargo build anew where crates change.
fn watch(root: &Path) {
    println!("cargo:rerun-if-changed={}", root.join("crates.txt").display());
    let crates = root.join("crates");
    let folders = match std::fs::read_dir(&crates) {
        Ok(folders) => folders,
        Err(error) => fail(&format!("{} could not be read: {error}.", crates.display())),
    };
    for folder in folders.flatten() {
        for part in SOURCES.map(|part| folder.path().join(part)) {
            if part.is_dir() {
                println!("cargo:rerun-if-changed={}", part.display());
            }
        }
    }
}

fn named_library(path: PathBuf) -> PathBuf {
    if !path.is_file() {
        fail(&format!("{NAMED} names {}, which is not a file.", path.display()));
    }
    println!("cargo:rerun-if-changed={}", path.display());
    path
}

fn built_library(root: &Path) -> PathBuf {
    match Command::new("rt").arg("lib").current_dir(root.join(CRATE)).status() {
        Err(error) => fail(&format!("The command `rt` could not be run: {error}. Is it on the PATH?")),
        Ok(status) if !status.success() => fail(&format!(
            "`rt lib`, run in {}, ended with {status}; what it said stands above.",
            root.join(CRATE).display()
        )),
        Ok(_) => {}
    }
    let made = root.join(MADE);
    if !made.is_file() {
        fail(&format!("`rt lib` ended well but left no {}.", made.display()));
    }
    let kept = root.join(KEPT);
    if let Some(folder) = kept.parent() {
        if let Err(error) = std::fs::create_dir_all(folder) {
            fail(&format!("{} could not be made: {error}.", folder.display()));
        }
    }
    copy(&made, &kept);
    kept
}

/// Puts a copy in its place whole: a build beside this one, with a target folder of its own, never reads half of it.
fn copy(from: &Path, to: &Path) {
    let part = to.with_extension(format!("{}.part", std::process::id()));
    if let Err(error) = std::fs::copy(from, &part).and_then(|_| std::fs::rename(&part, to)) {
        let _ = std::fs::remove_file(&part);
        fail(&format!("{} could not be copied to {}: {error}.", from.display(), to.display()));
    }
}

/// Links a copy under the name that the linker looks for, whatever the file is called.
fn link(library: &Path) {
    let folder = PathBuf::from(env::var_os("OUT_DIR").expect("cargo sets OUT_DIR"));
    let linked = folder.join("libgelumbrio.a");
    copy(library, &linked);
    align(&linked);
    println!("cargo:rustc-env=GELUMBRIO_LIBRARY={}", linked.display());
    println!("cargo:rustc-link-search=native={}", folder.display());
    println!("cargo:rustc-link-lib=static=gelumbrio");
}

/// Has each function start on a cache line, whatever stands before it. A short one may otherwise lie
/// across a line more than it needs, which costs a read a tenth of its time. The library serves as
/// it is where there is no objcopy.
fn align(library: &Path) {
    let sections = format!("--set-section-alignment=.text.*={CACHE_LINE}");
    match Command::new("objcopy").arg(sections).arg(library).status() {
        Ok(status) if status.success() => {}
        _ => println!(
            "cargo:warning=objcopy could not align the library's functions; they are linked as they are"
        ),
    }
}

fn fail(what: &str) -> ! {
    panic!(
        "\n\nThere is no static library of the proved program to link with.\n{what}\n\
         The library comes from `rt lib` in {CRATE}. {NAMED} can name a libgelumbrio.a that\n\
         is already built; `rt` is not run then.\n\n"
    )
}
