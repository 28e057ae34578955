//! The README's snippets, each built by the README's own lines as a program of somebody else's, and run.

use std::fs;
use std::path::{Path, PathBuf};
use std::process::Command;

/// The repository.
fn root() -> PathBuf {
    let package = Path::new(env!("CARGO_MANIFEST_DIR"));
    package.ancestors().nth(2).expect("the package stands in host/ of the repository").to_path_buf()
}

fn readme() -> String {
    fs::read_to_string(root().join("README.md")).expect("the README")
}

/// The first block of this language in a Markdown text.
fn block<'a>(text: &'a str, language: &str) -> &'a str {
    let start = text.find(&format!("```{language}\n")).expect("a block of the language") + language.len() + 4;
    let length = text[start..].find("```").expect("the block's end");
    &text[start..start + length]
}

/// An empty folder of this name.
fn folder(name: &str) -> PathBuf {
    let folder = Path::new(env!("CARGO_TARGET_TMPDIR")).join(name);
    let _ = fs::remove_dir_all(&folder);
    fs::create_dir_all(&folder).expect("a folder is made");
    folder
}

/// Copies a file into a new folder. A link would be left below the repository, where `rt ci` refuses any.
fn copy(from: &Path, to: &Path) {
    fs::create_dir_all(to.parent().expect("a folder")).expect("a folder is made");
    fs::copy(from, to).expect("the file is copied");
}

#[test]
fn the_c_snippet_compiles_and_runs() {
    let readme = readme();
    let folder = folder("c");
    copy(&root().join("include/gelumbrio.h"), &folder.join("include/gelumbrio.h"));
    copy(Path::new(env!("GELUMBRIO_LIBRARY")), &folder.join("target/staticlib/libgelumbrio.a"));
    fs::write(folder.join("program.c"), block(&readme, "c")).expect("the snippet is written");

    let line = readme.lines().find_map(|line| line.strip_prefix("cc ")).expect("the line that compiles it");
    let compiled = Command::new("cc")
        .args(line.split_whitespace())
        .args(["-pedantic", "-Wall", "-Wextra", "-Werror"])
        .current_dir(&folder)
        .status()
        .expect("a C compiler, `cc`, is on the PATH");
    assert!(compiled.success());

    let ran = Command::new(folder.join("program")).output().expect("the program runs");
    assert!(ran.status.success(), "{}", ran.status);
    let wrote = String::from_utf8(ran.stdout).expect("text");
    let expected = [
        "answer 0, slot 1",
        "answer 0, 2 lines, 2 of them composed anew",
        "answer 0, the first line ends at 440",
        "another clinic: 3",
        "given back: 0",
    ];
    assert_eq!(wrote.lines().collect::<Vec<_>>(), expected);
}

/// It is a doc-test too; here it is a program that depends on the crate.
#[test]
fn the_rust_snippet_builds_by_its_dependency() {
    let readme = readme();
    let folder = folder("rust");
    fs::create_dir_all(folder.join("src")).expect("a folder is made");
    fs::write(folder.join("src/main.rs"), block(&readme, "rust")).expect("the snippet is written");
    let (beside, here) = ("\"../gelumbrio/", format!("\"{}/", root().display()));
    assert!(block(&readme, "toml").contains(beside));
    let dependencies = block(&readme, "toml").replace(beside, &here);
    // The folder is inside another workspace.
    let package = "[package]\nname = \"program\"\nedition = \"2021\"\n\n[workspace]\n";
    fs::write(folder.join("Cargo.toml"), format!("{package}\n{dependencies}")).expect("it is written");

    let ran = Command::new(env!("CARGO"))
        .args(["run", "--offline", "--quiet"])
        .current_dir(&folder)
        .env("GELUMBRIO_STATICLIB", env!("GELUMBRIO_LIBRARY"))
        .env("CARGO_TARGET_DIR", folder.join("target"))
        .status()
        .expect("cargo runs");
    assert!(ran.success());
}
