//! Files that are bad, full or closed, and what stays of those that are there.

mod common;

use std::fs::{self, File, Permissions};
use std::os::unix::fs::{chown, symlink, MetadataExt, PermissionsExt};
use std::os::unix::process::CommandExt;
use std::process::Command;
use std::time::{Duration, SystemTime};

use common::{run_with, Folder, Said, PROGRAM};

#[test]
fn files_that_cannot_be_read() {
    let folder = Folder::with_sheet();
    folder.write("empty", "");
    folder.write("short", &folder.read("ward")[1..]);
    folder.write("long", [folder.read("ward"), vec![0]].concat());
    folder.write("huge", vec![0; 65 * 11_296]);
    for (arguments, what) in [
        (&["compose", "nothing", "--chars", "9"][..], "cannot read nothing: No such file"),
        (&["compose", ".", "--chars", "9"], "cannot read .: Is a directory"),
        (&["show", "nothing", "--clinic", "7", "--slot", "0"], "cannot read nothing: No such file"),
        (&["sheet", "check", "."], "cannot read .: it is no file of words"),
        (&["take", "nothing", "--clinic", "7"], "cannot write nothing: No such file"),
        (&["take", "/dev/null", "--clinic", "7"], "cannot write /dev/null: it is no file of words"),
        (&["sheet", "check", "empty"], "refused with 1: empty is no sheet: it has 0 bytes"),
        (&["take", "short", "--clinic", "7"], "refused with 1: short is no sheet: it has 22591 bytes"),
        (&["give", "long", "--clinic", "7", "--slot", "0"], "it has 22593 bytes"),
        (&["edit", "huge", "--at", "0", "--clinic", "7", "--slot", "0"], "it has 734240 bytes"),
        (&["compose", "/dev/zero", "--chars", "9"], "/dev/zero has more than 16 MB"),
        (&["sheet", "new", "ward", "--slot", "7:22:1"], "cannot write ward: it is there already"),
        (&["sheet", "new", "no/ward", "--slot", "7:22:1"], "cannot write no/ward: No such file"),
        (&["compose", "/dev/null", "--chars", "9", "--svg", "."], "cannot write .: "),
        (&["compose", "/dev/null", "--chars", "9", "--html", "no/x"], "cannot write no/x: No such file"),
        (
            &["compose", "/dev/null", "--chars", "9", "--svg", "new/"],
            "cannot write new/: it is a name of a folder",
        ),
        (&["sheet", "new", ".", "--slot", "7:22:1"], "cannot write .: it is there already"),
    ] {
        let said = folder.run(arguments).refused();
        assert!(said.contains(what), "{arguments:?}: {said}");
    }
    assert_eq!(folder.names(), ["empty", "huge", "long", "short", "ward"]);
}

#[test]
fn what_was_read_is_not_written_over() {
    let folder = Folder::with_sheet();
    folder.write("x.html", "頭痛");
    symlink("x.html", folder.file("link")).unwrap();
    let names = folder.names();
    for arguments in [
        &["compose", "x.html", "--chars", "9", "--html", "x.html"][..],
        &["compose", "x.html", "--chars", "9", "--svg", "x.svg", "--html", "./link"],
        &["show", "ward", "--clinic", "7", "--slot", "0", "--svg", "ward"],
    ] {
        assert!(folder.run(arguments).refused().contains("was read, and would be lost"));
        assert_eq!(folder.names(), names);
    }
    let mut redirected = common::command(&folder.path, &["compose", "-", "--chars", "9", "--html", "x.html"]);
    let said: Said = redirected.stdin(File::open(folder.file("x.html")).unwrap()).output().unwrap().into();
    assert!(said.refused().contains("was read, and would be lost"));
    assert_eq!(folder.read("x.html"), "頭痛".as_bytes());
}

/// Runs the program as somebody who may not do everything.
fn as_nobody(folder: &Folder, arguments: &[&str]) -> Said {
    // Its own folder may be closed to others. This program must not have it open for writing when it starts one.
    let program = folder.file("program");
    if !program.exists() {
        assert!(Command::new("cp").arg(PROGRAM).arg(&program).status().unwrap().success());
        fs::set_permissions(&program, Permissions::from_mode(0o755)).unwrap();
    }
    let mut command = Command::new(program);
    command.args(arguments).current_dir(&folder.path);
    if fs::metadata(&folder.path).unwrap().uid() == 0 {
        command.uid(65_534).gid(65_534);
    }
    run_with(command, "頭痛")
}

#[test]
fn a_folder_that_cannot_be_written_to() {
    let folder = Folder::with_sheet();
    folder.write("x.svg", "old");
    let before = folder.read("ward");
    for name in ["ward", "x.svg"] {
        fs::set_permissions(folder.file(name), Permissions::from_mode(0o666)).unwrap();
    }
    assert_eq!(as_nobody(&folder, &["--version"]).status, 0);
    let names = folder.names();
    folder.open_to(0o555);
    for (arguments, file) in [
        (&["give", "ward", "--clinic", "7", "--slot", "0"][..], "ward"),
        (&["import", "ward", "-", "--clinic", "7", "--slot", "0"], "ward"),
        (&["compose", "-", "--chars", "9", "--svg", "x.svg"], "x.svg"),
        (&["compose", "-", "--chars", "9", "--html", "y.html"], "y.html"),
        (&["sheet", "new", "z", "--slot", "7:22:1"], "z"),
    ] {
        let said = as_nobody(&folder, arguments).refused();
        assert!(
            said.contains("cannot write ") && said.contains(&format!("{file}: Permission denied")),
            "{said}"
        );
        assert!(said.contains("both it and its folder must be writable"), "{said}");
    }
    folder.open_to(0o777);
    assert_eq!((folder.read("ward"), folder.read("x.svg")), (before, b"old".to_vec()));
    assert_eq!(folder.names(), names);

    // A file that is closed to the caller is not replaced, though its folder is open.
    for (name, arguments) in [
        ("ward", &["give", "ward", "--clinic", "7", "--slot", "0"][..]),
        ("x.svg", &["compose", "-", "--chars", "9", "--svg", "x.svg"]),
    ] {
        fs::set_permissions(folder.file(name), Permissions::from_mode(0o444)).unwrap();
        let said = as_nobody(&folder, arguments).refused();
        assert!(said.contains("Permission denied"), "{said}");
    }
}

#[test]
fn a_disk_that_is_full() {
    let folder = Folder::with_sheet();
    folder.write("x.svg", "old");
    let before = folder.read("ward");
    // Files of at most one block, and the system's signal for longer ones not heeded: a write fails in the middle.
    for arguments in ["give ward --clinic 7 --slot 0", "compose - --chars 9 --svg x.svg"] {
        let limited = format!("trap '' XFSZ; ulimit -f 1; exec {PROGRAM} {arguments}");
        let mut command = Command::new("sh");
        command.args(["-c", &limited]).current_dir(&folder.path);
        let said = run_with(command, "頭痛".repeat(100)).refused();
        assert!(said.contains("cannot write") && said.contains("File too large"), "{said}");
        assert_eq!(folder.names(), ["ward", "x.svg"]);
    }
    assert_eq!((folder.read("ward"), folder.read("x.svg")), (before, b"old".to_vec()));
}

#[test]
fn links_and_permissions_stay() {
    let folder = Folder::with_sheet();
    fs::create_dir(folder.file("sub")).unwrap();
    symlink("../ward", folder.file("sub/link")).unwrap();
    fs::set_permissions(folder.file("ward"), Permissions::from_mode(0o640)).unwrap();
    let import = ["import", "sub/link", "-", "--clinic", "7", "--slot", "0"];
    folder.run_with(&import, "頭痛").accepted();
    assert_eq!(common::text(&folder.sheet("ward"), 0), "頭痛");
    assert!(fs::symlink_metadata(folder.file("sub/link")).unwrap().is_symlink());
    assert_eq!(fs::metadata(folder.file("ward")).unwrap().mode() & 0o777, 0o640);
    assert_eq!(folder.names(), ["sub", "ward"]);
    assert_eq!(fs::read_dir(folder.file("sub")).unwrap().count(), 1);

    folder.write("x.svg", "old");
    fs::set_permissions(folder.file("x.svg"), Permissions::from_mode(0o604)).unwrap();
    folder.run_with(&["compose", "-", "--chars", "9", "--svg", "x.svg"], "頭痛").accepted();
    assert_eq!(fs::metadata(folder.file("x.svg")).unwrap().mode() & 0o777, 0o604);

    // Two names for one file are noticed, and a link to nothing is no file.
    symlink("x.svg", folder.file("y.svg")).unwrap();
    symlink("nothing", folder.file("z.svg")).unwrap();
    let draw = |svg, html| {
        folder.run_with(&["compose", "-", "--chars", "9", "--svg", svg, "--html", html], "頭痛").refused()
    };
    assert!(draw("x.svg", "./x.svg").contains("is named for two pictures"));
    assert!(draw("x.svg", "y.svg").contains("is named for two pictures"));
    assert!(draw("x.svg", "z.svg").contains("it is a link to a file that is not there"));

    // No pipe or device is replaced by a file, or waited for.
    Command::new("mkfifo").arg(folder.file("pipe")).status().unwrap();
    let said = folder.run_with(&["compose", "-", "--chars", "9", "--svg", "pipe"], "頭痛").refused();
    assert!(said.contains("no file that could be replaced"), "{said}");
    for arguments in [&["sheet", "check", "pipe"][..], &["take", "pipe", "--clinic", "7"]] {
        assert!(folder.run(arguments).refused().contains("it is no file of words"));
    }
    assert_eq!(folder.names(), ["pipe", "sub", "ward", "x.svg", "y.svg", "z.svg"]);
}

#[test]
fn the_owner_stays_where_the_system_lets_it() {
    let folder = Folder::with_sheet();
    if fs::metadata(&folder.path).unwrap().uid() != 0 {
        println!("only root can give files away: owners are not tested");
        return;
    }
    chown(folder.file("ward"), Some(65_534), Some(65_533)).unwrap();
    fs::set_permissions(folder.file("ward"), Permissions::from_mode(0o660)).unwrap();
    folder.run(&["give", "ward", "--clinic", "7", "--slot", "0"]).accepted();
    let kept = fs::metadata(folder.file("ward")).unwrap();
    assert_eq!((kept.uid(), kept.gid(), kept.mode() & 0o777), (65_534, 65_533, 0o660));

    // A group that the caller may not give it: the group that it gets may do no more than others.
    chown(folder.file("ward"), Some(0), Some(0)).unwrap();
    fs::set_permissions(folder.file("ward"), Permissions::from_mode(0o676)).unwrap();
    folder.open_to(0o777);
    as_nobody(&folder, &["take", "ward", "--clinic", "9"]).accepted();
    let kept = fs::metadata(folder.file("ward")).unwrap();
    assert_eq!((kept.uid(), kept.gid(), kept.mode() & 0o777), (65_534, 65_534, 0o666));
}

#[test]
fn what_a_killed_program_left_is_swept_away() {
    let folder = Folder::with_sheet();
    folder.write(".ward.1-0.gelumbrio-new", "half a sheet");
    folder.write(".ward.2.1-0.gelumbrio-new", "that of a sheet called ward.2");
    folder.write(".ward.note", "a person's");
    folder.run(&["give", "ward", "--clinic", "7", "--slot", "0"]).accepted();
    assert_eq!(folder.names(), [".ward.2.1-0.gelumbrio-new", ".ward.note", "ward"]);

    // Beside a picture, which has no lock, a young one may be another program's.
    let folder = Folder::new();
    for (name, age) in [(".x.svg.1-0.gelumbrio-new", 3_500), (".x.svg.1-1.gelumbrio-new", 3_700)] {
        folder.write(name, "half a picture");
        let file = File::options().write(true).open(folder.file(name)).unwrap();
        file.set_modified(SystemTime::now() - Duration::from_secs(age)).unwrap();
    }
    folder.run_with(&["compose", "-", "--chars", "9", "--svg", "x.svg"], "頭痛").accepted();
    assert_eq!(folder.names(), [".x.svg.1-0.gelumbrio-new", "x.svg"]);
}

#[test]
fn long_names_are_names_too() {
    let folder = Folder::new();
    let name = "薬".repeat(80) + ".svg";
    folder.run_with(&["compose", "-", "--chars", "9", "--svg", &name], "頭痛").accepted();
    assert_eq!(folder.names(), [name]);
}
