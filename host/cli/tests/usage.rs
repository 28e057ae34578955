//! Help, the version, wrong usage, and colour.

mod common;

use std::process::Command;

use common::{command, root, run, PROGRAM};

const COMMANDS: [&[&str]; 8] = [
    &["compose"],
    &["sheet", "new"],
    &["sheet", "check"],
    &["take"],
    &["give"],
    &["import"],
    &["edit"],
    &["show"],
];

#[test]
fn help_is_there_for_the_whole_and_for_each_command() {
    let whole = run(&["--help"]).accepted();
    assert_eq!(run(&["-h"]).accepted(), whole);
    assert_eq!(run(&["help"]).accepted(), whole);
    for words in COMMANDS {
        let name = format!("gelumbrio {}", words.join(" "));
        assert!(whole.contains(&name), "{name}");
        let help = run(&[words, &["--help"]].concat()).accepted();
        assert!(help.starts_with(&name) && help.contains("\nExample"), "{help}");
        assert_eq!(run(&[words, &["x", "y", "--nonsense", "-h"]].concat()).accepted(), help);
        assert_eq!(run(&[&["help"], words].concat()).accepted(), help);
        assert!(help.lines().chain(whole.lines()).all(|line| line.chars().count() < 120), "{help}");
    }
    assert!(whole.contains("\nExamples:\n"));
    let both = run(&["sheet", "--help"]).accepted();
    assert!(both.contains("sheet new FILE") && both.contains("sheet check FILE"));
    assert_eq!(run(&["help", "sheet"]).accepted(), both);
}

/// The examples of a help.
fn examples(help: &str) -> Vec<&str> {
    let examples = help.split("\nExample").nth(1).expect("examples");
    examples.lines().filter_map(|line| line.strip_prefix("  ")).collect()
}

/// The examples that help gives are commands that run, one after the other.
#[test]
fn the_examples_of_help_run() {
    let folder = common::Folder::new();
    std::fs::create_dir(folder.file("examples")).unwrap();
    for name in ["dose", "aftercare"] {
        let leaflet = std::fs::read(root().join(format!("examples/{name}.html"))).unwrap();
        folder.write(&format!("examples/{name}.html"), leaflet);
    }
    let bin = std::path::Path::new(PROGRAM).parent().unwrap();
    let path = format!("{}:{}", bin.display(), std::env::var("PATH").unwrap_or_default());
    let shell = |line: &str| {
        let mut shell = Command::new("sh");
        let ran =
            shell.args(["-c", line]).current_dir(&folder.path).env("PATH", &path).output().expect("a shell");
        assert!(ran.status.success(), "{line}: {}", String::from_utf8_lossy(&ran.stderr));
    };
    let whole = run(&["--help"]).accepted();
    examples(&whole).into_iter().for_each(shell);

    let dose = ["import", "ward.sheet", "--clinic", "7", "--slot", "0", "examples/dose.html"];
    for words in COMMANDS {
        let help = run(&[words, &["--help"]].concat()).accepted();
        for example in examples(&help) {
            // What the example needs is there: no sheet for a new one, else a slot taken, with a text.
            match words[0] {
                "sheet" if words[1] == "new" => drop(std::fs::remove_file(folder.file("ward.sheet"))),
                "give" | "import" => drop(folder.run(&["take", "ward.sheet", "--clinic", "7"])),
                "edit" | "show" => drop(folder.run(&dose).accepted()),
                _ => {}
            }
            shell(example);
        }
    }
}

#[test]
fn the_version_is_told() {
    assert_eq!(run(&["--version"]).accepted(), format!("gelumbrio {}\n", env!("CARGO_PKG_VERSION")));
}

#[test]
fn wrong_usage_has_a_status_of_its_own() {
    for (arguments, what) in [
        (&[][..], "no command is given"),
        (&["composed"], "there is no command composed"),
        (&["sheet"], "sheet new makes a sheet"),
        (&["sheet", "mend"], "sheet new makes a sheet"),
        (&["compose"], "LEAFLET is missing"),
        (&["compose", "a", "b", "--chars", "2"], "what is b for?"),
        (&["compose", "a"], "how long is a line?"),
        (&["compose", "a", "--chars", "2", "--measure", "8"], "both say how long a line is"),
        (&["compose", "a", "--chars"], "--chars needs a value"),
        (&["compose", "a", "--chars", "2", "--chars", "2"], "--chars is given twice"),
        (&["compose", "a", "--chars", "x"], "--chars x is no whole number"),
        (&["compose", "a", "--chars", "-2"], "--chars -2 is no whole number"),
        (&["compose", "a", "--chars", "4294967296"], "is no whole number"),
        (&["compose", "a", "--chars", "2", "--indent", "1.5"], "--indent 1.5 is no length"),
        (&["compose", "a", "--chars", "2", "--svg", "-"], "--svg needs a file's name"),
        (&["compose", "a", "--chars", "2", "--svg", "--marks"], "--svg needs a value"),
        (&["compose", "a", "--chars", "2", "--svg="], "--svg needs a value"),
        (&["help", "mend"], "there is no command mend"),
        (&["compose", "a", "--chars", "2", "--marks=1"], "--marks takes no value"),
        (&["compose", "a", "--chars", "2", "--colour"], "there is no option --colour"),
        (&["compose", "a", "-c", "2"], "there is no option -c"),
        (&["sheet", "new", "a"], "which slots has it?"),
        (&["sheet", "new", "a", "--slot", "7:22"], "--slot 7:22 is no slot"),
        (&["sheet", "new", "a", "--slot", "7:22:1:1"], "is no slot"),
        (&["sheet", "new", "a", "--slot", "x:22:1"], "is no slot"),
        (&["take", "a"], "--clinic is missing"),
        (&["give", "a", "--clinic", "7"], "--slot is missing"),
        (&["import", "a", "--clinic", "7", "--slot", "0"], "LEAFLET is missing"),
        (&["edit", "a", "--clinic", "7", "--slot", "0"], "--at is missing"),
        (&["show", "--clinic", "7", "--slot", "0"], "FILE is missing"),
    ] {
        let said = run(arguments).misused();
        assert!(said.contains(what) && said.contains("--help`"), "{arguments:?}: {said}");
    }
}

#[test]
fn arguments_cannot_steer_the_terminal() {
    for arguments in
        [&["compose", "a", "\u{1B}]0;t\u{7}"][..], &["\u{1B}[2J"], &["sheet", "check", "\u{1B}[2J"]]
    {
        let said = run(arguments);
        assert!(said.status != 0 && !said.err.contains('\u{1B}'), "{said:?}");
    }
}

/// What the program says on a terminal, as `script` gives it one.
fn on_a_terminal(arguments: &str, variables: &[(&str, &str)]) -> Option<String> {
    let mut script = Command::new("script");
    script.args(["-qec", &format!("{PROGRAM} {arguments}"), "/dev/null"]).current_dir(root());
    script.env_remove("NO_COLOR").env("TERM", "xterm").envs(variables.iter().copied());
    let output = script.stdin(std::process::Stdio::null()).output().ok()?;
    Some(String::from_utf8_lossy(&output.stdout).into_owned())
}

#[test]
fn there_is_colour_on_a_terminal_alone() {
    let refused = "compose examples/fault.html --chars 22";
    let arguments: Vec<&str> = refused.split(' ').collect();
    assert!(!run(&arguments).refused().contains('\u{1B}'));
    let marked = "compose examples/dose.html --chars 22 --marks";
    let Some(coloured) = on_a_terminal(refused, &[]) else {
        println!("there is no `script` here to make a terminal: colour on one is not tested");
        return;
    };
    assert!(coloured.contains("\u{1B}[1;31mrefused with 17\u{1B}[0m"), "{coloured}");
    assert!(on_a_terminal(marked, &[]).unwrap().contains("\u{1B}[2m"));
    for variables in [("NO_COLOR", "1"), ("TERM", "dumb")] {
        for arguments in [refused, marked] {
            let said = on_a_terminal(arguments, &[variables]).unwrap();
            assert!(!said.contains('\u{1B}') && !said.is_empty(), "{said}");
        }
    }
    assert!(on_a_terminal(refused, &[("NO_COLOR", "")]).unwrap().contains('\u{1B}'));
}

#[test]
fn nobody_need_read_all_that_is_said() {
    let mut full = command(&root(), &["compose", "examples/dose.html", "--chars", "22"]);
    let said = full.stdout(std::fs::File::create("/dev/full").unwrap()).output().unwrap();
    assert_eq!(said.status.code(), Some(1));
    assert!(String::from_utf8_lossy(&said.stderr).contains("cannot write standard output: No space left"));

    // What is done is done, and is said.
    let folder = common::Folder::with_sheet();
    let mut full = command(&folder.path, &["take", "ward", "--clinic", "9"]);
    let said = full.stdout(std::fs::File::create("/dev/full").unwrap()).output().unwrap();
    assert_eq!(said.status.code(), Some(1));
    assert!(String::from_utf8_lossy(&said.stderr).contains("The sheet is changed all the same: slot 1\n"));

    // A pipe that nobody reads from is no failure.
    let (reader, writer) = std::io::pipe().unwrap();
    drop(reader);
    let mut unread = command(&root(), &["compose", "examples/dose.html", "--chars", "22"]);
    let said = unread.stdout(writer).output().unwrap();
    assert_eq!((said.status.code(), said.stderr.as_slice()), (Some(0), &b""[..]));
}
