//! The scripts that README names: words that they do not take, which they refuse before anything is built, and an archive
//! from elsewhere, which they pass over.

mod folders;
mod programs;
mod shell;

use programs::{program, turn};
use shell::{Ran, ran};
use std::fs;
use std::path::{Path, PathBuf};
use std::process::{Command, Stdio};

/// A search path on which nothing can be built: its `rt` and `cargo` fail.
fn without_tools(name: &str) -> String {
    let folder = folders::empty(name);
    ["rt", "cargo"].iter().for_each(|name| program(&folder.join(name), "exit 1"));
    format!("{}:{}", folder.display(), std::env::var("PATH").expect("a search path"))
}

/// What a script of the project says.
fn script(name: &str, words: &[&str], path: &str) -> Ran {
    let script = Path::new(env!("CARGO_MANIFEST_DIR")).join("..").join(name);
    ran(Command::new(script).args(words).env("PATH", path).stdin(Stdio::null()))
}

#[test]
fn words_that_a_script_does_not_take_are_refused_at_once() {
    let _turn = turn();
    let lines: [(&str, &[&str]); 11] = [
        ("run", &["--sed", "7"]),
        ("run", &["--seed"]),
        ("run", &["--seed", "x"]),
        ("run", &["--seed", "7", "8"]),
        ("run", &["--seed 7"]),
        ("run", &["--seed=12345678901234567890"]),
        ("run", &[""]),
        ("test", &["quick"]),
        ("tools/archive", &[]),
        ("bench/run", &["--quick", "filters"]),
        ("bench/stack", &[]),
    ];
    let path = without_tools("scripts-refused");
    for (name, words) in lines {
        let (status, lines, error) = script(name, words, &path);
        assert_eq!((status, lines.as_str(), error.lines().count()), (Some(2), "", 1), "{name} {words:?}: {error}");
        assert!(error.contains("usage: ") && error.contains(name), "{error}");
    }
}

/// What `rt ci` ends with where all is well.
const WELL: &str =
    "rt: ok; handles allowed: none; must-fail edits: 3 refused; every proof was done in this run\n1 passed, 0 failed";

/// A project with this script in it, and tools that prove nothing: rt says what it is told to, and cargo notes which archive
/// it is to link.
fn stand_in(name: &str, said: &str) -> (PathBuf, String) {
    let folder = folders::empty(&format!("scripts-{name}"));
    fs::copy(Path::new(env!("CARGO_MANIFEST_DIR")).join("..").join(name), folder.join(name)).expect("the script");
    fs::create_dir(folder.join("tools")).expect("a folder for the tools");
    program(&folder.join("tools/archive"), "exit 0");
    program(&folder.join("tools/rt"), &format!("echo '{said}'"));
    program(&folder.join("tools/cargo"), "echo \"archive: ${STEAMGUSSET_ARCHIVE_DIR-proved here}\" >&2");
    let path = format!("{}:{}", folder.join("tools").display(), std::env::var("PATH").expect("a search path"));
    (folder.join(name), path)
}

#[test]
fn what_is_shown_and_tested_is_what_is_proved_here() {
    let _turn = turn();
    for (name, times) in [("run", 1), ("test", 3)] {
        let (script, path) = stand_in(name, WELL);
        let (_, _, said) = ran(Command::new(script).env("PATH", path).env("STEAMGUSSET_ARCHIVE_DIR", "/elsewhere"));
        let archives: Vec<&str> = said.lines().filter(|line| line.starts_with("archive: ")).collect();
        assert_eq!(archives, vec!["archive: proved here"; times], "{name}: {said}");
    }
}

#[test]
fn the_gate_counts_what_fails_and_what_could_not_be_tried() {
    let _turn = turn();
    let bad = WELL.replace("3 refused", "3 refused, 2 bad");
    let by_a_limit = WELL.replace("3 refused", "3 refused, 1 of them only by a limit, 12 bad");
    let lines = [
        (WELL, "4 passed, 0 failed"),
        (&bad, "4 passed, 2 failed"),
        (&by_a_limit, "4 passed, 12 failed"),
        ("rt: FAILED: low\n5 passed, 1 failed", "8 passed, 1 failed"),
        ("rt: the disk is full", "3 passed, 1 failed"),
        ("5 passed, 0 failed (low and the crates below alone: not the gate)", "3 passed, 1 failed"),
    ];
    for (said, closing) in lines {
        let (script, path) = stand_in("test", said);
        let (status, lines, _) = ran(Command::new(script).env("PATH", path));
        assert_eq!(
            (status, lines.lines().last()),
            (Some(i32::from(!closing.ends_with(" 0 failed"))), Some(closing)),
            "{said}"
        );
    }
}

#[test]
fn every_script_has_a_help() {
    let _turn = turn();
    let path = without_tools("scripts-help");
    for name in ["run", "test", "tools/archive", "tools/install", "bench/run", "bench/stack"] {
        for word in ["--help", "-h"] {
            let (status, lines, error) = script(name, &[word], &path);
            assert_eq!((status, error.as_str()), (Some(0), ""), "{name}");
            assert!(lines.contains("usage: ") && lines.contains(name), "{name}: {lines}");
        }
    }
}
