//! What the tests share that come to the stage from outside, as a receiver maker does.

use std::ffi::OsString;
use std::path::{Path, PathBuf};
use std::process::Command;

/// A file of the project.
pub fn file(name: &str) -> PathBuf {
    Path::new(concat!(env!("CARGO_MANIFEST_DIR"), "/..")).join(name)
}

/// A file of these tests.
pub fn written(name: &str) -> PathBuf {
    Path::new(env!("CARGO_TARGET_TMPDIR")).join(name)
}

/// The program that the environment names, or the usual one; nothing, with a line that says so, where it is not found.
pub fn program(variable: &str, usual: &str) -> Option<OsString> {
    let name = std::env::var_os(variable).filter(|name| !name.is_empty()).unwrap_or_else(|| usual.into());
    let found = Command::new(&name).arg("--version").output().is_ok_and(|output| output.status.success());
    if !found {
        println!("not tested: no {} is found", name.to_string_lossy());
    }
    found.then_some(name)
}

/// A command that has to succeed; what it prints.
pub fn run(command: &mut Command) -> String {
    let output = command.output().unwrap_or_else(|why| panic!("{command:?}: {why}"));
    let (out, err) = (String::from_utf8_lossy(&output.stdout), String::from_utf8_lossy(&output.stderr));
    assert!(output.status.success(), "{command:?}: {}\n{out}{err}", output.status);
    out.into_owned()
}

/// What examples/README.md says that the receiver prints.
pub fn documented() -> String {
    let text = std::fs::read_to_string(file("examples/README.md")).expect("the examples' README");
    let after = text.lines().skip_while(|line| *line != "prints").skip(2);
    after.map_while(|line| line.strip_prefix("    ")).map(|line| format!("{line}\n")).collect()
}
