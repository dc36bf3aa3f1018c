//! Building the package: what the build script says where the archive that it is to link is not there, or is of another
//! version, and that the front page names what the script reads.

mod folders;

use std::fs;
use std::path::Path;
use std::process::Command;

const FRONT_PAGE: &str = include_str!("../src/lib.rs");
const SCRIPT: &str = include_str!("../build.rs");

/// What cargo says when it is to build with the archive of a folder that is given so, among files in another.
fn refused(given: &Path, target: &Path) -> String {
    let mut cargo = Command::new(env!("CARGO"));
    cargo.args(["check", "--lib", "--quiet", "--color=never", "--offline", "--locked", "--manifest-path"]);
    cargo.arg(Path::new(env!("CARGO_MANIFEST_DIR")).join("Cargo.toml"));
    cargo.arg("--target-dir").arg(target.join("target")).env("STEAMGUSSET_ARCHIVE_DIR", given);
    let output = cargo.output().expect("cargo runs");
    assert!(!output.status.success(), "the package is built without its archive");
    String::from_utf8_lossy(&output.stderr).into()
}

/// The sentence stands in a line of its own.
fn assert_says(said: &str, sentence: &str) {
    let line = format!("error: steamgusset@{}: {sentence}", env!("CARGO_PKG_VERSION"));
    assert!(said.lines().any(|said| said == line), "no line {line:?} in\n{said}");
}

#[test]
fn a_folder_without_an_archive_is_named() {
    let folder = folders::empty("building-without-archive");
    let sentence = format!("STEAMGUSSET_ARCHIVE_DIR is {}, where there is no libsteamgusset.a", folder.display());
    assert_says(&refused(&folder, &folder), &sentence);
}

#[test]
fn an_archive_from_before_this_version_is_named() {
    let folder = folders::empty("building-earlier-archive");
    let archive = folder.join("libsteamgusset.a");
    fs::write(&archive, "!<arch>\nsg_open\n").unwrap_or_else(|why| panic!("{}: {why}", archive.display()));
    let sentence = format!("{} is of another version than this package: it has no sg_version", archive.display());
    assert_says(&refused(&folder, &folder), &sentence);
}

#[test]
fn a_relative_folder_begins_in_the_package() {
    let folder = Path::new(env!("CARGO_MANIFEST_DIR")).join("no/such");
    let sentence = format!("STEAMGUSSET_ARCHIVE_DIR is {}, where there is no libsteamgusset.a", folder.display());
    assert_says(&refused(Path::new("no/such"), &folders::empty("building-relative")), &sentence);
}

/// The names in capitals that a text has between quotes.
fn variables(text: &str) -> Vec<&str> {
    let quoted = text.split('"').skip(1).step_by(2);
    quoted
        .filter(|name| name.contains('_') && name.chars().all(|letter| letter == '_' || letter.is_uppercase()))
        .collect()
}

#[test]
fn the_front_page_names_the_variables_that_the_script_reads() {
    assert_eq!(variables(SCRIPT), ["STEAMGUSSET_ARCHIVE_DIR", "OUT_DIR"]);
    for name in variables(SCRIPT) {
        assert!(FRONT_PAGE.contains(&format!("`{name}`")), "{name}");
    }
}
