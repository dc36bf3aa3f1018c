//! `tools/install` as a user runs it: what it puts where, a receiver built from there by pkg-config, and what it refuses.

mod outside;

use outside::{documented, file, program, run, written};
use std::path::{Path, PathBuf};
use std::process::{Command, Output};

/// The header's version and the package's are held equal elsewhere.
const VERSION: &str = concat!(env!("CARGO_PKG_VERSION_MAJOR"), ".", env!("CARGO_PKG_VERSION_MINOR"));

const INSTALLED: [&str; 4] =
    ["bin/steamgusset", "include/steamgusset.h", "lib/libsteamgusset.a", "lib/pkgconfig/steamgusset.pc"];

/// The tool, which installs the archive that this package links: so nothing is proved here.
fn tool() -> Command {
    let mut command = Command::new(file("tools/install"));
    let archive = Path::new(env!("STEAMGUSSET_ARCHIVE")).parent().expect("the folder of the archive");
    command.env("STEAMGUSSET_ARCHIVE_DIR", archive).env_remove("DESTDIR");
    command
}

/// A folder of these tests that is not there yet.
fn fresh(name: &str) -> PathBuf {
    let folder = written(name);
    if folder.exists() {
        std::fs::remove_dir_all(&folder).expect("the folder of an earlier run, removed");
    }
    folder
}

/// Every file in a folder and below it, by its path from there.
fn files(folder: &Path) -> Vec<String> {
    let entries = std::fs::read_dir(folder).expect("a folder").map(|entry| entry.expect("an entry").path());
    let below = entries.flat_map(|path| {
        let name = path.file_name().expect("a name").to_string_lossy().into_owned();
        let inside = if path.is_dir() { files(&path) } else { return vec![name] };
        inside.iter().map(|file| format!("{name}/{file}")).collect()
    });
    let mut files: Vec<String> = below.collect();
    files.sort();
    files
}

/// What pkg-config says of the stage as installed there, in words.
fn said(pkg_config: &Path, prefix: &Path, questions: &[&str]) -> Vec<String> {
    let mut command = Command::new(pkg_config);
    command.env("PKG_CONFIG_PATH", prefix.join("lib/pkgconfig")).args(questions).arg("steamgusset");
    run(&mut command).split_whitespace().map(String::from).collect()
}

#[test]
fn a_receiver_is_built_from_what_is_installed() {
    let prefix = fresh("installed");
    run(tool().arg(&prefix));
    assert_eq!(files(&prefix), INSTALLED);
    for (installed, source) in [(INSTALLED[1], file(INSTALLED[1])), (INSTALLED[2], env!("STEAMGUSSET_ARCHIVE").into())]
    {
        assert!(std::fs::read(prefix.join(installed)).ok() == std::fs::read(source).ok(), "{installed}");
    }
    let version = run(Command::new(prefix.join("bin/steamgusset")).arg("--version"));
    assert!(version.starts_with(&format!("steamgusset {VERSION}")), "{version}");

    let (Some(pkg_config), Some(compiler)) = (program("PKG_CONFIG", "pkg-config"), program("CC", "cc")) else { return };
    let said = |questions| said(Path::new(&pkg_config), &prefix, questions);
    assert_eq!(said(&["--modversion"]), [VERSION]);
    let receiver = written("receiver-installed");
    let words = said(&["--cflags", "--libs"]);
    run(Command::new(&compiler).arg("-o").arg(&receiver).arg(file("examples/receiver.c")).args(words));
    assert_eq!(run(&mut Command::new(&receiver)), documented());
}

#[test]
fn a_package_is_staged_for_another_place() {
    let staged = fresh("staged");
    run(tool().env("DESTDIR", &staged).arg("/usr/./local/"));
    assert_eq!(files(&staged), INSTALLED.map(|file| format!("usr/local/{file}")));
    let described = std::fs::read_to_string(staged.join("usr/local/lib/pkgconfig/steamgusset.pc")).expect("the file");
    assert_eq!(described.lines().next(), Some("prefix=/usr/local"));
}

/// Its status, and what it prints where errors are told.
fn told(output: &Output) -> (Option<i32>, String) {
    (output.status.code(), String::from_utf8_lossy(&output.stderr).into_owned())
}

#[test]
fn what_cannot_be_installed_is_told_in_a_sentence() {
    let usage = "usage: tools/install PREFIX\n";
    for words in [&[][..], &[""], &["--prefix=here"], &["here", "there"]] {
        assert_eq!(told(&tool().args(words).output().expect("the tool, run")), (Some(2), usage.into()), "{words:?}");
    }
    let blank = "tools/install: a blank, a quote, \\, $ or # is in /a b, which a .pc file cannot hold\n";
    assert_eq!(told(&tool().arg("/a b").output().expect("the tool, run")), (Some(2), blank.into()));

    let none = fresh("no-archive");
    let missing = tool().arg(&none).env("STEAMGUSSET_ARCHIVE_DIR", "/nowhere").output().expect("the tool, run");
    let sentence = "tools/install: there is no /nowhere/libsteamgusset.a, and nothing is installed\n";
    assert_eq!((told(&missing), none.exists()), ((Some(1), sentence.into()), false));

    let folder = fresh("a-folder-in-the-way");
    std::fs::create_dir_all(folder.join("bin/steamgusset")).expect("a folder in the way");
    let sentence =
        format!("tools/install: {}/bin/steamgusset is a folder, and nothing is installed\n", folder.display());
    assert_eq!(told(&tool().arg(&folder).output().expect("the tool, run")), (Some(1), sentence));
    assert!(files(&folder).is_empty());

    let occupied = "tools/install: the folder /dev/null/include cannot be made, and nothing is installed\n";
    assert_eq!(told(&tool().arg("/dev/null").output().expect("the tool, run")), (Some(1), occupied.into()));
}
