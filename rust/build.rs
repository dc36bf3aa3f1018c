//! Has the proved stage compiled into `libsteamgusset.a` and links it.
//!
//! `tools/archive steamgusset` proves and compiles. If the environment names a folder that holds the archive
//! (`STEAMGUSSET_ARCHIVE_DIR`), that archive is linked instead and nothing is built. Cargo runs a build script in its
//! package's folder, so every path here begins there, wherever the project lies. The crate's front page says this to
//! those who build it.

use std::path::{Path, PathBuf};
use std::process::{Command, ExitCode};
use std::{env, fs};

const ARCHIVE: &str = "libsteamgusset.a";
const FOLDER_GIVEN: &str = "STEAMGUSSET_ARCHIVE_DIR";

/// What every archive that this package can be linked with exports; those before did not.
const EXPORTED: &[u8] = b"sg_version";

/// What builds the archive, and where it leaves it.
const BUILDER: &str = "../tools/archive";
const FOLDER_BUILT: &str = "../target/staticlib";

/// What it is built from.
const CRATES: &str = "../crates";
const CRATE_LIST: &str = "../crates.txt";

fn main() -> ExitCode {
    println!("cargo::rerun-if-env-changed={FOLDER_GIVEN}");
    match archive().and_then(|archive| link(&archive)) {
        Ok(()) => ExitCode::SUCCESS,
        Err(sentence) => {
            println!("cargo::error={sentence}");
            ExitCode::FAILURE
        }
    }
}

/// The archive to link.
fn archive() -> Result<PathBuf, String> {
    match env::var_os(FOLDER_GIVEN).filter(|folder| !folder.is_empty()) {
        Some(folder) => given(Path::new(&folder)),
        None => built(),
    }
}

/// The archive of a folder. A relative path begins in the package's folder, so an error has it written out.
fn given(folder: &Path) -> Result<PathBuf, String> {
    let folder = std::path::absolute(folder).map_err(|why| format!("cannot tell where {FOLDER_GIVEN} is: {why}"))?;
    let archive = folder.join(ARCHIVE);
    watch(&archive);
    if archive.is_file() {
        Ok(archive)
    } else {
        Err(format!("{FOLDER_GIVEN} is {}, where there is no {ARCHIVE}", folder.display()))
    }
}

fn built() -> Result<PathBuf, String> {
    watch_sources()?;
    let status = Command::new(BUILDER).arg("steamgusset").status();
    let status = status.map_err(|why| format!("cannot run {BUILDER}: {why}"))?;
    if status.success() {
        Ok(Path::new(FOLDER_BUILT).join(ARCHIVE))
    } else {
        Err(format!("{BUILDER} steamgusset has built no {ARCHIVE}; {FOLDER_GIVEN} may name a folder that holds one"))
    }
}

fn link(archive: &Path) -> Result<(), String> {
    let bytes = fs::read(archive).map_err(|why| format!("cannot read {}: {why}", archive.display()))?;
    if !bytes.windows(EXPORTED.len()).any(|part| part == EXPORTED) {
        return Err(format!("{} is of another version than this package: it has no sg_version", archive.display()));
    }
    // A copy among cargo's own files, so that nothing built later can change or take away what is linked.
    let folder = env::var_os("OUT_DIR").map(PathBuf::from).ok_or("cargo names no folder to write to (OUT_DIR)")?;
    let copy = folder.join(ARCHIVE);
    fs::write(&copy, bytes).map_err(|why| format!("cannot write {}: {why}", copy.display()))?;
    println!("cargo::rustc-link-search=native={}", folder.display());
    println!("cargo::rustc-link-lib=static=steamgusset");
    // For the tests that link it from C.
    println!("cargo::rustc-env=STEAMGUSSET_ARCHIVE={}", copy.display());
    Ok(())
}

/// Everything that the archive is made of. The archive is not among it: it is newer than this run.
fn watch_sources() -> Result<(), String> {
    watch(Path::new(CRATE_LIST));
    watch(Path::new(BUILDER));
    for entry in fs::read_dir(CRATES).map_err(|why| format!("cannot read {CRATES}: {why}"))? {
        watch_crate(&entry.map_err(|why| format!("cannot read {CRATES}: {why}"))?.path());
    }
    Ok(())
}

/// The parts that are there: watching one that is not would run this script every time.
fn watch_crate(folder: &Path) {
    let parts = ["src", "specs", "proofs"].map(|part| folder.join(part));
    parts.iter().filter(|part| part.is_dir()).for_each(|part| watch(part));
}

/// Has cargo run this script again when a file, or any file in a folder, changes.
fn watch(path: &Path) {
    println!("cargo::rerun-if-changed={}", path.display());
}
