//! Folders of the tests' own.

use std::fs;
use std::path::{Path, PathBuf};

/// A folder of this name with nothing in it; one of an earlier run goes away.
pub fn empty(name: &str) -> PathBuf {
    let folder = Path::new(env!("CARGO_TARGET_TMPDIR")).join(name);
    if folder.exists() {
        fs::remove_dir_all(&folder).expect("an old folder goes away");
    }
    fs::create_dir_all(&folder).expect("a folder for the test");
    folder
}
