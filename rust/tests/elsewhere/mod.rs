//! Folders outside the project. `rt ci` refuses some files wherever it meets them in the project, also in a build's own
//! folders: a list of crates, a crate's file, a link. A test that writes such files does so here.

use std::fs;
use std::ops::Deref;
use std::path::{Path, PathBuf};

/// A folder of the test's own, which goes away with this value.
pub struct Elsewhere(PathBuf);

/// A folder with nothing in it; one that an earlier run left goes away.
pub fn empty(name: &str) -> Elsewhere {
    let folder = std::env::temp_dir().join(format!("steamgusset-{name}-{}", std::process::id()));
    if folder.exists() {
        fs::remove_dir_all(&folder).expect("an old folder goes away");
    }
    fs::create_dir(&folder).expect("a folder for the test");
    Elsewhere(folder)
}

impl Deref for Elsewhere {
    type Target = Path;

    fn deref(&self) -> &Path {
        &self.0
    }
}

impl Drop for Elsewhere {
    fn drop(&mut self) {
        // What is left of it harms nobody, and a test that fails has something else to say.
        let _ = fs::remove_dir_all(&self.0);
    }
}
