//! Programs that a test writes and runs.

use std::fs;
use std::os::unix::fs::PermissionsExt;
use std::path::Path;
use std::sync::{Mutex, MutexGuard, PoisonError};

/// A test has this while it runs. A program that is just being written cannot be run, and a process that another test
/// starts meanwhile would hold it open.
static TURN: Mutex<()> = Mutex::new(());

pub fn turn() -> MutexGuard<'static, ()> {
    TURN.lock().unwrap_or_else(PoisonError::into_inner)
}

/// A program of the shell's.
pub fn program(place: &Path, text: &str) {
    fs::write(place, format!("#!/bin/sh\n{text}\n")).expect("a program for the test");
    fs::set_permissions(place, fs::Permissions::from_mode(0o755)).expect("a program that runs");
}
