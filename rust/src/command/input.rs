//! Where a picture comes from: a file, or the standard input in the place of one.

use super::shown;
use std::ffi::OsStr;
use std::fmt::{self, Display, Formatter};
use std::fs::File;
use std::io;
use std::os::fd::AsFd;
use std::path::{Path, PathBuf};

#[derive(PartialEq)]
pub enum Input {
    StandardInput,
    File(PathBuf),
}

impl Input {
    /// The input as it is typed. A file that is really called `-` is `./-`.
    pub fn typed(word: &OsStr) -> Input {
        if word == "-" || word == "/dev/stdin" { Input::StandardInput } else { Input::File(word.into()) }
    }

    pub fn open(&self) -> io::Result<File> {
        match self {
            // As it was handed over: the path may not be opened by whoever runs the command, nor where it is a socket.
            Input::StandardInput => io::stdin().as_fd().try_clone_to_owned().map(File::from),
            Input::File(path) => File::open(path),
        }
    }

    /// A path that leads to it.
    pub fn path(&self) -> &Path {
        match self {
            Input::StandardInput => Path::new("/dev/stdin"),
            Input::File(path) => path,
        }
    }
}

impl Display for Input {
    fn fmt(&self, to: &mut Formatter) -> fmt::Result {
        match self {
            Input::StandardInput => to.write_str("standard input"),
            Input::File(path) => to.write_str(&shown(path.as_os_str())),
        }
    }
}
