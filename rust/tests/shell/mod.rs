//! Commands as the tests run them.

use std::process::{Command, Output};

/// Exit status, standard output, error stream.
pub type Ran = (Option<i32>, String, String);

pub fn ran(command: &mut Command) -> Ran {
    told(command.output().expect("the command runs"))
}

pub fn told(output: Output) -> Ran {
    let text = |bytes: Vec<u8>| String::from_utf8(bytes).expect("text");
    (output.status.code(), text(output.stdout), text(output.stderr))
}
