//! The command `steamgusset`: the stage tried on real pictures and on typed bins.
//!
//! A mistake is one sentence on the error stream. The exit status is 0 where all is fine, 1 for a disagreement, a
//! refusal or a bad file, and 2 for a bad command line. It is 3 if the standard output is closed or broken when
//! something is to be printed, whatever else was found: what was printed cannot be believed to be all.

mod command;

use command::{Mistake, Status};
use std::ffi::OsString;
use std::process::ExitCode;

fn main() -> ExitCode {
    let words: Vec<OsString> = std::env::args_os().skip(1).collect();
    let (sentence, status) = match command::run(&words, &mut *command::standard_output()) {
        Ok(Status::Fine) => return ExitCode::SUCCESS,
        // The command has said what disagrees.
        Ok(Status::Disagrees) => return ExitCode::from(1),
        Err(Mistake::Failed(sentence)) => (sentence, 1),
        Err(Mistake::CommandLine(sentence)) => (sentence, 2),
        Err(Mistake::NotPrinted(sentence)) => (sentence, 3),
        Err(Mistake::NobodyReads) => return ExitCode::from(3),
    };
    command::say(&sentence);
    ExitCode::from(status)
}
