//! The command of the second program.
//!
//! A subcommand is a line of [`COMMANDS`]: its name, what it is given, and the function that does it. A mistake is one
//! sentence on the error stream; the exit status is 2 for the command line and 1 for anything in the files. A picture
//! that is not covered is no mistake.

use second::replay::{Tally, through_the_stage};
use second::stored::bytes;
use second::stored_runs;
use second::vectors::{Fault, Vector};
use second::{Picture, filter_picture};
use std::fs::File;
use std::io::{self, BufReader, Write};
use std::process::ExitCode;

struct Command {
    name: &'static str,
    given: &'static str,
    run: fn(&[String], &mut dyn Write) -> Result<ExitCode, Mistake>,
}

const COMMANDS: [Command; 2] = [
    Command { name: "vectors", given: "FILE...", run: vectors },
    Command { name: "stored", given: "cases|blocks|replay stdin|stdout", run: stored },
];

enum Mistake {
    CommandLine(String),
    File(String),
}

fn main() -> ExitCode {
    let arguments: Vec<String> = std::env::args_os().skip(1).map(|word| word.to_string_lossy().into_owned()).collect();
    let (sentence, status) = match run(&arguments, &mut io::stdout().lock()) {
        Ok(status) => return status,
        Err(Mistake::CommandLine(sentence)) => (sentence, 2),
        Err(Mistake::File(sentence)) => (sentence, 1),
    };
    say(&sentence);
    ExitCode::from(status)
}

/// A sentence on the error stream. If even that is closed, the status still tells.
fn say(sentence: &str) {
    let _ = writeln!(io::stderr(), "second: {sentence}");
}

fn run(arguments: &[String], out: &mut dyn Write) -> Result<ExitCode, Mistake> {
    let (name, rest) = arguments.split_first().ok_or_else(|| Mistake::CommandLine(usage()))?;
    if name == "--help" {
        writeln!(out, "{}", usage()).map_err(not_written)?;
        return Ok(ExitCode::SUCCESS);
    }
    let command = COMMANDS.iter().find(|command| command.name == name);
    let command = command.ok_or_else(|| Mistake::CommandLine(format!("no subcommand {name}; {}", usage())))?;
    (command.run)(rest, out)
}

fn usage() -> String {
    let lines = COMMANDS.map(|command| format!("second {} {}", command.name, command.given));
    format!("usage: {}", lines.join(" or "))
}

/// What became of a file.
#[derive(Clone, Copy, PartialEq, Eq)]
enum Outcome {
    Agrees,
    Differs,
    NotCovered,
    Damaged,
    CannotBeRead,
}

const OUTCOMES: [(Outcome, &str); 5] = [
    (Outcome::Agrees, "agree"),
    (Outcome::Differs, "differ"),
    (Outcome::NotCovered, "not covered"),
    (Outcome::Damaged, "damaged"),
    (Outcome::CannotBeRead, "cannot be read"),
];

/// Puts each file's picture through the stage, prints how it compares with the file's final planes, and counts.
fn vectors(files: &[String], out: &mut dyn Write) -> Result<ExitCode, Mistake> {
    if files.is_empty() {
        return Err(Mistake::CommandLine(format!("no file named; {}", usage())));
    }
    let mut outcomes = Vec::new();
    for file in files {
        let (outcome, line) = judged(file);
        match outcome {
            Outcome::Damaged | Outcome::CannotBeRead => say(&format!("{file}: {line}")),
            _ => writeln!(out, "{}: {line}", name(file)).map_err(not_written)?,
        }
        outcomes.push(outcome);
    }
    let count = |outcome: Outcome| outcomes.iter().filter(|other| **other == outcome).count();
    let counts = OUTCOMES.map(|(outcome, named)| format!("{} {named}", count(outcome)));
    writeln!(out, "{}", counts.join(", ")).and_then(|()| out.flush()).map_err(not_written)?;
    let fine = count(Outcome::Agrees) + count(Outcome::NotCovered) == files.len();
    Ok(if fine { ExitCode::SUCCESS } else { ExitCode::from(1) })
}

/// Writes what a proved program is run on, or what it must write.
fn stored(names: &[String], out: &mut dyn Write) -> Result<ExitCode, Mistake> {
    let found = match names {
        [program, file] => bytes(program, file).or_else(|| stored_runs::bytes(program, file)),
        _ => None,
    };
    let found = found.ok_or_else(|| Mistake::CommandLine(format!("no such stored file; {}", usage())))?;
    out.write_all(&found).and_then(|()| out.flush()).map_err(not_written)?;
    Ok(ExitCode::SUCCESS)
}

fn not_written(why: io::Error) -> Mistake {
    Mistake::File(format!("the output cannot be written: {why}"))
}

/// What became of a file, and its line or sentence.
fn judged(file: &str) -> (Outcome, String) {
    match covered(file) {
        Ok(Ok(vector)) => compared(&vector).unwrap_or_else(|why| (Outcome::Damaged, why)),
        Ok(Err(why)) => (Outcome::NotCovered, format!("the picture is not covered: {why}")),
        Err(fault @ Fault::Damaged(_)) => (Outcome::Damaged, fault.to_string()),
        Err(fault @ Fault::CannotBeRead(_)) => (Outcome::CannotBeRead, fault.to_string()),
    }
}

/// The vector of a file, or why its picture is not covered. The system knows the length of a regular file.
fn covered(file: &str) -> Result<Result<Vector, String>, Fault> {
    let file = File::open(file)?;
    let known = file.metadata()?;
    Vector::covered(&mut BufReader::new(file), known.is_file().then_some(known.len()))
}

/// A picture through the stage and at once. Sets that the stage refuses are damage.
fn compared(vector: &Vector) -> Result<(Outcome, String), String> {
    let (picture, sets) = (vector.picture(), vector.sets());
    let (filtered, tally) = through_the_stage(&picture, &sets, &vector.deblocked, 1)?;
    let whole = filter_picture(&picture, &sets, vector.deblocked.each_ref().map(Vec::as_slice));
    let agrees = filtered == vector.filtered && whole == vector.filtered;
    let (outcome, verdict) = if agrees { (Outcome::Agrees, "agrees") } else { (Outcome::Differs, "differs") };
    Ok((outcome, format!("{}: {verdict}", line(&picture, &tally))))
}

fn name(file: &str) -> String {
    std::path::Path::new(file).file_name().unwrap_or_default().to_string_lossy().into_owned()
}

fn line(picture: &Picture, tally: &Tally) -> String {
    let Picture { width, height, ctb, luma_depth, chroma_depth, .. } = picture;
    let format = ["monochrome", "4:2:0", "4:2:2", "4:4:4"][usize::from(picture.format)];
    let depths = if luma_depth == chroma_depth {
        format!("depth {luma_depth}")
    } else {
        format!("luma depth {luma_depth}, chroma depth {chroma_depth}")
    };
    let Tally { ctus, changed, samples, .. } = tally;
    format!("{width}x{height}, CTB size {ctb}, {format}, {depths}, CTUs {ctus}, {changed} of {samples} samples changed")
}
