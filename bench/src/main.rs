//! The benchmark's command: `bench/run [--quick] [filter] [formats] [sizes] [unaligned] [calls] [growth]`.
//!
//! Without a name every part is run. A mistake is one sentence on the error stream; the exit status is 2 for the command
//! line and 1 for a part that went wrong.
//!
//! Method: a picture is timed CTB row by CTB row, and a figure is the sum of each row's shortest time in some repetitions.
//! The things compared take turns within each repetition, so that a machine that slows down slows all of them. They read
//! the same planes and write the same planes.
#![deny(unsafe_code)]

mod calls;
mod course;
mod filter;
mod growth;
mod plain_c;
mod plain_rust;
mod plane;
mod table;
mod timing;

use std::fmt;
use std::io::{self, Write};
use std::process::ExitCode;
use steamgusset::Refusal;
use timing::Patience;

/// Why a run ends early.
enum Mistake {
    CommandLine(String),
    /// A call of the stage was refused that must not be.
    Refused(Refusal),
    /// What one of the plain loops left is not what the stage left.
    Differs(String),
    Output(io::Error),
}

type Done = Result<(), Mistake>;

/// A part of the benchmark: its name, its heading, and what measures and prints it.
struct Part {
    name: &'static str,
    heading: &'static str,
    run: fn(Patience, &mut dyn Write) -> Done,
}

const PARTS: [Part; 6] = [
    Part { name: "filter", heading: "The filter call, 1920x1080 in 64x64 blocks", run: filter::depths },
    Part { name: "formats", heading: "The filter call by format, 1920x1080 in 64x64 blocks", run: filter::formats },
    Part { name: "sizes", heading: "The filter call by block size, 1920x1080 at 10 bits", run: filter::sizes },
    Part {
        name: "unaligned",
        heading: "The filter call on planes that begin within a cache line",
        run: filter::unaligned,
    },
    Part { name: "calls", heading: "The other calls", run: calls::all },
    Part { name: "growth", heading: "A whole picture through the calls, by picture size", run: growth::all },
];

fn main() -> ExitCode {
    let words: Vec<String> = std::env::args_os().skip(1).map(|word| word.to_string_lossy().into_owned()).collect();
    let mistake = match run(&words, &mut io::stdout().lock()) {
        Ok(()) => return ExitCode::SUCCESS,
        Err(mistake) => mistake,
    };
    // If even the error stream is closed, the status still tells.
    let _ = writeln!(io::stderr(), "bench: {mistake}");
    ExitCode::from(if matches!(mistake, Mistake::CommandLine(_)) { 2 } else { 1 })
}

fn run(words: &[String], out: &mut dyn Write) -> Done {
    let (options, names): (Vec<&String>, Vec<&String>) = words.iter().partition(|word| word.starts_with('-'));
    if let Some(option) = options.iter().find(|option| **option != "--quick") {
        return Err(Mistake::CommandLine(format!("no option {option}; {}", usage())));
    }
    if let Some(name) = names.iter().find(|name| !PARTS.iter().any(|part| part.name == name.as_str())) {
        return Err(Mistake::CommandLine(format!("no part {name}; {}", usage())));
    }
    let patience = if options.is_empty() { Patience::Full } else { Patience::Quick };
    preface(patience, out)?;
    for part in PARTS.iter().filter(|part| names.is_empty() || names.iter().any(|name| *name == part.name)) {
        writeln!(out, "## {}\n", part.heading)?;
        (part.run)(patience, out)?;
    }
    Ok(())
}

fn usage() -> String {
    format!("usage: bench/run [--quick] [{}]...", PARTS.map(|part| part.name).join("|"))
}

fn preface(patience: Patience, out: &mut dyn Write) -> Done {
    writeln!(
        out,
        "Machine: {}. Plain C: {} at -O3. A picture is timed CTB row by CTB row; a figure is the sum of each row's \
         shortest time in {} repetitions, in which the things compared take turns. Machines differ and are noisy: the ratios within a line are what counts.\n",
        std::env::consts::ARCH,
        env!("PLAIN_COMPILER"),
        patience.repetitions(),
    )?;
    Ok(())
}

impl fmt::Display for Mistake {
    fn fmt(&self, f: &mut fmt::Formatter) -> fmt::Result {
        match self {
            Mistake::CommandLine(sentence) | Mistake::Differs(sentence) => write!(f, "{sentence}"),
            Mistake::Refused(refusal) => write!(f, "a call that is to be accepted was {refusal}"),
            Mistake::Output(error) => write!(f, "cannot write the tables: {error}"),
        }
    }
}

impl From<Refusal> for Mistake {
    fn from(refusal: Refusal) -> Mistake {
        Mistake::Refused(refusal)
    }
}

impl From<io::Error> for Mistake {
    fn from(error: io::Error) -> Mistake {
        Mistake::Output(error)
    }
}

#[cfg(test)]
mod tests {
    use super::PARTS;

    const SCRIPT: &str = include_str!("../run");

    #[test]
    fn the_script_takes_the_names_of_the_parts() {
        let names = PARTS.map(|part| part.name);
        assert!(SCRIPT.contains(&format!("--quick | {})", names.join(" | "))));
        let usage = format!("usage: bench/run [--quick] [{}]", names.join("] ["));
        assert_eq!(SCRIPT.matches(&usage).count(), 2);
    }
}
