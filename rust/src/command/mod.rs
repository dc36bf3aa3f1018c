//! The subcommands: a line of [`COMMANDS`] each, and what they share, the ways to end.

mod arguments;
mod bins;
mod check;
mod compare;
mod explain;
mod filter;
mod header;
mod image;
mod input;
mod letters;
mod output;
mod progress;
mod rules;
mod run;
mod set_text;
mod shuffle;
mod standard_output;
mod vector;

pub use standard_output::standard_output;
use std::ffi::{OsStr, OsString};
use std::io::{self, Write};

/// How a command ends that did what it was asked.
pub enum Status {
    Fine,
    /// A file differs, is damaged or cannot be read; the command has said which.
    Disagrees,
}

/// Why a command could not do what it was asked.
pub enum Mistake {
    CommandLine(String),
    Failed(String),
    /// The standard output is closed or cannot be written.
    NotPrinted(String),
    /// The reader of the standard output went away, which is no news to them.
    NobodyReads,
}

impl From<io::Error> for Mistake {
    /// Only the standard output is written without naming a file.
    fn from(why: io::Error) -> Mistake {
        match why.kind() {
            io::ErrorKind::BrokenPipe => Mistake::NobodyReads,
            _ => Mistake::NotPrinted(format!("the standard output cannot be written: {why}")),
        }
    }
}

type Ended = Result<Status, Mistake>;

struct Command {
    name: &'static str,
    help: &'static str,
    run: fn(&[OsString], &mut dyn Write) -> Ended,
}

const COMMANDS: [Command; 3] = [
    Command { name: "check", help: check::HELP, run: check::run },
    Command { name: "filter", help: filter::HELP, run: filter::run },
    Command { name: "bins", help: bins::HELP, run: bins::run },
];

const HELP: &str = "\
steamgusset: the proved sample adaptive offset stage of an HEVC decoder, tried from the shell

usage:
  steamgusset check [--seed N] FILE...
      puts the pictures of vector files through the stage in a shuffled order of calls
      and compares them with what a real decoder made
  steamgusset filter FILE [--output OUT.yuv] [--compare OUT.png] [options]
      filters the picture of a vector file and writes it, or images to look at
  steamgusset bins [options] HEX COUNT
  steamgusset bins [options] --set SET
      reads one CTU's bins and explains them field by field, or writes them
  steamgusset help [COMMAND], steamgusset COMMAND --help
      says more about a command
  steamgusset --version
      says the versions of the command and of the stage that it is linked with

examples:
  steamgusset check vectors/*.sao
  steamgusset filter vectors/card_420_8_416x240.sao -o out.yuv --compare out.png
  steamgusset bins --depth 8 E340 11

exit status: 0 fine; 1 a disagreement, a refusal or a bad file; 2 a bad command line
";

/// What ends every help text: no command has a say in it.
const STATUS_OF_OUTPUT: &str = "\
It is 3 if the standard output is closed or broken when something is to be printed, whatever else was found.
";

/// Runs what the words ask for. At the end all that was printed has left, or that is the mistake told.
pub fn run(words: &[OsString], out: &mut dyn Write) -> Ended {
    let ended = asked(words, out);
    out.flush()?;
    ended
}

fn asked(words: &[OsString], out: &mut dyn Write) -> Ended {
    let Some((first, rest)) = words.split_first() else {
        return Err(with_hint(Mistake::CommandLine("no command is named".into()), "--help"));
    };
    if let Some(command) = COMMANDS.iter().find(|command| first == command.name) {
        return subcommand(command, rest, out)
            .map_err(|mistake| with_hint(mistake, &format!("{} --help", command.name)));
    }
    let ended = match first.to_str() {
        Some("help" | "--help" | "-h") => help(rest, out),
        Some("--version" | "-V") => version(rest, out),
        _ => Err(no_such(first)),
    };
    ended.map_err(|mistake| with_hint(mistake, "--help"))
}

fn subcommand(command: &Command, rest: &[OsString], out: &mut dyn Write) -> Ended {
    if arguments::asks_for_help(rest) {
        return told_help(command.help, out);
    }
    fits(steamgusset::version(), steamgusset::VERSION).map_err(Mistake::Failed)?;
    (command.run)(rest, out)
}

/// Judges whether the archive that is linked is of a version that this command knows.
fn fits(archive: (u32, u32), ours: (u32, u32)) -> Result<(), String> {
    let shown = |(major, minor): (u32, u32)| format!("{major}.{minor}");
    if archive.0 == ours.0 && archive.1 >= ours.1 {
        Ok(())
    } else {
        Err(format!("the stage that is linked is {}, and this command is made for {}", shown(archive), shown(ours)))
    }
}

fn help(words: &[OsString], out: &mut dyn Write) -> Ended {
    let text = match words {
        [] => HELP,
        [name] => COMMANDS.iter().find(|command| name == command.name).ok_or_else(|| no_such(name))?.help,
        [_, more, ..] => return Err(arguments::too_many("help takes one command", more)),
    };
    told_help(text, out)
}

fn version(words: &[OsString], out: &mut dyn Write) -> Ended {
    if let Some(more) = words.first() {
        return Err(arguments::too_many("--version takes nothing", more));
    }
    let (major, minor) = steamgusset::version();
    told(&format!("steamgusset {}, stage {major}.{minor}\n", env!("CARGO_PKG_VERSION")), out)
}

fn no_such(name: &OsString) -> Mistake {
    Mistake::CommandLine(format!("there is no command {}", shown(name)))
}

/// A mistake on the command line, with the words that print what helps.
fn with_hint(mistake: Mistake, words: &str) -> Mistake {
    match mistake {
        Mistake::CommandLine(why) => Mistake::CommandLine(format!("{why}; try steamgusset {words}")),
        other => other,
    }
}

fn told_help(help: &str, out: &mut dyn Write) -> Ended {
    told(&format!("{help}{STATUS_OF_OUTPUT}"), out)
}

fn told(text: &str, out: &mut dyn Write) -> Ended {
    out.write_all(text.as_bytes())?;
    Ok(Status::Fine)
}

/// A sentence on the error stream. If even that is closed, the exit status still tells.
pub fn say(sentence: &str) {
    let _ = writeln!(io::stderr(), "steamgusset: {}", on_one_line(sentence));
}

/// A text with what was typed in it, as it is printed: a line stays a line, and a terminal is told nothing.
fn on_one_line(text: &str) -> String {
    let shown = |letter: char| if letter.is_control() { letter.escape_default().to_string() } else { letter.into() };
    text.chars().map(shown).collect()
}

/// A name, or another word that was typed, as it is printed.
fn shown(word: &OsStr) -> String {
    if word.is_empty() { "''".into() } else { on_one_line(&word.to_string_lossy()) }
}

#[cfg(test)]
mod tests {
    use super::fits;

    #[test]
    fn an_archive_of_another_version_is_found_out() {
        assert_eq!([(4, 0), (4, 1)].map(|archive| fits(archive, (4, 0))), [Ok(()), Ok(())]);
        for archive in [(3, 9), (5, 2), (4, 1)] {
            let sentence =
                format!("the stage that is linked is {}.{}, and this command is made for 4.2", archive.0, archive.1);
            assert_eq!(fits(archive, (4, 2)), Err(sentence));
        }
    }
}
