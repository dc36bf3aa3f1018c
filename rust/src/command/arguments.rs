//! A command line taken apart: options with and without a value, and plain words.
//!
//! `--name VALUE` and `--name=VALUE` are the same; after `--` every word is plain. A word that nothing takes is a
//! mistake, and so is an option's name where another's value should be: `=` hands over even that.

use super::{Mistake, shown};
use std::ffi::{OsStr, OsString};
use std::os::unix::ffi::OsStrExt;
use std::str::FromStr;

/// An option that a command takes: its long name, and a short one where it has one.
pub struct Known {
    pub long: &'static str,
    pub short: Option<&'static str>,
}

/// An option without a short name.
pub const fn long(name: &'static str) -> Known {
    Known { long: name, short: None }
}

/// What was typed: each option's value by its long name, and the plain words in order.
pub struct Arguments {
    values: Vec<(&'static str, OsString)>,
    pub plain: Vec<OsString>,
}

/// Whether `--help` stands among the options.
pub fn asks_for_help(words: &[OsString]) -> bool {
    let options = words.iter().take_while(|word| *word != "--");
    options.into_iter().any(|word| word == "--help" || word == "-h")
}

/// A word that nothing takes.
pub fn too_many(takes: &str, word: &OsStr) -> Mistake {
    Mistake::CommandLine(format!("{takes}, and {} is a word too many", shown(word)))
}

impl Arguments {
    /// Takes the words apart; every option that is not known, lacks its value or comes twice is a mistake.
    pub fn parse(words: &[OsString], known: &[Known]) -> Result<Arguments, Mistake> {
        let mut arguments = Arguments { values: Vec::new(), plain: Vec::new() };
        let mut words = words.iter();
        while let Some(word) = words.next() {
            if word == "--" {
                arguments.plain.extend(words.cloned());
                break;
            }
            match option_of(word) {
                Some((name, value)) => {
                    let next = || words.next().map(OsString::as_os_str).filter(|word| is_value(word, known));
                    arguments.add(known_as(name, known)?, value.or_else(next))?;
                }
                None => arguments.plain.push(word.clone()),
            }
        }
        Ok(arguments)
    }

    fn add(&mut self, name: &'static str, value: Option<&OsStr>) -> Result<(), Mistake> {
        let value = value.filter(|value| !value.is_empty());
        let value = value.ok_or_else(|| Mistake::CommandLine(format!("{name} needs a value")))?;
        if self.value(name).is_some() {
            return Err(Mistake::CommandLine(format!("{name} is given twice")));
        }
        self.values.push((name, value.into()));
        Ok(())
    }

    /// The plain words, if they are as many as the command wants.
    pub fn words<const N: usize>(&self, command: &str, wanted: &str) -> Result<&[OsString; N], Mistake> {
        if let Some(more) = self.plain.get(N) {
            return Err(too_many(&format!("{command} takes {wanted}"), more));
        }
        let words = self.plain.as_slice().try_into();
        words.map_err(|_| Mistake::CommandLine(format!("{command} needs {wanted}")))
    }

    pub fn value(&self, name: &str) -> Option<&OsStr> {
        self.values.iter().find(|(given, _)| *given == name).map(|(_, value)| value.as_os_str())
    }

    /// An option's value as text.
    pub fn text(&self, name: &str) -> Result<Option<&str>, Mistake> {
        let Some(value) = self.value(name) else {
            return Ok(None);
        };
        let text = value.to_str().ok_or_else(|| Mistake::CommandLine(format!("the value of {name} is no text")))?;
        Ok(Some(text))
    }

    /// An option's value as a number between two limits, or what stands for it where it is not given.
    pub fn number<T>(&self, name: &str, least: T, most: T, otherwise: T) -> Result<T, Mistake>
    where
        T: FromStr + PartialOrd + std::fmt::Display,
    {
        let Some(text) = self.text(name)? else {
            return Ok(otherwise);
        };
        let number = text.parse().ok().filter(|number| (&least..=&most).contains(&number));
        number.ok_or_else(|| Mistake::CommandLine(format!("{name} takes a number from {least} to {most}, not {text}")))
    }

    /// An option's value as a switch, or what stands for it where it is not given.
    pub fn switch(&self, name: &str, otherwise: bool) -> Result<bool, Mistake> {
        match self.text(name)? {
            None => Ok(otherwise),
            Some("on") => Ok(true),
            Some("off") => Ok(false),
            Some(other) => Err(Mistake::CommandLine(format!("{name} takes on or off, not {other}"))),
        }
    }
}

/// An option's name and the value joined to it; nothing for a plain word. A lone `-` is plain.
fn option_of(word: &OsStr) -> Option<(&OsStr, Option<&OsStr>)> {
    let bytes = word.as_bytes();
    if bytes.len() < 2 || bytes[0] != b'-' {
        return None;
    }
    let equals = bytes.iter().position(|byte| *byte == b'=').filter(|_| bytes.starts_with(b"--"));
    Some(match equals {
        Some(place) => (OsStr::from_bytes(&bytes[..place]), Some(OsStr::from_bytes(&bytes[place + 1..]))),
        None => (word, None),
    })
}

/// Whether a word after an option can be meant as its value.
fn is_value(word: &OsStr, known: &[Known]) -> bool {
    word != "--" && option_of(word).is_none_or(|(name, _)| known_as(name, known).is_err())
}

fn known_as(name: &OsStr, known: &[Known]) -> Result<&'static str, Mistake> {
    let option = known.iter().find(|option| name == option.long || option.short.is_some_and(|short| name == short));
    let option = option.ok_or_else(|| Mistake::CommandLine(format!("there is no option {}", shown(name))))?;
    Ok(option.long)
}
