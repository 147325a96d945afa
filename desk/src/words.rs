//! The words of a command, and its options.

use crate::commands::{Command, Output};
use crate::files::{named, same};
use crate::trouble::Trouble;
use std::ffi::{OsStr, OsString};
use std::fmt::Display;
use std::path::Path;
use std::str::FromStr;

/// What a command was given behind its name.
#[derive(Default)]
pub struct Given {
    words: Vec<OsString>,
    output: Option<OsString>,
    pub budget: Option<u32>,
    pub names: bool,
    pub help: bool,
}

impl Given {
    pub fn files(&self) -> impl ExactSizeIterator<Item = &Path> {
        self.words.iter().map(Path::new)
    }

    /// A word that must be there: the command's number of words has been asked.
    pub fn file(&self, index: usize) -> &Path {
        Path::new(&self.words[index])
    }

    pub fn output(&self) -> Option<&Path> {
        self.output.as_deref().map(Path::new)
    }

    /// Where to write, for a command that must be told.
    pub fn target(&self) -> &Path {
        self.output().unwrap_or(Path::new(""))
    }
}

/// Takes a command's words apart, and asks that they are as many as it wants.
pub fn taken(
    command: &Command,
    mut words: impl Iterator<Item = OsString>,
) -> Result<Given, Trouble> {
    let mut given = Given::default();
    let mut only_words = false;
    while let Some(word) = words.next() {
        match word.to_str() {
            _ if only_words => given.words.push(word),
            Some("--") => only_words = true,
            Some("--help" | "-h") => given.help = true,
            Some("-o") if command.output != Output::No => {
                once("-o", &mut given.output, behind("-o", &mut words)?)?
            }
            Some("--budget") if command.budget => {
                let budget = number("--budget", 0, u32::MAX, &behind("--budget", &mut words)?)?;
                once("--budget", &mut given.budget, budget)?;
            }
            Some("--names") if command.names => given.names = true,
            Some(option) if is_option(option) => return Err(unknown(command, option)),
            _ => given.words.push(word),
        }
    }
    if !given.help {
        asked(command, &given)?;
    }
    Ok(given)
}

/// An option begins with a dash; a number below 0 does too, and is none.
fn is_option(word: &str) -> bool {
    let behind_dash = word.strip_prefix('-').unwrap_or_default();
    behind_dash.contains(|letter: char| !letter.is_ascii_digit())
}

/// Whether all is there that a command wants, and nothing is to be written over that it reads.
fn asked(command: &Command, given: &Given) -> Result<(), Trouble> {
    let Command { name, usage, .. } = command;
    if !command.words.contains(&given.words.len()) {
        let count = match given.words.len() {
            0 => "nothing was".to_string(),
            1 => "one word was".to_string(),
            count => format!("{count} words were"),
        };
        let more = format!("./tolmupung {name} --help says more");
        return Err(Trouble::failed(format!(
            "{name} wants {usage}, and {count} given; {more}"
        )));
    }
    let Some(output) = given.output() else {
        return match command.output {
            Output::Must => Err(Trouble::failed(format!(
                "{name} wants {usage}: -o says where to write"
            ))),
            Output::May | Output::No => Ok(()),
        };
    };
    match given.files().find(|file| same(file, output)) {
        Some(file) => Err(Trouble::failed(format!(
            "-o names {}, which {name} reads; take another name",
            named(file)
        ))),
        None => Ok(()),
    }
}

fn unknown(command: &Command, option: &str) -> Trouble {
    let (name, option) = (command.name, named(Path::new(option)));
    let file = format!("a file of that name is ./{option}");
    Trouble::failed(format!(
        "{name} has no option {option}; {file}, and ./tolmupung {name} --help says more"
    ))
}

/// The word behind an option.
fn behind(option: &str, words: &mut impl Iterator<Item = OsString>) -> Result<OsString, Trouble> {
    let word = words.next().filter(|word| !word.is_empty());
    word.ok_or_else(|| Trouble::failed(format!("{option} wants a word behind it")))
}

/// Sets what an option says, which it may say once.
fn once<T>(option: &str, held: &mut Option<T>, word: T) -> Result<(), Trouble> {
    match held.replace(word) {
        Some(_) => Err(Trouble::failed(format!("{option} stands twice"))),
        None => Ok(()),
    }
}

/// A number of some type, from the least to the most that it has.
pub fn number<N: FromStr + Display>(
    what: &str,
    least: N,
    most: N,
    word: &OsStr,
) -> Result<N, Trouble> {
    let number = word.to_str().and_then(|word| word.parse().ok());
    let words = || {
        format!(
            "{what} wants a whole number from {least} to {most}, not {}",
            named(Path::new(word))
        )
    };
    number.ok_or_else(|| Trouble::failed(words()))
}
