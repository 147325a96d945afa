//! The desk: the proved library for people. It reads papers from files, asks the library, and says in words what it
//! answers; it shows sheets as text, makes them from text, and draws plans.

mod commands;
mod dossier;
mod draw;
mod files;
#[cfg(test)]
mod header;
mod library;
mod note;
mod progress;
mod record;
mod refusals;
mod text;
mod trouble;
mod words;

use commands::{help, overview, Command, COMMANDS};
use progress::tell;
use std::env;
use std::ffi::OsString;
use std::io::{self, Write};
use std::path::Path;
use std::process::ExitCode;
use trouble::{Status, Trouble};

fn main() -> ExitCode {
    let mut out = io::stdout().lock();
    let ended = answer(env::args_os().skip(1), &mut out);
    let status = match ended {
        Ok(status) => status,
        Err(trouble) => told(trouble, &mut out),
    };
    status.into()
}

/// Runs the command that the words name.
fn answer(
    mut words: impl Iterator<Item = OsString>,
    out: &mut dyn Write,
) -> Result<Status, Trouble> {
    let Some(name) = words.next() else {
        return Err(Trouble::failed(overview().trim_end()));
    };
    if name == "--help" || name == "-h" {
        out.write_all(overview().as_bytes())?;
        return Ok(Status::Good);
    }
    let command = known(&name)?;
    let given = words::taken(command, words)?;
    if given.help {
        out.write_all(help(command).as_bytes())?;
        return Ok(Status::Good);
    }
    (command.run)(&given, out)
}

fn known(name: &OsString) -> Result<&'static Command, Trouble> {
    let unknown = || {
        Trouble::failed(format!(
            "no command is called {}; ./tolmupung --help lists them",
            files::named(Path::new(name))
        ))
    };
    COMMANDS
        .iter()
        .find(|command| name == command.name)
        .ok_or_else(unknown)
}

/// Says why a command ended early, where that belongs.
fn told(trouble: Trouble, out: &mut dyn Write) -> Status {
    match trouble {
        Trouble::Refused(line) => match writeln!(out, "{line}") {
            Ok(()) => Status::Refused,
            Err(error) => told(error.into(), out),
        },
        Trouble::Failed(line) => {
            tell(&line);
            Status::Failed
        }
        Trouble::Unheard => Status::Failed,
    }
}
