//! Dossiers checked.

use crate::files::{self, Filed};
use crate::library::{check_dossier, Checked, Refusal};
use crate::progress::{tell, Progress};
use crate::trouble::{Status, Trouble};
use crate::words::Given;
use std::io::Write;
use std::os::unix::ffi::OsStrExt;
use std::path::Path;

/// A line for each dossier. One that cannot be read is told of on standard error, and the others are checked all the same.
pub fn check(given: &Given, out: &mut dyn Write) -> Result<Status, Trouble> {
    let files = given.files();
    let with_names = given.names || files.len() > 1;
    let mut progress = Progress::over(files.len());
    let mut status = Status::Good;
    for file in files {
        status = status.max(check_file(file, with_names, out)?);
        progress.step();
    }
    Ok(status)
}

fn check_file(file: &Path, with_name: bool, out: &mut dyn Write) -> Result<Status, Trouble> {
    match files::paper(file) {
        Ok(dossier) => check_one(&dossier, with_name, out),
        Err(Trouble::Failed(why)) => {
            tell(&why);
            Ok(Status::Failed)
        }
        Err(other) => Err(other),
    }
}

fn check_one(dossier: &Filed, with_name: bool, out: &mut dyn Write) -> Result<Status, Trouble> {
    let checked = check_dossier(&dossier.bytes);
    let name = match with_name {
        true => [dossier.name.as_os_str().as_bytes(), b": "].concat(),
        false => Vec::new(),
    };
    // in one piece, so that lines of several processes do not mix
    out.write_all(&[&name, verdict(&checked).as_bytes(), b"\n"].concat())?;
    let Err(refusal) = checked else {
        return Ok(Status::Good);
    };
    tell(&refusal.told_of(dossier));
    Ok(Status::Refused)
}

/// The line of a dossier, as the program `verdict` writes it.
fn verdict(checked: &Result<Checked, Refusal>) -> String {
    match checked {
        Ok(Checked::Cheapest { cost }) => format!("cheapest {cost}"),
        Ok(Checked::None) => "none".to_string(),
        Err(refusal) => format!("refused {} {}", refusal.paper as u32, refusal.number),
    }
}
