//! What a command writes to the file behind -o.

use crate::files::{self, named};
use crate::trouble::{Status, Trouble};
use crate::words::Given;
use std::io::Write;

/// Writes where -o says, and says so; or says how long it would be.
pub fn written(given: &Given, out: &mut dyn Write, bytes: &[u8]) -> Result<Status, Trouble> {
    let length = bytes.len();
    match given.output() {
        Some(_) => writeln!(out, "written, {length} bytes{}", kept(given, bytes)?)?,
        None => writeln!(out, "it has {length} bytes; -o FILE writes it")?,
    }
    Ok(Status::Good)
}

/// Writes where -o says, if it does, and gives the words for that.
pub fn kept(given: &Given, bytes: &[u8]) -> Result<String, Trouble> {
    let Some(file) = given.output() else {
        return Ok(String::new());
    };
    files::write(file, bytes)?;
    Ok(format!(", in {}", named(file)))
}
