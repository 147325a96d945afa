//! Files read and written, and what is said where that fails.

use crate::library::DOSSIER_BYTES;
use crate::trouble::Trouble;
use std::fs::{self, File};
use std::io::{self, Read};
use std::path::{Path, PathBuf};
use std::process;

/// More than any text of a job or a plan wants.
const TEXT_BYTES: usize = 1 << 20;

/// A paper, and the file that it came in.
pub struct Filed {
    pub name: PathBuf,
    pub bytes: Vec<u8>,
}

/// A file's name as a message can hold it, on one line.
pub fn named(name: &Path) -> String {
    let letters = name.to_string_lossy();
    letters.replace(|letter: char| letter.is_control(), "?")
}

/// Reads a paper. One byte more than the longest dossier is enough: whatever follows, the answer is the same.
pub fn paper(name: &Path) -> Result<Filed, Trouble> {
    let bytes = read(name, DOSSIER_BYTES + 1)?;
    let name = name.to_path_buf();
    Ok(Filed { name, bytes })
}

/// Reads a plan that could be left out. In a call an empty one is none; but whoever names a file means a plan.
pub fn plan(name: &Path) -> Result<Filed, Trouble> {
    let plan = paper(name)?;
    if plan.bytes.is_empty() {
        let name = named(name);
        let words = format!("{name} is empty; for no plan leave its name out");
        return Err(Trouble::failed(words));
    }
    Ok(plan)
}

/// Reads a text.
pub fn text(name: &Path) -> Result<String, Trouble> {
    let bytes = read(name, TEXT_BYTES + 1)?;
    if bytes.len() > TEXT_BYTES {
        let words = format!("cannot read {}: it is too long for a text", named(name));
        return Err(Trouble::failed(words));
    }
    let words = |_| Trouble::failed(format!("cannot read {}: it is not text", named(name)));
    String::from_utf8(bytes).map_err(words)
}

fn read(name: &Path, most: usize) -> Result<Vec<u8>, Trouble> {
    let mut bytes = Vec::new();
    let file = File::open(name).and_then(|file| file.take(most as u64).read_to_end(&mut bytes));
    file.map_err(|error| {
        let words = match error.kind() {
            io::ErrorKind::NotFound => "there is no such file; is its name right?".into(),
            _ => why(&error),
        };
        Trouble::failed(format!("cannot read {}: {words}", named(name)))
    })?;
    Ok(bytes)
}

/// Writes a file whole, or leaves the one that was there.
pub fn write(name: &Path, bytes: &[u8]) -> Result<(), Trouble> {
    let target = fs::canonicalize(name).unwrap_or_else(|_| name.to_path_buf());
    let written = match target.is_file() || !target.exists() {
        true => replace(&target, bytes),
        false => fs::write(&target, bytes),
    };
    written.map_err(|error| {
        let words = match error.kind() {
            io::ErrorKind::NotFound => "there is no such folder; make it first".into(),
            _ => why(&error),
        };
        Trouble::failed(format!("cannot write {}: {words}", named(name)))
    })
}

/// Writes a file beside the target, and puts it in its place when it is whole.
fn replace(target: &Path, bytes: &[u8]) -> io::Result<()> {
    let mut part = target.as_os_str().to_owned();
    part.push(format!(".{}.part", process::id()));
    let replaced = fs::write(&part, bytes).and_then(|()| fs::rename(&part, target));
    if replaced.is_err() {
        // what cannot be removed either is left; the first error is the one to tell
        let _ = fs::remove_file(&part);
    }
    replaced
}

/// Whether two names are of one file.
pub fn same(one: &Path, other: &Path) -> bool {
    match (fs::canonicalize(one), fs::canonicalize(other)) {
        (Ok(one), Ok(other)) => one == other && one.is_file(),
        _ => false,
    }
}

/// What went wrong, in plain words where they are known.
pub fn why(error: &io::Error) -> String {
    match error.kind() {
        io::ErrorKind::IsADirectory => "it is a folder; name a file".into(),
        io::ErrorKind::PermissionDenied => "it is not permitted; ask who owns it".into(),
        io::ErrorKind::StorageFull => "no space is left there".into(),
        _ => error.to_string(),
    }
}
