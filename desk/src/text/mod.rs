//! Jobs and plans as text that a person reads and writes. `show` and `make` undo each other: the text of a sheet makes
//! that sheet again, and a text in the layout of `show` is shown again as it was.
//!
//! Each line says one thing, in words and numbers, parted by spaces or commas; what follows a `#` counts for nothing.

mod job;
mod lines;
mod plan;

use crate::library::{self, Refusal};
use crate::record::{Job, Plan};
pub use job::job_text;
use lines::{Lines, Mistake};
pub use plan::plan_text;

/// A record that was read from text.
#[derive(Debug, PartialEq)]
pub enum Record {
    Job(Box<Job>),
    Plan(Box<Plan>),
}

impl Record {
    /// The sheet, if the library writes one: a text may say more operations than a job has, say.
    pub fn sheet(&self) -> Result<Vec<u8>, Refusal> {
        match self {
            Record::Job(job) => library::write_job(job),
            Record::Plan(plan) => library::write_plan(plan),
        }
    }
}

/// The record that a text says. Some editors put a mark before it that says which order its bytes have.
pub fn made(text: &str) -> Result<Record, Mistake> {
    let mut lines = Lines::of(text.trim_start_matches('\u{feff}'));
    let record = match lines.first_word() {
        Some("job") => Record::Job(Box::new(job::made(&mut lines)?)),
        Some("plan") => Record::Plan(Box::new(plan::made(&mut lines)?)),
        _ => return Err(lines.expected("`job` or `plan`")),
    };
    lines.end()?;
    Ok(record)
}

/// The column in which comments begin.
const COMMENT_AT: usize = 38;

/// A line of text, with a comment at its right.
fn commented(line: &str, comment: &str) -> String {
    format!("{line:<COMMENT_AT$}# {comment}\n")
}

/// The comment below a heading that nothing follows.
const NOTHING: &str = "  # none\n";

#[cfg(test)]
mod tests;
