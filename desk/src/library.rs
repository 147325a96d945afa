//! The proved library, called as the C header declares it. Every entry takes any bytes and any numbers, so there is nothing
//! to ask of a caller here: lengths are those of the slices, and a slice's pointer is never null.

use crate::record::{Job, Plan};
use std::mem::{offset_of, size_of};

/// The most bytes that a sheet of each form has.
const JOB_BYTES: usize = 274;
const PLAN_BYTES: usize = 31;
pub const NOTE_BYTES: usize = 60_000;
pub const DOSSIER_BYTES: usize = 65_536;

const REFUSED: u32 = 0;
const FOUND: u32 = 2;
const NONE: u32 = 3;
const SPENT: u32 = 4;
const CHEAPEST: u32 = 5;

/// tolmupung_answer.
#[repr(C)]
struct Answer {
    outcome: u32,
    number: u32,
    paper: u32,
    cost: u32,
    visits: u32,
    length: u32,
}

/// tolmupung_job_read and tolmupung_plan_read.
#[repr(C)]
struct Reading<R> {
    answer: Answer,
    record: R,
}

const _: () = {
    assert!(size_of::<Answer>() == 24);
    assert!(size_of::<Reading<Job>>() == 628 && offset_of!(Reading<Job>, record) == 24);
    assert!(size_of::<Reading<Plan>>() == 156 && offset_of!(Reading<Plan>, record) == 24);
};

extern "C" {
    fn tolmupung_read_job(sheet: *const u8, len: usize) -> Reading<Job>;
    fn tolmupung_read_plan(sheet: *const u8, len: usize) -> Reading<Plan>;
    fn tolmupung_write_job(job: Job, out: *mut u8, out_len: usize) -> Answer;
    fn tolmupung_write_plan(plan: Plan, out: *mut u8, out_len: usize) -> Answer;
    fn tolmupung_judge(job: *const u8, job_len: usize, plan: *const u8, plan_len: usize) -> Answer;
    fn tolmupung_search(
        job: *const u8,
        job_len: usize,
        budget: u32,
        out: *mut u8,
        out_len: usize,
    ) -> Answer;
    fn tolmupung_write_note(
        job: *const u8,
        job_len: usize,
        plan: *const u8,
        plan_len: usize,
        out: *mut u8,
        out_len: usize,
    ) -> Answer;
    fn tolmupung_slide(
        job: *const u8,
        job_len: usize,
        plan: *const u8,
        plan_len: usize,
        distance: i32,
        out: *mut u8,
        out_len: usize,
    ) -> Answer;
    fn tolmupung_tidy(
        job: *const u8,
        job_len: usize,
        plan: *const u8,
        plan_len: usize,
        out: *mut u8,
        out_len: usize,
    ) -> Answer;
    fn tolmupung_check_dossier(dossier: *const u8, dossier_len: usize) -> Answer;
}

/// The sheet at fault.
#[derive(Clone, Copy, Debug, PartialEq, Eq)]
pub enum Paper {
    Job = 0,
    Plan = 1,
    Note = 2,
    Dossier = 3,
    Request = 4,
}

/// A refusal by its number and the paper at fault.
#[derive(Clone, Copy, Debug, PartialEq, Eq)]
pub struct Refusal {
    pub number: u32,
    pub paper: Paper,
}

/// What the search gives where it refuses nothing.
pub enum Searched {
    Found {
        cost: u32,
        visits: u32,
        plan: Vec<u8>,
    },
    None {
        visits: u32,
    },
    Spent {
        visits: u32,
    },
}

/// What the check of a dossier gives where it refuses nothing.
#[derive(Clone, Copy, Debug, PartialEq, Eq)]
pub enum Checked {
    Cheapest { cost: u32 },
    None,
}

/// An outcome that an entry is proved not to give.
fn never(outcome: u32) -> ! {
    unreachable!("outcome {outcome}, which the library is proved not to give here")
}

impl Answer {
    /// The answer itself, unless it is a refusal.
    fn accepted(self) -> Result<Answer, Refusal> {
        if self.outcome != REFUSED {
            return Ok(self);
        }
        let paper = match self.paper {
            0 => Paper::Job,
            1 => Paper::Plan,
            2 => Paper::Note,
            3 => Paper::Dossier,
            4 => Paper::Request,
            other => unreachable!("paper {other}, which the library is proved not to name"),
        };
        Err(Refusal {
            number: self.number,
            paper,
        })
    }
}

/// The bytes that an entry writes when it is handed an output of `room` bytes.
fn written(room: usize, entry: impl FnOnce(*mut u8, usize) -> Answer) -> Result<Vec<u8>, Refusal> {
    let mut out = vec![0; room];
    let answer = entry(out.as_mut_ptr(), out.len()).accepted()?;
    out.truncate(answer.length as usize);
    Ok(out)
}

pub fn read_job(sheet: &[u8]) -> Result<Job, Refusal> {
    let reading = unsafe { tolmupung_read_job(sheet.as_ptr(), sheet.len()) };
    reading.answer.accepted().map(|_| reading.record)
}

pub fn read_plan(sheet: &[u8]) -> Result<Plan, Refusal> {
    let reading = unsafe { tolmupung_read_plan(sheet.as_ptr(), sheet.len()) };
    reading.answer.accepted().map(|_| reading.record)
}

pub fn write_job(job: &Job) -> Result<Vec<u8>, Refusal> {
    written(JOB_BYTES, |out, room| unsafe {
        tolmupung_write_job(*job, out, room)
    })
}

pub fn write_plan(plan: &Plan) -> Result<Vec<u8>, Refusal> {
    written(PLAN_BYTES, |out, room| unsafe {
        tolmupung_write_plan(*plan, out, room)
    })
}

/// The cost of a plan that passes.
pub fn judge(job: &[u8], plan: &[u8]) -> Result<u32, Refusal> {
    let answer = unsafe { tolmupung_judge(job.as_ptr(), job.len(), plan.as_ptr(), plan.len()) };
    answer.accepted().map(|passed| passed.cost)
}

pub fn search(job: &[u8], budget: u32) -> Result<Searched, Refusal> {
    let mut plan = vec![0; PLAN_BYTES];
    let (out, room) = (plan.as_mut_ptr(), plan.len());
    let answer = unsafe { tolmupung_search(job.as_ptr(), job.len(), budget, out, room) };
    let Answer {
        outcome,
        cost,
        visits,
        length,
        ..
    } = answer.accepted()?;
    Ok(match outcome {
        NONE => Searched::None { visits },
        SPENT => Searched::Spent { visits },
        FOUND => {
            plan.truncate(length as usize);
            Searched::Found { cost, visits, plan }
        }
        other => never(other),
    })
}

/// An entry that takes a job and a plan, and writes.
type Writer = unsafe extern "C" fn(*const u8, usize, *const u8, usize, *mut u8, usize) -> Answer;

fn written_for(writer: Writer, room: usize, job: &[u8], plan: &[u8]) -> Result<Vec<u8>, Refusal> {
    let (plan, plan_len) = (plan.as_ptr(), plan.len());
    written(room, |out, room| unsafe {
        writer(job.as_ptr(), job.len(), plan, plan_len, out, room)
    })
}

/// The house note for a plan, or for none where the plan has no bytes.
pub fn write_note(job: &[u8], plan: &[u8]) -> Result<Vec<u8>, Refusal> {
    written_for(tolmupung_write_note, NOTE_BYTES, job, plan)
}

pub fn tidy(job: &[u8], plan: &[u8]) -> Result<Vec<u8>, Refusal> {
    written_for(tolmupung_tidy, PLAN_BYTES, job, plan)
}

pub fn slide(job: &[u8], plan: &[u8], distance: i32) -> Result<Vec<u8>, Refusal> {
    let (plan, plan_len) = (plan.as_ptr(), plan.len());
    written(PLAN_BYTES, |out, room| unsafe {
        tolmupung_slide(job.as_ptr(), job.len(), plan, plan_len, distance, out, room)
    })
}

pub fn check_dossier(dossier: &[u8]) -> Result<Checked, Refusal> {
    let answer = unsafe { tolmupung_check_dossier(dossier.as_ptr(), dossier.len()) };
    let Answer { outcome, cost, .. } = answer.accepted()?;
    Ok(match outcome {
        NONE => Checked::None,
        CHEAPEST => Checked::Cheapest { cost },
        other => never(other),
    })
}

#[cfg(test)]
mod tests {
    use super::*;
    use crate::header;

    /// Whether the header names these so, behind the words of a comment.
    fn hold(comment: &str, wanted: &[(&str, usize)]) {
        let named = header::named(comment);
        for name in wanted {
            assert!(named.contains(name), "{name:?}");
        }
    }

    #[test]
    fn numbers_are_those_of_the_header() {
        let bytes = [
            ("JOB_BYTES", JOB_BYTES),
            ("PLAN_BYTES", PLAN_BYTES),
            ("NOTE_BYTES", NOTE_BYTES),
            ("DOSSIER_BYTES", DOSSIER_BYTES),
        ];
        hold("Cells of a record's tables", &bytes);
        let outcomes = [
            ("REFUSED", REFUSED),
            ("FOUND", FOUND),
            ("NONE", NONE),
            ("SPENT", SPENT),
            ("CHEAPEST", CHEAPEST),
        ];
        let outcomes = outcomes.map(|(name, outcome)| (name, outcome as usize));
        hold("What an answer can be", &outcomes);
        let papers = [
            ("PAPER_JOB", Paper::Job),
            ("PAPER_PLAN", Paper::Plan),
            ("PAPER_NOTE", Paper::Note),
            ("PAPER_DOSSIER", Paper::Dossier),
            ("PAPER_REQUEST", Paper::Request),
        ];
        hold(
            "The paper at fault",
            &papers.map(|(name, paper)| (name, paper as usize)),
        );
    }
}
