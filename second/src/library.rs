//! The library under test, called as the C header declares it.

use crate::job::Job;
use crate::note::check::Proved;
use crate::note::NOTE_BYTES;
use crate::plan::Plan;
use crate::record::{JobRecord, PlanRecord, Record};
use crate::refusal::{Paper, Refusal};
use crate::search::Searched;
use crate::sheet::Form;
use std::mem::{align_of, offset_of, size_of};

pub const REFUSED: u32 = 0;
pub const PASSED: u32 = 1;
pub const FOUND: u32 = 2;
pub const NONE: u32 = 3;
pub const SPENT: u32 = 4;
pub const CHEAPEST: u32 = 5;
pub const WRITTEN: u32 = 6;
pub const READ: u32 = 7;

/// The names of the outcomes, by their number.
pub const OUTCOMES: [&str; 8] = [
    "refused", "passed", "found", "none", "spent", "cheapest", "written", "read",
];

/// The most bytes that a sheet has.
const JOB_BYTES: usize = 274;
pub const PLAN_BYTES: usize = 31;

#[repr(C)]
#[derive(Clone, Copy, Debug, PartialEq, Eq)]
pub struct Answer {
    pub outcome: u32,
    pub number: u32,
    pub paper: u32,
    pub cost: u32,
    pub visits: u32,
    pub length: u32,
}

/// What a reader gives: tolmupung_job_read, tolmupung_plan_read.
#[repr(C)]
#[derive(Clone, Copy, Debug, PartialEq, Eq)]
pub struct Reading<R> {
    pub answer: Answer,
    pub record: R,
}

const _: () = {
    assert!(size_of::<Answer>() == 24 && align_of::<Answer>() == 4);
    assert!(size_of::<Reading<JobRecord>>() == 628 && offset_of!(Reading<JobRecord>, record) == 24);
    assert!(size_of::<Reading<PlanRecord>>() == 156);
    assert!(offset_of!(Reading<PlanRecord>, record) == 24);
};

impl Answer {
    pub const NOTHING: Answer = Answer {
        outcome: REFUSED,
        number: 0,
        paper: 0,
        cost: 0,
        visits: 0,
        length: 0,
    };

    pub fn read() -> Answer {
        Answer {
            outcome: READ,
            ..Answer::NOTHING
        }
    }

    pub fn written(length: usize) -> Answer {
        Answer {
            outcome: WRITTEN,
            length: length as u32,
            ..Answer::NOTHING
        }
    }

    /// What the judge ought to give.
    pub fn judged(verdict: Result<u32, Refusal>) -> Answer {
        match verdict {
            Ok(cost) => Answer {
                outcome: PASSED,
                cost,
                ..Answer::NOTHING
            },
            Err(refusal) => Answer::refused(refusal),
        }
    }

    /// What the search ought to give.
    pub fn searched(searched: &Searched) -> Answer {
        match searched {
            Searched::Found { best, visits } => Answer {
                outcome: FOUND,
                cost: best.cost,
                visits: *visits,
                length: best.plan.sheet().len() as u32,
                ..Answer::NOTHING
            },
            Searched::None { visits } => Answer {
                outcome: NONE,
                visits: *visits,
                ..Answer::refused(Refusal::NO_PLAN)
            },
            Searched::Spent { budget } => Answer {
                outcome: SPENT,
                visits: *budget,
                ..Answer::refused(Refusal::BUDGET_SPENT)
            },
            Searched::Refused(refusal) => Answer::refused(*refusal),
        }
    }

    /// What the check of a note ought to give.
    pub fn checked(checked: Result<Proved, Refusal>) -> Answer {
        match checked {
            Ok(Proved::Cheapest { cost }) => Answer {
                outcome: CHEAPEST,
                cost,
                ..Answer::NOTHING
            },
            Ok(Proved::None) => Answer {
                outcome: NONE,
                ..Answer::NOTHING
            },
            Err(refusal) => Answer::refused(refusal),
        }
    }

    pub fn refused(refusal: Refusal) -> Answer {
        Answer {
            outcome: REFUSED,
            number: refusal.number(),
            paper: refusal.paper as u32,
            ..Answer::NOTHING
        }
    }

    /// What was asked for was not given, and a number and a paper say why.
    pub fn has_number(&self) -> bool {
        self.number != 0
    }

    /// An output was written, by a writer, slide or tidy.
    pub fn is_written(&self) -> bool {
        self.outcome == WRITTEN
    }

    /// There is no plan: the search's outcome, or what a note proves.
    pub fn is_none(&self) -> bool {
        self.outcome == NONE
    }
}

/// What a reader ought to give.
impl<R: Record> Reading<R> {
    pub fn of<F: Form<Record = R>>(read: Result<F, Refusal>) -> Reading<R> {
        match read {
            Ok(held) => Reading {
                answer: Answer::read(),
                record: held.record(),
            },
            Err(refusal) => Reading {
                answer: Answer::refused(refusal),
                record: R::EMPTY,
            },
        }
    }
}

extern "C" {
    fn tolmupung_read_job(sheet: *const u8, sheet_len: usize) -> Reading<JobRecord>;
    fn tolmupung_write_job(job: JobRecord, out: *mut u8, out_len: usize) -> Answer;
    fn tolmupung_read_plan(sheet: *const u8, sheet_len: usize) -> Reading<PlanRecord>;
    fn tolmupung_write_plan(plan: PlanRecord, out: *mut u8, out_len: usize) -> Answer;
    fn tolmupung_judge(job: *const u8, job_len: usize, plan: *const u8, plan_len: usize) -> Answer;
    fn tolmupung_search(
        job: *const u8,
        job_len: usize,
        budget: u32,
        out: *mut u8,
        out_len: usize,
    ) -> Answer;
    fn tolmupung_check_note(
        job: *const u8,
        job_len: usize,
        plan: *const u8,
        plan_len: usize,
        note: *const u8,
        note_len: usize,
    ) -> Answer;
    fn tolmupung_write_note(
        job: *const u8,
        job_len: usize,
        plan: *const u8,
        plan_len: usize,
        out: *mut u8,
        out_len: usize,
    ) -> Answer;
    fn tolmupung_slide(
        job: *const u8,
        job_len: usize,
        plan: *const u8,
        plan_len: usize,
        distance: i32,
        out: *mut u8,
        out_len: usize,
    ) -> Answer;
    fn tolmupung_tidy(
        job: *const u8,
        job_len: usize,
        plan: *const u8,
        plan_len: usize,
        out: *mut u8,
        out_len: usize,
    ) -> Answer;
    fn tolmupung_check_dossier(dossier: *const u8, dossier_len: usize) -> Answer;
}

#[derive(Clone, Copy, Debug, PartialEq, Eq, PartialOrd, Ord)]
pub enum Entry {
    ReadJob,
    WriteJob,
    ReadPlan,
    WritePlan,
    Judge,
    Search,
    CheckNote,
    WriteNote,
    Slide,
    Tidy,
    CheckDossier,
}

/// A paper, and the numbers that an entry can give with it.
type Refusals = (Paper, &'static [u32]);

const JOB_READ: Refusals = (Paper::Job, &[1, 2, 3, 4, 5, 6]);
const PLAN_JUDGED: Refusals = (
    Paper::Plan,
    &[1, 2, 3, 6, 10, 11, 12, 13, 14, 15, 16, 17, 18],
);
const NOTE_CHECKED: Refusals = (Paper::Note, &[1, 2, 6, 40, 41, 42, 43, 44]);

impl Entry {
    pub const ALL: [Entry; 11] = [
        Entry::ReadJob,
        Entry::WriteJob,
        Entry::ReadPlan,
        Entry::WritePlan,
        Entry::Judge,
        Entry::Search,
        Entry::CheckNote,
        Entry::WriteNote,
        Entry::Slide,
        Entry::Tidy,
        Entry::CheckDossier,
    ];

    pub fn name(self) -> &'static str {
        match self {
            Entry::ReadJob => "job reader",
            Entry::WriteJob => "job writer",
            Entry::ReadPlan => "plan reader",
            Entry::WritePlan => "plan writer",
            Entry::Judge => "judge",
            Entry::Search => "search",
            Entry::CheckNote => "note check",
            Entry::WriteNote => "note writer",
            Entry::Slide => "slide",
            Entry::Tidy => "tidy",
            Entry::CheckDossier => "dossier check",
        }
    }

    /// The outcomes that the entry can give.
    pub fn outcomes(self) -> &'static [u32] {
        match self {
            Entry::ReadJob | Entry::ReadPlan => &[REFUSED, READ],
            Entry::Judge => &[REFUSED, PASSED],
            Entry::Search => &[REFUSED, FOUND, NONE, SPENT],
            Entry::CheckNote | Entry::CheckDossier => &[REFUSED, NONE, CHEAPEST],
            Entry::WriteJob | Entry::WritePlan | Entry::WriteNote | Entry::Slide | Entry::Tidy => {
                &[REFUSED, WRITTEN]
            }
        }
    }

    /// The most bytes that the entry writes.
    pub fn most_written(self) -> usize {
        match self {
            Entry::WriteJob => JOB_BYTES,
            Entry::WriteNote => NOTE_BYTES,
            Entry::WritePlan | Entry::Search | Entry::Slide | Entry::Tidy => PLAN_BYTES,
            Entry::ReadJob
            | Entry::ReadPlan
            | Entry::Judge
            | Entry::CheckNote
            | Entry::CheckDossier => 0,
        }
    }

    /// The refusals that the entry can give, and for the search its outcomes spent and none, by their numbers.
    pub fn refusals(self) -> &'static [Refusals] {
        match self {
            Entry::ReadJob => &[JOB_READ],
            Entry::WriteJob => &[(Paper::Job, &[3, 4, 5, 7]), (Paper::Request, &[22])],
            Entry::ReadPlan => &[(Paper::Plan, &[1, 2, 3, 6])],
            Entry::WritePlan => &[(Paper::Plan, &[3, 7]), (Paper::Request, &[22])],
            Entry::Judge => &[JOB_READ, PLAN_JUDGED],
            Entry::Search => &[
                (Paper::Job, &[1, 2, 3, 4, 5, 6, 31]),
                (Paper::Request, &[22, 30]),
            ],
            Entry::CheckNote => &[JOB_READ, PLAN_JUDGED, NOTE_CHECKED],
            Entry::WriteNote => &[
                JOB_READ,
                PLAN_JUDGED,
                (Paper::Note, &[44]),
                (Paper::Request, &[22]),
            ],
            Entry::Slide => &[
                JOB_READ,
                PLAN_JUDGED,
                (Paper::Plan, &[21]),
                (Paper::Request, &[20, 22]),
            ],
            Entry::Tidy => &[
                JOB_READ,
                (Paper::Plan, &[1, 2, 3, 6, 10, 12, 13, 14, 15, 16, 17, 18]),
                (Paper::Request, &[22]),
            ],
            Entry::CheckDossier => &[
                (Paper::Dossier, &[1, 2, 6, 50, 51]),
                JOB_READ,
                PLAN_JUDGED,
                NOTE_CHECKED,
            ],
        }
    }
}

/// A form's two entries. A slice's pointer is never null, not even that of an empty one.
pub trait Entries: Form {
    const READER: Entry;
    const WRITER: Entry;

    fn read_by_library(sheet: &[u8]) -> Reading<Self::Record>;
    fn write_by_library(record: &Self::Record, out: &mut [u8]) -> Answer;
}

impl Entries for Job {
    const READER: Entry = Entry::ReadJob;
    const WRITER: Entry = Entry::WriteJob;

    fn read_by_library(sheet: &[u8]) -> Reading<JobRecord> {
        unsafe { tolmupung_read_job(sheet.as_ptr(), sheet.len()) }
    }

    fn write_by_library(job: &JobRecord, out: &mut [u8]) -> Answer {
        unsafe { tolmupung_write_job(*job, out.as_mut_ptr(), out.len()) }
    }
}

impl Entries for Plan {
    const READER: Entry = Entry::ReadPlan;
    const WRITER: Entry = Entry::WritePlan;

    fn read_by_library(sheet: &[u8]) -> Reading<PlanRecord> {
        unsafe { tolmupung_read_plan(sheet.as_ptr(), sheet.len()) }
    }

    fn write_by_library(plan: &PlanRecord, out: &mut [u8]) -> Answer {
        unsafe { tolmupung_write_plan(*plan, out.as_mut_ptr(), out.len()) }
    }
}

/// The entry that judges a plan against its job.
pub fn judge_by_library(job: &[u8], plan: &[u8]) -> Answer {
    unsafe { tolmupung_judge(job.as_ptr(), job.len(), plan.as_ptr(), plan.len()) }
}

/// The entry that searches for a job's cheapest plan.
pub fn search_by_library(job: &[u8], budget: u32, out: &mut [u8]) -> Answer {
    unsafe { tolmupung_search(job.as_ptr(), job.len(), budget, out.as_mut_ptr(), out.len()) }
}

/// The entry that checks a closing note. A plan of no bytes is none.
pub fn check_note_by_library(job: &[u8], plan: &[u8], note: &[u8]) -> Answer {
    let papers = [job, plan, note].map(|paper| (paper.as_ptr(), paper.len()));
    let [(job, job_len), (plan, plan_len), (note, note_len)] = papers;
    unsafe { tolmupung_check_note(job, job_len, plan, plan_len, note, note_len) }
}

/// The entry that writes the house note.
pub fn write_note_by_library(job: &[u8], plan: &[u8], out: &mut [u8]) -> Answer {
    let papers = [job, plan].map(|paper| (paper.as_ptr(), paper.len()));
    let [(job, job_len), (plan, plan_len)] = papers;
    unsafe { tolmupung_write_note(job, job_len, plan, plan_len, out.as_mut_ptr(), out.len()) }
}

/// The entry that slides a plan.
pub fn slide_by_library(job: &[u8], plan: &[u8], distance: i32, out: &mut [u8]) -> Answer {
    let papers = [job, plan].map(|paper| (paper.as_ptr(), paper.len()));
    let [(job, job_len), (plan, plan_len)] = papers;
    let (out, out_len) = (out.as_mut_ptr(), out.len());
    unsafe { tolmupung_slide(job, job_len, plan, plan_len, distance, out, out_len) }
}

/// The entry that tidies a plan.
pub fn tidy_by_library(job: &[u8], plan: &[u8], out: &mut [u8]) -> Answer {
    let papers = [job, plan].map(|paper| (paper.as_ptr(), paper.len()));
    let [(job, job_len), (plan, plan_len)] = papers;
    unsafe { tolmupung_tidy(job, job_len, plan, plan_len, out.as_mut_ptr(), out.len()) }
}

/// The entry that checks a dossier.
pub fn check_dossier_by_library(dossier: &[u8]) -> Answer {
    unsafe { tolmupung_check_dossier(dossier.as_ptr(), dossier.len()) }
}

#[cfg(test)]
mod tests {
    use super::*;
    use std::collections::BTreeSet;

    /// The table of document 01.
    #[test]
    fn every_number_can_be_given_by_an_entry() {
        let refusals = Entry::ALL.iter().flat_map(|entry| entry.refusals());
        let numbers: BTreeSet<u32> = refusals
            .flat_map(|(_, numbers)| *numbers)
            .copied()
            .collect();
        let of_document_01: Vec<u32> = (1..=7)
            .chain(10..=18)
            .chain(20..=22)
            .chain([30, 31])
            .chain(40..=44)
            .chain([50, 51])
            .collect();
        assert_eq!(Vec::from_iter(numbers), of_document_01);
    }
}
