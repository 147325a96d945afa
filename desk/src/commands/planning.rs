//! Plans judged, searched for, noted and moved.

use super::keeping::{kept, written};
use crate::files::{self, Filed};
use crate::library::{self, Paper, Refusal, Searched};
use crate::progress::timed;
use crate::refusals::meaning;
use crate::trouble::{Status, Trouble};
use crate::words::{number, Given};
use std::io::Write;
use std::path::Path;

/// What a question about plans is asked of: a job, and a plan where there is one.
struct Asked {
    job: Filed,
    plan: Option<Filed>,
}

impl Asked {
    /// Job and plan are the first two words; where the plan is left out there is none.
    fn of(given: &Given, plan: fn(&Path) -> Result<Filed, Trouble>) -> Result<Asked, Trouble> {
        let job = files::paper(given.file(0))?;
        let plan = given.files().nth(1).map(plan).transpose()?;
        Ok(Asked { job, plan })
    }

    fn job(&self) -> &[u8] {
        &self.job.bytes
    }

    fn plan(&self) -> &[u8] {
        self.plan.as_ref().map_or(&[], |plan| &plan.bytes)
    }

    /// A refusal, told of the file that holds the paper.
    fn refused(&self, refusal: Refusal) -> Trouble {
        let told = match (refusal.paper, &self.plan) {
            (Paper::Job, _) => refusal.told_of(&self.job),
            (Paper::Plan, Some(plan)) => refusal.told_of(plan) + &self.counts(refusal.number),
            _ => refusal.told(),
        };
        Trouble::Refused(told)
    }

    /// How many there are of both, where the plan has others than the job.
    fn counts(&self, number: u32) -> String {
        let both = (
            library::read_job(self.job()),
            library::read_plan(self.plan()),
        );
        match (number, both) {
            (Refusal::COUNTS_DIFFER, (Ok(job), Ok(plan))) => format!(
                ": {} rows and {} selection bits for {} operations and {} instances",
                plan.n,
                plan.k,
                job.n,
                job.instances().len()
            ),
            _ => String::new(),
        }
    }

    /// Keeps what the library wrote, or tells its refusal.
    fn written(
        &self,
        given: &Given,
        out: &mut dyn Write,
        sheet: Result<Vec<u8>, Refusal>,
    ) -> Result<Status, Trouble> {
        let sheet = sheet.map_err(|refusal| self.refused(refusal))?;
        written(given, out, &sheet)
    }
}

pub fn judge(given: &Given, out: &mut dyn Write) -> Result<Status, Trouble> {
    let asked = Asked::of(given, files::paper)?;
    let judged = library::judge(asked.job(), asked.plan());
    let cost = judged.map_err(|refusal| asked.refused(refusal))?;
    writeln!(out, "passed, cost {cost}")?;
    Ok(Status::Good)
}

pub fn search(given: &Given, out: &mut dyn Write) -> Result<Status, Trouble> {
    let asked = Asked::of(given, files::paper)?;
    let budget = given.budget.unwrap_or(u32::MAX);
    let searched = timed("searching", || library::search(asked.job(), budget));
    match searched.map_err(|refusal| asked.refused(refusal))? {
        Searched::Found { cost, visits, plan } => {
            let kept = kept(given, &plan)?;
            writeln!(out, "found, cost {cost}, visits {visits}{kept}")?;
            Ok(Status::Good)
        }
        Searched::None { visits } => not_found(out, "none", visits, Refusal::NO_PLAN),
        Searched::Spent { visits } => not_found(out, "spent", visits, Refusal::BUDGET_SPENT),
    }
}

fn not_found(
    out: &mut dyn Write,
    outcome: &str,
    visits: u32,
    number: u32,
) -> Result<Status, Trouble> {
    writeln!(
        out,
        "{outcome}, visits {visits}: {} ({number})",
        meaning(number)
    )?;
    Ok(Status::Refused)
}

pub fn note(given: &Given, out: &mut dyn Write) -> Result<Status, Trouble> {
    let asked = Asked::of(given, files::plan)?;
    let note = library::write_note(asked.job(), asked.plan());
    let why = match (&note, &asked.plan) {
        (Err(refusal), plan) => why_no_note(refusal.number, plan.is_some()),
        (Ok(_), _) => "",
    };
    asked
        .written(given, out, note)
        .map_err(|trouble| match trouble {
            Trouble::Refused(line) => Trouble::Refused(line + why),
            other => other,
        })
}

/// What else can be said of the house writer's own refusals.
fn why_no_note(number: u32, plan: bool) -> &'static str {
    match (number, plan) {
        (Refusal::OUTPUT_SHORT, _) => "; 60,000 bytes are full before its walk has ended",
        (Refusal::CHEAPER, true) => "; another plan costs less",
        (Refusal::CHEAPER, false) => "; there is a plan",
        _ => "",
    }
}

pub fn slide(given: &Given, out: &mut dyn Write) -> Result<Status, Trouble> {
    let asked = Asked::of(given, files::paper)?;
    let distance = number(
        "the distance",
        i32::MIN,
        i32::MAX,
        given.file(2).as_os_str(),
    )?;
    asked.written(
        given,
        out,
        library::slide(asked.job(), asked.plan(), distance),
    )
}

pub fn tidy(given: &Given, out: &mut dyn Write) -> Result<Status, Trouble> {
    let asked = Asked::of(given, files::paper)?;
    asked.written(given, out, library::tidy(asked.job(), asked.plan()))
}
