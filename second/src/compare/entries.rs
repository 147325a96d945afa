//! Each entry of the library beside this program's own, for one input.

use super::tally::Tally;
use crate::dossier::{self, DOSSIER_BYTES};
use crate::every_plan::cheapest;
use crate::hex;
use crate::job::Job;
use crate::judge::{judge, read_both};
use crate::library::{
    check_dossier_by_library, check_note_by_library, judge_by_library, search_by_library,
    slide_by_library, tidy_by_library, write_note_by_library, Answer, Entries, Entry, Reading,
};
use crate::note::check::check;
use crate::note::write::write;
use crate::output::{untouched, Written};
use crate::plan::Plan;
use crate::rules::cost;
use crate::search::{search, walk, Searched};
use crate::sheet::Form;
use crate::slide::slide;
use crate::tidy::tidy;
use std::fmt::Debug;

pub struct Comparison {
    pub tally: Tally,
}

/// Two that were asked the same, each with its answer; the second ought to answer as the first.
pub struct Disagreement {
    entry: Entry,
    input: String,
    asked: Pair,
    answers: [String; 2],
}

/// The names of the two.
type Pair = [&'static str; 2];

const LIBRARY: Pair = ["second program", "library"];

pub type Checked = Result<(), Disagreement>;

impl Disagreement {
    pub fn text(&self) -> String {
        let [one, other] = self.asked;
        let [of_one, of_other] = &self.answers;
        format!(
            "{}: the {other} disagrees\n\ninput:\n{}\n\n{one}:\n{of_one}\n\n{other}:\n{of_other}\n",
            self.entry.name(),
            self.input,
        )
    }
}

fn agree<Reply: Debug + PartialEq>(
    entry: Entry,
    asked: Pair,
    input: impl Fn() -> String,
    [one, other]: [&Reply; 2],
) -> Checked {
    if one == other {
        return Ok(());
    }
    Err(Disagreement {
        entry,
        input: input(),
        asked,
        answers: [one, other].map(|reply| format!("{reply:?}")),
    })
}

impl Comparison {
    pub fn new() -> Comparison {
        Comparison {
            tally: Tally::new(),
        }
    }

    pub fn read<F: Entries>(&mut self, sheet: &[u8]) -> Checked {
        let own = Reading::of(F::read(sheet));
        self.tally.count(F::READER, &own.answer);
        let library = F::read_by_library(sheet);
        let input = || hex::counted(sheet);
        agree(F::READER, LIBRARY, input, [&own, &library])
    }

    pub fn write<F: Entries>(&mut self, record: &F::Record, room: usize) -> Checked {
        let before = self.untouched_output(room);
        let own = Written::ought(F::write(record, room), &before);
        self.tally.count(F::WRITER, &own.answer);
        let library = Written::by(&before, |out| F::write_by_library(record, out));
        let input = || format!("{record:?}\ninto {room} bytes");
        agree(F::WRITER, LIBRARY, input, [&own, &library])
    }

    pub fn judge(&mut self, job: &[u8], plan: &[u8]) -> Checked {
        let own = Answer::judged(judge(job, plan));
        self.tally.count(Entry::Judge, &own);
        let input = || papers_text(job, plan);
        let library = judge_by_library(job, plan);
        agree(Entry::Judge, LIBRARY, input, [&own, &library])
    }

    pub fn search(&mut self, job: &[u8], budget: u32, room: usize) -> Checked {
        let before = self.untouched_output(room);
        let searched = search(job, budget, room);
        let own = Written::with_sheet(Answer::searched(&searched), &searched.sheet(), &before);
        self.tally.count(Entry::Search, &own.answer);
        let library = Written::by(&before, |out| search_by_library(job, budget, out));
        let input = || {
            let job = hex::counted(job);
            format!("job, {job}\nbudget {budget}, into {room} bytes")
        };
        agree(Entry::Search, LIBRARY, input, [&own, &library])
    }

    /// The best of the walk beside that of all plans judged. The library is not asked.
    pub fn walk(&mut self, job: &Job) -> Checked {
        const WALK: Pair = ["judge of every plan", "walk"];
        let of_the_walk = match walk(job, u32::MAX) {
            Searched::Found { best, .. } => Some(best),
            _ => None,
        };
        self.tally.walks_confirmed += 1;
        let input = || hex::counted(&job.sheet());
        agree(Entry::Search, WALK, input, [&cheapest(job), &of_the_walk])
    }

    pub fn check_note(&mut self, job: &[u8], plan: &[u8], note: &[u8]) -> Checked {
        let own = Answer::checked(check(job, plan, note));
        self.tally.count(Entry::CheckNote, &own);
        let input = || format!("{}\nnote, {}", papers_text(job, plan), hex::counted(note));
        let library = check_note_by_library(job, plan, note);
        agree(Entry::CheckNote, LIBRARY, input, [&own, &library])
    }

    pub fn write_note(&mut self, job: &[u8], plan: &[u8], room: usize) -> Checked {
        let before = self.untouched_output(room);
        let own = Written::ought(write(job, plan, room), &before);
        self.tally.count(Entry::WriteNote, &own.answer);
        let library = Written::by(&before, |out| write_note_by_library(job, plan, out));
        let input = || format!("{}\ninto {room} bytes", papers_text(job, plan));
        agree(Entry::WriteNote, LIBRARY, input, [&own, &library])
    }

    pub fn slide(&mut self, job: &[u8], plan: &[u8], distance: i32, room: usize) -> Checked {
        let before = self.untouched_output(room);
        let own = Written::ought(slide(job, plan, distance, room), &before);
        self.tally.count(Entry::Slide, &own.answer);
        let library = Written::by(&before, |out| slide_by_library(job, plan, distance, out));
        let input = || {
            let papers = papers_text(job, plan);
            format!("{papers}\nby {distance}, into {room} bytes")
        };
        agree(Entry::Slide, LIBRARY, input, [&own, &library])?;
        if library.answer.is_written() {
            self.slid_passes(job, plan, library.sheet())?;
        }
        Ok(())
    }

    /// The library's judge says of a plan slid what it says of the plan lent.
    fn slid_passes(&mut self, job: &[u8], lent: &[u8], slid: &[u8]) -> Checked {
        const SLID: Pair = [
            "library's judge of the plan lent",
            "library's judge of the plan slid",
        ];
        self.tally.slid_judged += 1;
        let input = || format!("{}\nslid, {}", papers_text(job, lent), hex::counted(slid));
        let verdicts = [lent, slid].map(|plan| judge_by_library(job, plan));
        agree(Entry::Slide, SLID, input, verdicts.each_ref())
    }

    pub fn tidy(&mut self, job: &[u8], plan: &[u8], room: usize) -> Checked {
        let before = self.untouched_output(room);
        let own = Written::ought(tidy(job, plan, room), &before);
        self.tally.count(Entry::Tidy, &own.answer);
        let library = Written::by(&before, |out| tidy_by_library(job, plan, out));
        let input = || format!("{}\ninto {room} bytes", papers_text(job, plan));
        agree(Entry::Tidy, LIBRARY, input, [&own, &library])?;
        if library.answer.is_written() {
            self.tidied_passes(job, plan, library.sheet())?;
        }
        Ok(())
    }

    /// The library's judge passes a tidied plan at the cost of the selection lent, and its starts are those lent.
    fn tidied_passes(&mut self, job: &[u8], lent: &[u8], tidied: &[u8]) -> Checked {
        const TIDIED: Pair = ["plan lent", "plan tidied, judged by the library"];
        self.tally.tidied_judged += 1;
        let input = || {
            format!(
                "{}\ntidied, {}",
                papers_text(job, lent),
                hex::counted(tidied)
            )
        };
        let (held_job, held_plan) =
            read_both(job, lent).expect("a job and a plan that were tidied");
        let cost = cost(&held_job, &held_plan.selection);
        let of_lent = (Answer::judged(Ok(cost)), Some(starts_of(&held_plan)));
        let read = Plan::read(tidied).ok();
        let of_tidied = (judge_by_library(job, tidied), read.as_ref().map(starts_of));
        agree(Entry::Tidy, TIDIED, input, [&of_lent, &of_tidied])
    }

    pub fn check_dossier(&mut self, bytes: &[u8]) -> Checked {
        let own = Answer::checked(dossier::check(bytes));
        self.tally.count(Entry::CheckDossier, &own);
        let library = check_dossier_by_library(bytes);
        agree(
            Entry::CheckDossier,
            LIBRARY,
            || hex::counted(bytes),
            [&own, &library],
        )
    }

    /// The dossier of three papers. Unless it is too long, the library's check of it stands beside its check of the note.
    pub fn check_packed(&mut self, papers: dossier::Papers) -> Checked {
        const PACKED: Pair = ["library's note check", "library's dossier check"];
        let packed = dossier::pack(papers);
        self.check_dossier(&packed)?;
        if packed.len() > DOSSIER_BYTES {
            return Ok(());
        }
        self.tally.dossiers_unpacked += 1;
        let [job, plan, note] = papers;
        let answers = [
            check_note_by_library(job, plan, note),
            check_dossier_by_library(&packed),
        ];
        let input = || hex::counted(&packed);
        agree(Entry::CheckDossier, PACKED, input, answers.each_ref())
    }

    /// What all plans judged say of a claim, beside what this program's note says. The library is not asked.
    pub fn confirm_note(
        &mut self,
        job: &Job,
        claim: Option<u32>,
        cheapest: Option<u32>,
        accepted: bool,
    ) -> Checked {
        const NOTE: Pair = ["judge of every plan", "note"];
        self.tally.notes_confirmed += 1;
        let input = || format!("job, {}\nclaim {claim:?}", hex::counted(&job.sheet()));
        let of_all_plans = claim == cheapest;
        agree(Entry::CheckNote, NOTE, input, [&of_all_plans, &accepted])
    }

    /// A sound job or plan: its sheet read, its record written, and there and back by the library alone.
    pub fn sound<F: Entries>(&mut self, held: &F) -> Checked {
        let (sheet, record) = (held.sheet(), held.record());
        self.read::<F>(&sheet)?;
        self.write::<F>(&record, sheet.len())?;
        let read = F::read_by_library(&sheet).record;
        let mut output = vec![0xff; sheet.len()];
        let answer = F::write_by_library(&read, &mut output);
        self.tally.round_trips += 1;
        let input = || format!("the sheet of {record:?}\nread, and the record read written");
        let own = (record, Answer::written(sheet.len()), sheet);
        let library = (read, answer, output);
        agree(F::WRITER, LIBRARY, input, [&own, &library])
    }

    /// Each comparison finds other bytes in its output.
    fn untouched_output(&self, room: usize) -> Vec<u8> {
        untouched(room, self.tally.total())
    }
}

fn starts_of(plan: &Plan) -> Vec<u16> {
    plan.rows.iter().map(|row| row.start).collect()
}

fn papers_text(job: &[u8], plan: &[u8]) -> String {
    format!("job, {}\nplan, {}", hex::counted(job), hex::counted(plan))
}
