//! Calls drawn from a seed, and made.

use super::answers::fault_of;
use super::sound::{record_of, Pool};
use super::strings::arbitrary;
use crate::compare::moving::any_distance;
use crate::hex;
use crate::job::Job;
use crate::library::{
    check_dossier_by_library, check_note_by_library, judge_by_library, search_by_library,
    slide_by_library, tidy_by_library, write_note_by_library, Answer, Entries, Entry,
};
use crate::note::NOTE_BYTES;
use crate::output::{untouched, Written};
use crate::plan::Plan;
use crate::random::Random;
use crate::record::Record;
use crate::sheet::Form;

/// Placings of a job whose every walk and every tree ends soon.
const FEW_PLACINGS: u64 = 20_000;

/// As much of a budget, of the room for a note and of a note as any job is given.
const SMALL_BUDGET: u32 = 60;
const SMALL_ROOM: usize = 40;
const SMALL_NOTE: usize = 300;

/// One call of an entry. The strings are what it takes: papers, a dossier, or the cells of a record.
pub struct Call {
    pub entry: Entry,
    /// Each has just its own bytes on the heap, so that a byte read behind them can be noticed.
    strings: Vec<Box<[u8]>>,
    budget: u32,
    distance: i32,
    room: usize,
}

impl Call {
    /// The call of this number: at least one of its strings is arbitrary, the others are sound for the most part.
    pub fn draw(pool: &Pool, seed: u64, number: u64) -> Call {
        let base = Random::new(seed).number();
        let mut random = Random::new(base.wrapping_add(number));
        let entry = Entry::ALL[(number % Entry::ALL.len() as u64) as usize];
        let (sound, other) = (pool.pick(&mut random), pool.pick(&mut random));
        let (sheets, others) = (sound.taken_by(entry), other.taken_by(entry));
        let changed = random.below(sheets.len());
        let mut strings = Vec::new();
        for (place, (sheet, other)) in sheets.into_iter().zip(others).enumerate() {
            let string = if place == changed || random.one_in(4) {
                arbitrary(&mut random, sheet, other)
            } else {
                sheet.bytes.clone()
            };
            strings.push(string.into_boxed_slice());
        }
        let mut call = Call {
            entry,
            strings,
            budget: any_budget(&mut random),
            distance: any_distance(&mut random),
            room: any_room(&mut random),
        };
        call.be_brief();
        call
    }

    /// The walk of the search, the tree of a note and that of the house writer are as long as budget, note and room allow.
    /// Where the job does not end them soon, these are small.
    fn be_brief(&mut self) {
        let may_take_long = match self.entry {
            Entry::Search => self.budget > SMALL_BUDGET,
            Entry::WriteNote => self.room > SMALL_ROOM,
            Entry::CheckNote => self.strings[2].len() > SMALL_NOTE,
            _ => false,
        };
        if !may_take_long || ends_soon(&self.strings[0]) {
            return;
        }
        self.budget %= SMALL_BUDGET;
        self.room %= SMALL_ROOM;
        if self.entry == Entry::CheckNote {
            self.strings[2] = self.strings[2][..SMALL_NOTE].into();
        }
    }

    /// The answer, or what is wrong with it or with the output.
    pub fn make(&self) -> Result<Answer, String> {
        let strings: Vec<&[u8]> = self.strings.iter().map(|string| &string[..]).collect();
        let (budget, distance) = (self.budget, self.distance);
        match (self.entry, &strings[..]) {
            (Entry::ReadJob, [sheet]) => self.read::<Job>(sheet),
            (Entry::ReadPlan, [sheet]) => self.read::<Plan>(sheet),
            (Entry::WriteJob, [cells]) => self.write(|out| write_record::<Job>(cells, out)),
            (Entry::WritePlan, [cells]) => self.write(|out| write_record::<Plan>(cells, out)),
            (Entry::Judge, [job, plan]) => self.told(judge_by_library(job, plan)),
            (Entry::Search, [job]) => self.write(|out| search_by_library(job, budget, out)),
            (Entry::CheckNote, [job, plan, note]) => {
                self.told(check_note_by_library(job, plan, note))
            }
            (Entry::WriteNote, [job, plan]) => {
                self.write(|out| write_note_by_library(job, plan, out))
            }
            (Entry::Slide, [job, plan]) => {
                self.write(|out| slide_by_library(job, plan, distance, out))
            }
            (Entry::Tidy, [job, plan]) => self.write(|out| tidy_by_library(job, plan, out)),
            (Entry::CheckDossier, [dossier]) => self.told(check_dossier_by_library(dossier)),
            _ => unreachable!("as many strings as the entry takes"),
        }
    }

    fn told(&self, answer: Answer) -> Result<Answer, String> {
        match fault_of(self.entry, self.budget, self.room, &answer) {
            Some(fault) => Err(format!("{fault}: {answer:?}")),
            None => Ok(answer),
        }
    }

    fn read<F: Entries>(&self, sheet: &[u8]) -> Result<Answer, String> {
        let reading = F::read_by_library(sheet);
        if reading.answer.has_number() && reading.record != F::Record::EMPTY {
            return Err(format!("a refusal with a record: {reading:?}"));
        }
        self.told(reading.answer)
    }

    /// Only the sheet's bytes may change. Where there is no sheet, the answer's length is 0.
    fn write(&self, entry: impl FnOnce(&mut [u8]) -> Answer) -> Result<Answer, String> {
        let turn = self.strings.iter().map(|string| string.len() as u64).sum();
        let written = Written::by(&untouched(self.room, turn), entry);
        let answer = self.told(written.answer)?;
        let sheet = 0..i64::from(answer.length);
        let touched = written.touched();
        match touched.iter().find(|place| !sheet.contains(place)) {
            Some(place) => Err(format!("the output's byte {place} changed: {answer:?}")),
            None => Ok(answer),
        }
    }

    pub fn text(&self) -> String {
        let mut text = format!("{}\n", self.entry.name());
        for string in &self.strings {
            text += &(hex::counted(string) + "\n");
        }
        let (budget, room) = (self.budget, self.room);
        text + &format!(
            "budget {budget}, distance {}, into {room} bytes\n",
            self.distance
        )
    }
}

fn write_record<F: Entries>(cells: &[u8], out: &mut [u8]) -> Answer {
    F::write_by_library(&record_of::<F::Record>(cells), out)
}

fn any_budget(random: &mut Random) -> u32 {
    let any = random.number() as u32;
    *random.pick(&[
        0,
        1,
        any % SMALL_BUDGET,
        any % 1000,
        any,
        u32::MAX - 1,
        u32::MAX,
    ])
}

/// Short outputs for the most part, and some longer than any sheet.
fn any_room(random: &mut Random) -> usize {
    if random.one_in(60) {
        return NOTE_BYTES - 5000 + random.below(10_000);
    }
    let short = random.below(SMALL_ROOM);
    let middle = random.below(300);
    *random.pick(&[0, short, short, short, 31, middle, 274])
}

/// The job is refused, or so few rows can be placed in so many ways that every walk is short.
fn ends_soon(job: &[u8]) -> bool {
    let Ok(job) = Job::read(job) else {
        return true;
    };
    let rows = u64::from(job.deadline) * job.instances() as u64;
    let placings = job
        .kinds
        .iter()
        .fold(1, |placings: u64, _| placings.saturating_mul(rows));
    placings <= FEW_PLACINGS
}

#[cfg(test)]
mod tests {
    use super::*;
    use crate::samples::job_p;

    #[test]
    fn a_call_comes_back_from_its_seed_and_number() {
        let pool = Pool::new(1);
        let text = |seed, number| Call::draw(&pool, seed, number).text();
        for number in 0..200 {
            assert_eq!(text(1, number), text(1, number));
            assert_ne!(text(1, number), text(1, number + 11));
        }
        assert_ne!(text(1, 0), text(2, 0));
    }

    #[test]
    fn long_walks_have_small_budgets_and_short_ones_any() {
        let mut job = job_p();
        assert!(ends_soon(&job.sheet()) && ends_soon(&[0]));
        job.deadline = 31;
        assert!(!ends_soon(&job.sheet()));
        let pool = Pool::new(1);
        let mut met = [0, 0];
        for number in (0..11_000).filter(|number| number % 11 == Entry::Search as u64) {
            let call = Call::draw(&pool, 1, number);
            let soon = ends_soon(&call.strings[0]);
            assert!(soon || call.budget <= SMALL_BUDGET);
            met[usize::from(soon)] += usize::from(!soon || call.budget == u32::MAX);
        }
        assert!(met.iter().all(|times| *times >= 20), "{met:?}");
    }
}
