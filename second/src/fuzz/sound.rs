//! Sound papers, from which arbitrary ones are made.

use crate::compare::noted::Noted;
use crate::dossier;
use crate::job::Job;
use crate::library::Entry;
use crate::note::NOTE_BYTES;
use crate::plan::Plan;
use crate::planned::{pairs, Planned};
use crate::random::Random;
use crate::record::Record;
use crate::sheet::Form;

/// Bytes of a small note.
const SMALL: usize = 60;

/// Small jobs with a plan or none and a note, and larger ones with plans that pass.
const SMALL_JOBS: usize = 40;
const LARGER_JOBS: usize = 12;

/// A paper or a record as bytes, and how many of them its header takes.
pub struct Sheet {
    pub bytes: Vec<u8>,
    pub header: usize,
}

pub struct Sound {
    job: Sheet,
    plan: Sheet,
    note: Sheet,
    dossier: Sheet,
    job_record: Sheet,
    plan_record: Sheet,
}

pub struct Pool {
    sound: Vec<Sound>,
}

impl Pool {
    pub fn new(seed: u64) -> Pool {
        let mut random = Random::new(seed);
        let mut sound = Vec::new();
        for _ in 0..SMALL_JOBS {
            let noted = Noted::small(&mut random, 1..=SMALL);
            sound.push(Sound::of(&noted.job, &noted.plan, &noted.note));
        }
        for Planned { job, plan } in pairs(&mut random, LARGER_JOBS) {
            let mut note = random.bytes(SMALL);
            note[0] = 0x3c;
            sound.push(Sound::of(&job, &plan.sheet(), &note));
        }
        let mut long = Noted::small(&mut random, 1..=SMALL);
        long.note.resize(NOTE_BYTES + 1, 0);
        sound.push(Sound::of(&long.job, &long.plan, &long.note));
        Pool { sound }
    }

    pub fn pick(&self, random: &mut Random) -> &Sound {
        random.pick(&self.sound)
    }
}

impl Sound {
    fn of(job: &Job, plan: &[u8], note: &[u8]) -> Sound {
        let sheet = job.sheet();
        let dossier = dossier::pack([&sheet, plan, note]);
        let no_plan = Plan {
            selection: vec![],
            rows: vec![],
        };
        let planned = Plan::read(plan).unwrap_or(no_plan);
        let paper = |bytes: &[u8], header| Sheet {
            bytes: bytes.to_vec(),
            header,
        };
        Sound {
            job: paper(&sheet, 6),
            plan: paper(plan, 2),
            note: paper(note, 1),
            dossier: paper(&dossier, dossier::HEADER_BYTES),
            job_record: cells_as_bytes(job.record()),
            plan_record: cells_as_bytes(planned.record()),
        }
    }

    /// What the entry takes, in its order.
    pub fn taken_by(&self, entry: Entry) -> Vec<&Sheet> {
        match entry {
            Entry::ReadJob | Entry::Search => vec![&self.job],
            Entry::ReadPlan => vec![&self.plan],
            Entry::WriteJob => vec![&self.job_record],
            Entry::WritePlan => vec![&self.plan_record],
            Entry::CheckDossier => vec![&self.dossier],
            Entry::CheckNote => vec![&self.job, &self.plan, &self.note],
            Entry::Judge | Entry::WriteNote | Entry::Slide | Entry::Tidy => {
                vec![&self.job, &self.plan]
            }
        }
    }
}

fn cells_as_bytes<R: Record>(mut record: R) -> Sheet {
    let cells = record.cells().into_iter();
    Sheet {
        bytes: cells.flat_map(|cell| cell.to_le_bytes()).collect(),
        header: 2 * R::HEADER_CELLS,
    }
}

/// The record of any bytes: cells for which there are none are zero, bytes behind the last cell are left.
pub fn record_of<R: Record>(bytes: &[u8]) -> R {
    let mut record = R::EMPTY;
    for (cell, pair) in record.cells().into_iter().zip(bytes.chunks_exact(2)) {
        *cell = u16::from_le_bytes([pair[0], pair[1]]);
    }
    record
}

#[cfg(test)]
mod tests {
    use super::*;
    use crate::record::{JobRecord, PlanRecord};
    use crate::samples::{job_p, plan_of_case_1};

    #[test]
    fn records_come_back_from_their_bytes() {
        let (job, plan) = (job_p().record(), plan_of_case_1().record());
        assert_eq!(record_of::<JobRecord>(&cells_as_bytes(job).bytes), job);
        let bytes = cells_as_bytes(plan).bytes;
        assert_eq!(record_of::<PlanRecord>(&bytes), plan);
        assert_eq!(
            record_of::<PlanRecord>(&[&bytes[..], &[9; 3]].concat()),
            plan
        );
        let cut = record_of::<PlanRecord>(&bytes[..5]);
        assert_eq!((cut.n, cut.k, cut.selection[0]), (3, 3, 0));
    }

    #[test]
    fn the_pool_holds_plans_and_none_and_a_note_too_long() {
        let pool = Pool::new(1);
        let plans = pool
            .sound
            .iter()
            .filter(|sound| !sound.plan.bytes.is_empty());
        let plans = plans.count();
        assert!(20 <= plans && plans < pool.sound.len(), "{plans}");
        let longest = pool.sound.iter().map(|sound| sound.note.bytes.len()).max();
        assert_eq!(longest, Some(60_001));
    }
}
