//! Jobs, each with the cheapest plan or none, and the house note for it.

use super::searching;
use crate::dossier::Papers;
use crate::job::{Ability, Job, Link};
use crate::note::lent;
use crate::note::write::{house, note_of};
use crate::plan::Plan;
use crate::planned::Planned;
use crate::random::Random;
use crate::record::{KINDS, MAX_INSTANCES, MAX_OPERATIONS};
use crate::rules::smallest_selection;
use crate::samples::{empty_job, plan_of, unit_for_one_kind, CANNOT};
use crate::search::{walk, Searched};
use crate::sheet::Form;
use crate::small::small_job;
use std::ops::RangeInclusive;

/// The operations in a row of the deep job, and the times of all but the last, and of the last.
const ROW: usize = 6;
const SHORT: u16 = 5;
const LONG: u16 = 6;

pub struct Noted {
    pub job: Job,
    /// The cost of the plan, None where there is none.
    pub claim: Option<u32>,
    pub sheet: Vec<u8>,
    pub plan: Vec<u8>,
    pub note: Vec<u8>,
}

impl Noted {
    /// Up to so many bytes of note. None where it is longer, or where the plan is not cheapest.
    pub fn of(job: Job, plan: Option<&Plan>, most: usize) -> Option<Noted> {
        let (sheet, plan, claim) = lend(&job, plan);
        let note = note_of(&job, claim, most, house).ok()?;
        Some(Noted {
            job,
            claim,
            sheet,
            plan,
            note,
        })
    }

    /// With the plan that the walk finds, or none where it finds none. None where the budget is spent, too.
    pub fn of_walk(job: Job, budget: u32, most: usize) -> Option<Noted> {
        match walk(&job, budget) {
            Searched::Found { best, .. } => Noted::of(job, Some(&best.plan), most),
            Searched::None { .. } => Noted::of(job, None, most),
            _ => None,
        }
    }

    /// Job, plan and note.
    pub fn papers(&self) -> Papers<'_> {
        [&self.sheet, &self.plan, &self.note]
    }

    /// Small jobs are drawn until a house note is as long as wanted.
    pub fn small(random: &mut Random, bytes: RangeInclusive<usize>) -> Noted {
        loop {
            let noted = Noted::of_walk(small_job(random), searching::LONG, *bytes.end());
            match noted {
                Some(noted) if bytes.contains(&noted.note.len()) => return noted,
                _ => continue,
            }
        }
    }
}

/// The two sheets, and the claim.
pub fn lend(job: &Job, plan: Option<&Plan>) -> (Vec<u8>, Vec<u8>, Option<u32>) {
    let (job, plan) = (job.sheet(), plan.map_or(vec![], Plan::sheet));
    let (_, claim) = lent(&job, &plan).expect("a plan that passes");
    (job, plan, claim)
}

/// Operations of which each comes behind the one before, at no cost: every place can be closed, and every place can be
/// split as long as it has steps left.
pub fn job_in_a_row(n: u16, deadline: u16, copies: u16) -> Job {
    Job {
        kinds: vec![0; n.into()],
        links: (1..n).map(|to| Link { from: to - 1, to }).collect(),
        types: vec![unit_for_one_kind(0, 0, copies, 1)],
        deadline,
        ..empty_job()
    }
}

/// A job whose house note has 480,000 bits, which just fill 60,000 bytes, and some more bits. With its cheapest plan.
/// Each of the first three operations finds one free option and many dear ones, which are closed. Two more have 87 free
/// options, less one for the second; of the sixth all 58 options are dear. So the note has 5 bits of header, three splits
/// with 601 closed options and those asked for, and the splits 1 + 87 (1 + 86), the last of each with 58 closed options.
pub fn full_house(more_bits: u16) -> Planned {
    const STEPS: u16 = 29;
    let unit = |cost, copies, starts: [u16; 3]| {
        let mut unit = unit_for_one_kind(0, cost, copies, 0);
        for (kind, starts) in (2..).zip(starts) {
            let time = STEPS + 1 - starts;
            unit.abilities[kind] = Ability { time, interval: 1 };
        }
        unit
    };
    let job = Job {
        kinds: vec![2, 3, 4, 0, 0, 1, 0],
        types: vec![
            unit(0, 1, [1, 2, 3]),
            unit(5, 7, [27; 3]),
            unit(5, 1, [12 + more_bits, 11, 11]),
            unit_for_one_kind(0, 0, 3, 1),
            unit_for_one_kind(1, 5, 2, 1),
        ],
        deadline: STEPS,
        ..empty_job()
    };
    let rows = [(1, 0), (2, 0), (3, 0), (1, 9), (2, 9), (1, 13), (3, 9)];
    planned(job, &rows)
}

fn planned(job: Job, rows: &[(u16, u16)]) -> Planned {
    let mut plan = plan_of(&[], rows);
    plan.selection = smallest_selection(&job, &plan.rows);
    Planned { job, plan }
}

/// N 24, T 31, K 16. Four rows of six operations, each row on an instance of its own, that just fill the steps: five
/// operations of five steps and one of six. The last operation of all finds no instance that costs nothing. So the house
/// note follows each row to its end, and goes no further from what is placed elsewhere. With its cheapest plan.
pub fn deep() -> Planned {
    let mut job = job_in_a_row(MAX_OPERATIONS as u16, 31, 1);
    job.types.clear();
    job.links.retain(|link| usize::from(link.to) % ROW != 0);
    let mut rows = Vec::new();
    let mut dear = unit_for_one_kind(0, 9, 7, SHORT);
    for row in 0..MAX_OPERATIONS / ROW {
        let kinds = [2 * row, 2 * row + 1];
        let mut unit = unit_for_one_kind(kinds[0], 0, 1, SHORT);
        unit.abilities[kinds[1]] = Ability {
            time: LONG,
            interval: SHORT,
        };
        dear.abilities[2 * row..][..2].copy_from_slice(&unit.abilities[2 * row..][..2]);
        job.types.push(unit);
        job.kinds[ROW * row..][..ROW].fill(kinds[0] as u16);
        job.kinds[ROW * row + ROW - 1] = kinds[1] as u16;
        rows.extend((0..ROW as u16).map(|place| (1 + SHORT * place, row as u16)));
    }
    job.types[MAX_OPERATIONS / ROW - 1].abilities[KINDS - 1] = CANNOT;
    job.types.push(dear);
    job.types.push(unit_for_one_kind(KINDS - 1, 9, 5, LONG));
    rows[MAX_OPERATIONS - 1].1 = MAX_INSTANCES as u16 - 1;
    planned(job, &rows)
}

#[cfg(test)]
mod tests {
    use super::*;
    use crate::note::check::check_and_tell;
    use crate::note::{Tree, NOTE_BYTES};

    #[test]
    fn the_deep_note_goes_down_to_24_operations_placed() {
        let Planned { job, plan } = deep();
        assert_eq!((job.deadline, job.instances()), (31, MAX_INSTANCES));
        let noted = Noted::of(job, Some(&plan), NOTE_BYTES).expect("a note that fits");
        assert_eq!(noted.claim, Some(9));
        let mut deepest = 0;
        let mut tell = |tree: &Tree, _| deepest = deepest.max(tree.depth());
        let proved = check_and_tell(&noted.sheet, &noted.plan, &noted.note, &mut tell);
        assert!(proved.is_ok());
        assert_eq!(deepest, MAX_OPERATIONS);
    }

    #[test]
    fn a_house_note_of_60_000_bytes_has_no_room_for_a_bit_more() {
        for (more_bits, fits) in [(0, true), (1, false)] {
            let Planned { job, plan } = full_house(more_bits);
            let noted = Noted::of(job, Some(&plan), NOTE_BYTES);
            let length = noted.map(|noted| noted.note.len());
            assert_eq!(length, fits.then_some(NOTE_BYTES));
        }
    }

    #[test]
    fn small_notes_are_as_long_as_wanted_and_for_none_too() {
        let mut random = Random::new(1);
        let mut met = [0, 0];
        for _ in 0..200 {
            let noted = Noted::small(&mut random, 4..=20);
            assert!((4..=20).contains(&noted.note.len()));
            met[usize::from(noted.claim.is_some())] += 1;
        }
        assert!(met.iter().all(|times| *times >= 20), "{met:?}");
    }
}
