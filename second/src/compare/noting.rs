//! Phases that try the check and the writing of notes by papers that can be read.

use super::entries::{Checked, Comparison};
use super::noted::{deep, full_house, job_in_a_row, lend, Noted};
use super::records::VAST;
use super::searching::{jobs_at_their_limits, known_jobs, LONG};
use super::sheets::flipped;
use crate::every_plan::{cheapest, plans};
use crate::job::Job;
use crate::note::check::check;
use crate::note::making::{in_any_order, of_bits};
use crate::note::write::{note_of, write};
use crate::note::NOTE_BYTES;
use crate::plan::Plan;
use crate::planned::{any_plan, pairs, Planned};
use crate::random::Random;
use crate::refusal::Refusal;
use crate::sheet::Form;
use crate::small::small_job_where;

/// This program takes its time over longer notes.
const ROOMY: usize = 250;

/// Judging more plans of one job takes too long here.
const MOST_PLANS: u64 = 20_000;

/// The jobs of the cases tried by hand, with every room.
pub fn known(comparison: &mut Comparison, random: &mut Random, _count: usize) -> Checked {
    for job in known_jobs() {
        let noted = Noted::of_walk(job, LONG, ROOMY).expect("a short note");
        every_room(comparison, &noted)?;
        split_otherwise(comparison, random, &noted, [0, 20, 60], ROOMY)?;
    }
    Ok(())
}

/// Written, and what was written checked.
pub fn house_notes(comparison: &mut Comparison, random: &mut Random, count: usize) -> Checked {
    for _ in 0..40 * count {
        let noted = Noted::small(random, 1..=ROOMY);
        comparison.write_note(&noted.sheet, &noted.plan, ROOMY)?;
        comparison.check_note(&noted.sheet, &noted.plan, &noted.note)?;
    }
    Ok(())
}

pub fn every_room_of_house_notes(
    comparison: &mut Comparison,
    random: &mut Random,
    count: usize,
) -> Checked {
    for _ in 0..5 * count {
        let noted = Noted::small(random, 2..=60);
        every_room(comparison, &noted)?;
    }
    Ok(())
}

/// Outputs of every length up to more than the note needs, and around the longest that is used.
fn every_room(
    comparison: &mut Comparison,
    Noted {
        sheet, plan, note, ..
    }: &Noted,
) -> Checked {
    let long = [NOTE_BYTES - 1, NOTE_BYTES, NOTE_BYTES + 1, VAST];
    for room in (0..=note.len() + 3).chain(long) {
        comparison.write_note(sheet, plan, room)?;
    }
    comparison.check_note(sheet, plan, note)
}

/// Sound notes that the house would not write.
pub fn other_notes(comparison: &mut Comparison, random: &mut Random, count: usize) -> Checked {
    for _ in 0..8 * count {
        let noted = Noted::small(random, 3..=100);
        split_otherwise(comparison, random, &noted, [0, 20, 60], ROOMY)?;
    }
    Ok(())
}

/// Some notes split in any order, so many in a hundred of their places needlessly. One needless split may lead to many:
/// notes that get longer than `most` bytes are not checked.
fn split_otherwise(
    comparison: &mut Comparison,
    random: &mut Random,
    noted: &Noted,
    needless: [usize; 3],
    most: usize,
) -> Checked {
    for needless in needless.into_iter().cycle().take(9) {
        let choose = in_any_order(random, needless);
        if let Ok(note) = note_of(&noted.job, noted.claim, most, choose) {
            comparison.check_note(&noted.sheet, &noted.plan, &note)?;
        }
    }
    Ok(())
}

/// Any plans that pass, most of them with dear instances or with more instances than they need, and no plan where there
/// is one: written until 44 or the end of the room is met; and notes of the cheapest beside them.
pub fn not_cheapest(comparison: &mut Comparison, random: &mut Random, count: usize) -> Checked {
    for _ in 0..20 * count {
        let Noted {
            job,
            claim,
            sheet,
            note,
            ..
        } = Noted::small(random, 2..=100);
        let needless = note_of(&job, claim, ROOMY, in_any_order(random, 40));
        for _ in 0..3 {
            let plan = any_plan(random, &job).map_or(vec![], |plan| plan.sheet());
            for room in [random.below(4), random.below(20), ROOMY] {
                comparison.write_note(&sheet, &plan, room)?;
            }
            comparison.check_note(&sheet, &plan, &note)?;
            if let Ok(needless) = &needless {
                comparison.check_note(&sheet, &plan, needless)?;
            }
        }
        comparison.write_note(&sheet, &[], random.below(20))?;
    }
    Ok(())
}

/// All plans of a small job judged: for the cheapest of them and no other there is a note that is accepted.
pub fn confirmed(comparison: &mut Comparison, random: &mut Random, count: usize) -> Checked {
    for _ in 0..5 * count {
        let job = small_job_where(random, |job| plans(job) <= MOST_PLANS);
        let best = cheapest(&job);
        let least = best.as_ref().map(|best| best.cost);
        let notes = [0, 20, 60].map(|needless| {
            let choose = in_any_order(random, needless);
            note_of(&job, least, ROOMY, choose).unwrap_or_default()
        });
        let any_plans = [(); 3].map(|()| any_plan(random, &job));
        for plan in [&[None, best.map(|best| best.plan)], &any_plans[..]].concat() {
            confirm_house_note(comparison, &job, plan.as_ref(), least)?;
            confirm_notes(comparison, &job, plan.as_ref(), least, &notes)?;
        }
    }
    Ok(())
}

/// Accepted if the claim is right, and only then; unless there is no room for it.
fn confirm_house_note(
    comparison: &mut Comparison,
    job: &Job,
    plan: Option<&Plan>,
    least: Option<u32>,
) -> Checked {
    let (sheet, plan, claim) = lend(job, plan);
    comparison.write_note(&sheet, &plan, ROOMY)?;
    let note = write(&sheet, &plan, ROOMY);
    if note == Err(Refusal::OUTPUT_TOO_SHORT) {
        return Ok(());
    }
    let accepted = note.is_ok_and(|note| check(&sheet, &plan, &note).is_ok());
    comparison.confirm_note(job, claim, least, accepted)
}

/// Notes of the cheapest beside a plan that may be another: accepted only if its claim is right.
fn confirm_notes(
    comparison: &mut Comparison,
    job: &Job,
    plan: Option<&Plan>,
    least: Option<u32>,
    notes: &[Vec<u8>],
) -> Checked {
    let (sheet, plan, claim) = lend(job, plan);
    for note in notes {
        comparison.check_note(&sheet, &plan, note)?;
        if check(&sheet, &plan, note).is_ok() {
            comparison.confirm_note(job, claim, least, true)?;
        }
    }
    Ok(())
}

/// Notes of 60,000 bytes and around; house notes that would be longer.
pub fn long_notes(comparison: &mut Comparison, random: &mut Random, count: usize) -> Checked {
    full_note(comparison, random)?;
    long_house_notes(comparison)?;
    for _ in 0..10 + count / 40 {
        let Noted {
            sheet, plan, note, ..
        } = Noted::small(random, 1..=ROOMY);
        for length in [NOTE_BYTES - 1, NOTE_BYTES, NOTE_BYTES + 1, VAST] {
            let mut long = note.clone();
            long.resize(length, 0);
            comparison.check_note(&sheet, &plan, &long)?;
            comparison.check_note(&sheet, &plan, &random.bytes(length))?;
        }
    }
    Ok(())
}

/// A sound note of just 60,000 bytes: as it is, with a byte more or less, and with its last bit set.
fn full_note(comparison: &mut Comparison, random: &mut Random) -> Checked {
    let Noted {
        job,
        claim,
        sheet,
        plan,
        ..
    } = Noted::of_walk(job_in_a_row(6, 12, 4), LONG, ROOMY).expect("a short note");
    let mut note = note_of(&job, claim, NOTE_BYTES, of_bits(8 * NOTE_BYTES)).expect("a note");
    assert_eq!(note.len(), NOTE_BYTES);
    comparison.check_note(&sheet, &plan, &note)?;
    comparison.check_packed([&sheet, &plan, &note])?;
    comparison.check_note(&sheet, &plan, &note[..NOTE_BYTES - 1])?;
    comparison.check_note(&sheet, &plan, &[&note[..], &random.bytes(1)].concat())?;
    note[NOTE_BYTES - 1] ^= 1;
    comparison.check_note(&sheet, &plan, &note)
}

/// One that just fills 60,000 bytes, and one that has a bit more and is not written, however long the output is.
fn long_house_notes(comparison: &mut Comparison) -> Checked {
    for (more_bits, rooms) in [
        (0, [NOTE_BYTES - 1, NOTE_BYTES]),
        (1, [NOTE_BYTES + 1, VAST]),
    ] {
        let Planned { job, plan } = full_house(more_bits);
        let (sheet, plan) = (job.sheet(), plan.sheet());
        for room in rooms {
            comparison.write_note(&sheet, &plan, room)?;
        }
    }
    Ok(())
}

/// Jobs of 31 steps and 16 instances: a split has up to 496 children, and one needless split in a hundred is enough. Then
/// jobs of any size, as far as a few splits lead.
pub fn large_jobs(comparison: &mut Comparison, random: &mut Random, count: usize) -> Checked {
    for job in jobs_at_their_limits() {
        let Some(noted) = Noted::of_walk(job, 4 * LONG, NOTE_BYTES) else {
            continue;
        };
        every_room(comparison, &noted)?;
        split_otherwise(comparison, random, &noted, [1; 3], 8 * ROOMY)?;
    }
    for Planned { job, plan } in pairs(random, count / 10) {
        let (sheet, plan, _) = lend(&job, Some(&plan));
        for room in [random.below(10), random.below(40)] {
            comparison.write_note(&sheet, &plan, room)?;
            let marks = random.bytes(room);
            comparison.check_note(&sheet, &plan, &[&[0x3c], &marks[..]].concat())?;
        }
    }
    Ok(())
}

/// Trees that go down to all of 24 operations placed.
pub fn deep_notes(comparison: &mut Comparison, random: &mut Random, count: usize) -> Checked {
    let Planned { job, plan } = deep();
    let noted = Noted::of(job, Some(&plan), NOTE_BYTES).expect("a note that fits");
    let Noted {
        sheet, plan, note, ..
    } = noted;
    for room in [note.len() - 1, note.len(), NOTE_BYTES] {
        comparison.write_note(&sheet, &plan, room)?;
    }
    comparison.check_note(&sheet, &plan, &note)?;
    for _ in 0..count / 40 {
        let position = random.below(8 * note.len());
        comparison.check_note(&sheet, &plan, &flipped(&note, &[position]))?;
        comparison.check_note(&sheet, &plan, &note[..position / 8])?;
    }
    Ok(())
}
