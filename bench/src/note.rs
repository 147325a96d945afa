//! Marks of a closing note checked and written in a second: the library beside the same in C, on large notes.

use crate::search;
use crate::timing::Speeds;
use second::library::{check_note_by_library, write_note_by_library, Answer};
use second::note::check::check_and_tell;
use second::note::{Tree, NOTE_BYTES};
use second::planned::{workable_job, Size};
use second::random::Random;
use second::record::JobRecord;
use second::sheet::Form;
use std::hint::black_box;
use std::ops::RangeInclusive;

/// Each gives one note; of the marks of the first seven in eight close a place, of the second's six in ten.
const SEEDS: [u64; 2] = [1, 5];

/// Jobs are drawn until one has a plan, within so many visits, and a house note of this length.
const SIZE: Size = Size {
    n: 12,
    e: 14,
    m: 3,
    k: 6,
};
const MOST_VISITS: u32 = 2_000_000;
const BYTES: RangeInclusive<usize> = 58_000..=NOTE_BYTES;

/// A note takes some milliseconds.
const ROUNDS: usize = 101;

extern "C" {
    fn check_note_in_c(job: *const JobRecord, claim: u32, note: *const u8, length: usize)
        -> Answer;
    fn write_note_in_c(job: *const JobRecord, claim: u32, out: *mut u8, length: usize) -> Answer;
}

/// A job, its cheapest plan and the house note. In C the job is given as a record, and of the plan its cost.
struct Noted {
    record: JobRecord,
    job: Vec<u8>,
    plan: Vec<u8>,
    claim: u32,
    note: Vec<u8>,
}

pub fn run() -> Vec<(String, Speeds)> {
    let mut lines = Vec::new();
    for seed in SEEDS {
        eprint!("note: a job");
        let noted = large(seed);
        eprint!(", same answers and bytes");
        let marks = marks_of_all(&noted);
        let size = format!("{} bytes, {marks} marks", noted.note.len());
        eprint!(", {size}, rounds");
        lines.push((format!("note check, {size}"), check_speeds(&noted, marks)));
        lines.push((format!("note written, {size}"), write_speeds(&noted, marks)));
        eprintln!(", done");
    }
    lines
}

fn large(seed: u64) -> Noted {
    let mut random = Random::new(seed);
    loop {
        let mut job = workable_job(&mut random, SIZE);
        job.deadline = random.between(4, 9);
        let record = job.record();
        let (answer, plan) = search::by_c(&record, MOST_VISITS);
        let claim = answer.cost;
        let (_, note) = write_by_c(&record, claim, NOTE_BYTES);
        if !plan.is_empty() && BYTES.contains(&note.len()) {
            return Noted {
                record,
                job: job.sheet(),
                plan,
                claim,
                note,
            };
        }
    }
}

/// How many marks the note has, after all have given the same answer and the same note.
fn marks_of_all(noted: &Noted) -> usize {
    let Noted {
        record,
        job,
        plan,
        claim,
        note,
    } = noted;
    let mut marks = 0;
    let mut tell = |_: &Tree, mark: Option<_>| marks += usize::from(mark.is_some());
    let own = Answer::checked(check_and_tell(job, plan, note, &mut tell));
    assert_eq!(own, check_by_c(record, *claim, note), "second, C");
    assert_eq!(
        own,
        check_note_by_library(job, plan, note),
        "second, library"
    );
    let written = (Answer::written(note.len()), note.clone());
    assert_eq!(
        written,
        write_by_library(job, plan, NOTE_BYTES),
        "C, library"
    );
    marks
}

fn check_speeds(noted: &Noted, marks: usize) -> Speeds {
    let library = || {
        let Noted {
            job, plan, note, ..
        } = black_box(noted);
        black_box(check_note_by_library(job, plan, note));
    };
    let in_c = || {
        let Noted {
            record,
            claim,
            note,
            ..
        } = black_box(noted);
        black_box(check_by_c(record, *claim, note));
    };
    Speeds::of(ROUNDS, marks, library, in_c)
}

fn write_speeds(noted: &Noted, marks: usize) -> Speeds {
    let library = || {
        let Noted { job, plan, .. } = black_box(noted);
        black_box(write_by_library(job, plan, NOTE_BYTES));
    };
    let in_c = || {
        let Noted { record, claim, .. } = black_box(noted);
        black_box(write_by_c(record, *claim, NOTE_BYTES));
    };
    Speeds::of(ROUNDS, marks, library, in_c)
}

fn check_by_c(job: &JobRecord, claim: u32, note: &[u8]) -> Answer {
    unsafe { check_note_in_c(job, claim, note.as_ptr(), note.len()) }
}

/// The answer, and the note where one is written.
fn write_by_c(job: &JobRecord, claim: u32, room: usize) -> (Answer, Vec<u8>) {
    written(room, |out| unsafe {
        write_note_in_c(job, claim, out.as_mut_ptr(), out.len())
    })
}

fn write_by_library(job: &[u8], plan: &[u8], room: usize) -> (Answer, Vec<u8>) {
    written(room, |out| write_note_by_library(job, plan, out))
}

fn written(room: usize, write: impl Fn(&mut [u8]) -> Answer) -> (Answer, Vec<u8>) {
    let mut out = vec![0; room];
    let answer = write(&mut out);
    out.truncate(answer.length as usize);
    (answer, out)
}

#[cfg(test)]
mod tests {
    use super::*;
    use second::note::check::check;
    use second::note::lent;
    use second::note::making::in_any_order;
    use second::note::write::{note_of, write};
    use second::planned::any_plan;
    use second::small::small_job;

    /// The claim in C where no plan is lent.
    const NO_PLAN: u32 = u32::MAX;

    const ROOM: usize = 120;

    /// The house note in outputs of some lengths.
    fn assert_written_alike(random: &mut Random, record: &JobRecord, job: &[u8], plan: &[u8]) {
        let claim = lent(job, plan).expect("a plan that passes").1;
        for room in [0, 1, random.below(20), ROOM] {
            let own = match write(job, plan, room) {
                Ok(note) => (Answer::written(note.len()), note),
                Err(refusal) => (Answer::refused(refusal), vec![]),
            };
            let by_c = write_by_c(record, claim.unwrap_or(NO_PLAN), room);
            assert_eq!(own, by_c, "{record:?} {claim:?} {room}");
        }
    }

    /// A note as it is, cut, lengthened, with a bit flipped, and beside another claim.
    fn assert_checked_alike(
        random: &mut Random,
        record: &JobRecord,
        [job, plan, note]: [&[u8]; 3],
    ) {
        let mut flipped = note.to_vec();
        flipped[random.below(note.len())] ^= 1 << random.below(8);
        let cut = &note[..random.below(note.len())];
        let longer = [note, &[random.below(2) as u8]].concat();
        for note in [note, cut, &longer, &flipped] {
            for plan in [plan, &[]] {
                let claim = lent(job, plan).expect("a plan that passes").1;
                let own = Answer::checked(check(job, plan, note));
                let by_c = check_by_c(record, claim.unwrap_or(NO_PLAN), note);
                assert_eq!(own, by_c, "{record:?} {claim:?} {note:?}");
            }
        }
    }

    #[test]
    fn notes_in_c_answer_as_the_second_program() {
        let mut random = Random::new(1);
        let mut met = 0;
        for _ in 0..3000 {
            let job = small_job(&mut random);
            let (record, sheet) = (job.record(), job.sheet());
            let any_plan = any_plan(&mut random, &job).map_or(vec![], |plan| plan.sheet());
            let (_, best) = search::by_c(&record, MOST_VISITS);
            for plan in [&any_plan, &best] {
                assert_written_alike(&mut random, &record, &sheet, plan);
                let claim = lent(&sheet, plan).expect("a plan that passes").1;
                let note = note_of(&job, claim, ROOM, in_any_order(&mut random, 20));
                if let Ok(note) = note {
                    assert_checked_alike(&mut random, &record, [&sheet, plan, &note]);
                    met += 1;
                }
            }
        }
        assert!(met >= 1000, "{met}");
    }

    #[test]
    fn the_large_notes_are_as_long_as_wanted() {
        for noted in SEEDS.map(large) {
            assert!(BYTES.contains(&noted.note.len()));
            assert!(marks_of_all(&noted) > noted.note.len());
        }
    }
}
