//! Phases that try the check and the writing of notes, and the check of dossiers, by papers that do not belong together, or
//! that cannot be read.

use super::changes::several_changes;
use super::entries::{Checked, Comparison};
use super::faults::{broken_links, broken_types};
use super::judging::by_the_one_rule_broken;
use super::noted::Noted;
use super::sheets::{cut_or_lengthened, dressed, flipped, flipped_anywhere};
use crate::dossier::Papers;
use crate::note::NOTE_BYTES;
use crate::planned::{pairs, Planned};
use crate::random::Random;
use crate::sheet::Form;

/// Bytes of a small note, and of an output that most notes do not fit.
const SMALL: usize = 30;

/// The questions that can be asked with a job, a plan and a note: the writer's with any room, that of the dossier
/// sometimes.
fn ask(comparison: &mut Comparison, random: &mut Random, papers: Papers) -> Checked {
    let [job, plan, note] = papers;
    comparison.check_note(job, plan, note)?;
    if random.one_in(4) {
        comparison.check_packed(papers)?;
    }
    comparison.write_note(job, plan, random.below(SMALL))
}

/// The job, plan and note of one with those of another, each by itself and in each other's stead, and none.
pub fn mixed_up(comparison: &mut Comparison, random: &mut Random, count: usize) -> Checked {
    for _ in 0..5 * count {
        let [one, other] = [(); 2].map(|()| Noted::small(random, 1..=SMALL));
        let plans: [&[u8]; 5] = [&one.plan, &other.plan, &one.sheet, &one.note, &[]];
        let notes: [&[u8]; 5] = [&one.note, &other.note, &one.sheet, &one.plan, &[]];
        for plan in plans {
            for note in notes {
                ask(comparison, random, [&one.sheet, plan, note])?;
            }
        }
        ask(comparison, random, [&one.plan, &one.sheet, &one.note])?;
        // The other verdict, with a plan where there is none and with none where there is one.
        let turned = flipped(&one.note, &[4]);
        for plan in plans {
            comparison.check_note(&one.sheet, plan, &turned)?;
        }
    }
    Ok(())
}

/// Notes cut, lengthened, with other forms, fill that is not zero and flipped bits.
pub fn damaged(comparison: &mut Comparison, random: &mut Random, count: usize) -> Checked {
    for _ in 0..5 * count {
        let noted = Noted::small(random, 2..=SMALL);
        cut_or_lengthened(random, &noted.note, |note| {
            comparison.check_note(&noted.sheet, &noted.plan, note)
        })?;
        for position in 0..8 * noted.note.len() {
            let changed = flipped(&noted.note, &[position]);
            comparison.check_note(&noted.sheet, &noted.plan, &changed)?;
        }
    }
    for _ in 0..10 * count {
        let noted = Noted::small(random, SMALL..=8 * SMALL);
        for flips in [1, 1, 1, 2, 3, 10] {
            let changed = flipped_anywhere(random, &noted.note, flips);
            comparison.check_note(&noted.sheet, &noted.plan, &changed)?;
        }
    }
    Ok(())
}

/// Behind the header of a sound note, or with none of it sound.
pub fn random_bytes(comparison: &mut Comparison, random: &mut Random, count: usize) -> Checked {
    for _ in 0..20 * count {
        let Noted {
            sheet, plan, note, ..
        } = Noted::small(random, 1..=SMALL);
        for _ in 0..5 {
            let length = random.below(SMALL);
            let mut bytes = random.bytes(length);
            comparison.check_note(&sheet, &plan, &bytes)?;
            if let Some(first) = bytes.first_mut() {
                *first = (note[0] & 0xf8) | (*first & 0x07);
            }
            comparison.check_note(&sheet, &plan, &bytes)?;
        }
    }
    Ok(())
}

/// Jobs and plans damaged, with sound notes beside them.
pub fn beside(comparison: &mut Comparison, random: &mut Random, count: usize) -> Checked {
    for _ in 0..count {
        let noted = Noted::small(random, 1..=SMALL);
        jobs_beside(comparison, random, &noted)?;
        plans_beside(comparison, random, &noted)?;
    }
    for pair in pairs(random, count) {
        broken_plans_beside(comparison, random, &pair)?;
    }
    Ok(())
}

/// A damaged job is often another sound one, of which the note proves nothing.
fn jobs_beside(
    comparison: &mut Comparison,
    random: &mut Random,
    Noted {
        job,
        sheet,
        plan,
        note,
        ..
    }: &Noted,
) -> Checked {
    for length in 0..sheet.len() {
        ask(comparison, random, [&sheet[..length], plan, note])?;
    }
    let longer = [&sheet[..], &[0]].concat();
    ask(comparison, random, [&longer, plan, note])?;
    for _ in 0..40 {
        let positions = [(); 2].map(|()| random.below(8 * sheet.len()));
        let flips = 1 + random.below(2);
        let changed = flipped(sheet, &positions[..flips]);
        ask(comparison, random, [&changed, plan, note])?;
    }
    let broken = [broken_links(job), broken_types(job)].concat();
    for _ in 0..10 {
        let broken = random.pick(&broken).sheet();
        ask(comparison, random, [&broken, plan, note])?;
    }
    let bytes = random.bytes(sheet.len());
    for paper in dressed(&bytes, job) {
        ask(comparison, random, [&paper, plan, note])?;
    }
    Ok(())
}

/// A plan cut to nothing is none.
fn plans_beside(
    comparison: &mut Comparison,
    random: &mut Random,
    Noted {
        sheet, plan, note, ..
    }: &Noted,
) -> Checked {
    let longer = [&plan[..], &[0]].concat();
    let mut changed: Vec<Vec<u8>> = (0..plan.len()).map(|cut| plan[..cut].to_vec()).collect();
    changed.extend((0..8 * plan.len()).map(|position| flipped(plan, &[position])));
    changed.push(longer);
    for plan in &changed {
        ask(comparison, random, [sheet, plan, note])?;
    }
    Ok(())
}

/// The note may be anything, and too long: judging comes first. Where several changes leave a plan that passes, it counts.
fn broken_plans_beside(
    comparison: &mut Comparison,
    random: &mut Random,
    pair: &Planned,
) -> Checked {
    let sheet = pair.job.sheet();
    let mut note = random.bytes(SMALL);
    note[0] = 0x38 | (note[0] & 0x07);
    let notes = [note, random.bytes(SMALL), vec![0; NOTE_BYTES + 1]];
    for (_, broken) in by_the_one_rule_broken(random, pair) {
        for _ in 0..4 {
            let plan = random.pick(&broken).sheet();
            let note = random.pick(&notes);
            ask(comparison, random, [&sheet, &plan, note])?;
        }
    }
    for note in notes.iter().cycle().take(10) {
        let plan = several_changes(&pair.plan, random).sheet();
        ask(comparison, random, [&sheet, &plan, note])?;
    }
    Ok(())
}
