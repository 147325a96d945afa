//! Phases that try the search by jobs damaged or drawn from random bytes: the job's refusal comes before all else.

use super::entries::{Checked, Comparison};
use super::faults::{broken_links, broken_types};
use super::sheets::{dressed, flipped, flipped_anywhere};
use crate::job::Job;
use crate::random::Random;
use crate::samples::{full_job, job_p, random_job};
use crate::sheet::Form;
use crate::small::small_job;

/// With a budget and a room that would be refused by themselves, and with some of each. A damaged job is often another
/// sound one, and this program takes its time over long walks.
fn ask(comparison: &mut Comparison, job: &[u8], random: &mut Random) -> Checked {
    let budget = *random.pick(&[0, 1, 10, 25]);
    let room = *random.pick(&[0, 3, 31]);
    comparison.search(job, budget, room)
}

/// Jobs cut, lengthened, with flipped bits, and with broken links and types.
pub fn damaged(comparison: &mut Comparison, random: &mut Random, count: usize) -> Checked {
    let mut jobs = vec![job_p(), full_job()];
    jobs.extend((0..count / 4).map(|_| small_job(random)));
    for job in &jobs {
        let sheet = job.sheet();
        cut_or_lengthened(comparison, &sheet, random)?;
        with_flipped_bits(comparison, &sheet, random)?;
        with_broken_rules(comparison, job, random)?;
    }
    Ok(())
}

/// The bytes cut off stay in memory behind. The longest are of 65,536 bytes and more.
fn cut_or_lengthened(comparison: &mut Comparison, sheet: &[u8], random: &mut Random) -> Checked {
    for length in 0..sheet.len() {
        ask(comparison, &sheet[..length], random)?;
    }
    let tails: [&[u8]; 6] = [&[0], &[1], &[0x80], &[0; 40], &[0xff; 40], &[0; 0x1_0000]];
    for tail in tails {
        ask(comparison, &[sheet, tail].concat(), random)?;
    }
    Ok(())
}

fn with_flipped_bits(comparison: &mut Comparison, sheet: &[u8], random: &mut Random) -> Checked {
    for position in 0..8 * sheet.len() {
        ask(comparison, &flipped(sheet, &[position]), random)?;
    }
    for flips in 2..20 {
        let changed = flipped_anywhere(random, sheet, flips);
        ask(comparison, &changed, random)?;
    }
    Ok(())
}

fn with_broken_rules(comparison: &mut Comparison, job: &Job, random: &mut Random) -> Checked {
    for broken in [broken_links(job), broken_types(job)].concat() {
        ask(comparison, &broken.sheet(), random)?;
    }
    Ok(())
}

/// Bytes at random, as long as a sound sheet or of any length.
pub fn random_bytes(comparison: &mut Comparison, random: &mut Random, count: usize) -> Checked {
    for _ in 0..5 * count {
        let sound = random_job(random);
        for length in [sound.sheet().len(), random.below(300)] {
            let bytes = random.bytes(length);
            for sheet in dressed(&bytes, &sound) {
                ask(comparison, &sheet, random)?;
            }
        }
    }
    Ok(())
}
