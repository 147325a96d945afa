//! Phases that try the judge, slide and tidy by papers that cannot be read: the job's refusal comes first, then the
//! plan's.

use super::entries::{Checked, Comparison};
use super::moving;
use super::sheets::{dressed, flipped, flipped_anywhere};
use crate::planned::{pairs, Planned};
use crate::random::Random;
use crate::sheet::Form;

/// The judge, and sometimes slide and tidy.
fn ask(comparison: &mut Comparison, random: &mut Random, job: &[u8], plan: &[u8]) -> Checked {
    comparison.judge(job, plan)?;
    if random.one_in(6) {
        moving::ask(comparison, random, job, plan)?;
    }
    Ok(())
}

/// Job and plan cut, lengthened, with flipped bits and mixed up: the one, the other, and both.
pub fn damaged(comparison: &mut Comparison, random: &mut Random, count: usize) -> Checked {
    for Planned { job, plan } in pairs(random, count / 2) {
        let (job, plan) = (job.sheet(), plan.sheet());
        mix_up(comparison, &job, &plan, random)?;
        cut(comparison, &job, &plan, random)?;
        lengthen(comparison, &job, &plan, random)?;
        flip_one_bit(comparison, &job, &plan, random)?;
        flip_several_bits(comparison, &job, &plan, random)?;
    }
    Ok(())
}

/// Either paper in either place, and none.
fn mix_up(comparison: &mut Comparison, job: &[u8], plan: &[u8], random: &mut Random) -> Checked {
    for first in [job, plan, &[]] {
        for second in [job, plan, &[]] {
            ask(comparison, random, first, second)?;
        }
    }
    Ok(())
}

/// The bytes cut off stay in memory behind. A plan cut to nothing is a plan of length 0.
fn cut(comparison: &mut Comparison, job: &[u8], plan: &[u8], random: &mut Random) -> Checked {
    for length in 0..job.len() {
        ask(comparison, random, &job[..length], plan)?;
        let cut_plan = &plan[..random.below(plan.len())];
        ask(comparison, random, &job[..length], cut_plan)?;
    }
    for length in 0..plan.len() {
        ask(comparison, random, job, &plan[..length])?;
    }
    Ok(())
}

fn lengthen(comparison: &mut Comparison, job: &[u8], plan: &[u8], random: &mut Random) -> Checked {
    let tails: [&[u8]; 5] = [&[0], &[1], &[0x80], &[0; 40], &[0xff; 40]];
    for tail in tails {
        let (long_job, long_plan) = ([job, tail].concat(), [plan, tail].concat());
        ask(comparison, random, &long_job, plan)?;
        ask(comparison, random, job, &long_plan)?;
        ask(comparison, random, &long_job, &long_plan)?;
    }
    Ok(())
}

/// A job with a flipped bit is often another sound job, in which the plan may pass or not.
fn flip_one_bit(
    comparison: &mut Comparison,
    job: &[u8],
    plan: &[u8],
    random: &mut Random,
) -> Checked {
    for position in 0..8 * job.len() {
        let changed = flipped(job, &[position]);
        ask(comparison, random, &changed, plan)?;
        if random.one_in(4) {
            let in_plan = random.below(8 * plan.len());
            ask(comparison, random, &changed, &flipped(plan, &[in_plan]))?;
        }
    }
    for position in 0..8 * plan.len() {
        ask(comparison, random, job, &flipped(plan, &[position]))?;
    }
    Ok(())
}

fn flip_several_bits(
    comparison: &mut Comparison,
    job: &[u8],
    plan: &[u8],
    random: &mut Random,
) -> Checked {
    for flips in 2..20 {
        let changed_job = flipped_anywhere(random, job, flips);
        let changed_plan = flipped_anywhere(random, plan, flips);
        ask(comparison, random, &changed_job, plan)?;
        ask(comparison, random, job, &changed_plan)?;
        ask(comparison, random, &changed_job, &changed_plan)?;
    }
    Ok(())
}

/// Bytes at random for the job, for the plan and for both, as long as a sound sheet or of any length.
pub fn random_bytes(comparison: &mut Comparison, random: &mut Random, count: usize) -> Checked {
    for Planned { job, plan } in pairs(random, count / 2) {
        for turn in 0..20 {
            let lengths = if turn % 2 == 0 {
                [job.sheet().len(), plan.sheet().len()]
            } else {
                [random.below(300), random.below(40)]
            };
            let [job_bytes, plan_bytes] = lengths.map(|length| random.bytes(length));
            let job_papers = dressed(&job_bytes, &job);
            let plan_papers = dressed(&plan_bytes, &plan);
            for (job_paper, plan_paper) in job_papers.iter().zip(&plan_papers) {
                ask(comparison, random, job_paper, &plan.sheet())?;
                ask(comparison, random, &job.sheet(), plan_paper)?;
                ask(comparison, random, job_paper, plan_paper)?;
            }
        }
    }
    Ok(())
}
