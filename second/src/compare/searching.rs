//! Phases that try the search by jobs that can be read.

use super::borders::{job_in_one_step, job_of_two_operations};
use super::entries::{Checked, Comparison};
use super::for_all;
use super::records::VAST;
use crate::diffeq;
use crate::every_plan::plans;
use crate::job::{Job, Link};
use crate::planned::pairs;
use crate::random::Random;
use crate::record::{MAX_INSTANCES, MAX_OPERATIONS};
use crate::samples::{
    empty_job, full_job, job_of_case_8, job_p, jobs, most_links, random_links, unit_for_one_kind,
};
use crate::search::{walk, Searched};
use crate::sheet::Form;
use crate::small::{small_job, small_job_where};

/// More than any plan's sheet needs.
const ROOMY: usize = 40;

/// This program takes its time over longer walks; they are tried with no greater budget.
pub const LONG: u32 = 3000;

/// Judging more plans of one job takes too long.
const MOST_PLANS: u64 = 200_000;

/// The visits of the job's walk, None where they are more than `most`.
fn visits_up_to(most: u32, job: &Job) -> Option<u32> {
    match walk(job, most) {
        Searched::Found { visits, .. } | Searched::None { visits } => Some(visits),
        _ => None,
    }
}

fn visits_of_short_walk(job: &Job) -> u32 {
    visits_up_to(u32::MAX, job).expect("a walk that ends")
}

/// The jobs of the cases tried by hand and of the slips to shut out, at every budget and with every room.
pub fn known(comparison: &mut Comparison, _random: &mut Random, _count: usize) -> Checked {
    for job in known_jobs() {
        every_budget(comparison, &job)?;
        every_room(comparison, &job)?;
    }
    report(comparison)
}

pub fn known_jobs() -> Vec<Job> {
    let in_two_steps = |multiplier, wire| {
        let mut job = job_p();
        (job.deadline, job.wire) = (2, wire);
        job.types[1] = unit_for_one_kind(1, 30, 1, multiplier);
        job
    };
    let one_operation = |types| Job {
        kinds: vec![0],
        types,
        ..empty_job()
    };
    let three_of_40 = Job {
        kinds: vec![0; 3],
        links: [0, 1].map(|from| Link { from, to: from + 1 }).to_vec(),
        types: vec![unit_for_one_kind(0, 1, 3, 40)],
        deadline: 2,
        clock: 100,
        ..empty_job()
    };
    vec![
        job_p(),
        in_two_steps(90, 5),
        in_two_steps(55, 5),
        in_two_steps(55, 6),
        job_of_case_8(),
        empty_job(),
        one_operation(vec![]),
        one_operation(vec![unit_for_one_kind(0, 1, 2, 1)]),
        three_of_40,
    ]
}

/// The report's jobs. At 6 and 7 steps the walk is too long for this program; the others' visits need more than 16 bits.
fn report(comparison: &mut Comparison) -> Checked {
    for line in &diffeq::LINES {
        let greatest = if line.steps > 5 { LONG } else { u32::MAX };
        for budget in [0, 1, 100, greatest] {
            comparison.search(&line.job().sheet(), budget, ROOMY)?;
        }
    }
    Ok(())
}

/// The walk itself beside every plan of a small job judged; then the library's.
pub fn every_plan_judged(
    comparison: &mut Comparison,
    random: &mut Random,
    count: usize,
) -> Checked {
    for _ in 0..5 * count {
        let job = small_job_where(random, |job| plans(job) <= MOST_PLANS);
        comparison.walk(&job)?;
        comparison.search(&job.sheet(), u32::MAX, ROOMY)?;
    }
    Ok(())
}

/// Small jobs, each at the budgets around its visits and at any below.
pub fn small_jobs(comparison: &mut Comparison, random: &mut Random, count: usize) -> Checked {
    for _ in 0..40 * count {
        let job = small_job(random);
        around_the_visits(comparison, random, &job)?;
    }
    Ok(())
}

fn around_the_visits(comparison: &mut Comparison, random: &mut Random, job: &Job) -> Checked {
    let sheet = job.sheet();
    let visits = visits_up_to(LONG, job);
    let below = random.below(visits.unwrap_or(LONG) as usize) as u32;
    let budgets = match visits {
        Some(visits) => vec![0, 1, below, visits - 1, visits, visits + 1, u32::MAX],
        None => vec![0, 1, below, LONG],
    };
    for budget in budgets {
        let any_room = random.below(ROOMY);
        let room = *random.pick(&[ROOMY, ROOMY, ROOMY, any_room]);
        comparison.search(&sheet, budget, room)?;
    }
    Ok(())
}

/// Every budget up to more visits than a short walk needs.
pub fn every_budget_of_short_walks(
    comparison: &mut Comparison,
    random: &mut Random,
    count: usize,
) -> Checked {
    for _ in 0..5 * count {
        let short = |job: &Job| visits_up_to(80, job).is_some();
        let job = small_job_where(random, short);
        every_budget(comparison, &job)?;
    }
    Ok(())
}

fn every_budget(comparison: &mut Comparison, job: &Job) -> Checked {
    let enough = visits_of_short_walk(job);
    let greater = [u32::MAX / 2, u32::MAX / 2 + 1, u32::MAX - 1, u32::MAX];
    for budget in (0..=enough + 2).chain(greater) {
        comparison.search(&job.sheet(), budget, ROOMY)?;
    }
    Ok(())
}

/// Outputs of every length up to more than the sheet needs, with budgets that suffice and that do not.
pub fn every_room_of_small_jobs(
    comparison: &mut Comparison,
    random: &mut Random,
    count: usize,
) -> Checked {
    for _ in 0..2 * count {
        let short = |job: &Job| visits_up_to(200, job).is_some();
        let job = small_job_where(random, short);
        every_room(comparison, &job)?;
    }
    Ok(())
}

fn every_room(comparison: &mut Comparison, job: &Job) -> Checked {
    let sheet = job.sheet();
    let enough = visits_of_short_walk(job);
    for room in (0..=ROOMY).chain([VAST, VAST + 1]) {
        for budget in [enough, enough - 1, u32::MAX] {
            comparison.search(&sheet, budget, room)?;
        }
    }
    Ok(())
}

/// Jobs whose times, intervals and runs lie at whole clocks and beside them.
pub fn borders(comparison: &mut Comparison, random: &mut Random, count: usize) -> Checked {
    for _ in 0..10 * count {
        let mut job = job_of_two_operations(random, 8);
        job.types[0].cost = random.between(0, 1);
        for links in [vec![], vec![Link { from: 0, to: 1 }]] {
            job.links = links;
            comparison.search(&job.sheet(), LONG, ROOMY)?;
        }
    }
    for _ in 0..4 * count {
        runs(comparison, random)?;
    }
    Ok(())
}

/// Links at random among operations of short times, at every clock that a run may total.
fn runs(comparison: &mut Comparison, random: &mut Random) -> Checked {
    let n = usize::from(random.between(2, 7));
    let mut job = job_in_one_step(random, n, 3);
    let e = random.below(most_links(n) + 1);
    job.links = random_links(random, n, e);
    job.deadline = random.between(1, 2);
    for unit in &mut job.types {
        unit.cost = random.between(0, 2);
    }
    for clock in 1..=(3 + job.wire) * n as u16 {
        job.clock = clock;
        comparison.search(&job.sheet(), 60, ROOMY)?;
    }
    Ok(())
}

/// Jobs of any size, most of them spent. Where nothing costs anything, the first plan is the best, and its walk is short
/// even with 24 operations.
pub fn large_jobs(comparison: &mut Comparison, random: &mut Random, count: usize) -> Checked {
    for mut pair in pairs(random, 2 * count) {
        let budget = random.below(60) as u32;
        comparison.search(&pair.job.sheet(), budget, ROOMY)?;
        pair.job.types.iter_mut().for_each(|unit| unit.cost = 0);
        comparison.search(&pair.job.sheet(), 4 * LONG, ROOMY)?;
    }
    for_all(jobs(random, 20 * count), |job| {
        comparison.search(&job.sheet(), 40, ROOMY)
    })
}

/// No operations, no steps, no types; 16 instances; 24 operations; the greatest cost.
pub fn limits(comparison: &mut Comparison, random: &mut Random, count: usize) -> Checked {
    for any in jobs(random, count) {
        let no_operations = Job {
            kinds: vec![],
            links: vec![],
            ..any.clone()
        };
        let no_steps = Job {
            deadline: 0,
            ..any.clone()
        };
        let no_types = Job {
            types: vec![],
            ..any
        };
        for job in [no_operations, no_steps, no_types] {
            every_budget(comparison, &job)?;
        }
    }
    for_all(jobs_at_their_limits(), |job| {
        around_the_visits(comparison, random, job)?;
        comparison.search(&job.sheet(), 4 * LONG, ROOMY)
    })
}

pub fn jobs_at_their_limits() -> Vec<Job> {
    let all_of_one_kind = |n, cost| Job {
        kinds: vec![0; n],
        types: [7, 7, 2]
            .map(|copies| unit_for_one_kind(0, cost, copies, 1))
            .to_vec(),
        deadline: 31,
        ..empty_job()
    };
    // Two operations of each kind, in one step: every instance is needed.
    let all_instances = Job {
        kinds: (0..MAX_INSTANCES as u16)
            .map(|operation| operation / 2)
            .collect(),
        types: (0..8)
            .map(|kind| unit_for_one_kind(kind, 65_535, 2, 1))
            .collect(),
        deadline: 1,
        ..empty_job()
    };
    vec![
        all_of_one_kind(1, 65_535),
        all_of_one_kind(2, 1),
        all_of_one_kind(MAX_OPERATIONS, 0),
        all_of_one_kind(MAX_OPERATIONS, 1),
        all_instances,
        full_job(),
    ]
}
