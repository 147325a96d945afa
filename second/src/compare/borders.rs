//! Phases that try the judge, and tidy with every selection, where a rule just holds and where it just does not.

use super::entries::{Checked, Comparison};
use crate::job::{Ability, Job, Link, UnitType};
use crate::library::PLAN_BYTES;
use crate::plan::{selection_of, Plan};
use crate::random::Random;
use crate::record::{KINDS, MAX_INSTANCES, MAX_TYPES};
use crate::samples::{empty_job, most_links, plan_of, random_links, shared_copies, CANNOT};
use crate::sheet::Form;

const GREATEST_COST: u16 = 65_535;

/// Every selection of jobs without operations, judged and tidied, up to 16 instances of the greatest cost.
pub fn every_selection(comparison: &mut Comparison, random: &mut Random, count: usize) -> Checked {
    let shares: [&[u16]; 6] = [
        &[1; 8],
        &[7],
        &[2, 7],
        &[3, 1, 4, 2],
        &[5, 6],
        &[2, 2, 2, 1, 1],
    ];
    for _ in 0..1 + count / 100 {
        for copies in shares {
            let mut any_unit = |&copies| unit(random.often_extreme(0, GREATEST_COST), copies);
            let types = copies.iter().map(&mut any_unit).collect();
            select_in_every_way(comparison, types)?;
        }
    }
    let greatest = [7, 7, 2].map(|copies| unit(GREATEST_COST, copies));
    select_in_every_way(comparison, greatest.to_vec())
}

fn unit(cost: u16, copies: u16) -> UnitType {
    UnitType {
        cost,
        copies,
        abilities: [CANNOT; KINDS],
    }
}

fn select_in_every_way(comparison: &mut Comparison, types: Vec<UnitType>) -> Checked {
    let job = Job {
        types,
        ..empty_job()
    };
    let (k, sheet) = (job.instances(), job.sheet());
    for bits in 0..1u32 << k {
        let plan = Plan {
            selection: selection_of(bits, k),
            rows: vec![],
        };
        comparison.judge(&sheet, &plan.sheet())?;
        comparison.tidy(&sheet, &plan.sheet(), PLAN_BYTES)?;
    }
    Ok(())
}

/// Two operations of different kinds, linked or not, on one instance or on two, at every two of nine starts around the
/// deadline; times and intervals lie at whole clocks and beside them.
pub fn two_operations(comparison: &mut Comparison, random: &mut Random, count: usize) -> Checked {
    for _ in 0..2 * count {
        let last = *random.pick(&[8, 31]);
        let mut job = job_of_two_operations(random, last);
        for links in [vec![], vec![Link { from: 0, to: 1 }]] {
            job.links = links;
            at_every_two_starts(comparison, &job.sheet(), last)?;
        }
    }
    Ok(())
}

fn at_every_two_starts(comparison: &mut Comparison, job: &[u8], last: u16) -> Checked {
    for one in last - 8..=last {
        for other in last - 8..=last {
            for instance in [0, 1] {
                let plan = plan_of(&[1, 1], &[(one, 0), (other, instance)]);
                comparison.judge(job, &plan.sheet())?;
            }
        }
    }
    Ok(())
}

/// Its deadline is the last step tried or one of the two before.
pub fn job_of_two_operations(random: &mut Random, last: u16) -> Job {
    let clock = *random.pick(&[1, 2, 10, 100, 255, 256]);
    let mut abilities = [CANNOT; KINDS];
    for ability in &mut abilities[..2] {
        let time = near_whole_clocks(random, clock, 1023);
        let interval = near_whole_clocks(random, clock, time);
        *ability = Ability { time, interval };
    }
    Job {
        kinds: vec![0, 1],
        types: vec![UnitType {
            abilities,
            ..unit(1, 2)
        }],
        deadline: random.between(last - 2, last),
        clock,
        wire: *random.pick(&[0, 1, clock / 2]),
        ..empty_job()
    }
}

/// From 1 to `most`: a whole number of clocks or one ns beside it, few clocks for the most part.
fn near_whole_clocks(random: &mut Random, clock: u16, most: u16) -> u16 {
    let clocks = *random.pick(&[0, 1, 1, 2, 2, 3, 31, 256]);
    let whole = clock.saturating_mul(clocks).min(most);
    let beside = [whole.saturating_sub(1), whole, whole + 1];
    let time = *random.pick(&beside);
    time.clamp(1, most)
}

/// Operations started in one step, each on its own instance.
pub fn runs(comparison: &mut Comparison, random: &mut Random, count: usize) -> Checked {
    for _ in 0..1 + count / 10 {
        for n in 2..=MAX_INSTANCES {
            one_run(comparison, random, n)?;
        }
    }
    for _ in 0..1 + count / 2 {
        many_runs(comparison, random)?;
    }
    Ok(())
}

/// One run of `n` operations, whole, with each of its links missing, and with its end in the next step, at the clocks
/// around its total.
fn one_run(comparison: &mut Comparison, random: &mut Random, n: usize) -> Checked {
    let mut job = run_of(random, n);
    let total = total_of_run(&job);
    for clock in [total - 1, total, total + 1] {
        job.clock = clock;
        for end in 1..=n {
            comparison.judge(&job.sheet(), &in_two_steps(n, end).sheet())?;
        }
        for missing in 0..job.links.len() {
            let mut parted = job.clone();
            parted.links.remove(missing);
            comparison.judge(&parted.sheet(), &in_two_steps(n, n).sheet())?;
        }
    }
    Ok(())
}

/// `n` operations, each linked to the next, whose total is below the greatest clock.
fn run_of(random: &mut Random, n: usize) -> Job {
    let mut job = job_in_one_step(random, n, 1022 / (2 * n as u16));
    job.links = (1..n as u16).map(|to| Link { from: to - 1, to }).collect();
    job
}

/// Links at random among operations of short times, at every clock from 1 up to more than any run can total.
fn many_runs(comparison: &mut Comparison, random: &mut Random) -> Checked {
    let n = usize::from(random.between(2, 16));
    let e = random.below(most_links(n) + 1);
    let mut job = job_in_one_step(random, n, 3);
    job.links = random_links(random, n, e);
    let plan = in_two_steps(n, n).sheet();
    for clock in 1..=(3 + 3) * n as u16 {
        job.clock = clock;
        comparison.judge(&job.sheet(), &plan)?;
    }
    Ok(())
}

/// `n` operations and as many instances, every instance able to do every kind; times and wire go up to `most`.
pub fn job_in_one_step(random: &mut Random, n: usize, most: u16) -> Job {
    let types = random.between(n.div_ceil(7) as u16, n.min(MAX_TYPES) as u16);
    let copies = shared_copies(random, types.into(), n as u16);
    let mut able_unit = |copies| UnitType {
        abilities: [(); KINDS].map(|()| {
            let time = random.between(1, most);
            Ability { time, interval: 1 }
        }),
        ..unit(1, copies)
    };
    Job {
        types: copies.into_iter().map(&mut able_unit).collect(),
        kinds: (0..n).map(|_| random.between(0, 7)).collect(),
        wire: random.between(0, most),
        deadline: 2,
        ..empty_job()
    }
}

/// The total of the run that goes through all operations, each on the instance of its own number.
fn total_of_run(job: &Job) -> u16 {
    let mut total = job.wire * (job.kinds.len() as u16 - 1);
    for (unit, kind) in job.instance_types().zip(&job.kinds) {
        total += unit.abilities[usize::from(*kind)].time;
    }
    total
}

/// The operations before `end` in step 1, those from there on in step 2, each on the instance of its own number.
fn in_two_steps(n: usize, end: usize) -> Plan {
    let rows: Vec<(u16, u16)> = (0..n)
        .map(|operation| (if operation < end { 1 } else { 2 }, operation as u16))
        .collect();
    plan_of(&vec![1; n], &rows)
}

#[cfg(test)]
mod tests {
    use super::*;
    use crate::judge::broken_rules;
    use crate::refusal::Fault;

    #[test]
    fn a_run_passes_at_its_total_and_not_below() {
        let mut random = Random::new(1);
        for n in 2..=MAX_INSTANCES {
            let mut job = run_of(&mut random, n);
            let total = total_of_run(&job);
            job.clock = total;
            assert_eq!(broken_rules(&job, &in_two_steps(n, n)), []);
            job.clock = total - 1;
            assert_eq!(broken_rules(&job, &in_two_steps(n, n)), [Fault::Chain]);
            assert_eq!(broken_rules(&job, &in_two_steps(n, n - 1)), []);
        }
    }

    #[test]
    fn times_near_whole_clocks_keep_their_limits() {
        let mut random = Random::new(1);
        let mut met = [false; 32];
        for _ in 0..1000 {
            met[usize::from(near_whole_clocks(&mut random, 10, 30))] = true;
        }
        let times = (0..32).filter(|time| met[*time]);
        assert_eq!(
            times.collect::<Vec<usize>>(),
            [1, 9, 10, 11, 19, 20, 21, 29, 30]
        );
    }
}
