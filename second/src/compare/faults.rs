//! Jobs whose links or types break their rule.

use crate::job::{Ability, Job, Link};

/// For each link in turn, the job with that link broken by numbers that a sheet can hold.
pub fn broken_links(job: &Job) -> Vec<Job> {
    let n = job.kinds.len() as u16;
    let mut broken = Vec::new();
    for (place, Link { from, to }) in job.links.iter().copied().enumerate() {
        let pairs = [(from, from), (to, from), (from, n), (from, 31), (31, 31)];
        broken.extend(pairs.map(|pair| with_link(job, place, pair)));
        if place > 0 {
            let previous = job.links[place - 1];
            broken.push(with_link(job, place, (previous.from, previous.to)));
            let mut out_of_order = job.clone();
            out_of_order.links.swap(place - 1, place);
            broken.push(out_of_order);
        }
    }
    broken
}

/// The same by numbers that only a record can hold, some of them sound in their low byte.
pub fn too_wide_links(job: &Job) -> Vec<Job> {
    let mut broken = Vec::new();
    for (place, Link { from, to }) in job.links.iter().copied().enumerate() {
        let pairs = [
            (from, 32),
            (from, to + 256),
            (from + 256, to),
            (from + 256, to + 256),
            (from, 65_535),
            (65_535, 65_535),
        ];
        broken.extend(pairs.map(|pair| with_link(job, place, pair)));
    }
    broken
}

/// For each type in turn, the job with that type broken by numbers that a sheet can hold.
pub fn broken_types(job: &Job) -> Vec<Job> {
    const ABILITIES: [(u16, u16); 8] = [
        (0, 1),
        (0, 1023),
        (1, 0),
        (1023, 0),
        (1, 2),
        (500, 501),
        (1022, 1023),
        (1, 1023),
    ];
    let mut broken = Vec::new();
    for (place, unit) in job.types.iter().enumerate() {
        broken.push(with_copies(job, place, 0));
        let other_copies = copies_in_total(job) - unit.copies;
        if (10..=16).contains(&other_copies) {
            broken.push(with_copies(job, place, 17 - other_copies));
        }
        broken.extend(with_each_ability(job, place, &ABILITIES));
    }
    broken
}

/// The same by numbers that only a record can hold, some of them sound in their low bits.
pub fn too_wide_types(job: &Job) -> Vec<Job> {
    const ABILITIES: [(u16, u16); 7] = [
        (1024, 1),
        (1024, 1024),
        (1025, 1025),
        (1023, 1024),
        (1, 1025),
        (65_535, 1),
        (65_535, 65_535),
    ];
    let mut broken = Vec::new();
    for (place, unit) in job.types.iter().enumerate() {
        for copies in [8, 256, unit.copies + 256, 65_535] {
            broken.push(with_copies(job, place, copies));
        }
        broken.extend(with_each_ability(job, place, &ABILITIES));
    }
    broken
}

fn copies_in_total(job: &Job) -> u16 {
    job.types.iter().map(|unit| unit.copies).sum()
}

fn with_link(job: &Job, place: usize, (from, to): (u16, u16)) -> Job {
    let mut changed = job.clone();
    changed.links[place] = Link { from, to };
    changed
}

fn with_copies(job: &Job, place: usize, copies: u16) -> Job {
    let mut changed = job.clone();
    changed.types[place].copies = copies;
    changed
}

/// One job for each kind and each of the pairs of time and interval.
fn with_each_ability(job: &Job, place: usize, abilities: &[(u16, u16)]) -> Vec<Job> {
    let mut changed_jobs = Vec::new();
    for kind in 0..job.types[place].abilities.len() {
        for &(time, interval) in abilities {
            let mut changed = job.clone();
            changed.types[place].abilities[kind] = Ability { time, interval };
            changed_jobs.push(changed);
        }
    }
    changed_jobs
}

#[cfg(test)]
mod tests {
    use super::*;
    use crate::refusal::Fault;
    use crate::samples::{full_job, job_p};
    use crate::sheet::Form;

    fn assert_sheets_refused(broken: fn(&Job) -> Vec<Job>, expected: Fault) {
        for job in [job_p(), full_job()].iter().flat_map(broken) {
            let refusal = Job::read(&job.sheet()).expect_err("refused");
            assert_eq!(refusal.fault, expected);
        }
    }

    fn assert_records_refused(broken: fn(&Job) -> Vec<Job>, expected: Fault) {
        for job in [job_p(), full_job()].iter().flat_map(broken) {
            assert_eq!(Job::of_record(&job.record()), Err(expected));
        }
    }

    #[test]
    fn every_broken_link_is_refused_as_one() {
        assert_sheets_refused(broken_links, Fault::LinkRule);
        assert_records_refused(broken_links, Fault::LinkRule);
        assert_records_refused(too_wide_links, Fault::LinkRule);
    }

    #[test]
    fn every_broken_type_is_refused_as_one() {
        assert_sheets_refused(broken_types, Fault::TypeRule);
        assert_records_refused(broken_types, Fault::TypeRule);
        assert_records_refused(too_wide_types, Fault::TypeRule);
    }

    #[test]
    fn copies_in_total_17_are_among_the_broken_types() {
        let broken = broken_types(&full_job());
        assert!(broken.iter().any(|job| copies_in_total(job) == 17));
    }
}
