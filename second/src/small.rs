//! Small jobs to search, in which every rule has its say: steps and instances are few, so that operations meet.

use crate::job::Job;
use crate::planned::{workable_job, Size};
use crate::random::Random;
use crate::samples::{most_instances, most_links, random_count};

/// The first job drawn that is as wanted.
pub fn small_job_where(random: &mut Random, wanted: impl Fn(&Job) -> bool) -> Job {
    loop {
        let job = small_job(random);
        if wanted(&job) {
            return job;
        }
    }
}

/// Up to six operations and instances, and few steps. Costs are often equal, and often 0; in every third job all times
/// are long, and operations on one instance must keep their distance.
pub fn small_job(random: &mut Random) -> Job {
    let n = *random.pick(&[0, 1, 2, 3, 3, 3, 4, 4, 4, 5, 5, 6]);
    let m = usize::from(random.between(1, 3));
    let k = random.between(m as u16, most_instances(m).min(6) as u16);
    let size = Size {
        n,
        e: random_count(random, most_links(n)).min(n + 2),
        m,
        k: k.into(),
    };
    let mut job = workable_job(random, size);
    job.deadline = *random.pick(&[0, 1, 2, 2, 3, 3, 3, 4, 4, 5, 6]);
    if random.one_in(3) {
        job.clock = job.clock.div_ceil(3);
        job.deadline += 3;
    }
    for unit in &mut job.types {
        let any_cost = random.between(0, 65_535);
        unit.cost = *random.pick(&[0, 1, 1, 1, 2, 3, any_cost]);
    }
    if n > 0 && random.one_in(15) {
        job.kinds[random.below(n)] = random.between(0, 7);
    }
    job
}

#[cfg(test)]
mod tests {
    use super::*;
    use crate::search::{walk, Searched};

    const MOST_VISITS: u32 = 20_000;

    /// How many of some small jobs have another answer once they are changed so. Walks that do not end are passed over.
    fn answers_changed(change: fn(&mut Job)) -> usize {
        let mut random = Random::new(1);
        let mut changed = 0;
        for _ in 0..500 {
            let job = small_job(&mut random);
            let mut other = job.clone();
            change(&mut other);
            let answers = [job, other].map(|job| walk(&job, MOST_VISITS));
            let ended = !answers
                .iter()
                .any(|answer| matches!(answer, Searched::Spent { .. }));
            changed += usize::from(ended && answers[0] != answers[1]);
        }
        changed
    }

    #[test]
    fn every_part_of_a_job_counts_for_its_answer() {
        let changes: [(&str, fn(&mut Job)); 6] = [
            ("links", |job| job.links.clear()),
            ("wire", |job| job.wire = 0),
            ("clock", |job| {
                job.clock = job.clock.saturating_sub(1).max(1)
            }),
            ("intervals", |job| {
                let units = job.types.iter_mut();
                let abilities = units.flat_map(|unit| &mut unit.abilities);
                abilities.for_each(|ability| ability.interval = ability.interval.min(1));
            }),
            ("costs", |job| {
                job.types.iter_mut().for_each(|unit| unit.cost = 1);
            }),
            ("copies", |job| {
                job.types.iter_mut().for_each(|unit| unit.copies = 1);
            }),
        ];
        for (part, change) in changes {
            let changed = answers_changed(change);
            assert!(changed >= 20, "{part}: {changed}");
        }
    }
}
