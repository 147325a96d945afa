//! Jobs and plans to try: the known ones, those with every limit reached, and random ones.

use crate::job::{Ability, Job, Link, UnitType};
use crate::plan::{Plan, Row};
use crate::random::Random;
use crate::record::{KINDS, MAX_INSTANCES, MAX_LINKS, MAX_OPERATIONS, MAX_TYPES};

pub const CANNOT: Ability = Ability {
    time: 0,
    interval: 0,
};

pub fn empty_job() -> Job {
    Job {
        kinds: vec![],
        links: vec![],
        types: vec![],
        deadline: 0,
        clock: 1,
        wire: 0,
    }
}

pub fn empty_plan() -> Plan {
    Plan {
        selection: vec![],
        rows: vec![],
    }
}

/// The job P: two multiplications whose results are added.
pub fn job_p() -> Job {
    Job {
        kinds: vec![1, 1, 0],
        links: vec![Link { from: 0, to: 2 }, Link { from: 1, to: 2 }],
        types: vec![
            unit_for_one_kind(0, 10, 2, 40),
            unit_for_one_kind(1, 30, 1, 90),
        ],
        deadline: 3,
        clock: 100,
        wire: 5,
    }
}

pub fn unit_for_one_kind(kind: usize, cost: u16, copies: u16, time: u16) -> UnitType {
    let mut abilities = [CANNOT; KINDS];
    abilities[kind] = Ability {
        time,
        interval: time,
    };
    UnitType {
        cost,
        copies,
        abilities,
    }
}

/// The cheapest plan of job P.
pub fn plan_of_case_1() -> Plan {
    plan_of(&[0, 1, 1], &[(1, 2), (2, 2), (3, 1)])
}

/// One unit, held by operation 0, an addition, for one step and by operation 1, a multiplication, for three.
pub fn job_of_case_8() -> Job {
    let mut unit = unit_for_one_kind(0, 10, 1, 100);
    unit.abilities[1] = Ability {
        time: 300,
        interval: 300,
    };
    Job {
        kinds: vec![0, 1],
        types: vec![unit],
        deadline: 4,
        clock: 100,
        ..empty_job()
    }
}

/// No operations and no types, the plan that goes with them, and a note that has nothing to prove.
pub fn dossier_of_case_12() -> Vec<u8> {
    vec![
        0x40, 0x00, 0x06, 0x00, 0x02, 0x00, 0x01, 0x10, 0x00, 0x00, 0x00, 0x20, 0x00, 0x20, 0x00,
        0x38,
    ]
}

/// A plan from its selection bits and its rows, start and instance each.
pub fn plan_of(selection: &[u16], rows: &[(u16, u16)]) -> Plan {
    let rows = rows
        .iter()
        .map(|&(start, instance)| Row { start, instance });
    Plan {
        selection: selection.iter().map(|&bit| bit == 1).collect(),
        rows: rows.collect(),
    }
}

/// Every number of the job at its limit.
pub fn full_job() -> Job {
    let mut links = all_links(MAX_OPERATIONS);
    links.drain(..links.len() - MAX_LINKS);
    let unit = UnitType {
        cost: 65_535,
        copies: (MAX_INSTANCES / MAX_TYPES) as u16,
        abilities: [Ability {
            time: 1023,
            interval: 1023,
        }; KINDS],
    };
    Job {
        kinds: vec![7; MAX_OPERATIONS],
        links,
        types: vec![unit; MAX_TYPES],
        deadline: 31,
        clock: 1023,
        wire: 1023,
    }
}

/// Every number of the plan at its limit.
pub fn full_plan() -> Plan {
    let row = Row {
        start: 31,
        instance: 15,
    };
    Plan {
        selection: vec![true; MAX_INSTANCES],
        rows: vec![row; MAX_OPERATIONS],
    }
}

/// The known jobs and `count` random ones.
pub fn jobs(random: &mut Random, count: usize) -> Vec<Job> {
    let mut jobs = vec![empty_job(), job_p(), full_job()];
    jobs.extend((0..count).map(|_| random_job(random)));
    jobs
}

/// The known plans and `count` random ones.
pub fn plans(random: &mut Random, count: usize) -> Vec<Plan> {
    let mut plans = vec![empty_plan(), plan_of_case_1(), full_plan()];
    plans.extend((0..count).map(|_| random_plan(random)));
    plans
}

/// Every link that a job of `n` operations can have, ascending.
fn all_links(n: usize) -> Vec<Link> {
    let n = n as u16;
    (0..n)
        .flat_map(|from| (from + 1..n).map(move |to| Link { from, to }))
        .collect()
}

pub fn most_links(n: usize) -> usize {
    all_links(n).len().min(MAX_LINKS)
}

pub fn random_job(random: &mut Random) -> Job {
    let n = random_count(random, MAX_OPERATIONS);
    let e = random_count(random, most_links(n));
    let m = random_count(random, MAX_TYPES);
    job_of_size(random, n, e, m)
}

pub fn job_of_size(random: &mut Random, n: usize, e: usize, m: usize) -> Job {
    Job {
        kinds: (0..n).map(|_| random.between(0, 7)).collect(),
        links: random_links(random, n, e),
        types: random_types(random, m),
        deadline: random.often_extreme(0, 31),
        clock: random.often_extreme(1, 1023),
        wire: random.often_extreme(0, 1023),
    }
}

pub fn random_plan(random: &mut Random) -> Plan {
    let n = random_count(random, MAX_OPERATIONS);
    let k = random_count(random, MAX_INSTANCES);
    plan_of_size(random, n, k)
}

pub fn plan_of_size(random: &mut Random, n: usize, k: usize) -> Plan {
    let selection = (0..k).map(|_| random.one_in(2)).collect();
    let mut rows = Vec::new();
    for _ in 0..n {
        let start = random.often_extreme(0, 31);
        let instance = random.often_extreme(0, 15);
        rows.push(Row { start, instance });
    }
    Plan { selection, rows }
}

pub fn random_count(random: &mut Random, most: usize) -> usize {
    usize::from(random.often_extreme(0, most as u16))
}

pub fn random_links(random: &mut Random, n: usize, e: usize) -> Vec<Link> {
    let mut links = all_links(n);
    while links.len() > e {
        links.remove(random.below(links.len()));
    }
    links
}

fn random_types(random: &mut Random, m: usize) -> Vec<UnitType> {
    let copies = random_copies(random, m);
    let mut types = Vec::new();
    for copies in copies {
        types.push(UnitType {
            cost: random.often_extreme(0, 65_535),
            copies,
            abilities: [(); KINDS].map(|()| random_ability(random)),
        });
    }
    types
}

/// Copies of each type, their total often the largest or the smallest.
fn random_copies(random: &mut Random, m: usize) -> Vec<u16> {
    let k = random.often_extreme(m as u16, most_instances(m) as u16);
    shared_copies(random, m, k)
}

pub fn most_instances(m: usize) -> usize {
    MAX_INSTANCES.min(7 * m)
}

/// `k` copies shared among `m` types.
pub fn shared_copies(random: &mut Random, m: usize, k: u16) -> Vec<u16> {
    let mut copies = vec![1; m];
    while copies.iter().sum::<u16>() < k {
        let unit = random.below(m);
        if copies[unit] < 7 {
            copies[unit] += 1;
        }
    }
    copies
}

fn random_ability(random: &mut Random) -> Ability {
    if random.one_in(4) {
        return CANNOT;
    }
    let time = random.often_extreme(1, 1023);
    let interval = random.often_extreme(1, time);
    Ability { time, interval }
}

#[cfg(test)]
mod tests {
    use super::*;
    use crate::sheet::Form;
    use std::fmt::Debug;

    fn assert_reads_back<F: Form + Debug + PartialEq>(sound: F) {
        assert_eq!(F::write(&sound.record(), 274), Ok(sound.sheet()));
        assert_eq!(F::read(&sound.sheet()), Ok(sound));
    }

    #[test]
    fn samples_read_back_as_they_were_written() {
        let mut random = Random::new(1);
        jobs(&mut random, 500)
            .into_iter()
            .for_each(assert_reads_back);
        plans(&mut random, 500)
            .into_iter()
            .for_each(assert_reads_back);
    }

    #[test]
    fn copies_total_16_and_each_number_of_copies_occur() {
        let mut random = Random::new(1);
        let mut met = [false; 8];
        let mut total_16 = false;
        for _ in 0..500 {
            let copies = random_copies(&mut random, 3);
            copies
                .iter()
                .for_each(|&copies| met[usize::from(copies)] = true);
            total_16 |= copies.iter().sum::<u16>() == 16;
        }
        assert_eq!(met, [false, true, true, true, true, true, true, true]);
        assert!(total_16);
    }

    #[test]
    fn links_are_counted_by_pairs_up_to_64() {
        assert_eq!([0, 1, 2, 11, 12, 24].map(most_links), [0, 0, 1, 55, 64, 64]);
    }
}
