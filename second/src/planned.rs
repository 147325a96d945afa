//! Jobs, each with a plan that passes.

use crate::job::{Ability, Job, UnitType};
use crate::plan::{Plan, Row};
use crate::random::Random;
use crate::record::{KINDS, MAX_INSTANCES, MAX_LINKS, MAX_OPERATIONS, MAX_TYPES};
use crate::rules::{are_live, selection_from, Place};
use crate::samples::{
    empty_job, empty_plan, job_p, most_instances, most_links, plan_of_case_1, random_count,
    random_links, shared_copies, CANNOT,
};

const LAST_STEP: u16 = 31;

#[derive(Clone, Debug)]
pub struct Planned {
    pub job: Job,
    pub plan: Plan,
}

/// N, E, M and K. A job with operations has a type, and a plan only where they find room in 31 steps.
#[derive(Clone, Copy)]
pub struct Size {
    pub n: usize,
    pub e: usize,
    pub m: usize,
    pub k: usize,
}

impl Size {
    const LARGEST: Size = Size {
        n: MAX_OPERATIONS,
        e: MAX_LINKS,
        m: MAX_TYPES,
        k: MAX_INSTANCES,
    };

    fn random(random: &mut Random) -> Size {
        let n = random_count(random, MAX_OPERATIONS);
        let m = random.often_extreme(n.min(1) as u16, MAX_TYPES as u16);
        let k = random.often_extreme(m, most_instances(m.into()) as u16);
        Size {
            n,
            e: random_count(random, most_links(n)),
            m: m.into(),
            k: k.into(),
        }
    }
}

/// The known pairs and `count` random ones.
pub fn pairs(random: &mut Random, count: usize) -> Vec<Planned> {
    let mut pairs = vec![
        Planned {
            job: empty_job(),
            plan: empty_plan(),
        },
        Planned {
            job: job_p(),
            plan: plan_of_case_1(),
        },
        Planned::of_size(random, Size::LARGEST),
    ];
    for _ in 0..count {
        let size = Size::random(random);
        pairs.push(Planned::of_size(random, size));
    }
    pairs
}

impl Planned {
    /// Jobs are drawn until a plan is found.
    pub fn of_size(random: &mut Random, size: Size) -> Planned {
        loop {
            let mut job = workable_job(random, size);
            if let Some(places) = all_placed(&job, random) {
                let finishes = places.iter().flatten().map(Place::finish);
                let last = finishes.max().unwrap_or(0);
                job.deadline = random.often_extreme(last, LAST_STEP);
                let plan = plan_of_places(&job, &places, random);
                return Planned { job, plan };
            }
        }
    }
}

/// Any plan that passes, None where the operations placed so far leave no room for the next.
pub fn any_plan(random: &mut Random, job: &Job) -> Option<Plan> {
    let places = all_placed(job, random)?;
    Some(plan_of_places(job, &places, random))
}

/// Times are multiples of the unit, and so is the clock.
#[derive(Clone, Copy)]
struct Grain {
    clock: u16,
    unit: u16,
}

/// With few units in a clock, runs often total the clock exactly.
fn random_grain(random: &mut Random) -> Grain {
    if random.one_in(3) {
        let clock = random.often_extreme(1, 1023);
        return Grain { clock, unit: 1 };
    }
    let unit = random.between(1, 85);
    let clock = 12 * unit;
    Grain { clock, unit }
}

/// A job whose times go well with its clock: several short operations fit into a step, long ones take a few steps.
pub fn workable_job(random: &mut Random, size: Size) -> Job {
    let grain = random_grain(random);
    let short_wire = random.between(0, grain.clock / 4);
    let any_wire = random.between(0, 1023);
    let mut types = Vec::new();
    for copies in shared_copies(random, size.m, size.k as u16) {
        types.push(workable_type(random, types.len(), copies, grain));
    }
    let kinds_done = kinds_done_by(&types);
    Job {
        kinds: (0..size.n).map(|_| *random.pick(&kinds_done)).collect(),
        links: random_links(random, size.n, size.e),
        types,
        deadline: LAST_STEP,
        clock: grain.clock,
        wire: *random.pick(&[0, grain.unit, short_wire, any_wire]),
    }
}

/// Every type does the kind of its own number at least.
fn workable_type(random: &mut Random, number: usize, copies: u16, grain: Grain) -> UnitType {
    let mut abilities = [CANNOT; KINDS];
    for (kind, ability) in abilities.iter_mut().enumerate() {
        if kind == number || random.one_in(2) {
            *ability = workable_ability(random, grain);
        }
    }
    UnitType {
        cost: random.often_extreme(0, 65_535),
        copies,
        abilities,
    }
}

/// A time from a part of a step up to four steps; often the interval is shorter.
fn workable_ability(random: &mut Random, Grain { clock, unit }: Grain) -> Ability {
    let longest = *random.pick(&[clock / 4, clock / 2, clock, clock, 2 * clock, 4 * clock]);
    let time = unit * random.between(1, (longest.min(1023) / unit).max(1));
    let any_interval = random.between(1, time);
    Ability {
        time,
        interval: *random.pick(&[1, any_interval, time.min(clock), time]),
    }
}

fn kinds_done_by(types: &[UnitType]) -> Vec<u16> {
    (0..KINDS as u16)
        .filter(|&kind| {
            let mut abilities = types.iter().map(|unit| unit.abilities[usize::from(kind)]);
            abilities.any(|ability| ability.time > 0)
        })
        .collect()
}

/// Operations in number order, each at the first place that the rules allow, or at the first from a random step on.
/// Either all of them look at the instances from the first one on, or each from a random one on.
fn all_placed(job: &Job, random: &mut Random) -> Option<Vec<Option<Place>>> {
    let mut places = vec![None; job.kinds.len()];
    let spread = random.one_in(2);
    for operation in 0..places.len() {
        let turn = if spread {
            random.below(job.instances())
        } else {
            0
        };
        let any_step = random.between(1, LAST_STEP);
        let step = *random.pick(&[1, 1, 1, any_step]);
        let found = first_live(job, &mut places, operation, (step, turn))
            || first_live(job, &mut places, operation, (1, turn));
        if !found {
            return None;
        }
    }
    Some(places)
}

/// Places the operation at its first live option: starts ascend from `step`, instances go round from `turn`.
fn first_live(
    job: &Job,
    places: &mut [Option<Place>],
    operation: usize,
    (step, turn): (u16, usize),
) -> bool {
    let k = job.instances();
    for start in step..=job.deadline {
        for instance in (turn..k).chain(0..turn) {
            let instance = instance as u16;
            places[operation] = Place::of(job, operation, Row { start, instance });
            if places[operation].is_some() && are_live(job, places) {
                return true;
            }
        }
    }
    places[operation] = None;
    false
}

/// The plan's selection keeps selection order, and may hold more instances than the rows need.
fn plan_of_places(job: &Job, places: &[Option<Place>], random: &mut Random) -> Plan {
    let rows: Vec<Row> = places.iter().flatten().map(Place::row).collect();
    let any_up_to_the_used = |first, first_used| random.often_extreme(first, first_used);
    let selection = selection_from(job, &rows, any_up_to_the_used);
    Plan { selection, rows }
}

#[cfg(test)]
mod tests {
    use super::*;
    use crate::judge::broken_rules;
    use crate::sheet::Form;

    #[test]
    fn every_plan_passes() {
        for Planned { job, plan } in pairs(&mut Random::new(1), 300) {
            assert_eq!(Job::read(&job.sheet()), Ok(job.clone()));
            assert_eq!(broken_rules(&job, &plan), []);
        }
    }

    #[test]
    fn the_largest_pair_has_every_limit() {
        let Planned { job, plan } = Planned::of_size(&mut Random::new(1), Size::LARGEST);
        assert_eq!([job.links.len(), job.types.len()], [64, 8]);
        assert_eq!([plan.rows.len(), plan.selection.len()], [24, 16]);
    }
}
