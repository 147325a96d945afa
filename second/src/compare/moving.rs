//! Phases that try slide and tidy by papers that can be read.

use super::changes::several_changes;
use super::entries::{Checked, Comparison};
use super::judging::by_the_one_rule_broken;
use super::records::VAST;
use crate::job::Job;
use crate::plan::{selection_of, Plan};
use crate::planned::{any_plan, pairs, Planned};
use crate::random::Random;
use crate::sheet::Form;
use crate::slide::limits;
use crate::small::small_job;

/// More than any plan's sheet needs.
const ROOMY: usize = 40;

/// Distances that are far, some of them near where they are cut down to 8, 16 or 31 bits.
const FAR: [i32; 18] = [
    i32::MIN,
    i32::MIN + 1,
    i32::MIN + 2,
    -0x0100_0000,
    -65_536,
    -65_535,
    -257,
    -256,
    -255,
    255,
    256,
    257,
    65_535,
    65_536,
    65_537,
    0x0100_0000,
    i32::MAX - 1,
    i32::MAX,
];

/// Any distance, near ones for the most part.
pub fn any_distance(random: &mut Random) -> i32 {
    let near = i32::from(random.between(0, 6)) - 3;
    let around = i32::from(random.between(0, 80)) - 40;
    let any = random.number() as i32;
    let far = *random.pick(&FAR);
    *random.pick(&[0, near, near, around, any, far])
}

/// Both questions, with any distance and any room.
pub fn ask(comparison: &mut Comparison, random: &mut Random, job: &[u8], plan: &[u8]) -> Checked {
    let any_room = random.below(ROOMY);
    let room = *random.pick(&[ROOMY, ROOMY, any_room]);
    comparison.slide(job, plan, any_distance(random), room)?;
    comparison.tidy(job, plan, room)
}

/// Every distance around those allowed, and far ones.
pub fn every_distance(comparison: &mut Comparison, random: &mut Random, count: usize) -> Checked {
    for Planned { job, plan } in pairs(random, count) {
        let (job, plan) = (job.sheet(), plan.sheet());
        for distance in (-40..=40).chain(FAR) {
            comparison.slide(&job, &plan, distance, ROOMY)?;
        }
    }
    Ok(())
}

/// As far as the first start and the last finish allow, and one step farther; then the plan slid to the one limit on to
/// the other.
pub fn to_both_limits(comparison: &mut Comparison, random: &mut Random, count: usize) -> Checked {
    for Planned { job, mut plan } in pairs(random, 10 * count) {
        let Some((least, greatest)) = limits(&job, &plan) else {
            continue;
        };
        let sheet = job.sheet();
        for distance in [least - 1, least, greatest, greatest + 1] {
            comparison.slide(&sheet, &plan.sheet(), distance, ROOMY)?;
        }
        for row in &mut plan.rows {
            row.start = (i32::from(row.start) + least) as u16;
        }
        for distance in [-1, greatest - least, greatest - least + 1] {
            comparison.slide(&sheet, &plan.sheet(), distance, ROOMY)?;
        }
    }
    Ok(())
}

/// Plans refused by nothing but 11, if by that.
pub fn selection_order(comparison: &mut Comparison, random: &mut Random, count: usize) -> Checked {
    for Planned { job, plan } in pairs(random, 10 * count) {
        let sheet = job.sheet();
        for _ in 0..3 {
            let untidy = untidy(random, &job, &plan).sheet();
            comparison.tidy(&sheet, &untidy, ROOMY)?;
            comparison.slide(&sheet, &untidy, any_distance(random), ROOMY)?;
        }
    }
    Ok(())
}

/// The plan with the instances of each type numbered otherwise, and any selected that no row uses. No rule but selection
/// order can be broken.
fn untidy(random: &mut Random, job: &Job, plan: &Plan) -> Plan {
    let mut numbers: Vec<u16> = (0..job.instances() as u16).collect();
    let mut of_types = &mut numbers[..];
    for unit in &job.types {
        let (of_type, rest) = of_types.split_at_mut(unit.copies.into());
        shuffle(random, of_type);
        of_types = rest;
    }
    let mut other = plan.clone();
    for selected in &mut other.selection {
        *selected = random.one_in(3);
    }
    for row in &mut other.rows {
        row.instance = numbers[usize::from(row.instance)];
        other.selection[usize::from(row.instance)] = true;
    }
    other
}

fn shuffle(random: &mut Random, numbers: &mut [u16]) {
    for end in (1..numbers.len()).rev() {
        numbers.swap(end, random.below(end + 1));
    }
}

/// Small jobs, with the rows as they are, and with each row on a selected instance of its type where there is one.
pub fn every_selection(comparison: &mut Comparison, random: &mut Random, count: usize) -> Checked {
    for _ in 0..4 * count {
        let job = small_job(random);
        let Some(mut plan) = any_plan(random, &job) else {
            continue;
        };
        let sheet = job.sheet();
        for bits in 0..1u32 << job.instances() {
            plan.selection = selection_of(bits, job.instances());
            comparison.tidy(&sheet, &plan.sheet(), ROOMY)?;
            let on_selected = on_selected_instances(random, &job, &plan);
            comparison.tidy(&sheet, &on_selected.sheet(), ROOMY)?;
        }
    }
    Ok(())
}

fn on_selected_instances(random: &mut Random, job: &Job, plan: &Plan) -> Plan {
    let mut other = plan.clone();
    let mut first = 0;
    for unit in &job.types {
        let of_type = first..first + unit.copies;
        let selected: Vec<u16> = of_type
            .clone()
            .filter(|&instance| plan.selection[usize::from(instance)])
            .collect();
        let rows = other.rows.iter_mut();
        for row in rows.filter(|row| of_type.contains(&row.instance)) {
            if !selected.is_empty() && !selected.contains(&row.instance) {
                row.instance = *random.pick(&selected);
            }
        }
        first = of_type.end;
    }
    other
}

/// Outputs of every length, for plans that are written and for plans that are refused.
pub fn every_room(comparison: &mut Comparison, random: &mut Random, count: usize) -> Checked {
    for Planned { job, plan } in pairs(random, count / 4) {
        let sheet = job.sheet();
        let (least, greatest) = limits(&job, &plan).unwrap_or((-31, 31));
        let untidy = untidy(random, &job, &plan).sheet();
        let plan = plan.sheet();
        for room in (0..=plan.len() + 1).chain([ROOMY, VAST]) {
            for distance in [0, least, greatest, greatest + 1, 32] {
                comparison.slide(&sheet, &plan, distance, room)?;
            }
            for plan in [&plan, &untidy] {
                comparison.tidy(&sheet, plan, room)?;
            }
        }
    }
    Ok(())
}

/// Plans that break one rule or several, those of selection order broken beside them too.
pub fn broken_plans(comparison: &mut Comparison, random: &mut Random, count: usize) -> Checked {
    for pair in pairs(random, 20 + count / 2) {
        let sheet = pair.job.sheet();
        for (_, broken) in by_the_one_rule_broken(random, &pair) {
            for _ in 0..4 {
                let plan = random.pick(&broken).clone();
                ask(comparison, random, &sheet, &plan.sheet())?;
            }
        }
        for _ in 0..40 {
            let untidy = untidy(random, &pair.job, &pair.plan);
            let plan = *random.pick(&[&pair.plan, &untidy]);
            let changed = several_changes(plan, random).sheet();
            ask(comparison, random, &sheet, &changed)?;
        }
    }
    Ok(())
}

#[cfg(test)]
mod tests {
    use super::*;
    use crate::judge::broken_rules;
    use crate::refusal::Fault;

    #[test]
    fn untidy_plans_break_selection_order_alone() {
        let mut random = Random::new(1);
        let mut broken_often = 0;
        for Planned { job, plan } in pairs(&mut random, 200) {
            let broken = broken_rules(&job, &untidy(&mut random, &job, &plan));
            assert!(broken.is_empty() || broken == [Fault::SelectionOrder]);
            broken_often += usize::from(!broken.is_empty());
        }
        assert!(broken_often >= 50, "{broken_often}");
    }

    #[test]
    fn the_last_finish_is_often_behind_the_last_start() {
        let behind = |Planned { job, plan }: &Planned| {
            let last_start = plan.rows.iter().map(|row| i32::from(row.start)).max();
            let by_starts = last_start.map(|start| i32::from(job.deadline) - start);
            by_starts > limits(job, plan).map(|(_, greatest)| greatest)
        };
        let pairs = pairs(&mut Random::new(1), 200);
        let often = pairs.iter().filter(|pair| behind(pair)).count();
        assert!(often >= 10, "{often}");
    }

    #[test]
    fn rows_come_onto_selected_instances_of_their_type() {
        let mut random = Random::new(1);
        let mut moved = 0;
        for Planned { job, mut plan } in pairs(&mut random, 100) {
            plan.selection
                .iter_mut()
                .for_each(|bit| *bit = random.one_in(2));
            let other = on_selected_instances(&mut random, &job, &plan);
            let types: Vec<_> = job.instance_types().collect();
            for (row, before) in other.rows.iter().zip(&plan.rows) {
                let [to, from] = [row, before].map(|row| usize::from(row.instance));
                assert!(std::ptr::eq(types[to], types[from]));
                assert!(to == from || other.selection[to] && !other.selection[from]);
                moved += usize::from(to != from);
            }
        }
        assert!(moved >= 100, "{moved}");
    }
}
