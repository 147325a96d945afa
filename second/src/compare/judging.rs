//! Phases that try the judge by plans: those that pass, and those that break one rule or several.

use super::changes::{other_counts, other_rows, other_selections, several_changes};
use super::entries::{Checked, Comparison};
use super::for_all;
use crate::judge::broken_rules;
use crate::plan::Plan;
use crate::planned::{pairs, Planned};
use crate::random::Random;
use crate::samples::{jobs, plan_of_size};
use crate::sheet::Form;
use std::collections::BTreeMap;

/// Plans that pass, their sizes and numbers at random, the known ones first.
pub fn passing(comparison: &mut Comparison, random: &mut Random, count: usize) -> Checked {
    for_all(pairs(random, 20 * count), |pair| {
        comparison.judge(&pair.job.sheet(), &pair.plan.sheet())
    })
}

/// For each passing plan and each rule, some plans that break this rule and no other, as far as one change goes.
pub fn one_rule_broken(comparison: &mut Comparison, random: &mut Random, count: usize) -> Checked {
    for pair in pairs(random, 20 + 2 * count) {
        for (number, broken) in by_the_one_rule_broken(random, &pair) {
            for _ in 0..4 {
                let plan = random.pick(&broken);
                comparison.judge(&pair.job.sheet(), &plan.sheet())?;
                comparison.tally.count_alone(number);
            }
        }
    }
    Ok(())
}

/// Plans that differ from the pair's by one change, and break one rule and no other, by its number.
pub fn by_the_one_rule_broken(
    random: &mut Random,
    Planned { job, plan }: &Planned,
) -> BTreeMap<u32, Vec<Plan>> {
    let mut changed = [other_counts(plan), other_selections(plan)].concat();
    for _ in 0..plan.rows.len().min(3) {
        changed.extend(other_rows(plan, random.below(plan.rows.len())));
    }
    let mut by_number: BTreeMap<u32, Vec<Plan>> = BTreeMap::new();
    for plan in changed {
        if let [fault] = broken_rules(job, &plan)[..] {
            by_number.entry(fault as u32).or_default().push(plan);
        }
    }
    by_number
}

/// Each row in turn with every start and every instance.
pub fn every_row_changed(
    comparison: &mut Comparison,
    random: &mut Random,
    count: usize,
) -> Checked {
    for Planned { job, plan } in pairs(random, count / 8) {
        let job = job.sheet();
        for operation in 0..plan.rows.len() {
            for_all(other_rows(&plan, operation), |changed| {
                comparison.judge(&job, &changed.sheet())
            })?;
        }
    }
    Ok(())
}

/// Several changes of a passing plan, so that the order of the refusals shows; then plans at random.
pub fn several_rules_broken(
    comparison: &mut Comparison,
    random: &mut Random,
    count: usize,
) -> Checked {
    for Planned { job, plan } in pairs(random, 5 * count) {
        let job = job.sheet();
        for _ in 0..100 {
            comparison.judge(&job, &several_changes(&plan, random).sheet())?;
        }
    }
    for job in jobs(random, 10 * count) {
        let plan = plan_of_size(random, job.kinds.len(), job.instances());
        comparison.judge(&job.sheet(), &plan.sheet())?;
    }
    Ok(())
}
