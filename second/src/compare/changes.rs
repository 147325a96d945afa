//! Plans made from a plan by changing its counts, its selection or its rows.

use crate::plan::{Plan, Row, LARGEST_INSTANCE, LARGEST_START};
use crate::random::Random;
use crate::record::{MAX_INSTANCES, MAX_OPERATIONS};

/// One row or one selection bit more or less, or none left, as far as a plan's limits allow.
pub fn other_counts(plan: &Plan) -> Vec<Plan> {
    let [n, k] = [plan.rows.len(), plan.selection.len()];
    let mut changed = Vec::new();
    for n in [0, n.saturating_sub(1), n, (n + 1).min(MAX_OPERATIONS)] {
        for k in [0, k.saturating_sub(1), k, (k + 1).min(MAX_INSTANCES)] {
            let mut other = plan.clone();
            let added = Row {
                start: 1,
                instance: 0,
            };
            other.rows.resize(n, added);
            other.selection.resize(k, true);
            if other != *plan {
                changed.push(other);
            }
        }
    }
    changed
}

/// Each selection bit changed by itself, each two bits, and all.
pub fn other_selections(plan: &Plan) -> Vec<Plan> {
    let k = plan.selection.len();
    let mut changed = Vec::new();
    for one in 0..k {
        for two in one..k {
            let mut other = plan.clone();
            other.selection[one] ^= true;
            other.selection[two] ^= one != two;
            changed.push(other);
        }
    }
    let all = plan.selection.iter().map(|selected| !selected).collect();
    changed.push(Plan {
        selection: all,
        rows: plan.rows.clone(),
    });
    changed
}

/// The operation's row with every start and instance that its fields hold.
pub fn other_rows(plan: &Plan, operation: usize) -> Vec<Plan> {
    let mut changed = Vec::new();
    for start in 0..=LARGEST_START {
        for instance in 0..=LARGEST_INSTANCE {
            let mut other = plan.clone();
            other.rows[operation] = Row { start, instance };
            changed.push(other);
        }
    }
    changed
}

/// Several changes at once, of rows for the most part.
pub fn several_changes(plan: &Plan, random: &mut Random) -> Plan {
    let mut changed = plan.clone();
    for _ in 0..2 + random.below(5) {
        if !changed.rows.is_empty() {
            change_a_row(&mut changed.rows, random);
        }
        if random.one_in(8) && !changed.selection.is_empty() {
            let instance = random.below(changed.selection.len());
            changed.selection[instance] ^= true;
        }
    }
    if random.one_in(8) {
        return random.pick(&other_counts(&changed)).clone();
    }
    changed
}

/// A start or an instance at random, or taken from another row, or both from another row: operations then meet in one
/// step or on one instance.
fn change_a_row(rows: &mut [Row], random: &mut Random) {
    let other = *random.pick(rows);
    let row = &mut rows[random.below(rows.len())];
    match random.below(6) {
        0 => row.start = random.between(0, LARGEST_START),
        1 => row.instance = random.between(0, LARGEST_INSTANCE),
        2 | 3 => row.start = other.start,
        4 => row.instance = other.instance,
        _ => *row = other,
    }
}

#[cfg(test)]
mod tests {
    use super::*;
    use crate::judge::broken_rules;
    use crate::refusal::Fault;
    use crate::samples::{empty_job, empty_plan, full_plan, job_p, plan_of_case_1};

    #[test]
    fn other_counts_break_rule_10_alone() {
        for (job, plan) in [(job_p(), plan_of_case_1()), (empty_job(), empty_plan())] {
            for other in other_counts(&plan) {
                assert_eq!(broken_rules(&job, &other), [Fault::CountsDiffer]);
            }
        }
        let fewer = other_counts(&full_plan());
        assert!(fewer
            .iter()
            .all(|plan| plan.rows.len() <= 24 && plan.selection.len() <= 16));
    }

    #[test]
    fn every_row_of_case_1_is_broken_by_each_row_rule() {
        for operation in 0..3 {
            let others = other_rows(&plan_of_case_1(), operation);
            assert_eq!(others.len(), 512);
            for fault in [Fault::RowInstance, Fault::RowKind, Fault::RowStep] {
                let mut broken = others.iter().map(|plan| broken_rules(&job_p(), plan));
                assert!(
                    broken.any(|rules| rules == [fault]),
                    "{operation} {fault:?}"
                );
            }
        }
    }

    #[test]
    fn several_changes_keep_to_a_plans_limits() {
        let mut random = Random::new(1);
        for plan in [empty_plan(), plan_of_case_1(), full_plan()] {
            for _ in 0..200 {
                let changed = several_changes(&plan, &mut random);
                assert!(changed.rows.len() <= 24 && changed.selection.len() <= 16);
            }
        }
    }
}
