//! Every plan of a small job, judged one by one. The walk has no part in it.

use crate::job::Job;
use crate::judge::{broken_rules, judge_plan};
use crate::plan::{selection_of, Plan, Row, LARGEST_INSTANCE, LARGEST_START};
use crate::search::Best;

/// Of the plans that pass, the cheapest; of these the one whose rows come first, operation by operation, by start and
/// then by instance; of these the one that selects the fewest instances. None where no plan passes.
pub fn cheapest(job: &Job) -> Option<Best> {
    let mut best: Option<Best> = None;
    for_every_plan(job, |plan| {
        if let Ok(cost) = judge_plan(job, plan) {
            let better = best
                .as_ref()
                .is_none_or(|best| rank(cost, plan) < rank(best.cost, &best.plan));
            if better {
                let plan = plan.clone();
                best = Some(Best { cost, plan });
            }
        }
    });
    best
}

fn rank(cost: u32, plan: &Plan) -> (u32, &[Row], usize) {
    let selected = plan.selection.iter().filter(|selected| **selected);
    (cost, &plan.rows, selected.count())
}

/// How many plans there are to judge.
pub fn plans(job: &Job) -> u64 {
    let rows = rows_of_each(job);
    let choices = rows.iter().map(|rows| rows.len() as u64);
    choices.fold(1 << job.instances(), u64::saturating_mul)
}

fn for_every_plan(job: &Job, mut judge: impl FnMut(&Plan)) {
    let choices = rows_of_each(job);
    let mut rows = Vec::new();
    for_all_rows(&choices, &mut rows, &mut |rows| {
        for bits in 0..1u32 << job.instances() {
            judge(&Plan {
                selection: selection_of(bits, job.instances()),
                rows: rows.to_vec(),
            });
        }
    });
}

fn for_all_rows(choices: &[Vec<Row>], rows: &mut Vec<Row>, visit: &mut impl FnMut(&[Row])) {
    let Some(next) = choices.get(rows.len()) else {
        return visit(rows);
    };
    for row in next {
        rows.push(*row);
        for_all_rows(choices, rows, visit);
        rows.pop();
    }
}

/// For each operation every row but those for which a plan of this operation alone, with all instances selected, would
/// be refused: whatever its selection and its other rows, no plan passes with such a row.
fn rows_of_each(job: &Job) -> Vec<Vec<Row>> {
    let all_selected = vec![true; job.instances()];
    let alone = |kind: &u16| {
        let job = Job {
            kinds: vec![*kind],
            links: vec![],
            ..job.clone()
        };
        let passes = |row: &Row| {
            let plan = Plan {
                selection: all_selected.clone(),
                rows: vec![*row],
            };
            broken_rules(&job, &plan).is_empty()
        };
        every_row().filter(passes).collect()
    };
    job.kinds.iter().map(alone).collect()
}

fn every_row() -> impl Iterator<Item = Row> {
    let starts = 0..=LARGEST_START;
    starts.flat_map(|start| (0..=LARGEST_INSTANCE).map(move |instance| Row { start, instance }))
}

#[cfg(test)]
mod tests {
    use super::*;
    use crate::samples::{empty_job, job_p, plan_of, plan_of_case_1, unit_for_one_kind};

    #[test]
    fn job_p_has_432_plans_to_judge() {
        // Eight selections; three starts on one multiplier, twice; three starts on two adders.
        assert_eq!(plans(&job_p()), 8 * 3 * 3 * 6);
        let plan = plan_of_case_1();
        assert_eq!(cheapest(&job_p()), Some(Best { cost: 40, plan }));
    }

    #[test]
    fn no_plan_passes_in_two_steps() {
        let job = Job {
            deadline: 2,
            ..job_p()
        };
        assert_eq!(cheapest(&job), None);
    }

    #[test]
    fn unneeded_instances_are_not_selected_even_at_no_cost() {
        let job = Job {
            kinds: vec![0],
            types: vec![unit_for_one_kind(1, 0, 2, 1), unit_for_one_kind(0, 0, 2, 1)],
            deadline: 1,
            ..empty_job()
        };
        let plan = plan_of(&[0, 0, 1, 1], &[(1, 2)]);
        assert_eq!(cheapest(&job), Some(Best { cost: 0, plan }));
    }
}
