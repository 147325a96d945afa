//! Tidy: each type's selected instances moved to its last numbers.

use crate::job::Job;
use crate::judge::{broken_rules, read_both};
use crate::plan::{Plan, Row};
use crate::refusal::{Fault, Refusal};
use crate::sheet::{fitted, Form};

/// The sheet of the plan tidied, for an output of `room` bytes. Selection order may be broken, and no other rule.
pub fn tidy(job_sheet: &[u8], plan_sheet: &[u8], room: usize) -> Result<Vec<u8>, Refusal> {
    let (job, plan) = read_both(job_sheet, plan_sheet)?;
    let mut broken = broken_rules(&job, &plan).into_iter();
    if let Some(fault) = broken.find(|fault| *fault != Fault::SelectionOrder) {
        return Err(Refusal::of_plan(fault));
    }
    fitted(tidied(&job, &plan).sheet(), room)
}

/// Rows are on selected instances, and follow them.
fn tidied(job: &Job, plan: &Plan) -> Plan {
    let moves = moves(job, &plan.selection);
    let mut selection = vec![false; plan.selection.len()];
    for &(_, to) in &moves {
        selection[usize::from(to)] = true;
    }
    let follow = |row: &Row| {
        let moved = moves.iter().find(|(from, _)| *from == row.instance);
        let &(_, instance) = moved.expect("a row on a selected instance");
        Row { instance, ..*row }
    };
    Plan {
        selection,
        rows: plan.rows.iter().map(follow).collect(),
    }
}

/// Each selected instance and the number that it moves to: of the type's selected ones the last to the type's last
/// number, the one before it to the number before, and so on.
fn moves(job: &Job, selection: &[bool]) -> Vec<(u16, u16)> {
    let mut moves = Vec::new();
    let mut first = 0;
    for unit in &job.types {
        let end = first + unit.copies;
        let of_type = (first..end).rev();
        let selected = of_type.clone().filter(|&from| selection[usize::from(from)]);
        moves.extend(selected.zip(of_type));
        first = end;
    }
    moves
}

#[cfg(test)]
mod tests {
    use super::*;
    use crate::judge::judge_plan;
    use crate::planned::pairs;
    use crate::random::Random;
    use crate::refusal::Paper;
    use crate::rules::cost;
    use crate::samples::{
        empty_job, job_p, plan_of, plan_of_case_1, plan_of_size, unit_for_one_kind,
    };

    /// The plan tidied, or the number of a refusal that names the plan.
    fn asked(job: &Job, plan: &Plan) -> Result<Plan, u32> {
        tidy(&job.sheet(), &plan.sheet(), 31)
            .map(|sheet| Plan::read(&sheet).expect("a plan"))
            .map_err(|refusal| {
                assert_eq!(refusal.paper, Paper::Plan);
                refusal.number()
            })
    }

    #[test]
    fn the_row_follows_its_adder() {
        let untidy = plan_of(&[1, 0, 1], &[(1, 2), (2, 2), (3, 0)]);
        assert_eq!(asked(&job_p(), &untidy), Ok(plan_of_case_1()));
    }

    #[test]
    fn case_4_has_a_row_on_an_unselected_adder() {
        let plan = plan_of(&[1, 0, 1], &[(1, 2), (2, 2), (3, 1)]);
        assert_eq!(asked(&job_p(), &plan), Err(14));
    }

    /// Types of three, one and four copies; five operations of one kind.
    fn job_of_three_types() -> Job {
        Job {
            kinds: vec![0; 5],
            types: [3, 1, 4]
                .map(|copies| unit_for_one_kind(0, 7, copies, 1))
                .to_vec(),
            deadline: 2,
            ..empty_job()
        }
    }

    #[test]
    fn order_is_kept_within_a_type_and_types_are_kept_apart() {
        let rows = [(1, 0), (2, 0), (1, 4), (1, 6), (2, 4)];
        let untidy = plan_of(&[1, 1, 0, 0, 1, 0, 1, 0], &rows);
        let rows = [(1, 1), (2, 1), (1, 6), (1, 7), (2, 6)];
        let expected = plan_of(&[0, 1, 1, 0, 0, 0, 1, 1], &rows);
        assert_eq!(asked(&job_of_three_types(), &untidy), Ok(expected));
    }

    #[test]
    fn another_rule_broken_beside_selection_order_refuses() {
        let job = job_p();
        let selection = [1, 0, 1];
        let plans = [
            (10, plan_of(&selection, &[(1, 2), (2, 2)])),
            (12, plan_of(&selection, &[(1, 2), (2, 3), (3, 0)])),
            (13, plan_of(&selection, &[(1, 2), (2, 0), (3, 0)])),
            (15, plan_of(&selection, &[(1, 2), (2, 2), (4, 0)])),
            (16, plan_of(&selection, &[(1, 2), (3, 2), (2, 0)])),
            (17, plan_of(&selection, &[(1, 2), (1, 2), (3, 0)])),
            (18, plan_of(&selection, &[(1, 2), (2, 2), (2, 0)])),
        ];
        for (number, plan) in plans {
            assert_eq!(asked(&job, &plan), Err(number));
        }
    }

    #[test]
    fn the_output_comes_last() {
        let (job, plan) = (job_p().sheet(), plan_of_case_1().sheet());
        let numbers = [0, 5].map(|room| tidy(&job, &plan, room));
        assert_eq!(
            numbers,
            [
                Err(Refusal::OUTPUT_TOO_SHORT),
                Err(Refusal::OUTPUT_TOO_SHORT)
            ]
        );
        assert_eq!(tidy(&job, &plan, 6), Ok(plan.clone()));
        let broken = plan_of(&[1, 0, 1], &[(1, 2), (2, 2), (3, 1)]).sheet();
        let refused = tidy(&job, &broken, 0).map_err(|refusal| refusal.number());
        assert_eq!(refused, Err(14));
    }

    #[test]
    fn a_plan_that_passes_is_left_as_it_is() {
        for pair in pairs(&mut Random::new(1), 100) {
            assert_eq!(asked(&pair.job, &pair.plan), Ok(pair.plan));
        }
    }

    #[test]
    fn a_tidied_plan_passes_at_the_cost_of_the_selection_lent() {
        let job = job_of_three_types();
        let mut random = Random::new(1);
        let mut moved = 0;
        for _ in 0..3000 {
            let mut plan = plan_of_size(&mut random, 5, 8);
            for row in &mut plan.rows {
                *row = Row {
                    start: random.between(1, 2),
                    instance: random.between(0, 7),
                };
            }
            let Ok(tidied) = asked(&job, &plan) else {
                continue;
            };
            assert_eq!(judge_plan(&job, &tidied), Ok(cost(&job, &plan.selection)));
            moved += usize::from(tidied != plan);
        }
        assert!(moved >= 20, "{moved}");
    }
}
