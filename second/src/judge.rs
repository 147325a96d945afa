//! The judge: a plan against its job, by the rules in their order.

use crate::job::Job;
use crate::plan::Plan;
use crate::refusal::{Fault, Refusal};
use crate::rules::{
    broken_by_row, chain_holds, cost, counts_are_equal, places, precedence_holds, resource_holds,
    selection_order_holds,
};
use crate::sheet::Form;

/// The cost of the plan, or the first refusal: the job reader's, the plan reader's, or a rule's.
pub fn judge(job_sheet: &[u8], plan_sheet: &[u8]) -> Result<u32, Refusal> {
    let (job, plan) = read_both(job_sheet, plan_sheet)?;
    judge_plan(&job, &plan).map_err(Refusal::of_plan)
}

/// The job and the plan, or the refusal of the first that cannot be read.
pub fn read_both(job_sheet: &[u8], plan_sheet: &[u8]) -> Result<(Job, Plan), Refusal> {
    Ok((Job::read(job_sheet)?, Plan::read(plan_sheet)?))
}

pub fn judge_plan(job: &Job, plan: &Plan) -> Result<u32, Fault> {
    if !counts_are_equal(job, plan) {
        return Err(Fault::CountsDiffer);
    }
    if !selection_order_holds(job, plan) {
        return Err(Fault::SelectionOrder);
    }
    for operation in 0..plan.rows.len() {
        if let Some(fault) = broken_by_row(job, plan, operation).first() {
            return Err(*fault);
        }
    }
    let places = places(job, &plan.rows);
    if !precedence_holds(job, &places) {
        return Err(Fault::Precedence);
    }
    if !resource_holds(&places) {
        return Err(Fault::Resource);
    }
    if !chain_holds(job, &places) {
        return Err(Fault::Chain);
    }
    Ok(cost(job, &plan.selection))
}

/// Every rule that the plan breaks, and not the first alone. Where the counts differ no other rule can be asked;
/// operations without a place are left out of the last three rules.
pub fn broken_rules(job: &Job, plan: &Plan) -> Vec<Fault> {
    if !counts_are_equal(job, plan) {
        return vec![Fault::CountsDiffer];
    }
    let mut broken = Vec::new();
    if !selection_order_holds(job, plan) {
        broken.push(Fault::SelectionOrder);
    }
    for operation in 0..plan.rows.len() {
        broken.extend(broken_by_row(job, plan, operation));
    }
    let places = places(job, &plan.rows);
    let among_places = [
        (precedence_holds(job, &places), Fault::Precedence),
        (resource_holds(&places), Fault::Resource),
        (chain_holds(job, &places), Fault::Chain),
    ];
    for (holds, fault) in among_places {
        if !holds {
            broken.push(fault);
        }
    }
    broken
}

#[cfg(test)]
mod tests {
    use super::*;
    use crate::job::Link;
    use crate::planned::pairs;
    use crate::random::Random;
    use crate::refusal::Paper;
    use crate::samples::{
        empty_job, empty_plan, full_job, job_of_case_8, job_p, plan_of, plan_of_case_1,
        plan_of_size, unit_for_one_kind,
    };

    /// The cost, or the number of a refusal that names the plan.
    fn verdict(job: &Job, plan: &Plan) -> Result<u32, u32> {
        judge(&job.sheet(), &plan.sheet()).map_err(|refusal| {
            assert_eq!(refusal.paper, Paper::Plan);
            refusal.number()
        })
    }

    fn links(pairs: &[(u16, u16)]) -> Vec<Link> {
        pairs.iter().map(|&(from, to)| Link { from, to }).collect()
    }

    /// P with T 2 and multiply 55/55.
    fn job_of_case_6() -> Job {
        let mut job = job_p();
        job.deadline = 2;
        job.types[1] = unit_for_one_kind(1, 30, 1, 55);
        job
    }

    /// `n` operations of one kind, each on its own instance, all in step 1; no links yet.
    fn in_one_step(n: usize, time: u16) -> (Job, Plan) {
        let copies = [7, 7, 2].map(|copies| unit_for_one_kind(0, 1, copies, time));
        let job = Job {
            kinds: vec![0; n],
            types: copies.to_vec(),
            deadline: 1,
            clock: 100,
            ..empty_job()
        };
        let rows: Vec<(u16, u16)> = (0..n as u16).map(|instance| (1, instance)).collect();
        (job, plan_of(&[1; 16], &rows))
    }

    #[test]
    fn case_1_passes() {
        assert_eq!(verdict(&job_p(), &plan_of_case_1()), Ok(40));
    }

    #[test]
    fn case_4_selection_order() {
        let plan = plan_of(&[1, 0, 1], &[(1, 2), (2, 2), (3, 1)]);
        assert_eq!(verdict(&job_p(), &plan), Err(11));
    }

    #[test]
    fn case_5_no_rows() {
        let plan = plan_of(&[0, 1, 1], &[]);
        assert_eq!(verdict(&job_p(), &plan), Err(10));
    }

    #[test]
    fn cases_6_and_7_a_run_at_the_clock_and_beyond() {
        let plan = plan_of(&[0, 1, 1], &[(1, 2), (2, 2), (2, 1)]);
        let mut job = job_of_case_6();
        assert_eq!(verdict(&job, &plan), Ok(40));
        job.wire = 6;
        assert_eq!(verdict(&job, &plan), Err(18));
    }

    #[test]
    fn case_8_spacing_of_the_earlier_operation() {
        let multiply_first = plan_of(&[1], &[(2, 0), (1, 0)]);
        assert_eq!(verdict(&job_of_case_8(), &multiply_first), Err(17));
        let add_first = plan_of(&[1], &[(1, 0), (2, 0)]);
        assert_eq!(verdict(&job_of_case_8(), &add_first), Ok(10));
    }

    /// Case 8's unit in more steps, held for two steps by an addition: at one step less than the spacing, and at it.
    #[test]
    fn an_instance_is_free_behind_the_spacing_whatever_comes_then() {
        let mut job = job_of_case_8();
        job.deadline = 8;
        job.types[0].abilities[0] = unit_for_one_kind(0, 0, 0, 200).abilities[0];
        let at = |add, multiply| verdict(&job, &plan_of(&[1], &[(add, 0), (multiply, 0)]));
        assert_eq!([at(5, 3), at(6, 3)], [Err(17), Ok(10)]);
        assert_eq!([at(3, 4), at(3, 5)], [Err(17), Ok(10)]);
        assert_eq!(at(3, 3), Err(17));
    }

    #[test]
    fn case_9_no_operations() {
        let mut job = empty_job();
        assert_eq!(verdict(&job, &empty_plan()), Ok(0));
        job.types = vec![unit_for_one_kind(0, 5, 2, 1)];
        assert_eq!(verdict(&job, &plan_of(&[0, 1], &[])), Ok(5));
    }

    #[test]
    fn three_operations_of_40_at_clock_100_fail_together() {
        let (mut job, plan) = in_one_step(3, 40);
        assert_eq!(verdict(&job, &plan), Ok(16));
        job.links = links(&[(0, 1), (0, 2)]);
        assert_eq!(verdict(&job, &plan), Ok(16));
        job.links = links(&[(0, 1), (1, 2)]);
        assert_eq!(verdict(&job, &plan), Err(18));
    }

    #[test]
    fn one_wire_for_each_link() {
        let (mut job, plan) = in_one_step(3, 30);
        job.links = links(&[(0, 1), (1, 2)]);
        job.wire = 5;
        assert_eq!(verdict(&job, &plan), Ok(16));
        job.wire = 6;
        assert_eq!(verdict(&job, &plan), Err(18));
    }

    #[test]
    fn plan_of_length_0_is_refused_by_1() {
        let refusal = judge(&job_p().sheet(), &[]).expect_err("refused");
        assert_eq!((refusal.number(), refusal.paper), (1, Paper::Plan));
    }

    #[test]
    fn the_job_is_read_first() {
        for plan in [plan_of_case_1().sheet(), vec![], vec![0xff]] {
            let refusal = judge(&[0x20], &plan).expect_err("refused");
            assert_eq!((refusal.number(), refusal.paper), (2, Paper::Job));
        }
    }

    /// Case 1 with its selection and one of its rows changed, and the rules it then breaks.
    fn broken_in_case_1(selection: &[u16], operation: usize, row: (u16, u16)) -> Vec<u32> {
        let mut rows = [(1, 2), (2, 2), (3, 1)];
        rows[operation] = row;
        let plan = plan_of(selection, &rows);
        let broken = broken_rules(&job_p(), &plan);
        let numbers: Vec<u32> = broken.iter().map(|fault| *fault as u32).collect();
        assert_eq!(verdict(&job_p(), &plan).err(), numbers.first().copied());
        numbers
    }

    #[test]
    fn each_rule_alone() {
        let counts = [
            plan_of(&[0, 1], &[(1, 2), (2, 2), (3, 1)]),
            plan_of(&[0, 1, 1, 1], &[(1, 2), (2, 2), (3, 1)]),
            plan_of(&[0, 1, 1], &[(1, 2), (2, 2)]),
            plan_of(&[0, 1, 1], &[(1, 2), (2, 2), (3, 1), (1, 1)]),
        ];
        for plan in counts {
            assert_eq!(verdict(&job_p(), &plan), Err(10));
        }
        let all = [1, 1, 1];
        assert_eq!(broken_in_case_1(&[1, 0, 1], 2, (3, 0)), [11]);
        assert_eq!(broken_in_case_1(&all, 1, (2, 3)), [12]);
        assert_eq!(broken_in_case_1(&all, 1, (2, 1)), [13]);
        assert_eq!(broken_in_case_1(&[0, 1, 1], 2, (3, 0)), [14]);
        assert_eq!(broken_in_case_1(&all, 2, (4, 1)), [15]);
        assert_eq!(broken_in_case_1(&all, 0, (0, 2)), [15]);
        assert_eq!(broken_in_case_1(&all, 2, (1, 1)), [16, 18]);
        assert_eq!(broken_in_case_1(&all, 1, (1, 2)), [17]);
        assert_eq!(broken_in_case_1(&all, 2, (2, 1)), [18]);
    }

    #[test]
    fn several_rules_are_refused_in_order() {
        assert_eq!(broken_in_case_1(&[1, 0, 1], 2, (0, 15)), [11, 12, 15]);
        assert_eq!(
            broken_in_case_1(&[0, 1, 0], 2, (0, 2)),
            [14, 14, 13, 14, 15]
        );
        assert_eq!(broken_in_case_1(&[0, 1, 1], 2, (4, 0)), [14, 15]);
        let mut slow = job_p();
        slow.types[0] = unit_for_one_kind(0, 10, 2, 101);
        let plan = plan_of(&[1, 1, 1], &[(1, 2), (1, 2), (1, 0)]);
        let broken = [Fault::Precedence, Fault::Resource, Fault::Chain];
        assert_eq!(broken_rules(&slow, &plan), broken);
        assert_eq!(verdict(&slow, &plan), Err(16));
    }

    #[test]
    fn no_start_in_the_last_step_of_a_long_operation() {
        let mut job = job_of_case_8();
        job.kinds = vec![1, 0];
        job.types[0].copies = 2;
        job.links = links(&[(0, 1)]);
        let at = |start| plan_of(&[1, 1], &[(1, 0), (start, 1)]);
        assert_eq!(verdict(&job, &at(3)), Err(16));
        assert_eq!(verdict(&job, &at(4)), Ok(20));
    }

    #[test]
    fn a_run_is_tested_within_one_step_alone() {
        let (mut job, mut plan) = in_one_step(2, 100);
        job.links = links(&[(0, 1)]);
        job.deadline = 2;
        assert_eq!(verdict(&job, &plan), Err(18));
        plan.rows[1].start = 2;
        assert_eq!(verdict(&job, &plan), Ok(16));
    }

    #[test]
    fn greatest_cost() {
        let job = Job {
            kinds: vec![],
            links: vec![],
            ..full_job()
        };
        assert_eq!(verdict(&job, &plan_of(&[1; 16], &[])), Ok(1_048_560));
    }

    /// 55,469 runs. No more than 16 operations find an instance each in one step.
    #[test]
    fn every_run_of_64_links_in_one_step() {
        let (mut job, plan) = in_one_step(16, 1);
        let near = (0..15).flat_map(|from| (from + 1..16.min(from + 6)).map(move |to| (from, to)));
        job.links = links(&near.skip(1).collect::<Vec<(u16, u16)>>());
        assert_eq!(job.links.len(), 64);
        job.clock = 15;
        assert_eq!(verdict(&job, &plan), Ok(16));
        job.clock = 14;
        assert_eq!(verdict(&job, &plan), Err(18));
    }

    #[test]
    fn the_first_broken_rule_is_the_verdict() {
        let mut random = Random::new(1);
        for pair in pairs(&mut random, 300) {
            let (n, k) = (pair.plan.rows.len(), pair.plan.selection.len());
            let mut plan = plan_of_size(&mut random, n, k);
            for _ in 0..2 {
                let broken = broken_rules(&pair.job, &plan);
                let first = broken.first().map(|fault| *fault as u32);
                assert_eq!(verdict(&pair.job, &plan).err(), first);
                plan.selection = pair.plan.selection.clone();
            }
        }
    }
}
