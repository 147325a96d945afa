//! Slide: one distance added to every start of a plan that passes.

use crate::job::Job;
use crate::judge::{judge_plan, read_both};
use crate::plan::Plan;
use crate::refusal::{Fault, Refusal};
use crate::rules::{places, Place};
use crate::sheet::{fitted, Form};

/// The farthest that a plan may be asked to slide, either way.
const FARTHEST: i32 = 31;

/// The sheet of the plan slid, for an output of `room` bytes.
pub fn slide(
    job_sheet: &[u8],
    plan_sheet: &[u8],
    distance: i32,
    room: usize,
) -> Result<Vec<u8>, Refusal> {
    let (job, plan) = read_both(job_sheet, plan_sheet)?;
    judge_plan(&job, &plan).map_err(Refusal::of_plan)?;
    if !(-FARTHEST..=FARTHEST).contains(&distance) {
        return Err(Refusal::DISTANCE_FAR);
    }
    let slid = slid(&job, &plan, distance).ok_or(Refusal::of_plan(Fault::MovedOut))?;
    fitted(slid.sheet(), room)
}

/// None where a moved start leaves its limits, those of the rule on rows.
fn slid(job: &Job, plan: &Plan, distance: i32) -> Option<Plan> {
    let mut slid = plan.clone();
    let places = places(job, &plan.rows);
    for (row, place) in slid.rows.iter_mut().zip(places.iter().flatten()) {
        let start = i32::from(row.start) + distance;
        let finish = start + i32::from(place.delay) - 1;
        if start < 1 || finish > i32::from(job.deadline) {
            return None;
        }
        row.start = start as u16;
    }
    Some(slid)
}

/// The least and the greatest distance by which a plan that passes can be slid. None where it has no rows.
pub fn limits(job: &Job, plan: &Plan) -> Option<(i32, i32)> {
    let places = places(job, &plan.rows);
    let first_start = places.iter().flatten().map(|place| place.start).min()?;
    let last_finish = places.iter().flatten().map(Place::finish).max()?;
    Some((
        1 - i32::from(first_start),
        i32::from(job.deadline) - i32::from(last_finish),
    ))
}

#[cfg(test)]
mod tests {
    use super::*;
    use crate::planned::pairs;
    use crate::random::Random;
    use crate::refusal::Paper;
    use crate::samples::{
        empty_job, empty_plan, job_p, plan_of, plan_of_case_1, unit_for_one_kind,
    };

    /// The plan slid, or the number of the refusal and its paper.
    fn asked(job: &Job, plan: &Plan, distance: i32, room: usize) -> Result<Plan, (u32, Paper)> {
        slide(&job.sheet(), &plan.sheet(), distance, room)
            .map(|sheet| Plan::read(&sheet).expect("a plan"))
            .map_err(|refusal| (refusal.number(), refusal.paper))
    }

    /// Job P with two steps more.
    fn roomy_p() -> Job {
        Job {
            deadline: 5,
            ..job_p()
        }
    }

    #[test]
    fn starts_move_and_nothing_else_does() {
        let by_two = plan_of(&[0, 1, 1], &[(3, 2), (4, 2), (5, 1)]);
        assert_eq!(
            asked(&roomy_p(), &plan_of_case_1(), 2, 6),
            Ok(by_two.clone())
        );
        assert_eq!(asked(&roomy_p(), &by_two, -2, 6), Ok(plan_of_case_1()));
        assert_eq!(asked(&roomy_p(), &by_two, 0, 6), Ok(by_two));
    }

    #[test]
    fn a_start_below_1_or_a_finish_behind_t_is_21() {
        for distance in [-31, -1, 3, 31] {
            let moved_out = Err((21, Paper::Plan));
            assert_eq!(asked(&roomy_p(), &plan_of_case_1(), distance, 6), moved_out);
        }
    }

    /// The one that starts last finishes first: delays of 1 and of 3 steps.
    #[test]
    fn the_finish_counts_and_not_the_start() {
        let job = Job {
            kinds: vec![0, 1],
            types: vec![
                unit_for_one_kind(0, 1, 1, 30),
                unit_for_one_kind(1, 1, 1, 10),
            ],
            deadline: 6,
            clock: 10,
            ..empty_job()
        };
        let plan = plan_of(&[1, 1], &[(2, 0), (3, 1)]);
        assert_eq!(limits(&job, &plan), Some((-1, 2)));
        let last = plan_of(&[1, 1], &[(4, 0), (5, 1)]);
        assert_eq!(asked(&job, &plan, 2, 31), Ok(last));
        assert_eq!(asked(&job, &plan, 3, 31), Err((21, Paper::Plan)));
    }

    #[test]
    fn refusals_in_their_order() {
        let (job, plan) = (roomy_p(), plan_of_case_1());
        let late = plan_of(&[0, 1, 1], &[(1, 2), (2, 2), (6, 1)]);
        assert_eq!(asked(&job, &late, i32::MIN, 0), Err((15, Paper::Plan)));
        for distance in [i32::MIN, -32, 32, 256, 65_536, i32::MAX] {
            let far = Err((20, Paper::Request));
            assert_eq!(asked(&job, &plan, distance, 0), far, "{distance}");
        }
        assert_eq!(asked(&job, &plan, 3, 0), Err((21, Paper::Plan)));
        assert_eq!(asked(&job, &plan, 2, 5), Err((22, Paper::Request)));
    }

    #[test]
    fn without_rows_nothing_leaves_its_limits() {
        assert_eq!(limits(&empty_job(), &empty_plan()), None);
        for distance in [-31, 0, 31] {
            let slid = asked(&empty_job(), &empty_plan(), distance, 2);
            assert_eq!(slid, Ok(empty_plan()));
        }
        let far = Err((20, Paper::Request));
        assert_eq!(asked(&empty_job(), &empty_plan(), 32, 2), far);
    }

    #[test]
    fn a_plan_passes_at_its_cost_between_its_limits_and_nowhere_else() {
        let mut tried = 0;
        for pair in pairs(&mut Random::new(1), 100) {
            let Some((least, greatest)) = limits(&pair.job, &pair.plan) else {
                continue;
            };
            let cost = judge_plan(&pair.job, &pair.plan);
            for distance in -31..=31 {
                let slid = asked(&pair.job, &pair.plan, distance, 31);
                let within = (least..=greatest).contains(&distance);
                assert_eq!(slid.is_ok(), within);
                assert!(slid.is_err() || slid.map(|slid| judge_plan(&pair.job, &slid)) == Ok(cost));
            }
            tried += 1;
        }
        assert!(tried >= 50, "{tried}");
    }
}
