//! The search: the walk as it is defined, every placing that it comes to tested whole.

use crate::job::Job;
use crate::plan::{Plan, Row};
use crate::refusal::Refusal;
use crate::rules::{are_live, cost, places, smallest_selection};
use crate::sheet::Form;

#[derive(Clone, Debug, PartialEq, Eq)]
pub enum Searched {
    Found {
        best: Best,
        visits: u32,
    },
    None {
        visits: u32,
    },
    /// The walk needs more visits than these, which were its budget.
    Spent {
        budget: u32,
    },
    Refused(Refusal),
}

impl Searched {
    /// The sheet of the plan found. Without a plan, no bytes.
    pub fn sheet(&self) -> Vec<u8> {
        match self {
            Searched::Found { best, .. } => best.plan.sheet(),
            _ => vec![],
        }
    }
}

/// A plan with its smallest selection, and the cost of that selection.
#[derive(Clone, Debug, PartialEq, Eq)]
pub struct Best {
    pub cost: u32,
    pub plan: Plan,
}

/// The search of a job's sheet for an output of `room` bytes.
pub fn search(job_sheet: &[u8], budget: u32, room: usize) -> Searched {
    let job = match Job::read(job_sheet) {
        Ok(job) => job,
        Err(refusal) => return Searched::Refused(refusal),
    };
    match walk(&job, budget) {
        Searched::Found { best, .. } if best.plan.sheet().len() > room => {
            Searched::Refused(Refusal::OUTPUT_TOO_SHORT)
        }
        searched => searched,
    }
}

/// The search of a job, with room enough.
pub fn walk(job: &Job, budget: u32) -> Searched {
    let mut walk = Walk {
        job,
        budget,
        visits: 0,
        rows: Vec::new(),
        best: None,
    };
    let ended = walk.arrive();
    let visits = walk.visits;
    match (ended, walk.best) {
        (Err(BudgetSpent), _) => Searched::Spent { budget },
        (Ok(()), None) => Searched::None { visits },
        (Ok(()), Some(best)) => Searched::Found { best, visits },
    }
}

/// Where the walk stands: a row for each operation placed, in number order.
struct Walk<'job> {
    job: &'job Job,
    budget: u32,
    visits: u32,
    rows: Vec<Row>,
    best: Option<Best>,
}

/// One visit more would exceed the budget.
struct BudgetSpent;

impl Walk<'_> {
    fn arrive(&mut self) -> Result<(), BudgetSpent> {
        if self.visits == self.budget {
            return Err(BudgetSpent);
        }
        self.visits += 1;
        let selection = smallest_selection(self.job, &self.rows);
        let cost = cost(self.job, &selection);
        if self.best.as_ref().is_some_and(|best| cost >= best.cost) {
            return Ok(());
        }
        if self.rows.len() == self.job.kinds.len() {
            let rows = self.rows.clone();
            let plan = Plan { selection, rows };
            self.best = Some(Best { cost, plan });
            return Ok(());
        }
        self.place_next()
    }

    /// Starts ascend and, for one start, instances ascend; only live options are visited.
    fn place_next(&mut self) -> Result<(), BudgetSpent> {
        for start in 1..=self.job.deadline {
            for instance in 0..self.job.instances() as u16 {
                self.rows.push(Row { start, instance });
                if rows_are_live(self.job, &self.rows) {
                    self.arrive()?;
                }
                self.rows.pop();
            }
        }
        Ok(())
    }
}

fn rows_are_live(job: &Job, rows: &[Row]) -> bool {
    let places = places(job, rows);
    let placed = places.iter().flatten().count();
    placed == rows.len() && are_live(job, &places)
}

#[cfg(test)]
mod tests {
    use super::*;
    use crate::every_plan::{cheapest, plans};
    use crate::job::Link;
    use crate::random::Random;
    use crate::samples::{
        empty_job, empty_plan, job_of_case_8, job_p, plan_of, plan_of_case_1, unit_for_one_kind,
    };
    use crate::small::small_job_where;

    fn found(cost: u32, plan: Plan, visits: u32) -> Searched {
        let best = Best { cost, plan };
        Searched::Found { best, visits }
    }

    #[test]
    fn cases_1_and_2_job_p_and_its_budget() {
        let sheet = job_p().sheet();
        let whole = found(40, plan_of_case_1(), 14);
        for budget in 0..14 {
            assert_eq!(search(&sheet, budget, 31), Searched::Spent { budget });
        }
        for budget in [14, 15, u32::MAX] {
            assert_eq!(search(&sheet, budget, 31), whole);
        }
    }

    #[test]
    fn case_3_job_p_in_two_steps() {
        let job = Job {
            deadline: 2,
            ..job_p()
        };
        assert_eq!(walk(&job, 4), Searched::Spent { budget: 4 });
        assert_eq!(walk(&job, 5), Searched::None { visits: 5 });
    }

    #[test]
    fn cases_9_and_10_no_operations_and_no_steps() {
        assert_eq!(walk(&empty_job(), 1), found(0, empty_plan(), 1));
        let job = Job {
            kinds: vec![0],
            ..empty_job()
        };
        assert_eq!(walk(&job, 1), Searched::None { visits: 1 });
        assert_eq!(walk(&job, 0), Searched::Spent { budget: 0 });
    }

    #[test]
    fn without_operations_nothing_is_selected() {
        let job = Job {
            kinds: vec![],
            links: vec![],
            ..job_p()
        };
        assert_eq!(walk(&job, 1), found(0, plan_of(&[0, 0, 0], &[]), 1));
    }

    #[test]
    fn refusals_in_their_order() {
        let sheet = job_p().sheet();
        let of_the_job = search(&sheet[1..], 0, 0);
        assert!(matches!(of_the_job, Searched::Refused(refusal) if refusal.number() == 2));
        assert_eq!(search(&sheet, 13, 0), Searched::Spent { budget: 13 });
        let too_short = Searched::Refused(Refusal::OUTPUT_TOO_SHORT);
        assert_eq!(search(&sheet, 14, 5), too_short);
        assert_eq!(search(&sheet, 14, 6), found(40, plan_of_case_1(), 14));
        let none = Job {
            deadline: 2,
            ..job_p()
        };
        assert_eq!(search(&none.sheet(), 5, 0), Searched::None { visits: 5 });
    }

    #[test]
    fn the_first_of_the_cheapest_is_kept() {
        let job = Job {
            kinds: vec![0, 0],
            types: vec![
                unit_for_one_kind(0, 0, 3, 10),
                unit_for_one_kind(0, 7, 1, 10),
            ],
            deadline: 2,
            clock: 10,
            ..empty_job()
        };
        let plan = plan_of(&[1, 1, 1, 0], &[(1, 0), (1, 1)]);
        let Searched::Found { best, .. } = walk(&job, 100) else {
            panic!("a plan")
        };
        assert_eq!(best, Best { cost: 0, plan });
    }

    /// The multiplication may start one step behind the addition, the addition three steps behind the multiplication.
    #[test]
    fn case_8_each_operation_in_turn_placed_first() {
        let mut job = job_of_case_8();
        let add_first = plan_of(&[1], &[(1, 0), (2, 0)]);
        assert_eq!(walk(&job, 100), found(10, add_first, 6));
        job.kinds.reverse();
        let multiply_first = plan_of(&[1], &[(1, 0), (4, 0)]);
        assert_eq!(walk(&job, 100), found(10, multiply_first, 4));
        job.deadline = 3;
        assert_eq!(walk(&job, 100), Searched::None { visits: 2 });
    }

    /// Case 8's unit, where both operations take three steps, and operation 1 holds it for the first of them alone: of
    /// the two orders only one ends by step 4.
    #[test]
    fn the_operation_of_the_higher_number_may_come_first() {
        let mut job = job_of_case_8();
        let abilities = &mut job.types[0].abilities;
        abilities[0] = abilities[1];
        abilities[1].interval = 100;
        let higher_first = plan_of(&[1], &[(2, 0), (1, 0)]);
        assert_eq!(walk(&job, 100), found(10, higher_first, 4));
        job.links = vec![Link { from: 0, to: 1 }];
        assert_eq!(walk(&job, 100), Searched::None { visits: 3 });
    }

    #[test]
    fn the_walk_gives_the_first_of_the_cheapest_of_all_plans() {
        let mut random = Random::new(1);
        let mut met = [0, 0];
        for _ in 0..300 {
            let job = small_job_where(&mut random, |job| plans(job) <= 10_000);
            let of_the_walk = match walk(&job, u32::MAX) {
                Searched::Found { best, .. } => Some(best),
                _ => None,
            };
            met[usize::from(of_the_walk.is_some())] += 1;
            assert_eq!(of_the_walk, cheapest(&job), "{job:?}");
        }
        assert!(met.iter().all(|times| *times >= 50), "{met:?}");
    }
}
