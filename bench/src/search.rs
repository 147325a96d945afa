//! Visits in a second, on the report's differential equation: the library beside the walk in C.

use crate::timing::Speeds;
use second::diffeq::{Line, LINES};
use second::library::{search_by_library, Answer, Reading};
use second::plan::Plan;
use second::record::{JobRecord, PlanRecord};
use second::sheet::Form;
use std::hint::black_box;

/// The longest walks of the report's jobs, of millions of visits each.
const STEPS: [u16; 2] = [6, 7];

/// A walk takes a tenth of a second or more.
const ROUNDS: usize = 15;

/// The most bytes that a plan's sheet has.
const PLAN_BYTES: usize = 31;

extern "C" {
    fn walk_in_c(job: *const JobRecord, budget: u32) -> Reading<PlanRecord>;
}

pub fn run() -> Vec<(String, Speeds)> {
    let mut lines = Vec::new();
    for line in LINES.iter().filter(|line| STEPS.contains(&line.steps)) {
        let name = format!("search, {} steps", line.steps);
        eprint!("{name}: same answers");
        let visits = visits_of_both(line);
        eprint!(", {visits} visits, rounds");
        lines.push((name, speeds(line, visits)));
        eprintln!(", done");
    }
    lines
}

/// The visits of the walk, after both have given the same answer.
fn visits_of_both(line: &Line) -> usize {
    let (sheet, record) = (line.job().sheet(), line.job().record());
    let library = by_library(&sheet, u32::MAX);
    assert_eq!(library, by_c(&record, u32::MAX), "library, C");
    library.0.visits as usize
}

fn speeds(line: &Line, visits: usize) -> Speeds {
    let (sheet, record) = (line.job().sheet(), line.job().record());
    let library = || {
        black_box(by_library(black_box(&sheet), u32::MAX));
    };
    let in_c = || {
        black_box(by_c(black_box(&record), u32::MAX));
    };
    Speeds::of(ROUNDS, visits, library, in_c)
}

/// The answer, and the plan's sheet where there is one.
pub fn by_library(job: &[u8], budget: u32) -> (Answer, Vec<u8>) {
    let mut out = vec![0; PLAN_BYTES];
    let answer = search_by_library(job, budget, &mut out);
    out.truncate(answer.length as usize);
    (answer, out)
}

/// The same from the walk in C, which writes no sheet.
pub fn by_c(job: &JobRecord, budget: u32) -> (Answer, Vec<u8>) {
    let Reading { answer, record } = unsafe { walk_in_c(job, budget) };
    if answer.has_number() {
        return (answer, vec![]);
    }
    let sheet = Plan::write(&record, PLAN_BYTES).expect("a sound plan");
    let length = sheet.len() as u32;
    (Answer { length, ..answer }, sheet)
}

#[cfg(test)]
mod tests {
    use super::*;
    use second::planned::pairs;
    use second::random::Random;
    use second::search::walk;
    use second::small::small_job;

    #[test]
    fn the_walk_in_c_answers_as_the_second_program() {
        let mut random = Random::new(1);
        let mut jobs: Vec<_> = (0..1000).map(|_| small_job(&mut random)).collect();
        jobs.extend(pairs(&mut random, 100).into_iter().map(|pair| pair.job));
        for job in jobs {
            for budget in [0, 1, 50, 500] {
                let (answer, sheet) = by_c(&job.record(), budget);
                let own = walk(&job, budget);
                assert_eq!(answer, Answer::searched(&own), "{job:?}");
                assert_eq!(sheet, own.sheet(), "{job:?}");
            }
        }
    }

    #[test]
    fn the_walk_in_c_answers_as_the_library() {
        for line in &LINES {
            visits_of_both(line);
        }
    }
}
