//! Judgements in a second, on jobs of 24 operations and 16 instances with plans that pass.

use crate::timing::Speeds;
use second::judge::judge;
use second::library::{judge_by_library, Answer};
use second::planned::{Planned, Size};
use second::random::Random;
use second::sheet::Form;
use std::hint::black_box;

const SEED: u64 = 1;
const PAIRS_OF_EACH_SHAPE: usize = 50;

const ROUNDS: usize = 31;

/// How often a round goes through its pairs.
const PASSES: usize = 20;

/// E and M.
const SHAPES: [(usize, usize); 4] = [(64, 8), (64, 3), (24, 8), (8, 3)];

/// The sheets of a job and its plan.
struct Pair {
    job: Vec<u8>,
    plan: Vec<u8>,
}

pub fn run() -> Vec<(String, Speeds)> {
    let mut lines = Vec::new();
    for (e, m) in SHAPES {
        let name = format!("judge, {e} links, {m} types");
        eprint!("{name}: {PAIRS_OF_EACH_SHAPE} jobs and plans");
        let pairs = pairs_of(Size { n: 24, e, m, k: 16 });
        eprint!(", same answers");
        assert_same_answers(&pairs);
        eprint!(", rounds");
        lines.push((name, speeds(&pairs)));
        eprintln!(", done");
    }
    lines
}

fn pairs_of(size: Size) -> Vec<Pair> {
    let mut random = Random::new(SEED);
    let mut pairs = Vec::new();
    for _ in 0..PAIRS_OF_EACH_SHAPE {
        let planned = Planned::of_size(&mut random, size);
        pairs.push(Pair {
            job: planned.job.sheet(),
            plan: planned.plan.sheet(),
        });
    }
    pairs
}

fn assert_same_answers(pairs: &[Pair]) {
    for Pair { job, plan } in pairs {
        let own = Answer::judged(judge(job, plan));
        assert!(!own.has_number(), "the plan passes");
        assert_eq!(own, judge_by_library(job, plan), "second, library");
    }
}

fn speeds(pairs: &[Pair]) -> Speeds {
    let library = || through(pairs, |Pair { job, plan }| judge_by_library(job, plan));
    let second = || through(pairs, |Pair { job, plan }| judge(job, plan));
    Speeds::of(ROUNDS, PASSES * pairs.len(), library, second)
}

/// One round.
fn through<Verdict>(pairs: &[Pair], question: impl Fn(&Pair) -> Verdict) {
    for _ in 0..PASSES {
        for pair in pairs {
            black_box(question(black_box(pair)));
        }
    }
}
