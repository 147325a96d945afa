use super::bars::{Bar, Rows};
use super::svg::escaped;
use super::{picture, Caption};
use crate::record::{Job, Plan, KINDS, OP_CELLS};

/// Job P with T 2 and multiplications of 55 ns: two of them feed an addition.
fn chained() -> (Job, Plan) {
    let mut job = Job {
        n: 3,
        e: 2,
        m: 2,
        t: 2,
        clock: 100,
        wire: 5,
        ..Job::EMPTY
    };
    job.kinds[..2].fill(1);
    job.from[1] = 1;
    job.to[..2].fill(2);
    job.copies[..2].copy_from_slice(&[2, 1]);
    [job.times[0], job.times[KINDS + 1]] = [40, 55];
    job.intervals = job.times;
    let mut plan = Plan {
        n: 3,
        k: 3,
        ..Plan::EMPTY
    };
    plan.selection[1..3].fill(1);
    plan.starts[..3].copy_from_slice(&[1, 2, 2]);
    plan.insts[..3].copy_from_slice(&[2, 2, 1]);
    (job, plan)
}

fn drawn(job: &Job, plan: &Plan) -> String {
    let [title, words] = ["a <b> & \"c\"\u{1}", "refused by 17"];
    let verdict = Err(words);
    picture(job, plan, &Caption { title, verdict })
}

#[test]
fn a_chain_begins_when_results_have_arrived() {
    let (job, plan) = chained();
    let rows = Rows::of(&job, &plan);
    assert_eq!(rows.bar(2).map(|bar| bar.work.clone()), Some(160..200));
}

#[test]
fn bars_of_one_lane_never_overlap() {
    let (mut job, mut plan) = chained();
    [job.n, plan.n, job.t] = [OP_CELLS as u16, OP_CELLS as u16, 31];
    job.times[KINDS] = 777;
    for operation in 0..OP_CELLS {
        plan.starts[operation] = (operation * 7 % 30 + 1) as u16;
        plan.insts[operation] = (operation % 3) as u16;
    }
    let bars = Rows::of(&job, &plan).bars;
    for (at, first) in bars.iter().enumerate() {
        let same = |bar: &&Bar| (first.instance, first.lane) == (bar.instance, bar.lane);
        let end = first.steps.end.max(first.work.end);
        assert!(bars[at + 1..]
            .iter()
            .filter(same)
            .all(|bar| end <= bar.steps.start));
    }
}

/// Three multiplications one after another on one instance, the first two and the second two linked, and the outer ones.
#[test]
fn links_below_a_lane_hang_in_levels() {
    let (mut job, mut plan) = chained();
    [job.e, job.t, job.kinds[2]] = [3, 3, 1];
    job.from[..3].copy_from_slice(&[0, 0, 1]);
    job.to[..3].copy_from_slice(&[1, 2, 2]);
    plan.starts[..3].copy_from_slice(&[1, 2, 3]);
    plan.insts[..3].fill(2);
    let rows = Rows::of(&job, &plan);
    let level = |from, to| rows.level(rows.bar(from)?, rows.bar(to)?);
    assert_eq!(
        [level(0, 1), level(0, 2), level(1, 2)],
        [Some(0), Some(1), Some(0)]
    );
    assert_eq!(rows.levels(2, 0), 2);
}

#[test]
fn every_operation_is_drawn_or_listed() {
    let (job, mut plan) = chained();
    plan.n = 2;
    plan.starts[1] = 0;
    let picture = drawn(&job, &plan);
    assert!(picture.contains("<title>operation 0: kind 1, start 1, instance 2,"));
    assert!(picture.contains("not drawn: operation 1 (start 0)<"));
    assert!(picture.contains("no row for operation 2<"));
}

/// What breaks 15, 16 and 18 is drawn so that it is seen, and named below the grid.
#[test]
fn what_is_wrong_is_named_in_the_legend() {
    let (mut job, plan) = chained();
    let told = |job: &Job, words| drawn(job, &plan).contains(words);
    assert!(!told(&job, "work beyond its step"));
    job.times[KINDS + 1] = 80;
    assert!(told(&job, "work beyond its step"));
    assert!(!told(&job, "broken link: starts too early"));
    assert!(!told(&job, "goes on beyond the deadline"));
    job.times[KINDS + 1] = 150;
    assert!(told(&job, "broken link: starts too early"));
    assert!(told(&job, "goes on beyond the deadline"));
}

#[test]
fn text_is_escaped() {
    assert_eq!(escaped("<&>\""), "&lt;&amp;&gt;&quot;");
    let (job, plan) = chained();
    assert!(drawn(&job, &plan).contains("<title>a &lt;b&gt; &amp; &quot;c&quot;\u{fffd}</title>"));
}

#[test]
fn empty_papers_are_drawn() {
    let job = Job {
        clock: 1,
        ..Job::EMPTY
    };
    assert!(drawn(&job, &Plan::EMPTY).ends_with("</svg>\n"));
}
