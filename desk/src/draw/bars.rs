//! A plan's rows as bars: which can be drawn, when each operation works, and in which lane of its instance.

use crate::record::{Job, Plan, Timing, INST_CELLS};
use std::collections::BTreeMap;
use std::ops::Range;

/// An operation that has its place in the grid. Spans are in ns from the beginning of step 1.
pub struct Bar {
    pub operation: usize,
    pub kind: u16,
    pub start: usize,
    pub instance: usize,
    pub timing: Timing,
    pub steps: Range<u32>,
    /// Its spacing from its start on, the steps in which it holds its instance.
    pub spacing: Range<u32>,
    /// In a chain it begins when results have arrived; where the chain is too long it leaves the steps.
    pub work: Range<u32>,
    pub lane: usize,
}

impl Bar {
    /// Its instance and lane.
    fn row(&self) -> (usize, usize) {
        (self.instance, self.lane)
    }
}

/// What a link is between two bars.
#[derive(Clone, Copy, PartialEq, Eq, PartialOrd, Ord)]
pub enum Bond {
    Link,
    Chain,
    /// The second starts too early.
    Broken,
}

impl Bond {
    pub fn of(first: &Bar, second: &Bar) -> Bond {
        let one_step = first.start == second.start && first.timing.delay == 1;
        if first.steps.end <= second.steps.start {
            Bond::Link
        } else if one_step && second.timing.delay == 1 {
            Bond::Chain
        } else {
            Bond::Broken
        }
    }

    /// Its class in the style sheet.
    pub fn class(self) -> &'static str {
        match self {
            Bond::Link => "link",
            Bond::Chain => "chain",
            Bond::Broken => "broken",
        }
    }
}

/// The rows of a plan for the operations of a job.
#[derive(Default)]
pub struct Rows {
    /// Those that can be drawn, by start.
    pub bars: Vec<Bar>,
    /// The other operations that have a row, and why it has no place in the grid.
    pub undrawn: Vec<(usize, String)>,
    /// Of each instance and lane, where its last bar ends.
    lanes: [Vec<u32>; INST_CELLS],
    /// Links between bars of one lane hang below it, each in a level: of each instance and lane its levels, and where the last
    /// link of each ends.
    levels: BTreeMap<(usize, usize), Vec<u32>>,
    /// The level of each such link.
    hung: BTreeMap<(usize, usize), usize>,
}

/// Takes the first place whose last span has ended, or a new one behind them all.
fn first_free(ends: &mut Vec<u32>, span: Range<u32>) -> usize {
    let free = ends.iter().position(|&end| end <= span.start);
    let place = free.unwrap_or(ends.len());
    ends.resize(ends.len().max(place + 1), 0);
    ends[place] = span.end;
    place
}

impl Rows {
    pub fn of(job: &Job, plan: &Plan) -> Rows {
        let mut operations: Vec<usize> = (0..job.n.min(plan.n).into()).collect();
        operations.sort_by_key(|&operation| plan.starts[operation]);
        let mut rows = Rows::default();
        for operation in operations {
            match lone_bar(job, plan, operation) {
                Ok(bar) => rows.add(job, bar),
                Err(why) => rows.undrawn.push((operation, why)),
            }
        }
        rows.undrawn.sort();
        rows.hang(job);
        rows
    }

    /// Bars come by start, and links lead to higher numbers: what a chain has before this bar is there already.
    fn add(&mut self, job: &Job, mut bar: Bar) {
        let before = job
            .before(bar.operation)
            .filter_map(|first| self.bar(first));
        let chained = before.filter(|first| Bond::of(first, &bar) == Bond::Chain);
        let arrivals = chained.map(|first| first.work.end + u32::from(job.wire));
        let begin = arrivals.max().unwrap_or(bar.steps.start);
        bar.work = begin..begin + u32::from(bar.timing.time);

        let end = bar.steps.end.max(bar.work.end);
        bar.lane = first_free(&mut self.lanes[bar.instance], bar.steps.start..end);
        self.bars.push(bar);
    }

    /// Finds a level for each link between bars of one lane.
    fn hang(&mut self, job: &Job) {
        let own = self
            .bonds(job)
            .filter(|(_, first, second)| first.row() == second.row());
        let mut hooks: Vec<_> = own
            .map(|(_, first, second)| {
                let [begin, end] = [first.work.end, second.work.start];
                let span = [begin.min(end), begin.max(end)];
                (span, (first.operation, second.operation), first.row())
            })
            .collect();
        hooks.sort();
        for ([begin, end], link, row) in hooks {
            let levels = self.levels.entry(row).or_default();
            self.hung.insert(link, first_free(levels, begin..end));
        }
    }

    /// The level in which a link hangs below its lane; none where it joins two lanes.
    pub fn level(&self, first: &Bar, second: &Bar) -> Option<usize> {
        let link = (first.operation, second.operation);
        self.hung.get(&link).copied()
    }

    /// How many levels hang below a lane.
    pub fn levels(&self, instance: usize, lane: usize) -> usize {
        self.levels.get(&(instance, lane)).map_or(0, Vec::len)
    }

    pub fn lanes(&self, instance: usize) -> usize {
        self.lanes[instance].len()
    }

    pub fn bar(&self, operation: usize) -> Option<&Bar> {
        self.bars.iter().find(|bar| bar.operation == operation)
    }

    /// The links that have a bar at both ends.
    pub fn bonds<'a>(&'a self, job: &'a Job) -> impl Iterator<Item = (Bond, &'a Bar, &'a Bar)> {
        job.links().filter_map(|(from, to)| {
            let [first, second] = [self.bar(from)?, self.bar(to)?];
            Some((Bond::of(first, second), first, second))
        })
    }
}

/// The bar of an operation outside any chain, or why its row has no place in the grid.
fn lone_bar(job: &Job, plan: &Plan, operation: usize) -> Result<Bar, String> {
    let kind = job.kinds[operation];
    let (start, instance) = plan.row(operation);
    if start == 0 {
        return Err("start 0".into());
    }
    if start > job.t.into() {
        return Err(format!("start {start}, after the deadline"));
    }
    if job.type_of(instance).is_none() {
        return Err(format!("no instance {instance}"));
    }
    let cannot = || format!("instance {instance} cannot do kind {kind}");
    let timing = job.timing_on(instance, operation).ok_or_else(cannot)?;
    let clock = u32::from(job.clock);
    let begin = (start as u32 - 1) * clock;
    Ok(Bar {
        operation,
        kind,
        start,
        instance,
        timing,
        steps: begin..begin + clock * u32::from(timing.delay),
        spacing: begin..begin + clock * u32::from(timing.spacing),
        work: begin..begin + u32::from(timing.time),
        lane: 0,
    })
}
