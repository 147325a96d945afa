//! Where things stand on the page, in px.

use super::bars::{Bar, Rows};
use super::keys::abilities;
use super::svg::Face;
use crate::record::Job;
use std::ops::Range;

pub const STRONG: Face = Face("strong", 12.0);
pub const WORDS: Face = Face("words", 12.0);
pub const SMALL: Face = Face("quiet", 10.5);

pub const MARGIN: f64 = 24.0;
pub const TYPE_COLUMN: f64 = 226.0;
const INSTANCE_COLUMN: f64 = 92.0;
const PAGE_LEAST: f64 = 740.0;

/// Steps are as wide as this grid allows, between the least and the most.
const GRID_WIDE: f64 = 960.0;
const STEP_LEAST: f64 = 36.0;
const STEP_MOST: f64 = 130.0;
/// How far beyond the deadline a bar is drawn that goes on there.
const OVERRUN: f64 = 14.0;
/// The teeth of its torn edge stand beyond that.
pub const TOOTH: f64 = 4.0;

/// A bar holds its tag, below that its work, below that its spacing.
pub const BAR_HIGH: f64 = 34.0;
pub const WORK_TOP: f64 = 18.0;
pub const WORK_HIGH: f64 = 7.0;
pub const SPACING_TOP: f64 = 28.0;
pub const SPACING_HIGH: f64 = 4.0;
const LANE_HIGH: f64 = 46.0;
/// A level of links below a lane.
pub const LEVEL_HIGH: f64 = 6.0;

/// Above and below a type's label.
pub const LABEL_PAD: f64 = 8.0;

/// An instance's part of the grid's height.
pub struct Band {
    pub top: f64,
    pub high: f64,
    /// The top of each lane.
    lanes: Vec<f64>,
}

/// The grid: steps across, instances down.
pub struct Frame {
    pub top: f64,
    pub bottom: f64,
    /// Where the deadline stands.
    pub right: f64,
    pub step: f64,
    pub type_tops: Vec<f64>,
    pub instances: Vec<Band>,
    /// The deadline in ns, and the width of one.
    deadline: u32,
    ns: f64,
}

impl Frame {
    pub const INSTANCES_LEFT: f64 = MARGIN + TYPE_COLUMN;
    pub const LEFT: f64 = Frame::INSTANCES_LEFT + INSTANCE_COLUMN;

    /// A frame of this job's width, still without height.
    pub fn new(job: &Job) -> Frame {
        let step = (GRID_WIDE / f64::from(job.t)).floor();
        let step = step.clamp(STEP_LEAST, STEP_MOST);
        Frame {
            top: 0.0,
            bottom: 0.0,
            right: Frame::LEFT + step * f64::from(job.t),
            step,
            type_tops: Vec::new(),
            instances: Vec::new(),
            deadline: u32::from(job.t) * u32::from(job.clock),
            ns: step / f64::from(job.clock),
        }
    }

    /// Sets the instances below one another.
    pub fn set(&mut self, job: &Job, rows: &Rows, top: f64) {
        [self.top, self.bottom] = [top, top];
        for unit in job.types() {
            self.add_type(job, rows, unit);
        }
    }

    /// Where a type's label is higher than the lanes, its instances share what is left.
    fn add_type(&mut self, job: &Job, rows: &Rows, unit: usize) {
        let lanes_high = |instance| lane_heights(rows, instance).iter().sum::<f64>();
        let instances = job.instances_of(unit);
        let label = 2.0 * LABEL_PAD + STRONG.leading() + abilities(job, unit).high();
        let spare = label - instances.clone().map(lanes_high).sum::<f64>();
        let share = spare.max(0.0) / instances.len() as f64;
        self.type_tops.push(self.bottom);
        for instance in instances {
            let [top, high] = [self.bottom, lanes_high(instance) + share];
            let lanes = lane_tops(rows, instance, top + share / 2.0);
            self.instances.push(Band { top, high, lanes });
            self.bottom += high;
        }
    }

    pub fn page_wide(&self) -> f64 {
        (self.right + OVERRUN + TOOTH + MARGIN).max(PAGE_LEAST)
    }

    /// The x at some ns from the beginning of step 1, clipped.
    pub fn x(&self, ns: u32) -> f64 {
        (Frame::LEFT + f64::from(ns) * self.ns).min(self.right + OVERRUN)
    }

    /// Whether a bar goes on beyond the deadline.
    pub fn clips(&self, bar: &Bar) -> bool {
        bar.steps.end > self.deadline
    }

    /// The box of a span of a bar: so far below the bar's upper edge, and so high.
    pub fn span(&self, bar: &Bar, ns: &Range<u32>, below: f64, high: f64) -> [f64; 4] {
        let [x, end] = [self.x(ns.start), self.x(ns.end)];
        [x, self.bar_top(bar) + below, end - x, high]
    }

    pub fn bar_top(&self, bar: &Bar) -> f64 {
        self.instances[bar.instance].lanes[bar.lane] + (LANE_HIGH - BAR_HIGH) / 2.0
    }
}

/// The heights of an instance's lanes; an idle one has a lane too.
fn lane_heights(rows: &Rows, instance: usize) -> Vec<f64> {
    let lanes = 0..rows.lanes(instance).max(1);
    lanes
        .map(|lane| LANE_HIGH + LEVEL_HIGH * rows.levels(instance, lane) as f64)
        .collect()
}

/// The tops of an instance's lanes, the first of which stands here.
fn lane_tops(rows: &Rows, instance: usize, mut top: f64) -> Vec<f64> {
    let heights = lane_heights(rows, instance).into_iter();
    heights
        .map(|high| {
            top += high;
            top - high
        })
        .collect()
}
