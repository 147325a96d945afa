//! The records of a job and of a plan, as the C header has them, and what they say of operations and instances.

use std::mem::size_of;
use std::ops::Range;

pub const OP_CELLS: usize = 24;
pub const LINK_CELLS: usize = 64;
pub const TYPE_CELLS: usize = 8;
pub const INST_CELLS: usize = 16;
pub const KINDS: usize = 8;
pub const PAIR_CELLS: usize = TYPE_CELLS * KINDS;

/// tolmupung_job.
#[repr(C)]
#[derive(Clone, Copy, Debug, PartialEq, Eq)]
pub struct Job {
    pub n: u16,
    pub e: u16,
    pub m: u16,
    pub t: u16,
    pub clock: u16,
    pub wire: u16,
    pub kinds: [u16; OP_CELLS],
    pub from: [u16; LINK_CELLS],
    pub to: [u16; LINK_CELLS],
    pub costs: [u16; TYPE_CELLS],
    pub copies: [u16; TYPE_CELLS],
    pub times: [u16; PAIR_CELLS],
    pub intervals: [u16; PAIR_CELLS],
}

/// tolmupung_plan.
#[repr(C)]
#[derive(Clone, Copy, Debug, PartialEq, Eq)]
pub struct Plan {
    pub n: u16,
    pub k: u16,
    pub selection: [u16; INST_CELLS],
    pub starts: [u16; OP_CELLS],
    pub insts: [u16; OP_CELLS],
}

const _: () = assert!(size_of::<Job>() == 604 && size_of::<Plan>() == 132);

/// What a kind takes on a type that can do it: time and interval in ns, delay and spacing in steps.
#[derive(Clone, Copy, Debug, PartialEq, Eq)]
pub struct Timing {
    pub time: u16,
    pub interval: u16,
    pub delay: u16,
    pub spacing: u16,
}

impl Job {
    pub const EMPTY: Job = Job {
        n: 0,
        e: 0,
        m: 0,
        t: 0,
        clock: 0,
        wire: 0,
        kinds: [0; OP_CELLS],
        from: [0; LINK_CELLS],
        to: [0; LINK_CELLS],
        costs: [0; TYPE_CELLS],
        copies: [0; TYPE_CELLS],
        times: [0; PAIR_CELLS],
        intervals: [0; PAIR_CELLS],
    };

    pub fn operations(&self) -> Range<usize> {
        0..usize::from(self.n)
    }

    pub fn types(&self) -> Range<usize> {
        0..usize::from(self.m)
    }

    /// The links, from first to second operation.
    pub fn links(&self) -> impl Iterator<Item = (usize, usize)> + '_ {
        (0..usize::from(self.e)).map(|link| (self.from[link].into(), self.to[link].into()))
    }

    /// The operations whose links lead to this one.
    pub fn before(&self, operation: usize) -> impl Iterator<Item = usize> + '_ {
        let here = move |&(_, to): &(usize, usize)| to == operation;
        self.links().filter(here).map(|(from, _)| from)
    }

    /// The instances of a type: they are numbered type by type.
    pub fn instances_of(&self, unit: usize) -> Range<usize> {
        let first = self.copies[..unit].iter().map(|&n| usize::from(n)).sum();
        first..first + usize::from(self.copies[unit])
    }

    /// All instances.
    pub fn instances(&self) -> Range<usize> {
        0..self.types().map(|unit| self.instances_of(unit).len()).sum()
    }

    /// The type of an instance; none where the job has no such instance.
    pub fn type_of(&self, instance: usize) -> Option<usize> {
        let mut types = self.types();
        types.find(|&unit| self.instances_of(unit).contains(&instance))
    }

    /// What a kind takes on a type; none where that cannot do it.
    pub fn timing(&self, unit: usize, kind: usize) -> Option<Timing> {
        let cell = KINDS * unit + kind;
        let [time, interval] = [self.times[cell], self.intervals[cell]];
        (time > 0).then(|| Timing {
            time,
            interval,
            delay: time.div_ceil(self.clock),
            spacing: interval.div_ceil(self.clock),
        })
    }

    /// What an operation takes on an instance; none where that cannot do it.
    pub fn timing_on(&self, instance: usize, operation: usize) -> Option<Timing> {
        self.timing(self.type_of(instance)?, self.kinds[operation].into())
    }
}

impl Plan {
    pub const EMPTY: Plan = Plan {
        n: 0,
        k: 0,
        selection: [0; INST_CELLS],
        starts: [0; OP_CELLS],
        insts: [0; OP_CELLS],
    };

    pub fn operations(&self) -> Range<usize> {
        0..usize::from(self.n)
    }

    /// The selection's bits.
    pub fn selection(&self) -> &[u16] {
        &self.selection[..usize::from(self.k)]
    }

    /// Whether an instance is selected; one that the plan does not have is not.
    pub fn selects(&self, instance: usize) -> bool {
        self.selection().get(instance) == Some(&1)
    }

    /// An operation's row: start and instance.
    pub fn row(&self, operation: usize) -> (usize, usize) {
        (self.starts[operation].into(), self.insts[operation].into())
    }
}
