//! The records of the C header, cell for cell.

use std::fmt::Debug;
use std::mem::{align_of, offset_of, size_of};

pub const MAX_OPERATIONS: usize = 24;
pub const MAX_LINKS: usize = 64;
pub const MAX_TYPES: usize = 8;
pub const MAX_INSTANCES: usize = 16;
pub const KINDS: usize = 8;

#[repr(C)]
#[derive(Clone, Copy, Debug, PartialEq, Eq)]
pub struct JobRecord {
    pub n: u16,
    pub e: u16,
    pub m: u16,
    pub t: u16,
    pub clock: u16,
    pub wire: u16,
    pub kinds: [u16; MAX_OPERATIONS],
    pub from: [u16; MAX_LINKS],
    pub to: [u16; MAX_LINKS],
    pub costs: [u16; MAX_TYPES],
    pub copies: [u16; MAX_TYPES],
    pub times: [u16; MAX_TYPES * KINDS],
    pub intervals: [u16; MAX_TYPES * KINDS],
}

#[repr(C)]
#[derive(Clone, Copy, Debug, PartialEq, Eq)]
pub struct PlanRecord {
    pub n: u16,
    pub k: u16,
    pub selection: [u16; MAX_INSTANCES],
    pub starts: [u16; MAX_OPERATIONS],
    pub insts: [u16; MAX_OPERATIONS],
}

// What the header implies on every machine that has 16-bit integers.
const _: () = {
    assert!(size_of::<JobRecord>() == 604 && align_of::<JobRecord>() == 2);
    assert!(offset_of!(JobRecord, n) == 0 && offset_of!(JobRecord, e) == 2);
    assert!(offset_of!(JobRecord, m) == 4 && offset_of!(JobRecord, t) == 6);
    assert!(offset_of!(JobRecord, clock) == 8 && offset_of!(JobRecord, wire) == 10);
    assert!(offset_of!(JobRecord, kinds) == 12);
    assert!(offset_of!(JobRecord, from) == 60 && offset_of!(JobRecord, to) == 188);
    assert!(offset_of!(JobRecord, costs) == 316 && offset_of!(JobRecord, copies) == 332);
    assert!(offset_of!(JobRecord, times) == 348 && offset_of!(JobRecord, intervals) == 476);
    assert!(size_of::<PlanRecord>() == 132 && align_of::<PlanRecord>() == 2);
    assert!(offset_of!(PlanRecord, n) == 0 && offset_of!(PlanRecord, k) == 2);
    assert!(offset_of!(PlanRecord, selection) == 4 && offset_of!(PlanRecord, starts) == 36);
    assert!(offset_of!(PlanRecord, insts) == 84);
};

pub trait Record: Copy + Debug + PartialEq {
    const EMPTY: Self;

    /// How many of the cells stand before the tables.
    const HEADER_CELLS: usize;

    /// Every cell, in the order of the header.
    fn cells(&mut self) -> Vec<&mut u16>;
}

impl Record for JobRecord {
    const EMPTY: JobRecord = JobRecord {
        n: 0,
        e: 0,
        m: 0,
        t: 0,
        clock: 0,
        wire: 0,
        kinds: [0; MAX_OPERATIONS],
        from: [0; MAX_LINKS],
        to: [0; MAX_LINKS],
        costs: [0; MAX_TYPES],
        copies: [0; MAX_TYPES],
        times: [0; MAX_TYPES * KINDS],
        intervals: [0; MAX_TYPES * KINDS],
    };

    const HEADER_CELLS: usize = 6;

    fn cells(&mut self) -> Vec<&mut u16> {
        let mut cells = vec![&mut self.n, &mut self.e, &mut self.m, &mut self.t];
        cells.extend([&mut self.clock, &mut self.wire]);
        cells.extend(&mut self.kinds);
        cells.extend(&mut self.from);
        cells.extend(&mut self.to);
        cells.extend(&mut self.costs);
        cells.extend(&mut self.copies);
        cells.extend(&mut self.times);
        cells.extend(&mut self.intervals);
        cells
    }
}

impl Record for PlanRecord {
    const EMPTY: PlanRecord = PlanRecord {
        n: 0,
        k: 0,
        selection: [0; MAX_INSTANCES],
        starts: [0; MAX_OPERATIONS],
        insts: [0; MAX_OPERATIONS],
    };

    const HEADER_CELLS: usize = 2;

    fn cells(&mut self) -> Vec<&mut u16> {
        let mut cells = vec![&mut self.n, &mut self.k];
        cells.extend(&mut self.selection);
        cells.extend(&mut self.starts);
        cells.extend(&mut self.insts);
        cells
    }
}

pub fn all_zero(cells: &[u16]) -> bool {
    cells.iter().all(|cell| *cell == 0)
}

#[cfg(test)]
mod tests {
    use super::*;

    fn bytes_in_cells<R: Record>() -> usize {
        let mut record = R::EMPTY;
        size_of::<u16>() * record.cells().len()
    }

    #[test]
    fn cells_cover_the_whole_record() {
        assert_eq!(bytes_in_cells::<JobRecord>(), size_of::<JobRecord>());
        assert_eq!(bytes_in_cells::<PlanRecord>(), size_of::<PlanRecord>());
    }
}
