//! The report's differential equation solver: the jobs of section 7.2, table 7.4, with chaining.

use crate::job::{Job, Link};
use crate::samples::{empty_job, unit_for_one_kind};

/// One line of the table.
pub struct Line {
    pub steps: u16,
    /// Adders, subtracters and multipliers available.
    copies: [u16; 3],
    /// The cost of those that the report's plan uses.
    pub cost: u32,
    /// The time that the report's solver took.
    pub seconds: u32,
}

pub const LINES: [Line; 5] = [
    line(3, [2, 2, 4], 150, 1),
    line(4, [1, 2, 3], 100, 1),
    line(5, [1, 2, 2], 100, 9),
    line(6, [1, 2, 2], 100, 187),
    line(7, [1, 2, 2], 70, 43),
];

const fn line(steps: u16, copies: [u16; 3], cost: u32, seconds: u32) -> Line {
    Line {
        steps,
        copies,
        cost,
        seconds,
    }
}

/// The kinds, and for each the type that does it: cost, and time in ns, which is the interval too.
const ADD: u16 = 0;
const SUB: u16 = 1;
const MUL: u16 = 2;
const TYPES: [(u16, u16); 3] = [(20, 450), (20, 450), (30, 700)];

/// The operations are the statements of the basic block in section 7.3, in its order:
/// ```text
/// 0  u1 := u * dx      5  u4 := u1 * u2
/// 1  u2 := 5 * x       6  u5 := dx * u3
/// 2  u3 := 3 * y       7  y  := y + y1
/// 3  y1 := u * dx      8  u6 := u - u4
/// 4  x  := x + dx      9  u  := u6 - u5
/// ```
const KIND_OF_EACH: [u16; 10] = [MUL, MUL, MUL, MUL, ADD, MUL, MUL, ADD, SUB, SUB];

/// From the statement that gives u1, u2, u3, y1, u4, u5 or u6 its value to the one that uses it. The u, x, y and dx on
/// the right are those from before the block: operation 4 feeds nothing, and nothing feeds operations 0 to 4.
const LINKS: [(u16, u16); 7] = [(0, 5), (1, 5), (2, 6), (3, 7), (5, 8), (6, 9), (8, 9)];

impl Line {
    pub fn job(&self) -> Job {
        let types = TYPES.iter().zip(self.copies).enumerate();
        Job {
            kinds: KIND_OF_EACH.to_vec(),
            links: LINKS.map(|(from, to)| Link { from, to }).to_vec(),
            types: types
                .map(|(kind, (&(cost, time), copies))| unit_for_one_kind(kind, cost, copies, time))
                .collect(),
            deadline: self.steps,
            clock: 1000,
            ..empty_job()
        }
    }
}

#[cfg(test)]
mod tests {
    use super::*;
    use crate::search::{walk, Searched};
    use crate::sheet::Form;

    #[test]
    fn jobs_read_back() {
        for line in &LINES {
            assert_eq!(Job::read(&line.job().sheet()), Ok(line.job()));
        }
    }

    /// At more steps the walk takes this program some ten seconds.
    #[test]
    fn the_reports_costs_up_to_five_steps() {
        for line in &LINES[..3] {
            let Searched::Found { best, .. } = walk(&line.job(), u32::MAX) else {
                panic!("a plan")
            };
            assert_eq!(best.cost, line.cost);
        }
    }
}
