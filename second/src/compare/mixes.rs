//! Records broken in several ways at once, so that the order of the refusals shows.

use crate::record::{JobRecord, PlanRecord};

/// A refusal number and the ways to earn it.
type Faults<Record> = (u32, &'static [fn(&mut Record)]);

/// For a sound record with two links and a type, and room for more of each.
pub const JOB_FAULTS: [Faults<JobRecord>; 4] = [
    (
        7,
        &[
            |job| job.t = 32,
            |job| job.t += 256,
            |job| job.wire = 1024,
            |job| job.kinds[0] = 8,
            |job| job.kinds[0] += 256,
            |job| job.kinds[23] = 1,
            |job| job.from[63] = 1,
            |job| job.to[63] = 1,
            |job| job.costs[7] = 1,
            |job| job.copies[7] = 256,
            |job| job.times[63] = 1,
            |job| job.intervals[63] = 1,
        ],
    ),
    (
        5,
        &[
            |job| job.m += 1,
            |job| job.copies[0] = 0,
            |job| job.copies[0] = 8,
            |job| job.copies[0] += 256,
            |job| (job.times[7], job.intervals[7]) = (1024, 1024),
            |job| (job.times[7], job.intervals[7]) = (0, 1),
            |job| (job.times[7], job.intervals[7]) = (1, 0),
            |job| (job.times[7], job.intervals[7]) = (1, 2),
        ],
    ),
    (
        4,
        &[
            |job| job.e += 1,
            |job| job.to[0] = job.from[0],
            |job| job.from[0] += 256,
            |job| job.to[1] = 24,
            |job| job.to[1] += 256,
            |job| (job.from[1], job.to[1]) = (job.from[0], job.to[0]),
            |job| {
                job.from.swap(0, 1);
                job.to.swap(0, 1);
            },
        ],
    ),
    (
        3,
        &[
            |job| job.n = 25,
            |job| job.n += 256,
            |job| job.e = 65,
            |job| job.e += 256,
            |job| job.m = 9,
            |job| job.m += 256,
            |job| job.m = 65_535,
            |job| job.clock = 0,
            |job| job.clock = 1024,
        ],
    ),
];

/// For a sound record with an instance and a row, and room for more of each.
pub const PLAN_FAULTS: [Faults<PlanRecord>; 2] = [
    (
        7,
        &[
            |plan| plan.selection[0] = 2,
            |plan| plan.selection[0] += 256,
            |plan| plan.starts[0] = 32,
            |plan| plan.starts[0] += 256,
            |plan| plan.insts[0] = 16,
            |plan| plan.insts[0] += 256,
            |plan| plan.selection[15] = 1,
            |plan| plan.starts[23] = 256,
            |plan| plan.insts[23] = 1,
        ],
    ),
    (
        3,
        &[
            |plan| plan.n = 25,
            |plan| plan.n += 256,
            |plan| plan.n = 65_535,
            |plan| plan.k = 17,
            |plan| plan.k += 256,
            |plan| plan.k = 65_535,
        ],
    ),
];

/// Every choice of at most one fault for each number, with the number that comes first in the order of refusals, or 0
/// where the record is sound. The faults stand from the last number in that order to the first.
pub fn mixes<Record: Copy>(sound: &Record, faults: &[Faults<Record>]) -> Vec<(Record, u32)> {
    let mut mixes = vec![(*sound, 0)];
    for (number, breaks) in faults {
        for (record, _) in mixes.clone() {
            for break_it in *breaks {
                let mut broken = record;
                break_it(&mut broken);
                mixes.push((broken, *number));
            }
        }
    }
    mixes
}

#[cfg(test)]
mod tests {
    use super::*;
    use crate::samples::{job_p, plan_of_case_1};
    use crate::sheet::Form;

    /// Each mix is refused by its first number where there is room, and a sound one by 22 where there is none.
    fn assert_first_number_wins<F: Form>(sound: &F, faults: &[Faults<F::Record>]) {
        for (record, first) in mixes(&sound.record(), faults) {
            let number =
                |room| F::write(&record, room).map_or_else(|refusal| refusal.number(), |_| 0);
            assert_eq!(number(274), first);
            assert_eq!(number(0), if first == 0 { 22 } else { first });
        }
    }

    #[test]
    fn job_writer_refuses_in_the_order_3_4_5_7_22() {
        assert_first_number_wins(&job_p(), &JOB_FAULTS);
    }

    #[test]
    fn plan_writer_refuses_in_the_order_3_7_22() {
        assert_first_number_wins(&plan_of_case_1(), &PLAN_FAULTS);
    }

    #[test]
    fn every_choice_of_faults_is_mixed() {
        let mixed = mixes(&job_p().record(), &JOB_FAULTS);
        assert_eq!(mixed.len(), (1 + 12) * (1 + 8) * (1 + 7) * (1 + 9));
    }
}
