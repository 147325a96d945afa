//! The writing of closing notes: the house's, and any other.

use super::{lent, Mark, Marks, Tree, FORM, MARK_BITS, NOTE_BYTES, NUMBER_BITS, VERDICT_BITS};
use crate::bits::BitWriter;
use crate::job::Job;
use crate::refusal::Refusal;
use crate::sheet::FORM_BITS;

/// The house note beside a plan's sheet, or for none where it has no bytes, for an output of `room` bytes.
pub fn write(job_sheet: &[u8], plan_sheet: &[u8], room: usize) -> Result<Vec<u8>, Refusal> {
    let (job, claim) = lent(job_sheet, plan_sheet)?;
    note_of(&job, claim, room, house)
}

/// Splits on the lowest unplaced operation, and closes wherever bit 0 is allowed.
pub fn house(tree: &Tree) -> Mark {
    if tree.may_close() {
        Mark::Close
    } else {
        Mark::Split(tree.unplaced()[0])
    }
}

/// The note with the marks chosen, each put as soon as it is chosen.
pub fn note_of(
    job: &Job,
    claim: Option<u32>,
    room: usize,
    choose: impl FnMut(&Tree) -> Mark,
) -> Result<Vec<u8>, Refusal> {
    let mut writer = Writer {
        bits: BitWriter::new(),
        room_bits: 8 * room.min(NOTE_BYTES),
        choose,
    };
    writer.put(&[
        (FORM, FORM_BITS),
        (u16::from(claim.is_some()), VERDICT_BITS),
    ])?;
    Tree::new(job, claim).go_through(&mut writer)?;
    Ok(writer.bits.into_bytes())
}

struct Writer<Choose> {
    bits: BitWriter,
    room_bits: usize,
    choose: Choose,
}

impl<Choose> Writer<Choose> {
    /// Fields with their widths, put together or not at all.
    fn put(&mut self, fields: &[(u16, usize)]) -> Result<(), Refusal> {
        let width: usize = fields.iter().map(|(_, width)| width).sum();
        if self.bits.length() + width > self.room_bits {
            return Err(Refusal::OUTPUT_TOO_SHORT);
        }
        for &(value, width) in fields {
            self.bits.put(value, width);
        }
        Ok(())
    }
}

impl<Choose: FnMut(&Tree) -> Mark> Marks for Writer<Choose> {
    fn mark(&mut self, tree: &Tree) -> Result<Mark, Refusal> {
        let mark = (self.choose)(tree);
        match mark {
            Mark::Close => self.put(&[(0, MARK_BITS)])?,
            Mark::Split(operation) => self.put(&[(1, MARK_BITS), (operation, NUMBER_BITS)])?,
        }
        Ok(mark)
    }
}

#[cfg(test)]
mod tests {
    use super::*;
    use crate::samples::{empty_job, job_p, plan_of, plan_of_case_1, unit_for_one_kind};
    use crate::sheet::Form;

    /// The note, or the number of the refusal.
    fn written(job: &Job, plan: &[u8], room: usize) -> Result<Vec<u8>, u32> {
        write(&job.sheet(), plan, room).map_err(|refusal| refusal.number())
    }

    /// One operation on either of two instances, in either of two steps.
    #[test]
    fn one_operation_by_hand() {
        let job = Job {
            kinds: vec![0],
            types: vec![unit_for_one_kind(0, 3, 2, 1)],
            deadline: 2,
            ..empty_job()
        };
        let plan = plan_of(&[0, 1], &[(2, 1)]).sheet();
        // 0011 1, 1 00000: all four options cost 3 or more.
        assert_eq!(written(&job, &plan, 2), Ok(vec![0b0011_1100, 0]));
        // One byte has room for the header, and not for six bits more.
        assert_eq!(written(&job, &plan, 1), Err(22));
        assert_eq!(written(&job, &[], 1), Err(22));
        assert_eq!(written(&job, &[], 2), Err(44));
    }

    #[test]
    fn a_claim_of_0_is_closed_at_once() {
        let mut job = job_p();
        job.types.iter_mut().for_each(|unit| unit.cost = 0);
        let plan = plan_of_case_1().sheet();
        assert_eq!(written(&job, &plan, 1), Ok(vec![0b0011_1000]));
        assert_eq!(written(&job, &plan, 0), Err(22));
    }

    #[test]
    fn case_11_fits_9_bytes_and_no_fewer() {
        let plan = plan_of_case_1().sheet();
        let note = written(&job_p(), &plan, 9).expect("a note");
        for room in 0..9 {
            assert_eq!(written(&job_p(), &plan, room), Err(22));
        }
        assert_eq!(written(&job_p(), &plan, usize::MAX), Ok(note));
    }

    #[test]
    fn a_refusal_of_the_plan_comes_before_the_walk() {
        let late = plan_of(&[0, 1, 1], &[(1, 2), (2, 2), (4, 1)]).sheet();
        assert_eq!(written(&job_p(), &late, 0), Err(15));
    }

    /// Without room for its header the note ends before there is anything to walk.
    #[test]
    fn without_operations_the_header_is_the_note() {
        assert_eq!(written(&empty_job(), &[0x20, 0], 1), Ok(vec![0b0011_1000]));
        assert_eq!(written(&empty_job(), &[], 0), Err(22));
        assert_eq!(written(&empty_job(), &[], 1), Err(44));
    }
}
