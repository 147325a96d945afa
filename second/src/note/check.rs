//! The check of a closing note.

use super::{
    allow, lent, Mark, Marks, Tree, FORM, MARK_BITS, NOTE_BYTES, NUMBER_BITS, VERDICT_BITS,
};
use crate::bits::BitReader;
use crate::refusal::{Fault, Refusal};
use crate::sheet::FORM_BITS;

/// What a sound note proves.
#[derive(Clone, Copy, Debug, PartialEq, Eq)]
pub enum Proved {
    /// No plan that meets the rules costs less than the one lent, whose cost this is.
    Cheapest { cost: u32 },
    /// No plan meets the rules.
    None,
}

/// Beside a plan's sheet of no bytes, the note is to prove that there is no plan.
pub fn check(job_sheet: &[u8], plan_sheet: &[u8], note: &[u8]) -> Result<Proved, Refusal> {
    check_and_tell(job_sheet, plan_sheet, note, &mut |_, _| ())
}

/// The same; each mark is told as it is read, and None where all operations are placed.
pub fn check_and_tell(
    job_sheet: &[u8],
    plan_sheet: &[u8],
    note: &[u8],
    tell: &mut dyn FnMut(&Tree, Option<Mark>),
) -> Result<Proved, Refusal> {
    let (job, claim) = lent(job_sheet, plan_sheet)?;
    allow(note.len() <= NOTE_BYTES, Fault::NoteLong)?;
    let bits = BitReader::new(note);
    let mut reader = Reader { bits, tell };
    reader.header(claim.is_some()).map_err(Refusal::of_note)?;
    Tree::new(&job, claim).go_through(&mut reader)?;
    allow(reader.bits.only_fill_left(), Fault::Fill)?;
    Ok(match claim {
        Some(cost) => Proved::Cheapest { cost },
        None => Proved::None,
    })
}

struct Reader<'tell> {
    bits: BitReader,
    tell: &'tell mut dyn FnMut(&Tree, Option<Mark>),
}

impl Reader<'_> {
    fn header(&mut self, plan_lent: bool) -> Result<(), Fault> {
        self.bits.need(FORM_BITS)?;
        if self.bits.take(FORM_BITS) != FORM {
            return Err(Fault::FormDiffers);
        }
        self.bits.need(VERDICT_BITS)?;
        if (self.bits.take(VERDICT_BITS) == 1) != plan_lent {
            return Err(Fault::VerdictDiffers);
        }
        Ok(())
    }

    fn read_mark(&mut self) -> Result<Mark, Fault> {
        self.bits.need(MARK_BITS)?;
        if self.bits.take(MARK_BITS) == 0 {
            return Ok(Mark::Close);
        }
        self.bits.need(NUMBER_BITS)?;
        Ok(Mark::Split(self.bits.take(NUMBER_BITS)))
    }
}

impl Marks for Reader<'_> {
    fn mark(&mut self, tree: &Tree) -> Result<Mark, Refusal> {
        let mark = self.read_mark().map_err(Refusal::of_note)?;
        (self.tell)(tree, Some(mark));
        Ok(mark)
    }

    fn all_placed(&mut self, tree: &Tree) {
        (self.tell)(tree, None);
    }
}

#[cfg(test)]
mod tests {
    use super::*;
    use crate::hex;
    use crate::job::Job;
    use crate::note::write::write;
    use crate::refusal::Paper;
    use crate::samples::{empty_job, job_of_case_8, job_p, plan_of, plan_of_case_1};
    use crate::sheet::Form;

    /// What the note proves of job P beside the plan of case 1, or the number of its refusal.
    fn beside_case_1(note: &[u8]) -> Result<Proved, u32> {
        checked(&job_p(), &plan_of_case_1().sheet(), note)
    }

    fn checked(job: &Job, plan: &[u8], note: &[u8]) -> Result<Proved, u32> {
        check(&job.sheet(), plan, note).map_err(|refusal| {
            assert_eq!(refusal.paper, Paper::Note);
            refusal.number()
        })
    }

    fn note_of_case_11() -> Vec<u8> {
        write(&job_p().sheet(), &plan_of_case_1().sheet(), 9).expect("a note")
    }

    #[test]
    fn case_11_has_65_bits_in_9_bytes() {
        let mut bits = FORM_BITS + VERDICT_BITS;
        let mut tell = |_: &Tree, mark: Option<Mark>| {
            bits += match mark {
                Some(Mark::Close) => MARK_BITS,
                Some(Mark::Split(_)) => MARK_BITS + NUMBER_BITS,
                None => 0,
            }
        };
        let (job, plan, note) = (job_p().sheet(), plan_of_case_1().sheet(), note_of_case_11());
        let proved = check_and_tell(&job, &plan, &note, &mut tell);
        assert_eq!(proved, Ok(Proved::Cheapest { cost: 40 }));
        assert_eq!((bits, note.len()), (65, 9));
    }

    #[test]
    fn every_cut_of_case_11_runs_out_of_bits() {
        let note = note_of_case_11();
        for length in 0..9 {
            assert_eq!(beside_case_1(&note[..length]), Err(1), "{length}");
        }
    }

    #[test]
    fn fill_comes_last() {
        let note = note_of_case_11();
        for place in 1..8 {
            let mut filled = note.clone();
            filled[8] ^= 0x80 >> place;
            assert_eq!(beside_case_1(&filled), Err(6));
        }
        assert_eq!(beside_case_1(&[&note[..], &[0]].concat()), Err(6));
    }

    #[test]
    fn length_form_and_verdict_in_their_order() {
        assert_eq!(beside_case_1(&[0; 60_001]), Err(40));
        assert_eq!(beside_case_1(&[0; 60_000]), Err(2));
        assert_eq!(beside_case_1(&[0x30]), Err(41));
        assert_eq!(checked(&job_p(), &[], &note_of_case_11()), Err(41));
    }

    /// Behind the header 0011 1.
    #[test]
    fn marks_that_are_not_allowed() {
        // 0: nothing is placed, and the claim is 40.
        assert_eq!(beside_case_1(&[0b0011_1000]), Err(43));
        // 1 00011: there are three operations.
        assert_eq!(beside_case_1(&[0b0011_1100, 0b0110_0000]), Err(42));
        // 1 00000, 1 00000: operation 0 is placed already.
        assert_eq!(beside_case_1(&[0b0011_1100, 0b0001_0000, 0]), Err(42));
        // 1 00: three bits of the number are missing, whatever it would be.
        assert_eq!(beside_case_1(&[0b0011_1111]), Err(1));
    }

    /// Any instance does; the plan selects one more than it needs, and so claims 50 where 40 suffice.
    #[test]
    fn the_claim_is_the_cost_of_the_plans_own_selection() {
        let dear = plan_of(&[1, 1, 1], &[(1, 2), (2, 2), (3, 1)]).sheet();
        // Splits on 0, 1 and 2; the first row of 2 that comes is on instance 0, the next on instance 1.
        let note = [0b0011_1100, 0b0001_0000, 0b1100_0100, 0];
        assert_eq!(checked(&job_p(), &dear, &note), Err(44));
        assert_eq!(beside_case_1(&note), Err(43));
        assert_eq!(
            write(&job_p().sheet(), &dear, 9).map_err(|refusal| refusal.number()),
            Err(44)
        );
    }

    #[test]
    fn without_operations_there_is_no_tree() {
        let plan = hex::bytes_of("20 00").expect("hex");
        let cheapest = Ok(Proved::Cheapest { cost: 0 });
        assert_eq!(checked(&empty_job(), &plan, &[0b0011_1000]), cheapest);
        assert_eq!(checked(&empty_job(), &[], &[0b0011_0000]), Err(44));
    }

    /// Job P in two steps: whichever of 0 and 1 comes first, nothing is left for 2.
    #[test]
    fn a_note_for_none_read_in_another_order_than_the_houses() {
        let job = Job {
            deadline: 2,
            ..job_p()
        };
        let house = hex::bytes_of("34 10 c5 0c 40").expect("hex");
        assert_eq!(write(&job.sheet(), &[], 5), Ok(house.clone()));
        assert_eq!(checked(&job, &[], &house), Ok(Proved::None));
        // 0011 0, 1 00010 on 2: it starts in step 1 or 2, on instance 0 or 1.
        // In step 1, 1 00000 on 0: no room before it. In step 2, 1 00000 on 0 in step 1, 1 00001 on 1: none in turn.
        let other = "00110 100010 100000 100000 100000 100001 100000 100001";
        assert_eq!(checked(&job, &[], &packed(other)), Ok(Proved::None));
        assert_eq!(checked(&job, &[], &packed("00110 0")), Err(43));
    }

    /// Case 8's unit in three steps: the multiplication, operation 1, holds it in all of them. In four steps the last
    /// is left to the addition.
    #[test]
    fn children_are_the_options_that_a_held_instance_leaves() {
        let mut job = Job {
            deadline: 3,
            ..job_of_case_8()
        };
        let house = packed("00110 100000 100001 100001 100001");
        assert_eq!(write(&job.sheet(), &[], 4), Ok(house));
        let multiply_first = packed("00110 100001 100000");
        assert_eq!(checked(&job, &[], &multiply_first), Ok(Proved::None));
        job.deadline = 4;
        assert_eq!(checked(&job, &[], &multiply_first), Err(44));
    }

    /// Digits of bits, zero bits behind them.
    fn packed(digits: &str) -> Vec<u8> {
        let bits: Vec<u8> = digits.bytes().filter(|digit| *digit != b' ').collect();
        let byte = |bits: &[u8]| {
            (0..8).fold(0, |byte, place| {
                2 * byte + (bits.get(place).unwrap_or(&b'0') - b'0')
            })
        };
        bits.chunks(8).map(byte).collect()
    }
}
