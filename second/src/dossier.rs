//! Dossiers: job, plan and note one behind the other, their lengths before them.

use crate::bits::{BitReader, BitWriter};
use crate::note::check::{check_and_tell, Proved};
use crate::note::{Mark, Tree};
use crate::refusal::{Fault, Refusal};
use crate::sheet::FORM_BITS;

/// The most bytes that a dossier has.
pub const DOSSIER_BYTES: usize = 65_536;

/// Form, four zero bits, and the three lengths.
pub const HEADER_BYTES: usize = 7;

pub const FORM: u16 = 4;
const ZERO_BITS: usize = 4;
const LENGTH_BITS: usize = 16;

/// Job, plan and note, each where it stands.
pub type Papers<'bytes> = [&'bytes [u8]; 3];

/// What the dossier's note proves. A plan of length 0 is none.
pub fn check(dossier: &[u8]) -> Result<Proved, Refusal> {
    check_and_tell_dossier(dossier, &mut |_, _| ())
}

/// The same; each mark of the note is told as it is read.
pub fn check_and_tell_dossier(
    dossier: &[u8],
    tell: &mut dyn FnMut(&Tree, Option<Mark>),
) -> Result<Proved, Refusal> {
    let [job, plan, note] = open(dossier).map_err(Refusal::of_dossier)?;
    check_and_tell(job, plan, note, tell)
}

/// The papers, none of them looked into.
pub fn open(dossier: &[u8]) -> Result<Papers<'_>, Fault> {
    if dossier.len() > DOSSIER_BYTES {
        return Err(Fault::DossierLong);
    }
    if dossier.len() < HEADER_BYTES {
        return Err(Fault::BitsRunOut);
    }
    let (header, papers) = dossier.split_at(HEADER_BYTES);
    let mut header = BitReader::new(header);
    if header.take(FORM_BITS) != FORM {
        return Err(Fault::FormDiffers);
    }
    if header.take(ZERO_BITS) != 0 {
        return Err(Fault::Fill);
    }
    let lengths = [(); 3].map(|()| usize::from(header.take(LENGTH_BITS)));
    if lengths.iter().sum::<usize>() != papers.len() {
        return Err(Fault::LengthsDiffer);
    }
    let (job, rest) = papers.split_at(lengths[0]);
    let (plan, note) = rest.split_at(lengths[1]);
    Ok([job, plan, note])
}

/// The dossier of these papers, each shorter than 65,536 bytes.
pub fn pack(papers: Papers) -> Vec<u8> {
    let lengths = papers.map(|paper| u16::try_from(paper.len()).expect("a length of 16 bits"));
    with_lengths(lengths, &papers.concat())
}

/// A dossier whose lengths may be wrong.
pub fn with_lengths(lengths: [u16; 3], papers: &[u8]) -> Vec<u8> {
    let mut header = BitWriter::new();
    header.put(FORM, FORM_BITS);
    header.put(0, ZERO_BITS);
    for length in lengths {
        header.put(length, LENGTH_BITS);
    }
    [&header.into_bytes(), papers].concat()
}

#[cfg(test)]
mod tests {
    use super::*;
    use crate::job::Job;
    use crate::note::write::write;
    use crate::refusal::Paper;
    use crate::samples::{dossier_of_case_12, job_p, plan_of, plan_of_case_1};
    use crate::sheet::Form;

    /// What the dossier proves, or number and paper of its refusal.
    fn checked(dossier: &[u8]) -> Result<Proved, (u32, Paper)> {
        check(dossier).map_err(|refusal| (refusal.number(), refusal.paper))
    }

    /// Job P, its cheapest plan, and the house note of 9 bytes.
    fn papers_of_p() -> [Vec<u8>; 3] {
        let (job, plan) = (job_p().sheet(), plan_of_case_1().sheet());
        let note = write(&job, &plan, 9).expect("a note");
        [job, plan, note]
    }

    fn packed(papers: &[Vec<u8>; 3]) -> Vec<u8> {
        pack(papers.each_ref().map(Vec::as_slice))
    }

    #[test]
    fn case_12_is_cheapest_at_0() {
        assert_eq!(
            checked(&dossier_of_case_12()),
            Ok(Proved::Cheapest { cost: 0 })
        );
        let papers = open(&dossier_of_case_12()).map(|papers| papers.map(<[u8]>::to_vec));
        assert_eq!(
            papers.map(|papers| packed(&papers)),
            Ok(dossier_of_case_12())
        );
    }

    #[test]
    fn a_plan_of_length_0_is_none() {
        let [job, plan, note] = papers_of_p();
        let both = [
            (&plan[..], Ok(Proved::Cheapest { cost: 40 })),
            (&[], Err((41, Paper::Note))),
        ];
        for (plan, answer) in both {
            assert_eq!(checked(&pack([&job, plan, &note])), answer);
        }
        let in_two_steps = Job {
            deadline: 2,
            ..job_p()
        }
        .sheet();
        let none = write(&in_two_steps, &[], 5).expect("a note");
        assert_eq!(
            checked(&pack([&in_two_steps, &[], &none])),
            Ok(Proved::None)
        );
        assert_eq!(checked(&pack([&job, &plan, &none])), Err((41, Paper::Note)));
    }

    #[test]
    fn refusals_of_the_dossier_in_their_order() {
        let of_dossier = |number| Err((number, Paper::Dossier));
        assert_eq!(checked(&[0xff; DOSSIER_BYTES + 1]), of_dossier(51));
        assert_eq!(checked(&[0xff; DOSSIER_BYTES]), of_dossier(2));
        for length in 0..HEADER_BYTES {
            assert_eq!(checked(&[0xff; HEADER_BYTES][..length]), of_dossier(1));
        }
        let mut dossier = dossier_of_case_12();
        for (first, number) in [(0x3f, 2), (0x4f, 6), (0x41, 6), (0x48, 6)] {
            dossier[0] = first;
            assert_eq!(checked(&dossier), of_dossier(number));
            assert_eq!(checked(&dossier[..15]), of_dossier(number));
        }
        assert_eq!(checked(&dossier_of_case_12()[..15]), of_dossier(50));
        assert_eq!(
            checked(&[&dossier_of_case_12()[..], &[0]].concat()),
            of_dossier(50)
        );
    }

    /// 65,535 + 1 + 9 is 9 more than a number of 16 bits holds.
    #[test]
    fn lengths_total_more_than_16_bits_hold() {
        let papers = &dossier_of_case_12()[HEADER_BYTES..];
        let wrong = with_lengths([65_535, 1, 9], papers);
        assert_eq!(checked(&wrong), Err((50, Paper::Dossier)));
        assert_eq!(
            checked(&with_lengths([6, 2, 1], papers)),
            checked(&dossier_of_case_12())
        );
    }

    #[test]
    fn a_border_moved_between_two_papers() {
        let papers = &dossier_of_case_12()[HEADER_BYTES..];
        let moved = [
            ([5, 3, 1], 1, Paper::Job),
            ([7, 1, 1], 6, Paper::Job),
            ([6, 1, 2], 1, Paper::Plan),
            ([6, 3, 0], 6, Paper::Plan),
            ([6, 0, 3], 2, Paper::Note),
        ];
        for (lengths, number, paper) in moved {
            let answer = checked(&with_lengths(lengths, papers));
            assert_eq!(answer, Err((number, paper)));
        }
    }

    #[test]
    fn job_then_plan_then_judging_then_note() {
        let mut papers = papers_of_p();
        papers[2][0] = 0;
        assert_eq!(checked(&packed(&papers)), Err((2, Paper::Note)));
        papers[1] = plan_of(&[1, 0, 1], &[(1, 2), (2, 2), (3, 1)]).sheet();
        assert_eq!(checked(&packed(&papers)), Err((11, Paper::Plan)));
        papers[1][0] = 0;
        assert_eq!(checked(&packed(&papers)), Err((2, Paper::Plan)));
        papers[0][0] = 0;
        assert_eq!(checked(&packed(&papers)), Err((2, Paper::Job)));
    }

    #[test]
    fn a_dossier_of_65_536_bytes_is_opened() {
        let [job, plan, mut note] = papers_of_p();
        note.resize(DOSSIER_BYTES - HEADER_BYTES - job.len() - plan.len(), 0);
        let mut dossier = pack([&job, &plan, &note]);
        assert_eq!(dossier.len(), DOSSIER_BYTES);
        assert_eq!(checked(&dossier), Err((40, Paper::Note)));
        dossier.push(0);
        assert_eq!(checked(&dossier), Err((51, Paper::Dossier)));
    }
}
