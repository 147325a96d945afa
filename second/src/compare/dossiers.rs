//! Phases that try the check of dossiers. Papers that are damaged by themselves are packed where notes are tried beside
//! them.

use super::entries::{Checked, Comparison};
use super::noted::Noted;
use super::searching::{known_jobs, LONG};
use super::sheets::{cut_or_lengthened, flipped, flipped_anywhere, with_form};
use crate::dossier::{pack, with_lengths, Papers, DOSSIER_BYTES, FORM, HEADER_BYTES};
use crate::note::making::in_any_order;
use crate::note::write::note_of;
use crate::note::NOTE_BYTES;
use crate::planned::any_plan;
use crate::random::Random;
use crate::samples::dossier_of_case_12;
use crate::sheet::Form;

/// Bytes of a small note, and of one over which this program takes its time.
const SMALL: usize = 30;
const ROOMY: usize = 200;

/// The length that 16 bits no longer hold.
const BEYOND_16_BITS: usize = 0x1_0000;

/// Case 12, and the dossiers of the other cases, whole and damaged.
pub fn known(comparison: &mut Comparison, random: &mut Random, _count: usize) -> Checked {
    comparison.check_dossier(&dossier_of_case_12())?;
    for job in known_jobs() {
        let noted = Noted::of_walk(job, LONG, ROOMY).expect("a short note");
        comparison.check_packed(noted.papers())?;
        damage(comparison, random, noted.papers())?;
    }
    Ok(())
}

/// House notes and others, for a plan and for none, and notes beside any other plan or none.
pub fn sound(comparison: &mut Comparison, random: &mut Random, count: usize) -> Checked {
    for _ in 0..10 * count {
        let noted = Noted::small(random, 1..=ROOMY);
        let [job, plan, note] = noted.papers();
        comparison.check_packed([job, plan, note])?;
        let choose = in_any_order(random, 10);
        if let Ok(other) = note_of(&noted.job, noted.claim, ROOMY, choose) {
            comparison.check_packed([job, plan, &other])?;
        }
        let any = any_plan(random, &noted.job).map_or(vec![], |plan| plan.sheet());
        for plan in [&any[..], &[]] {
            comparison.check_packed([job, plan, note])?;
            comparison.check_packed([job, plan, &flipped(note, &[4])])?;
        }
    }
    Ok(())
}

pub fn damaged(comparison: &mut Comparison, random: &mut Random, count: usize) -> Checked {
    for _ in 0..count / 2 {
        let noted = Noted::small(random, 1..=SMALL);
        damage(comparison, random, noted.papers())?;
    }
    Ok(())
}

fn damage(comparison: &mut Comparison, random: &mut Random, papers: Papers) -> Checked {
    let dossier = pack(papers);
    cut_or_lengthened(random, &dossier, |changed| {
        comparison.check_dossier(changed)
    })?;
    flip_bits(comparison, random, &dossier)?;
    every_first_byte(comparison, random, &dossier)?;
    one_length_changed(comparison, papers)?;
    two_lengths_changed(comparison, papers)?;
    at_any_place(comparison, random, &dossier)
}

/// Each bit of the header, some of the papers' bits, and several at once.
fn flip_bits(comparison: &mut Comparison, random: &mut Random, dossier: &[u8]) -> Checked {
    for position in 0..8 * HEADER_BYTES {
        comparison.check_dossier(&flipped(dossier, &[position]))?;
    }
    for flips in [1, 1, 1, 1, 1, 1, 2, 5].into_iter().cycle().take(400) {
        comparison.check_dossier(&flipped_anywhere(random, dossier, flips))?;
    }
    Ok(())
}

/// Every form and every four bits behind it; whole, and with another fault that comes before or behind.
fn every_first_byte(comparison: &mut Comparison, random: &mut Random, dossier: &[u8]) -> Checked {
    let mut changed = dossier.to_vec();
    for first in 0..=u8::MAX {
        changed[0] = first;
        comparison.check_dossier(&changed)?;
        comparison.check_dossier(&changed[..random.below(dossier.len())])?;
        comparison.check_dossier(&changed[..random.below(HEADER_BYTES)])?;
    }
    Ok(())
}

/// Each length by itself: they no longer total the dossier.
fn one_length_changed(comparison: &mut Comparison, papers: Papers) -> Checked {
    let lengths = lengths_of(papers);
    for field in 0..3 {
        let length = lengths[field];
        let beside = [0, length.wrapping_sub(1), length + 1, 2 * length, u16::MAX];
        for other in beside
            .into_iter()
            .chain((0..16).map(|bit| length ^ (1 << bit)))
        {
            let mut changed = lengths;
            changed[field] = other;
            comparison.check_dossier(&with_lengths(changed, &papers.concat()))?;
        }
    }
    Ok(())
}

/// Two lengths changed so that the total stays, and the papers begin and end elsewhere; and so that it grows by what 16
/// bits do not hold.
fn two_lengths_changed(comparison: &mut Comparison, papers: Papers) -> Checked {
    let lengths = lengths_of(papers);
    let bytes = papers.concat();
    for (one, other) in [(0, 1), (1, 2), (0, 2)] {
        let both = lengths[one] + lengths[other];
        for length in 0..=both {
            let mut moved = lengths;
            (moved[one], moved[other]) = (length, both - length);
            comparison.check_dossier(&with_lengths(moved, &bytes))?;
        }
        for length in [both + 1, 0x8000 + both, u16::MAX] {
            let mut grown = lengths;
            let rest = BEYOND_16_BITS + usize::from(both) - usize::from(length);
            (grown[one], grown[other]) = (length, rest as u16);
            comparison.check_dossier(&with_lengths(grown, &bytes))?;
        }
    }
    Ok(())
}

fn lengths_of(papers: Papers) -> [u16; 3] {
    papers.map(|paper| paper.len() as u16)
}

/// Wherever in memory the dossier begins, with other bytes before it and behind.
fn at_any_place(comparison: &mut Comparison, random: &mut Random, dossier: &[u8]) -> Checked {
    let around = random.bytes(16);
    for place in 0..=around.len() {
        let (before, behind) = around.split_at(place);
        let memory = [before, dossier, behind].concat();
        comparison.check_dossier(&memory[place..][..dossier.len()])?;
    }
    Ok(())
}

/// Each paper lengthened up to the longest dossier and beyond, and bytes behind the papers; notes around their own limit.
pub fn long(comparison: &mut Comparison, random: &mut Random, count: usize) -> Checked {
    for _ in 0..5 + count / 20 {
        let noted = Noted::small(random, 1..=SMALL);
        let papers = noted.papers();
        let without_padding = pack(papers).len();
        for length in [0, 1, 2].map(|more| DOSSIER_BYTES - 1 + more) {
            let padding = vec![random.number() as u8 & 1; length - without_padding];
            for padded in 0..3 {
                let mut longer = papers.map(<[u8]>::to_vec);
                longer[padded].extend(&padding);
                comparison.check_packed(longer.each_ref().map(Vec::as_slice))?;
            }
            comparison.check_dossier(&[pack(papers), padding].concat())?;
            let any = random.bytes(length);
            comparison.check_dossier(&any)?;
            comparison.check_dossier(&with_form(&any, FORM))?;
        }
        let [job, plan, note] = papers;
        for length in [NOTE_BYTES - 1, NOTE_BYTES, NOTE_BYTES + 1] {
            let mut longer = note.to_vec();
            longer.resize(length, 0);
            comparison.check_packed([job, plan, &longer])?;
        }
        comparison.check_dossier(&[pack(papers), vec![0; BEYOND_16_BITS]].concat())?;
    }
    Ok(())
}

/// Bytes at random: as they are, with the right form, as papers of any lengths, and as the papers behind a sound one.
pub fn random_bytes(comparison: &mut Comparison, random: &mut Random, count: usize) -> Checked {
    for length in 0..=150 {
        let noted = Noted::small(random, 1..=SMALL);
        let [job, plan, _] = noted.papers();
        for _ in 0..1 + count / 10 {
            let bytes = random.bytes(length);
            comparison.check_dossier(&bytes)?;
            comparison.check_dossier(&with_form(&bytes, FORM))?;
            let (one, rest) = bytes.split_at(random.below(length + 1));
            let (other, another) = rest.split_at(random.below(rest.len() + 1));
            comparison.check_packed([one, other, another])?;
            comparison.check_packed([job, one, rest])?;
            comparison.check_packed([job, plan, &with_form(&bytes, 3)])?;
        }
    }
    Ok(())
}
