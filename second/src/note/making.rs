//! Marks chosen otherwise than by the house: sound notes all the same.

use super::{Mark, Tree, MARK_BITS, NUMBER_BITS, VERDICT_BITS};
use crate::random::Random;
use crate::sheet::FORM_BITS;

const HEADER_BITS: usize = FORM_BITS + VERDICT_BITS;

/// Splits on any unplaced operation. Of the places that could be closed, so many in a hundred are split needlessly.
pub fn in_any_order(random: &mut Random, needless: usize) -> impl FnMut(&Tree) -> Mark + '_ {
    move |tree| {
        if tree.may_close() && random.below(100) >= needless {
            return Mark::Close;
        }
        Mark::Split(*random.pick(&tree.unplaced()))
    }
}

/// Splits as long as the bits suffice, for a claim of 0: the bit that closes a place is kept for every place to come.
pub fn of_bits(bits: usize) -> impl FnMut(&Tree) -> Mark {
    let mut left = bits - HEADER_BITS - MARK_BITS;
    move |tree| {
        let unplaced = tree.unplaced();
        let operation = unplaced[0];
        let marks_of_children = match unplaced.len() {
            1 => 0,
            _ => tree.options(operation).len() * MARK_BITS,
        };
        let needed = NUMBER_BITS + marks_of_children;
        if needed > left {
            return Mark::Close;
        }
        left -= needed;
        Mark::Split(operation)
    }
}

#[cfg(test)]
mod tests {
    use super::*;
    use crate::note::check::{check, Proved};
    use crate::note::write::note_of;
    use crate::samples::{job_p, plan_of_case_1};
    use crate::sheet::Form;

    /// Notes of case 1 made so many times, each of them sound; how many different ones there are.
    fn different_notes(needless: usize) -> usize {
        let mut random = Random::new(1);
        let (job, plan) = (job_p(), plan_of_case_1().sheet());
        let mut notes: Vec<Vec<u8>> = Vec::new();
        for _ in 0..100 {
            let choose = in_any_order(&mut random, needless);
            let note = note_of(&job, Some(40), 200, choose).expect("a note");
            let proved = check(&job.sheet(), &plan, &note);
            assert_eq!(proved, Ok(Proved::Cheapest { cost: 40 }));
            if !notes.contains(&note) {
                notes.push(note);
            }
        }
        notes.len()
    }

    #[test]
    fn any_order_and_needless_splits_give_other_sound_notes() {
        let [in_order, needless] = [0, 50].map(different_notes);
        assert!(
            20 <= in_order && in_order < needless,
            "{in_order}, {needless}"
        );
    }

    #[test]
    fn bits_are_used_up_to_less_than_a_split() {
        let mut job = job_p();
        job.types.iter_mut().for_each(|unit| unit.cost = 0);
        let lengths = [6, 11, 40, 64, 65, 80].map(|bits| {
            let note = note_of(&job, Some(0), 10, of_bits(bits)).expect("a note");
            let proved = check(&job.sheet(), &plan_of_case_1().sheet(), &note);
            assert_eq!(proved, Ok(Proved::Cheapest { cost: 0 }));
            note.len()
        });
        // Split wherever it can be, the tree has 65 bits.
        assert_eq!(lengths, [1, 1, 5, 8, 9, 9]);
    }
}
