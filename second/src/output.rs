//! Outputs lent to the library, with bytes kept around them that no entry may touch.

use crate::hex;
use crate::library::Answer;
use crate::refusal::Refusal;
use std::fmt::{self, Debug};

/// Bytes kept on either side of every output.
const MARGIN: usize = 32;

/// An output and its margins: no byte is zero, and each turn finds other bytes there.
pub fn untouched(room: usize, turn: u64) -> Vec<u8> {
    let mut next = (turn % 255) as u8;
    let mut output = Vec::with_capacity(MARGIN + room + MARGIN);
    for _ in 0..MARGIN + room + MARGIN {
        output.push(1 + next);
        next = ((u16::from(next) + 7) % 255) as u8;
    }
    output
}

/// What an entry that writes leaves: its answer, and the whole output with its margins before and after the call.
#[derive(PartialEq, Eq)]
pub struct Written {
    pub answer: Answer,
    before: Vec<u8>,
    after: Vec<u8>,
}

impl Written {
    /// What ought to be left with a sheet at the front of the output.
    pub fn with_sheet(answer: Answer, sheet: &[u8], before: &[u8]) -> Written {
        let mut after = before.to_vec();
        after[MARGIN..MARGIN + sheet.len()].copy_from_slice(sheet);
        Written {
            answer,
            before: before.to_vec(),
            after,
        }
    }

    /// The same of a sheet or a refusal.
    pub fn ought(written: Result<Vec<u8>, Refusal>, before: &[u8]) -> Written {
        match written {
            Ok(sheet) => Written::with_sheet(Answer::written(sheet.len()), &sheet, before),
            Err(refusal) => Written::with_sheet(Answer::refused(refusal), &[], before),
        }
    }

    /// What the entry leaves, which is lent the output without its margins.
    pub fn by(before: &[u8], entry: impl FnOnce(&mut [u8]) -> Answer) -> Written {
        let mut after = before.to_vec();
        let end = after.len() - MARGIN;
        let answer = entry(&mut after[MARGIN..end]);
        Written {
            answer,
            before: before.to_vec(),
            after,
        }
    }

    /// The bytes of the output as far as the answer says that they were written.
    pub fn sheet(&self) -> &[u8] {
        &self.after[MARGIN..][..self.answer.length as usize]
    }

    /// Places whose byte changed, counted from the beginning of the output: below 0 those of the margin before it.
    pub fn touched(&self) -> Vec<i64> {
        let bytes = self.before.iter().zip(&self.after).enumerate();
        let changed = bytes.filter(|(_, (before, after))| before != after);
        changed
            .map(|(place, _)| place as i64 - MARGIN as i64)
            .collect()
    }
}

impl Debug for Written {
    fn fmt(&self, out: &mut fmt::Formatter<'_>) -> fmt::Result {
        writeln!(out, "{:?}", self.answer)?;
        let end = self.after.len() - MARGIN;
        writeln!(out, "output {}", hex::digits_of(&self.after[MARGIN..end]))?;
        write!(
            out,
            "places of the output that changed: {:?}",
            self.touched()
        )
    }
}

#[cfg(test)]
mod tests {
    use super::*;

    #[test]
    fn untouched_outputs_hold_no_zero_and_change() {
        let [first, second] = [0, 1].map(|turn| untouched(1000, turn));
        assert_eq!(first.len(), 1000 + 2 * MARGIN);
        assert!(!first.contains(&0) && !second.contains(&0));
        assert!(first.iter().zip(&second).all(|(one, other)| one != other));
    }

    #[test]
    fn a_refused_write_leaves_the_output() {
        let before = [7; 2 * MARGIN + 3];
        let refused = Written::ought(Err(Refusal::OUTPUT_TOO_SHORT), &before);
        assert_eq!(refused.after, before);
        let written = Written::ought(Ok(vec![1, 2]), &before);
        assert_eq!(written.after[MARGIN - 1..MARGIN + 3], [7, 1, 2, 7]);
        assert_eq!(written.sheet(), [1, 2]);
        assert_eq!(written.touched(), [0, 1]);
    }

    #[test]
    fn margins_are_not_lent_and_their_bytes_are_told() {
        let mut written = Written::by(&untouched(3, 0), |out| {
            assert_eq!(out.len(), 3);
            Answer::written(0)
        });
        assert_eq!(written.touched(), []);
        written.after[MARGIN - 1] ^= 1;
        written.after[MARGIN + 3] ^= 1;
        assert_eq!(written.touched(), [-1, 3]);
    }
}
