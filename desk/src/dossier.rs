//! A dossier put together from its papers, and taken apart.

use crate::library::{check_dossier, Checked, Paper, Refusal};

/// Job, plan and note; a plan without bytes is none.
pub type Papers<'a> = [&'a [u8]; 3];

/// Form and four zero bits in one byte, then the lengths of the papers in two bytes each.
const FORM: u8 = 0x40;
const HEADER: usize = 7;

/// The dossier of three papers. Whether they hold is for the check to say; it is refused here only where it has no sound
/// header, being too long.
pub fn packed(papers: Papers) -> Result<Vec<u8>, Refusal> {
    let lengths = papers.map(|paper| (paper.len() as u16).to_be_bytes());
    let dossier = [&[FORM], lengths.as_flattened(), &papers.concat()].concat();
    parts(&dossier, &check_dossier(&dossier))?;
    Ok(dossier)
}

/// The papers of a dossier that has been checked. Its header is sound unless the check refuses paper 3.
pub fn parts<'a>(
    dossier: &'a [u8],
    checked: &Result<Checked, Refusal>,
) -> Result<Papers<'a>, Refusal> {
    if let Err(refusal) = checked {
        if refusal.paper == Paper::Dossier {
            return Err(*refusal);
        }
    }
    let length = |at: usize| usize::from(u16::from_be_bytes([dossier[at], dossier[at + 1]]));
    let (job, rest) = dossier[HEADER..].split_at(length(1));
    let (plan, note) = rest.split_at(length(3));
    Ok([job, plan, note])
}

#[cfg(test)]
mod tests {
    use super::*;
    use crate::library::DOSSIER_BYTES;

    fn parts_of(dossier: &[u8]) -> Result<Papers<'_>, Refusal> {
        parts(dossier, &check_dossier(dossier))
    }

    fn refused<T>(number: u32) -> Result<T, Refusal> {
        let paper = Paper::Dossier;
        Err(Refusal { number, paper })
    }

    #[test]
    fn parts_are_what_was_packed() {
        let papers: Papers = [b"a job", b"", b"note"];
        assert_eq!(parts_of(&packed(papers).unwrap()), Ok(papers));
    }

    #[test]
    fn the_longest_is_packed_and_one_byte_more_is_not() {
        let note = vec![0; DOSSIER_BYTES - HEADER + 1];
        let whole = packed([&note[..10], &[], &note[11..]]).unwrap();
        assert_eq!(whole.len(), DOSSIER_BYTES);
        assert_eq!(packed([&note[..10], &[0], &note[11..]]), refused(51));
        assert_eq!(packed([&[], &[], &note]), refused(51));
        assert_eq!(packed([&note, &note, &note]), refused(51));
    }

    #[test]
    fn a_faulty_header_is_refused_before_it_is_read() {
        assert_eq!(parts_of(&[]), refused(1));
        assert_eq!(parts_of(&[0x40, 0, 1, 0, 0, 0, 0]), refused(50));
        assert_eq!(
            parts_of(&[0x40, 0xff, 0xff, 0xff, 0xff, 0xff, 0xff, 1]),
            refused(50)
        );
    }
}
