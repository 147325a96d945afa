//! Phases that try the readers: sound sheets, damaged ones, and bytes at random.

use super::entries::{Checked, Comparison};
use super::faults::{broken_links, broken_types};
use super::for_all;
use crate::job::Job;
use crate::library::Entries;
use crate::random::Random;
use crate::record::{MAX_INSTANCES, MAX_OPERATIONS, MAX_TYPES};
use crate::samples::{job_of_size, jobs, most_links, plan_of_size, plans, random_job, random_plan};
use crate::sheet::{pack, Form};

/// A job of every N, E and M together, a plan of every N and K together.
pub fn every_size(comparison: &mut Comparison, random: &mut Random, _count: usize) -> Checked {
    for n in 0..=MAX_OPERATIONS {
        for e in 0..=most_links(n) {
            for m in 0..=MAX_TYPES {
                comparison.sound(&job_of_size(random, n, e, m))?;
            }
        }
        for k in 0..=MAX_INSTANCES {
            comparison.sound(&plan_of_size(random, n, k))?;
        }
    }
    Ok(())
}

/// Sound jobs and plans, sizes and numbers at random, the known ones first.
pub fn sound(comparison: &mut Comparison, random: &mut Random, count: usize) -> Checked {
    for_all(jobs(random, 50 * count), |job| comparison.sound(job))?;
    for_all(plans(random, 50 * count), |plan| comparison.sound(plan))
}

/// Every number that each field of the header can hold, over several bodies.
pub fn every_header(comparison: &mut Comparison, random: &mut Random, count: usize) -> Checked {
    for_all(jobs(random, count / 50), |job| {
        every_header_number(comparison, job, random)
    })?;
    for_all(plans(random, count), |plan| {
        every_header_number(comparison, plan, random)
    })
}

fn every_header_number<F: Entries>(
    comparison: &mut Comparison,
    sound: &F,
    random: &mut Random,
) -> Checked {
    let mut fields = sound.fields();
    for (place, field) in sound.header().iter().enumerate() {
        for value in 0..=field.maximum() {
            fields[place].value = value;
            let mut sheet = pack(&fields);
            for length in 0..=sheet.len().min(7) {
                comparison.read::<F>(&sheet[..length])?;
            }
            comparison.read::<F>(&sheet)?;
            sheet.extend(random.bytes(300 - sheet.len()));
            comparison.read::<F>(&sheet)?;
        }
        fields[place] = *field;
    }
    Ok(())
}

/// Sound sheets cut, lengthened, with flipped bits and with changed fields.
pub fn damaged(comparison: &mut Comparison, random: &mut Random, count: usize) -> Checked {
    for_all(jobs(random, count), |job| damage(comparison, job, random))?;
    for_all(plans(random, 10 * count), |plan| {
        damage(comparison, plan, random)
    })
}

fn damage<F: Entries>(comparison: &mut Comparison, sound: &F, random: &mut Random) -> Checked {
    let sheet = sound.sheet();
    every_cut::<F>(comparison, &sheet)?;
    lengthen::<F>(comparison, &sheet, random)?;
    flip_bits::<F>(comparison, &sheet, random)?;
    change_fields(comparison, sound, random)
}

/// Cut at every length. The bytes cut off stay in memory behind, where a reader that goes too far finds them.
fn every_cut<F: Entries>(comparison: &mut Comparison, sheet: &[u8]) -> Checked {
    for length in 0..sheet.len() {
        comparison.read::<F>(&sheet[..length])?;
    }
    Ok(())
}

fn lengthen<F: Entries>(comparison: &mut Comparison, sheet: &[u8], random: &mut Random) -> Checked {
    let length = 1 + random.below(40);
    let many = random.bytes(length);
    let tails: [&[u8]; 8] = [
        &[0],
        &[0, 0],
        &[0; 40],
        &[1],
        &[0x80],
        &[0, 1],
        &[0xff; 40],
        &many,
    ];
    for tail in tails {
        comparison.read::<F>(&[sheet, tail].concat())?;
    }
    Ok(())
}

/// Each bit by itself, and several at once.
fn flip_bits<F: Entries>(
    comparison: &mut Comparison,
    sheet: &[u8],
    random: &mut Random,
) -> Checked {
    for position in 0..8 * sheet.len() {
        comparison.read::<F>(&flipped(sheet, &[position]))?;
    }
    for flips in 2..20 {
        let changed = flipped_anywhere(random, sheet, flips);
        comparison.read::<F>(&changed)?;
        comparison.read::<F>(&changed[..random.below(changed.len())])?;
        lengthen::<F>(comparison, &changed, random)?;
    }
    Ok(())
}

pub fn flipped(sheet: &[u8], positions: &[usize]) -> Vec<u8> {
    let mut changed = sheet.to_vec();
    for position in positions {
        changed[position / 8] ^= 0x80 >> (position % 8);
    }
    changed
}

/// So many bits flipped, wherever they are.
pub fn flipped_anywhere(random: &mut Random, sheet: &[u8], flips: usize) -> Vec<u8> {
    let positions: Vec<usize> = (0..flips).map(|_| random.below(8 * sheet.len())).collect();
    flipped(sheet, &positions)
}

/// The sheet cut at every length, and with something behind it. The bytes cut off stay in memory behind.
pub fn cut_or_lengthened(
    random: &mut Random,
    sheet: &[u8],
    mut attempt: impl FnMut(&[u8]) -> Checked,
) -> Checked {
    for length in 0..sheet.len() {
        attempt(&sheet[..length])?;
    }
    let any = random.bytes(9);
    let tails: [&[u8]; 6] = [&[0], &[1], &[0x80], &[0; 40], &[0xff; 40], &any];
    for tail in tails {
        attempt(&[sheet, tail].concat())?;
    }
    Ok(())
}

/// Each field in turn takes the smallest, the neighbouring and the largest numbers it holds.
fn change_fields<F: Entries>(
    comparison: &mut Comparison,
    sound: &F,
    random: &mut Random,
) -> Checked {
    let mut fields = sound.fields();
    for (place, field) in sound.fields().into_iter().enumerate() {
        let (value, maximum) = (field.value, field.maximum());
        let (below, above) = (
            value.saturating_sub(1),
            value.saturating_add(1).min(maximum),
        );
        for changed in [0, below, above, maximum] {
            fields[place].value = changed;
            let sheet = pack(&fields);
            comparison.read::<F>(&sheet)?;
            comparison.read::<F>(&sheet[..random.below(sheet.len())])?;
        }
        fields[place] = field;
    }
    Ok(())
}

/// Sheets with a broken link or type, some cut at every length, some with a second fault behind the first.
pub fn broken_rules(comparison: &mut Comparison, random: &mut Random, count: usize) -> Checked {
    for job in jobs(random, count) {
        let broken = [broken_links(&job), broken_types(&job)].concat();
        for broken_job in &broken {
            let sheet = broken_job.sheet();
            comparison.read::<Job>(&sheet)?;
            comparison.read::<Job>(&sheet[..random.below(sheet.len())])?;
            comparison.read::<Job>(&flipped(&sheet, &[8 * sheet.len() - 1]))?;
            comparison.read::<Job>(&[&sheet[..], &[0]].concat())?;
        }
        if !broken.is_empty() {
            let sheet = random.pick(&broken).sheet();
            every_cut::<Job>(comparison, &sheet)?;
        }
    }
    Ok(())
}

/// Bytes at random, of every length up to 300.
pub fn random_bytes(comparison: &mut Comparison, random: &mut Random, count: usize) -> Checked {
    for length in 0..=300 {
        for _ in 0..count {
            let bytes = random.bytes(length);
            read_as(comparison, &bytes, &random_job(random))?;
            read_as(comparison, &bytes, &random_plan(random))?;
        }
    }
    Ok(())
}

fn read_as<F: Entries>(comparison: &mut Comparison, bytes: &[u8], sound: &F) -> Checked {
    for_all(dressed(bytes, sound).into(), |sheet| {
        comparison.read::<F>(sheet)
    })
}

/// The bytes as they are, with the right form, and with the header of a sound sheet.
pub fn dressed<F: Form>(bytes: &[u8], sound: &F) -> [Vec<u8>; 3] {
    [
        bytes.to_vec(),
        with_form(bytes, F::FORM),
        with_beginning(bytes, &pack(&sound.header())),
    ]
}

pub fn with_form(bytes: &[u8], form: u16) -> Vec<u8> {
    let mut changed = bytes.to_vec();
    if let Some(first) = changed.first_mut() {
        *first = (*first & 0x0f) | ((form as u8) << 4);
    }
    changed
}

fn with_beginning(bytes: &[u8], beginning: &[u8]) -> Vec<u8> {
    let mut changed = beginning.to_vec();
    changed.extend(bytes.iter().skip(beginning.len()));
    changed.truncate(bytes.len());
    changed
}

/// Zero bytes behind a sound sheet, up to lengths whose bits or bytes need more than 16 bits to count.
pub fn long_sheets(comparison: &mut Comparison, random: &mut Random, _count: usize) -> Checked {
    for_all(jobs(random, 2), |job| read_lengthened(comparison, job))?;
    for_all(plans(random, 2), |plan| read_lengthened(comparison, plan))
}

fn read_lengthened<F: Entries>(comparison: &mut Comparison, sound: &F) -> Checked {
    let sheet = sound.sheet();
    for whole in [0x2000, 0x1_0000] {
        for length in [whole - 1, whole, whole + 1, whole + sheet.len()] {
            let mut long = sheet.clone();
            long.resize(length, 0);
            comparison.read::<F>(&long)?;
        }
    }
    Ok(())
}

#[cfg(test)]
mod tests {
    use super::*;

    #[test]
    fn flipped_bits_are_counted_from_the_left() {
        assert_eq!(flipped(&[0, 0xff], &[0, 15]), [0x80, 0xfe]);
    }

    #[test]
    fn beginnings_keep_the_length() {
        assert_eq!(with_form(&[0xab, 0xcd], 1), [0x1b, 0xcd]);
        assert_eq!(with_form(&[], 1), []);
        assert_eq!(with_beginning(&[1, 2, 3], &[8, 9]), [8, 9, 3]);
        assert_eq!(with_beginning(&[1], &[8, 9]), [8]);
    }
}
