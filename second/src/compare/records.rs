//! Phases that try the writers: records with every cell changed, faults mixed, and outputs of every length.

use super::entries::{Checked, Comparison};
use super::faults::{broken_links, broken_types, too_wide_links, too_wide_types};
use super::for_all;
use super::mixes::{mixes, JOB_FAULTS, PLAN_FAULTS};
use crate::job::Job;
use crate::library::Entries;
use crate::random::Random;
use crate::record::Record;
use crate::samples::{job_of_size, job_p, jobs, plan_of_case_1, plan_of_size, plans};
use crate::sheet::Form;

/// More than any sheet needs.
const ROOMY: usize = 300;

/// The first length whose low 16 bits are zero.
pub const VAST: usize = 0x1_0000;

/// Every limit, the number beyond it, a number whose low byte is zero, and the largest number of a cell.
const EDGES: [u16; 26] = [
    0, 1, 2, 7, 8, 9, 15, 16, 17, 23, 24, 25, 31, 32, 64, 65, 127, 128, 254, 255, 256, 1022, 1023,
    1024, 32_768, 65_535,
];

/// Each cell of the record in turn takes each edge.
pub fn every_cell(comparison: &mut Comparison, random: &mut Random, count: usize) -> Checked {
    for_all(jobs(random, count / 5), |job| {
        change_each_cell(comparison, job)
    })?;
    for_all(plans(random, count), |plan| {
        change_each_cell(comparison, plan)
    })
}

fn change_each_cell<F: Entries>(comparison: &mut Comparison, sound: &F) -> Checked {
    let record = sound.record();
    for (place, value) in record.clone().cells().into_iter().enumerate() {
        let mut changed = record;
        for edge in edges_of(*value) {
            *changed.cells()[place] = edge;
            comparison.write::<F>(&changed, ROOMY)?;
        }
    }
    Ok(())
}

/// The edges of all cells, the neighbours of this cell's own number, and that number with each of its bits flipped: cut
/// down to the width of its field, a number with a high bit flipped would pass for the sound one.
fn edges_of(value: u16) -> Vec<u16> {
    let mut edges = EDGES.to_vec();
    edges.extend([value.saturating_add(1), value.saturating_sub(1)]);
    edges.extend((0..16).map(|bit| value ^ (1 << bit)));
    edges
}

/// Records with a broken link or type.
pub fn broken_rules(comparison: &mut Comparison, random: &mut Random, count: usize) -> Checked {
    for job in jobs(random, count) {
        for ways in [broken_links, too_wide_links, broken_types, too_wide_types] {
            for broken_job in ways(&job) {
                let room = *random.pick(&[0, 5, ROOMY]);
                comparison.write::<Job>(&broken_job.record(), room)?;
            }
        }
    }
    Ok(())
}

/// Every choice of at most one fault for each refusal number.
pub fn every_mix(comparison: &mut Comparison, random: &mut Random, _count: usize) -> Checked {
    for job in [job_p(), job_of_size(random, 23, 40, 4)] {
        write_mixes(comparison, &job, mixes(&job.record(), &JOB_FAULTS))?;
    }
    for plan in [plan_of_case_1(), plan_of_size(random, 23, 15)] {
        write_mixes(comparison, &plan, mixes(&plan.record(), &PLAN_FAULTS))?;
    }
    Ok(())
}

fn write_mixes<F: Entries>(
    comparison: &mut Comparison,
    sound: &F,
    mixes: Vec<(F::Record, u32)>,
) -> Checked {
    let length = sound.sheet().len();
    for (record, _) in mixes {
        for room in [0, length - 1, length, ROOMY] {
            comparison.write::<F>(&record, room)?;
        }
    }
    Ok(())
}

/// Several cells changed at once, into outputs of several lengths; then records random behind their header, and in
/// whole.
pub fn several_faults(comparison: &mut Comparison, random: &mut Random, count: usize) -> Checked {
    for_all(jobs(random, 50 * count), |job| {
        break_in_several_places(comparison, job, random)
    })?;
    for_all(plans(random, 50 * count), |plan| {
        break_in_several_places(comparison, plan, random)
    })
}

fn break_in_several_places<F: Entries>(
    comparison: &mut Comparison,
    sound: &F,
    random: &mut Random,
) -> Checked {
    let mut record = sound.record();
    change_some_cells(&mut record, random);
    let length = sound.sheet().len();
    let room = *random.pick(&[0, length - 1, length, length + 1, ROOMY]);
    comparison.write::<F>(&record, room)?;
    for first in [F::Record::HEADER_CELLS, 0] {
        for cell in &mut record.cells()[first..] {
            **cell = random.of_any_width();
        }
        comparison.write::<F>(&record, ROOMY)?;
    }
    Ok(())
}

fn change_some_cells<R: Record>(record: &mut R, random: &mut Random) {
    let mut cells = record.cells();
    for _ in 0..1 + random.below(4) {
        // The header's few cells would hardly ever be met among all the others.
        let reach = *random.pick(&[R::HEADER_CELLS, cells.len(), cells.len(), cells.len()]);
        let cell = &mut cells[random.below(reach)];
        **cell = *random.pick(&edges_of(**cell));
    }
}

/// Outputs of every length up to one past the sheet, and much longer ones.
pub fn every_room(comparison: &mut Comparison, random: &mut Random, count: usize) -> Checked {
    for_all(jobs(random, count), |job| {
        write_into_every_room(comparison, job)
    })?;
    for_all(plans(random, count), |plan| {
        write_into_every_room(comparison, plan)
    })
}

fn write_into_every_room<F: Entries>(comparison: &mut Comparison, sound: &F) -> Checked {
    for room in (0..=sound.sheet().len() + 1).chain([ROOMY, VAST]) {
        comparison.write::<F>(&sound.record(), room)?;
    }
    Ok(())
}

#[cfg(test)]
mod tests {
    use super::*;

    #[test]
    fn edges_hide_a_number_behind_each_width() {
        let edges = edges_of(5);
        for width in 3..16 {
            let hidden = edges
                .iter()
                .any(|edge| *edge != 5 && edge % (1 << width) == 5);
            assert!(hidden, "{width}");
        }
        assert!(edges.contains(&4) && edges.contains(&6));
    }
}
