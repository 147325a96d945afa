//! The library beside this program, on many inputs.

mod borders;
mod changes;
mod dossiers;
mod entries;
mod faults;
mod job_papers;
mod judging;
mod mixes;
pub(crate) mod moving;
mod note_papers;
pub(crate) mod noted;
mod noting;
mod papers;
mod records;
mod searching;
pub(crate) mod sheets;
mod tally;

use crate::random::Random;
use entries::{Checked, Comparison};
use std::process::ExitCode;
use std::time::Instant;

type Phase = fn(&mut Comparison, &mut Random, usize) -> Checked;

const PHASES: [(&str, Phase); 55] = [
    ("sheets of every size", sheets::every_size),
    ("sound sheets and records", sheets::sound),
    ("every number in every header field", sheets::every_header),
    ("damaged sheets", sheets::damaged),
    ("sheets with broken links and types", sheets::broken_rules),
    ("random bytes", sheets::random_bytes),
    ("long sheets", sheets::long_sheets),
    ("records with every cell changed", records::every_cell),
    ("records with broken links and types", records::broken_rules),
    ("records with every mix of faults", records::every_mix),
    ("records with several faults", records::several_faults),
    ("outputs of every length", records::every_room),
    ("plans that pass", judging::passing),
    ("plans that break one rule", judging::one_rule_broken),
    ("plans with every row changed", judging::every_row_changed),
    (
        "plans that break several rules",
        judging::several_rules_broken,
    ),
    ("every selection", borders::every_selection),
    ("two operations side by side", borders::two_operations),
    ("runs up to the clock", borders::runs),
    ("jobs and plans damaged", papers::damaged),
    ("jobs and plans of random bytes", papers::random_bytes),
    ("known jobs searched", searching::known),
    (
        "walks beside every plan judged",
        searching::every_plan_judged,
    ),
    ("small jobs searched", searching::small_jobs),
    (
        "every budget of short walks",
        searching::every_budget_of_short_walks,
    ),
    (
        "outputs of every length, searched",
        searching::every_room_of_small_jobs,
    ),
    ("searches where a rule just holds", searching::borders),
    ("large jobs searched", searching::large_jobs),
    ("jobs at their limits searched", searching::limits),
    ("damaged jobs searched", job_papers::damaged),
    ("jobs of random bytes searched", job_papers::random_bytes),
    ("notes of known jobs", noting::known),
    ("house notes", noting::house_notes),
    (
        "outputs of every length, house notes",
        noting::every_room_of_house_notes,
    ),
    (
        "notes split in any order, and needlessly",
        noting::other_notes,
    ),
    ("plans that are not cheapest", noting::not_cheapest),
    ("notes beside every plan judged", noting::confirmed),
    ("notes beside other papers", note_papers::mixed_up),
    ("damaged notes", note_papers::damaged),
    ("notes of random bytes", note_papers::random_bytes),
    ("jobs and plans damaged beside notes", note_papers::beside),
    ("notes around 60,000 bytes", noting::long_notes),
    ("large jobs noted", noting::large_jobs),
    ("notes at full depth", noting::deep_notes),
    ("plans slid by every distance", moving::every_distance),
    ("plans slid to both limits", moving::to_both_limits),
    (
        "plans broken in selection order alone",
        moving::selection_order,
    ),
    (
        "every selection of small jobs tidied",
        moving::every_selection,
    ),
    (
        "outputs of every length, slid and tidied",
        moving::every_room,
    ),
    ("broken plans slid and tidied", moving::broken_plans),
    ("known dossiers", dossiers::known),
    ("dossiers of sound papers", dossiers::sound),
    ("damaged dossiers", dossiers::damaged),
    ("dossiers around 65,536 bytes", dossiers::long),
    ("dossiers of random bytes", dossiers::random_bytes),
];

/// Tries each of the samples, up to the first disagreement.
fn for_all<F>(samples: Vec<F>, attempt: impl FnMut(&F) -> Checked) -> Checked {
    samples.iter().try_for_each(attempt)
}

/// `count` scales how many random jobs and plans each phase tries.
pub fn run(seed: u64, count: usize) -> ExitCode {
    let mut comparison = Comparison::new();
    for (number, (name, phase)) in PHASES.iter().enumerate() {
        let started = Instant::now();
        let before = comparison.tally.total();
        eprint!("{} of {}: {name}", number + 1, PHASES.len());
        let mut random = Random::new(seed.wrapping_add(number as u64));
        if let Err(disagreement) = phase(&mut comparison, &mut random, count) {
            eprintln!();
            println!("{}", disagreement.text());
            println!("met among: {name}");
            println!("repeat with: second compare {seed} {count}");
            return ExitCode::FAILURE;
        }
        let compared = comparison.tally.total() - before;
        let seconds = started.elapsed().as_secs_f32();
        eprintln!(": {compared} comparisons, {seconds:.1} s");
    }
    report(&comparison, seed, count)
}

fn report(comparison: &Comparison, seed: u64, count: usize) -> ExitCode {
    let tally = &comparison.tally;
    println!("seed {seed}, count {count}: no disagreement");
    println!(
        "{} comparisons, {} round trips, {} walks and {} notes confirmed by judging every plan",
        tally.total(),
        tally.round_trips,
        tally.walks_confirmed,
        tally.notes_confirmed
    );
    println!(
        "by the library's own answers: {} slid and {} tidied plans pass, {} dossiers answer as their papers do",
        tally.slid_judged, tally.tidied_judged, tally.dossiers_unpacked
    );
    println!("\nrefusals met, by paper and number, with the search's 30 (spent) and 31 (none);");
    println!("alone, plans that break no other rule:");
    println!("{}", tally.table());
    let amiss = [tally.unheard_of(), tally.met_too_seldom()].concat();
    for line in &amiss {
        println!("{line}");
    }
    if amiss.is_empty() {
        ExitCode::SUCCESS
    } else {
        ExitCode::FAILURE
    }
}
