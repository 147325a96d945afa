//! The second program's command line.

use second::dossier::{self, check_and_tell_dossier};
use second::note::check::check_and_tell;
use second::note::write::write;
use second::note::{Tree, NOTE_BYTES};
use second::random::Random;
use second::refusal::Refusal;
use second::search::{search, Searched};
use second::sheet::Form;
use second::slide::slide;
use second::tidy::tidy;
use second::{compare, diffeq, fuzz, hex, judge, samples, show};
use std::env;
use std::io::{self, Write};
use std::num::ParseIntError;
use std::process::ExitCode;
use std::str::FromStr;

const DEFAULT_SEED: u64 = 1;
const DEFAULT_COUNT: usize = 200;
const DEFAULT_STRINGS: u64 = 1_100_000;
const CALLED_WRONGLY: u8 = 2;

const USAGE: &str = "\
usage:
  second compare [SEED] [COUNT]   the library beside this program; COUNT scales the random inputs
  second fuzz [SEED] [COUNT]      the library handed COUNT arbitrary byte strings
  second judge JOBHEX PLANHEX     this program's own verdict on a plan
  second slide JOBHEX PLANHEX DISTANCE
                                  the plan's sheet with the distance added to every start, in hex
  second tidy JOBHEX PLANHEX      the plan's sheet with its selected instances moved to their types' last numbers, in hex
  second search JOBHEX [BUDGET]   this program's own search, without BUDGET as long as it takes
  second show job HEX             a job sheet, field by field
  second show plan HEX            a plan sheet, field by field
  second show note JOBHEX PLANHEX NOTEHEX
                                  a note as a tree, mark by mark as far as it is sound, and what it proves
  second show dossier HEX         the lengths of a dossier's papers, its note as a tree, and what it proves
  second make job P               the sheet of job P, in hex
  second make job diffeq STEPS    the sheet of the report's differential equation, 3 to 7 steps
  second make job SEED            the sheet of a random job
  second make plan 1              the sheet of the plan of case 1
  second make plan SEED           the sheet of a random plan (SEED other than 1)
  second make note JOBHEX PLANHEX the house note
  second make dossier JOBHEX PLANHEX NOTEHEX
                                  the dossier of three papers, whatever they are
numbers are decimal; HEX may have spaces between its digits (within quotes where more than one sheet may be named);
beside a note, PLANHEX '' is no plan; DISTANCE may be negative
";

fn main() -> ExitCode {
    let arguments: Vec<String> = env::args_os()
        .skip(1)
        .map(|argument| argument.to_string_lossy().into_owned())
        .collect();
    let words: Vec<&str> = arguments.iter().map(String::as_str).collect();
    match words.as_slice() {
        ["compare", numbers @ ..] => run(numbers, DEFAULT_COUNT, compare::run),
        ["fuzz", numbers @ ..] => run(numbers, DEFAULT_STRINGS, fuzz::run),
        ["judge", job, plan] => judge_sheets(job, plan),
        ["slide", job, plan, distance] => slide_plan(job, plan, distance),
        ["tidy", job, plan] => make_from(job, plan, tidy),
        ["search", job] => search_sheet(job, Ok(u32::MAX)),
        ["search", job, budget] => search_sheet(job, budget.parse()),
        ["show", "job", digits @ ..] if !digits.is_empty() => show_sheet(digits, show::job),
        ["show", "plan", digits @ ..] if !digits.is_empty() => show_sheet(digits, show::plan),
        ["show", "note", job, plan, note] => show_note(job, plan, note),
        ["show", "dossier", digits @ ..] if !digits.is_empty() => show_dossier(digits),
        ["make", "job", "P"] => make_sheet(&samples::job_p()),
        ["make", "job", "diffeq", steps] => make_diffeq_sheet(steps),
        ["make", "job", seed] => make_random_sheet(seed, samples::random_job),
        ["make", "plan", "1"] => make_sheet(&samples::plan_of_case_1()),
        ["make", "plan", seed] => make_random_sheet(seed, samples::random_plan),
        ["make", "note", job, plan] => make_from(job, plan, write),
        ["make", "dossier", job, plan, note] => make_dossier(job, plan, note),
        _ => usage(),
    }
}

fn usage() -> ExitCode {
    eprint!("{USAGE}");
    ExitCode::from(CALLED_WRONGLY)
}

/// With the seed and the count named, or the default ones.
fn run<Count: FromStr>(
    numbers: &[&str],
    default_count: Count,
    run: fn(u64, Count) -> ExitCode,
) -> ExitCode {
    let seed = numbers
        .first()
        .map_or(Some(DEFAULT_SEED), |text| text.parse().ok());
    let count = numbers
        .get(1)
        .map_or(Some(default_count), |text| text.parse().ok());
    match (seed, count) {
        (Some(seed), Some(count)) if numbers.len() <= 2 => run(seed, count),
        _ => usage(),
    }
}

fn judge_sheets(job: &str, plan: &str) -> ExitCode {
    let (Some(job), Some(plan)) = (hex::bytes_of(job), hex::bytes_of(plan)) else {
        return usage();
    };
    let verdict = judge::judge(&job, &plan);
    print(&show::verdict(&verdict), status_of(&verdict))
}

/// With room for every plan.
fn search_sheet(job: &str, budget: Result<u32, ParseIntError>) -> ExitCode {
    let (Some(job), Ok(budget)) = (hex::bytes_of(job), budget) else {
        return usage();
    };
    let searched = search(&job, budget, usize::MAX);
    let status = match searched {
        Searched::Found { .. } => ExitCode::SUCCESS,
        _ => ExitCode::FAILURE,
    };
    print(&show::searched(&searched), status)
}

fn show_sheet<F: Form>(digits: &[&str], text: fn(&F) -> String) -> ExitCode {
    let Some(sheet) = hex::bytes_of(&digits.concat()) else {
        return usage();
    };
    match F::read(&sheet) {
        Ok(held) => print(&text(&held), ExitCode::SUCCESS),
        Err(refusal) => print(&show::refusal(&refusal), ExitCode::FAILURE),
    }
}

fn show_note(job: &str, plan: &str, note: &str) -> ExitCode {
    let [Some(job), Some(plan), Some(note)] = [job, plan, note].map(hex::bytes_of) else {
        return usage();
    };
    let mut text = String::new();
    let mut tell = |tree: &Tree, mark| text += &show::place(tree, mark);
    let checked = check_and_tell(&job, &plan, &note, &mut tell);
    print(&(text + &show::checked(&checked)), status_of(&checked))
}

fn show_dossier(digits: &[&str]) -> ExitCode {
    let Some(bytes) = hex::bytes_of(&digits.concat()) else {
        return usage();
    };
    let mut text = dossier::open(&bytes).map_or(String::new(), show::dossier);
    let mut tell = |tree: &Tree, mark| text += &show::place(tree, mark);
    let checked = check_and_tell_dossier(&bytes, &mut tell);
    print(&(text + &show::checked(&checked)), status_of(&checked))
}

fn make_dossier(job: &str, plan: &str, note: &str) -> ExitCode {
    let [Some(job), Some(plan), Some(note)] = [job, plan, note].map(hex::bytes_of) else {
        return usage();
    };
    let papers = [&job[..], &plan, &note];
    if papers.iter().any(|paper| paper.len() > u16::MAX.into()) {
        return usage();
    }
    print_bytes(&Ok(dossier::pack(papers)))
}

fn slide_plan(job: &str, plan: &str, distance: &str) -> ExitCode {
    match distance.parse() {
        Ok(distance) => make_from(job, plan, |job, plan, room| {
            slide(job, plan, distance, room)
        }),
        Err(_) => usage(),
    }
}

/// What can be made from a job and a plan, with room for all of it.
fn make_from(
    job: &str,
    plan: &str,
    make: impl Fn(&[u8], &[u8], usize) -> Result<Vec<u8>, Refusal>,
) -> ExitCode {
    let [Some(job), Some(plan)] = [job, plan].map(hex::bytes_of) else {
        return usage();
    };
    print_bytes(&make(&job, &plan, NOTE_BYTES))
}

fn print_bytes(made: &Result<Vec<u8>, Refusal>) -> ExitCode {
    let text = match made {
        Ok(bytes) => hex::digits_of(bytes) + "\n",
        Err(refusal) => show::refusal(refusal),
    };
    print(&text, status_of(made))
}

fn status_of<Answer, Refusal>(answer: &Result<Answer, Refusal>) -> ExitCode {
    match answer {
        Ok(_) => ExitCode::SUCCESS,
        Err(_) => ExitCode::FAILURE,
    }
}

fn make_sheet(held: &impl Form) -> ExitCode {
    print_bytes(&Ok(held.sheet()))
}

fn make_diffeq_sheet(steps: &str) -> ExitCode {
    let line = diffeq::LINES
        .iter()
        .find(|line| line.steps.to_string() == steps);
    match line {
        Some(line) => make_sheet(&line.job()),
        None => usage(),
    }
}

fn make_random_sheet<F: Form>(seed: &str, draw: fn(&mut Random) -> F) -> ExitCode {
    match seed.parse() {
        Ok(seed) => make_sheet(&draw(&mut Random::new(seed))),
        Err(_) => usage(),
    }
}

/// Prints the text, and gives the status back unless the output is closed.
fn print(text: &str, status: ExitCode) -> ExitCode {
    match io::stdout().write_all(text.as_bytes()) {
        Ok(()) => status,
        Err(_) => ExitCode::FAILURE,
    }
}
