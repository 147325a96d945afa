//! The report's differential equation searched: our costs and times beside those that the report gives.

use crate::search::by_library;
use second::diffeq::{Line, LINES};
use second::sheet::Form;
use std::process::ExitCode;
use std::time::Instant;

pub fn run() -> ExitCode {
    println!("differential equation, report table 7.4, with chaining\n");
    println!("         the library's search              the report's");
    println!("steps    cost      visits   seconds        cost   seconds");
    let mut status = ExitCode::SUCCESS;
    for line in &LINES {
        if !costs_agree(line) {
            println!("the costs differ");
            status = ExitCode::FAILURE;
        }
    }
    status
}

/// Searches, and prints the line.
fn costs_agree(line: &Line) -> bool {
    let sheet = line.job().sheet();
    let started = Instant::now();
    let (answer, plan) = by_library(&sheet, u32::MAX);
    let ours = started.elapsed().as_secs_f32();
    let Line {
        steps,
        cost,
        seconds,
        ..
    } = line;
    println!(
        "{steps:>5}{:>8}{:>12}{ours:>10.3}{cost:>12}{seconds:>10}",
        answer.cost, answer.visits
    );
    !plan.is_empty() && answer.cost == *cost
}
