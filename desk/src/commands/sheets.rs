//! Sheets shown, made, packed, unpacked and drawn.

use super::keeping::{kept, written};
use crate::dossier::{packed, parts};
use crate::draw::{picture, Caption};
use crate::files::{self, named, Filed};
use crate::library::{self, check_dossier, Checked, Paper, Refusal};
use crate::note::{note_text, tree_text};
use crate::text::{job_text, made, plan_text};
use crate::trouble::{Status, Trouble};
use crate::words::Given;
use std::ffi::OsString;
use std::io::Write;
use std::os::unix::ffi::OsStrExt;
use std::path::{Path, PathBuf};

/// What the library gives of a paper, or its refusal told of the file.
fn of<T>(filed: &Filed, answer: Result<T, Refusal>) -> Result<T, Trouble> {
    answer.map_err(|refusal| Trouble::Refused(refusal.told_of(filed)))
}

pub fn show(given: &Given, out: &mut dyn Write) -> Result<Status, Trouble> {
    let filed = files::paper(given.file(0))?;
    let sheet = &filed.bytes;
    let shown = match Paper::of_form(sheet) {
        Some(Paper::Job) => library::read_job(sheet).map(|job| job_text(&job)),
        Some(Paper::Plan) => library::read_plan(sheet).map(|plan| plan_text(&plan)),
        Some(Paper::Note) => note_text(sheet),
        Some(Paper::Dossier) => dossier_text(sheet),
        _ => {
            let name = named(&filed.name);
            return Err(Trouble::failed(format!(
                "{name} begins as no job, plan, note or dossier does"
            )));
        }
    };
    out.write_all(of(&filed, shown)?.as_bytes())?;
    Ok(Status::Good)
}

/// A dossier with its papers, as far as each can be shown.
fn dossier_text(dossier: &[u8]) -> Result<String, Refusal> {
    let checked = check_dossier(dossier);
    let [job, plan, note] = parts(dossier, &checked)?;
    let [bytes, job_bytes, plan_bytes, note_bytes] = [dossier, job, plan, note].map(<[u8]>::len);
    let answer = match checked {
        Ok(Checked::Cheapest { cost }) => format!("cheapest, cost {cost}"),
        Ok(Checked::None) => "none: no plan meets the rules".to_string(),
        Err(refusal) => refusal.told(),
    };
    let read = library::read_job(job);
    let plan_text = match plan {
        [] => "no plan\n".to_string(),
        plan => or_told(library::read_plan(plan).map(|plan| plan_text(&plan))),
    };
    let note_text = match (read, checked) {
        (Ok(job), Ok(_)) => tree_text(&job, note),
        _ => or_told(note_text(note)),
    };
    let head = format!("dossier, {bytes} bytes: job {job_bytes}, plan {plan_bytes}, note {note_bytes}\n  {answer}\n");
    let job_text = or_told(read.map(|job| job_text(&job)));
    Ok([head, job_text, plan_text, note_text].join("\n"))
}

fn or_told(text: Result<String, Refusal>) -> String {
    text.unwrap_or_else(|refusal| refusal.told() + "\n")
}

pub fn make(given: &Given, out: &mut dyn Write) -> Result<Status, Trouble> {
    let name = given.file(0);
    let text = files::text(name)?;
    let mistaken = |mistake| Trouble::failed(format!("{}, {mistake}", named(name)));
    let record = made(&text).map_err(mistaken)?;
    let refused =
        |refusal: Refusal| Trouble::Refused(format!("{}: {}", named(name), refusal.told()));
    written(given, out, &record.sheet().map_err(refused)?)
}

pub fn pack(given: &Given, out: &mut dyn Write) -> Result<Status, Trouble> {
    let last = given.files().len() - 1;
    let plan = match last {
        2 => files::plan(given.file(1))?.bytes,
        _ => Vec::new(),
    };
    let job = files::paper(given.file(0))?.bytes;
    let note = files::paper(given.file(last))?.bytes;
    let dossier = packed([&job, &plan, &note]);
    let dossier = dossier.map_err(|refusal| Trouble::Refused(refusal.told()))?;
    let kept = kept(given, &dossier)?;
    let [whole, job, plan, note] = [dossier, job, plan, note].map(|paper| paper.len());
    writeln!(
        out,
        "written, {whole} bytes{kept}: job {job}, plan {plan}, note {note}"
    )?;
    Ok(Status::Good)
}

pub fn unpack(given: &Given, out: &mut dyn Write) -> Result<Status, Trouble> {
    let filed = files::paper(given.file(0))?;
    let dossier = &filed.bytes;
    let [job, plan, note] = of(&filed, parts(dossier, &check_dossier(dossier)))?;
    let [job_file, plan_file, note_file] = paper_files(given.target(), &filed.name)?;
    if plan.is_empty() && plan_file.exists() {
        let plan_file = named(&plan_file);
        let words =
            format!("{plan_file} is there, and this dossier has no plan; take another stem");
        return Err(Trouble::failed(words));
    }
    let papers = [(job, job_file), (plan, plan_file), (note, note_file)];
    for (paper, file) in papers.iter().filter(|(paper, _)| !paper.is_empty()) {
        files::write(file, paper)?;
        writeln!(out, "written, {} bytes, in {}", paper.len(), named(file))?;
    }
    Ok(Status::Good)
}

/// The files of a dossier's papers, none of which is its own.
fn paper_files(stem: &Path, dossier: &Path) -> Result<[PathBuf; 3], Trouble> {
    if stem.as_os_str().as_bytes().ends_with(b"/") {
        let words = format!("-o wants a stem, such as {}name", named(stem));
        return Err(Trouble::failed(words));
    }
    let files = [Paper::Job, Paper::Plan, Paper::Note].map(|paper| {
        let mut file = OsString::from(stem);
        file.push(format!(".{}", paper.name()));
        PathBuf::from(file)
    });
    match files.iter().find(|file| files::same(file, dossier)) {
        Some(_) => Err(Trouble::failed(
            "the dossier itself would be written over; take another stem",
        )),
        None => Ok(files),
    }
}

pub fn draw(given: &Given, out: &mut dyn Write) -> Result<Status, Trouble> {
    let [job, plan] = [files::paper(given.file(0))?, files::paper(given.file(1))?];
    let job_read = of(&job, library::read_job(&job.bytes))?;
    let plan_read = of(&plan, library::read_plan(&plan.bytes))?;
    let judged = library::judge(&job.bytes, &plan.bytes);
    let words = judged.map_err(|refusal| refusal.told());
    let verdict = words.as_ref().copied().map_err(String::as_str);
    let title = &format!("{} for {}", base(&plan), base(&job));
    let picture = picture(&job_read, &plan_read, &Caption { title, verdict });
    writeln!(out, "drawn{}", kept(given, picture.as_bytes())?)?;
    of(&plan, judged)?;
    Ok(Status::Good)
}

/// The name of a paper's file, without its folders.
fn base(filed: &Filed) -> String {
    named(Path::new(filed.name.file_name().unwrap_or_default()))
}
