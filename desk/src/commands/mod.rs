//! The commands: what each is called, what it wants, and what it does.

mod checking;
mod keeping;
mod planning;
mod sheets;

use crate::trouble::{Status, Trouble};
use crate::words::Given;
use std::io::Write;
use std::ops::RangeInclusive;

/// Whether a command writes a file.
#[derive(Clone, Copy, PartialEq, Eq)]
pub enum Output {
    No,
    May,
    Must,
}

type Run = fn(&Given, &mut dyn Write) -> Result<Status, Trouble>;

pub struct Command {
    pub name: &'static str,
    /// The words behind the name.
    pub usage: &'static str,
    /// How many words there may be, options apart.
    pub words: RangeInclusive<usize>,
    pub output: Output,
    /// Whether --budget and --names are known.
    pub budget: bool,
    pub names: bool,
    /// What it does, in a line and in full.
    pub brief: &'static str,
    pub help: &'static str,
    pub run: Run,
}

/// A command without options.
const PLAIN: Command = Command {
    name: "",
    usage: "",
    words: 1..=1,
    output: Output::No,
    budget: false,
    names: false,
    brief: "",
    help: "",
    run: |_, _| Ok(Status::Good),
};

pub const COMMANDS: [Command; 11] = [
    Command {
        name: "check",
        usage: "[--names] DOSSIER..",
        words: 1..=usize::MAX,
        names: true,
        brief: "check dossiers, a line for each",
        help: "\
Checks each dossier and writes a line for it: `cheapest` and the cost, `none`, or
`refused`, the paper (0 job, 1 plan, 2 note, 3 dossier) and the number. Where several
are checked the file's name stands in front, and with --names always. What a
refusal means follows on standard error. Status 0: all are cheapest or none.
Status 1: something was refused. Status 2: something could not be read.",
        run: checking::check,
        ..PLAIN
    },
    Command {
        name: "judge",
        usage: "JOB PLAN",
        words: 2..=2,
        brief: "judge a plan against its job",
        help: "\
Says `passed` and the cost where the plan meets every rule, or which number it is
refused by and what that means. Status 0: passed. Status 1: refused.",
        run: planning::judge,
        ..PLAIN
    },
    Command {
        name: "search",
        usage: "JOB [--budget N] [-o PLAN]",
        output: Output::May,
        budget: true,
        brief: "search for the cheapest plan",
        help: "\
Searches for the first of the cheapest plans. Says `found`, the cost and the visits;
`none` where no plan meets the rules; or `spent` where the walk needs more visits
than the budget. That is 4294967295 unless another is given, and so many may take
some minutes. With -o the plan found is written. Status 0: found. Status 1: none,
spent or refused.",
        run: planning::search,
        ..PLAIN
    },
    Command {
        name: "note",
        usage: "JOB [PLAN] [-o NOTE]",
        words: 1..=2,
        output: Output::May,
        brief: "write the closing note of a cheapest plan, or of none",
        help: "\
Writes the house note: that no plan is cheaper than this one or, without a plan,
that no plan meets the rules. Refused by 44 where that is not so, and by 22 where
60,000 bytes are full, whichever comes first. Status 0: written. Status 1: refused.",
        run: planning::note,
        ..PLAIN
    },
    Command {
        name: "slide",
        usage: "JOB PLAN DISTANCE [-o PLAN]",
        words: 3..=3,
        output: Output::May,
        brief: "move every start of a plan by some steps",
        help: "\
Adds the distance, from -31 to 31, to every start of a plan that passes. What is
written passes too, at the same cost. Status 0: written. Status 1: refused.",
        run: planning::slide,
        ..PLAIN
    },
    Command {
        name: "tidy",
        usage: "JOB PLAN [-o PLAN]",
        words: 2..=2,
        output: Output::May,
        brief: "put a plan's selection in order",
        help: "\
Moves each type's selected instances to its last numbers, their order kept, and
the rows follow. The plan may break selection order (11) and no other rule. Cost
and starts stay. Status 0: written. Status 1: refused.",
        run: planning::tidy,
        ..PLAIN
    },
    Command {
        name: "pack",
        usage: "JOB [PLAN] NOTE -o DOSSIER",
        words: 2..=3,
        output: Output::Must,
        brief: "file job, plan and note in a dossier",
        help: "\
Puts the papers into one dossier, as they are: whether they hold is for `check`
to say. Where two are named they are job and note, and the dossier has no plan.
Status 0: written. Status 1: it would be too long.",
        run: sheets::pack,
        ..PLAIN
    },
    Command {
        name: "unpack",
        usage: "DOSSIER -o STEM",
        output: Output::Must,
        brief: "take a dossier's papers apart",
        help: "\
Writes the papers to STEM.job, STEM.plan and STEM.note, as they are; one that has
no bytes is left out. Status 0: written. Status 1: the dossier's own header is
refused.",
        run: sheets::unpack,
        ..PLAIN
    },
    Command {
        name: "show",
        usage: "FILE",
        brief: "show a job, plan, note or dossier in words",
        help: "\
Shows any sheet in words, by the form that it begins with. A job or a plan is
shown as the text that `make` takes. A note by itself is shown as its marks, an
accepted one in a dossier as its tree, and of either no more than 200 lines. What
a dossier is answered stands at its head. Status 0: shown. Status 1: the sheet is
not sound.",
        run: sheets::show,
        ..PLAIN
    },
    Command {
        name: "make",
        usage: "TEXT -o FILE",
        output: Output::Must,
        brief: "make a job or plan sheet from text",
        help: "\
Reads a job or a plan as text, a line for each thing as `show` has them, and writes
its sheet. Words are parted by spaces or commas; what follows a # counts for nothing.
Status 0: written. Status 1: the numbers are refused. Status 2: the text cannot be
understood.",
        run: sheets::make,
        ..PLAIN
    },
    Command {
        name: "draw",
        usage: "JOB PLAN -o PICTURE.svg",
        words: 2..=2,
        output: Output::Must,
        brief: "draw a plan as a picture",
        help: "\
Draws the plan: steps across, instances down, a bar for each operation. One that
is refused is drawn too, as far as it goes, with the reason above. Status 0: the
plan passes. Status 1: it is refused, or a sheet is not sound and nothing is drawn.",
        run: sheets::draw,
        ..PLAIN
    },
];

/// The help of a command.
pub fn help(command: &Command) -> String {
    let Command {
        name, usage, help, ..
    } = command;
    format!("./tolmupung {name} {usage}\n\n{help}\n")
}

/// The help of the whole.
pub fn overview() -> String {
    let line = |command: &Command| format!("  {:<8}{}\n", command.name, command.brief);
    let lines: String = COMMANDS.iter().map(line).collect();
    format!(
        "./tolmupung COMMAND .. asks the proved library about jobs, plans, notes and dossiers.\n\n\
         {lines}\n\
         ./tolmupung COMMAND --help says what a command wants, gives and writes.\n\
         After -- every word is a file's name; standard input is the file /dev/stdin.\n\
         Status 0: done, and nothing was refused. Status 1: refused, or nothing was found.\n\
         Status 2: could not be read, written or understood, and standard error says why.\n"
    )
}
