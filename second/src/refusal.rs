//! Refusals: a number and the paper at fault. The search's two other outcomes without a plan have them too.

#[derive(Clone, Copy, Debug, PartialEq, Eq)]
pub enum Fault {
    BitsRunOut = 1,
    FormDiffers = 2,
    OutsideLimit = 3,
    LinkRule = 4,
    TypeRule = 5,
    Fill = 6,
    Record = 7,
    CountsDiffer = 10,
    SelectionOrder = 11,
    RowInstance = 12,
    RowKind = 13,
    RowUnselected = 14,
    RowStep = 15,
    Precedence = 16,
    Resource = 17,
    Chain = 18,
    DistanceFar = 20,
    MovedOut = 21,
    OutputTooShort = 22,
    BudgetSpent = 30,
    NoPlan = 31,
    NoteLong = 40,
    VerdictDiffers = 41,
    SplitBroken = 42,
    CloseBroken = 43,
    Cheaper = 44,
    LengthsDiffer = 50,
    DossierLong = 51,
}

#[derive(Clone, Copy, Debug, PartialEq, Eq)]
pub enum Paper {
    Job = 0,
    Plan = 1,
    Note = 2,
    Dossier = 3,
    Request = 4,
}

#[derive(Clone, Copy, Debug, PartialEq, Eq)]
pub struct Refusal {
    pub fault: Fault,
    pub paper: Paper,
}

impl Refusal {
    pub const OUTPUT_TOO_SHORT: Refusal = Refusal {
        fault: Fault::OutputTooShort,
        paper: Paper::Request,
    };

    pub const BUDGET_SPENT: Refusal = Refusal {
        fault: Fault::BudgetSpent,
        paper: Paper::Request,
    };

    pub const NO_PLAN: Refusal = Refusal {
        fault: Fault::NoPlan,
        paper: Paper::Job,
    };

    pub const DISTANCE_FAR: Refusal = Refusal {
        fault: Fault::DistanceFar,
        paper: Paper::Request,
    };

    pub fn of_plan(fault: Fault) -> Refusal {
        let paper = Paper::Plan;
        Refusal { fault, paper }
    }

    pub fn of_note(fault: Fault) -> Refusal {
        let paper = Paper::Note;
        Refusal { fault, paper }
    }

    pub fn of_dossier(fault: Fault) -> Refusal {
        let paper = Paper::Dossier;
        Refusal { fault, paper }
    }

    pub fn number(&self) -> u32 {
        self.fault as u32
    }

    pub fn meaning(&self) -> &'static str {
        match self.fault {
            Fault::BitsRunOut => "bits run out",
            Fault::FormDiffers => "form differs",
            Fault::OutsideLimit => "N, E, M, K or clock outside its limit",
            Fault::LinkRule => "link breaks its rule",
            Fault::TypeRule => "type breaks its rule, or copies so far exceed 16",
            Fault::Fill => "fill not zero, or bytes follow",
            Fault::Record => "a number too wide for its field, or an unused cell not zero",
            Fault::CountsDiffer => "plan's N or K differs from the job's",
            Fault::SelectionOrder => {
                "selection order: within a type a selected instance precedes an unselected one"
            }
            Fault::RowInstance => "row: instance not below K",
            Fault::RowKind => "row: instance not able to do the kind",
            Fault::RowUnselected => "row: instance not selected",
            Fault::RowStep => "row: start below 1, or start + delay - 1 above T",
            Fault::Precedence => {
                "precedence: for a link (a, b), b's start is below a's start + a's delay, \
                 and it is not so that both starts are equal and both delays are 1"
            }
            Fault::Resource => {
                "resource: two operations on one instance have equal starts, or the later start \
                 exceeds the earlier by less than the spacing of the earlier operation"
            }
            Fault::Chain => {
                "chain: for operations joined by successive links and all started in one step, \
                 the times plus one wire for each link total more than the clock"
            }
            Fault::DistanceFar => "slide distance outside -31 to 31",
            Fault::MovedOut => "a moved start below 1, or its finish above T",
            Fault::OutputTooShort => "output too short",
            Fault::BudgetSpent => "visits exceed the budget",
            Fault::NoPlan => "no plan meets the rules",
            Fault::NoteLong => "note over 60,000 bytes",
            Fault::VerdictDiffers => "verdict 1 without a plan, or 0 with one",
            Fault::SplitBroken => {
                "split on a number not below N, or on an operation already placed"
            }
            Fault::CloseBroken => "bit 0 not allowed: the cost is below the claim, or verdict 0",
            Fault::Cheaper => "all placed and cheaper than the claim, or verdict 0",
            Fault::LengthsDiffer => "lengths do not total the dossier",
            Fault::DossierLong => "dossier over 65,536 bytes",
        }
    }
}
