//! The rules of docs/RULES.md in plain Rust, written from that document alone.

pub mod attempt;
pub mod plan;
pub mod record;
pub mod verification;

/// A question that was answered no, by its number.
#[derive(Clone, Copy, PartialEq, Eq, Debug)]
#[repr(u8)]
pub enum Question {
    Points = 1,
    Control = 2,
    StopRule = 3,
    NewCut = 4,
    NewCutNumber = 5,
    Rows = 6,
    TableRanges = 7,
    GoingOn = 8,
    NoPointOpen = 9,
    MainSignal = 10,
    MeterError = 11,
    ReferenceError = 12,
    Agreement = 13,
    PointOpen = 14,
    Undecided = 15,
    LegalCode = 16,
    Settling = 17,
    Decided = 18,
    FitsBuffer = 19,
    Ended = 20,
    FieldsInRange = 21,
    KindKnown = 22,
    BytesThere = 23,
    FillZero = 24,
}

#[derive(Clone, Copy, PartialEq, Eq, Debug)]
pub enum Verdict {
    Unfit,
    Fit,
}

impl Verdict {
    pub fn fit_if(fit: bool) -> Verdict {
        if fit { Verdict::Fit } else { Verdict::Unfit }
    }

    pub fn is_fit(self) -> bool {
        self == Verdict::Fit
    }
}

/// `Ok` if the answer is yes, else the question that was answered no.
#[inline]
pub(crate) fn ask(yes: bool, question: Question) -> Result<(), Question> {
    if yes { Ok(()) } else { Err(question) }
}
