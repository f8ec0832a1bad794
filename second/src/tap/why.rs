//! Why a text is refused. Each reason has its refusal.

use crate::answer::Refusal;
use crate::named;

named! {
    /// What is wrong with the line that decides.
    Why {
        NoVersion = "Malformed: no line at all",
        OtherVersion = "Malformed: the first line isn't the version",
        Unknown = "Malformed: a line of no sort",
        NoNumber = "Malformed: a test line without its number",
        Glued = "Malformed: no space behind the number",
        LongName = "Malformed: a description above 60 bytes",
        ZeroInName = "Malformed: a description with a zero byte",
        HighChapter = "Malformed: a test line in a chapter above 31",
        NoCount = "Malformed: a plan without its number",
        BehindPlan = "Malformed: more than spaces behind a plan",
        SecondPlan = "Malformed: a second plan",
        NoPlan = "Malformed: no plan at all",
        OtherCount = "BadPlan: a plan of another length",
        NumberZero = "BadPlan: number 0",
        NumberAbove = "BadPlan: a number above the range",
        Repeated = "BadPlan: a number that came before",
    }
}

impl Why {
    pub fn refusal(self) -> Refusal {
        match self {
            Why::OtherCount | Why::NumberZero | Why::NumberAbove | Why::Repeated => {
                Refusal::BadPlan
            }
            _ => Refusal::Malformed,
        }
    }
}
