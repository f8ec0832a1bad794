//! Answers and refusals, with the numbers of the paper.

/// What a finish answers.
#[derive(Clone, Copy, Debug, PartialEq, Eq)]
pub enum Answer {
    Record = 1,
    Never = 2,
    Done = 3,
}

#[derive(Clone, Copy, Debug, PartialEq, Eq)]
pub enum Refusal {
    BadDesk = 1,
    Stopped = 2,
    Open = 3,
    NotOpen = 4,
    BadId = 5,
    BadLeaf = 6,
    BadLength = 7,
    BadSize = 8,
    Forged = 9,
    Worn = 10,
    Full = 11,
    Malformed = 12,
    BadPlan = 13,
}

impl Refusal {
    /// The number as an entry of the library answers it.
    pub fn answer(self) -> i32 {
        -(self as i32)
    }
}

/// Refuses unless `holds`; lets an entry list its refusals in their order.
pub fn ensure(holds: bool, refusal: Refusal) -> Result<(), Refusal> {
    if holds {
        Ok(())
    } else {
        Err(refusal)
    }
}
