//! A verdict in a record: reading what it says, and making one.

use crate::sizes::RECORD;

pub const LAST_CHAPTER: u8 = 31;
/// Where the name begins; it may go up to the record's end.
pub const NAME_AT: usize = 4;
pub const LONGEST_NAME: usize = RECORD - NAME_AT;

#[derive(Clone, Copy, Debug, PartialEq, Eq)]
pub enum Verdict {
    Pass = 1,
    Fail = 2,
    Skipped = 3,
    Error = 4,
}

impl Verdict {
    pub fn numbered(number: u8) -> Option<Verdict> {
        match number {
            1 => Some(Verdict::Pass),
            2 => Some(Verdict::Fail),
            3 => Some(Verdict::Skipped),
            4 => Some(Verdict::Error),
            _ => None,
        }
    }
}

/// What a record says.
#[derive(Clone, Copy, Debug, PartialEq, Eq)]
pub struct Said<'a> {
    pub verdict: Verdict,
    pub chapter: u8,
    pub year: u16,
    pub name: &'a [u8],
}

/// What a record says, or nothing if it is bad.
pub fn read(record: &[u8]) -> Option<Said<'_>> {
    if record.len() != RECORD {
        return None;
    }
    let (head, rest) = record.split_at(NAME_AT);
    let verdict = Verdict::numbered(head[0])?;
    let length = rest.iter().position(|byte| *byte == 0);
    let (name, padding) = rest.split_at(length.unwrap_or(LONGEST_NAME));
    let good = head[1] <= LAST_CHAPTER && padding.iter().all(|byte| *byte == 0);
    good.then_some(Said {
        verdict,
        chapter: head[1],
        year: u16::from_le_bytes([head[2], head[3]]),
        name,
    })
}

/// The record that says so, or nothing where it couldn't be read back.
pub fn make(said: Said) -> Option<[u8; RECORD]> {
    let fits = said.chapter <= LAST_CHAPTER && said.name.len() <= LONGEST_NAME;
    if !fits || said.name.contains(&0) {
        return None;
    }
    let mut record = [0; RECORD];
    record[0] = said.verdict as u8;
    record[1] = said.chapter;
    record[2..NAME_AT].copy_from_slice(&said.year.to_le_bytes());
    record[NAME_AT..][..said.name.len()].copy_from_slice(said.name);
    Some(record)
}
