//! A row of the matrix: the verdicts of one chapter over a range of ids, read
//! through the store and added up.

use crate::answer::{ensure, Answer, Refusal};
use crate::ask::{ask_read, ask_write};
use crate::desk::Desk;
use crate::finish::finish;
use crate::good::is_good;
use crate::sizes::{Shape, RECORD};
use crate::tree::{fetch, put};
use crate::verdict::{self, Verdict};

/// What is counted, as places in the counts.
pub const PASSED: usize = 0;
pub const FAILED: usize = 1;
pub const SKIPPED: usize = 2;
pub const ERRORS: usize = 3;
pub const BAD: usize = 4;
pub const NOT_RUN: usize = 5;
pub type Counts = [u16; 6];

/// Which row: a chapter, and the ids from `first` up to, not including, `end`.
#[derive(Clone, Copy, Debug, PartialEq, Eq)]
pub struct Asked {
    pub chapter: u8,
    pub first: u16,
    pub end: u16,
}

impl Asked {
    /// The number of ids, of a range that isn't backward.
    pub fn length(self) -> u16 {
        self.end - self.first
    }

    /// Whether every id of the range has passed.
    pub fn is_complete(self, counts: &Counts) -> bool {
        counts[PASSED] == self.length()
    }
}

/// Adds up a row. The desk and the tree keep what was done before a refusal.
pub fn row(
    bytes: &mut [u8],
    tree: &mut [u8],
    asked: Asked,
    draws: &[u16],
) -> Result<Counts, Refusal> {
    let shape = may_begin(bytes, tree, asked, draws)?;
    let mut counts = Counts::default();
    for (id, draw) in (asked.first..asked.end).zip(draws) {
        let found = request(bytes, tree, shape, id, *draw, None)?;
        counts[column(asked.chapter, found)] += 1;
    }
    Ok(counts)
}

/// The refusals that come before any ask.
pub fn may_begin(bytes: &[u8], tree: &[u8], asked: Asked, draws: &[u16]) -> Result<Shape, Refusal> {
    ensure(is_good(bytes), Refusal::BadDesk)?;
    let desk = Desk(bytes);
    let inside = asked.first >= 1 && asked.end <= desk.ids() + 1;
    ensure(inside && asked.first < asked.end, Refusal::BadId)?;
    let one_each = draws.len() == usize::from(asked.length());
    ensure(one_each, Refusal::BadLength)?;
    let shape = desk.shape();
    ensure(tree.len() == shape.tree_length(), Refusal::BadLength)?;
    Ok(shape)
}

/// One whole request, a write if there is a record to be written: the record
/// that was read, or nothing.
pub fn request(
    bytes: &mut [u8],
    tree: &mut [u8],
    shape: Shape,
    id: u16,
    draw: u16,
    written: Option<&[u8; RECORD]>,
) -> Result<Option<[u8; RECORD]>, Refusal> {
    let Shape { height, slots } = shape;
    let leaf = match written {
        Some(record) => ask_write(bytes, id, draw, record)?,
        None => ask_read(bytes, id, draw)?,
    };
    let mut path = vec![0; shape.path_length()];
    fetch(tree, height, slots, leaf, &mut path)?;
    let mut record = [0; RECORD];
    let answer = finish(bytes, &mut path, &mut record)?;
    put(tree, height, slots, leaf, &path)?;
    Ok((answer == Answer::Record).then_some(record))
}

fn column(chapter: u8, found: Option<[u8; RECORD]>) -> usize {
    let Some(record) = found else {
        return NOT_RUN;
    };
    let said = verdict::read(&record).filter(|said| said.chapter == chapter);
    match said.map(|said| said.verdict) {
        Some(Verdict::Pass) => PASSED,
        Some(Verdict::Fail) => FAILED,
        Some(Verdict::Skipped) => SKIPPED,
        Some(Verdict::Error) => ERRORS,
        None => BAD,
    }
}
