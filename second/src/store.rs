//! The entries of the library as a trait, and the second program behind it.

use crate::answer::{Answer, Refusal};
use crate::format::Sizes;
use crate::row::{Asked, Counts};
use crate::sizes::Shape;
use crate::tap::{self, Unread};
use crate::verdict::{Said, Verdict};
use crate::{ask, chacha20, finish, format, row, sha256, sizes, tree, verdict};

/// One side of a comparison. Answers are numbers as in the C interface: a
/// refusal is its number, negative, and a bad verdict is 0.
pub trait Store {
    fn format(&self, desk: &mut [u8], sizes: Sizes, key: &[u8], leaves: &[u16]) -> i32;
    fn ask_read(&self, desk: &mut [u8], id: u16, leaf: u16) -> i32;
    fn ask_write(&self, desk: &mut [u8], id: u16, leaf: u16, record: &[u8]) -> i32;
    fn finish(&self, desk: &mut [u8], path: &mut [u8], record: &mut [u8]) -> i32;
    fn fetch(&self, tree: &[u8], height: u8, slots: u8, leaf: u16, path: &mut [u8]) -> i32;
    fn put(&self, tree: &mut [u8], height: u8, slots: u8, leaf: u16, path: &[u8]) -> i32;
    fn desk_length(&self, ids: u16, stash: u8) -> usize;
    fn path_length(&self, height: u8, slots: u8) -> usize;
    fn tree_length(&self, height: u8, slots: u8) -> usize;
    fn sha256(&self, message: &[u8], out: &mut [u8; 32]);
    fn chacha20(&self, key: &[u8; 32], nonce: &[u8; 12], text: &mut [u8]);
    /// What is said: chapter, suite year and length of the name.
    fn verdict_read(&self, record: &[u8], said: &mut [u16; 3]) -> i32;
    fn verdict_make(
        &self,
        record: &mut [u8],
        verdict: u8,
        chapter: u8,
        year: u16,
        name: &[u8],
    ) -> i32;
    fn row(
        &self,
        desk: &mut [u8],
        tree: &mut [u8],
        asked: Asked,
        draws: &[u16],
        counts: &mut Counts,
    ) -> i32;
    fn tap_room(&self, count: u16) -> usize;
    fn tap_read(
        &self,
        desk: &mut [u8],
        tree: &mut [u8],
        sheet: Sheet,
        draws: &[u16],
        text: &[u8],
        line: &mut [u64; 1],
    ) -> i32;
    fn tap_write(
        &self,
        desk: &mut [u8],
        tree: &mut [u8],
        asked: Asked,
        draws: &[u16],
        out: &mut [u8],
    ) -> i32;
}

/// What a text is read into: a row, and the suite year of its verdicts.
#[derive(Clone, Copy, Debug, PartialEq, Eq)]
pub struct Sheet {
    pub asked: Asked,
    pub year: u16,
}

pub const COMPLETE: i32 = 1;
pub const INCOMPLETE: i32 = 2;

/// The second program.
pub struct Second;

fn done(result: Result<(), Refusal>) -> i32 {
    result.map_or_else(Refusal::answer, |()| 0)
}

fn leaf(result: Result<u16, Refusal>) -> i32 {
    result.map_or_else(Refusal::answer, i32::from)
}

fn finished(result: Result<Answer, Refusal>) -> i32 {
    result.map_or_else(Refusal::answer, |answer| answer as i32)
}

impl Store for Second {
    fn format(&self, desk: &mut [u8], sizes: Sizes, key: &[u8], leaves: &[u16]) -> i32 {
        done(format::format(desk, sizes, key, leaves))
    }

    fn ask_read(&self, desk: &mut [u8], id: u16, draw: u16) -> i32 {
        leaf(ask::ask_read(desk, id, draw))
    }

    fn ask_write(&self, desk: &mut [u8], id: u16, draw: u16, record: &[u8]) -> i32 {
        leaf(ask::ask_write(desk, id, draw, record))
    }

    fn finish(&self, desk: &mut [u8], path: &mut [u8], record: &mut [u8]) -> i32 {
        finished(finish::finish(desk, path, record))
    }

    fn fetch(&self, tree: &[u8], height: u8, slots: u8, leaf: u16, path: &mut [u8]) -> i32 {
        done(tree::fetch(tree, height, slots, leaf, path))
    }

    fn put(&self, tree: &mut [u8], height: u8, slots: u8, leaf: u16, path: &[u8]) -> i32 {
        done(tree::put(tree, height, slots, leaf, path))
    }

    fn desk_length(&self, ids: u16, stash: u8) -> usize {
        sizes::desk_length(ids, stash).unwrap_or(0)
    }

    fn path_length(&self, height: u8, slots: u8) -> usize {
        Shape::new(height, slots).map_or(0, Shape::path_length)
    }

    fn tree_length(&self, height: u8, slots: u8) -> usize {
        Shape::new(height, slots).map_or(0, Shape::tree_length)
    }

    fn sha256(&self, message: &[u8], out: &mut [u8; 32]) {
        *out = sha256::sha256(message);
    }

    fn chacha20(&self, key: &[u8; 32], nonce: &[u8; 12], text: &mut [u8]) {
        chacha20::chacha20(key, nonce, 0, text);
    }

    fn verdict_read(&self, record: &[u8], said: &mut [u16; 3]) -> i32 {
        let Some(read) = verdict::read(record) else {
            return 0;
        };
        *said = [u16::from(read.chapter), read.year, read.name.len() as u16];
        read.verdict as i32
    }

    fn verdict_make(
        &self,
        record: &mut [u8],
        verdict: u8,
        chapter: u8,
        year: u16,
        name: &[u8],
    ) -> i32 {
        let made = Verdict::numbered(verdict).and_then(|verdict| {
            verdict::make(Said {
                verdict,
                chapter,
                year,
                name,
            })
        });
        match made {
            Some(made) if record.len() == made.len() => {
                record.copy_from_slice(&made);
                i32::from(verdict)
            }
            _ => 0,
        }
    }

    fn row(
        &self,
        desk: &mut [u8],
        tree: &mut [u8],
        asked: Asked,
        draws: &[u16],
        counts: &mut Counts,
    ) -> i32 {
        match row::row(desk, tree, asked, draws) {
            Ok(found) => {
                *counts = found;
                match asked.is_complete(&found) {
                    true => COMPLETE,
                    false => INCOMPLETE,
                }
            }
            Err(refusal) => refusal.answer(),
        }
    }

    fn tap_room(&self, count: u16) -> usize {
        tap::print::room(count)
    }

    fn tap_read(
        &self,
        desk: &mut [u8],
        tree: &mut [u8],
        sheet: Sheet,
        draws: &[u16],
        text: &[u8],
        line: &mut [u64; 1],
    ) -> i32 {
        match tap::tap_read(desk, tree, sheet.asked, sheet.year, draws, text) {
            Ok(()) => 0,
            Err(Unread::Store(refusal)) => refusal.answer(),
            Err(Unread::Text(refused)) => {
                *line = [refused.line];
                refused.why.refusal().answer()
            }
        }
    }

    fn tap_write(
        &self,
        desk: &mut [u8],
        tree: &mut [u8],
        asked: Asked,
        draws: &[u16],
        out: &mut [u8],
    ) -> i32 {
        match tap::tap_write(desk, tree, asked, draws, out) {
            Ok(length) => length as i32,
            Err(refusal) => refusal.answer(),
        }
    }
}
