//! Verdicts as text of the Test Anything Protocol, version 13: a text read
//! into a range of the book, and a range of the book written as a text.

pub mod line;
pub mod print;
pub mod text;
pub mod why;

use crate::answer::{ensure, Refusal};
use crate::row::{may_begin, request, Asked};
use crate::verdict::{self, Said};
use text::Refused;

/// Why a text wasn't read into the book: by the text itself, or by the store.
#[derive(Clone, Copy, Debug, PartialEq, Eq)]
pub enum Unread {
    Text(Refused),
    Store(Refusal),
}

impl From<Refusal> for Unread {
    fn from(refusal: Refusal) -> Unread {
        Unread::Store(refusal)
    }
}

impl From<Refused> for Unread {
    fn from(refused: Refused) -> Unread {
        Unread::Text(refused)
    }
}

/// Reads a text into the book. The whole of it is read before the first ask;
/// then an id with a line is written, one without is read, each with its draw.
pub fn tap_read(
    bytes: &mut [u8],
    tree: &mut [u8],
    asked: Asked,
    year: u16,
    draws: &[u16],
    text: &[u8],
) -> Result<(), Unread> {
    let shape = may_begin(bytes, tree, asked, draws)?;
    let tests = text::read(text, asked.chapter, asked.length())?;
    for ((id, draw), test) in (asked.first..asked.end).zip(draws).zip(tests) {
        let record = test.and_then(|test| {
            verdict::make(Said {
                verdict: test.verdict,
                chapter: asked.chapter,
                year,
                name: test.name,
            })
        });
        request(bytes, tree, shape, id, *draw, record.as_ref())?;
    }
    Ok(())
}

/// Writes what the book says to the front of `out`; answers how long it is.
pub fn tap_write(
    bytes: &mut [u8],
    tree: &mut [u8],
    asked: Asked,
    draws: &[u16],
    out: &mut [u8],
) -> Result<usize, Refusal> {
    let shape = may_begin(bytes, tree, asked, draws)?;
    let room = print::room(asked.length());
    ensure(out.len() == room, Refusal::BadLength)?;
    let mut text = print::head(asked.length());
    for ((id, draw), number) in (asked.first..asked.end).zip(draws).zip(1..) {
        let found = request(bytes, tree, shape, id, *draw, None)?;
        let said = found.as_ref().and_then(|record| verdict::read(record));
        if let Some(said) = said.filter(|said| said.chapter == asked.chapter) {
            print::line(&mut text, number, said);
        }
    }
    out[..text.len()].copy_from_slice(&text);
    Ok(text.len())
}
