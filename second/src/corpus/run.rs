//! The commands over stored texts and stored records.

use super::book::Book;
use super::{bytes, lists, texts, List, Outcome, Sample, CHAPTER, YEAR};
use crate::random::Random;
use crate::row::Asked;
use crate::store::Sheet;
use crate::verdict::{make, Said, Verdict};
use std::fs;
use std::path::Path;

/// Ids below and above the range, which no text may touch.
const BESIDE: u16 = 2;

/// Counts what passed and what failed, and tells of the latter.
#[derive(Default)]
struct Sum {
    passed: u32,
    failed: u32,
}

impl Sum {
    fn add(&mut self, name: &str, result: Result<(), String>) {
        match result {
            Ok(()) => self.passed += 1,
            Err(what) => {
                self.failed += 1;
                println!("failed: {name}: {what}");
            }
        }
    }

    fn told(&self) -> u8 {
        println!("{} passed, {} failed", self.passed, self.failed);
        u8::from(self.failed > 0 || self.passed == 0)
    }
}

/// Reads every text into a store and looks at each record after it; writes
/// what was read and reads that again.
pub fn texts_command(folder: &Path) -> Result<u8, String> {
    let mut sum = Sum::default();
    for sample in texts(folder)? {
        sum.add(&sample.name, read_in(&sample));
        if let Outcome::Read(_) = sample.expected {
            let name = format!("{}, written and read again", sample.name);
            sum.add(&name, written_and_read(&sample));
        }
    }
    Ok(sum.told())
}

/// Writes the text of every list of records: into its file if `make`, else to
/// be compared with it.
pub fn written_command(folder: &Path, make: bool) -> Result<u8, String> {
    let mut sum = Sum::default();
    for list in lists(folder)? {
        let text = text_of(&list);
        let stored = match make {
            true => fs::write(&list.text, &text).map_err(|error| error.to_string()),
            false => bytes(&list.text).and_then(|stored| same(&text, &stored)),
        };
        sum.add(&list.name, stored);
    }
    Ok(sum.told())
}

fn sheet(count: u16) -> Sheet {
    let first = 1 + BESIDE;
    Sheet {
        asked: Asked {
            chapter: CHAPTER,
            first,
            end: first + count,
        },
        year: YEAR,
    }
}

/// A record that stood there before a text was read.
fn before(id: u16) -> Option<[u8; 64]> {
    (!id.is_multiple_of(3)).then(|| said(Verdict::Fail, YEAR - 1, b"before"))
}

fn said(verdict: Verdict, year: u16, name: &[u8]) -> [u8; 64] {
    let chapter = CHAPTER;
    make(Said {
        verdict,
        chapter,
        year,
        name,
    })
    .expect("a name that fits")
}

fn ids(count: u16) -> u16 {
    count + 2 * BESIDE
}

/// A store with something in it, and a text read into it.
fn prepared(random: &mut Random, count: u16) -> Book {
    let mut book = Book::new(random, ids(count));
    for id in 1..=ids(count) {
        if let Some(record) = before(id) {
            book.ask(random, id, Some(&record));
        }
    }
    book
}

fn read_in(sample: &Sample) -> Result<(), String> {
    let random = &mut Random::new(sample.text.len() as u64);
    let mut book = prepared(random, sample.count);
    let untouched = book.clone();
    let sheet = sheet(sample.count);
    let answered = book.tap_read(random, sheet, &sample.text);
    match &sample.expected {
        Outcome::Refused(number, line) => {
            expect("answer and line", &(-i32::from(*number), *line), &answered)?;
            match book == untouched {
                true => Ok(()),
                false => Err("a refusal that changed something".into()),
            }
        }
        Outcome::Read(tests) => {
            expect("answer and line", &(0, u64::MAX), &answered)?;
            for id in 1..=ids(sample.count) {
                let place = id.checked_sub(sheet.asked.first).map(usize::from);
                let test = place.and_then(|place| tests.get(place)?.as_ref());
                let expected = match test {
                    Some((verdict, name)) => Some(said(*verdict, YEAR, name)),
                    None => before(id),
                };
                let found = book.ask(random, id, None);
                expect(&format!("the record of id {id}"), &expected, &found)?;
            }
            Ok(())
        }
    }
}

fn written_and_read(sample: &Sample) -> Result<(), String> {
    let random = &mut Random::new(sample.text.len() as u64);
    let sheet = sheet(sample.count);
    let mut book = Book::new(random, ids(sample.count));
    let refused = |answer| format!("answer {answer}");
    expect(
        "the answer",
        &0,
        &book.tap_read(random, sheet, &sample.text).0,
    )?;
    let text = book.tap_write(random, sheet.asked).map_err(refused)?;
    let again = super::outcome(&text, sample.count);
    expect("what the written text says", &sample.expected, &again)
}

fn text_of(list: &List) -> Vec<u8> {
    let random = &mut Random::new(list.slots.len() as u64);
    let count = list.slots.len() as u16;
    let mut book = Book::new(random, ids(count));
    let asked = sheet(count).asked;
    for (id, slot) in (asked.first..asked.end).zip(&list.slots) {
        if let Some(record) = slot {
            book.ask(random, id, Some(record));
        }
    }
    book.tap_write(random, asked).unwrap_or_default()
}

fn expect<T: PartialEq + std::fmt::Debug>(
    what: &str,
    expected: &T,
    found: &T,
) -> Result<(), String> {
    match expected == found {
        true => Ok(()),
        false => Err(format!("{what} is {found:?}, expected {expected:?}")),
    }
}

fn same(text: &[u8], stored: &[u8]) -> Result<(), String> {
    match text == stored {
        true => Ok(()),
        false => Err("another text than the stored one".into()),
    }
}
