//! A whole text: what it says of each number of a range, or the line that it
//! is refused at.

use super::line::{self, Line, Test};
use super::why::Why;
use crate::verdict::LAST_CHAPTER;

/// A refused text, with the line that decided, counted from 1.
#[derive(Clone, Copy, Debug, PartialEq, Eq)]
pub struct Refused {
    pub why: Why,
    pub line: u64,
}

/// What a text says of the numbers 1 to `count`, from the first on; nothing
/// where it has no line.
pub fn read(text: &[u8], chapter: u8, count: u16) -> Result<Vec<Option<Test<'_>>>, Refused> {
    let mut page = Page {
        chapter,
        planned: false,
        tests: vec![None; usize::from(count)],
    };
    let mut lines = 0;
    for line in text.split_inclusive(|byte| *byte == b'\n') {
        lines += 1;
        let line = line.strip_suffix(b"\n").unwrap_or(line);
        let taken = match lines {
            1 => version(line),
            _ => page.take(line),
        };
        taken.map_err(|why| Refused { why, line: lines })?;
    }
    let missing = match lines {
        0 => Some(Why::NoVersion),
        _ if !page.planned => Some(Why::NoPlan),
        _ => None,
    };
    match missing {
        Some(why) => Err(Refused {
            why,
            line: lines + 1,
        }),
        None => Ok(page.tests),
    }
}

fn version(line: &[u8]) -> Result<(), Why> {
    match line == line::VERSION {
        true => Ok(()),
        false => Err(Why::OtherVersion),
    }
}

/// What was read so far.
struct Page<'a> {
    chapter: u8,
    planned: bool,
    tests: Vec<Option<Test<'a>>>,
}

impl<'a> Page<'a> {
    /// Takes a line behind the version.
    fn take(&mut self, line: &'a [u8]) -> Result<(), Why> {
        match line::read(line)? {
            Line::Comment => Ok(()),
            Line::Plan(_) if self.planned => Err(Why::SecondPlan),
            Line::Plan(count) if count != self.tests.len() as u64 => Err(Why::OtherCount),
            Line::Plan(_) => {
                self.planned = true;
                Ok(())
            }
            Line::Test(..) if self.chapter > LAST_CHAPTER => Err(Why::HighChapter),
            Line::Test(number, test) => self.put(number, test),
        }
    }

    fn put(&mut self, number: u64, test: Test<'a>) -> Result<(), Why> {
        let place = number.checked_sub(1).ok_or(Why::NumberZero)?;
        let place = usize::try_from(place).map_err(|_| Why::NumberAbove)?;
        let slot = self.tests.get_mut(place).ok_or(Why::NumberAbove)?;
        if slot.is_some() {
            return Err(Why::Repeated);
        }
        *slot = Some(test);
        Ok(())
    }
}
