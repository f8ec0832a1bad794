//! Stored lists of records: `range N`, then a line for each number: `K -` for
//! Never, `K bad` for a record that is no verdict, `K other NAME` for a pass
//! of another chapter, or `K KIND NAME`. In a name `\n` is a line feed, `\\`
//! a backslash and `\s` a space, for those at an end.

use super::outcome::{cut, kind, lines, number};
use super::{CHAPTER, YEAR};
use crate::verdict::{make, Said, Verdict};

/// What the range holds.
pub fn slots(stored: &[u8]) -> Option<Vec<Option<[u8; 64]>>> {
    let mut lines = lines(stored)?;
    let count: usize = number(lines.next()?.strip_prefix(b"range ")?)?;
    let slots: Option<Vec<_>> = lines.zip(1..).map(|(line, k)| slot(line, k)).collect();
    slots.filter(|slots| slots.len() == count)
}

fn slot(line: &[u8], expected: usize) -> Option<Option<[u8; 64]>> {
    let (found, held) = cut(line, b' ')?;
    if number::<usize>(found)? != expected {
        return None;
    }
    let (word, name) = cut(held, b' ').unwrap_or((held, b""));
    let (verdict, chapter) = match word {
        b"-" => return Some(None),
        b"bad" => return Some(Some([0; 64])),
        b"other" => (Verdict::Pass, CHAPTER + 1),
        _ => (kind(word)?, CHAPTER),
    };
    let name = &unescaped(name)?;
    let year = YEAR;
    let record = make(Said {
        verdict,
        chapter,
        year,
        name,
    })?;
    Some(Some(record))
}

fn unescaped(stored: &[u8]) -> Option<Vec<u8>> {
    let mut name = Vec::new();
    let mut bytes = stored.iter();
    while let Some(byte) = bytes.next() {
        name.push(match byte {
            b'\\' => match bytes.next()? {
                b'n' => b'\n',
                b's' => b' ',
                b'\\' => b'\\',
                _ => return None,
            },
            _ => *byte,
        });
    }
    Some(name)
}
