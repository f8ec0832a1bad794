//! What a text is read as, and the form in which that is stored and printed:
//! `range N`, then `refused R line K`, or a line for each number, `K -` or
//! `K KIND NAME` with the bytes of the name as they are.

use crate::tap::text;
use crate::verdict::Verdict;
use std::str::FromStr;

#[derive(Clone, Debug, PartialEq, Eq)]
pub enum Outcome {
    /// The refusal's number, and the line that decided.
    Refused(u8, u64),
    /// Verdict and name for each number; nothing where there is no line.
    Read(Vec<Option<(Verdict, Vec<u8>)>>),
}

const KINDS: [(&str, Verdict); 4] = [
    ("pass", Verdict::Pass),
    ("fail", Verdict::Fail),
    ("skipped", Verdict::Skipped),
    ("error", Verdict::Error),
];

/// The verdict of this name.
pub fn kind(word: &[u8]) -> Option<Verdict> {
    let found = KINDS.iter().find(|(name, _)| name.as_bytes() == word);
    found.map(|(_, verdict)| *verdict)
}

fn kind_name(verdict: Verdict) -> &'static str {
    KINDS[verdict as usize - 1].0
}

/// What the second program reads a text as, with no store behind it.
pub fn outcome(text: &[u8], count: u16) -> Outcome {
    match text::read(text, super::CHAPTER, count) {
        Err(refused) => Outcome::Refused(refused.why.refusal() as u8, refused.line),
        Ok(tests) => {
            let owned = tests.into_iter();
            Outcome::Read(
                owned
                    .map(|test| test.map(|test| (test.verdict, test.name.to_vec())))
                    .collect(),
            )
        }
    }
}

impl Outcome {
    /// The stored form.
    pub fn told(&self, count: u16) -> Vec<u8> {
        let mut told = format!("range {count}\n").into_bytes();
        match self {
            Outcome::Refused(number, line) => {
                told.extend(format!("refused {number} line {line}\n").bytes());
            }
            Outcome::Read(tests) => {
                for (test, number) in tests.iter().zip(1..) {
                    told.extend(one_told(number, test.as_ref()));
                }
            }
        }
        told
    }
}

fn one_told(number: u16, test: Option<&(Verdict, Vec<u8>)>) -> Vec<u8> {
    let Some((verdict, name)) = test else {
        return format!("{number} -\n").into_bytes();
    };
    let mut told = format!("{number} {}", kind_name(*verdict)).into_bytes();
    if !name.is_empty() {
        told.push(b' ');
        told.extend(name);
    }
    told.push(b'\n');
    told
}

/// Reads the stored form: how long the range is, and what is expected.
pub fn read(stored: &[u8]) -> Option<(u16, Outcome)> {
    let mut lines = lines(stored)?;
    let count = number(lines.next()?.strip_prefix(b"range ")?)?;
    let rest: Vec<&[u8]> = lines.collect();
    if let [only] = rest[..] {
        if let Some(refused) = only.strip_prefix(b"refused ") {
            let (refusal, line) = cut(refused, b' ')?;
            let line = number(line.strip_prefix(b"line ")?)?;
            return Some((count, Outcome::Refused(number(refusal)?, line)));
        }
    }
    let tests: Option<Vec<_>> = rest.iter().zip(1..).map(|(line, k)| one(line, k)).collect();
    let tests = tests?;
    (tests.len() == usize::from(count)).then_some((count, Outcome::Read(tests)))
}

fn one(line: &[u8], expected: u16) -> Option<Option<(Verdict, Vec<u8>)>> {
    let (found, said) = cut(line, b' ')?;
    if number::<u16>(found)? != expected {
        return None;
    }
    if said == b"-" {
        return Some(None);
    }
    let (word, name) = cut(said, b' ').unwrap_or((said, b""));
    Some(Some((kind(word)?, name.to_vec())))
}

/// The lines of a stored file, each of which ends.
pub fn lines(stored: &[u8]) -> Option<impl Iterator<Item = &[u8]>> {
    let all = stored.strip_suffix(b"\n")?;
    Some(all.split(|byte| *byte == b'\n'))
}

/// What stands before and behind the first of these bytes.
pub fn cut(bytes: &[u8], at: u8) -> Option<(&[u8], &[u8])> {
    let place = bytes.iter().position(|byte| *byte == at)?;
    Some((&bytes[..place], &bytes[place + 1..]))
}

pub fn number<T: FromStr>(digits: &[u8]) -> Option<T> {
    std::str::from_utf8(digits).ok()?.parse().ok()
}
