//! What one line of a text says, looked at by itself.

use super::why::Why;
use crate::verdict::{Verdict, LONGEST_NAME};

pub const VERSION: &[u8] = b"TAP version 13";

/// A line that can stand behind the version.
#[derive(Clone, Copy, Debug, PartialEq, Eq)]
pub enum Line<'a> {
    Comment,
    /// How many tests there are to be.
    Plan(u64),
    Test(u64, Test<'a>),
}

/// What a test line says beside its number.
#[derive(Clone, Copy, Debug, PartialEq, Eq)]
pub struct Test<'a> {
    pub verdict: Verdict,
    pub name: &'a [u8],
}

/// Reads a line that has no line feed in it.
pub fn read(line: &[u8]) -> Result<Line<'_>, Why> {
    if line.starts_with(b"#") {
        return Ok(Line::Comment);
    }
    if let Some(rest) = line.strip_prefix(b"1..") {
        return plan(rest);
    }
    if let Some(rest) = line.strip_prefix(b"ok") {
        return test(Verdict::Pass, rest);
    }
    if let Some(rest) = line.strip_prefix(b"not ok") {
        return test(Verdict::Fail, rest);
    }
    Err(Why::Unknown)
}

fn plan(rest: &[u8]) -> Result<Line<'_>, Why> {
    let (count, behind) = number(rest).ok_or(Why::NoCount)?;
    match behind.iter().all(|byte| *byte == b' ') {
        true => Ok(Line::Plan(count)),
        false => Err(Why::BehindPlan),
    }
}

fn test(plainly: Verdict, rest: &[u8]) -> Result<Line<'_>, Why> {
    let digits = rest.strip_prefix(b" ").ok_or(Why::NoNumber)?;
    let (number, behind) = number(digits).ok_or(Why::NoNumber)?;
    let description = match behind {
        [] => behind,
        [b' ', description @ ..] => description,
        _ => return Err(Why::Glued),
    };
    let (words, directive) = until_directive(description);
    let name = undashed(words);
    if name.len() > LONGEST_NAME {
        return Err(Why::LongName);
    }
    if name.contains(&0) {
        return Err(Why::ZeroInName);
    }
    let verdict = directive.unwrap_or(plainly);
    Ok(Line::Test(number, Test { verdict, name }))
}

/// A run of digits at the front and what stands behind it. A number that is
/// too large to hold becomes the largest, which no range has either.
fn number(bytes: &[u8]) -> Option<(u64, &[u8])> {
    let length = bytes
        .iter()
        .take_while(|byte| byte.is_ascii_digit())
        .count();
    let (digits, behind) = bytes.split_at(length);
    let number = digits.iter().fold(0_u64, |number, digit| {
        number
            .saturating_mul(10)
            .saturating_add(u64::from(digit - b'0'))
    });
    (length > 0).then_some((number, behind))
}

/// What stands before the first directive, and the verdict that it makes.
fn until_directive(description: &[u8]) -> (&[u8], Option<Verdict>) {
    for at in 0..description.len() {
        let verdict = directive(&description[at..]);
        if verdict.is_some() {
            return (&description[..at], verdict);
        }
    }
    (description, None)
}

/// The verdict of a directive that begins right here.
fn directive(bytes: &[u8]) -> Option<Verdict> {
    let word = unspaced(bytes.strip_prefix(b"#")?);
    let (word, behind) = word.split_at_checked(4)?;
    if behind.first().is_some_and(|byte| goes_on(*byte)) {
        return None;
    }
    match word.to_ascii_uppercase().as_slice() {
        b"SKIP" => Some(Verdict::Skipped),
        b"TODO" => Some(Verdict::Error),
        _ => None,
    }
}

/// Whether a word goes on with this byte.
fn goes_on(byte: u8) -> bool {
    byte.is_ascii_alphanumeric() || byte == b'_'
}

/// Without the spaces around it, and without one dash and its spaces in front.
fn undashed(words: &[u8]) -> &[u8] {
    let end = words.iter().rposition(|byte| *byte != b' ');
    let words = unspaced(&words[..end.map_or(0, |last| last + 1)]);
    words.strip_prefix(b"-").map_or(words, unspaced)
}

/// Without the spaces in front.
fn unspaced(bytes: &[u8]) -> &[u8] {
    let spaces = bytes.iter().take_while(|byte| **byte == b' ').count();
    &bytes[spaces..]
}
