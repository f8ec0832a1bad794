//! Writing a text: its head, and a line for each verdict that can have one.

use super::line::VERSION;
use crate::verdict::{Said, Verdict, LONGEST_NAME};

/// The room for the text of a range of `count` ids: as long as it could get
/// with 4,096 of them, which no text is longer than.
pub fn room(count: u16) -> usize {
    let head = VERSION.len() + "\n1..4096\n".len();
    let line = "not ok 4096 - ".len() + LONGEST_NAME + " # TODO\n".len();
    head + line * usize::from(count)
}

/// The version and the plan.
pub fn head(count: u16) -> Vec<u8> {
    let mut text = VERSION.to_vec();
    text.extend(format!("\n1..{count}\n").bytes());
    text
}

/// The line of a verdict, but for a name that would make two lines of it.
pub fn line(text: &mut Vec<u8>, number: u16, said: Said) {
    if said.name.contains(&b'\n') {
        return;
    }
    let (front, directive) = match said.verdict {
        Verdict::Pass => ("ok", ""),
        Verdict::Fail => ("not ok", ""),
        Verdict::Skipped => ("ok", " # SKIP"),
        Verdict::Error => ("not ok", " # TODO"),
    };
    text.extend(format!("{front} {number} - ").bytes());
    text.extend(said.name);
    text.extend(directive.bytes());
    text.push(b'\n');
}
