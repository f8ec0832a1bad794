//! Texts for a range: good ones, and good ones with something done to them.

use super::tap_lines::{comment, strange, test};
use super::tap_tally::DAMAGES;
use crate::random::Random;

pub struct Drawn {
    pub text: Vec<u8>,
    /// What was done to it, if something was.
    pub damage: Option<&'static str>,
}

/// A text for a range of `count` ids, good or damaged.
pub fn text(random: &mut Random, count: u16) -> Drawn {
    let lines = good(random, count);
    if random.once_in(3) {
        let text = joined(random, &lines);
        return Drawn { text, damage: None };
    }
    damaged(random, lines, count)
}

/// The lines of a text that is mostly good.
fn good(random: &mut Random, count: u16) -> Vec<Vec<u8>> {
    let mut numbers: Vec<u64> = (1..=u64::from(count)).collect();
    let in_four = random.pick(&[0, 1, 3, 4, 4]);
    numbers.retain(|_| random.below(4) < in_four);
    if random.once_in(3) {
        for last in (1..numbers.len()).rev() {
            numbers.swap(last, random.index(last + 1));
        }
    }
    let mut lines: Vec<Vec<u8>> = numbers.iter().map(|it| test(random, *it)).collect();
    let plan = match random.below(4) {
        0 => random.index(lines.len() + 1),
        1 => lines.len(),
        _ => 0,
    };
    let spaces = random.pick(&["", "", "", " ", "   "]);
    lines.insert(plan, format!("1..{count}{spaces}").into_bytes());
    for _ in 0..random.below(3) {
        let place = random.index(lines.len() + 1);
        lines.insert(place, comment(random));
    }
    lines.insert(0, b"TAP version 13".to_vec());
    lines
}

/// The lines with their line feeds, the last one mostly too.
fn joined(random: &mut Random, lines: &[Vec<u8>]) -> Vec<u8> {
    let mut text = lines.join(&b'\n');
    if !lines.is_empty() && !random.once_in(5) {
        text.push(b'\n');
    }
    text
}

fn damaged(random: &mut Random, mut lines: Vec<Vec<u8>>, count: u16) -> Drawn {
    let kind = random.index(DAMAGES.len());
    let place = random.index(lines.len());
    match kind {
        0 => drop(lines.remove(place)),
        1 => lines.insert(place, lines[place].clone()),
        2 => lines.swap(place, random.index(place + 1)),
        3 => {
            let line = strange(random, count);
            match random.once_in(3) {
                true => lines[place] = line,
                false => lines.insert(place + 1, line),
            }
        }
        _ => {}
    }
    let mut text = joined(random, &lines);
    match kind {
        4 => text.truncate(random.index(text.len())),
        5 => {
            let byte = random.index(text.len());
            text[byte] ^= 1 << random.below(8);
        }
        6 => {
            let feeds = text.iter().enumerate().filter(|(_, byte)| **byte == b'\n');
            let feeds: Vec<usize> = feeds.map(|(place, _)| place).collect();
            if !feeds.is_empty() {
                text.remove(random.pick(&feeds));
            }
        }
        7 => drop(text.remove(random.index(text.len()))),
        8 => text = with_returns(random, &lines),
        _ => {}
    }
    Drawn {
        text,
        damage: Some(DAMAGES[kind]),
    }
}

/// The lines with a carriage return before each line feed, or before those
/// behind the head.
fn with_returns(random: &mut Random, lines: &[Vec<u8>]) -> Vec<u8> {
    let first = random.pick(&[0, 1, 2, 2, 2]);
    let mut text = Vec::new();
    for (place, line) in lines.iter().enumerate() {
        text.extend(line);
        if place >= first {
            text.push(b'\r');
        }
        text.push(b'\n');
    }
    text
}
