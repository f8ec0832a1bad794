//! Texts read into the book and written from it.

use super::draw;
use super::pair::{Mismatch, Pair};
use super::tap_tally::WIDTHS;
use super::tap_texts::{self, Drawn};
use super::{server, tap_arguments, tap_kept, tap_stored};
use crate::corpus::{CHAPTER, YEAR};
use crate::format::Sizes;
use crate::random::Random;
use crate::row::Asked;
use crate::sizes::Shape;
use crate::store::Sheet;

/// The stored files come first, and then the sorts of histories take turns.
pub fn history(pair: &mut Pair, random: &mut Random, number: u64) -> Result<(), Mismatch> {
    match number {
        0 => return tap_stored::texts(pair, random),
        1 => return tap_stored::records(pair, random),
        2 => return rooms(pair, random),
        64 => return tap_kept::wide(pair, random),
        65 => return widths(pair, random),
        66 => return lengths(pair, random),
        _ => {}
    }
    let turn = number / 32;
    match number % 32 {
        3 => tap_arguments::bad_desks(pair, random, turn),
        4 | 5 => tap_kept::roomy(pair, random),
        6 => tap_kept::tight(pair, random, turn),
        7..=10 => drawn_texts(pair, random),
        _ => tap_arguments::history(pair, random, number),
    }
}

/// A fresh store with room for all of so many ids.
pub fn fresh(pair: &mut Pair, random: &mut Random, ids: u16) -> Result<Shape, Mismatch> {
    let sizes = Sizes {
        height: random.range(2, 5) as u8,
        slots: random.range(2, 5) as u8,
        stash: 255,
        ids,
    };
    server::formatted(pair, random, sizes)
}

/// A sheet of the length `count` somewhere among the ids.
pub fn somewhere(random: &mut Random, ids: u16, count: u16, chapter: u8) -> Sheet {
    let first = random.range(1, u64::from(ids - count) + 1) as u16;
    let asked = Asked {
        chapter,
        first,
        end: first + count,
    };
    Sheet {
        asked,
        year: random.word() as u16,
    }
}

/// Reads a text with a draw for each id.
pub fn read(
    pair: &mut Pair,
    random: &mut Random,
    shape: Shape,
    sheet: Sheet,
    text: &[u8],
) -> Result<i32, Mismatch> {
    let count = usize::from(sheet.asked.length());
    pair.lend_draws(&draw::leaves(random, shape, count));
    pair.lend_line(random.word());
    pair.tap_read(sheet, text)
}

/// Writes a text with a draw for each id: the answer, and the text.
pub fn write(
    pair: &mut Pair,
    random: &mut Random,
    shape: Shape,
    asked: Asked,
) -> Result<(i32, Vec<u8>), Mismatch> {
    let count = asked.length();
    pair.lend_draws(&draw::leaves(random, shape, count.into()));
    let room = pair.tap_room(count)?;
    pair.lend_out(&vec![random.byte(); room]);
    let answer = pair.tap_write(asked)?;
    Ok((answer, pair.out()[..answer.max(0) as usize].to_vec()))
}

fn rooms(pair: &mut Pair, random: &mut Random) -> Result<(), Mismatch> {
    let drawn: Vec<u16> = (0..20).map(|_| random.word() as u16).collect();
    for count in (0..20).chain(drawn).chain([4095, 4096, 4097, 65534, 65535]) {
        let room = pair.tap_room(count)?;
        if room != 23 + 82 * usize::from(count) {
            return Err(pair.mismatch("tap_room", format!("{room} for {count} ids")));
        }
    }
    Ok(())
}

/// Ranges at which the numbers of plan and tests get longer.
fn widths(pair: &mut Pair, random: &mut Random) -> Result<(), Mismatch> {
    let edges = [1, 9, 10, 11, 99, 100, 101, 999, 1000, 1001];
    for count in edges {
        let shape = fresh(pair, random, count)?;
        let sheet = somewhere(random, count, count, CHAPTER);
        let mut text = format!("TAP version 13\n1..{count}\n");
        write(pair, random, shape, sheet.asked)?;
        for number in edges.iter().filter(|number| **number <= count) {
            text += &format!("ok {number} - {number}\n");
        }
        both_ways(pair, random, shape, sheet, text.as_bytes())?;
        pair.tally
            .reach("tap_write, numbers", WIDTHS[text_width(count)]);
    }
    pair.lend_tree(&[]);
    Ok(())
}

/// Names of every length, with every kind.
fn lengths(pair: &mut Pair, random: &mut Random) -> Result<(), Mismatch> {
    for turn in 0..4 {
        let mut text = String::from("TAP version 13\n1..61\n");
        for length in 0..61 {
            let (front, end) = [
                ("ok", ""),
                ("not ok", ""),
                ("ok", " # SKIP"),
                ("not ok", " # TODO"),
            ][(length + turn) % 4];
            let name = "n".repeat(length);
            text += &format!("{front} {} - {name}{end}\n", length + 1);
        }
        let shape = fresh(pair, random, 61)?;
        let sheet = somewhere(random, 61, 61, CHAPTER);
        both_ways(pair, random, shape, sheet, text.as_bytes())?;
    }
    pair.lend_tree(&[]);
    Ok(())
}

/// Reads a text, which is then written as it was.
fn both_ways(
    pair: &mut Pair,
    random: &mut Random,
    shape: Shape,
    sheet: Sheet,
    text: &[u8],
) -> Result<(), Mismatch> {
    let answer = read(pair, random, shape, sheet, text)?;
    let (_, written) = write(pair, random, shape, sheet.asked)?;
    if answer == 0 && written == text {
        return Ok(());
    }
    let what = format!("answer {answer}, or another text than was read");
    Err(pair.mismatch("tap_write", what))
}

/// How many digits a number has, less one.
fn text_width(number: u16) -> usize {
    number.to_string().len() - 1
}

/// Drawn texts, good and damaged, into one store.
fn drawn_texts(pair: &mut Pair, random: &mut Random) -> Result<(), Mismatch> {
    let drawn = random.range(1, 40) as u16;
    let ids = random.pick(&[1, 3, 12, drawn, drawn]);
    let shape = fresh(pair, random, ids)?;
    for _ in 0..30 {
        let drawn = random.range(1, u64::from(ids)) as u16;
        let count = random.pick(&[1, drawn, drawn, ids]);
        let chapter = random.pick(&[0, 7, 7, 31, 31, 31, 32, 255]);
        let mut sheet = somewhere(random, ids, count, chapter);
        sheet.year = random.pick(&[YEAR, sheet.year]);
        let Drawn { text, damage } = tap_texts::text(random, count);
        let answer = read(pair, random, shape, sheet, &text)?;
        pair.tally.reach("tap_read, texts", "drawn");
        let group = match answer {
            0 => "tap_read, taken in spite of",
            _ => "tap_read, refused with",
        };
        if let Some(damage) = damage {
            pair.tally.reach(group, damage);
        }
        if answer == 0 && random.once_in(4) {
            write(pair, random, shape, sheet.asked)?;
        }
    }
    pair.lend_tree(&[]);
    Ok(())
}
