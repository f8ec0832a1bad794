//! Texts over made desks and trees, with arguments that are good or bad
//! independently of each other.

use super::draw;
use super::entries::{alone, exact_or_not, junk};
use super::pair::{Mismatch, Pair};
use super::rows::{self, Call, DESK, DRAWS, LEAF, RANGE, TREE};
use super::tally::{TAP_READ, TAP_WRITE};
use super::tap_tally::LENGTH_REASONS;
use super::tap_texts;
use crate::desk;
use crate::random::Random;
use crate::row::Asked;
use crate::store::Sheet;
use crate::tap::print::room;

/// A few calls, each with arguments of its own.
pub fn history(pair: &mut Pair, random: &mut Random, number: u64) -> Result<(), Mismatch> {
    for turn in 0..5 {
        one(pair, random, 5 * number + turn)?;
    }
    Ok(())
}

fn one(pair: &mut Pair, random: &mut Random, number: u64) -> Result<(), Mismatch> {
    let highest = if random.once_in(40) { 12 } else { 6 };
    pair.sizes = draw::sizes(random, number, highest);
    let call = rows::put_together(random, pair.sizes);
    pair.lend_desk(&call.desk);
    pair.lend_tree(&call.tree);
    pair.lend_draws(&call.draws);
    match number.is_multiple_of(2) {
        true => read(pair, random, &call)?,
        false => write(pair, random, &call)?,
    }
    pair.lend_tree(&[]);
    Ok(())
}

/// How long the range is, or would be if it were one; never very long.
fn length(asked: Asked) -> u16 {
    asked.end.saturating_sub(asked.first).min(40)
}

fn read(pair: &mut Pair, random: &mut Random, call: &Call) -> Result<(), Mismatch> {
    let count = length(call.asked).max(1);
    // Now and then a text for a longer range.
    let said = count + u16::from(random.once_in(6));
    let text = tap_texts::text(random, said).text;
    let sheet = Sheet {
        asked: call.asked,
        year: random.word() as u16,
    };
    pair.lend_line(random.word());
    let answer = pair.tap_read(sheet, &text)?;
    let fine = crate::tap::text::read(&text, call.asked.chapter, count).is_ok();
    if let Some(reason) = reason(call, false, answer) {
        pair.tally.reach("tap_read, reason", reason);
    }
    let bad = &call.bad;
    let lengths = bad[DRAWS] || bad[TREE];
    let (open, stopped) = status(call);
    let orders = [
        (answer == -1 && bad[RANGE], "BadDesk before BadId"),
        (answer == -1 && lengths, "BadDesk before BadLength"),
        (answer == -1 && !fine, "BadDesk before the text"),
        (answer == -5 && lengths, "BadId before BadLength"),
        (answer == -5 && !fine, "BadId before the text"),
        (answer == -7 && !fine, "BadLength before the text"),
        (answer == -12 && stopped, "Malformed before Stopped"),
        (answer == -12 && open, "Malformed before Open"),
        (answer == -12 && bad[LEAF], "Malformed before BadLeaf"),
        (answer == -13 && stopped, "BadPlan before Stopped"),
        (answer == -13 && open, "BadPlan before Open"),
        (answer == -13 && bad[LEAF], "BadPlan before BadLeaf"),
    ];
    for (reached, name) in orders {
        if reached {
            pair.tally.reach("tap_read, order", name);
        }
    }
    Ok(())
}

fn write(pair: &mut Pair, random: &mut Random, call: &Call) -> Result<(), Mismatch> {
    let out = random.once_in(4);
    let exact = room(length(call.asked));
    let length = exact_or_not(random, out, exact);
    pair.lend_out(&junk(random, length));
    let answer = pair.tap_write(call.asked)?;
    if let Some(reason) = reason(call, out, answer) {
        pair.tally.reach("tap_write, reason", reason);
    }
    let bad = &call.bad;
    let (open, stopped) = status(call);
    let by_out = answer == -7 && !bad[DRAWS] && !bad[TREE];
    let orders = [
        (answer == -1 && bad[RANGE], "BadDesk before BadId"),
        (answer == -1 && out, "BadDesk before BadLength by out"),
        (answer == -5 && out, "BadId before BadLength by out"),
        (by_out && stopped, "BadLength by out before Stopped"),
        (by_out && open, "BadLength by out before Open"),
        (by_out && bad[LEAF], "BadLength by out before BadLeaf"),
    ];
    for (reached, name) in orders {
        if reached {
            pair.tally.reach("tap_write, order", name);
        }
    }
    Ok(())
}

/// Whether the desk is open, and whether it is stopped.
fn status(call: &Call) -> (bool, bool) {
    let status = call.desk.get(desk::STATUS).copied().unwrap_or(0);
    (status == desk::OPEN, status > desk::OPEN)
}

/// The one reason for a refusal that comes before the text or any request.
fn reason(call: &Call, out: bool, answer: i32) -> Option<&'static str> {
    let [desk, range, draws, tree, leaf] = call.bad;
    debug_assert_eq!((DESK, RANGE, DRAWS, TREE, LEAF), (0, 1, 2, 3, 4));
    let names = ["desk", "range", "draws", "tree", "leaf", "out"];
    let name = alone(&[desk, range, draws, tree, leaf, out], &names)?;
    match (answer, name) {
        (-5, "range") => Some(call.reason),
        (-7, "draws") => Some(LENGTH_REASONS[0]),
        (-7, "tree") => Some(LENGTH_REASONS[1]),
        (-7, "out") => Some(LENGTH_REASONS[2]),
        _ => None,
    }
}

/// Breaks every condition of a good desk in turn, with all else left good.
pub fn bad_desks(pair: &mut Pair, random: &mut Random, turn: u64) -> Result<(), Mismatch> {
    rows::each_bad_desk(pair, random, turn, |pair, random, asked| {
        let count = asked.length();
        pair.lend_line(random.word());
        pair.lend_out(&junk(random, room(count)));
        let text = tap_texts::text(random, count).text;
        let read = pair.tap_read(Sheet { asked, year: 0 }, &text)?;
        Ok(vec![(TAP_READ, read), (TAP_WRITE, pair.tap_write(asked)?)])
    })
}
