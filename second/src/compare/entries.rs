//! Every entry with arguments that are good or bad independently of each
//! other, so that each refusal comes up alone and beside those after it.

use super::draw;
use super::made::Made;
use super::pair::{Mismatch, Pair};
use super::spoil_desk::{spoil, to_ready};
use super::tally::{COPY_REASONS, FINISH_REASONS, FORMAT_REASONS};
use crate::desk;
use crate::format::Sizes;
use crate::found::Named;
use crate::good::Flaw;
use crate::random::Random;
use crate::sizes::SLOT;

pub fn history(pair: &mut Pair, random: &mut Random, number: u64) -> Result<(), Mismatch> {
    let highest = if random.once_in(40) { 12 } else { 7 };
    pair.sizes = draw::sizes(random, number, highest);
    match random.below(6) {
        0 => format(pair, random),
        1 | 2 => ask(pair, random),
        3 => finish(pair, random),
        4 => copy(pair, random, false),
        _ => copy(pair, random, true),
    }
}

/// Draws which of some arguments are bad: often none or one, else any.
pub fn bad<const N: usize>(random: &mut Random) -> [bool; N] {
    let one = random.index(N);
    match random.below(4) {
        0 => [false; N],
        1 | 2 => std::array::from_fn(|place| place == one),
        _ => std::array::from_fn(|_| random.once_in(2)),
    }
}

/// The name of the one fault that there is. A fault behind the last name has
/// a refusal of its own, and needs none.
pub fn alone(bad: &[bool], names: &[&'static str]) -> Option<&'static str> {
    let single = bad.iter().filter(|bad| **bad).count() == 1;
    let place = bad.iter().position(|bad| *bad)?;
    names.get(place).copied().filter(|_| single)
}

pub fn junk(random: &mut Random, length: usize) -> Vec<u8> {
    let mut bytes = vec![0; length];
    random.fill(&mut bytes);
    bytes
}

pub fn exact_or_not(random: &mut Random, bad: bool, exact: usize) -> usize {
    if bad {
        draw::bad_length(random, exact)
    } else {
        exact
    }
}

fn format(pair: &mut Pair, random: &mut Random) -> Result<(), Mismatch> {
    let bad: [bool; 7] = bad(random);
    let good = pair.sizes;
    let mut sizes = good;
    if bad[0] {
        sizes.height = draw::bad_height(random);
    }
    if bad[1] {
        sizes.slots = draw::bad_slots(random);
    }
    if bad[2] {
        let drawn = random.range(4097, 65535) as u16;
        sizes.ids = random.pick(&[0, 4097, drawn, 65535]);
    }
    let Sizes { stash, ids, .. } = sizes;
    let exact = 186 + 3 * usize::from(ids) + SLOT * usize::from(stash);
    let desk = exact_or_not(random, bad[3], exact);
    let starts = exact_or_not(random, bad[4], usize::from(ids));
    let key = exact_or_not(random, bad[5], 32);
    let shape = draw::shape(good);
    let mut leaves: Vec<u16> = (0..starts).map(|_| draw::leaf(random, shape)).collect();
    if bad[6] && !leaves.is_empty() {
        let (drawn, last) = (random.index(leaves.len()), leaves.len() - 1);
        leaves[random.pick(&[0, drawn, last])] = draw::bad_leaf(random, good.height);
    }
    pair.lend_desk(&junk(random, desk));
    pair.lend_input(&junk(random, key));
    pair.format(sizes, &leaves)?;
    if let Some(name) = alone(&bad, &FORMAT_REASONS) {
        pair.tally.reach("format, reason", name);
    }
    Ok(())
}

/// A desk at any status, sometimes with a flaw.
fn some_desk(random: &mut Random, made: &Made, usual: u8) -> Vec<u8> {
    let mut desk = made.desk.clone();
    let drawn = random.below(5) as u8;
    let status = random.pick(&[usual, usual, usual, drawn]);
    desk[desk::STATUS] = status;
    if status == desk::READY {
        to_ready(&mut desk);
    }
    if random.once_in(8) {
        spoil(random, &mut desk, random.clone().pick(Flaw::ALL));
    }
    desk
}

fn ask(pair: &mut Pair, random: &mut Random) -> Result<(), Mismatch> {
    let bad: [bool; 3] = bad(random);
    let Sizes { height, ids, .. } = pair.sizes;
    let made = Made::new(random, pair.sizes);
    pair.lend_desk(&some_desk(random, &made, desk::READY));
    let drawn = random.range(1, u64::from(ids)) as u16;
    let id = match bad[0] {
        true => draw::bad_id(random, ids),
        false => random.pick(&[1, drawn, ids]),
    };
    let last = (1 << height) - 1;
    let drawn = draw::leaf(random, made.shape);
    let leaf = match bad[1] {
        true => draw::bad_leaf(random, height),
        false => random.pick(&[0, drawn, last]),
    };
    let length = exact_or_not(random, bad[2], 64);
    pair.lend_input(&junk(random, length));
    let answer = if random.once_in(2) {
        pair.ask_read(id, leaf)?
    } else {
        pair.ask_write(id, leaf)?
    };
    let (taken, bad_id, bad_leaf) = (answer >= 0, answer == -5, answer == -6);
    for (group, reached, name) in [
        ("ask, id", bad_id && id == 0, "0 refused"),
        ("ask, id", bad_id && id == ids + 1, "N+1 refused"),
        ("ask, id", taken && id == 1, "1 taken"),
        ("ask, id", taken && id == ids, "N taken"),
        ("ask, leaf", bad_leaf && leaf == last + 1, "2^L refused"),
        ("ask, leaf", taken && leaf == last, "2^L - 1 taken"),
    ] {
        if reached {
            pair.tally.reach(group, name);
        }
    }
    Ok(())
}

fn finish(pair: &mut Pair, random: &mut Random) -> Result<(), Mismatch> {
    let bad: [bool; 2] = bad(random);
    let mut made = Made::new(random, pair.sizes);
    let mut path = made.seal(None);
    let length = exact_or_not(random, bad[0], path.len());
    path.resize(length, random.byte());
    let record = exact_or_not(random, bad[1], 64);
    pair.lend_desk(&some_desk(random, &made, desk::OPEN));
    pair.lend_path(&path);
    pair.lend_record(&junk(random, record));
    let answer = pair.finish()?;
    if let (-7, Some(name)) = (answer, alone(&bad, &FINISH_REASONS)) {
        pair.tally.reach("finish, reason", name);
    }
    Ok(())
}

/// Fetch, or put where `back`.
fn copy(pair: &mut Pair, random: &mut Random, back: bool) -> Result<(), Mismatch> {
    let bad: [bool; 5] = bad(random);
    let shape = draw::shape(pair.sizes);
    let (mut height, mut slots) = (shape.height, shape.slots);
    if bad[0] {
        height = draw::bad_height(random);
    }
    if bad[1] {
        slots = draw::bad_slots(random);
    }
    let leaf = match bad[4] {
        true => draw::bad_leaf(random, shape.height),
        false => draw::leaf(random, shape),
    };
    let tree = exact_or_not(random, bad[2], shape.tree_length());
    let path = exact_or_not(random, bad[3], shape.path_length());
    pair.lend_tree(&junk(random, tree));
    pair.lend_path(&junk(random, path));
    let group = if back {
        pair.put(height, slots, leaf)?;
        "put, reason"
    } else {
        pair.fetch(height, slots, leaf)?;
        "fetch, reason"
    };
    if let Some(name) = alone(&bad, &COPY_REASONS) {
        pair.tally.reach(group, name);
    }
    // A large tree isn't to be compared again in later calls.
    pair.lend_tree(&[]);
    Ok(())
}
