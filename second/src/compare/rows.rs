//! Rows over made desks and trees, with arguments that are good or bad
//! independently of each other.

use super::draw;
use super::entries::{alone, bad, exact_or_not, junk};
use super::made::Made;
use super::pair::{Mismatch, Pair};
use super::spoil_desk::{self, to_ready};
use super::spoil_path;
use super::tally::{RANGE_REASONS, ROW, ROW_REASONS};
use super::verdicts;
use crate::check::Fault;
use crate::desk::{self, Desk};
use crate::format::Sizes;
use crate::found::Named;
use crate::good::{flaws, Flaw};
use crate::item::Child;
use crate::random::Random;
use crate::row::Asked;
use crate::sizes::Shape;
use crate::tree::put;

/// What can be wrong with the arguments, as places in a list.
pub const DESK: usize = 0;
pub const RANGE: usize = 1;
pub const DRAWS: usize = 2;
pub const TREE: usize = 3;
pub const LEAF: usize = 4;

/// One call of a row, put together.
pub struct Call {
    pub desk: Vec<u8>,
    pub tree: Vec<u8>,
    pub asked: Asked,
    pub draws: Vec<u16>,
    pub bad: [bool; 5],
    /// What is wrong with a bad range.
    pub reason: &'static str,
}

pub fn history(pair: &mut Pair, random: &mut Random, number: u64) -> Result<(), Mismatch> {
    let highest = if random.once_in(40) { 12 } else { 6 };
    pair.sizes = draw::sizes(random, number, highest);
    let call = put_together(random, pair.sizes);
    pair.lend_desk(&call.desk);
    pair.lend_tree(&call.tree);
    pair.lend_draws(&call.draws);
    pair.lend_numbers(&[random.word() as u16; 6]);
    let answer = pair.row(call.asked)?;
    pair.lend_tree(&[]);
    count_reasons(pair, &call, answer);
    count_orders(pair, &call, answer);
    Ok(())
}

/// Breaks every condition of a good desk in turn, with all else left good.
pub fn bad_desks(pair: &mut Pair, random: &mut Random, turn: u64) -> Result<(), Mismatch> {
    each_bad_desk(pair, random, turn, |pair, random, asked| {
        pair.lend_numbers(&[random.word() as u16; 6]);
        Ok(vec![(ROW, pair.row(asked)?)])
    })
}

/// Makes calls over a range of each such desk, which name the entry and its
/// answer: draws, desk and tree are lent before.
pub fn each_bad_desk(
    pair: &mut Pair,
    random: &mut Random,
    turn: u64,
    calls: impl Fn(&mut Pair, &mut Random, Asked) -> Result<Vec<(usize, i32)>, Mismatch>,
) -> Result<(), Mismatch> {
    pair.sizes = draw::sizes(random, turn, 6);
    let mut made = Made::new(random, pair.sizes);
    let id = Desk(&made.desk).requested();
    let tree = some_tree(random, &mut made, false);
    pair.lend_tree(&tree);
    for flaw in Flaw::ALL {
        let mut desk = made.desk.clone();
        if random.once_in(2) {
            to_ready(&mut desk);
        }
        if !spoil_desk::spoil(random, &mut desk, *flaw) {
            continue;
        }
        let (first, end, _) = around(random, id, pair.sizes.ids);
        let asked = Asked {
            chapter: 0,
            first,
            end,
        };
        pair.lend_draws(&draw::leaves(random, made.shape, asked.length().into()));
        pair.lend_desk(&desk);
        for (entry, answer) in calls(pair, random, asked)? {
            if let (-1, Some(flaw)) = (answer, flaws(&desk).only()) {
                pair.tally.bad_desk(entry, flaw);
            }
        }
    }
    pair.lend_tree(&[]);
    Ok(())
}

pub fn put_together(random: &mut Random, sizes: Sizes) -> Call {
    let mut bad: [bool; 5] = bad(random);
    let mut made = Made::new(random, sizes);
    let chapter = random.below(34) as u8;
    let id = Desk(&made.desk).requested();
    prepare(random, &mut made, chapter);
    let tree = some_tree(random, &mut made, bad[TREE]);
    let (mut desk, shape) = (made.desk, made.shape);
    desk[desk::STATUS] = random.pick(&[0, 0, 0, 0, 0, 1, 2, 3, 4]);
    if desk[desk::STATUS] == desk::READY {
        to_ready(&mut desk);
    }
    let (first, end, reason) = match bad[RANGE] {
        true => bad_range(random, sizes.ids),
        false => around(random, id, sizes.ids),
    };
    let length = usize::from(end.saturating_sub(first));
    let count = exact_or_not(random, bad[DRAWS], length);
    let mut draws = draw::leaves(random, shape, count);
    bad[LEAF] &= count > 0;
    if bad[LEAF] {
        let drawn = random.index(count);
        draws[random.pick(&[0, drawn, drawn, count - 1])] = draw::bad_leaf(random, shape.height);
    }
    let flaw = bad[DESK].then(|| random.pick(Flaw::ALL));
    bad[DESK] = flaw.is_some_and(|flaw| spoil_desk::spoil(random, &mut desk, flaw));
    let asked = Asked {
        chapter,
        first,
        end,
    };
    Call {
        desk,
        tree,
        asked,
        draws,
        bad,
        reason,
    }
}

/// Has verdicts in the blocks, often nothing beside the path, and sometimes a
/// root that is worn or soon will be.
fn prepare(random: &mut Random, made: &mut Made, chapter: u8) {
    if !random.once_in(4) {
        tidy(made);
    }
    let slots = made.items.iter_mut().flat_map(|item| &mut item.slots);
    for slot in slots.filter(|slot| slot.id != 0) {
        slot.record = verdicts::record(random, chapter).0;
    }
    let (ids, count) = (Desk(&made.desk).ids(), Desk(&made.desk).stash_count());
    for place in 0..usize::from(count) {
        let record = verdicts::record(random, chapter).0;
        made.desk[desk::stash_slot_at(ids, place) + 4..][..64].copy_from_slice(&record);
    }
    if let Some(root) = made.items.first_mut() {
        let last = u64::MAX - random.below(4);
        root.counter = random.pick(&[root.counter, root.counter, last]);
    }
}

/// Leaves nothing reachable beside the path, and nothing marked that doesn't
/// stand on it or in the stash, so that a row gets past the other ids.
fn tidy(made: &mut Made) {
    let inner = usize::from(made.shape.height);
    for (level, item) in made.items.iter_mut().enumerate().take(inner) {
        let beside = Child::towards(made.shape, made.leaf, level).sibling();
        item.flags[beside as usize] = 0;
    }
    for id in made.unused.clone() {
        made.mark(id, 0);
    }
}

/// A tree of junk with the made path in it, whole or with one check broken.
pub fn some_tree(random: &mut Random, made: &mut Made, bad_length: bool) -> Vec<u8> {
    let fault = random.once_in(6).then(|| random.pick(Fault::ALL));
    let broken = fault.and_then(|fault| spoil_path::spoil(random, made, fault));
    let path = made.seal(broken.flatten());
    let mut tree = junk(random, made.shape.tree_length());
    let Shape { height, slots } = made.shape;
    put(&mut tree, height, slots, made.leaf, &path).expect("a path of this tree");
    let length = exact_or_not(random, bad_length, tree.len());
    tree.resize(length, 0);
    tree
}

/// A good range with `id` in it.
pub fn around(random: &mut Random, id: u16, ids: u16) -> (u16, u16, &'static str) {
    let first = id - random.below(u64::from(id).min(6)) as u16;
    let end = id + 1 + random.below(u64::from(ids + 1 - id).min(6)) as u16;
    (first, end, "")
}

fn bad_range(random: &mut Random, ids: u16) -> (u16, u16, &'static str) {
    let kind = random.index(4);
    let last = u64::from(ids) + 1;
    let (one, two) = (random.range(1, last) as u16, random.range(1, last) as u16);
    let above = random.range(last + 1, 65535) as u16;
    let (first, end) = match kind {
        0 => (0, one),
        1 => (one, one),
        2 => (one.max(two).max(2), one.min(two).min(ids)),
        _ => (one, random.pick(&[ids + 2, above, 65535])),
    };
    // Two that are the same aren't backward.
    let kind = if first == end { 1 } else { kind };
    (first, end, RANGE_REASONS[kind])
}

fn count_reasons(pair: &mut Pair, call: &Call, answer: i32) {
    let Some(name) = alone(&call.bad, &["desk", "range", "draws", "tree"]) else {
        return;
    };
    let reason = match (answer, name) {
        (-5, "range") => call.reason,
        (-7, "draws") => ROW_REASONS[0],
        (-7, "tree") => ROW_REASONS[1],
        _ => return,
    };
    pair.tally.reach("row, reason", reason);
}

fn count_orders(pair: &mut Pair, call: &Call, answer: i32) {
    let bad = &call.bad;
    let lengths = bad[DRAWS] || bad[TREE];
    let status = call.desk.get(desk::STATUS).copied().unwrap_or(0);
    let (open, stopped) = (status == desk::OPEN, status > desk::OPEN);
    let orders = [
        (answer == -1 && bad[RANGE], "BadDesk before BadId"),
        (answer == -1 && lengths, "BadDesk before BadLength"),
        (answer == -5 && lengths, "BadId before BadLength"),
        (answer == -5 && stopped, "BadId before Stopped"),
        (answer == -5 && open, "BadId before Open"),
        (answer == -7 && stopped, "BadLength before Stopped"),
        (answer == -7 && open, "BadLength before Open"),
        (answer == -7 && bad[LEAF], "BadLength before BadLeaf"),
    ];
    for (reached, name) in orders {
        if reached {
            pair.tally.reach("row, order", name);
        }
    }
}
