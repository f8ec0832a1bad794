//! Made paths, whole or with one check broken.

use super::draw;
use super::made::Made;
use super::pair::{Mismatch, Pair};
use super::spoil_path::spoil;
use crate::check::{faults, Fault, Opened};
use crate::desk::{self, Desk};
use crate::found::{Found, Named};
use crate::item::counter;
use crate::random::Random;
use crate::sizes::SLOT;

const RECORD: i32 = 1;
const FORGED: i32 = -9;
const WORN: i32 = -10;

/// What the path of one history is like, before any side has seen it.
struct Seen {
    found: Found<Fault>,
    worn: bool,
    overfull: bool,
}

pub fn history(pair: &mut Pair, random: &mut Random, number: u64) -> Result<(), Mismatch> {
    pair.sizes = draw::sizes(random, number, 12);
    draw::count_sizes(pair.tally, pair.sizes);
    let mut made = Made::new(random, pair.sizes);
    if random.once_in(8) && !made.items.is_empty() {
        let level = random.index(made.items.len());
        made.items[level].counter = u64::MAX;
    }
    // Two in three have a check broken; the checks take turns.
    let fault = (!random.once_in(3)).then(|| random.pick(Fault::ALL));
    let broken = fault.and_then(|fault| spoil(random, &mut made, fault));
    let path = made.seal(broken.flatten());
    let seen = look(&made, &path);

    pair.lend_desk(&made.desk);
    pair.lend_path(&path);
    pair.lend_record(&random.bytes::<64>());
    let answer = pair.finish()?;
    if let Some(fault) = fault.filter(|fault| broken.is_some() && !seen.found.has(*fault)) {
        return Err(pair.mismatch("finish", format!("not noticed: {}", fault.name())));
    }
    if broken.is_none() && answer == FORGED {
        return Err(pair.mismatch("finish", "a fitting path was refused".into()));
    }
    count(pair, &seen, answer);
    if answer < 0 {
        stay_stopped(pair, random)
    } else {
        count_accepted(pair, &made, &path, answer);
        again(pair, random, &made)
    }
}

fn look(made: &Made, path: &[u8]) -> Seen {
    let opened = Opened::new(Desk(&made.desk), path);
    Seen {
        found: faults(Desk(&made.desk), path, &opened),
        worn: opened.is_worn(path),
        overfull: made.overfull,
    }
}

fn count(pair: &mut Pair, seen: &Seen, answer: i32) {
    let alone = seen.found.only();
    if let (FORGED, Some(fault)) = (answer, alone) {
        pair.tally.forged_alone(fault);
    }
    // A spoilt digest leaves the blocks as they are, so they remain too many.
    let digest = matches!(alone, Some(Fault::RootDigest | Fault::ChildDigest));
    let orders = [
        (answer == FORGED && seen.worn, "Forged before Worn"),
        (
            answer == FORGED && digest && seen.overfull,
            "Forged before Full",
        ),
        (answer == WORN && seen.overfull, "Worn before Full"),
    ];
    for (reached, name) in orders {
        if reached {
            pair.tally.reach("finish, order", name);
        }
    }
}

/// A stopped desk answers nothing any more.
fn stay_stopped(pair: &mut Pair, random: &mut Random) -> Result<(), Mismatch> {
    let id = random.range(1, u64::from(pair.sizes.ids)) as u16;
    let leaf = draw::leaf(random, draw::shape(pair.sizes));
    pair.lend_input(&random.bytes::<64>());
    match random.below(3) {
        0 => pair.ask_read(id, leaf),
        1 => pair.ask_write(id, leaf),
        _ => pair.finish(),
    }?;
    Ok(())
}

/// Goes on with the path that was written, where the position is its leaf.
fn again(pair: &mut Pair, random: &mut Random, made: &Made) -> Result<(), Mismatch> {
    let id = Desk(&made.desk).requested();
    for _ in 0..2 {
        if Desk(pair.desk()).position(id) != made.leaf {
            return Ok(());
        }
        let drawn = draw::leaf(random, made.shape);
        pair.ask_read(id, random.pick(&[drawn, made.leaf]))?;
        pair.lend_record(&random.bytes::<64>());
        if pair.finish()? < 0 {
            return stay_stopped(pair, random);
        }
    }
    Ok(())
}

/// Counts what an accepted path had in it.
fn count_accepted(pair: &mut Pair, made: &Made, path: &[u8], answer: i32) {
    let (shape, levels) = (made.shape, made.items.len());
    let desk = Desk(&made.desk);
    let id = desk.requested();
    let counters = |value| made.items.iter().any(|item| item.counter == value);
    let slots = || made.items.iter().flat_map(|item| &item.slots);
    let spare = |level| counter(&path[shape.in_path(level)]) == u64::MAX;
    let inner = &made.items[..levels.min(usize::from(shape.height))];
    let behind_zero = inner.iter().any(|item| item.flags.contains(&0));
    let left_over = Desk(pair.desk()).stash_count() > 0;
    let in_stash = desk
        .stash()
        .chunks_exact(SLOT)
        .any(|slot| desk::number(slot, 0) == id);
    let with = [
        (levels == 0, "a root not written"),
        (levels < shape.levels(), "an unreachable item of junk"),
        (
            (levels..shape.levels()).any(spare),
            "counter 2^64 - 1 in an unreachable item",
        ),
        (counters(u64::MAX - 1), "counter 2^64 - 2"),
        (counters(0), "counter 0"),
        (
            slots().any(|slot| slot.id == 0 && slot.leaf != 0),
            "junk in an empty slot",
        ),
        (behind_zero, "junk in a digest behind flag 0"),
        (
            desk.room() > 0 && desk.stash_count() == u16::from(desk.room()),
            "a full stash",
        ),
        (
            made.items
                .iter()
                .any(|item| !item.slots.is_sorted_by_key(|slot| slot.id)),
            "slots out of order",
        ),
        (
            answer == RECORD && slots().any(|slot| slot.id == id),
            "the requested block on the path",
        ),
        (
            answer == RECORD && in_stash,
            "the requested block in the stash",
        ),
        (left_over, "a block left over for the stash"),
    ];
    for (reached, name) in with {
        if reached {
            pair.tally.reach("finish, accepted with", name);
        }
    }
}
