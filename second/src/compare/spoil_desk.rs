//! Breaking one condition of a good desk, with all the others left whole.

use super::draw;
use crate::desk::{self, Desk};
use crate::good::Flaw;
use crate::random::Random;
use crate::sizes::SLOT;

/// Breaks the condition that `flaw` names, where this desk has a place for it.
pub fn spoil(random: &mut Random, bytes: &mut Vec<u8>, flaw: Flaw) -> bool {
    match flaw {
        Flaw::Short => bytes.truncate(random.index(desk::SIZES_END)),
        Flaw::Length => length(random, bytes),
        Flaw::Contents => flip(random, bytes, 0, desk::CONTENTS),
        Flaw::Height => height(random, bytes),
        Flaw::Slots => bytes[desk::SLOTS] = draw::bad_slots(random),
        Flaw::Ids => ids(random, bytes),
        Flaw::Status => {
            to_open(random, bytes);
            bytes[desk::STATUS] = random.range(5, 255) as u8;
        }
        Flaw::RootWritten => bytes[desk::ROOT_WRITTEN] = random.range(2, 255) as u8,
        Flaw::Mark | Flaw::Position => return position(random, bytes, flaw),
        Flaw::Zeros => {
            let places = [desk::SIZES_ZERO, desk::KIND_ZERO, 118, 119];
            bytes[random.pick(&places)] = random.range(1, 255) as u8;
        }
        Flaw::StashCount => {
            let room = u64::from(Desk(bytes).room());
            let drawn = random.range(room + 1, 65535);
            let count = random.pick(&[room + 1, room + 256, drawn, 65535]);
            let at = desk::stash_at(Desk(bytes).ids());
            desk::set_number(bytes, at, count as u16);
        }
        Flaw::StashOrder
        | Flaw::StashId
        | Flaw::StashMark
        | Flaw::StashLeaf
        | Flaw::StashUnused => return stash(random, bytes, flaw),
        Flaw::ReadyRequest => {
            to_ready(bytes);
            let at = random.pick(&[desk::KIND, desk::ID, desk::ID + 1, desk::NEW_LEAF, 117]);
            let in_record = desk::REQUEST_RECORD.start + random.index(64);
            bytes[random.pick(&[at, in_record])] = random.range(1, 255) as u8;
        }
        Flaw::Kind | Flaw::RequestId | Flaw::RequestLeaf | Flaw::ReadRecord => {
            request(random, bytes, flaw);
        }
    }
    true
}

fn flip(random: &mut Random, bytes: &mut [u8], start: usize, end: usize) {
    let place = start + random.index(end - start);
    bytes[place] ^= random.range(1, 255) as u8;
}

/// Any other length from which the sizes can still be read.
fn length(random: &mut Random, bytes: &mut Vec<u8>) {
    let exact = bytes.len();
    let new = draw::bad_length(random, exact).max(desk::SIZES_END);
    let byte = random.pick(&[0, random.clone().byte()]);
    bytes.resize(new, byte);
}

/// A lower height than 1 has leaf 0 alone, so all leaves become 0.
fn height(random: &mut Random, bytes: &mut [u8]) {
    bytes[desk::HEIGHT] = draw::bad_height(random);
    if bytes[desk::HEIGHT] > 0 {
        return;
    }
    let ids = Desk(bytes).ids();
    for id in 1..=ids {
        desk::set_number(bytes, desk::position_at(id), 0);
    }
    for place in 0..usize::from(Desk(bytes).stash_count()) {
        desk::set_number(bytes, desk::stash_slot_at(ids, place) + 2, 0);
    }
    desk::set_number(bytes, desk::NEW_LEAF, 0);
}

/// Rebuilds the desk around a number of ids that is out of range.
fn ids(random: &mut Random, bytes: &mut Vec<u8>) {
    let drawn = random.range(4097, 65535) as u16;
    let ids = random.pick(&[0, 4097, drawn, 65535]);
    let room = Desk(bytes).room();
    if ids == 0 {
        // No id could be requested.
        to_ready(bytes);
    }
    bytes.truncate(desk::POSITIONS);
    bytes.resize(desk::stash_slot_at(ids, usize::from(room)), 0);
    desk::set_number(bytes, desk::IDS, ids);
    bytes[..desk::CONTENTS].copy_from_slice(&desk::contents(ids, room));
}

/// Takes the request away.
pub fn to_ready(bytes: &mut [u8]) {
    bytes[desk::STATUS] = desk::READY;
    bytes[desk::REQUEST].fill(0);
}

/// Has a request that is good, at a status other than 0.
fn to_open(random: &mut Random, bytes: &mut [u8]) {
    if bytes[desk::STATUS] == desk::READY {
        bytes[desk::STATUS] = random.range(1, 4) as u8;
        desk::set_number(bytes, desk::ID, 1);
    }
}

/// Spoils mark or position of an id that isn't in the stash.
fn position(random: &mut Random, bytes: &mut [u8], flaw: Flaw) -> bool {
    let desk = Desk(bytes);
    let stash = desk.stash().chunks_exact(SLOT);
    let stashed: Vec<u16> = stash.map(|slot| desk::number(slot, 0)).collect();
    let free: Vec<u16> = (1..=desk.ids())
        .filter(|id| !stashed.contains(id))
        .collect();
    if free.is_empty() {
        return false;
    }
    let last = free.len() - 1;
    let drawn = random.index(free.len());
    let at = desk::position_at(free[random.pick(&[0, drawn, last])]);
    if flaw == Flaw::Mark {
        bytes[at + 2] = random.range(2, 255) as u8;
    } else {
        let leaf = draw::bad_leaf(random, bytes[desk::HEIGHT]);
        desk::set_number(bytes, at, leaf);
    }
    true
}

fn stash(random: &mut Random, bytes: &mut [u8], flaw: Flaw) -> bool {
    let desk = Desk(bytes);
    let (ids, count) = (desk.ids(), usize::from(desk.stash_count()));
    if flaw == Flaw::StashUnused {
        let start = desk::stash_slot_at(ids, count);
        let unused = start < bytes.len();
        if unused {
            flip(random, bytes, start, bytes.len());
        }
        return unused;
    }
    if count == 0 || (flaw == Flaw::StashOrder && count == 1) {
        return false;
    }
    let (first, last) = (
        desk::stash_slot_at(ids, 0),
        desk::stash_slot_at(ids, count - 1),
    );
    let at = desk::stash_slot_at(ids, random.index(count));
    match flaw {
        Flaw::StashOrder => out_of_order(random, &mut bytes[first..last + SLOT]),
        // At the ends, so that the ids still rise.
        Flaw::StashId if random.once_in(2) => desk::set_number(bytes, first, 0),
        Flaw::StashId => {
            let drawn = random.range(u64::from(ids) + 1, 65535) as u16;
            desk::set_number(bytes, last, random.pick(&[ids + 1, drawn, 65535]));
        }
        Flaw::StashMark => bytes[desk::position_at(desk::number(bytes, at)) + 2] = 0,
        _ => flip(random, bytes, at + 2, at + 4),
    }
    true
}

/// Turns two neighbours around, or has one of them twice.
fn out_of_order(random: &mut Random, slots: &mut [u8]) {
    let start = SLOT * random.index(slots.len() / SLOT - 1);
    let (one, two) = slots[start..start + 2 * SLOT].split_at_mut(SLOT);
    match random.below(3) {
        0 => one.copy_from_slice(two),
        1 => two.copy_from_slice(one),
        _ => one.swap_with_slice(two),
    }
}

fn request(random: &mut Random, bytes: &mut [u8], flaw: Flaw) {
    to_open(random, bytes);
    match flaw {
        Flaw::Kind => bytes[desk::KIND] = random.range(2, 255) as u8,
        Flaw::RequestId => {
            let id = draw::bad_id(random, Desk(bytes).ids());
            desk::set_number(bytes, desk::ID, id);
        }
        Flaw::RequestLeaf => {
            let leaf = draw::bad_leaf(random, bytes[desk::HEIGHT]);
            desk::set_number(bytes, desk::NEW_LEAF, leaf);
        }
        _ => {
            bytes[desk::KIND] = desk::READ;
            bytes[desk::REQUEST_RECORD].fill(0);
            flip(random, bytes, 120, 184);
        }
    }
}
