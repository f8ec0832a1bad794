//! Finish: checking a path, answering, and writing it anew.

use crate::answer::{ensure, Answer, Refusal};
use crate::check::{self, Opened};
use crate::desk::{self, Desk};
use crate::good::is_good;
use crate::item::{self, Block, Child};
use crate::place::{place, Home};
use crate::sizes::{RECORD, SLOT};

/// Finishes the open request over the path that was fetched for it.
pub fn finish(bytes: &mut [u8], path: &mut [u8], record: &mut [u8]) -> Result<Answer, Refusal> {
    may_finish(bytes, path, record)?;
    match answer(Desk(bytes), path) {
        Ok(finished) => {
            if let Some(found) = finished.found {
                record.copy_from_slice(&found);
            }
            let digest = write_path(Desk(bytes), path, &finished);
            write_desk(bytes, &digest, &finished);
            Ok(finished.answer)
        }
        Err(stop) => {
            bytes[desk::STATUS] = match stop {
                Refusal::Worn => desk::STOPPED_WORN,
                Refusal::Full => desk::STOPPED_FULL,
                _ => desk::STOPPED_FORGED,
            };
            Err(stop)
        }
    }
}

fn may_finish(bytes: &[u8], path: &[u8], record: &[u8]) -> Result<(), Refusal> {
    ensure(is_good(bytes), Refusal::BadDesk)?;
    let desk = Desk(bytes);
    ensure(desk.status() <= desk::OPEN, Refusal::Stopped)?;
    ensure(desk.status() == desk::OPEN, Refusal::NotOpen)?;
    let exact = path.len() == desk.shape().path_length() && record.len() == RECORD;
    ensure(exact, Refusal::BadLength)
}

/// All that an accepted finish is going to write.
struct Finished {
    answer: Answer,
    /// The record of a read that found one.
    found: Option<[u8; RECORD]>,
    opened: Opened,
    /// Every block of path and stash, by rising id, and where it goes.
    blocks: Vec<Block>,
    homes: Vec<Home>,
}

/// Steps 1 to 5, without writing anything.
fn answer(desk: Desk, path: &[u8]) -> Result<Finished, Refusal> {
    let opened = Opened::new(desk, path);
    let believed = check::faults(desk, path, &opened).is_none();
    ensure(believed, Refusal::Forged)?;
    ensure(!opened.is_worn(path), Refusal::Worn)?;

    let (mut blocks, old) = blocks(desk, &opened);
    let (answer, found) = match (desk.kind(), old) {
        (desk::READ, Some(old)) => (Answer::Record, Some(old.record)),
        (desk::READ, None) => (Answer::Never, None),
        _ => (Answer::Done, None),
    };
    blocks.extend(renewed(desk, old));
    blocks.sort_unstable_by_key(|block| block.id);

    let homes = place(opened.shape, opened.leaf, &blocks);
    let rest = homes.iter().filter(|home| **home == Home::Stash).count();
    ensure(rest <= usize::from(desk.room()), Refusal::Full)?;
    Ok(Finished {
        answer,
        found,
        opened,
        blocks,
        homes,
    })
}

/// The blocks of path and stash, and apart from them the requested one.
fn blocks(desk: Desk, opened: &Opened) -> (Vec<Block>, Option<Block>) {
    let on_path = opened.used().map(|(_, slot)| slot);
    let slots = on_path.chain(desk.stash().chunks_exact(SLOT));
    let mut blocks = Vec::with_capacity(64);
    let mut requested = None;
    for block in slots.map(Block::read) {
        if block.id == desk.requested() {
            requested = Some(block);
        } else {
            blocks.push(block);
        }
    }
    (blocks, requested)
}

/// The requested block under its new leaf, if there is one after the request.
fn renewed(desk: Desk, old: Option<Block>) -> Option<Block> {
    let mut record = old.map(|block| block.record);
    if desk.kind() == desk::WRITE {
        record = desk.request_record().try_into().ok();
    }
    record.map(|record| Block {
        id: desk.requested(),
        leaf: desk.new_leaf(),
        record,
    })
}

/// Writes every item, from the leaf up because a parent holds its child's
/// digest, and hands back the digest of the root.
fn write_path(desk: Desk, path: &mut [u8], finished: &Finished) -> [u8; 32] {
    let opened = &finished.opened;
    let shape = opened.shape;
    let key = desk.key();
    let mut digest = [0; 32];
    for level in (0..shape.levels()).rev() {
        let item = &mut path[shape.in_path(level)];
        let was_reachable = level < opened.reachable;
        let counter = match was_reachable {
            true => item::counter(item) + 1,
            false => 1,
        };
        item[..8].copy_from_slice(&counter.to_le_bytes());

        let slots = &mut item[item::slots(shape)];
        write_slots(slots, finished, Home::Level(level));
        item::cipher(&key, counter, shape.bucket(opened.leaf, level), slots);

        if level < usize::from(shape.height) {
            let child = Child::towards(shape, opened.leaf, level);
            item[child.flag(shape)] = 1;
            item[child.digest(shape)].copy_from_slice(&digest);
            let sibling = child.sibling();
            if !was_reachable || item[sibling.flag(shape)] != 1 {
                item[sibling.flag(shape)] = 0;
                item[sibling.digest(shape)].fill(0);
            }
        }
        digest = item::digest(shape, item);
    }
    digest
}

/// Writes the blocks of one home, then zeros, and tells how many there were.
fn write_slots(slots: &mut [u8], finished: &Finished, here: Home) -> u16 {
    let homes = finished.blocks.iter().zip(&finished.homes);
    let blocks = homes.filter(|(_, home)| **home == here);
    let mut count = 0;
    for (slot, (block, _)) in slots.chunks_exact_mut(SLOT).zip(blocks) {
        block.write(slot);
        count += 1;
    }
    slots[SLOT * usize::from(count)..].fill(0);
    count
}

fn write_desk(bytes: &mut [u8], digest: &[u8; 32], finished: &Finished) {
    let desk = Desk(bytes);
    let (id, leaf, ids) = (desk.requested(), desk.new_leaf(), desk.ids());
    desk::set_number(bytes, desk::position_at(id), leaf);
    if finished.answer == Answer::Done {
        bytes[desk::position_at(id) + 2] = 1;
    }
    let slots = &mut bytes[desk::stash_slot_at(ids, 0)..];
    let count = write_slots(slots, finished, Home::Stash);
    desk::set_number(bytes, desk::stash_at(ids), count);

    bytes[desk::ROOT_DIGEST].copy_from_slice(digest);
    bytes[desk::ROOT_WRITTEN] = 1;
    bytes[desk::REQUEST].fill(0);
    bytes[desk::STATUS] = desk::READY;
}
