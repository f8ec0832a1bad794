//! When a desk is good.

use crate::desk::{self, Desk};
use crate::found::Found;
use crate::named;
use crate::sizes::{HIGHEST, MOST_IDS, MOST_SLOTS, SLOT};

named! {
    /// The conditions of a good desk, each as what is wrong without it.
    Flaw {
        Short = "shorter than 48",
        Length = "another length than its sizes give",
        Contents = "contents not the computed ones",
        Height = "L out of range",
        Slots = "Z out of range",
        Ids = "N out of range",
        Status = "status out of range",
        RootWritten = "root written not 0 or 1",
        Mark = "a mark not 0 or 1",
        Zeros = "a named zero byte not zero",
        Position = "a position that is no leaf",
        StashCount = "stash count above S",
        StashOrder = "stash ids not strictly rising",
        StashId = "a stash id not 1 to N",
        StashMark = "a stash id not marked",
        StashLeaf = "a stash leaf not its position",
        StashUnused = "an unused stash slot not zero",
        ReadyRequest = "a request at status 0",
        Kind = "kind not 0 or 1",
        RequestId = "requested id not 1 to N",
        RequestLeaf = "new leaf out of range",
        ReadRecord = "a record in a read",
    }
}

/// Everything that is wrong with a desk.
pub fn flaws(bytes: &[u8]) -> Found<Flaw> {
    let mut found = Found::none();
    found.add_if(bytes.len() < desk::SIZES_END, Flaw::Short);
    if !found.is_none() {
        return found;
    }
    let desk = Desk(bytes);
    let length = 186 + 3 * usize::from(desk.ids()) + SLOT * usize::from(desk.room());
    found.add_if(bytes.len() != length, Flaw::Length);
    if !found.is_none() {
        // Without its length, nothing further can be found in the desk.
        return found;
    }
    sizes(desk, &mut found);
    positions(desk, &mut found);
    stash(desk, &mut found);
    request(desk, &mut found);
    found
}

pub fn is_good(bytes: &[u8]) -> bool {
    flaws(bytes).is_none()
}

fn sizes(desk: Desk, found: &mut Found<Flaw>) {
    let bytes = desk.0;
    let computed = desk::contents(desk.ids(), desk.room());
    found.add_if(bytes[..desk::CONTENTS] != computed, Flaw::Contents);
    found.add_if(!(1..=HIGHEST).contains(&desk.height()), Flaw::Height);
    let slots = bytes[desk::SLOTS];
    found.add_if(!(1..=MOST_SLOTS).contains(&slots), Flaw::Slots);
    found.add_if(!(1..=MOST_IDS).contains(&desk.ids()), Flaw::Ids);
    found.add_if(desk.status() > desk::STOPPED_FULL, Flaw::Status);
    found.add_if(bytes[desk::ROOT_WRITTEN] > 1, Flaw::RootWritten);
    let zeros = [bytes[desk::SIZES_ZERO], bytes[desk::KIND_ZERO]];
    let named_zeros = all_zero(&zeros) && all_zero(&bytes[desk::LEAF_ZEROS]);
    found.add_if(!named_zeros, Flaw::Zeros);
}

/// The number of leaves, also for a height that is out of range; a leaf has
/// 16 bits, so higher trees than 16 have every leaf.
fn leaves(desk: Desk) -> u32 {
    1 << desk.height().min(16)
}

fn positions(desk: Desk, found: &mut Found<Flaw>) {
    let leaves = leaves(desk);
    let (mut off, mut marks) = (false, 0);
    for entry in desk.positions().chunks_exact(3) {
        off |= u32::from(desk::number(entry, 0)) >= leaves;
        marks |= entry[2];
    }
    found.add_if(off, Flaw::Position);
    found.add_if(marks > 1, Flaw::Mark);
}

fn stash(desk: Desk, found: &mut Found<Flaw>) {
    let count = usize::from(desk.stash_count());
    found.add_if(count > usize::from(desk.room()), Flaw::StashCount);
    let (used, unused) = desk
        .stash_room()
        .split_at_checked(SLOT * count)
        .unwrap_or((desk.stash_room(), &[]));
    let mut last = None;
    for slot in used.chunks_exact(SLOT) {
        let (id, leaf) = (desk::number(slot, 0), desk::number(slot, 2));
        found.add_if(last.is_some_and(|last| id <= last), Flaw::StashOrder);
        found.add_if(!desk.has_id(id), Flaw::StashId);
        if desk.has_id(id) {
            found.add_if(!desk.is_marked(id), Flaw::StashMark);
            found.add_if(leaf != desk.position(id), Flaw::StashLeaf);
        }
        last = Some(id);
    }
    found.add_if(!all_zero(unused), Flaw::StashUnused);
}

fn request(desk: Desk, found: &mut Found<Flaw>) {
    if desk.status() == desk::READY {
        // The named zeros have a condition of their own.
        let told = [
            &desk.0[desk::ID..desk::LEAF_ZEROS.start],
            desk.request_record(),
        ];
        let zero = desk.kind() == 0 && told.into_iter().all(all_zero);
        found.add_if(!zero, Flaw::ReadyRequest);
        return;
    }
    found.add_if(desk.kind() > desk::WRITE, Flaw::Kind);
    found.add_if(!desk.has_id(desk.requested()), Flaw::RequestId);
    let off = u32::from(desk.new_leaf()) >= leaves(desk);
    found.add_if(off, Flaw::RequestLeaf);
    let read = desk.kind() == desk::READ;
    found.add_if(read && !all_zero(desk.request_record()), Flaw::ReadRecord);
}

/// Without an early end, so that it is fast where all are zero.
fn all_zero(bytes: &[u8]) -> bool {
    bytes.iter().fold(0, |all, byte| all | byte) == 0
}
