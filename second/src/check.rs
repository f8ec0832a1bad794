//! Steps 1 and 2 of a finish: what can be reached, and whether it is to be
//! believed.

use crate::desk::{self, Desk};
use crate::found::Found;
use crate::item::{self, Child};
use crate::named;
use crate::sizes::{Shape, MOST_IDS, SLOT};

named! {
    /// The checks of a path, each as what is wrong where it fails.
    Fault {
        RootDigest = "digest of the root wrong",
        ChildDigest = "digest of a child wrong",
        Flag = "a flag not 0 or 1",
        IdAboveN = "id above N",
        Unmarked = "id not marked",
        LeafDiffers = "leaf not its position",
        OffTheWay = "bucket not on the way to the leaf",
        TwiceOnPath = "id twice on the path",
        AlsoInStash = "id on the path and in the stash",
        Missing = "requested id missing",
    }
}

/// The part of a path that can be reached, with its slots deciphered.
pub struct Opened {
    pub shape: Shape,
    /// The leaf at the end of the path.
    pub leaf: u16,
    /// The number of reachable items. They are the first ones, since a child
    /// is reachable only where its parent is.
    pub reachable: usize,
    /// The slots of these items, one item after the other.
    pub slots: Vec<u8>,
}

impl Opened {
    /// Opens the path of a desk's open request. The desk is good, the path
    /// has its length.
    pub fn new(desk: Desk, path: &[u8]) -> Opened {
        let shape = desk.shape();
        let leaf = desk.position(desk.requested());
        let reachable = reachable(desk, shape, leaf, path);
        let key = desk.key();
        let mut slots = Vec::with_capacity(reachable * shape.slots_length());
        for level in 0..reachable {
            let item = &path[shape.in_path(level)];
            let start = slots.len();
            slots.extend_from_slice(&item[item::slots(shape)]);
            let bucket = shape.bucket(leaf, level);
            item::cipher(&key, item::counter(item), bucket, &mut slots[start..]);
        }
        Opened {
            shape,
            leaf,
            reachable,
            slots,
        }
    }

    /// Every slot that isn't empty, with its level.
    pub fn used(&self) -> impl Iterator<Item = (usize, &[u8])> {
        let per_item = usize::from(self.shape.slots);
        let slots = self.slots.chunks_exact(SLOT).enumerate();
        slots
            .map(move |(place, slot)| (place / per_item, slot))
            .filter(|(_, slot)| desk::number(slot, 0) != 0)
    }

    /// Whether a reachable item has the last counter.
    pub fn is_worn(&self, path: &[u8]) -> bool {
        (0..self.reachable).any(|level| item::counter(&path[self.shape.in_path(level)]) == u64::MAX)
    }
}

fn reachable(desk: Desk, shape: Shape, leaf: u16, path: &[u8]) -> usize {
    if !desk.root_written() {
        return 0;
    }
    let shut = (0..usize::from(shape.height)).find(|level| {
        let item = &path[shape.in_path(*level)];
        item[Child::towards(shape, leaf, *level).flag(shape)] != 1
    });
    shut.map_or(shape.levels(), |level| level + 1)
}

/// Every check that fails, of a path and what it opened to.
pub fn faults(desk: Desk, path: &[u8], opened: &Opened) -> Found<Fault> {
    let mut found = Found::none();
    digests(desk, path, opened, &mut found);
    flags(path, opened, &mut found);
    slots(desk, opened, &mut found);
    found
}

fn digests(desk: Desk, path: &[u8], opened: &Opened, found: &mut Found<Fault>) {
    let shape = opened.shape;
    let mut expected = desk.root_digest();
    for level in 0..opened.reachable {
        let item = &path[shape.in_path(level)];
        let wrong = item::digest(shape, item) != expected;
        let name = match level {
            0 => Fault::RootDigest,
            _ => Fault::ChildDigest,
        };
        found.add_if(wrong, name);
        if level < usize::from(shape.height) {
            expected = &item[Child::towards(shape, opened.leaf, level).digest(shape)];
        }
    }
}

fn flags(path: &[u8], opened: &Opened, found: &mut Found<Fault>) {
    let shape = opened.shape;
    for level in 0..opened.reachable.min(usize::from(shape.height)) {
        let item = &path[shape.in_path(level)];
        for child in [Child::Left, Child::Right] {
            found.add_if(item[child.flag(shape)] > 1, Fault::Flag);
        }
    }
}

fn slots(desk: Desk, opened: &Opened, found: &mut Found<Fault>) {
    let shape = opened.shape;
    let mut in_stash = Ids::default();
    for slot in desk.stash().chunks_exact(SLOT) {
        in_stash.insert(desk::number(slot, 0));
    }
    let mut on_path = Ids::default();
    for (level, slot) in opened.used() {
        let (id, leaf) = (desk::number(slot, 0), desk::number(slot, 2));
        if !desk.has_id(id) {
            // It has no position or mark to be compared with.
            found.add_if(true, Fault::IdAboveN);
            continue;
        }
        found.add_if(!desk.is_marked(id), Fault::Unmarked);
        found.add_if(leaf != desk.position(id), Fault::LeafDiffers);
        let on_the_way = shape.bucket(leaf, level) == shape.bucket(opened.leaf, level);
        found.add_if(!on_the_way, Fault::OffTheWay);
        found.add_if(on_path.insert(id), Fault::TwiceOnPath);
        found.add_if(in_stash.has(id), Fault::AlsoInStash);
    }
    let id = desk.requested();
    let there = on_path.has(id) || in_stash.has(id);
    found.add_if(desk.is_marked(id) && !there, Fault::Missing);
}

/// A set of ids from 1 to N.
struct Ids([u64; MOST_IDS as usize / 64 + 1]);

impl Default for Ids {
    fn default() -> Ids {
        Ids([0; MOST_IDS as usize / 64 + 1])
    }
}

impl Ids {
    fn has(&self, id: u16) -> bool {
        self.0[usize::from(id / 64)] >> (id % 64) & 1 == 1
    }

    /// Adds `id` and tells whether it was there already.
    fn insert(&mut self, id: u16) -> bool {
        let before = self.has(id);
        self.0[usize::from(id / 64)] |= 1 << (id % 64);
        before
    }
}
