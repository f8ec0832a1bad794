//! Desks with an open request, and paths for them whose digests all fit, made
//! from nothing with the key at hand.
//!
//! An honest history keeps its slots in order and its counters low. Here every
//! path is made that the checks let through, and then one of them is broken.

use super::draw;
use super::seal::Item;
use crate::desk::{self, Desk};
use crate::format::{format, Sizes};
use crate::item::{Block, Child};
use crate::random::Random;
use crate::sizes::{desk_length, Shape, SLOT};

const EMPTY: Block = Block {
    id: 0,
    leaf: 0,
    record: [0; 64],
};

#[derive(Clone)]
pub struct Made {
    pub shape: Shape,
    pub desk: Vec<u8>,
    /// The leaf at the end of the path.
    pub leaf: u16,
    /// The reachable items, from the root.
    pub items: Vec<Item>,
    /// More blocks than path and stash have slots.
    pub overfull: bool,
    /// Bytes of the unreachable items.
    pub junk: Vec<u8>,
    /// Ids that stand in no slot.
    pub unused: Vec<u16>,
}

impl Made {
    /// A good desk with an open request, and a path that fits it.
    pub fn new(random: &mut Random, sizes: Sizes) -> Made {
        let shape = draw::shape(sizes);
        let mut made = Made {
            shape,
            desk: fresh_desk(random, sizes),
            leaf: 0,
            items: Vec::new(),
            overfull: false,
            junk: vec![0; shape.path_length()],
            unused: (1..=sizes.ids).collect(),
        };
        random.fill(&mut made.junk);
        made.tempt(random);
        let brim = random.once_in(6);
        made.make_items(random, brim);
        let id = made.make_request(random, brim);
        made.fill_slots(random, brim);
        made.fill_stash(random, brim, id);
        made
    }

    /// Has items that look as if they led on, or were worn, where nothing is
    /// to be looked at.
    fn tempt(&mut self, random: &mut Random) {
        let shape = self.shape;
        for level in 0..shape.levels() {
            let item = &mut self.junk[shape.in_path(level)];
            if random.once_in(4) {
                item[..8].fill(0xff);
            }
            if level < usize::from(shape.height) && random.once_in(2) {
                item[Child::Left.flag(shape)] = 1;
                item[Child::Right.flag(shape)] = 1;
            }
        }
    }

    fn make_items(&mut self, random: &mut Random, brim: bool) {
        let levels = self.shape.levels();
        let drawn = random.index(levels + 1);
        let reachable = if brim {
            levels
        } else {
            random.pick(&[drawn, drawn, levels])
        };
        let slots = vec![EMPTY; usize::from(self.shape.slots)];
        for _ in 0..reachable {
            let item = Item {
                counter: counter(random),
                slots: slots.clone(),
                flags: [random.below(2) as u8, random.below(2) as u8],
                digests: [random.bytes(), random.bytes()],
            };
            self.items.push(item);
        }
        self.desk[desk::ROOT_WRITTEN] = u8::from(reachable > 0);
    }

    /// Opens a request and sets the flags towards its leaf.
    fn make_request(&mut self, random: &mut Random, brim: bool) -> u16 {
        let id = self.take_unused(random).expect("there is an id");
        self.leaf = Desk(&self.desk).position(id);
        for level in 0..self.items.len().min(usize::from(self.shape.height)) {
            let child = Child::towards(self.shape, self.leaf, level);
            let flag = u8::from(level + 1 < self.items.len());
            self.items[level].flags[child as usize] = flag;
        }
        let write = brim || random.once_in(2);
        // Asking for the same leaf again lets a history go on from here.
        let drawn = draw::leaf(random, self.shape);
        let new_leaf = random.pick(&[drawn, drawn, self.leaf]);
        self.desk[desk::STATUS] = desk::OPEN;
        self.desk[desk::KIND] = u8::from(write);
        desk::set_number(&mut self.desk, desk::ID, id);
        desk::set_number(&mut self.desk, desk::NEW_LEAF, new_leaf);
        if write {
            random.fill(&mut self.desk[desk::REQUEST_RECORD]);
        }
        let marked = !brim && !self.items.is_empty() && random.once_in(2);
        self.mark(id, u8::from(marked));
        if marked {
            let level = random.index(self.items.len());
            let place = random.index(usize::from(self.shape.slots));
            let record = random.bytes();
            let leaf = self.leaf;
            self.items[level].slots[place] = Block { id, leaf, record };
        }
        id
    }

    fn fill_slots(&mut self, random: &mut Random, brim: bool) {
        let in_four = if brim { 4 } else { random.below(5) };
        for level in 0..self.items.len() {
            for place in 0..usize::from(self.shape.slots) {
                if self.items[level].slots[place].id != 0 {
                    continue;
                }
                let block = if random.below(4) < in_four {
                    self.new_block(random, level)
                } else {
                    None
                };
                self.items[level].slots[place] = block.unwrap_or_else(|| empty(random));
            }
        }
    }

    /// A block of an unused id that may stand at `level` of the path.
    pub fn new_block(&mut self, random: &mut Random, level: usize) -> Option<Block> {
        let id = self.take_unused(random)?;
        let below = usize::from(self.shape.height) - level;
        let leaf = self.leaf >> below << below | random.below(1 << below) as u16;
        self.mark(id, 1);
        desk::set_number(&mut self.desk, desk::position_at(id), leaf);
        let record = random.bytes();
        Some(Block { id, leaf, record })
    }

    fn fill_stash(&mut self, random: &mut Random, brim: bool, requested: u16) {
        let room = usize::from(Desk(&self.desk).room());
        let most = room.min(self.unused.len());
        let drawn = random.index(most + 1);
        let mut count = random.pick(&[0, most.min(1), most.min(2), drawn, most]);
        if brim {
            count = most;
        }
        let mut blocks: Vec<Block> = (0..count)
            .filter_map(|_| self.new_block(random, 0))
            .collect();
        let marked = Desk(&self.desk).is_marked(requested);
        if !brim && !marked && blocks.len() < room && random.once_in(2) {
            self.mark(requested, 1);
            let (leaf, record) = (self.leaf, random.bytes());
            blocks.push(Block {
                id: requested,
                leaf,
                record,
            });
        }
        let no_gap = self
            .items
            .iter()
            .flat_map(|item| &item.slots)
            .all(|slot| slot.id != 0);
        self.overfull = brim && no_gap && blocks.len() == room;
        self.set_stash(blocks);
    }

    fn set_stash(&mut self, mut blocks: Vec<Block>) {
        blocks.sort_by_key(|block| block.id);
        let ids = Desk(&self.desk).ids();
        desk::set_number(&mut self.desk, desk::stash_at(ids), blocks.len() as u16);
        let slots = &mut self.desk[desk::stash_slot_at(ids, 0)..];
        for (slot, block) in slots.chunks_exact_mut(SLOT).zip(&blocks) {
            block.write(slot);
        }
    }

    pub fn mark(&mut self, id: u16, mark: u8) {
        self.desk[desk::position_at(id) + 2] = mark;
    }

    pub fn take_unused(&mut self, random: &mut Random) -> Option<u16> {
        if self.unused.is_empty() {
            return None;
        }
        let place = random.index(self.unused.len());
        Some(self.unused.swap_remove(place))
    }

    /// Level and place of every slot that satisfies `wanted`.
    pub fn slots(&self, wanted: impl Fn(usize, &Block) -> bool) -> Vec<(usize, usize)> {
        let mut found = Vec::new();
        for (level, item) in self.items.iter().enumerate() {
            let places = item.slots.iter().enumerate();
            let kept = places.filter(|(_, slot)| wanted(level, slot));
            found.extend(kept.map(|(place, _)| (level, place)));
        }
        found
    }
}

fn fresh_desk(random: &mut Random, sizes: Sizes) -> Vec<u8> {
    let length = desk_length(sizes.ids, sizes.stash).expect("ids in range");
    let mut bytes = vec![0; length];
    let shape = draw::shape(sizes);
    let starts: Vec<u16> = (0..sizes.ids).map(|_| draw::leaf(random, shape)).collect();
    format(&mut bytes, sizes, &random.bytes::<32>(), &starts).expect("sizes in range");
    // Marked ids that stand neither on the path nor in the stash are
    // elsewhere in the tree.
    let in_four = random.below(5);
    for id in 1..=sizes.ids {
        bytes[desk::position_at(id) + 2] = u8::from(random.below(4) < in_four);
    }
    random.fill(&mut bytes[desk::ROOT_DIGEST]);
    bytes
}

fn counter(random: &mut Random) -> u64 {
    let drawn = random.word() >> random.below(64);
    let low = random.below(1000);
    match random.below(40) {
        0 => u64::MAX - 1,
        1 => 0,
        2 => drawn.min(u64::MAX - 1),
        _ => low,
    }
}

/// An empty slot, whose leaf and record are ignored.
fn empty(random: &mut Random) -> Block {
    if random.once_in(2) {
        return EMPTY;
    }
    Block {
        id: 0,
        leaf: random.word() as u16,
        record: random.bytes(),
    }
}
