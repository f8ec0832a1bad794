//! Lengths and places that follow from the sizes of a store.

use std::ops::Range;

pub const RECORD: usize = 64;
pub const SLOT: usize = 4 + RECORD;
pub const COUNTER: usize = 8;
pub const DIGEST: usize = 32;
pub const KEY: usize = 32;
/// Two flags and two digests, which only inner items have.
pub const LINKS: usize = 2 + 2 * DIGEST;
pub const LONGEST_ITEM: usize = COUNTER + 8 * SLOT + LINKS;

pub const HIGHEST: u8 = 12;
pub const MOST_SLOTS: u8 = 8;
pub const MOST_IDS: u16 = 4096;

/// Height and slots per bucket: all that the server side knows.
#[derive(Clone, Copy, Debug, PartialEq, Eq)]
pub struct Shape {
    pub height: u8,
    pub slots: u8,
}

impl Shape {
    /// A shape, if both sizes are in range.
    pub fn new(height: u8, slots: u8) -> Option<Shape> {
        let fits = (1..=HIGHEST).contains(&height) && (1..=MOST_SLOTS).contains(&slots);
        fits.then_some(Shape { height, slots })
    }

    pub fn levels(self) -> usize {
        usize::from(self.height) + 1
    }

    pub fn leaves(self) -> u32 {
        1 << self.height
    }

    pub fn is_leaf(self, leaf: u16) -> bool {
        u32::from(leaf) < self.leaves()
    }

    /// The slots of one item.
    pub fn slots_length(self) -> usize {
        SLOT * usize::from(self.slots)
    }

    pub fn leaf_item(self) -> usize {
        COUNTER + self.slots_length()
    }

    pub fn inner_item(self) -> usize {
        self.leaf_item() + LINKS
    }

    pub fn path_length(self) -> usize {
        usize::from(self.height) * self.inner_item() + self.leaf_item()
    }

    pub fn tree_length(self) -> usize {
        let leaves = self.leaves() as usize;
        (leaves - 1) * self.inner_item() + leaves * self.leaf_item()
    }

    /// The bucket of the path to `leaf` at `level`.
    pub fn bucket(self, leaf: u16, level: usize) -> u32 {
        let above = usize::from(self.height) - level;
        (1 << level) - 1 + (u32::from(leaf) >> above)
    }

    /// Where the item of `level` lies in a path.
    pub fn in_path(self, level: usize) -> Range<usize> {
        let start = level * self.inner_item();
        let inner = level < usize::from(self.height);
        start
            ..start
                + if inner {
                    self.inner_item()
                } else {
                    self.leaf_item()
                }
    }

    /// Where the item of `bucket` lies in a tree.
    pub fn in_tree(self, bucket: u32) -> Range<usize> {
        let bucket = bucket as usize;
        let inner = self.leaves() as usize - 1;
        if bucket < inner {
            let start = bucket * self.inner_item();
            start..start + self.inner_item()
        } else {
            let start = inner * self.inner_item() + (bucket - inner) * self.leaf_item();
            start..start + self.leaf_item()
        }
    }
}

/// The length of a desk, if the number of ids is in range. Every stash room is.
pub fn desk_length(ids: u16, stash: u8) -> Option<usize> {
    (1..=MOST_IDS)
        .contains(&ids)
        .then(|| 186 + 3 * usize::from(ids) + SLOT * usize::from(stash))
}
