//! One item of a path: its counter, slots, flags and digests.

use crate::chacha20::chacha20;
use crate::desk;
use crate::sha256::sha256;
use crate::sizes::{Shape, COUNTER, DIGEST, KEY, LONGEST_ITEM, SLOT};
use std::ops::Range;

/// One of the two children of an inner item.
#[derive(Clone, Copy, Debug, PartialEq, Eq)]
pub enum Child {
    Left,
    Right,
}

impl Child {
    /// The child of the item at `level` that lies on the path to `leaf`.
    pub fn towards(shape: Shape, leaf: u16, level: usize) -> Child {
        let below = usize::from(shape.height) - level - 1;
        if leaf >> below & 1 == 0 {
            Child::Left
        } else {
            Child::Right
        }
    }

    pub fn sibling(self) -> Child {
        match self {
            Child::Left => Child::Right,
            Child::Right => Child::Left,
        }
    }

    /// Where the flag for this child lies in an inner item.
    pub fn flag(self, shape: Shape) -> usize {
        shape.leaf_item() + self as usize
    }

    /// Where the digest of this child lies in an inner item.
    pub fn digest(self, shape: Shape) -> Range<usize> {
        let start = shape.leaf_item() + 2 + self as usize * DIGEST;
        start..start + DIGEST
    }
}

pub fn counter(item: &[u8]) -> u64 {
    let mut bytes = [0; COUNTER];
    bytes.copy_from_slice(&item[..COUNTER]);
    u64::from_le_bytes(bytes)
}

/// Where the slots lie in an item of either sort.
pub fn slots(shape: Shape) -> Range<usize> {
    COUNTER..shape.leaf_item()
}

/// The digest of an item as it lies, but with a child's digest read as zeros
/// where its flag is 0.
pub fn digest(shape: Shape, item: &[u8]) -> [u8; DIGEST] {
    let mut copy = [0; LONGEST_ITEM];
    let copy = &mut copy[..item.len()];
    copy.copy_from_slice(item);
    if item.len() == shape.inner_item() {
        for child in [Child::Left, Child::Right] {
            if item[child.flag(shape)] == 0 {
                copy[child.digest(shape)].fill(0);
            }
        }
    }
    sha256(copy)
}

/// Enciphers or deciphers the slots of one item.
pub fn cipher(key: &[u8; KEY], counter: u64, bucket: u32, slots: &mut [u8]) {
    let mut nonce = [0; 12];
    nonce[..8].copy_from_slice(&counter.to_le_bytes());
    nonce[8..].copy_from_slice(&bucket.to_le_bytes());
    chacha20(key, &nonce, 0, slots);
}

/// What a used slot holds.
#[derive(Clone, Copy, Debug, PartialEq, Eq)]
pub struct Block {
    pub id: u16,
    pub leaf: u16,
    pub record: [u8; 64],
}

impl Block {
    pub fn read(slot: &[u8]) -> Block {
        let mut record = [0; 64];
        record.copy_from_slice(&slot[4..SLOT]);
        Block {
            id: desk::number(slot, 0),
            leaf: desk::number(slot, 2),
            record,
        }
    }

    pub fn write(&self, slot: &mut [u8]) {
        desk::set_number(slot, 0, self.id);
        desk::set_number(slot, 2, self.leaf);
        slot[4..SLOT].copy_from_slice(&self.record);
    }
}
