//! Turning made items into the bytes of a path.

use super::made::Made;
use crate::desk::{self, Desk};
use crate::item::{self, Block, Child};
use crate::sizes::{Shape, SLOT};

/// One item that is going to be reachable.
#[derive(Clone)]
pub struct Item {
    pub counter: u64,
    pub slots: Vec<Block>,
    pub flags: [u8; 2],
    pub digests: [[u8; 32]; 2],
}

/// One bit of one item's digest, to be turned where the digest is compared.
#[derive(Clone, Copy)]
pub struct WrongBit {
    pub level: usize,
    pub byte: usize,
    pub bit: u8,
}

impl Made {
    /// The path as bytes, with all digests made to fit but for the wrong bit.
    pub fn seal(&mut self, wrong: Option<WrongBit>) -> Vec<u8> {
        let (shape, key) = (self.shape, Desk(&self.desk).key());
        let mut path = self.junk.clone();
        for level in (0..self.items.len()).rev() {
            let bucket = shape.bucket(self.leaf, level);
            let bytes = &mut path[shape.in_path(level)];
            write_item(shape, &key, bucket, &self.items[level], bytes);
            let mut digest = item::digest(shape, bytes);
            if let Some(wrong) = wrong.filter(|wrong| wrong.level == level) {
                digest[wrong.byte] ^= 1 << wrong.bit;
            }
            match level {
                0 => self.desk[desk::ROOT_DIGEST].copy_from_slice(&digest),
                _ => {
                    let child = Child::towards(shape, self.leaf, level - 1);
                    self.items[level - 1].digests[child as usize] = digest;
                }
            }
        }
        path
    }
}

fn write_item(shape: Shape, key: &[u8; 32], bucket: u32, item: &Item, bytes: &mut [u8]) {
    bytes[..8].copy_from_slice(&item.counter.to_le_bytes());
    let slots = &mut bytes[item::slots(shape)];
    for (slot, block) in slots.chunks_exact_mut(SLOT).zip(&item.slots) {
        block.write(slot);
    }
    item::cipher(key, item.counter, bucket, slots);
    if bytes.len() == shape.inner_item() {
        for child in [Child::Left, Child::Right] {
            bytes[child.flag(shape)] = item.flags[child as usize];
            bytes[child.digest(shape)].copy_from_slice(&item.digests[child as usize]);
        }
    }
}
