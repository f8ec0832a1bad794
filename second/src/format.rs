//! Format: writing a fresh desk.

use crate::answer::{ensure, Refusal};
use crate::desk;
use crate::sizes::{desk_length, Shape, KEY};

/// The sizes that a store is formatted with.
#[derive(Clone, Copy, Debug, PartialEq, Eq)]
pub struct Sizes {
    pub height: u8,
    pub slots: u8,
    pub stash: u8,
    pub ids: u16,
}

impl Sizes {
    pub fn shape(self) -> Option<Shape> {
        Shape::new(self.height, self.slots)
    }
}

/// Writes a desk at status 0 with every id at its starting leaf.
pub fn format(bytes: &mut [u8], sizes: Sizes, key: &[u8], starts: &[u16]) -> Result<(), Refusal> {
    let shape = sizes.shape().ok_or(Refusal::BadSize)?;
    let length = desk_length(sizes.ids, sizes.stash).ok_or(Refusal::BadSize)?;
    ensure(bytes.len() == length, Refusal::BadLength)?;
    ensure(starts.len() == usize::from(sizes.ids), Refusal::BadLength)?;
    ensure(key.len() == KEY, Refusal::BadLength)?;
    let leaves = starts.iter().all(|leaf| shape.is_leaf(*leaf));
    ensure(leaves, Refusal::BadLeaf)?;

    bytes.fill(0);
    bytes[..desk::CONTENTS].copy_from_slice(&desk::contents(sizes.ids, sizes.stash));
    bytes[desk::HEIGHT] = sizes.height;
    bytes[desk::SLOTS] = sizes.slots;
    bytes[desk::ROOM] = sizes.stash;
    desk::set_number(bytes, desk::IDS, sizes.ids);
    bytes[desk::KEY_AT].copy_from_slice(key);
    for (entry, leaf) in bytes[desk::POSITIONS..].chunks_exact_mut(3).zip(starts) {
        desk::set_number(entry, 0, *leaf);
    }
    Ok(())
}
