//! Step 5 of a finish: which bucket takes which block.

use crate::item::Block;
use crate::sizes::Shape;

/// Where a block goes.
#[derive(Clone, Copy, Debug, PartialEq, Eq)]
pub enum Home {
    Level(usize),
    Stash,
}

/// The home of each block on the path to `leaf`. The blocks are given by
/// rising id, so the first that fit are the lowest.
pub fn place(shape: Shape, leaf: u16, blocks: &[Block]) -> Vec<Home> {
    let mut homes = vec![Home::Stash; blocks.len()];
    for level in (0..shape.levels()).rev() {
        let bucket = shape.bucket(leaf, level);
        let mut room = shape.slots;
        for (block, home) in blocks.iter().zip(&mut homes) {
            let fits = *home == Home::Stash && shape.bucket(block.leaf, level) == bucket;
            if fits && room > 0 {
                *home = Home::Level(level);
                room -= 1;
            }
        }
    }
    homes
}
