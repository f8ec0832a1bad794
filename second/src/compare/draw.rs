//! Sizes and arguments of a comparison, drawn so that the ends of every range
//! come up often.

use super::tally::Tally;
use crate::format::Sizes;
use crate::random::Random;
use crate::sizes::Shape;

/// Sizes for a history. Heights take turns, so that all of them come up.
pub fn sizes(random: &mut Random, history: u64, highest: u8) -> Sizes {
    let height = 1 + (history % u64::from(highest)) as u8;
    let drawn_stash = random.byte();
    let few = random.range(1, 16) as u16;
    let some = random.range(1, 2 << height.min(11)) as u16;
    let any = random.range(1, 4096) as u16;
    Sizes {
        height,
        slots: random.range(1, 8) as u8,
        stash: random.pick(&[0, 1, 2, 3, 5, 20, drawn_stash, drawn_stash, 255]),
        ids: random.pick(&[1, 2, 3, few, few, few, some, some, some, any, 4096]),
    }
}

pub fn count_sizes(tally: &mut Tally, sizes: Sizes) {
    let ends = [
        (sizes.height == 1, "L=1"),
        (sizes.height == 12, "L=12"),
        (sizes.slots == 1, "Z=1"),
        (sizes.slots == 8, "Z=8"),
        (sizes.stash == 0, "S=0"),
        (sizes.stash == 255, "S=255"),
        (sizes.ids == 1, "N=1"),
        (sizes.ids == 4096, "N=4096"),
    ];
    for (reached, name) in ends {
        if reached {
            tally.reach("sizes", name);
        }
    }
}

pub fn shape(sizes: Sizes) -> Shape {
    Shape {
        height: sizes.height,
        slots: sizes.slots,
    }
}

pub fn leaf(random: &mut Random, shape: Shape) -> u16 {
    random.below(u64::from(shape.leaves())) as u16
}

/// Some leaves, drawn one by one.
pub fn leaves(random: &mut Random, shape: Shape, count: usize) -> Vec<u16> {
    (0..count).map(|_| leaf(random, shape)).collect()
}

/// A leaf of 2^L or more.
pub fn bad_leaf(random: &mut Random, height: u8) -> u16 {
    let first = 1 << height;
    let drawn = random.range(first, 65535);
    random.pick(&[first, first + 1, drawn, 65535]) as u16
}

/// A height that is out of range.
pub fn bad_height(random: &mut Random) -> u8 {
    let drawn = random.range(13, 255) as u8;
    random.pick(&[0, 13, 16, 32, 64, drawn, 255])
}

/// A number of slots that is out of range.
pub fn bad_slots(random: &mut Random) -> u8 {
    let drawn = random.range(9, 255) as u8;
    random.pick(&[0, 9, drawn, 255])
}

/// An id that isn't 1 to N.
pub fn bad_id(random: &mut Random, ids: u16) -> u16 {
    let drawn = random.range(u64::from(ids) + 1, 65535) as u16;
    random.pick(&[0, ids + 1, drawn, 65535])
}

/// Another length than the exact one.
pub fn bad_length(random: &mut Random, exact: usize) -> usize {
    let drawn = random.index(2 * exact + 2);
    let length = random.pick(&[0, exact.saturating_sub(1), exact + 1, drawn]);
    if length == exact {
        exact + 1
    } else {
        length
    }
}
