//! Breaking one check of a made path, with all the others left whole.

use super::made::Made;
use super::seal::WrongBit;
use crate::check::Fault;
use crate::desk::{self, Desk};
use crate::item::Block;
use crate::random::Random;
use crate::sizes::SLOT;

/// Breaks the check that `fault` names, where this path has a place for it.
/// Hands back the bit of a digest that is to be wrong, if that is the way.
pub fn spoil(random: &mut Random, made: &mut Made, fault: Fault) -> Option<Option<WrongBit>> {
    let levels = made.items.len();
    match fault {
        Fault::RootDigest => return (levels > 0).then(|| Some(wrong_bit(random, 0))),
        Fault::ChildDigest => {
            let child = (levels > 1).then(|| 1 + random.index(levels - 1));
            return child.map(|level| Some(wrong_bit(random, level)));
        }
        Fault::Flag => flag(random, made),
        Fault::IdAboveN => id_above(random, made),
        Fault::Unmarked => unmarked(random, made),
        Fault::LeafDiffers => leaf_differs(random, made),
        Fault::OffTheWay => off_the_way(random, made),
        Fault::TwiceOnPath => twice_on_path(random, made),
        Fault::AlsoInStash => also_in_stash(random, made),
        Fault::Missing => missing(made),
    }
    .then_some(None)
}

fn wrong_bit(random: &mut Random, level: usize) -> WrongBit {
    WrongBit {
        level,
        byte: random.index(32),
        bit: random.below(8) as u8,
    }
}

fn requested(made: &Made) -> u16 {
    Desk(&made.desk).requested()
}

/// A slot that satisfies `wanted`.
fn some_slot(
    random: &mut Random,
    made: &Made,
    wanted: impl Fn(usize, &Block) -> bool,
) -> Option<(usize, usize)> {
    let slots = made.slots(wanted);
    (!slots.is_empty()).then(|| random.pick(&slots))
}

fn flag(random: &mut Random, made: &mut Made) -> bool {
    let inner = made.items.len().min(usize::from(made.shape.height));
    if inner == 0 {
        return false;
    }
    let drawn = random.range(2, 255) as u8;
    let level = random.index(inner);
    made.items[level].flags[random.index(2)] = random.pick(&[2, 3, 128, drawn, 255]);
    true
}

fn id_above(random: &mut Random, made: &mut Made) -> bool {
    let (id, ids) = (requested(made), Desk(&made.desk).ids());
    let Some((level, place)) = some_slot(random, made, |_, slot| slot.id != id) else {
        return false;
    };
    let drawn = random.range(u64::from(ids) + 1, 65535) as u16;
    let slot = &mut made.items[level].slots[place];
    slot.id = random.pick(&[ids + 1, drawn, 65535]);
    true
}

fn unmarked(random: &mut Random, made: &mut Made) -> bool {
    let Some((level, place)) = some_slot(random, made, |_, slot| slot.id != 0) else {
        return false;
    };
    made.mark(made.items[level].slots[place].id, 0);
    true
}

/// The slot's leaf becomes another one below the same bucket, so that the
/// bucket stays on the way to both.
fn leaf_differs(random: &mut Random, made: &mut Made) -> bool {
    let height = usize::from(made.shape.height);
    let wanted = |level, slot: &Block| slot.id != 0 && level < height;
    let Some((level, place)) = some_slot(random, made, wanted) else {
        return false;
    };
    let others = (1 << (height - level)) - 1;
    made.items[level].slots[place].leaf ^= random.range(1, others) as u16;
    true
}

/// Leaf and position become one that the bucket doesn't lead to.
fn off_the_way(random: &mut Random, made: &mut Made) -> bool {
    let id = requested(made);
    let wanted = |level, slot: &Block| slot.id != 0 && slot.id != id && level > 0;
    let Some((level, place)) = some_slot(random, made, wanted) else {
        return false;
    };
    let turn = usize::from(made.shape.height) - 1 - random.index(level);
    let slot = &mut made.items[level].slots[place];
    slot.leaf ^= 1 << turn;
    let (id, leaf) = (slot.id, slot.leaf);
    desk::set_number(&mut made.desk, desk::position_at(id), leaf);
    true
}

fn twice_on_path(random: &mut Random, made: &mut Made) -> bool {
    let Some(first) = some_slot(random, made, |_, slot| slot.id != 0) else {
        return false;
    };
    let mut block = made.items[first.0].slots[first.1];
    put_again(random, made, first.0, &mut block)
}

fn also_in_stash(random: &mut Random, made: &mut Made) -> bool {
    let stash = Desk(&made.desk).stash();
    if stash.is_empty() {
        return false;
    }
    let place = random.index(stash.len() / SLOT);
    let mut block = Block::read(&stash[place * SLOT..]);
    let height = usize::from(made.shape.height);
    let shared = (0..=height).take_while(|level| {
        made.shape.bucket(block.leaf, *level) == made.shape.bucket(made.leaf, *level)
    });
    let deepest = shared.count() - 1;
    put_again(random, made, deepest, &mut block)
}

/// Puts a block into a further slot, no deeper than it may stand and not in
/// the place of the requested block.
fn put_again(random: &mut Random, made: &mut Made, deepest: usize, block: &mut Block) -> bool {
    let id = requested(made);
    let wanted = |level, slot: &Block| level <= deepest && slot.id != block.id && slot.id != id;
    let Some((level, place)) = some_slot(random, made, wanted) else {
        return false;
    };
    if random.once_in(2) {
        block.record = random.bytes();
    }
    made.items[level].slots[place] = *block;
    true
}

fn missing(made: &mut Made) -> bool {
    let id = requested(made);
    if !Desk(&made.desk).is_marked(id) {
        made.mark(id, 1);
        return true;
    }
    let on_path = made.slots(|_, slot| slot.id == id);
    for (level, place) in &on_path {
        made.items[*level].slots[*place].id = 0;
    }
    !on_path.is_empty()
}
