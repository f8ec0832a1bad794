//! Lengths, digest and cipher.

use super::pair::{Mismatch, Pair};
use crate::random::Random;
use crate::store::Store;

/// This many histories go through all short messages and texts in turn.
const SHORT: u64 = 600;
const AFTER_SHORT: u64 = SHORT + 1;

pub fn history(pair: &mut Pair, random: &mut Random, number: u64) -> Result<(), Mismatch> {
    match number {
        SHORT => lengths_of_shapes(pair),
        AFTER_SHORT => lengths_of_desks(pair),
        _ if number.is_multiple_of(2) => digest(pair, random, number),
        _ => cipher(pair, random, number),
    }
}

fn count(pair: &mut Pair, length: usize) {
    let name = if length == 0 {
        "out of range"
    } else {
        "in range"
    };
    pair.tally.reach("lengths", name);
}

fn lengths_of_shapes(pair: &mut Pair) -> Result<(), Mismatch> {
    let ends = [31, 32, 33, 63, 64, 65, 127, 128, 255];
    for height in (0..=17).chain(ends) {
        for slots in (0..=10).chain(ends) {
            (pair.sizes.height, pair.sizes.slots) = (height, slots);
            let length = pair.call("path_length", |store: &dyn Store, _| {
                store.path_length(height, slots)
            })?;
            count(pair, length);
            let length = pair.call("tree_length", |store: &dyn Store, _| {
                store.tree_length(height, slots)
            })?;
            count(pair, length);
        }
    }
    Ok(())
}

fn lengths_of_desks(pair: &mut Pair) -> Result<(), Mismatch> {
    for ids in [0, 1, 2, 3, 255, 256, 4095, 4096, 4097, 8192, 32768, 65535] {
        for stash in [0, 1, 2, 127, 128, 254, 255] {
            (pair.sizes.ids, pair.sizes.stash) = (ids, stash);
            let length = pair.call("desk_length", |store: &dyn Store, _| {
                store.desk_length(ids, stash)
            })?;
            count(pair, length);
        }
    }
    Ok(())
}

/// Every length up to some blocks comes up first, then longer ones.
fn some_length(random: &mut Random, number: u64) -> usize {
    if number < SHORT {
        number as usize / 2
    } else {
        random.index(20_000)
    }
}

fn digest(pair: &mut Pair, random: &mut Random, number: u64) -> Result<(), Mismatch> {
    let mut message = vec![0; some_length(random, number)];
    random.fill(&mut message);
    pair.lend_input(&message);
    pair.call("sha256", |store: &dyn Store, lent| {
        let mut out = [0; 32];
        store.sha256(lent.input.get(), &mut out);
        out
    })?;
    pair.tally.reach("digest and cipher", "digest");
    Ok(())
}

fn cipher(pair: &mut Pair, random: &mut Random, number: u64) -> Result<(), Mismatch> {
    let mut text = vec![0; some_length(random, number)];
    random.fill(&mut text);
    let (key, nonce) = (random.bytes(), random.bytes());
    pair.lend_path(&text);
    pair.call("chacha20", |store: &dyn Store, lent| {
        store.chacha20(&key, &nonce, lent.path.get_mut());
    })?;
    pair.tally.reach("digest and cipher", "cipher");
    Ok(())
}
