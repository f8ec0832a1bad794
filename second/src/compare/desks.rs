//! Forged desks: each condition of a good desk broken by itself.

use super::draw;
use super::made::Made;
use super::pair::{Mismatch, Pair};
use super::spoil_desk::{spoil, to_ready};
use crate::desk;
use crate::found::Named;
use crate::good::{flaws, Flaw};
use crate::random::Random;

const BAD_DESK: i32 = -1;

/// Breaks every condition in turn and calls all three entries on each desk.
pub fn history(pair: &mut Pair, random: &mut Random, number: u64) -> Result<(), Mismatch> {
    pair.sizes = draw::sizes(random, number, 12);
    draw::count_sizes(pair.tally, pair.sizes);
    let mut made = Made::new(random, pair.sizes);
    let path = made.seal(None);
    for flaw in Flaw::ALL {
        let mut desk = made.desk.clone();
        match random.below(4) {
            0 => to_ready(&mut desk),
            1 => desk[desk::STATUS] = random.range(2, 4) as u8,
            _ => {}
        }
        if spoil(random, &mut desk, *flaw) {
            call_all(pair, random, &desk, &path, *flaw)?;
        }
    }
    Ok(())
}

fn call_all(
    pair: &mut Pair,
    random: &mut Random,
    desk: &[u8],
    path: &[u8],
    flaw: Flaw,
) -> Result<(), Mismatch> {
    let found = flaws(desk);
    pair.lend_desk(desk);
    pair.lend_path(path);
    pair.lend_record(&random.bytes::<64>());
    pair.lend_input(&random.bytes::<64>());
    if !found.has(flaw) {
        return Err(pair.mismatch("none", format!("not noticed: {}", flaw.name())));
    }
    let id = random.range(1, u64::from(pair.sizes.ids)) as u16;
    let leaf = draw::leaf(random, draw::shape(pair.sizes));
    let answers = [
        pair.ask_read(id, leaf)?,
        pair.ask_write(id, leaf)?,
        pair.finish()?,
    ];
    if let Some(flaw) = found.only() {
        for entry in (0..3).filter(|entry| answers[*entry] == BAD_DESK) {
            pair.tally.bad_desk(entry, flaw);
        }
    }
    Ok(())
}
