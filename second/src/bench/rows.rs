//! What an id costs in a row, beside a read request by itself.

use super::requests::{micros, named, Warm, SIZES};
use super::{head, row, time, Side, RUNS};
use crate::format::Sizes;
use crate::row::Asked;
use crate::store::COMPLETE;
use std::time::Duration;

/// The length of a row, where the store has that many ids.
const LENGTH: u16 = 64;

pub fn run(sides: &[Side]) {
    println!("\nRows of up to {LENGTH} ids, time for each id, best of {RUNS} runs\n");
    let mut cells = vec!["sizes".to_string(), "ids".to_string()];
    for (name, _) in sides {
        cells.push(format!("{name} in a row, us"));
        cells.push(format!("{name} read by itself, us"));
        cells.push(format!("{name} row to reads"));
    }
    head(&cells);
    for sizes in SIZES {
        let length = sizes.ids.min(LENGTH);
        let mut cells = vec![named(sizes), length.to_string()];
        for [in_row, alone] in measure(sides, sizes, length) {
            let (in_row, alone) = (micros(in_row), micros(alone));
            cells.push(format!("{in_row:.1}"));
            cells.push(format!("{alone:.1}"));
            cells.push(format!("{:.2}", in_row / alone));
        }
        row(&cells);
    }
}

/// The best times of each side, in a row and by itself. The sides take turns,
/// and so do rows and reads.
fn measure(sides: &[Side], sizes: Sizes, length: u16) -> Vec<[Duration; 2]> {
    let stores = sides.iter();
    let mut warm: Vec<Warm> = stores.map(|(_, store)| Warm::new(*store, sizes)).collect();
    let mut best = vec![[Duration::MAX; 2]; sides.len()];
    for _ in 0..RUNS {
        for (best, warm) in best.iter_mut().zip(&mut warm) {
            let in_row = one_row(warm, length) / u32::from(length);
            let reads = time(|| {
                for id in 1..=length {
                    warm.one(id, false);
                }
            });
            let alone = reads / u32::from(length);
            *best = [best[0].min(in_row), best[1].min(alone)];
        }
    }
    best
}

/// The time of a row over the first ids, which all have passed.
fn one_row(warm: &mut Warm, length: u16) -> Duration {
    let leaves = u64::from(warm.shape.leaves());
    let draws: Vec<u16> = (0..length)
        .map(|_| warm.random.below(leaves) as u16)
        .collect();
    let asked = Asked {
        chapter: 1,
        first: 1,
        end: length + 1,
    };
    let mut answer = 0;
    let taken = time(|| {
        let (desk, tree) = (&mut warm.desk, &mut warm.tree);
        answer = warm.store.row(desk, tree, asked, &draws, &mut [0; 6]);
    });
    assert_eq!(answer, COMPLETE, "row refused or not complete");
    taken
}
