//! What an id costs in a text of TAP that is read or written, beside a request
//! by itself.

use super::requests::{micros, named, Warm, SIZES};
use super::{head, row, time, Side, RUNS};
use crate::format::Sizes;
use crate::row::Asked;
use crate::store::Sheet;
use std::time::Duration;

/// The length of a range, where the store has that many ids.
const LENGTH: u16 = 64;

/// The times of one id: in a text that is read and by a write, in one that is
/// written and by a read.
type Times = [Duration; 4];

pub fn run(sides: &[Side]) {
    println!("\nTexts of up to {LENGTH} lines, time for each id, best of {RUNS} runs\n");
    let mut cells = vec!["sizes".to_string(), "ids".to_string()];
    for (name, _) in sides {
        for (text, alone) in [("text read", "write"), ("text written", "read")] {
            cells.push(format!("{name} {text}, us"));
            cells.push(format!("{name} {alone} by itself, us"));
            cells.push(format!("{name} {text} to {alone}s"));
        }
    }
    head(&cells);
    for sizes in SIZES {
        let length = sizes.ids.min(LENGTH);
        let mut cells = vec![named(sizes), length.to_string()];
        for times in measure(sides, sizes, length) {
            for pair in times.chunks(2) {
                let (text, alone) = (micros(pair[0]), micros(pair[1]));
                cells.push(format!("{text:.1}"));
                cells.push(format!("{alone:.1}"));
                cells.push(format!("{:.2}", text / alone));
            }
        }
        row(&cells);
    }
}

/// The best times of each side. The sides take turns, and so do texts and
/// requests.
fn measure(sides: &[Side], sizes: Sizes, length: u16) -> Vec<Times> {
    let stores = sides.iter();
    let mut warm: Vec<Warm> = stores.map(|(_, store)| Warm::new(*store, sizes)).collect();
    let text = text_of(length);
    let mut best = vec![[Duration::MAX; 4]; sides.len()];
    for _ in 0..RUNS {
        for (best, warm) in best.iter_mut().zip(&mut warm) {
            let all = [
                text_read(warm, length, &text),
                alone(warm, length, true),
                text_written(warm, length),
                alone(warm, length, false),
            ];
            for (best, time) in best.iter_mut().zip(all) {
                *best = (*best).min(time / u32::from(length));
            }
        }
    }
    best
}

/// A text with a line for each number, the names as long as most are.
fn text_of(length: u16) -> Vec<u8> {
    let mut text = format!("TAP version 13\n1..{length}\n");
    for number in 1..=length {
        text += &format!("ok {number} - strtod rounds halfway cases to even\n");
    }
    text.into_bytes()
}

fn alone(warm: &mut Warm, length: u16, write: bool) -> Duration {
    time(|| {
        for id in 1..=length {
            warm.one(id, write);
        }
    })
}

fn draws_for(warm: &mut Warm, length: u16) -> Vec<u16> {
    let leaves = u64::from(warm.shape.leaves());
    (0..length)
        .map(|_| warm.random.below(leaves) as u16)
        .collect()
}

fn range(length: u16) -> Asked {
    Asked {
        chapter: 1,
        first: 1,
        end: length + 1,
    }
}

fn text_read(warm: &mut Warm, length: u16, text: &[u8]) -> Duration {
    let draws = draws_for(warm, length);
    let sheet = Sheet {
        asked: range(length),
        year: 2026,
    };
    let mut answer = -1;
    let taken = time(|| {
        let (desk, tree) = (&mut warm.desk, &mut warm.tree);
        answer = warm
            .store
            .tap_read(desk, tree, sheet, &draws, text, &mut [0]);
    });
    assert_eq!(answer, 0, "text refused");
    taken
}

fn text_written(warm: &mut Warm, length: u16) -> Duration {
    let draws = draws_for(warm, length);
    let mut out = vec![0; warm.store.tap_room(length)];
    let mut answer = -1;
    let taken = time(|| {
        let (desk, tree) = (&mut warm.desk, &mut warm.tree);
        answer = warm
            .store
            .tap_write(desk, tree, range(length), &draws, &mut out);
    });
    assert!(answer > 0, "no text written");
    taken
}
