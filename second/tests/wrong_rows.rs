//! Rows with their refusals in another order, or with changes beside an
//! answer: a comparison notices each.

mod wrong;

use second::desk;
use second::found::Named;
use second::good::{flaws, Flaw};
use second::row::{Asked, Counts};
use second::store::{Second, Store};
use wrong::{caught, Wrong};

const BAD_DESK: i32 = -1;
const STOPPED: i32 = -2;
const OPEN: i32 = -3;
const BAD_ID: i32 = -5;
const BAD_LEAF: i32 = -6;
const BAD_LENGTH: i32 = -7;
const FORGED: i32 = -9;
const WORN: i32 = -10;
const FULL: i32 = -11;

/// A row that gives `instead` where `given` would come and `also` holds.
fn swapped(what: &str, given: i32, instead: i32, also: fn(&[u8], &[u8], Asked, &[u16]) -> bool) {
    let wrong = Wrong {
        row: Box::new(move |desk, tree, asked, draws, counts| {
            let also = also(desk, tree, asked, draws);
            let answer = Second.row(desk, tree, asked, draws, counts);
            if answer == given && also {
                instead
            } else {
                answer
            }
        }),
        ..Wrong::default()
    };
    caught(what, "book", &wrong);
}

fn short(_: &[u8], _: &[u8], asked: Asked, draws: &[u16]) -> bool {
    draws.len() < usize::from(asked.end.saturating_sub(asked.first))
}

fn backward(_: &[u8], _: &[u8], asked: Asked, _: &[u16]) -> bool {
    asked.first > asked.end
}

fn stopped(desk: &[u8], _: &[u8], _: Asked, _: &[u16]) -> bool {
    desk.get(desk::STATUS)
        .is_some_and(|status| *status > desk::OPEN)
}

fn bad_leaf(desk: &[u8], _: &[u8], _: Asked, draws: &[u16]) -> bool {
    let height = desk.get(desk::HEIGHT).copied().unwrap_or(0);
    let leaves = 1 << height.min(16);
    draws.iter().any(|draw| u32::from(*draw) >= leaves)
}

#[test]
fn orders_of_a_row() {
    swapped("BadLength before BadId", BAD_ID, BAD_LENGTH, short);
    swapped("BadLength before BadDesk", BAD_DESK, BAD_LENGTH, short);
    swapped("BadId before BadDesk", BAD_DESK, BAD_ID, backward);
    swapped("Stopped before BadId", BAD_ID, STOPPED, stopped);
    swapped("Stopped before BadLength", BAD_LENGTH, STOPPED, stopped);
    swapped("BadLeaf before BadLength", BAD_LENGTH, BAD_LEAF, bad_leaf);
    swapped("BadLeaf before Stopped", STOPPED, BAD_LEAF, bad_leaf);
    swapped("BadLeaf before Open", OPEN, BAD_LEAF, bad_leaf);
}

#[test]
fn every_condition_of_a_desk_in_a_row() {
    for flaw in Flaw::ALL {
        let wrong = Wrong {
            row: Box::new(move |desk, tree, asked, draws, counts| {
                if flaws(desk).only() == Some(*flaw) {
                    return STOPPED;
                }
                Second.row(desk, tree, asked, draws, counts)
            }),
            ..Wrong::default()
        };
        caught(flaw.name(), "book", &wrong);
    }
}

/// Every draw looked at before the first ask, so that a bad one refuses a row
/// and nothing was changed by it.
#[test]
fn draws_looked_at_in_advance() {
    let wrong = Wrong {
        row: Box::new(|desk, tree, asked, draws, counts| {
            let before = (desk.to_vec(), tree.to_vec());
            let answer = Second.row(desk, tree, asked, draws, counts);
            if answer == BAD_LEAF {
                desk.copy_from_slice(&before.0);
                tree.copy_from_slice(&before.1);
            }
            answer
        }),
        ..Wrong::default()
    };
    caught("draws looked at in advance", "book", &wrong);
}

/// A row that changes desk or tree after it answered so is noticed.
fn changed_after(what: &str, answers: &[i32], change: fn(&mut [u8], &mut [u8], &mut Counts)) {
    for &changed in answers {
        let wrong = Wrong {
            row: Box::new(move |desk, tree, asked, draws, counts| {
                let answer = Second.row(desk, tree, asked, draws, counts);
                if answer == changed {
                    change(desk, tree, counts);
                }
                answer
            }),
            ..Wrong::default()
        };
        caught(what, "book", &wrong);
    }
}

#[test]
fn changes_beside_an_answer() {
    changed_after("status left", &[FORGED, WORN, FULL], |desk, _, _| {
        desk[desk::STATUS] = desk::OPEN;
    });
    let refusals = [BAD_DESK, STOPPED, OPEN, BAD_ID, BAD_LEAF, BAD_LENGTH];
    let all = [&refusals[..], &[FORGED, WORN, FULL]].concat();
    changed_after("counts cleared", &all, |_, _, counts| *counts = [0; 6]);
    changed_after("tree touched", &[FORGED, WORN, FULL], |_, tree, _| {
        tree[tree.len() - 1] ^= 1;
    });
}
