//! A store that leaves out one check of a path or one condition of a desk is
//! noticed, since a comparison breaks each of them alone.

mod wrong;

use second::check::Fault;
use second::desk::{self, Desk};
use second::found::Named;
use second::good::{flaws, Flaw};
use second::item;
use second::store::{Second, Store};
use wrong::{caught, finish_caught, found, Wrong};

const STOPPED: i32 = -2;
const DONE: i32 = 3;

#[test]
fn every_check_of_a_path() {
    for fault in Fault::ALL {
        finish_caught(fault.name(), "paths", |desk, path, record| {
            let only = found(desk, path, record).and_then(|found| found.only());
            if only == Some(*fault) {
                return DONE;
            }
            Second.finish(desk, path, record)
        });
    }
}

/// A comparison of digests that leaves out one byte.
#[test]
fn every_byte_of_a_digest() {
    for byte in 0..32 {
        finish_caught(
            "byte of the root's digest",
            "paths",
            move |desk, path, record| {
                let only = found(desk, path, record).and_then(|found| found.only());
                if only == Some(Fault::RootDigest) {
                    let shape = Desk(desk).shape();
                    let right = item::digest(shape, &path[shape.in_path(0)]);
                    let mut near = right;
                    near[byte] = desk[desk::ROOT_DIGEST][byte];
                    if near == desk[desk::ROOT_DIGEST] {
                        return DONE;
                    }
                }
                Second.finish(desk, path, record)
            },
        );
    }
}

#[test]
fn every_condition_of_a_desk_in_a_finish() {
    for flaw in Flaw::ALL {
        finish_caught(flaw.name(), "desks", |desk, path, record| {
            if flaws(desk).only() == Some(*flaw) {
                return STOPPED;
            }
            Second.finish(desk, path, record)
        });
    }
}

#[test]
fn every_condition_of_a_desk_in_an_ask() {
    for flaw in Flaw::ALL {
        let misses = move |desk: &[u8]| flaws(desk).only() == Some(*flaw);
        let read = Wrong {
            ask_read: Box::new(move |desk, id, leaf| match misses(desk) {
                true => STOPPED,
                false => Second.ask_read(desk, id, leaf),
            }),
            ..Wrong::default()
        };
        caught(flaw.name(), "desks", &read);
        let write = Wrong {
            ask_write: Box::new(move |desk, id, leaf, record| match misses(desk) {
                true => STOPPED,
                false => Second.ask_write(desk, id, leaf, record),
            }),
            ..Wrong::default()
        };
        caught(flaw.name(), "desks", &write);
    }
}

/// Every byte that has to be zero, and every number of the contents.
#[test]
fn every_byte_that_a_condition_names() {
    let places = [desk::SIZES_ZERO, desk::KIND_ZERO, 118, 119];
    for place in places.into_iter().chain(0..desk::CONTENTS) {
        finish_caught("byte ignored", "desks", move |desk, path, record| {
            let mut repaired = desk.to_vec();
            if let Some(byte) = repaired.get_mut(place) {
                *byte = right_byte(desk, place);
            }
            if !flaws(desk).is_none() && flaws(&repaired).is_none() {
                return STOPPED;
            }
            Second.finish(desk, path, record)
        });
    }
}

/// What a good desk with these sizes has at a place.
fn right_byte(desk: &[u8], place: usize) -> u8 {
    if place >= desk::CONTENTS || desk.len() < desk::SIZES_END {
        return 0;
    }
    let desk = Desk(desk);
    desk::contents(desk.ids(), desk.room())[place]
}
