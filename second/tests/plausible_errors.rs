//! The errors that the paper calls plausible, and some beside them: a
//! comparison notices each.

mod wrong;

use second::check::Opened;
use second::compare::{self, Config, Report};
use second::desk::{self, Desk};
use second::item::{self, Child};
use second::store::{Second, Store};
use wrong::{caught, finish_caught, opened, Wrong};

const RECORD: i32 = 1;
const NEVER: i32 = 2;
const DONE: i32 = 3;
const FORGED: i32 = -9;
const WORN: i32 = -10;
const FULL: i32 = -11;

#[test]
fn the_second_program_itself_passes() {
    let report = whole_run(compare::DEFAULT_CALLS);
    for (_, result) in report.sections {
        result.expect("no difference");
    }
    assert_eq!(report.tally.unreached(), []);
}

#[test]
fn a_run_that_is_too_short_does_not_reach_everything() {
    assert_ne!(whole_run(100).tally.unreached(), []);
}

fn whole_run(calls: u64) -> Report {
    let config = Config {
        seed: 1,
        calls,
        section: None,
        trace: false,
    };
    compare::run(&config, &Second, &mut |_, _| {})
}

#[test]
fn zeros_for_an_id_never_written() {
    finish_caught("zeros", "honest", |desk, path, record| {
        let answer = Second.finish(desk, path, record);
        if answer == NEVER {
            record.fill(0);
            return RECORD;
        }
        answer
    });
}

#[test]
fn new_leaf_shown() {
    let wrong = Wrong {
        ask_read: Box::new(|desk, id, leaf| {
            let answer = Second.ask_read(desk, id, leaf);
            if answer >= 0 {
                i32::from(leaf)
            } else {
                answer
            }
        }),
        ..Wrong::default()
    };
    caught("new leaf", "honest", &wrong);
}

fn position_kept_after(kept: i32) {
    finish_caught("position kept", "honest", move |desk, path, record| {
        let before = desk.to_vec();
        let answer = Second.finish(desk, path, record);
        if answer == kept {
            let id = Desk(&before).requested();
            desk::set_number(desk, desk::position_at(id), Desk(&before).position(id));
        }
        answer
    });
}

#[test]
fn position_kept_after_a_read() {
    position_kept_after(RECORD);
}

#[test]
fn position_kept_after_never() {
    position_kept_after(NEVER);
}

#[test]
fn flag_of_an_unreachable_item_believed() {
    for section in ["honest", "paths"] {
        forged_where("flag believed", section, |opened, path| {
            let shape = opened.shape;
            let inner = opened.reachable..usize::from(shape.height);
            let mut items = inner.map(|level| {
                let flag = Child::towards(shape, opened.leaf, level).flag(shape);
                path[shape.in_path(level)][flag]
            });
            items.any(|flag| flag == 1)
        });
    }
}

/// A finish that says Forged wherever `wrong` holds of an opened path is noticed.
fn forged_where(name: &str, section: &'static str, wrong: fn(&Opened, &[u8]) -> bool) {
    finish_caught(name, section, move |desk, path, record| {
        if opened(desk, path, record).is_some_and(|opened| wrong(&opened, path)) {
            desk[desk::STATUS] = desk::STOPPED_FORGED;
            return FORGED;
        }
        Second.finish(desk, path, record)
    });
}

#[test]
fn sibling_digest_carried_out_of_an_unreachable_item() {
    for section in ["honest", "paths"] {
        finish_caught("sibling digest", section, |desk, path, record| {
            let (before, opened) = (path.to_vec(), opened(desk, path, record));
            let answer = Second.finish(desk, path, record);
            let Some(opened) = opened.filter(|_| answer > 0) else {
                return answer;
            };
            let shape = opened.shape;
            for level in opened.reachable..usize::from(shape.height) {
                let item = shape.in_path(level);
                let sibling = Child::towards(shape, opened.leaf, level).sibling();
                let old = &before[item.clone()][sibling.digest(shape)];
                path[item][sibling.digest(shape)].copy_from_slice(old);
            }
            answer
        });
    }
}

#[test]
fn digest_behind_flag_0_not_read_as_zeros() {
    forged_where("digest as it lies", "paths", |opened, path| {
        let shape = opened.shape;
        (0..opened.reachable.min(usize::from(shape.height))).any(|level| {
            let item = &path[shape.in_path(level)];
            let mut children = [Child::Left, Child::Right].into_iter();
            children
                .any(|child| item[child.flag(shape)] == 0 && item[child.digest(shape)] != [0; 32])
        })
    });
}

#[test]
fn block_without_room_dropped() {
    for section in ["honest", "paths"] {
        finish_caught("block dropped", section, |desk, path, record| {
            let answer = Second.finish(desk, path, record);
            if answer == FULL {
                desk[desk::STATUS] = desk::READY;
                desk[desk::REQUEST].fill(0);
                return DONE;
            }
            answer
        });
    }
}

/// A finish that changes desk, path or record after it answered so is noticed.
fn changed_after(
    name: &str,
    section: &str,
    answers: &[i32],
    change: fn(&mut [u8], &mut [u8], &mut [u8]),
) {
    for &changed in answers {
        finish_caught(name, section, move |desk, path, record| {
            let answer = Second.finish(desk, path, record);
            if answer == changed {
                change(desk, path, record);
            }
            answer
        });
    }
}

#[test]
fn path_written_and_then_full() {
    changed_after("path written", "honest", &[FULL], |_, path, _| {
        let last = path.len() - 1;
        path[last] ^= 1;
    });
}

#[test]
fn record_handed_out_with_a_refusal() {
    let refusals = [FORGED, WORN, FULL];
    changed_after("record changed", "paths", &refusals, |_, _, record| {
        record[63] ^= 1;
    });
}

#[test]
fn status_not_written() {
    let refusals = [FORGED, WORN, FULL];
    changed_after("status left", "paths", &refusals, |desk, _, _| {
        desk[desk::STATUS] = desk::OPEN;
    });
}

#[test]
fn worn_in_the_wrong_places() {
    // One too early, or in an item that isn't to be looked at.
    finish_caught("2^64 - 2 worn", "paths", |desk, path, record| {
        wear_out(desk, path, record, u64::MAX - 1, false)
    });
    finish_caught("unreachable worn", "paths", |desk, path, record| {
        wear_out(desk, path, record, u64::MAX, true)
    });
}

/// Says Worn for a counter, also in unreachable items where `anywhere`.
fn wear_out(desk: &mut [u8], path: &mut [u8], record: &mut [u8], worn: u64, anywhere: bool) -> i32 {
    let says_worn = opened(desk, path, record).is_some_and(|opened| {
        let looked_at = match anywhere {
            true => opened.shape.levels(),
            false => opened.reachable,
        };
        (0..looked_at).any(|level| item::counter(&path[opened.shape.in_path(level)]) == worn)
    });
    let answer = Second.finish(desk, path, record);
    if answer > 0 && says_worn {
        return WORN;
    }
    answer
}

#[test]
fn unused_stash_slots_left() {
    finish_caught("stash left", "paths", |desk, path, record| {
        let before = desk.to_vec();
        let answer = Second.finish(desk, path, record);
        if answer > 0 {
            let (ids, count) = (Desk(desk).ids(), Desk(desk).stash_count());
            let unused = desk::stash_slot_at(ids, usize::from(count));
            desk[unused..].copy_from_slice(&before[unused..]);
        }
        answer
    });
}

#[test]
fn request_left_in_the_desk() {
    finish_caught("request left", "honest", |desk, path, record| {
        let before = desk.to_vec();
        let answer = Second.finish(desk, path, record);
        if answer > 0 {
            desk[desk::REQUEST].copy_from_slice(&before[desk::REQUEST]);
        }
        answer
    });
}
