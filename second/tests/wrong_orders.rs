//! Refusals in another order, and wrong lengths, digests and ciphers.

mod wrong;

use second::sizes::Shape;
use second::store::{Second, Store};
use wrong::{caught, finish_caught, opened, Wrong};

const OPEN: i32 = -3;
const NOT_OPEN: i32 = -4;
const BAD_ID: i32 = -5;
const BAD_LEAF: i32 = -6;
const BAD_LENGTH: i32 = -7;
const BAD_SIZE: i32 = -8;
const FORGED: i32 = -9;
const WORN: i32 = -10;

/// Gives `instead` where `given` would come and `also` holds.
fn swapped(answer: i32, given: i32, also: bool, instead: i32) -> i32 {
    if answer == given && also {
        instead
    } else {
        answer
    }
}

#[test]
fn orders_of_a_finish() {
    finish_caught("Worn before Forged", "paths", |desk, path, record| {
        let worn = opened(desk, path, record).is_some_and(|opened| opened.is_worn(path));
        swapped(Second.finish(desk, path, record), FORGED, worn, WORN)
    });
    finish_caught(
        "BadLength before NotOpen",
        "entries",
        |desk, path, record| {
            let length = record.len() != 64;
            swapped(
                Second.finish(desk, path, record),
                NOT_OPEN,
                length,
                BAD_LENGTH,
            )
        },
    );
    finish_caught(
        "BadLength before BadDesk",
        "entries",
        |desk, path, record| {
            let length = record.len() != 64;
            swapped(Second.finish(desk, path, record), -1, length, BAD_LENGTH)
        },
    );
}

fn ask_caught(what: &str, given: i32, instead: i32, also: fn(u16, u16, &[u8]) -> bool) {
    let wrong = Wrong {
        ask_write: Box::new(move |desk, id, leaf, record| {
            let answer = Second.ask_write(desk, id, leaf, record);
            swapped(answer, given, also(id, leaf, record), instead)
        }),
        ..Wrong::default()
    };
    caught(what, "entries", &wrong);
}

#[test]
fn orders_of_an_ask() {
    ask_caught("BadLeaf before BadId", BAD_ID, BAD_LEAF, |_, leaf, _| {
        leaf >= 4096
    });
    ask_caught(
        "BadLength before BadLeaf",
        BAD_LEAF,
        BAD_LENGTH,
        |_, _, record| record.len() != 64,
    );
    ask_caught("BadId before Open", OPEN, BAD_ID, |id, _, _| id == 0);
    ask_caught("BadId before Stopped", -2, BAD_ID, |id, _, _| id == 0);
    ask_caught("BadId before BadDesk", -1, BAD_ID, |id, _, _| id == 0);
}

#[test]
fn orders_of_a_format() {
    let leaves_first = Wrong {
        format: Box::new(|desk, sizes, key, leaves| {
            let bad = leaves
                .iter()
                .any(|leaf| u32::from(*leaf) >= 1 << sizes.height.min(16));
            let answer = Second.format(desk, sizes, key, leaves);
            swapped(answer, BAD_LENGTH, bad, BAD_LEAF)
        }),
        ..Wrong::default()
    };
    caught("BadLeaf before BadLength", "entries", &leaves_first);
    let lengths_first = Wrong {
        format: Box::new(|desk, sizes, key, leaves| {
            let answer = Second.format(desk, sizes, key, leaves);
            swapped(answer, BAD_SIZE, key.len() != 32, BAD_LENGTH)
        }),
        ..Wrong::default()
    };
    caught("BadLength before BadSize", "entries", &lengths_first);
}

fn path_fits(height: u8, slots: u8, path: &[u8]) -> bool {
    Shape::new(height, slots).is_some_and(|shape| shape.path_length() == path.len())
}

#[test]
fn orders_of_the_tree_side() {
    let fetch = Wrong {
        fetch: Box::new(|tree, height, slots, leaf, path| {
            let length = !path_fits(height, slots, path);
            let answer = Second.fetch(tree, height, slots, leaf, path);
            swapped(answer, BAD_LEAF, length, BAD_LENGTH)
        }),
        ..Wrong::default()
    };
    caught("BadLength before BadLeaf in fetch", "entries", &fetch);
    let put = Wrong {
        put: Box::new(|tree, height, slots, leaf, path| {
            let answer = Second.put(tree, height, slots, leaf, path);
            swapped(answer, BAD_SIZE, leaf >= 4096, BAD_LEAF)
        }),
        ..Wrong::default()
    };
    caught("BadLeaf before BadSize in put", "entries", &put);
}

#[test]
fn changes_on_refusal() {
    let fetch = Wrong {
        fetch: Box::new(|tree, height, slots, leaf, path| {
            let answer = Second.fetch(tree, height, slots, leaf, path);
            if answer == BAD_LENGTH {
                path.fill(0);
            }
            answer
        }),
        ..Wrong::default()
    };
    caught("fetch clears the path", "entries", &fetch);
    let format = Wrong {
        format: Box::new(|desk, sizes, key, leaves| {
            let answer = Second.format(desk, sizes, key, leaves);
            if answer == BAD_LEAF {
                desk.fill(0);
            }
            answer
        }),
        ..Wrong::default()
    };
    caught("format clears the desk", "entries", &format);
}

#[test]
fn lengths_digest_and_cipher() {
    let length = Wrong {
        desk_length: Box::new(|ids, stash| 186 + 3 * usize::from(ids) + 68 * usize::from(stash)),
        ..Wrong::default()
    };
    caught("length out of range", "plain", &length);
    let digest = Wrong {
        digest: Box::new(|message, out| {
            Second.sha256(message, out);
            out[31] ^= u8::from(message.len() % 64 == 56);
        }),
        ..Wrong::default()
    };
    caught("padding", "plain", &digest);
    let cipher = Wrong {
        cipher: Box::new(|key, nonce, text| {
            let whole = text.len() / 64 * 64;
            Second.chacha20(key, nonce, &mut text[..whole]);
        }),
        ..Wrong::default()
    };
    caught("last part of a block", "plain", &cipher);
}
