//! Where everything lies in a desk, and reading it.
//!
//! The contents come first, so every place up to the positions is fixed; the
//! stash begins where the positions end.

use crate::sizes::{Shape, DIGEST, KEY, RECORD, SLOT};
use std::ops::Range;

pub const CONTENTS: usize = 40;
pub const HEIGHT: usize = 40;
pub const SLOTS: usize = 41;
pub const ROOM: usize = 42;
pub const STATUS: usize = 43;
pub const ROOT_WRITTEN: usize = 44;
pub const SIZES_ZERO: usize = 45;
pub const IDS: usize = 46;
/// The shortest desk whose sizes can be read.
pub const SIZES_END: usize = 48;
pub const KEY_AT: Range<usize> = 48..48 + KEY;
pub const ROOT_DIGEST: Range<usize> = 80..80 + DIGEST;
pub const REQUEST: Range<usize> = 112..184;
pub const KIND: usize = 112;
pub const KIND_ZERO: usize = 113;
pub const ID: usize = 114;
pub const NEW_LEAF: usize = 116;
pub const LEAF_ZEROS: Range<usize> = 118..120;
pub const REQUEST_RECORD: Range<usize> = 120..120 + RECORD;
pub const POSITIONS: usize = 184;

pub const READY: u8 = 0;
pub const OPEN: u8 = 1;
pub const STOPPED_FORGED: u8 = 2;
pub const STOPPED_WORN: u8 = 3;
pub const STOPPED_FULL: u8 = 4;

pub const READ: u8 = 0;
pub const WRITE: u8 = 1;

pub fn number(bytes: &[u8], at: usize) -> u16 {
    u16::from_le_bytes([bytes[at], bytes[at + 1]])
}

pub fn set_number(bytes: &mut [u8], at: usize, value: u16) {
    bytes[at..at + 2].copy_from_slice(&value.to_le_bytes());
}

/// Where the leaf of `id` lies; its mark follows after two bytes.
pub fn position_at(id: u16) -> usize {
    POSITIONS + 3 * (usize::from(id) - 1)
}

/// Where the stash count lies.
pub fn stash_at(ids: u16) -> usize {
    POSITIONS + 3 * usize::from(ids)
}

/// Where stash slot `place` lies, counted from 0.
pub fn stash_slot_at(ids: u16, place: usize) -> usize {
    stash_at(ids) + 2 + place * SLOT
}

/// The table of contents: offset and length of each body.
pub fn contents(ids: u16, room: u8) -> [u8; CONTENTS] {
    let lengths = [
        8,
        KEY + DIGEST,
        8 + RECORD,
        3 * usize::from(ids),
        2 + SLOT * usize::from(room),
    ];
    let mut table = [0; CONTENTS];
    let mut offset = CONTENTS;
    for (pair, length) in table.chunks_exact_mut(8).zip(lengths) {
        pair[..4].copy_from_slice(&(offset as u32).to_le_bytes());
        pair[4..].copy_from_slice(&(length as u32).to_le_bytes());
        offset += length;
    }
    table
}

/// A desk whose length is the one that its sizes give.
#[derive(Clone, Copy)]
pub struct Desk<'a>(pub &'a [u8]);

impl<'a> Desk<'a> {
    pub fn height(self) -> u8 {
        self.0[HEIGHT]
    }

    pub fn room(self) -> u8 {
        self.0[ROOM]
    }

    pub fn ids(self) -> u16 {
        number(self.0, IDS)
    }

    pub fn status(self) -> u8 {
        self.0[STATUS]
    }

    /// Height and slots of a good desk.
    pub fn shape(self) -> Shape {
        Shape {
            height: self.0[HEIGHT],
            slots: self.0[SLOTS],
        }
    }

    pub fn root_written(self) -> bool {
        self.0[ROOT_WRITTEN] == 1
    }

    pub fn key(self) -> [u8; KEY] {
        let mut key = [0; KEY];
        key.copy_from_slice(&self.0[KEY_AT]);
        key
    }

    pub fn root_digest(self) -> &'a [u8] {
        &self.0[ROOT_DIGEST]
    }

    pub fn kind(self) -> u8 {
        self.0[KIND]
    }

    pub fn requested(self) -> u16 {
        number(self.0, ID)
    }

    pub fn new_leaf(self) -> u16 {
        number(self.0, NEW_LEAF)
    }

    pub fn request_record(self) -> &'a [u8] {
        &self.0[REQUEST_RECORD]
    }

    pub fn has_id(self, id: u16) -> bool {
        (1..=self.ids()).contains(&id)
    }

    pub fn position(self, id: u16) -> u16 {
        number(self.0, position_at(id))
    }

    pub fn is_marked(self, id: u16) -> bool {
        self.0[position_at(id) + 2] == 1
    }

    /// Leaf and mark of every id.
    pub fn positions(self) -> &'a [u8] {
        &self.0[POSITIONS..stash_at(self.ids())]
    }

    pub fn stash_count(self) -> u16 {
        number(self.0, stash_at(self.ids()))
    }

    /// All slots of the stash, used or not.
    pub fn stash_room(self) -> &'a [u8] {
        &self.0[stash_slot_at(self.ids(), 0)..]
    }

    /// The used slots of a good desk's stash.
    pub fn stash(self) -> &'a [u8] {
        &self.stash_room()[..SLOT * usize::from(self.stash_count())]
    }
}
