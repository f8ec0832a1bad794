//! What a comparison reached. A run fails if anything listed here was not.

use super::tap_tally;
use crate::check::Fault;
use crate::found::Named;
use crate::good::Flaw;
use crate::tap::why::Why;
use std::collections::BTreeMap;

type Key = (&'static str, &'static str);

const COPY: &[&str] = &["done", "BadSize", "BadLeaf", "BadLength"];
pub const COPY_REASONS: [&str; 4] = [
    "BadSize by L alone",
    "BadSize by Z alone",
    "BadLength by tree alone",
    "BadLength by path alone",
];
pub const FORMAT_REASONS: [&str; 6] = [
    "BadSize by L alone",
    "BadSize by Z alone",
    "BadSize by N alone",
    "BadLength by desk alone",
    "BadLength by leaves alone",
    "BadLength by key alone",
];
pub const FINISH_REASONS: [&str; 2] = ["BadLength by path alone", "BadLength by record alone"];
pub const READ_REASONS: [&str; 4] = [
    "bad by verdict alone",
    "bad by chapter alone",
    "bad by name alone",
    "bad by length alone",
];
pub const MAKE_REASONS: [&str; 5] = [
    "refused by verdict alone",
    "refused by chapter alone",
    "refused by length of the name alone",
    "refused by a zero in the name alone",
    "refused by length of the record alone",
];
pub const RANGE_REASONS: [&str; 4] = [
    "BadId by first 0 alone",
    "BadId by an empty range",
    "BadId by a backward range",
    "BadId by end above N+1 alone",
];
pub const ROW_REASONS: [&str; 2] = ["BadLength by draws alone", "BadLength by tree alone"];
/// What a row counts, in the order of its counts.
pub const COLUMNS: [&str; 6] = ["passed", "failed", "skipped", "errors", "bad", "not run"];
pub const STATUSES: &[&str] = &["stopped as forged", "stopped as worn", "stopped as full"];

/// Everything that a whole run has to reach, by group.
const EXPECTED: &[(&str, &[&str])] = &[
    ("format", &["done", "BadSize", "BadLength", "BadLeaf"]),
    ("format, reason", &FORMAT_REASONS),
    (
        "ask_read",
        &["leaf", "BadDesk", "Stopped", "Open", "BadId", "BadLeaf"],
    ),
    (
        "ask_write",
        &[
            "leaf",
            "BadDesk",
            "Stopped",
            "Open",
            "BadId",
            "BadLeaf",
            "BadLength",
        ],
    ),
    (
        "finish",
        &[
            "Record",
            "Never",
            "Done",
            "BadDesk",
            "Stopped",
            "NotOpen",
            "BadLength",
            "Forged",
            "Worn",
            "Full",
        ],
    ),
    ("finish, reason", &FINISH_REASONS),
    ("fetch", COPY),
    ("fetch, reason", &COPY_REASONS),
    ("put", COPY),
    ("put, reason", &COPY_REASONS),
    (
        "ask, id",
        &["0 refused", "N+1 refused", "1 taken", "N taken"],
    ),
    ("ask, leaf", &["2^L refused", "2^L - 1 taken"]),
    ("ask_read, status", STATUSES),
    ("ask_write, status", STATUSES),
    ("finish, status", STATUSES),
    (
        "finish, order",
        &[
            "Forged before Worn",
            "Forged before Full",
            "Worn before Full",
        ],
    ),
    (
        "finish, accepted with",
        &[
            "a root not written",
            "an unreachable item of junk",
            "counter 2^64 - 1 in an unreachable item",
            "counter 2^64 - 2",
            "counter 0",
            "junk in an empty slot",
            "junk in a digest behind flag 0",
            "a full stash",
            "slots out of order",
            "the requested block on the path",
            "the requested block in the stash",
            "a block left over for the stash",
        ],
    ),
    (
        "server",
        &[
            "flipped byte of a path refused",
            "flipped byte of a path never looked at",
            "flipped byte of a desk refused",
            "old path refused",
            "path of another leaf refused",
            "junk in a new tree",
            "honest history until full",
        ],
    ),
    (
        "sizes",
        &["L=1", "L=12", "Z=1", "Z=8", "S=0", "S=255", "N=1", "N=4096"],
    ),
    ("lengths", &["in range", "out of range"]),
    ("digest and cipher", &["digest", "cipher"]),
    ("verdict_read", &["pass", "fail", "skipped", "error", "bad"]),
    ("verdict_read, reason", &READ_REASONS),
    (
        "verdict_make",
        &["pass", "fail", "skipped", "error", "refused"],
    ),
    ("verdict_make, reason", &MAKE_REASONS),
    ("verdict, name", &["of 0 bytes", "of 60 bytes"]),
    (
        "row",
        &[
            "complete",
            "incomplete",
            "BadDesk",
            "Stopped",
            "Open",
            "BadId",
            "BadLeaf",
            "BadLength",
            "Forged",
            "Worn",
            "Full",
        ],
    ),
    ("row, reason", &RANGE_REASONS),
    ("row, reason", &ROW_REASONS),
    ("row, status", STATUSES),
    (
        "row, order",
        &[
            "BadDesk before BadId",
            "BadDesk before BadLength",
            "BadId before BadLength",
            "BadId before Stopped",
            "BadId before Open",
            "BadLength before Stopped",
            "BadLength before Open",
            "BadLength before BadLeaf",
        ],
    ),
    (
        "row, after a request",
        &["BadLeaf", "Forged", "Worn", "Full"],
    ),
    ("row, counted", &COLUMNS),
    (
        "row, taken with",
        &[
            "first 1",
            "end N+1",
            "one id",
            "more than 255 ids",
            "4,096 ids",
            "a chapter above 31",
            "a record of another chapter",
            "a record that is no verdict",
        ],
    ),
    (
        "row, server",
        &[
            "flipped byte of a tree refused",
            "flipped byte of a tree never looked at",
            "flipped byte of a desk refused",
        ],
    ),
];

/// Groups with one counter for each condition of a desk or check of a path.
const BAD_DESKS: [&str; 6] = [
    "ask_read, bad desk",
    "ask_write, bad desk",
    "finish, bad desk",
    "row, bad desk",
    "tap_read, bad desk",
    "tap_write, bad desk",
];
/// The places of the entries of the book among them.
pub const ROW: usize = 3;
pub const TAP_READ: usize = 4;
pub const TAP_WRITE: usize = 5;
const FORGED: &str = "finish, forged alone by";

pub struct Tally(BTreeMap<Key, u64>);

impl Default for Tally {
    fn default() -> Tally {
        let mut counts = BTreeMap::new();
        for (group, names) in EXPECTED.iter().chain(tap_tally::EXPECTED) {
            counts.extend(names.iter().map(|name| ((*group, *name), 0)));
        }
        for group in BAD_DESKS {
            counts.extend(Flaw::ALL.iter().map(|flaw| ((group, flaw.name()), 0)));
        }
        counts.extend(Fault::ALL.iter().map(|fault| ((FORGED, fault.name()), 0)));
        let refused = tap_tally::REFUSED_BY;
        counts.extend(Why::ALL.iter().map(|why| ((refused, why.name()), 0)));
        Tally(counts)
    }
}

impl Tally {
    /// Counts one more. Only what is listed can be counted.
    pub fn reach(&mut self, group: &'static str, name: &'static str) {
        let count = self.0.get_mut(&(group, name));
        *count.unwrap_or_else(|| panic!("no counter {group}: {name}")) += 1;
    }

    pub fn bad_desk(&mut self, entry: usize, flaw: Flaw) {
        self.reach(BAD_DESKS[entry], flaw.name());
    }

    pub fn forged_alone(&mut self, fault: Fault) {
        self.reach(FORGED, fault.name());
    }

    pub fn counts(&self) -> impl Iterator<Item = (Key, u64)> + '_ {
        self.0.iter().map(|(key, count)| (*key, *count))
    }

    pub fn unreached(&self) -> Vec<Key> {
        let counts = self.counts();
        counts
            .filter(|(_, count)| *count == 0)
            .map(|(key, _)| key)
            .collect()
    }
}
