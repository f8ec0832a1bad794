//! What a comparison has to reach with texts.

use super::tally::{RANGE_REASONS, STATUSES};

/// The group with one counter for each reason to refuse a text.
pub const REFUSED_BY: &str = "tap_read, refused by";
pub const LENGTH_REASONS: [&str; 3] = [
    "BadLength by draws alone",
    "BadLength by tree alone",
    "BadLength by out alone",
];
const STORE: &[&str] = &[
    "BadDesk",
    "Stopped",
    "Open",
    "BadId",
    "BadLeaf",
    "BadLength",
    "Forged",
    "Worn",
    "Full",
];
const AFTER: &[&str] = &["BadLeaf", "Forged", "Worn", "Full"];
/// What happens to a text that was good.
pub const DAMAGES: [&str; 9] = [
    "a line left out",
    "a line twice",
    "two lines exchanged",
    "a line of another sort put in",
    "the end cut off",
    "a bit turned",
    "a line feed left out",
    "a byte left out",
    "carriage returns before all line feeds",
];
pub const WIDTHS: [&str; 4] = [
    "of one digit",
    "of two digits",
    "of three digits",
    "of four digits",
];
pub const KINDS: [&str; 5] = ["no line", "pass", "fail", "skipped", "error"];

pub const EXPECTED: &[(&str, &[&str])] = &[
    ("tap_room", &["0 ids", "1 id", "4,096 ids", "65,535 ids"]),
    ("tap_read", &["done", "Malformed", "BadPlan"]),
    ("tap_read", STORE),
    ("tap_read, reason", &RANGE_REASONS),
    ("tap_read, reason", LENGTH_REASONS.split_at(2).0),
    ("tap_read, status", STATUSES),
    (
        "tap_read, order",
        &[
            "BadDesk before BadId",
            "BadDesk before BadLength",
            "BadDesk before the text",
            "BadId before BadLength",
            "BadId before the text",
            "BadLength before the text",
            "Malformed before Stopped",
            "Malformed before Open",
            "Malformed before BadLeaf",
            "BadPlan before Stopped",
            "BadPlan before Open",
            "BadPlan before BadLeaf",
        ],
    ),
    ("tap_read, after a request", AFTER),
    ("tap_read, said", &KINDS),
    (
        "tap_read, taken with",
        &[
            "the plan last",
            "the plan between tests",
            "no test at all",
            "a comment",
            "no line feed at the end",
            "a name of 0 bytes",
            "a name of 60 bytes",
            "a hash in a name",
            "zeros before a number",
            "numbers that don't rise",
            "one id",
            "more than 255 ids",
            "4,096 ids",
            "a chapter above 31",
        ],
    ),
    ("tap_read, refused with", &DAMAGES),
    ("tap_read, taken in spite of", &DAMAGES),
    (
        "tap_read, texts",
        &["stored", "drawn", "written by tap_write"],
    ),
    ("tap_write", &["text"]),
    ("tap_write", STORE),
    ("tap_write, reason", &RANGE_REASONS),
    ("tap_write, reason", &LENGTH_REASONS),
    ("tap_write, status", STATUSES),
    (
        "tap_write, order",
        &[
            "BadDesk before BadId",
            "BadDesk before BadLength by out",
            "BadId before BadLength by out",
            "BadLength by out before Stopped",
            "BadLength by out before Open",
            "BadLength by out before BadLeaf",
        ],
    ),
    ("tap_write, after a request", AFTER),
    ("tap_write, line", &["pass", "fail", "skipped", "error"]),
    (
        "tap_write, no line",
        &[
            "Never",
            "a record that is no verdict",
            "a record of another chapter",
            "a line feed in the name",
        ],
    ),
    (
        "tap_write, name",
        &[
            "of 0 bytes",
            "of 60 bytes",
            "with a space at an end",
            "with a dash in front",
            "with a hash",
            "that reads as a directive",
        ],
    ),
    (
        "tap_write, taken with",
        &["one id", "4,096 ids", "a chapter above 31"],
    ),
    ("tap_write, numbers", &WIDTHS),
    ("tap_write, texts", &["stored", "of drawn records"]),
    (
        "tap_write, read back",
        &["the same verdicts and names", "other verdicts or names"],
    ),
];
