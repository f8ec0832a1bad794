//! Books kept in another way than asked for: a comparison notices each.

mod wrong;

use second::ask::ask_read;
use second::desk::Desk;
use second::good::is_good;
use second::row::{Asked, Counts, BAD, FAILED, NOT_RUN, PASSED, SKIPPED};
use second::sizes::Shape;
use second::store::{Second, Store, COMPLETE, INCOMPLETE};
use wrong::{caught, compared, Wrong};

const RECORD: i32 = 1;
const BAD_DESK: i32 = -1;
const BAD_ID: i32 = -5;
const BAD_LENGTH: i32 = -7;

/// How a book is kept. The default is the right way, written once more.
#[derive(Clone, Copy)]
struct Habits {
    /// The place of request `number` of `length` in range and draws.
    id: fn(u16, u16) -> u16,
    draw: fn(u16, u16) -> u16,
    never: usize,
    /// The column of a record in a row of a chapter.
    column: fn(u8, &[u8]) -> usize,
    complete: fn(&Counts, u16) -> bool,
    /// Whether Forged, Worn and Full end the row.
    stops: bool,
    /// Whether the path of a refused finish is put back.
    puts_refused: bool,
    /// Whether the counts so far are handed out with a refusal.
    counts_with_refusal: bool,
    /// Whether the first id is asked for before the lengths are looked at.
    asks_first: bool,
    /// Whether desk and tree are as before after a refusal.
    takes_back: bool,
}

const RIGHT: Habits = Habits {
    id: |number, _| number,
    draw: |number, _| number,
    never: NOT_RUN,
    column: right_column,
    complete: |counts, length| counts[PASSED] == length,
    stops: true,
    puts_refused: false,
    counts_with_refusal: false,
    asks_first: false,
    takes_back: false,
};

fn right_column(chapter: u8, record: &[u8]) -> usize {
    let mut said = [0; 3];
    match Second.verdict_read(record, &mut said) {
        0 => BAD,
        _ if said[0] != u16::from(chapter) => BAD,
        verdict => verdict as usize - 1,
    }
}

fn refusal(desk: &[u8], tree: &[u8], asked: Asked, draws: &[u16]) -> i32 {
    if !is_good(desk) {
        return BAD_DESK;
    }
    let Asked { first, end, .. } = asked;
    if first < 1 || first >= end || end > Desk(desk).ids() + 1 {
        return BAD_ID;
    }
    let lengths = (tree.len(), draws.len());
    if lengths != (Desk(desk).shape().tree_length(), usize::from(end - first)) {
        return BAD_LENGTH;
    }
    0
}

impl Habits {
    fn row(
        &self,
        desk: &mut [u8],
        tree: &mut [u8],
        asked: Asked,
        draws: &[u16],
        counts: &mut Counts,
    ) -> i32 {
        let refusal = refusal(desk, tree, asked, draws);
        if refusal == BAD_LENGTH && self.asks_first && !draws.is_empty() {
            let _ = ask_read(desk, asked.first, draws[0]);
        }
        if refusal < 0 {
            return refusal;
        }
        let before = (desk.to_vec(), tree.to_vec());
        let (mut found, length) = ([0; 6], asked.length());
        for number in 0..length {
            let id = asked.first + (self.id)(number, length);
            let draw = draws[usize::from((self.draw)(number, length))];
            match self.request(desk, tree, (id, draw), asked.chapter) {
                Ok(column) => found[column] += 1,
                Err(refusal) => {
                    if self.counts_with_refusal {
                        *counts = found;
                    }
                    if self.takes_back {
                        desk.copy_from_slice(&before.0);
                        tree.copy_from_slice(&before.1);
                    }
                    return refusal;
                }
            }
        }
        *counts = found;
        match (self.complete)(&found, length) {
            true => COMPLETE,
            false => INCOMPLETE,
        }
    }

    /// One request; the column it counts in.
    fn request(
        &self,
        desk: &mut [u8],
        tree: &mut [u8],
        (id, draw): (u16, u16),
        chapter: u8,
    ) -> Result<usize, i32> {
        let shape = Desk(desk).shape();
        let Shape { height, slots } = shape;
        let leaf = Second.ask_read(desk, id, draw);
        let leaf = u16::try_from(leaf).map_err(|_| leaf)?;
        let mut path = vec![0; shape.path_length()];
        Second.fetch(tree, height, slots, leaf, &mut path);
        let mut record = [0; 64];
        let answer = Second.finish(desk, &mut path, &mut record);
        if answer > 0 || self.puts_refused {
            if answer < 0 {
                path[0] ^= 1;
            }
            Second.put(tree, height, slots, leaf, &path);
        }
        match answer {
            RECORD => Ok((self.column)(chapter, &record)),
            2.. => Ok(self.never),
            _ if self.stops => Err(answer),
            _ => Ok(BAD),
        }
    }
}

fn book(habits: Habits) -> Wrong {
    Wrong {
        row: Box::new(move |a, b, c, d, e| habits.row(a, b, c, d, e)),
        ..Wrong::default()
    }
}

fn book_caught(what: &str, habits: Habits) {
    caught(what, "book", &book(habits));
}

/// Otherwise the others might be caught for something that isn't meant.
#[test]
fn the_right_habits_pass() {
    compared(&book(RIGHT), "book").expect("no difference");
}

#[test]
fn never_counted_elsewhere() {
    for never in [PASSED, FAILED, SKIPPED, BAD] {
        book_caught("never counted elsewhere", Habits { never, ..RIGHT });
    }
}

#[test]
fn another_chapter_counted() {
    let column = |_, record: &[u8]| right_column(record[1], record);
    book_caught("another chapter counted", Habits { column, ..RIGHT });
    let column = |chapter, record: &[u8]| match record[1] == chapter {
        true => right_column(chapter, record),
        false => NOT_RUN,
    };
    book_caught("another chapter not run", Habits { column, ..RIGHT });
}

#[test]
fn bad_records_counted_by_their_first_byte() {
    let column = |chapter, record: &[u8]| match (record[0], record[1] == chapter) {
        (1..=4, true) => usize::from(record[0]) - 1,
        _ => BAD,
    };
    book_caught("names not looked at", Habits { column, ..RIGHT });
    let column = |chapter, record: &[u8]| match right_column(chapter, record) {
        BAD if record[0] > 4 => 3,
        column => column,
    };
    book_caught("unknown verdicts as errors", Habits { column, ..RIGHT });
}

#[test]
fn a_chapter_above_31_counted() {
    let column = |chapter, record: &[u8]| right_column(chapter % 32, record);
    book_caught("chapter taken modulo 32", Habits { column, ..RIGHT });
}

#[test]
fn complete_too_early() {
    let complete = |counts: &Counts, length| counts[PASSED] + counts[SKIPPED] == length;
    book_caught("skipped passes", Habits { complete, ..RIGHT });
    let complete = |counts: &Counts, length| counts[PASSED] + counts[NOT_RUN] == length;
    book_caught("not run passes", Habits { complete, ..RIGHT });
    let complete = |counts: &Counts, _| counts[FAILED] + counts[3] + counts[BAD] == 0;
    book_caught("complete without fails", Habits { complete, ..RIGHT });
    let complete = |_: &Counts, _| false;
    book_caught("never complete", Habits { complete, ..RIGHT });
}

#[test]
fn other_orders_of_ids_and_draws() {
    let down = |number, length| length - 1 - number;
    let both = Habits {
        id: down,
        draw: down,
        ..RIGHT
    };
    book_caught("ids taken downwards", both);
    book_caught(
        "draws taken downwards",
        Habits {
            draw: down,
            ..RIGHT
        },
    );
    let draw = |number: u16, _| number.saturating_sub(1);
    book_caught("a draw used twice", Habits { draw, ..RIGHT });
    let id = |number: u16, _| number.saturating_sub(1);
    book_caught("an id read twice", Habits { id, ..RIGHT });
}

#[test]
fn refusals_that_leave_something_else() {
    let habits = Habits {
        counts_with_refusal: true,
        ..RIGHT
    };
    book_caught("counts beside a refusal", habits);
    let habits = Habits {
        takes_back: true,
        ..RIGHT
    };
    book_caught("earlier changes taken back", habits);
    let habits = Habits {
        puts_refused: true,
        ..RIGHT
    };
    book_caught("refused path put back", habits);
    let habits = Habits {
        stops: false,
        ..RIGHT
    };
    book_caught("refusals counted as bad", habits);
}

#[test]
fn an_ask_before_the_lengths() {
    let habits = Habits {
        asks_first: true,
        ..RIGHT
    };
    book_caught("asked before the lengths", habits);
}
