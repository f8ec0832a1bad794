//! The rules for texts, one by one, and the buffers around a call.

use second::desk;
use second::format::{format, Sizes};
use second::row::{request, Asked};
use second::sizes::{desk_length, Shape};
use second::store::{Second, Sheet, Store};
use second::tap::line::{read as line, Line, Test};
use second::tap::text;
use second::tap::why::Why;
use second::verdict::{make, Said, Verdict};
use Verdict::{Error, Fail, Pass, Skipped};

const CHAPTER: u8 = 7;
const YEAR: u16 = 0x1234;

fn test(number: u64, verdict: Verdict, name: &str) -> Result<Line<'_>, Why> {
    let name = name.as_bytes();
    Ok(Line::Test(number, Test { verdict, name }))
}

#[test]
fn lines_by_themselves() {
    assert_eq!(line(b"# anything"), Ok(Line::Comment));
    assert_eq!(line(b"#"), Ok(Line::Comment));
    assert_eq!(line(b"1..12"), Ok(Line::Plan(12)));
    assert_eq!(line(b"1..0  "), Ok(Line::Plan(0)));
    assert_eq!(line(b"1..99999999999999999999"), Ok(Line::Plan(u64::MAX)));
    assert_eq!(line(b"1.."), Err(Why::NoCount));
    assert_eq!(line(b"1..3\t"), Err(Why::BehindPlan));
    for unknown in [
        "",
        " ",
        "TAP version 13",
        "Bail out!",
        " ok 1",
        "OK 1",
        "1.3",
        "  ---",
    ] {
        assert_eq!(line(unknown.as_bytes()), Err(Why::Unknown), "{unknown:?}");
    }
    for without in [
        "ok", "ok ", "ok - a", "ok  1", "ok\t1", "ok1", "okay 1", "not ok",
    ] {
        assert_eq!(line(without.as_bytes()), Err(Why::NoNumber), "{without:?}");
    }
    for glued in ["ok 1-", "ok 1\t", "ok 1#", "ok 1\r", "ok 1."] {
        assert_eq!(line(glued.as_bytes()), Err(Why::Glued), "{glued:?}");
    }
}

#[test]
fn names_and_directives() {
    assert_eq!(line(b"ok 3"), test(3, Pass, ""));
    assert_eq!(line(b"not ok 3 - a b "), test(3, Fail, "a b"));
    assert_eq!(line(b"ok 003   a"), test(3, Pass, "a"));
    assert_eq!(line(b"ok 3 --"), test(3, Pass, "-"));
    assert_eq!(line(b"ok 3 - - a"), test(3, Pass, "- a"));
    assert_eq!(line(b"not ok 3 - a # SKIP b"), test(3, Skipped, "a"));
    assert_eq!(line(b"ok 3 - a#todo"), test(3, Error, "a"));
    assert_eq!(line(b"ok 3 # SKIPPED"), test(3, Pass, "# SKIPPED"));
    assert_eq!(line(b"ok 3 a # b # TODO # SKIP"), test(3, Error, "a # b"));
    assert_eq!(line(b"ok 3 a #\tSKIP"), test(3, Pass, "a #\tSKIP"));
    assert_eq!(line(b"ok 3 a \\# SKIP"), test(3, Skipped, "a \\"));
}

#[test]
fn names_of_60_bytes() {
    for (length, fits) in [(59, true), (60, true), (61, false), (316, false)] {
        let name = "n".repeat(length);
        for around in ["ok 1 N", "ok 1    -    N    ", "ok 1 - N # SKIP x"] {
            let read = line(around.replace('N', &name).into_bytes().leak());
            assert_eq!(read.is_ok(), fits, "{length} in {around:?}");
        }
    }
    assert_eq!(line(b"ok 1 a\0"), Err(Why::ZeroInName));
    assert_eq!(line(b"ok 1 a # SKIP \0"), test(1, Skipped, "a"));
}

fn refused(text: &str, chapter: u8) -> (Why, u64) {
    let refused = text::read(text.as_bytes(), chapter, 2).expect_err("a refusal");
    (refused.why, refused.line)
}

#[test]
fn chapters_above_31_hold_no_tests() {
    let with = "TAP version 13\n1..2\nok 9 - a\n";
    assert_eq!(refused(with, 31), (Why::NumberAbove, 3));
    // Malformed comes first on one line.
    assert_eq!(refused(with, 32), (Why::HighChapter, 3));
    assert_eq!(refused(with, 255), (Why::HighChapter, 3));
    let without = text::read(b"TAP version 13\n1..2\n", 32, 2);
    assert_eq!(without, Ok(vec![None, None]));
}

#[test]
fn lines_are_counted_from_1() {
    assert_eq!(refused("", 0), (Why::NoVersion, 1));
    assert_eq!(refused("\n", 0), (Why::OtherVersion, 1));
    assert_eq!(refused("TAP version 13", 0), (Why::NoPlan, 2));
    assert_eq!(refused("TAP version 13\n", 0), (Why::NoPlan, 2));
    assert_eq!(refused("TAP version 13\n#\n#", 0), (Why::NoPlan, 4));
    let long = "#\n".repeat(70_000);
    let text = format!("TAP version 13\n{long}x");
    assert_eq!(refused(&text, 0), (Why::Unknown, 70_002));
}

#[test]
fn rooms() {
    for (count, room) in [(0, 23), (1, 105), (4096, 335_895), (65535, 5_373_893)] {
        assert_eq!(Second.tap_room(count), room);
    }
}

#[derive(Clone, PartialEq, Eq, Debug)]
struct Book {
    desk: Vec<u8>,
    tree: Vec<u8>,
}

const SHAPE: Shape = Shape {
    height: 3,
    slots: 4,
};
const IDS: u16 = 9;

fn record(verdict: Verdict, chapter: u8, name: &[u8]) -> [u8; 64] {
    make(Said {
        verdict,
        chapter,
        year: YEAR,
        name,
    })
    .expect("a good record")
}

fn asked(first: u16, end: u16) -> Asked {
    Asked {
        chapter: CHAPTER,
        first,
        end,
    }
}

impl Book {
    fn new() -> Book {
        let sizes = Sizes {
            height: 3,
            slots: 4,
            stash: 30,
            ids: IDS,
        };
        let mut desk = vec![0; desk_length(IDS, 30).expect("a length")];
        format(&mut desk, sizes, &[9; 32], &[0, 1, 2, 3, 4, 5, 6, 7, 0]).expect("sizes in range");
        let tree = vec![0; SHAPE.tree_length()];
        Book { desk, tree }
    }

    fn ask(&mut self, id: u16, draw: u16, record: Option<&[u8; 64]>) -> Option<[u8; 64]> {
        request(&mut self.desk, &mut self.tree, SHAPE, id, draw, record).expect("a good request")
    }

    fn read(&mut self, asked: Asked, draws: &[u16], text: &[u8]) -> (i32, u64) {
        let sheet = Sheet { asked, year: YEAR };
        let mut line = [77];
        let (desk, tree) = (&mut self.desk, &mut self.tree);
        let answer = Second.tap_read(desk, tree, sheet, draws, text, &mut line);
        (answer, line[0])
    }

    /// A text that is refused and changes nothing.
    fn unchanged(&self, expected: (i32, u64), asked: Asked, draws: &[u16], text: &[u8]) {
        let mut after = self.clone();
        assert_eq!(after.read(asked, draws, text), expected);
        assert!(*self == after, "{expected:?} changed something");
    }

    fn write(&mut self, asked: Asked, draws: &[u16], room: usize) -> (i32, Vec<u8>) {
        let mut out = vec![0xa5; room];
        let answer = Second.tap_write(&mut self.desk, &mut self.tree, asked, draws, &mut out);
        (answer, out)
    }
}

const TEXT: &[u8] = b"TAP version 13\n1..3\nok 3 - c # SKIP\nnot ok 1 - a\n";

/// Reading a text is the same requests made one by one: a write where there
/// is a line, a read where there is none, ids rising, a draw each.
#[test]
fn reading_is_whole_requests() {
    let mut book = Book::new();
    book.ask(5, 1, Some(&record(Pass, CHAPTER, b"before")));
    let mut other = book.clone();
    assert_eq!(book.read(asked(4, 7), &[5, 6, 7], TEXT), (0, 77));
    other.ask(4, 5, Some(&record(Fail, CHAPTER, b"a")));
    other.ask(5, 6, None);
    other.ask(6, 7, Some(&record(Skipped, CHAPTER, b"c")));
    assert!(book == other);
}

#[test]
fn refused_texts_change_nothing() {
    let mut book = Book::new();
    let range = asked(4, 7);
    let late = [TEXT, b"\n"].concat();
    book.unchanged((-12, 5), range, &[0; 3], &late);
    let wrong = [TEXT, b"ok 4"].concat();
    book.unchanged((-13, 5), range, &[0; 3], &wrong);
    // Desk, range and lengths come before the text, and leave the line.
    book.unchanged((-5, 77), asked(7, 4), &[0; 3], &late);
    book.unchanged((-5, 77), asked(4, 11), &[0; 3], &late);
    book.unchanged((-7, 77), range, &[0; 2], &late);
    let tree = std::mem::take(&mut book.tree);
    book.unchanged((-7, 77), range, &[0; 3], &late);
    book.tree = tree;
    // The text comes before what an ask refuses.
    book.unchanged((-12, 5), range, &[8; 3], &late);
    book.unchanged((-6, 77), range, &[8; 3], TEXT);
    for (status, answer) in [(1, -3), (2, -2), (3, -2), (4, -2)] {
        let mut open = book.clone();
        second::ask::ask_read(&mut open.desk, 1, 0).expect("a good ask");
        open.desk[desk::STATUS] = status;
        open.unchanged((-13, 5), range, &[0; 3], &wrong);
        open.unchanged((answer, 77), range, &[0; 3], TEXT);
    }
    book.desk[desk::SIZES_ZERO] = 1;
    book.unchanged((-1, 77), asked(7, 4), &[0; 2], &late);
}

/// A draw that is no leaf ends it where it is used; what came before stays.
#[test]
fn refused_in_the_middle() {
    let mut book = Book::new();
    let mut other = book.clone();
    assert_eq!(book.read(asked(4, 7), &[5, 6, 8], TEXT), (-6, 77));
    other.ask(4, 5, Some(&record(Fail, CHAPTER, b"a")));
    other.ask(5, 6, None);
    assert!(book == other);
    let room = Second.tap_room(3);
    let (answer, out) = book.write(asked(4, 7), &[1, 2, 8], room);
    assert_eq!((answer, out), (-6, vec![0xa5; room]));
    other.ask(4, 1, None);
    other.ask(5, 2, None);
    assert!(book == other);
}

#[test]
fn writing_says_what_is_there() {
    let mut book = Book::new();
    let records = [
        (1, record(Pass, CHAPTER, b"a")),
        (2, record(Fail, CHAPTER, b"b # c")),
        (3, record(Skipped, CHAPTER, b"")),
        (5, record(Error, CHAPTER, &[b'n'; 60])),
        (6, record(Pass, CHAPTER + 1, b"elsewhere")),
        (7, record(Pass, CHAPTER, b"two\nok 7 - lines")),
        (8, [0; 64]),
    ];
    for (id, record) in &records {
        book.ask(*id, id % 8, Some(record));
    }
    let text = "TAP version 13\n1..9\nok 1 - a\nnot ok 2 - b # c\nok 3 -  # SKIP\n\
        not ok 5 - nnnnnnnnnnnnnnnnnnnnnnnnnnnnnnnnnnnnnnnnnnnnnnnnnnnnnnnnnnnn # TODO\n";
    let mut expected = vec![0xa5; Second.tap_room(9)];
    expected[..text.len()].copy_from_slice(text.as_bytes());
    let mut other = book.clone();
    let draws = [7, 6, 5, 4, 3, 2, 1, 0, 7];
    let (answer, out) = book.write(asked(1, 10), &draws, expected.len());
    assert_eq!((answer, out), (text.len() as i32, expected));
    for (id, draw) in (1..10).zip(draws) {
        other.ask(id, draw, None);
    }
    assert!(book == other);
    // Numbers are counted from the first id.
    let (answer, out) = book.write(asked(2, 3), &[1], Second.tap_room(1));
    assert_eq!(
        &out[..answer as usize],
        b"TAP version 13\n1..1\nnot ok 1 - b # c\n"
    );
}

#[test]
fn writing_refused() {
    let mut book = Book::new();
    let room = Second.tap_room(3);
    let wrong = |book: &Book, asked, draws: &[u16], room: usize, number: i32| {
        let mut after = book.clone();
        let (answer, out) = after.write(asked, draws, room);
        assert_eq!((answer, out), (-number, vec![0xa5; room]));
        assert!(*book == after, "refusal {number} changed something");
    };
    for length in [0, room - 1, room + 1, Second.tap_room(4)] {
        wrong(&book, asked(4, 7), &[0; 3], length, 7);
        wrong(&book, asked(4, 7), &[8; 3], length, 7);
        wrong(&book, asked(7, 4), &[0; 3], length, 5);
    }
    wrong(&book, asked(4, 7), &[0; 2], room, 7);
    wrong(&book, asked(4, 7), &[8; 3], room, 6);
    second::ask::ask_read(&mut book.desk, 1, 0).expect("a good ask");
    wrong(&book, asked(4, 7), &[0; 3], room, 3);
    wrong(&book, asked(4, 7), &[0; 3], room + 1, 7);
    book.desk[desk::STATUS] = 4;
    wrong(&book, asked(4, 7), &[0; 3], room, 2);
    book.desk.pop();
    wrong(&book, asked(4, 4), &[0; 3], 0, 1);
}
