//! Rows over honest histories against a plain table, and what each refusal of
//! a row leaves behind.

use second::ask::{ask_read, ask_write};
use second::desk::{self, Desk};
use second::finish::finish;
use second::format::{format, Sizes};
use second::item;
use second::random::Random;
use second::row::{row, Asked, Counts};
use second::sizes::{desk_length, Shape};
use second::store::{Second, Store, COMPLETE, INCOMPLETE};
use second::tree::{fetch, put};
use std::collections::BTreeMap;

/// What stands in the counts before a call.
const BEFORE: Counts = [0xa5a5; 6];
const CHAPTER: u8 = 7;

/// What was written to an id: verdict and chapter, or a record that is none.
type Table = BTreeMap<u16, Option<(u8, u8)>>;

#[derive(Clone, PartialEq, Eq, Debug)]
struct Book {
    desk: Vec<u8>,
    tree: Vec<u8>,
    sizes: Sizes,
}

fn shape(sizes: Sizes) -> Shape {
    sizes.shape().expect("sizes in range")
}

fn sizes(height: u8, slots: u8, stash: u8, ids: u16) -> Sizes {
    Sizes {
        height,
        slots,
        stash,
        ids,
    }
}

fn leaves(random: &mut Random, sizes: Sizes, count: u16) -> Vec<u16> {
    let leaves = u64::from(shape(sizes).leaves());
    (0..count).map(|_| random.below(leaves) as u16).collect()
}

fn asked(first: u16, end: u16) -> Asked {
    Asked {
        chapter: CHAPTER,
        first,
        end,
    }
}

impl Book {
    /// A new store over a tree of zeros.
    fn new(random: &mut Random, sizes: Sizes) -> Book {
        let length = desk_length(sizes.ids, sizes.stash).expect("ids in range");
        let mut desk = vec![0; length];
        let starts = leaves(random, sizes, sizes.ids);
        format(&mut desk, sizes, &random.bytes::<32>(), &starts).expect("good sizes");
        let tree = vec![0; shape(sizes).tree_length()];
        Book { desk, tree, sizes }
    }

    /// A write of `record`, or a read.
    fn request(&mut self, id: u16, draw: u16, record: Option<&[u8]>) {
        let Shape { height, slots } = shape(self.sizes);
        let leaf = match record {
            Some(record) => ask_write(&mut self.desk, id, draw, record),
            None => ask_read(&mut self.desk, id, draw),
        }
        .expect("good ask");
        let mut path = vec![0; shape(self.sizes).path_length()];
        fetch(&self.tree, height, slots, leaf, &mut path).expect("good fetch");
        finish(&mut self.desk, &mut path, &mut [0; 64]).expect("good finish");
        put(&mut self.tree, height, slots, leaf, &path).expect("good put");
    }

    fn row(&mut self, asked: Asked, draws: &[u16]) -> (i32, Counts) {
        let mut counts = BEFORE;
        let answer = Second.row(&mut self.desk, &mut self.tree, asked, draws, &mut counts);
        (answer, counts)
    }

    /// A row that is refused with this number and no counts.
    fn refused(&mut self, number: i32, asked: Asked, draws: &[u16]) {
        assert_eq!(self.row(asked, draws), (-number, BEFORE));
    }

    /// The same, and nothing was changed.
    fn unchanged(&self, number: i32, asked: Asked, draws: &[u16]) {
        let mut after = self.clone();
        after.refused(number, asked, draws);
        assert!(*self == after, "refusal {number} changed something");
    }

    /// How often each bucket was put, over a tree that began with zeros.
    fn visits(&self) -> Vec<u64> {
        let shape = shape(self.sizes);
        let buckets = 2 * shape.leaves() - 1;
        (0..buckets)
            .map(|bucket| item::counter(&self.tree[shape.in_tree(bucket)]))
            .collect()
    }
}

/// A record that is no verdict, in one of several ways.
fn bad_record(random: &mut Random) -> [u8; 64] {
    let mut record = [b'n'; 64];
    record[..2].copy_from_slice(&[1, CHAPTER]);
    match random.below(4) {
        0 => record[0] = random.pick(&[0, 5, 255]),
        1 => record[1] = random.pick(&[32, 255]),
        2 => record[30] = 0,
        _ => record = [0; 64],
    }
    record
}

/// Writes something to `id` and into the table.
fn write(random: &mut Random, book: &mut Book, table: &mut Table, id: u16, only_pass: bool) {
    let mut record = [0; 64];
    let verdict = random.range(1, 4) as u8;
    let chapter = random.pick(&[CHAPTER, CHAPTER, CHAPTER, 0, 31]);
    let said = match random.below(5) {
        _ if only_pass => Some((1, CHAPTER)),
        0 => None,
        _ => Some((verdict, chapter)),
    };
    match said {
        Some((verdict, chapter)) => {
            let name = vec![b'x'; random.index(61)];
            let year = random.word() as u16;
            Second.verdict_make(&mut record, verdict, chapter, year, &name);
        }
        None => record = bad_record(random),
    }
    let draw = leaves(random, book.sizes, 1)[0];
    book.request(id, draw, Some(&record));
    table.insert(id, said);
}

/// The counts by the table alone.
fn expected(table: &Table, asked: Asked) -> Counts {
    let mut counts = [0; 6];
    for id in asked.first..asked.end {
        let column = match table.get(&id) {
            None => 5,
            Some(Some((verdict, chapter))) if *chapter == asked.chapter => verdict - 1,
            Some(_) => 4,
        };
        counts[usize::from(column)] += 1;
    }
    counts
}

fn history(seed: u64, sizes: Sizes, rows: usize, only_pass: bool) -> [usize; 2] {
    let mut random = Random::new(seed);
    let mut book = Book::new(&mut random, sizes);
    let mut table = Table::new();
    let mut seen = [0; 2];
    for _ in 0..rows {
        for _ in 0..random.index(6) {
            let id = random.range(1, u64::from(sizes.ids)) as u16;
            write(&mut random, &mut book, &mut table, id, only_pass);
        }
        let first = random.range(1, u64::from(sizes.ids)) as u16;
        let end = random.range(u64::from(first) + 1, u64::from(sizes.ids) + 1) as u16;
        let chapter = random.pick(&[CHAPTER, CHAPTER, CHAPTER, 0, 31, 32, 255]);
        let asked = Asked {
            chapter,
            first,
            end,
        };
        let draws = leaves(&mut random, sizes, end - first);
        let counts = expected(&table, asked);
        let answer = match counts[0] == end - first {
            true => COMPLETE,
            false => INCOMPLETE,
        };
        assert_eq!(book.row(asked, &draws), (answer, counts));
        assert_eq!(counts.iter().sum::<u16>(), end - first);
        seen[answer as usize - 1] += 1;
        for (id, draw) in (first..end).zip(&draws) {
            assert_eq!(Desk(&book.desk).position(id), *draw);
        }
    }
    seen
}

#[test]
fn rows_count_as_the_table_does() {
    for seed in 0..8 {
        history(seed, sizes(3, 4, 40, 9), 60, false);
        history(seed, sizes(1, 8, 60, 30), 30, false);
        history(seed, sizes(5, 2, 100, 40), 30, false);
        let [complete, incomplete] = history(seed, sizes(2, 4, 20, 6), 60, true);
        assert!(complete > 0 && incomplete > 0);
    }
    history(9, sizes(8, 4, 200, 300), 30, false);
}

/// A row is the same requests made one by one.
#[test]
fn rows_are_whole_requests() {
    let mut random = Random::new(10);
    for (sizes, first, end) in [
        (sizes(3, 4, 40, 9), 1, 10),
        (sizes(3, 4, 40, 9), 4, 5),
        (sizes(5, 2, 100, 40), 7, 30),
        (sizes(12, 8, 255, 4096), 4000, 4097),
    ] {
        let (mut one, mut table) = (Book::new(&mut random, sizes), Table::new());
        for _ in 0..50 {
            let id = random.range(1, u64::from(sizes.ids)) as u16;
            write(&mut random, &mut one, &mut table, id, false);
        }
        let mut other = one.clone();
        let draws = leaves(&mut random, sizes, end - first);
        assert!(one.row(asked(first, end), &draws).0 > 0);
        for (id, draw) in (first..end).zip(&draws) {
            other.request(id, *draw, None);
        }
        assert!(one == other);
    }
}

/// A small store with something of each sort in it.
fn filled(random: &mut Random, sizes: Sizes) -> Book {
    let (mut book, mut table) = (Book::new(random, sizes), Table::new());
    for id in (1..=sizes.ids).step_by(2) {
        write(random, &mut book, &mut table, id, false);
    }
    book
}

#[test]
fn ranges_have_their_ends() {
    let mut random = Random::new(11);
    let sizes = sizes(3, 4, 20, 9);
    let book = filled(&mut random, sizes);
    let ends: [(u16, u16); 7] = [(0, 1), (0, 10), (1, 1), (9, 9), (10, 10), (5, 4), (10, 1)];
    let outside = [(1, 11), (9, 11), (10, 11), (1, 65535), (65535, 65535)];
    for (first, end) in ends.into_iter().chain(outside) {
        let length = end.saturating_sub(first);
        book.unchanged(5, asked(first, end), &vec![0; usize::from(length)]);
        // BadId comes before BadLength.
        book.unchanged(5, asked(first, end), &[0; 3]);
    }
    for (first, end) in [(1, 2), (1, 10), (9, 10)] {
        let draws = leaves(&mut random, sizes, end - first);
        assert_eq!(book.clone().row(asked(first, end), &draws).0, INCOMPLETE);
    }
}

#[test]
fn lengths_are_exact() {
    let mut random = Random::new(12);
    let mut book = filled(&mut random, sizes(3, 4, 20, 9));
    for length in [0, 2, 4, 9] {
        book.unchanged(7, asked(2, 5), &vec![0; length]);
        // A leaf out of range isn't looked at before.
        book.unchanged(7, asked(2, 5), &vec![8; length]);
    }
    let exact = book.tree.len();
    for length in [0, exact - 1, exact + 1] {
        book.tree.resize(length, 0);
        book.unchanged(7, asked(2, 5), &[0; 3]);
        book.unchanged(5, asked(5, 2), &[0; 3]);
    }
}

#[test]
fn bad_desks_come_first() {
    let mut random = Random::new(13);
    let mut book = filled(&mut random, sizes(3, 4, 20, 9));
    book.desk[desk::SIZES_ZERO] = 1;
    book.unchanged(1, asked(2, 5), &[0; 3]);
    book.unchanged(1, asked(5, 2), &[0; 4]);
    book.desk.clear();
    book.unchanged(1, asked(2, 5), &[0; 3]);
}

#[test]
fn open_and_stopped_desks_refuse_after_the_lengths() {
    let mut random = Random::new(14);
    let mut book = filled(&mut random, sizes(3, 4, 20, 9));
    ask_read(&mut book.desk, 3, 1).expect("good ask");
    for (status, number) in [(1, 3), (2, 2), (3, 2), (4, 2)] {
        book.desk[desk::STATUS] = status;
        book.unchanged(number, asked(2, 5), &[0; 3]);
        // The draws are looked at by the ask, which refuses before.
        book.unchanged(number, asked(2, 5), &[8; 3]);
        book.unchanged(7, asked(2, 5), &[0; 2]);
        book.unchanged(5, asked(2, 2), &[]);
    }
}

/// A leaf out of range ends the row where it is used: what came before stays,
/// and the store goes on.
#[test]
fn bad_leaf_in_the_middle() {
    let mut random = Random::new(15);
    let sizes = sizes(3, 4, 20, 9);
    for place in 0..9 {
        let mut book = filled(&mut random, sizes);
        let mut other = book.clone();
        let mut draws = leaves(&mut random, sizes, 9);
        draws[place] = 8;
        book.refused(6, asked(1, 10), &draws);
        for (id, draw) in (1..10).zip(&draws[..place]) {
            other.request(id, *draw, None);
        }
        assert!(book == other, "draw {place}");
    }
}

/// What a refused row leaves: the requests before `id` are done, the one for
/// it is open and the desk is stopped.
fn stops_at(mut book: Book, number: i32, asked: Asked, draws: &[u16], id: u16, status: u8) {
    let mut other = book.clone();
    book.refused(number, asked, draws);
    let draw = |id: u16| draws[usize::from(id - asked.first)];
    for id in asked.first..id {
        other.request(id, draw(id), None);
    }
    ask_read(&mut other.desk, id, draw(id)).expect("good ask");
    other.desk[desk::STATUS] = status;
    assert!(book == other, "refusal {number} at id {id}");
    book.unchanged(2, asked, draws);
}

/// A forged item ends the row at the first request that comes by it.
#[test]
fn forged_in_the_middle() {
    let mut random = Random::new(16);
    let sizes = sizes(3, 2, 20, 9);
    let mut middle = 0;
    for _ in 0..40 {
        let mut book = filled(&mut random, sizes);
        let leaf = random.below(8) as u16;
        let item = shape(sizes).in_tree(shape(sizes).bucket(leaf, 3));
        // An item that was never written isn't looked at.
        let written = item::counter(&book.tree[item.clone()]) > 0;
        book.tree[item.start + 20] ^= 1;
        let meets = (1..10).find(|id| Desk(&book.desk).position(*id) == leaf);
        if let Some(id) = meets.filter(|_| written) {
            let draws = leaves(&mut random, sizes, 9);
            stops_at(book, 9, asked(1, 10), &draws, id, desk::STOPPED_FORGED);
            middle += usize::from(id > 1);
        }
    }
    assert!(middle > 3, "{middle} in the middle");
}

/// Every request has its path through the root, so a root two steps before
/// the last counter ends the row at its third id.
#[test]
fn worn_in_the_middle() {
    let mut random = Random::new(17);
    let sizes = sizes(3, 2, 20, 9);
    let mut book = filled(&mut random, sizes);
    let key = Desk(&book.desk).key();
    let root = &mut book.tree[shape(sizes).in_tree(0)];
    let slots = item::slots(shape(sizes));
    item::cipher(&key, item::counter(root), 0, &mut root[slots.clone()]);
    let counter = u64::MAX - 2;
    root[..8].copy_from_slice(&counter.to_le_bytes());
    item::cipher(&key, counter, 0, &mut root[slots]);
    let digest = item::digest(shape(sizes), root);
    book.desk[desk::ROOT_DIGEST].copy_from_slice(&digest);
    let draws = leaves(&mut random, sizes, 5);
    stops_at(book, 10, asked(4, 9), &draws, 6, desk::STOPPED_WORN);
}

/// Three blocks in three buckets without a stash: they fit at first, and when
/// all three have moved to leaf 1 the root has one place for two of them.
#[test]
fn full_in_the_middle() {
    let sizes = sizes(1, 1, 0, 4);
    let mut book = Book {
        desk: vec![0; desk_length(4, 0).expect("ids in range")],
        tree: vec![0; shape(sizes).tree_length()],
        sizes,
    };
    format(&mut book.desk, sizes, &[3; 32], &[0, 1, 0, 0]).expect("good sizes");
    for (id, draw) in [(1, 0), (2, 1), (3, 0)] {
        book.request(id, draw, Some(&[1; 64]));
    }
    stops_at(book, 11, asked(1, 5), &[1; 4], 3, desk::STOPPED_FULL);
}

/// The visits of every bucket after the row, seen from the positions of its
/// ids before it.
fn expected_visits(book: &Book, first: u16, end: u16) -> Vec<u64> {
    let mut visits = book.visits();
    for id in first..end {
        let leaf = Desk(&book.desk).position(id);
        for level in 0..shape(book.sizes).levels() {
            visits[shape(book.sizes).bucket(leaf, level) as usize] += 1;
        }
    }
    visits
}

/// The leaves that a row asks for are the positions of its ids before it, so
/// neither the records nor the chapter show.
#[test]
fn leaves_depend_on_range_and_draws_only() {
    let sizes = sizes(4, 4, 60, 20);
    for seed in 100..120 {
        let mut random = Random::new(seed);
        let blank = Book::new(&mut random, sizes);
        let ids = leaves(&mut random, sizes, 60).into_iter();
        let requests: Vec<(u16, u16)> = ids.zip(leaves(&mut random, sizes, 60)).collect();
        let first = random.range(1, 20) as u16;
        let end = random.range(u64::from(first) + 1, 21) as u16;
        let draws = leaves(&mut random, sizes, end - first);
        let mut seen = Vec::new();
        for kind in 0..3 {
            let mut book = blank.clone();
            for (id, draw) in &requests {
                // Only reads, only passes, or anything.
                let records = [None, Some([1; 64]), Some(random.bytes())];
                book.request(id + 1, *draw, records[kind].as_ref().map(|it| &it[..]));
            }
            let mut asked = asked(first, end);
            asked.chapter = random.byte();
            let expected = expected_visits(&book, first, end);
            row(&mut book.desk, &mut book.tree, asked, &draws).expect("a row");
            assert_eq!(book.visits(), expected);
            seen.push(expected);
        }
        assert!(seen.windows(2).all(|pair| pair[0] == pair[1]));
    }
}
