//! The worked figures of the paper.

use second::answer::{Answer, Refusal};
use second::ask::{ask_read, ask_write};
use second::desk::{self, Desk};
use second::finish::finish;
use second::format::{format, Sizes};
use second::item::Block;
use second::place::{place, Home};
use second::sizes::{desk_length, Shape};
use second::tree::{fetch, put};

fn shape(height: u8, slots: u8) -> Shape {
    Shape::new(height, slots).expect("sizes in range")
}

fn buckets(height: u8, leaf: u16) -> Vec<u32> {
    let shape = shape(height, 1);
    (0..shape.levels())
        .map(|level| shape.bucket(leaf, level))
        .collect()
}

#[test]
fn buckets_of_paths() {
    assert_eq!(buckets(2, 2), [0, 2, 5]);
    assert_eq!(buckets(3, 5), [0, 2, 5, 12]);
    assert_eq!(buckets(1, 1), [0, 2]);
}

#[test]
fn lengths() {
    assert_eq!(shape(3, 4).inner_item(), 346);
    assert_eq!(shape(3, 4).leaf_item(), 280);
    assert_eq!(shape(3, 4).path_length(), 1318);
    assert_eq!(shape(1, 1).path_length(), 218);
    assert_eq!(shape(12, 8).path_length(), 7968);
    assert_eq!(shape(2, 1).tree_length(), 730);
    assert_eq!(desk_length(3, 2), Some(331));
}

#[test]
fn sizes_out_of_range() {
    for (height, slots) in [(0, 1), (13, 1), (1, 0), (1, 9)] {
        assert_eq!(Shape::new(height, slots), None);
    }
    assert_eq!(desk_length(0, 2), None);
    assert_eq!(desk_length(4097, 2), None);
}

/// A desk and a tree in one place.
struct Shelf {
    desk: Vec<u8>,
    tree: Vec<u8>,
    shape: Shape,
}

impl Shelf {
    fn new(shape: Shape, stash: u8, starts: &[u16]) -> Shelf {
        let ids = starts.len() as u16;
        let mut desk = vec![0; desk_length(ids, stash).expect("ids in range")];
        let sizes = Sizes {
            height: shape.height,
            slots: shape.slots,
            stash,
            ids,
        };
        let key: [u8; 32] = std::array::from_fn(|place| place as u8);
        format(&mut desk, sizes, &key, starts).expect("good sizes");
        let tree = vec![0; shape.tree_length()];
        Shelf { desk, tree, shape }
    }

    /// Goes on from an answered ask to its finish.
    fn go_on(&mut self, leaf: u16) -> (u16, Result<Answer, Refusal>, [u8; 64]) {
        let Shape { height, slots } = self.shape;
        let mut path = vec![0; self.shape.path_length()];
        let mut record = [0xee; 64];
        fetch(&self.tree, height, slots, leaf, &mut path).expect("good fetch");
        let answer = finish(&mut self.desk, &mut path, &mut record);
        put(&mut self.tree, height, slots, leaf, &path).expect("good put");
        (leaf, answer, record)
    }

    fn read(&mut self, id: u16, draw: u16) -> (u16, Result<Answer, Refusal>, [u8; 64]) {
        let leaf = ask_read(&mut self.desk, id, draw).expect("good ask");
        self.go_on(leaf)
    }

    fn write(&mut self, id: u16, draw: u16) -> (u16, Result<Answer, Refusal>, [u8; 64]) {
        let leaf = ask_write(&mut self.desk, id, draw, &record(id)).expect("good ask");
        self.go_on(leaf)
    }
}

fn record(id: u16) -> [u8; 64] {
    std::array::from_fn(|place| place as u8 ^ id as u8)
}

const UNTOUCHED: [u8; 64] = [0xee; 64];

#[test]
fn homes_of_four_blocks() {
    let blocks = [(1, 2), (2, 3), (3, 0), (4, 2)].map(|(id, leaf)| Block {
        id,
        leaf,
        record: [0; 64],
    });
    let homes = [Home::Level(2), Home::Level(1), Home::Level(0), Home::Stash];
    assert_eq!(place(shape(2, 1), 2, &blocks), homes);
}

/// Brings the four blocks of the figure onto the path to leaf 2.
fn four_blocks(stash: u8) -> (Shelf, Result<Answer, Refusal>) {
    let mut shelf = Shelf::new(shape(2, 1), stash, &[2, 2, 2, 2]);
    for (id, draw) in [(3, 0), (2, 3), (1, 2)] {
        assert_eq!(shelf.write(id, draw), (2, Ok(Answer::Done), UNTOUCHED));
    }
    let (leaf, answer, buffer) = shelf.write(4, 2);
    assert_eq!((leaf, buffer), (2, UNTOUCHED));
    (shelf, answer)
}

#[test]
fn room_for_one_accepts() {
    let (mut shelf, answer) = four_blocks(1);
    assert_eq!(answer, Ok(Answer::Done));
    let stash = Desk(&shelf.desk).stash();
    assert_eq!(Block::read(stash).id, 4);
    assert_eq!(shelf.read(4, 0), (2, Ok(Answer::Record), record(4)));
}

#[test]
fn no_room_is_full() {
    let (mut shelf, answer) = four_blocks(0);
    assert_eq!(answer, Err(Refusal::Full));
    assert_eq!(Desk(&shelf.desk).status(), desk::STOPPED_FULL);
    assert_eq!(ask_read(&mut shelf.desk, 1, 0), Err(Refusal::Stopped));
}

#[test]
fn leaves_asked_for() {
    let mut shelf = Shelf::new(shape(2, 1), 1, &[3, 0, 1]);
    assert_eq!(shelf.write(1, 2), (3, Ok(Answer::Done), UNTOUCHED));
    assert_eq!(shelf.read(1, 2), (2, Ok(Answer::Record), record(1)));
    assert_eq!(shelf.read(2, 0), (0, Ok(Answer::Never), UNTOUCHED));

    let mut shelf = Shelf::new(shape(2, 1), 1, &[3, 2, 0]);
    for (id, draw, leaf) in [(1, 1, 3), (2, 2, 2), (3, 0, 0)] {
        assert_eq!(shelf.read(id, draw), (leaf, Ok(Answer::Never), UNTOUCHED));
    }
}

#[test]
fn ends_of_ids_and_leaves() {
    for (id, leaf, answer) in [
        (0, 0, Err(Refusal::BadId)),
        (4, 0, Err(Refusal::BadId)),
        (1, 0, Ok(3)),
        (3, 3, Ok(1)),
        (1, 4, Err(Refusal::BadLeaf)),
    ] {
        let mut shelf = Shelf::new(shape(2, 1), 1, &[3, 0, 1]);
        assert_eq!(ask_read(&mut shelf.desk, id, leaf), answer);
    }
}
