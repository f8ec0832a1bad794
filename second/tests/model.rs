//! Long honest histories against a plain table.

use second::answer::{Answer, Refusal};
use second::ask::{ask_read, ask_write};
use second::desk::{self, Desk};
use second::finish::finish;
use second::format::{format, Sizes};
use second::good::is_good;
use second::item::{self, Block, Child};
use second::random::Random;
use second::sizes::{desk_length, Shape, SLOT};
use second::tree::{fetch, put};
use std::collections::BTreeMap;

type Table = BTreeMap<u16, [u8; 64]>;

struct Store {
    desk: Vec<u8>,
    tree: Vec<u8>,
    shape: Shape,
    sizes: Sizes,
}

fn start(random: &mut Random, sizes: Sizes) -> Store {
    let shape = sizes.shape().expect("sizes in range");
    let length = desk_length(sizes.ids, sizes.stash).expect("ids in range");
    let mut store = Store {
        desk: vec![0; length],
        tree: vec![0; shape.tree_length()],
        shape,
        sizes,
    };
    // A server may start with anything in its tree.
    random.fill(&mut store.tree);
    let starts: Vec<u16> = (0..sizes.ids).map(|_| leaf(random, shape)).collect();
    let key: [u8; 32] = random.bytes();
    format(&mut store.desk, sizes, &key, &starts).expect("good sizes");
    store
}

fn leaf(random: &mut Random, shape: Shape) -> u16 {
    random.below(u64::from(shape.leaves())) as u16
}

/// One request; false once the store is full.
fn request(random: &mut Random, store: &mut Store, table: &mut Table) -> bool {
    let id = random.range(1, u64::from(store.sizes.ids)) as u16;
    let draw = leaf(random, store.shape);
    let expected_leaf = Desk(&store.desk).position(id);
    let write = random.once_in(2).then(|| random.bytes());
    let asked = match &write {
        Some(record) => ask_write(&mut store.desk, id, draw, record),
        None => ask_read(&mut store.desk, id, draw),
    };
    assert_eq!(asked, Ok(expected_leaf));

    let Shape { height, slots } = store.shape;
    let mut path = vec![0; store.shape.path_length()];
    let mut buffer: [u8; 64] = random.bytes();
    let before = buffer;
    fetch(&store.tree, height, slots, expected_leaf, &mut path).expect("good fetch");
    let answer = finish(&mut store.desk, &mut path, &mut buffer);
    if answer == Err(Refusal::Full) {
        assert_eq!(buffer, before);
        return false;
    }
    put(&mut store.tree, height, slots, expected_leaf, &path).expect("good put");

    match (write, table.get(&id)) {
        (Some(record), _) => {
            assert_eq!((answer, buffer), (Ok(Answer::Done), before));
            table.insert(id, record);
        }
        (None, Some(record)) => assert_eq!((answer, buffer), (Ok(Answer::Record), *record)),
        (None, None) => assert_eq!((answer, buffer), (Ok(Answer::Never), before)),
    }
    assert_eq!(Desk(&store.desk).position(id), draw);
    true
}

/// Every block below `bucket`, with the digests compared on the way.
fn collect(store: &Store, bucket: u32, level: usize, expected: &[u8], blocks: &mut Vec<Block>) {
    let shape = store.shape;
    let item = &store.tree[shape.in_tree(bucket)];
    assert_eq!(item::digest(shape, item), expected);
    let mut slots = item[item::slots(shape)].to_vec();
    let key = Desk(&store.desk).key();
    item::cipher(&key, item::counter(item), bucket, &mut slots);
    for block in slots.chunks_exact(SLOT).map(Block::read) {
        if block.id != 0 {
            assert_eq!(shape.bucket(block.leaf, level), bucket);
            blocks.push(block);
        }
    }
    if level == usize::from(shape.height) {
        return;
    }
    for (child, below) in [
        (Child::Left, 2 * bucket + 1),
        (Child::Right, 2 * bucket + 2),
    ] {
        if item[child.flag(shape)] == 1 {
            collect(store, below, level + 1, &item[child.digest(shape)], blocks);
        }
    }
}

/// Every marked record stands in exactly one place, and nothing else does.
fn check_whole_tree(store: &Store, table: &Table) {
    assert!(is_good(&store.desk));
    let desk = Desk(&store.desk);
    let mut blocks: Vec<Block> = desk.stash().chunks_exact(SLOT).map(Block::read).collect();
    assert!(blocks.len() <= usize::from(store.sizes.stash));
    if desk.root_written() {
        collect(store, 0, 0, desk.root_digest(), &mut blocks);
    }
    assert_eq!(blocks.len(), table.len());
    for block in &blocks {
        assert_eq!(table.get(&block.id), Some(&block.record));
        assert_eq!(desk.position(block.id), block.leaf);
        assert!(desk.is_marked(block.id));
    }
    blocks.sort_by_key(|block| block.id);
    blocks.dedup_by_key(|block| block.id);
    assert_eq!(blocks.len(), table.len());
}

/// Runs `requests` requests, or fewer if the store fills up first.
fn history(seed: u64, sizes: Sizes, requests: usize) -> usize {
    let mut random = Random::new(seed);
    let mut store = start(&mut random, sizes);
    let mut table = Table::new();
    // The whole tree is looked at less often where it is large.
    let every = 1 + store.tree.len() / 4000;
    for number in 0..requests {
        if !request(&mut random, &mut store, &mut table) {
            assert_eq!(Desk(&store.desk).status(), desk::STOPPED_FULL);
            return number;
        }
        if number % every == 0 {
            check_whole_tree(&store, &table);
        }
    }
    check_whole_tree(&store, &table);
    requests
}

fn sizes(height: u8, slots: u8, stash: u8, ids: u16) -> Sizes {
    Sizes {
        height,
        slots,
        stash,
        ids,
    }
}

#[test]
fn small_stores_keep_their_table() {
    for seed in 0..20 {
        assert_eq!(history(seed, sizes(3, 4, 20, 9), 2000), 2000);
        assert_eq!(history(seed, sizes(1, 8, 0, 8), 2000), 2000);
        assert_eq!(history(seed, sizes(2, 1, 255, 12), 2000), 2000);
    }
}

#[test]
fn large_stores_keep_their_table() {
    assert_eq!(history(1, sizes(8, 4, 64, 512), 6000), 6000);
    assert_eq!(history(2, sizes(12, 4, 128, 4096), 6000), 6000);
    assert_eq!(history(3, sizes(12, 8, 255, 4096), 3000), 3000);
}

#[test]
fn stores_of_every_height_and_width() {
    for height in 1..=10 {
        for slots in 1..=8 {
            let seed = u64::from(height) * 10 + u64::from(slots);
            history(seed, sizes(height, slots, 5, 40), 300);
        }
    }
}

#[test]
fn stores_without_room_fill_up() {
    assert!(history(4, sizes(1, 1, 0, 50), 1000) < 1000);
    assert!(history(5, sizes(2, 1, 3, 200), 1000) < 1000);
}
