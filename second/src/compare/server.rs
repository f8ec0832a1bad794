//! Whole histories over a server that is honest, flips bytes or replays.

use super::draw;
use super::pair::{Mismatch, Pair};
use crate::desk::Desk;
use crate::format::Sizes;
use crate::random::Random;
use crate::sizes::Shape;
use std::collections::{HashMap, VecDeque};

const FORGED: i32 = -9;
const FULL: i32 = -11;

#[derive(Clone, Copy, PartialEq, Eq)]
pub enum Server {
    Honest,
    Flips,
    Replays,
}

struct History {
    shape: Shape,
    server: Server,
    /// What the store should hold.
    table: HashMap<u16, [u8; 64]>,
    /// Ids above this one are requested seldom.
    hot: u16,
    /// Paths as they were fetched, with their leaves.
    old: VecDeque<(u16, Vec<u8>)>,
}

pub fn history(
    pair: &mut Pair,
    random: &mut Random,
    number: u64,
    server: Server,
) -> Result<(), Mismatch> {
    let mut history = start(pair, random, number, server)?;
    // After every call whole trees are compared, so large ones get fewer.
    let tree = history.shape.tree_length() as u64;
    let last_call = pair.calls + (40_000_000 / tree).clamp(400, 1500);
    let mut going = true;
    while going && pair.calls < last_call {
        going = history.request(pair, random)?;
    }
    for _ in 0..3 {
        history.disturb(pair, random)?;
    }
    pair.lend_tree(&[]);
    Ok(())
}

fn start(
    pair: &mut Pair,
    random: &mut Random,
    number: u64,
    server: Server,
) -> Result<History, Mismatch> {
    let sizes = draw::sizes(random, number, 12);
    let shape = formatted(pair, random, sizes)?;
    Ok(History {
        shape,
        server,
        table: HashMap::new(),
        hot: random.range(1, u64::from(sizes.ids)).min(80) as u16,
        old: VecDeque::new(),
    })
}

/// Lends a fresh desk, and a tree of zeros or junk.
pub fn formatted(pair: &mut Pair, random: &mut Random, sizes: Sizes) -> Result<Shape, Mismatch> {
    draw::count_sizes(pair.tally, sizes);
    let shape = draw::shape(sizes);
    let mut tree = vec![0; shape.tree_length()];
    if random.once_in(2) {
        random.fill(&mut tree);
        pair.tally.reach("server", "junk in a new tree");
    }
    let desk = 186 + 3 * usize::from(sizes.ids) + 68 * usize::from(sizes.stash);
    pair.lend_desk(&vec![random.byte(); desk]);
    pair.lend_tree(&tree);
    pair.lend_path(&[]);
    pair.lend_record(&random.bytes::<64>());
    pair.lend_input(&random.bytes::<32>());
    let starts: Vec<u16> = (0..sizes.ids).map(|_| draw::leaf(random, shape)).collect();
    pair.format(sizes, &starts)?;
    Ok(shape)
}

impl History {
    /// One request; false once the desk is stopped.
    fn request(&mut self, pair: &mut Pair, random: &mut Random) -> Result<bool, Mismatch> {
        if random.once_in(12) {
            self.disturb(pair, random)?;
        }
        let id = self.some_id(pair, random);
        let draw = draw::leaf(random, self.shape);
        let write = random.once_in(2).then(|| random.bytes::<64>());
        let leaf = match &write {
            Some(record) => {
                pair.lend_input(record);
                pair.ask_write(id, draw)?
            }
            None => pair.ask_read(id, draw)?,
        } as u16;
        if random.once_in(12) {
            self.disturb(pair, random)?;
        }
        self.fetch(pair, random, leaf)?;
        self.trick(pair, random, leaf)?;
        let before = random.bytes::<64>();
        pair.lend_record(&before);
        let answer = pair.finish()?;
        if answer == FULL {
            pair.tally.reach("server", "honest history until full");
            return Ok(false);
        }
        self.check(pair, id, write, before, answer)?;
        let Shape { height, slots } = self.shape;
        pair.put(height, slots, leaf)?;
        Ok(true)
    }

    fn some_id(&self, pair: &Pair, random: &mut Random) -> u16 {
        let most = match random.once_in(8) {
            true => pair.sizes.ids,
            false => self.hot,
        };
        random.range(1, u64::from(most)) as u16
    }

    /// Asks where something is open, finishes where nothing is, or either
    /// where the desk is stopped.
    fn disturb(&self, pair: &mut Pair, random: &mut Random) -> Result<(), Mismatch> {
        let open = Desk(pair.desk()).status() == 1;
        let id = self.some_id(pair, random);
        let leaf = draw::leaf(random, self.shape);
        pair.lend_path(&vec![random.byte(); self.shape.path_length()]);
        pair.lend_input(&random.bytes::<64>());
        if Desk(pair.desk()).status() == 0 {
            pair.finish()?;
        } else if random.once_in(2) {
            pair.ask_read(id, leaf)?;
        } else if open || random.once_in(2) {
            pair.ask_write(id, leaf)?;
        } else {
            pair.finish()?;
        }
        Ok(())
    }

    fn fetch(&mut self, pair: &mut Pair, random: &mut Random, leaf: u16) -> Result<(), Mismatch> {
        let mut junk = vec![0; self.shape.path_length()];
        random.fill(&mut junk);
        pair.lend_path(&junk);
        let Shape { height, slots } = self.shape;
        pair.fetch(height, slots, leaf)?;
        Ok(())
    }

    /// Compares the answer with the plain table.
    fn check(
        &mut self,
        pair: &Pair,
        id: u16,
        write: Option<[u8; 64]>,
        before: [u8; 64],
        answer: i32,
    ) -> Result<(), Mismatch> {
        let expected = match (write, self.table.get(&id)) {
            (Some(_), _) => (3, before),
            (None, Some(record)) => (1, *record),
            (None, None) => (2, before),
        };
        if (answer, pair.record()) != (expected.0, &expected.1[..]) {
            let what = format!("answer {answer} or record not those of the table for id {id}");
            return Err(pair.mismatch("finish", what));
        }
        if let Some(record) = write {
            self.table.insert(id, record);
        }
        Ok(())
    }

    /// Finishes over something else than was fetched, and takes it back.
    fn trick(&mut self, pair: &mut Pair, random: &mut Random, leaf: u16) -> Result<(), Mismatch> {
        if self.server == Server::Honest {
            return Ok(());
        }
        let fetched = pair.path().to_vec();
        let saved = pair.save();
        if self.server == Server::Flips {
            self.flip(pair, random)?;
        } else {
            self.replay(pair, random, leaf)?;
            self.old.push_back((leaf, fetched));
            if self.old.len() > 40 {
                self.old.pop_front();
            }
        }
        pair.restore(&saved);
        Ok(())
    }

    fn flip(&self, pair: &mut Pair, random: &mut Random) -> Result<(), Mismatch> {
        let on_desk = random.once_in(4);
        let bit = 1 << random.below(8);
        if on_desk {
            let mut desk = pair.desk().to_vec();
            let early = random.index(desk.len().min(190));
            let any = random.index(desk.len());
            desk[random.pick(&[early, any])] ^= bit;
            pair.lend_desk(&desk);
        } else {
            let mut path = pair.path().to_vec();
            let item = self.shape.in_path(random.index(self.shape.levels()));
            let links = self.shape.leaf_item().min(item.len() - 1);
            let (any, late) = (
                random.index(item.len()),
                links + random.index(item.len() - links),
            );
            path[item.start + random.pick(&[any, late])] ^= bit;
            pair.lend_path(&path);
        }
        let answer = pair.finish()?;
        let name = match (on_desk, answer) {
            (true, -1) => "flipped byte of a desk refused",
            (false, FORGED) => "flipped byte of a path refused",
            (false, 1..) => "flipped byte of a path never looked at",
            _ => return Ok(()),
        };
        pair.tally.reach("server", name);
        Ok(())
    }

    fn replay(&self, pair: &mut Pair, random: &mut Random, leaf: u16) -> Result<(), Mismatch> {
        let same: Vec<&(u16, Vec<u8>)> = self.old.iter().filter(|old| old.0 == leaf).collect();
        let any: Vec<&(u16, Vec<u8>)> = self.old.iter().collect();
        let choices = if same.is_empty() { any } else { same };
        if choices.is_empty() {
            return Ok(());
        }
        let (old_leaf, path) = random.pick(&choices);
        pair.lend_path(path);
        let answer = pair.finish()?;
        let own = *old_leaf == leaf;
        if own && answer != FORGED {
            return Err(pair.mismatch("finish", "an old path was taken".into()));
        }
        if answer == FORGED {
            let name = match own {
                true => "old path refused",
                false => "path of another leaf refused",
            };
            pair.tally.reach("server", name);
        }
        Ok(())
    }
}
