//! Books that are kept: verdicts written through the store, and rows over
//! them, with a server that is honest or flips bytes.

use super::draw;
use super::pair::{Mismatch, Pair};
use super::verdicts::{self, Says};
use super::{rows, server};
use crate::desk::{self, Desk};
use crate::format::Sizes;
use crate::random::Random;
use crate::row::Asked;
use crate::sizes::Shape;
use std::collections::HashMap;

const FORGED: i32 = -9;
const FULL: i32 = -11;

/// The sorts of histories take turns. Most are single rows over made trees.
pub fn history(pair: &mut Pair, random: &mut Random, number: u64) -> Result<(), Mismatch> {
    let turn = number / 32;
    let (sort, sizes) = match number % 32 {
        0 => return verdicts::history(pair, random),
        1 => (Sort::Any, draw::sizes(random, turn, 12)),
        2 => (Sort::Tight, tight(random, turn)),
        3 if turn.is_multiple_of(16) => (Sort::Wide, wide(random)),
        4 => return rows::bad_desks(pair, random, turn),
        _ => return rows::history(pair, random, number),
    };
    keep(pair, random, sizes, sort)
}

#[derive(Clone, Copy, PartialEq, Eq)]
enum Sort {
    Any,
    /// Gets full often, and then goes on from before that.
    Tight,
    /// Ends with a row over all ids.
    Wide,
}

/// So little room that reading alone may fill the store.
fn tight(random: &mut Random, turn: u64) -> Sizes {
    Sizes {
        height: 1 + (turn % 3) as u8,
        slots: random.range(1, 2) as u8,
        stash: random.pick(&[0, 0, 1, 2]),
        ids: random.range(2, 12) as u16,
    }
}

/// So many ids that a row over all of them is as long as a row can be.
fn wide(random: &mut Random) -> Sizes {
    Sizes {
        height: 1,
        slots: random.range(1, 3) as u8,
        stash: 40,
        ids: 4096,
    }
}

struct Book {
    sort: Sort,
    shape: Shape,
    /// What the records say that the store should hold.
    table: HashMap<u16, Says>,
    chapter: u8,
    /// Whether nothing but passes is written.
    passes: bool,
    /// The ids that are written lie next to each other.
    first: u16,
    end: u16,
}

/// Keeps a book until its calls are made or it is full for good.
fn keep(pair: &mut Pair, random: &mut Random, sizes: Sizes, sort: Sort) -> Result<(), Mismatch> {
    let shape = server::formatted(pair, random, sizes)?;
    let ids = u64::from(sizes.ids);
    let drawn = random.range(1, ids);
    let first = random.pick(&[1, drawn]);
    let end = random.range(first + 1, (first + 40).min(ids + 1));
    let mut book = Book {
        sort,
        shape,
        table: HashMap::new(),
        chapter: random.below(32) as u8,
        passes: random.once_in(3),
        first: first as u16,
        end: end as u16,
    };
    let last_call = pair.calls + 120;
    let mut going = true;
    while going && pair.calls < last_call {
        going = book.turn(pair, random)?;
    }
    if going && sort == Sort::Wide {
        book.honest(pair, random, whole(sizes.ids, book.chapter))?;
    }
    book.disturbed(pair, random)?;
    pair.lend_tree(&[]);
    Ok(())
}

/// A row over all ids.
fn whole(ids: u16, chapter: u8) -> Asked {
    Asked {
        chapter,
        first: 1,
        end: ids + 1,
    }
}

impl Book {
    /// Some writes and rows; false once the desk is stopped for good.
    fn turn(&mut self, pair: &mut Pair, random: &mut Random) -> Result<bool, Mismatch> {
        for _ in 0..random.below(8) {
            if !self.write(pair, random)? {
                return Ok(false);
            }
        }
        let (desk, tree) = (pair.desk().to_vec(), pair.tree().to_vec());
        if random.once_in(2) {
            self.disturbed(pair, random)?;
            pair.lend_desk(&desk);
            pair.lend_tree(&tree);
        }
        let asked = self.some_row(pair, random);
        let going = self.honest(pair, random, asked)?;
        if !going && self.sort == Sort::Tight {
            pair.lend_desk(&desk);
            pair.lend_tree(&tree);
            return Ok(true);
        }
        Ok(going)
    }

    /// Writes a record through the store; false once that is full for good.
    fn write(&mut self, pair: &mut Pair, random: &mut Random) -> Result<bool, Mismatch> {
        let id = random.range(u64::from(self.first), u64::from(self.end) - 1) as u16;
        let (mut record, mut says) = verdicts::record(random, self.chapter);
        if self.passes {
            record = [1; 64];
            record[1] = self.chapter;
            says = Some((1, self.chapter));
        }
        let Shape { height, slots } = self.shape;
        let before = pair.desk().to_vec();
        pair.lend_input(&record);
        let leaf = pair.ask_write(id, draw::leaf(random, self.shape))? as u16;
        pair.lend_path(&vec![random.byte(); self.shape.path_length()]);
        pair.fetch(height, slots, leaf)?;
        pair.lend_record(&random.bytes::<64>());
        if pair.finish()? == FULL {
            if self.sort == Sort::Tight {
                pair.lend_desk(&before);
            }
            return Ok(self.sort == Sort::Tight);
        }
        pair.put(height, slots, leaf)?;
        self.table.insert(id, says);
        Ok(true)
    }

    /// A row over an honest server; false if the store got full in it.
    fn honest(&self, pair: &mut Pair, random: &mut Random, asked: Asked) -> Result<bool, Mismatch> {
        let answer = self.row(pair, random, asked, None)?;
        if answer == FULL {
            return Ok(false);
        }
        let counts = self.counts(asked);
        let complete = counts[0] == asked.length();
        if answer != if complete { 1 } else { 2 } || pair.numbers() != counts {
            let what = format!("answer {answer} or counts not those of the table for {asked:?}");
            return Err(pair.mismatch("row", what));
        }
        self.count_bad(pair, asked);
        Ok(true)
    }

    /// Some of the written ids and perhaps some beside them; seldom all.
    fn some_row(&self, pair: &Pair, random: &mut Random) -> Asked {
        let drawn = random.byte();
        let own = self.chapter;
        let chapter = random.pick(&[own, own, own, own, own, own, own, drawn, 32, 255]);
        let (path, ids) = (self.shape.path_length(), pair.sizes.ids);
        let few = path * usize::from(ids) <= 400_000;
        if few && random.once_in(8) {
            return whole(ids, chapter);
        }
        // The longer the paths, the shorter the row.
        let most = (100_000 / path).clamp(1, 64) as u16;
        let (low, high) = (self.first.max(3) - 2, (self.end + 2).min(ids + 1));
        let first = random.range(u64::from(low), u64::from(high) - 1) as u16;
        let last = high.min(first + most);
        let drawn = random.range(u64::from(first) + 1, u64::from(last)) as u16;
        let end = random.pick(&[first + 1, drawn, drawn, last]);
        Asked {
            chapter,
            first,
            end,
        }
    }

    /// Calls a row with a draw for each id, one of which may be no leaf.
    fn row(
        &self,
        pair: &mut Pair,
        random: &mut Random,
        asked: Asked,
        bad_leaf: Option<usize>,
    ) -> Result<i32, Mismatch> {
        let mut draws = draw::leaves(random, self.shape, usize::from(asked.length()));
        if let Some(place) = bad_leaf {
            draws[place] = draw::bad_leaf(random, self.shape.height);
        }
        pair.lend_draws(&draws);
        pair.lend_numbers(&[random.word() as u16; 6]);
        pair.row(asked)
    }

    /// The counts by the table alone.
    fn counts(&self, asked: Asked) -> [u16; 6] {
        let mut counts = [0; 6];
        for id in asked.first..asked.end {
            let column = match self.table.get(&id) {
                None => 5,
                Some(Some((verdict, chapter))) if *chapter == asked.chapter => verdict - 1,
                Some(_) => 4,
            };
            counts[usize::from(column)] += 1;
        }
        counts
    }

    /// Counts why records were bad.
    fn count_bad(&self, pair: &mut Pair, asked: Asked) {
        for id in asked.first..asked.end {
            let name = match self.table.get(&id) {
                Some(None) => "a record that is no verdict",
                Some(Some((_, chapter))) if *chapter != asked.chapter => {
                    "a record of another chapter"
                }
                _ => continue,
            };
            pair.tally.reach("row, taken with", name);
        }
    }

    /// A row that mostly is refused: with a byte flipped, a draw that is no
    /// leaf, or a desk that is open or stopped.
    fn disturbed(&self, pair: &mut Pair, random: &mut Random) -> Result<(), Mismatch> {
        let asked = self.some_row(pair, random);
        let ready = Desk(pair.desk()).status() == desk::READY;
        match random.below(6) {
            0 | 1 if ready => return self.flipped_tree(pair, random, asked),
            2 => return self.flipped_desk(pair, random, asked),
            3 if ready => self.open(pair, random, asked, desk::OPEN)?,
            4 if ready => {
                let status = random.range(2, 4) as u8;
                self.open(pair, random, asked, status)?;
            }
            _ => {}
        }
        let place = random.index(usize::from(asked.length()));
        let bad_leaf = random.once_in(2).then_some(place);
        self.row(pair, random, asked, bad_leaf)?;
        Ok(())
    }

    /// Opens a request, and stops the desk if that is the status.
    fn open(
        &self,
        pair: &mut Pair,
        random: &mut Random,
        asked: Asked,
        status: u8,
    ) -> Result<(), Mismatch> {
        pair.ask_read(asked.first, draw::leaf(random, self.shape))?;
        let mut desk = pair.desk().to_vec();
        desk[desk::STATUS] = status;
        pair.lend_desk(&desk);
        Ok(())
    }

    /// Flips a bit of some item that a request of the row is going to fetch.
    fn flipped_tree(
        &self,
        pair: &mut Pair,
        random: &mut Random,
        asked: Asked,
    ) -> Result<(), Mismatch> {
        let id = random.range(u64::from(asked.first), u64::from(asked.end) - 1) as u16;
        let leaf = Desk(pair.desk()).position(id);
        let level = random.index(self.shape.levels());
        let item = self.shape.in_tree(self.shape.bucket(leaf, level));
        let mut tree = pair.tree().to_vec();
        tree[item.start + random.index(item.len())] ^= 1 << random.below(8);
        pair.lend_tree(&tree);
        let name = match self.row(pair, random, asked, None)? {
            FORGED => "flipped byte of a tree refused",
            1.. => "flipped byte of a tree never looked at",
            _ => return Ok(()),
        };
        pair.tally.reach("row, server", name);
        Ok(())
    }

    fn flipped_desk(
        &self,
        pair: &mut Pair,
        random: &mut Random,
        asked: Asked,
    ) -> Result<(), Mismatch> {
        let mut desk = pair.desk().to_vec();
        let early = random.index(desk.len().min(190));
        let any = random.index(desk.len());
        desk[random.pick(&[early, any])] ^= 1 << random.below(8);
        pair.lend_desk(&desk);
        if self.row(pair, random, asked, None)? == -1 {
            let name = "flipped byte of a desk refused";
            pair.tally.reach("row, server", name);
        }
        Ok(())
    }
}
