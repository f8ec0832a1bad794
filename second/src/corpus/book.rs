//! A small store to read texts into and to write them from.

use crate::format::{format, Sizes};
use crate::random::Random;
use crate::row::{request, Asked};
use crate::sizes::{desk_length, Shape};
use crate::store::{Second, Sheet, Store};

#[derive(Clone, PartialEq, Eq)]
pub struct Book {
    pub desk: Vec<u8>,
    pub tree: Vec<u8>,
    shape: Shape,
}

impl Book {
    /// A store that holds nothing, with room for every id.
    pub fn new(random: &mut Random, ids: u16) -> Book {
        let height = (1..10).find(|height| 1 << height >= ids).unwrap_or(10);
        let sizes = Sizes {
            height,
            slots: 4,
            stash: 200,
            ids,
        };
        let shape = sizes.shape().expect("sizes in range");
        let mut book = Book {
            desk: vec![0; desk_length(ids, sizes.stash).expect("ids in range")],
            tree: vec![0; shape.tree_length()],
            shape,
        };
        let starts = book.draws(random, ids);
        format(&mut book.desk, sizes, &random.bytes::<32>(), &starts).expect("sizes in range");
        book
    }

    /// So many leaves.
    pub fn draws(&self, random: &mut Random, count: u16) -> Vec<u16> {
        let leaves = u64::from(self.shape.leaves());
        (0..count).map(|_| random.below(leaves) as u16).collect()
    }

    /// Writes a record, or reads one if there is none to be written.
    pub fn ask(
        &mut self,
        random: &mut Random,
        id: u16,
        record: Option<&[u8; 64]>,
    ) -> Option<[u8; 64]> {
        let draw = self.draws(random, 1)[0];
        let (desk, tree) = (&mut self.desk, &mut self.tree);
        request(desk, tree, self.shape, id, draw, record).expect("a request that is done")
    }

    /// Reads a text in; what is answered, and the line.
    pub fn tap_read(&mut self, random: &mut Random, sheet: Sheet, text: &[u8]) -> (i32, u64) {
        let draws = self.draws(random, sheet.asked.length());
        let mut line = [u64::MAX];
        let (desk, tree) = (&mut self.desk, &mut self.tree);
        let answer = Second.tap_read(desk, tree, sheet, &draws, text, &mut line);
        (answer, line[0])
    }

    /// Writes a text, or hands back what was answered instead.
    pub fn tap_write(&mut self, random: &mut Random, asked: Asked) -> Result<Vec<u8>, i32> {
        let draws = self.draws(random, asked.length());
        let mut out = vec![0xa5; Second.tap_room(asked.length())];
        let (desk, tree) = (&mut self.desk, &mut self.tree);
        let answer = Second.tap_write(desk, tree, asked, &draws, &mut out);
        let length = usize::try_from(answer).map_err(|_| answer)?;
        let rest = out.split_off(length);
        match rest.iter().all(|byte| *byte == 0xa5) {
            true => Ok(out),
            false => Err(answer),
        }
    }
}
