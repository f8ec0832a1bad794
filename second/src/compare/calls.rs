//! The entries of a pair, counted by what they answer.

use super::lent::Lent;
use super::pair::{Mismatch, Pair};
use super::tally::COLUMNS;
use crate::desk;
use crate::format::Sizes;
use crate::row::Asked;

pub fn refusal(answer: i32) -> &'static str {
    let names = [
        "BadDesk",
        "Stopped",
        "Open",
        "NotOpen",
        "BadId",
        "BadLeaf",
        "BadLength",
        "BadSize",
        "Forged",
        "Worn",
        "Full",
        "Malformed",
        "BadPlan",
    ];
    names[(-1 - answer) as usize]
}

pub fn name(answer: i32, accepted: &'static str) -> &'static str {
    if answer < 0 {
        refusal(answer)
    } else {
        accepted
    }
}

fn verdict(answer: i32, bad: &'static str) -> &'static str {
    [bad, "pass", "fail", "skipped", "error"][answer as usize]
}

/// The lent numbers, as many as the entry has.
fn all<const N: usize>(numbers: &mut Lent<u16>) -> &mut [u16; N] {
    let numbers = numbers.get_mut();
    numbers.try_into().expect("as many as the entry has")
}

impl Pair<'_> {
    /// Formats the lent desk; the key is the lent input.
    pub fn format(&mut self, sizes: Sizes, leaves: &[u16]) -> Result<i32, Mismatch> {
        self.sizes = sizes;
        let answer = self.call("format", |store, lent| {
            let lent_leaves = leaves.to_vec();
            let answer = store.format(lent.desk.get_mut(), sizes, lent.input.get(), &lent_leaves);
            (answer, lent_leaves)
        })?;
        self.tally.reach("format", name(answer.0, "done"));
        Ok(answer.0)
    }

    pub fn ask_read(&mut self, id: u16, leaf: u16) -> Result<i32, Mismatch> {
        let status = self.stopped();
        let answer = self.call("ask_read", |store, lent| {
            store.ask_read(lent.desk.get_mut(), id, leaf)
        })?;
        self.tally.reach("ask_read", name(answer, "leaf"));
        self.count_stopped("ask_read, status", status, answer);
        Ok(answer)
    }

    /// Asks for a write of the lent input.
    pub fn ask_write(&mut self, id: u16, leaf: u16) -> Result<i32, Mismatch> {
        let status = self.stopped();
        let answer = self.call("ask_write", |store, lent| {
            store.ask_write(lent.desk.get_mut(), id, leaf, lent.input.get())
        })?;
        self.tally.reach("ask_write", name(answer, "leaf"));
        self.count_stopped("ask_write, status", status, answer);
        Ok(answer)
    }

    pub fn finish(&mut self) -> Result<i32, Mismatch> {
        let status = self.stopped();
        let answer = self.call("finish", |store, lent| {
            let (desk, path) = (lent.desk.get_mut(), lent.path.get_mut());
            store.finish(desk, path, lent.record.get_mut())
        })?;
        let accepted = ["", "Record", "Never", "Done"];
        let accepted = accepted[answer.max(0) as usize];
        self.tally.reach("finish", name(answer, accepted));
        self.count_stopped("finish, status", status, answer);
        Ok(answer)
    }

    pub fn fetch(&mut self, height: u8, slots: u8, leaf: u16) -> Result<i32, Mismatch> {
        let answer = self.call("fetch", |store, lent| {
            let path = lent.path.get_mut();
            store.fetch(lent.tree.get(), height, slots, leaf, path)
        })?;
        self.tally.reach("fetch", name(answer, "done"));
        Ok(answer)
    }

    pub fn put(&mut self, height: u8, slots: u8, leaf: u16) -> Result<i32, Mismatch> {
        let answer = self.call("put", |store, lent| {
            let tree = lent.tree.get_mut();
            store.put(tree, height, slots, leaf, lent.path.get())
        })?;
        self.tally.reach("put", name(answer, "done"));
        Ok(answer)
    }

    /// Reads the lent input as a verdict.
    pub fn verdict_read(&mut self) -> Result<i32, Mismatch> {
        let answer = self.call("verdict_read", |store, lent| {
            store.verdict_read(lent.input.get(), all(&mut lent.numbers))
        })?;
        self.tally.reach("verdict_read", verdict(answer, "bad"));
        Ok(answer)
    }

    /// Makes a verdict in the lent record; the name is the lent input.
    pub fn verdict_make(&mut self, number: u8, chapter: u8, year: u16) -> Result<i32, Mismatch> {
        let answer = self.call("verdict_make", |store, lent| {
            let (record, name) = (lent.record.get_mut(), lent.input.get());
            store.verdict_make(record, number, chapter, year, name)
        })?;
        self.tally.reach("verdict_make", verdict(answer, "refused"));
        Ok(answer)
    }

    /// Adds up a row over the lent desk and tree with the lent draws.
    pub fn row(&mut self, asked: Asked) -> Result<i32, Mismatch> {
        let status = self.stopped();
        let root = |desk: &[u8]| desk.get(desk::ROOT_DIGEST).map(<[u8]>::to_vec);
        let before = root(self.desk());
        let answer = self.call("row", |store, lent| {
            let (desk, tree) = (lent.desk.get_mut(), lent.tree.get_mut());
            let counts = all(&mut lent.numbers);
            store.row(desk, tree, asked, lent.draws.get(), counts)
        })?;
        let accepted = ["", "complete", "incomplete"][answer.max(0) as usize];
        self.tally.reach("row", name(answer, accepted));
        self.count_stopped("row, status", status, answer);
        if answer > 0 {
            self.count_row(asked);
        } else if root(self.desk()) != before {
            self.tally.reach("row, after a request", refusal(answer));
        }
        Ok(answer)
    }

    fn count_row(&mut self, asked: Asked) {
        let counts = self.numbers().to_vec();
        for (count, name) in counts.iter().zip(COLUMNS) {
            if *count > 0 {
                self.tally.reach("row, counted", name);
            }
        }
        let with = [
            (asked.first == 1, "first 1"),
            (asked.end == self.sizes.ids + 1, "end N+1"),
            (asked.length() == 1, "one id"),
            (asked.length() > 255, "more than 255 ids"),
            (asked.length() == 4096, "4,096 ids"),
            (asked.chapter > 31 && counts[4] > 0, "a chapter above 31"),
        ];
        for (reached, name) in with {
            if reached {
                self.tally.reach("row, taken with", name);
            }
        }
    }

    /// How the lent desk was stopped, if it was.
    pub fn stopped(&self) -> Option<&'static str> {
        match self.desk().get(desk::STATUS)? {
            2 => Some("stopped as forged"),
            3 => Some("stopped as worn"),
            4 => Some("stopped as full"),
            _ => None,
        }
    }

    pub fn count_stopped(
        &mut self,
        group: &'static str,
        status: Option<&'static str>,
        answer: i32,
    ) {
        if let (Some(status), -2) = (status, answer) {
            self.tally.reach(group, status);
        }
    }
}
