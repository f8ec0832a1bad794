//! Deliberately wrong stores, to see that a comparison notices them.
#![allow(dead_code)]

use second::check::{faults, Fault, Opened};
use second::compare::{self, Config};
use second::desk::Desk;
use second::format::Sizes;
use second::found::Found;
use second::good::is_good;
use second::row::{Asked, Counts};
use second::store::{Second, Sheet, Store};

type Format = dyn Fn(&mut [u8], Sizes, &[u8], &[u16]) -> i32;
type AskRead = dyn Fn(&mut [u8], u16, u16) -> i32;
type AskWrite = dyn Fn(&mut [u8], u16, u16, &[u8]) -> i32;
type Finish = dyn Fn(&mut [u8], &mut [u8], &mut [u8]) -> i32;
type Fetch = dyn Fn(&[u8], u8, u8, u16, &mut [u8]) -> i32;
type Put = dyn Fn(&mut [u8], u8, u8, u16, &[u8]) -> i32;
type Length = dyn Fn(u16, u8) -> usize;
type Digest = dyn Fn(&[u8], &mut [u8; 32]);
type Cipher = dyn Fn(&[u8; 32], &[u8; 12], &mut [u8]);
type VerdictRead = dyn Fn(&[u8], &mut [u16; 3]) -> i32;
type VerdictMake = dyn Fn(&mut [u8], u8, u8, u16, &[u8]) -> i32;
type TapRoom = dyn Fn(u16) -> usize;
type TapRead = dyn Fn(&mut [u8], &mut [u8], Sheet, &[u16], &[u8], &mut [u64; 1]) -> i32;
type TapWrite = dyn Fn(&mut [u8], &mut [u8], Asked, &[u16], &mut [u8]) -> i32;
type Row = dyn Fn(&mut [u8], &mut [u8], Asked, &[u16], &mut Counts) -> i32;

/// The second program with one entry or more exchanged.
pub struct Wrong {
    pub format: Box<Format>,
    pub ask_read: Box<AskRead>,
    pub ask_write: Box<AskWrite>,
    pub finish: Box<Finish>,
    pub fetch: Box<Fetch>,
    pub put: Box<Put>,
    pub desk_length: Box<Length>,
    pub digest: Box<Digest>,
    pub cipher: Box<Cipher>,
    pub verdict_read: Box<VerdictRead>,
    pub verdict_make: Box<VerdictMake>,
    pub row: Box<Row>,
    pub tap_room: Box<TapRoom>,
    pub tap_read: Box<TapRead>,
    pub tap_write: Box<TapWrite>,
}

impl Default for Wrong {
    fn default() -> Wrong {
        Wrong {
            format: Box::new(|a, b, c, d| Second.format(a, b, c, d)),
            ask_read: Box::new(|a, b, c| Second.ask_read(a, b, c)),
            ask_write: Box::new(|a, b, c, d| Second.ask_write(a, b, c, d)),
            finish: Box::new(|a, b, c| Second.finish(a, b, c)),
            fetch: Box::new(|a, b, c, d, e| Second.fetch(a, b, c, d, e)),
            put: Box::new(|a, b, c, d, e| Second.put(a, b, c, d, e)),
            desk_length: Box::new(|a, b| Second.desk_length(a, b)),
            digest: Box::new(|a, b| Second.sha256(a, b)),
            cipher: Box::new(|a, b, c| Second.chacha20(a, b, c)),
            verdict_read: Box::new(|a, b| Second.verdict_read(a, b)),
            verdict_make: Box::new(|a, b, c, d, e| Second.verdict_make(a, b, c, d, e)),
            row: Box::new(|a, b, c, d, e| Second.row(a, b, c, d, e)),
            tap_room: Box::new(|a| Second.tap_room(a)),
            tap_read: Box::new(|a, b, c, d, e, f| Second.tap_read(a, b, c, d, e, f)),
            tap_write: Box::new(|a, b, c, d, e| Second.tap_write(a, b, c, d, e)),
        }
    }
}

impl Store for Wrong {
    fn format(&self, desk: &mut [u8], sizes: Sizes, key: &[u8], leaves: &[u16]) -> i32 {
        (self.format)(desk, sizes, key, leaves)
    }
    fn ask_read(&self, desk: &mut [u8], id: u16, leaf: u16) -> i32 {
        (self.ask_read)(desk, id, leaf)
    }
    fn ask_write(&self, desk: &mut [u8], id: u16, leaf: u16, record: &[u8]) -> i32 {
        (self.ask_write)(desk, id, leaf, record)
    }
    fn finish(&self, desk: &mut [u8], path: &mut [u8], record: &mut [u8]) -> i32 {
        (self.finish)(desk, path, record)
    }
    fn fetch(&self, tree: &[u8], height: u8, slots: u8, leaf: u16, path: &mut [u8]) -> i32 {
        (self.fetch)(tree, height, slots, leaf, path)
    }
    fn put(&self, tree: &mut [u8], height: u8, slots: u8, leaf: u16, path: &[u8]) -> i32 {
        (self.put)(tree, height, slots, leaf, path)
    }
    fn desk_length(&self, ids: u16, stash: u8) -> usize {
        (self.desk_length)(ids, stash)
    }
    fn path_length(&self, height: u8, slots: u8) -> usize {
        Second.path_length(height, slots)
    }
    fn tree_length(&self, height: u8, slots: u8) -> usize {
        Second.tree_length(height, slots)
    }
    fn sha256(&self, message: &[u8], out: &mut [u8; 32]) {
        (self.digest)(message, out);
    }
    fn chacha20(&self, key: &[u8; 32], nonce: &[u8; 12], text: &mut [u8]) {
        (self.cipher)(key, nonce, text);
    }
    fn verdict_read(&self, record: &[u8], said: &mut [u16; 3]) -> i32 {
        (self.verdict_read)(record, said)
    }
    fn verdict_make(
        &self,
        record: &mut [u8],
        verdict: u8,
        chapter: u8,
        year: u16,
        name: &[u8],
    ) -> i32 {
        (self.verdict_make)(record, verdict, chapter, year, name)
    }
    fn row(
        &self,
        desk: &mut [u8],
        tree: &mut [u8],
        asked: Asked,
        draws: &[u16],
        counts: &mut Counts,
    ) -> i32 {
        (self.row)(desk, tree, asked, draws, counts)
    }
    fn tap_room(&self, count: u16) -> usize {
        (self.tap_room)(count)
    }
    fn tap_read(
        &self,
        desk: &mut [u8],
        tree: &mut [u8],
        sheet: Sheet,
        draws: &[u16],
        text: &[u8],
        line: &mut [u64; 1],
    ) -> i32 {
        (self.tap_read)(desk, tree, sheet, draws, text, line)
    }
    fn tap_write(
        &self,
        desk: &mut [u8],
        tree: &mut [u8],
        asked: Asked,
        draws: &[u16],
        out: &mut [u8],
    ) -> i32 {
        (self.tap_write)(desk, tree, asked, draws, out)
    }
}

/// What a comparison says of a store in one section.
pub fn compared(store: &dyn Store, section: &str) -> Result<(), compare::Mismatch> {
    let config = Config {
        seed: 1,
        calls: compare::DEFAULT_CALLS,
        section: Some(section.to_string()),
        trace: false,
    };
    let report = compare::run(&config, store, &mut |_, _| {});
    let [(_, result)] = &report.sections[..] else {
        panic!("there is one section {section}");
    };
    result.clone()
}

/// Demands that a wrong store be noticed.
pub fn caught(what: &str, section: &str, wrong: &Wrong) {
    match compared(wrong, section) {
        Ok(()) => panic!("not noticed in {section}: {what}"),
        Err(mismatch) => println!("{what}: {mismatch}"),
    }
}

/// Demands that a store with a wrong finish be noticed.
pub fn finish_caught(
    what: &str,
    section: &str,
    finish: impl Fn(&mut [u8], &mut [u8], &mut [u8]) -> i32 + 'static,
) {
    let wrong = Wrong {
        finish: Box::new(finish),
        ..Wrong::default()
    };
    caught(what, section, &wrong);
}

/// A path that a finish would look into.
pub fn opened(desk: &[u8], path: &[u8], record: &[u8]) -> Option<Opened> {
    let open = is_good(desk) && Desk(desk).status() == 1;
    let lengths = open && path.len() == Desk(desk).shape().path_length() && record.len() == 64;
    lengths.then(|| Opened::new(Desk(desk), path))
}

/// Every check that fails, where a finish would look.
pub fn found(desk: &[u8], path: &[u8], record: &[u8]) -> Option<Found<Fault>> {
    let opened = opened(desk, path, record)?;
    Some(faults(Desk(desk), path, &opened))
}
