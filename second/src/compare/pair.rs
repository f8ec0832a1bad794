//! The second program and the side under test, called alike, with every
//! buffer compared after every call.

use super::lent::{Element, Lent};
use super::tally::Tally;
use crate::format::Sizes;
use crate::store::{Second, Store};
use std::fmt;

/// A difference between the two sides, or from what a history expects.
#[derive(Clone, Debug)]
pub struct Mismatch {
    pub history: u64,
    pub call: u64,
    pub entry: &'static str,
    pub sizes: Sizes,
    pub what: String,
}

impl fmt::Display for Mismatch {
    fn fmt(&self, out: &mut fmt::Formatter) -> fmt::Result {
        let Sizes {
            height,
            slots,
            stash,
            ids,
        } = self.sizes;
        write!(
            out,
            "history {}, call {}, entry {}, sizes L={height} Z={slots} S={stash} N={ids}: {}",
            self.history, self.call, self.entry, self.what
        )
    }
}

/// Everything that is lent to the entries of one side. `input` is a record to
/// be written or read, a name, a key or a text, and no entry may change it or
/// the draws. `numbers` is what a verdict says, or the counts of a row; `out`
/// is where a text is written, and `line` is the line that a text is refused
/// at.
#[derive(Clone, Default)]
pub struct Buffers {
    pub desk: Lent,
    pub path: Lent,
    pub tree: Lent,
    pub record: Lent,
    pub input: Lent,
    pub draws: Lent<u16>,
    pub numbers: Lent<u16>,
    pub out: Lent,
    pub line: Lent<u64>,
}

impl Buffers {
    /// Which buffer differs first, and where.
    fn difference(&self, tested: &Buffers) -> Option<String> {
        let buffers = [
            ("desk", &self.desk, &tested.desk),
            ("path", &self.path, &tested.path),
            ("tree", &self.tree, &tested.tree),
            ("record", &self.record, &tested.record),
            ("input", &self.input, &tested.input),
            ("out", &self.out, &tested.out),
        ];
        let bytes = buffers
            .into_iter()
            .find_map(|(name, second, tested)| told(name, "byte", second, tested));
        bytes
            .or_else(|| told("draws", "number", &self.draws, &tested.draws))
            .or_else(|| told("numbers", "number", &self.numbers, &tested.numbers))
            .or_else(|| told("line", "number", &self.line, &tested.line))
    }
}

/// Where one buffer differs.
fn told<T: Element + fmt::Display>(
    name: &str,
    element: &str,
    second: &Lent<T>,
    tested: &Lent<T>,
) -> Option<String> {
    second.difference(tested).map(|(place, second, tested)| {
        format!("{name} {element} {place} is {tested}, the second program has {second}")
    })
}

pub struct Pair<'a> {
    tested: &'a dyn Store,
    pub tally: &'a mut Tally,
    pub history: u64,
    pub calls: u64,
    pub sizes: Sizes,
    /// Tells of every call before it is made, to find one that never returns.
    pub trace: bool,
    second: Buffers,
    other: Buffers,
}

/// What is kept of a pair around a call that is to leave no trace.
pub struct Saved {
    desk: Lent,
    path: Lent,
    record: Lent,
}

impl<'a> Pair<'a> {
    pub fn new(tested: &'a dyn Store, tally: &'a mut Tally, sizes: Sizes) -> Pair<'a> {
        Pair {
            tested,
            tally,
            history: 0,
            calls: 0,
            sizes,
            trace: false,
            second: Buffers::default(),
            other: Buffers::default(),
        }
    }

    pub fn desk(&self) -> &[u8] {
        self.second.desk.get()
    }

    pub fn path(&self) -> &[u8] {
        self.second.path.get()
    }

    pub fn record(&self) -> &[u8] {
        self.second.record.get()
    }

    pub fn tree(&self) -> &[u8] {
        self.second.tree.get()
    }

    pub fn numbers(&self) -> &[u16] {
        self.second.numbers.get()
    }

    /// Gives both sides the same content in one buffer.
    pub fn lend<T: Element>(&mut self, buffer: fn(&mut Buffers) -> &mut Lent<T>, content: &[T]) {
        buffer(&mut self.second).set(content);
        buffer(&mut self.other).set(content);
    }

    pub fn lend_desk(&mut self, content: &[u8]) {
        self.lend(|buffers| &mut buffers.desk, content);
    }

    pub fn lend_path(&mut self, content: &[u8]) {
        self.lend(|buffers| &mut buffers.path, content);
    }

    pub fn lend_tree(&mut self, content: &[u8]) {
        self.lend(|buffers| &mut buffers.tree, content);
    }

    pub fn lend_record(&mut self, content: &[u8]) {
        self.lend(|buffers| &mut buffers.record, content);
    }

    pub fn lend_input(&mut self, content: &[u8]) {
        self.lend(|buffers| &mut buffers.input, content);
    }

    pub fn lend_draws(&mut self, content: &[u16]) {
        self.lend(|buffers| &mut buffers.draws, content);
    }

    pub fn lend_numbers(&mut self, content: &[u16]) {
        self.lend(|buffers| &mut buffers.numbers, content);
    }

    pub fn out(&self) -> &[u8] {
        self.second.out.get()
    }

    pub fn line(&self) -> &[u64] {
        self.second.line.get()
    }

    pub fn lend_out(&mut self, content: &[u8]) {
        self.lend(|buffers| &mut buffers.out, content);
    }

    pub fn lend_line(&mut self, content: u64) {
        self.lend(|buffers| &mut buffers.line, &[content]);
    }

    pub fn save(&self) -> Saved {
        Saved {
            desk: self.second.desk.clone(),
            path: self.second.path.clone(),
            record: self.second.record.clone(),
        }
    }

    pub fn restore(&mut self, saved: &Saved) {
        for side in [&mut self.second, &mut self.other] {
            side.desk = saved.desk.clone();
            side.path = saved.path.clone();
            side.record = saved.record.clone();
        }
    }

    pub fn mismatch(&self, entry: &'static str, what: String) -> Mismatch {
        Mismatch {
            history: self.history,
            call: self.calls,
            entry,
            sizes: self.sizes,
            what,
        }
    }

    /// Calls an entry on both sides and compares answers and buffers.
    pub fn call<T: PartialEq + fmt::Debug>(
        &mut self,
        entry: &'static str,
        run: impl Fn(&dyn Store, &mut Buffers) -> T,
    ) -> Result<T, Mismatch> {
        self.calls += 1;
        if self.trace {
            eprintln!("{}", self.mismatch(entry, "called".into()));
        }
        let answer = run(&Second, &mut self.second);
        let tested = run(self.tested, &mut self.other);
        if answer != tested {
            let what = format!("answer {tested:?}, the second program has {answer:?}");
            return Err(self.mismatch(entry, what));
        }
        match self.second.difference(&self.other) {
            Some(what) => Err(self.mismatch(entry, what)),
            None => Ok(answer),
        }
    }
}
