//! Long random histories over the second program and the side under test.

mod book;
mod calls;
mod desks;
mod draw;
mod entries;
mod lent;
mod made;
mod pair;
mod paths;
mod plain;
mod rows;
mod seal;
mod server;
mod spoil_desk;
mod spoil_path;
mod tally;
mod tap;
mod tap_arguments;
mod tap_calls;
mod tap_kept;
mod tap_lines;
mod tap_stored;
mod tap_tally;
mod tap_texts;
mod verdicts;

pub use pair::Mismatch;
pub use tally::Tally;

use crate::format::Sizes;
use crate::random::Random;
use crate::store::Store;
use pair::Pair;
use server::Server;

pub const DEFAULT_CALLS: u64 = 236_000;

type History = fn(&mut Pair, &mut Random, u64) -> Result<(), Mismatch>;

/// One sort of history, with its share of the calls.
pub struct Section {
    pub name: &'static str,
    share: u64,
    history: History,
}

pub const SECTIONS: [Section; 9] = [
    Section {
        name: "plain",
        share: 2,
        history: plain::history,
    },
    Section {
        name: "honest",
        share: 36,
        history: |pair, random, number| server::history(pair, random, number, Server::Honest),
    },
    Section {
        name: "flipped",
        share: 12,
        history: |pair, random, number| server::history(pair, random, number, Server::Flips),
    },
    Section {
        name: "replayed",
        share: 10,
        history: |pair, random, number| server::history(pair, random, number, Server::Replays),
    },
    Section {
        name: "desks",
        share: 12,
        history: desks::history,
    },
    Section {
        name: "paths",
        share: 20,
        history: paths::history,
    },
    Section {
        name: "entries",
        share: 8,
        history: entries::history,
    },
    Section {
        name: "book",
        share: 10,
        history: book::history,
    },
    Section {
        name: "tap",
        share: 8,
        history: tap::history,
    },
];

/// All shares together.
const WHOLE: u64 = {
    let (mut sum, mut place) = (0, 0);
    while place < SECTIONS.len() {
        sum += SECTIONS[place].share;
        place += 1;
    }
    sum
};

pub struct Config {
    pub seed: u64,
    pub calls: u64,
    /// One section alone, or all of them.
    pub section: Option<String>,
    /// Whether every call is told of on standard error.
    pub trace: bool,
}

pub struct Report {
    pub calls: u64,
    pub tally: Tally,
    pub sections: Vec<(&'static str, Result<(), Mismatch>)>,
}

/// Runs the sections. `progress` hears of each history that ends.
pub fn run(config: &Config, tested: &dyn Store, progress: &mut dyn FnMut(&str, u64)) -> Report {
    let mut report = Report {
        calls: 0,
        tally: Tally::default(),
        sections: Vec::new(),
    };
    for (place, section) in SECTIONS.iter().enumerate() {
        let wanted = config.section.as_ref();
        if wanted.is_some_and(|wanted| wanted != section.name) {
            continue;
        }
        let mut pair = Pair::new(tested, &mut report.tally, SMALLEST);
        pair.trace = config.trace;
        let calls = (config.calls * section.share).div_ceil(WHOLE);
        let result = run_section(
            &mut pair,
            section,
            config.seed,
            place as u64,
            calls,
            progress,
        );
        report.calls += pair.calls;
        report.sections.push((section.name, result));
    }
    report
}

const SMALLEST: Sizes = Sizes {
    height: 1,
    slots: 1,
    stash: 0,
    ids: 1,
};

/// Histories number on and each has its own generator, so a history comes out
/// the same whatever came before it.
fn run_section(
    pair: &mut Pair,
    section: &Section,
    seed: u64,
    place: u64,
    calls: u64,
    progress: &mut dyn FnMut(&str, u64),
) -> Result<(), Mismatch> {
    while pair.calls < calls {
        let mut random = Random::part(seed, place, pair.history);
        (section.history)(pair, &mut random, pair.history)?;
        pair.history += 1;
        progress(section.name, pair.calls);
    }
    Ok(())
}
