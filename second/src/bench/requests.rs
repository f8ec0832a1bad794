//! Whole requests per second, and what a finish spends on digest and cipher.

use super::{beside, beside_head, head, row, time, Side, RUNS};
use crate::format::Sizes;
use crate::random::Random;
use crate::sizes::{desk_length, Shape};
use crate::store::Store;
use std::hint::black_box;
use std::time::Duration;

pub const SIZES: [Sizes; 4] = [
    sized(3, 4, 9, 20),
    sized(8, 4, 512, 64),
    sized(12, 4, 4096, 128),
    sized(12, 8, 4096, 255),
];

const fn sized(height: u8, slots: u8, ids: u16, stash: u8) -> Sizes {
    Sizes {
        height,
        slots,
        stash,
        ids,
    }
}

/// Sizes as a table's first column has them.
pub fn named(sizes: Sizes) -> String {
    let Sizes {
        height,
        slots,
        stash,
        ids,
    } = sizes;
    format!("L={height} Z={slots} N={ids} S={stash}")
}

/// About how many bytes of paths one run goes through.
const PATH_BYTES: usize = 256 << 10;

/// A store of one side with every id written and every item reachable.
pub struct Warm {
    pub store: &'static dyn Store,
    pub shape: Shape,
    sizes: Sizes,
    pub desk: Vec<u8>,
    pub tree: Vec<u8>,
    path: Vec<u8>,
    /// A pass of chapter 1.
    record: [u8; 64],
    pub random: Random,
}

/// The times of one run, per request.
#[derive(Clone, Copy)]
struct Times {
    request: Duration,
    finish: Duration,
    alone: Duration,
}

pub fn run(sides: &[Side]) {
    println!("\nRequests (ask, fetch, finish, put) per second, best of {RUNS} runs\n");
    let mut cells = vec!["sizes".to_string()];
    cells.extend(beside_head(sides, "requests/s"));
    for (name, _) in sides {
        cells.push(format!("{name} finish, us"));
        cells.push(format!("{name} digest and cipher, us"));
        cells.push(format!("{name} their share"));
        cells.push(format!("{name} whole request to them"));
    }
    head(&cells);
    for sizes in SIZES {
        let best = measure(sides, sizes);
        let mut cells = vec![named(sizes)];
        let rates: Vec<f64> = best
            .iter()
            .map(|best| 1.0 / best.request.as_secs_f64())
            .collect();
        cells.extend(beside(&rates));
        for best in best {
            let (finish, alone) = (micros(best.finish), micros(best.alone));
            cells.push(format!("{finish:.1}"));
            cells.push(format!("{alone:.1}"));
            cells.push(format!("{:.0} %", 100.0 * alone / finish));
            cells.push(format!("{:.2}", micros(best.request) / alone));
        }
        row(&cells);
    }
}

pub fn micros(duration: Duration) -> f64 {
    duration.as_secs_f64() * 1e6
}

/// The best run of each side. All its times come from the one run, so that
/// their shares hold however fast the machine was just then.
fn measure(sides: &[Side], sizes: Sizes) -> Vec<Times> {
    let mut warm: Vec<Warm> = sides
        .iter()
        .map(|(_, store)| Warm::new(*store, sizes))
        .collect();
    let mut best: Vec<Times> = warm.iter_mut().map(Warm::run).collect();
    for _ in 1..RUNS {
        for (best, warm) in best.iter_mut().zip(&mut warm) {
            let times = warm.run();
            if times.request + times.alone < best.request + best.alone {
                *best = times;
            }
        }
    }
    best
}

impl Warm {
    pub fn new(store: &'static dyn Store, sizes: Sizes) -> Warm {
        let shape = sizes.shape().expect("sizes in range");
        let length = desk_length(sizes.ids, sizes.stash).expect("ids in range");
        let mut warm = Warm {
            store,
            shape,
            sizes,
            desk: vec![0; length],
            tree: vec![0; shape.tree_length()],
            path: vec![0; shape.path_length()],
            record: [1; 64],
            random: Random::new(1),
        };
        // Starting leaves take turns, so writing every id meets every leaf.
        let leaves = shape.leaves() as u16;
        let starts: Vec<u16> = (0..sizes.ids).map(|id| id % leaves).collect();
        let answer = store.format(&mut warm.desk, sizes, &[3; 32], &starts);
        assert_eq!(answer, 0, "format refused");
        for id in warm.shuffled_ids() {
            warm.one(id, true);
        }
        warm
    }

    /// In rising order the leaves of one half would all come first, and the
    /// blocks for the other half would fill the stash.
    fn shuffled_ids(&mut self) -> Vec<u16> {
        let mut ids: Vec<u16> = (1..=self.sizes.ids).collect();
        for place in (1..ids.len()).rev() {
            ids.swap(place, self.random.index(place + 1));
        }
        ids
    }

    /// One run. Digests and ciphers alone take turns with whole requests, so
    /// that a disturbance meets both.
    fn run(&mut self) -> Times {
        let count = (PATH_BYTES / self.path.len()) as u32;
        let mut sum = [Duration::ZERO; 3];
        for _ in 0..count {
            let mut finishing = Duration::ZERO;
            sum[0] += time(|| finishing = self.request());
            sum[1] += finishing;
            sum[2] += time(|| self.digest_and_cipher());
        }
        let [request, finish, alone] = sum.map(|sum| sum / count);
        Times {
            request,
            finish,
            alone,
        }
    }

    /// A read or write of some id; hands back the time of its finish.
    fn request(&mut self) -> Duration {
        let id = self.random.range(1, u64::from(self.sizes.ids)) as u16;
        let write = self.random.once_in(2);
        self.one(id, write)
    }

    /// A read or write of `id`; hands back the time of its finish.
    pub fn one(&mut self, id: u16, write: bool) -> Duration {
        let Shape { height, slots } = self.shape;
        let draw = self.random.below(u64::from(self.shape.leaves())) as u16;
        let asked = match write {
            true => self.store.ask_write(&mut self.desk, id, draw, &self.record),
            false => self.store.ask_read(&mut self.desk, id, draw),
        };
        let leaf = u16::try_from(asked).expect("ask refused");
        let fetched = self
            .store
            .fetch(&self.tree, height, slots, leaf, &mut self.path);
        let mut answer = 0;
        let taken = time(|| {
            answer = self
                .store
                .finish(&mut self.desk, &mut self.path, &mut self.record);
        });
        let put = self
            .store
            .put(&mut self.tree, height, slots, leaf, &self.path);
        assert!(fetched == 0 && answer > 0 && put == 0, "request refused");
        taken
    }

    /// The digests and ciphers of one finish over a reachable path: each item
    /// is checked and opened, then closed and digested.
    fn digest_and_cipher(&mut self) {
        let mut out = [0; 32];
        for _ in 0..2 {
            for level in 0..self.shape.levels() {
                let item = &mut self.path[self.shape.in_path(level)];
                self.store.sha256(black_box(item), &mut out);
                let slots = &mut item[crate::item::slots(self.shape)];
                self.store.chacha20(&[3; 32], &[5; 12], black_box(slots));
            }
        }
        black_box(out);
    }
}
