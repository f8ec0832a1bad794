//! The benchmark: the second program beside the library in the same run.

mod openssl;
mod requests;
mod rows;
mod speed;
mod texts;

use crate::store::Store;
use std::time::{Duration, Instant};

/// A side that is timed, with its name.
pub type Side = (&'static str, &'static dyn Store);

/// The best of many short runs is taken: anything slower was disturbed.
const RUNS: usize = 60;

/// Prints all tables.
pub fn run(sides: &[Side]) {
    speed::run(sides);
    requests::run(sides);
    rows::run(sides);
    texts::run(sides);
}

/// How long `work` takes.
fn time(work: impl FnOnce()) -> Duration {
    let start = Instant::now();
    work();
    start.elapsed()
}

/// One row of a markdown table.
fn row(cells: &[String]) {
    println!("| {} |", cells.join(" | "));
}

fn head(cells: &[String]) {
    row(cells);
    row(&vec!["---".to_string(); cells.len()]);
}

/// Each side's figure, and how the library does beside the second program.
fn beside(figures: &[f64]) -> Vec<String> {
    let mut cells: Vec<String> = figures.iter().map(|figure| rounded(*figure)).collect();
    if let [second, library] = figures {
        cells.push(format!("{:.2}", library / second));
    }
    cells
}

fn rounded(figure: f64) -> String {
    if figure < 100.0 {
        format!("{figure:.1}")
    } else {
        format!("{figure:.0}")
    }
}

/// Heads for the columns that `beside` fills.
fn beside_head(sides: &[Side], unit: &str) -> Vec<String> {
    let names = sides.iter().map(|(name, _)| format!("{name} {unit}"));
    let ratio = (sides.len() == 2).then(|| "library / second".to_string());
    names.chain(ratio).collect()
}
