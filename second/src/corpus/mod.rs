//! Stored texts beside what they are to be read as, stored lists of records
//! beside the texts that are to be written of them, and the second program
//! run over both.

mod book;
mod outcome;
mod records;
mod run;

pub use outcome::{outcome, Outcome};
pub use records::slots;
pub use run::{texts_command, written_command};

use std::fs;
use std::path::{Path, PathBuf};

/// The chapter and the suite year that the stored files are about.
pub const CHAPTER: u8 = 7;
pub const YEAR: u16 = 2026;

/// A stored text.
pub struct Sample {
    pub name: String,
    pub text: Vec<u8>,
    /// How many ids the range has that it is read for.
    pub count: u16,
    pub expected: Outcome,
}

/// A stored list of what a range holds; nothing stands for Never.
pub struct List {
    pub name: String,
    pub slots: Vec<Option<[u8; 64]>>,
    /// Where the text of it is stored.
    pub text: PathBuf,
}

/// The folders of the two, as they stand beside this program.
pub fn texts_folder() -> PathBuf {
    Path::new(env!("CARGO_MANIFEST_DIR")).join("../tests/tap/texts")
}

pub fn written_folder() -> PathBuf {
    Path::new(env!("CARGO_MANIFEST_DIR")).join("../tests/tap/written")
}

/// Every text of a folder with what is expected of it, by name.
pub fn texts(folder: &Path) -> Result<Vec<Sample>, String> {
    let mut samples = Vec::new();
    for path in with_ending(folder, "tap")? {
        let beside = path.with_extension("expected");
        let (count, expected) = outcome::read(&bytes(&beside)?)
            .ok_or(format!("{}: can't be understood", beside.display()))?;
        samples.push(Sample {
            name: stem(&path),
            text: bytes(&path)?,
            count,
            expected,
        });
    }
    Ok(samples)
}

/// Every list of records of a folder, by name.
pub fn lists(folder: &Path) -> Result<Vec<List>, String> {
    let mut lists = Vec::new();
    for path in with_ending(folder, "records")? {
        let slots = records::slots(&bytes(&path)?)
            .ok_or(format!("{}: can't be understood", path.display()))?;
        lists.push(List {
            name: stem(&path),
            slots,
            text: path.with_extension("tap"),
        });
    }
    Ok(lists)
}

/// The files of a folder with this ending, in the order of their names.
fn with_ending(folder: &Path, ending: &str) -> Result<Vec<PathBuf>, String> {
    let failed = |error| format!("{}: {error}", folder.display());
    let mut paths = Vec::new();
    for entry in fs::read_dir(folder).map_err(failed)? {
        let path = entry.map_err(failed)?.path();
        if path.extension().is_some_and(|found| found == ending) {
            paths.push(path);
        }
    }
    paths.sort();
    match paths.is_empty() {
        true => Err(format!("{}: no file .{ending}", folder.display())),
        false => Ok(paths),
    }
}

pub fn bytes(path: &Path) -> Result<Vec<u8>, String> {
    fs::read(path).map_err(|error| format!("{}: {error}", path.display()))
}

fn stem(path: &Path) -> String {
    let stem = path.file_stem().unwrap_or_default();
    stem.to_string_lossy().into_owned()
}
