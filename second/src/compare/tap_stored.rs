//! The stored texts and records.

use super::pair::{Mismatch, Pair};
use super::tap::{fresh, read, somewhere, write};
use super::tap_kept;
use crate::corpus::{self, Outcome, Sample, CHAPTER};
use crate::random::Random;
use crate::row::Asked;
use crate::sizes::Shape;

/// Every stored text, against what is expected of it.
pub fn texts(pair: &mut Pair, random: &mut Random) -> Result<(), Mismatch> {
    let texts = corpus::texts(&corpus::texts_folder());
    for sample in texts.map_err(|what| pair.mismatch("tap_read", what))? {
        let ids = sample.count + random.below(5) as u16;
        let shape = fresh(pair, random, ids)?;
        let sheet = somewhere(random, ids, sample.count, CHAPTER);
        let answer = read(pair, random, shape, sheet, &sample.text)?;
        pair.tally.reach("tap_read, texts", "stored");
        let same = match &sample.expected {
            Outcome::Refused(number, line) => {
                answer == -i32::from(*number) && pair.line() == [*line]
            }
            Outcome::Read(_) => answer == 0 && says(pair, random, shape, sheet.asked, &sample)?,
        };
        if !same {
            let what = format!("answer {answer}, not as expected: {}", sample.name);
            return Err(pair.mismatch("tap_read", what));
        }
    }
    pair.lend_tree(&[]);
    Ok(())
}

/// Whether what was read is what a text says that is written of it.
fn says(
    pair: &mut Pair,
    random: &mut Random,
    shape: Shape,
    asked: Asked,
    sample: &Sample,
) -> Result<bool, Mismatch> {
    let (_, text) = write(pair, random, shape, asked)?;
    Ok(corpus::outcome(&text, sample.count) == sample.expected)
}

/// Every stored list of records, whose text is stored too.
pub fn records(pair: &mut Pair, random: &mut Random) -> Result<(), Mismatch> {
    let lists = corpus::lists(&corpus::written_folder());
    for list in lists.map_err(|what| pair.mismatch("tap_write", what))? {
        let count = list.slots.len() as u16;
        let ids = count + random.below(5) as u16;
        let shape = fresh(pair, random, ids)?;
        let Asked { first, end, .. } = somewhere(random, ids, count, CHAPTER).asked;
        for (id, slot) in (first..end).zip(&list.slots) {
            if let Some(record) = slot {
                tap_kept::put(pair, random, shape, id, record)?;
            }
        }
        let asked = Asked {
            chapter: CHAPTER,
            first,
            end,
        };
        let (_, text) = write(pair, random, shape, asked)?;
        let stored = corpus::bytes(&list.text).map_err(|what| pair.mismatch("tap_write", what))?;
        if text != stored {
            let what = format!("another text than the stored one: {}", list.name);
            return Err(pair.mismatch("tap_write", what));
        }
        pair.tally.reach("tap_write, texts", "stored");
    }
    pair.lend_tree(&[]);
    Ok(())
}
