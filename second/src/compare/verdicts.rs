//! Verdicts in records: read from good, damaged and random ones, and made of
//! what fits or doesn't.

use super::entries::{alone, bad, exact_or_not, junk};
use super::pair::{Mismatch, Pair};
use super::tally::{MAKE_REASONS, READ_REASONS};
use crate::random::Random;

/// What a record says that was put together here: verdict and chapter, or
/// nothing where it is bad.
pub type Says = Option<(u8, u8)>;

pub fn history(pair: &mut Pair, random: &mut Random) -> Result<(), Mismatch> {
    for _ in 0..30 {
        read(pair, random)?;
        make(pair, random)?;
    }
    Ok(())
}

/// A record to be written in a book on `chapter`: mostly its verdicts, but for
/// some of another chapter and some that are none.
pub fn record(random: &mut Random, chapter: u8) -> ([u8; 64], Says) {
    let mut record = good(random);
    if !random.once_in(8) {
        record[1] = chapter;
    }
    if !random.once_in(8) {
        return (record, Some((record[0], record[1])));
    }
    if random.once_in(4) {
        record = random.pick(&[[0; 64], random.clone().bytes()]);
        // Random bytes are hardly ever a verdict, but might be one.
        record[0] = 0;
    } else {
        let kind = random.index(3);
        damage(random, &mut record, kind);
    }
    (record, None)
}

/// A record with a verdict, and any chapter, year and name.
fn good(random: &mut Random) -> [u8; 64] {
    let mut record = [0; 64];
    let drawn = random.below(32) as u8;
    record[0] = random.range(1, 4) as u8;
    record[1] = random.pick(&[0, 31, drawn, drawn]);
    random.fill(&mut record[2..4]);
    let name = name(random);
    record[4..][..name.len()].copy_from_slice(&name);
    record
}

/// A name that fits.
fn name(random: &mut Random) -> Vec<u8> {
    let drawn = random.index(61);
    let length = random.pick(&[0, 1, 59, 60, drawn, drawn, drawn]);
    (0..length).map(|_| random.range(1, 255) as u8).collect()
}

/// Spoils verdict, chapter or name, with the others left as they are.
fn damage(random: &mut Random, record: &mut [u8; 64], kind: usize) {
    match kind {
        0 => record[0] = bad_verdict(random),
        1 => record[1] = bad_chapter(random),
        _ => {
            // A zero with something behind it.
            let drawn = 4 + random.index(59);
            let zero = random.pick(&[4, drawn, drawn, 62]);
            let drawn = random.range(zero as u64 + 1, 63) as usize;
            let behind = random.pick(&[zero + 1, drawn, 63]);
            record[zero] = 0;
            record[behind] = random.range(1, 255) as u8;
        }
    }
}

fn bad_verdict(random: &mut Random) -> u8 {
    let drawn = random.range(5, 255) as u8;
    random.pick(&[0, 5, drawn, 255])
}

fn bad_chapter(random: &mut Random) -> u8 {
    let drawn = random.range(32, 255) as u8;
    random.pick(&[32, drawn, 255])
}

/// What stands where an answer is going to be written.
fn before<const N: usize>(random: &mut Random) -> [u16; N] {
    std::array::from_fn(|_| random.word() as u16)
}

fn read(pair: &mut Pair, random: &mut Random) -> Result<(), Mismatch> {
    let bad: [bool; 4] = bad(random);
    let mut record = good(random);
    for kind in (0..3).filter(|kind| bad[*kind]) {
        damage(random, &mut record, kind);
    }
    let year = u16::from_le_bytes([record[2], record[3]]);
    let length = record[4..].iter().take_while(|byte| **byte != 0).count();
    let before: [u16; 3] = before(random);
    let expected = match bad.contains(&true) {
        true => (0, before),
        false => (
            i32::from(record[0]),
            [u16::from(record[1]), year, length as u16],
        ),
    };
    let mut bytes = record.to_vec();
    bytes.resize(exact_or_not(random, bad[3], 64), 0);
    pair.lend_input(&bytes);
    pair.lend_numbers(&before);
    let answer = pair.verdict_read()?;
    if (answer, pair.numbers()) != (expected.0, &expected.1[..]) {
        let what = format!("answer {answer} or what is said is not what was put together");
        return Err(pair.mismatch("verdict_read", what));
    }
    if let Some(name) = alone(&bad, &READ_REASONS) {
        pair.tally.reach("verdict_read, reason", name);
    }
    count_name(pair, answer, length);
    pair.lend_input(&random.bytes::<64>());
    pair.verdict_read()?;
    Ok(())
}

fn count_name(pair: &mut Pair, answer: i32, length: usize) {
    let name = match length {
        0 => "of 0 bytes",
        60 => "of 60 bytes",
        _ => return,
    };
    if answer > 0 {
        pair.tally.reach("verdict, name", name);
    }
}

fn make(pair: &mut Pair, random: &mut Random) -> Result<(), Mismatch> {
    let bad: [bool; 5] = bad(random);
    let record = good(random);
    let (mut verdict, mut chapter) = (record[0], record[1]);
    if bad[0] {
        verdict = bad_verdict(random);
    }
    if bad[1] {
        chapter = bad_chapter(random);
    }
    let name = some_name(random, bad[2], bad[3]);
    let length = exact_or_not(random, bad[4], 64);
    let before = junk(random, length);
    let year = random.word() as u16;
    pair.lend_record(&before);
    pair.lend_input(&name);
    let answer = pair.verdict_make(verdict, chapter, year)?;
    let refused = bad.contains(&true);
    let expected = if refused { 0 } else { i32::from(verdict) };
    if answer != expected || (refused && pair.record() != before) {
        let what = format!("answer {answer} for {verdict}, or a refusal that changed the record");
        return Err(pair.mismatch("verdict_make", what));
    }
    if let Some(name) = alone(&bad, &MAKE_REASONS) {
        pair.tally.reach("verdict_make, reason", name);
    }
    if refused {
        return Ok(());
    }
    let said = [u16::from(chapter), year, name.len() as u16];
    read_back(pair, random, answer, &said, &name)
}

/// A name that is too long, has a zero in it, both or neither.
fn some_name(random: &mut Random, long: bool, zero: bool) -> Vec<u8> {
    let mut bytes = name(random);
    if long {
        let drawn = random.range(61, 400) as usize;
        // The last ones are short names if only the low bits are looked at.
        let length = random.pick(&[61, 62, 64, drawn, drawn, 256, 300, 65536, 65540]);
        bytes.resize(length, random.range(1, 255) as u8);
    }
    if zero {
        if bytes.is_empty() {
            bytes.push(0);
        }
        let (drawn, last) = (random.index(bytes.len()), bytes.len() - 1);
        bytes[random.pick(&[0, drawn, last])] = 0;
    }
    bytes
}

/// A record that was made says what it was made of.
fn read_back(
    pair: &mut Pair,
    random: &mut Random,
    verdict: i32,
    said: &[u16; 3],
    name: &[u8],
) -> Result<(), Mismatch> {
    let record = pair.record().to_vec();
    pair.lend_input(&record);
    pair.lend_numbers(&before::<3>(random));
    let answer = pair.verdict_read()?;
    let same = answer == verdict && pair.numbers() == said;
    if !same || !record[4..].starts_with(name) {
        return Err(pair.mismatch("verdict_read", "not what the record was made of".into()));
    }
    Ok(())
}
