//! Books that are kept: drawn records written as a text, and the text read
//! back into a fresh store; with little room, and with bits turned.

use super::pair::{Mismatch, Pair};
use super::tap::{fresh, read, somewhere, write};
use super::{draw, server, tap_texts, verdicts};
use crate::desk::Desk;
use crate::format::Sizes;
use crate::random::Random;
use crate::row::Asked;
use crate::sizes::Shape;
use crate::store::Sheet;
use crate::tap::text;
use crate::verdict::{self, Verdict};
use std::collections::HashMap;

const FULL: i32 = -11;

type Table = HashMap<u16, [u8; 64]>;

/// Writes a record through the store; false if that is full.
pub fn put(
    pair: &mut Pair,
    random: &mut Random,
    shape: Shape,
    id: u16,
    record: &[u8],
) -> Result<bool, Mismatch> {
    let Shape { height, slots } = shape;
    pair.lend_input(record);
    let leaf = pair.ask_write(id, draw::leaf(random, shape))? as u16;
    pair.lend_path(&vec![random.byte(); shape.path_length()]);
    pair.fetch(height, slots, leaf)?;
    pair.lend_record(&random.bytes::<64>());
    if pair.finish()? == FULL {
        return Ok(false);
    }
    pair.put(height, slots, leaf)?;
    Ok(true)
}

/// Drawn records, the text of a range of them, and what that says when it is
/// read back.
pub fn roomy(pair: &mut Pair, random: &mut Random) -> Result<(), Mismatch> {
    let ids = random.range(1, 30) as u16;
    let shape = fresh(pair, random, ids)?;
    let chapter = random.below(32) as u8;
    let mut table = Table::new();
    for id in 1..=ids {
        if !random.once_in(6) {
            let record = record(random, chapter);
            put(pair, random, shape, id, &record)?;
            table.insert(id, record);
        }
    }
    let drawn = random.range(1, u64::from(ids)) as u16;
    let count = random.pick(&[1, drawn, ids]);
    let own = random.pick(&[chapter, chapter, chapter, chapter, chapter, 31, 32, 255]);
    let asked = somewhere(random, ids, count, own).asked;
    let (_, text) = write(pair, random, shape, asked)?;
    pair.tally.reach("tap_write, texts", "of drawn records");
    count_records(pair, &table, asked);
    read_back(pair, random, &table, asked, &text)?;
    pair.lend_tree(&[]);
    Ok(())
}

/// A record, often with a name that is odd in a text.
fn record(random: &mut Random, chapter: u8) -> [u8; 64] {
    const NAMES: &[&[u8]] = &[
        b"",
        b"a",
        b"reads a header",
        b" a",
        b"a ",
        b" ",
        b"-",
        b"- a",
        b"-a",
        b"--",
        b"issue #42",
        b"a # b",
        b"#",
        b"a # SKIP",
        b"a # TODO b",
        b"#skip",
        b"a # SKIPPED",
        b"a\n",
        b"\nok 1",
        b"a\nnot ok 2 - b",
        b"a\r",
        b"\ta",
        b"\\#",
        b"abcdefghijabcdefghijabcdefghijabcdefghijabcdefghijabcdefghij",
        b"-bcdefghijabcdefghijabcdefghijabcdefghijabcdefghijabcdefghij",
    ];
    let (mut record, _) = verdicts::record(random, chapter);
    if random.once_in(3) {
        return record;
    }
    let name = random.pick(NAMES);
    record[4..].fill(0);
    record[4..][..name.len()].copy_from_slice(name);
    record
}

/// What stands in the table for an id, if it gets a line.
fn lined(table: &Table, id: u16, chapter: u8) -> Result<(Verdict, &[u8]), &'static str> {
    let record = table.get(&id).ok_or("Never")?;
    let said = verdict::read(record).ok_or("a record that is no verdict")?;
    if said.chapter != chapter {
        return Err("a record of another chapter");
    }
    match said.name.contains(&b'\n') {
        true => Err("a line feed in the name"),
        false => Ok((said.verdict, said.name)),
    }
}

fn count_records(pair: &mut Pair, table: &Table, asked: Asked) {
    for id in asked.first..asked.end {
        let name = match lined(table, id, asked.chapter) {
            Ok((_, name)) => name,
            Err(why) => {
                pair.tally.reach("tap_write, no line", why);
                continue;
            }
        };
        let space = name.starts_with(b" ") || name.ends_with(b" ");
        let with = [
            (name.is_empty(), "of 0 bytes"),
            (name.len() == 60, "of 60 bytes"),
            (space, "with a space at an end"),
            (name.starts_with(b"-"), "with a dash in front"),
            (name.contains(&b'#'), "with a hash"),
            (name.starts_with(b"a # SKIP"), "that reads as a directive"),
        ];
        for (reached, what) in with {
            if reached {
                pair.tally.reach("tap_write, name", what);
            }
        }
    }
}

/// Reads a written text into a fresh store, where it says the same but for
/// names that a text can't hold.
fn read_back(
    pair: &mut Pair,
    random: &mut Random,
    table: &Table,
    asked: Asked,
    text: &[u8],
) -> Result<(), Mismatch> {
    let count = asked.length();
    let ids = count + random.below(4) as u16;
    let shape = fresh(pair, random, ids)?;
    let sheet = somewhere(random, ids, count, asked.chapter);
    let answer = read(pair, random, shape, sheet, text)?;
    pair.tally.reach("tap_read, texts", "written by tap_write");
    if answer != 0 {
        let what = format!("a text that was written is answered {answer}");
        return Err(pair.mismatch("tap_read", what));
    }
    let (_, again) = write(pair, random, shape, sheet.asked)?;
    let lines = (asked.first..asked.end).map(|id| lined(table, id, asked.chapter).ok());
    let lines: Vec<_> = lines.collect();
    let tests = text::read(&again, asked.chapter, count);
    let tests = tests.map_err(|_| pair.mismatch("tap_write", "a text that isn't good".into()))?;
    let tests: Vec<_> = tests
        .iter()
        .map(|test| test.map(|test| (test.verdict, test.name)))
        .collect();
    let same = tests == lines;
    let plain = lines.iter().flatten().all(|(_, name)| is_plain(name));
    let expected = if same { again == text } else { !plain };
    if !expected {
        let what = "another text after it was read back".into();
        return Err(pair.mismatch("tap_write", what));
    }
    let name = match same {
        true => "the same verdicts and names",
        false => "other verdicts or names",
    };
    pair.tally.reach("tap_write, read back", name);
    Ok(())
}

/// Whether nothing in a name can be lost in a text.
fn is_plain(name: &[u8]) -> bool {
    !(name.starts_with(b" ") || name.ends_with(b" ") || name.contains(&b'#'))
}

/// So little room that a text may fill the store, and bits turned in what was
/// well before.
pub fn tight(pair: &mut Pair, random: &mut Random, turn: u64) -> Result<(), Mismatch> {
    let sizes = Sizes {
        height: 1 + (turn % 3) as u8,
        slots: random.range(1, 2) as u8,
        stash: random.pick(&[0, 0, 1, 2]),
        ids: random.range(2, 12) as u16,
    };
    let shape = server::formatted(pair, random, sizes)?;
    for _ in 0..30 {
        let count = random.range(1, u64::from(sizes.ids)) as u16;
        let sheet = somewhere(random, sizes.ids, count, 7);
        let (desk, tree) = (pair.desk().to_vec(), pair.tree().to_vec());
        if random.once_in(3) {
            turn_a_bit(pair, random, shape, sheet.asked);
            either(pair, random, shape, sheet)?;
            pair.lend_desk(&desk);
            pair.lend_tree(&tree);
        }
        if either(pair, random, shape, sheet)? == FULL {
            pair.lend_desk(&desk);
            pair.lend_tree(&tree);
        }
    }
    pair.lend_tree(&[]);
    Ok(())
}

/// A text read or written.
fn either(
    pair: &mut Pair,
    random: &mut Random,
    shape: Shape,
    sheet: Sheet,
) -> Result<i32, Mismatch> {
    if random.once_in(2) {
        return Ok(write(pair, random, shape, sheet.asked)?.0);
    }
    let text = tap_texts::text(random, sheet.asked.length()).text;
    read(pair, random, shape, sheet, &text)
}

/// Turns a bit of some item that a request of the range is going to fetch.
fn turn_a_bit(pair: &mut Pair, random: &mut Random, shape: Shape, asked: Asked) {
    let id = random.range(u64::from(asked.first), u64::from(asked.end) - 1) as u16;
    let leaf = Desk(pair.desk()).position(id);
    let item = shape.in_tree(shape.bucket(leaf, random.index(shape.levels())));
    let mut tree = pair.tree().to_vec();
    tree[item.start + random.index(item.len())] ^= 1 << random.below(8);
    pair.lend_tree(&tree);
}

/// A text with a line for each of 4,096 ids, read and written.
pub fn wide(pair: &mut Pair, random: &mut Random) -> Result<(), Mismatch> {
    let sizes = Sizes {
        height: 11,
        slots: 4,
        stash: 255,
        ids: 4096,
    };
    let shape = server::formatted(pair, random, sizes)?;
    let mut text = b"TAP version 13\n1..4096\n".to_vec();
    for number in (1..=4096).rev() {
        let name: String = (0..60)
            .map(|_| random.pick(&['a', 'b', '-', '.']))
            .collect();
        let kind = random.pick(&["ok", "not ok"]);
        let end = random.pick(&["", " # SKIP", " # TODO"]);
        text.extend(format!("{kind} {number} - {name}{end}\n").bytes());
    }
    let sheet = somewhere(random, 4096, 4096, 31);
    let answer = read(pair, random, shape, sheet, &text)?;
    let (length, written) = write(pair, random, shape, sheet.asked)?;
    pair.lend_tree(&[]);
    let said = text::read(&text, 31, 4096);
    if answer != 0 || length <= 0 || text::read(&written, 31, 4096) != said {
        let what = format!("answers {answer} and {length}, or another text");
        return Err(pair.mismatch("tap_write", what));
    }
    Ok(())
}
