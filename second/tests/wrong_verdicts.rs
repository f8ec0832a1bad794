//! Verdicts read or made in another way than asked for: a comparison notices
//! each.

mod wrong;

use second::store::{Second, Store};
use wrong::{caught, Wrong};

fn read_caught(what: &str, read: fn(&[u8], &mut [u16; 3]) -> i32) {
    let wrong = Wrong {
        verdict_read: Box::new(read),
        ..Wrong::default()
    };
    caught(what, "book", &wrong);
}

#[test]
fn verdicts_read_wrongly() {
    read_caught("said on bad", |record, said| {
        let answer = Second.verdict_read(record, said);
        if answer == 0 {
            *said = [0; 3];
        }
        answer
    });
    read_caught("a chapter above 31", |record, said| {
        let mut lower = record.to_vec();
        if lower.len() > 1 && lower[1] == 32 {
            lower[1] = 31;
        }
        Second.verdict_read(&lower, said)
    });
    read_caught("the last byte not looked at", |record, said| {
        let mut shorter = record.to_vec();
        if let [.., before, last] = &mut shorter[..] {
            *last = if *before == 0 { 0 } else { *last };
        }
        Second.verdict_read(&shorter, said)
    });
    read_caught("the year's bytes swapped", |record, said| {
        let answer = Second.verdict_read(record, said);
        if answer > 0 {
            said[1] = said[1].swap_bytes();
        }
        answer
    });
    read_caught("a longer record", |record, said| {
        Second.verdict_read(&record[..record.len().min(64)], said)
    });
    read_caught("the length of a full name", |record, said| {
        let answer = Second.verdict_read(record, said);
        if answer > 0 && said[2] == 60 {
            said[2] = 0;
        }
        answer
    });
}

fn make_caught(what: &str, make: fn(&mut [u8], u8, u8, u16, &[u8]) -> i32) {
    let wrong = Wrong {
        verdict_make: Box::new(make),
        ..Wrong::default()
    };
    caught(what, "book", &wrong);
}

#[test]
fn verdicts_made_wrongly() {
    make_caught("long names cut", |record, verdict, chapter, year, name| {
        let name = &name[..name.len().min(60)];
        Second.verdict_make(record, verdict, chapter, year, name)
    });
    make_caught(
        "length of 16 bits",
        |record, verdict, chapter, year, name| {
            let name = &name[..usize::from(name.len() as u16)];
            Second.verdict_make(record, verdict, chapter, year, name)
        },
    );
    make_caught(
        "names end at zeros",
        |record, verdict, chapter, year, name| {
            let length = name.iter().position(|byte| *byte == 0);
            let name = &name[..length.unwrap_or(name.len())];
            Second.verdict_make(record, verdict, chapter, year, name)
        },
    );
}

#[test]
fn records_left_wrongly() {
    make_caught("not padded", |record, verdict, chapter, year, name| {
        let before = record.to_vec();
        let answer = Second.verdict_make(record, verdict, chapter, year, name);
        if answer > 0 {
            record[4 + name.len()..].copy_from_slice(&before[4 + name.len()..]);
        }
        answer
    });
    make_caught(
        "refused and cleared",
        |record, verdict, chapter, year, name| {
            let answer = Second.verdict_make(record, verdict, chapter, year, name);
            if answer == 0 {
                record.fill(0);
            }
            answer
        },
    );
    make_caught("any chapter", |record, verdict, chapter, year, name| {
        let answer = Second.verdict_make(record, verdict, chapter.min(31), year, name);
        if answer > 0 {
            record[1] = chapter;
        }
        answer
    });
}
