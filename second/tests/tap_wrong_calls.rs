//! Texts read and written with other effects than asked for: a comparison
//! notices each.

mod wrong;

use second::desk;
use second::found::Named;
use second::good::{flaws, Flaw};
use second::row::{may_begin, request, Asked};
use second::store::{Second, Sheet, Store};
use second::tap::{print, text};
use second::verdict::{make, Said, Verdict};
use wrong::{caught, Wrong};

type Lent<'a> = (&'a mut [u8], &'a mut [u8]);

/// A reader that is wrong.
fn read_caught(
    what: &str,
    read: impl Fn(Lent, Sheet, &[u16], &[u8], &mut [u64; 1]) -> i32 + 'static,
) {
    let wrong = Wrong {
        tap_read: Box::new(move |desk, tree, sheet, draws, text, line| {
            read((desk, tree), sheet, draws, text, line)
        }),
        ..Wrong::default()
    };
    caught(what, "tap", &wrong);
}

/// A writer that is wrong.
fn write_caught(what: &str, write: impl Fn(Lent, Asked, &[u16], &mut [u8]) -> i32 + 'static) {
    let wrong = Wrong {
        tap_write: Box::new(move |desk, tree, asked, draws, out| {
            write((desk, tree), asked, draws, out)
        }),
        ..Wrong::default()
    };
    caught(what, "tap", &wrong);
}

fn read((desk, tree): Lent, sheet: Sheet, draws: &[u16], text: &[u8], line: &mut [u64; 1]) -> i32 {
    Second.tap_read(desk, tree, sheet, draws, text, line)
}

fn write((desk, tree): Lent, asked: Asked, draws: &[u16], out: &mut [u8]) -> i32 {
    Second.tap_write(desk, tree, asked, draws, out)
}

/// What a text says, as requests that can be made in another way.
fn by_hand(
    lent: Lent,
    sheet: Sheet,
    draws: &[u16],
    text: &[u8],
    line: &mut [u64; 1],
    ask: impl Fn(Lent, u16, u16, Option<[u8; 64]>) -> i32,
) -> i32 {
    let asked = sheet.asked;
    let (desk, tree) = lent;
    let begun = may_begin(desk, tree, asked, draws);
    let Ok(tests) = text::read(text, asked.chapter, asked.end.saturating_sub(asked.first)) else {
        return read((desk, tree), sheet, draws, text, line);
    };
    if begun.is_err() {
        return read((desk, tree), sheet, draws, text, line);
    }
    for ((id, draw), test) in (asked.first..asked.end).zip(draws).zip(tests) {
        let record = test.and_then(|test| {
            make(Said {
                verdict: test.verdict,
                chapter: asked.chapter,
                year: sheet.year,
                name: test.name,
            })
        });
        let answer = ask((desk, tree), id, *draw, record);
        if answer < 0 {
            return answer;
        }
    }
    0
}

fn ask((desk, tree): Lent, id: u16, draw: u16, record: Option<[u8; 64]>) -> i32 {
    let shape = desk::Desk(desk).shape();
    let done = request(desk, tree, shape, id, draw, record.as_ref());
    done.map_or_else(|refusal| refusal.answer(), |_| 0)
}

#[test]
fn requests_of_a_reader() {
    read_caught(
        "a missing line written",
        |lent, sheet, draws, text, line| {
            by_hand(lent, sheet, draws, text, line, |lent, id, draw, record| {
                let missing = make(Said {
                    verdict: Verdict::Fail,
                    chapter: 0,
                    year: 0,
                    name: b"",
                });
                ask(lent, id, draw, record.or(missing))
            })
        },
    );
    read_caught(
        "a missing line not asked",
        |lent, sheet, draws, text, line| {
            by_hand(
                lent,
                sheet,
                draws,
                text,
                line,
                |lent, id, draw, record| match record {
                    Some(_) => ask(lent, id, draw, record),
                    None => 0,
                },
            )
        },
    );
    read_caught("every line read after", |lent, sheet, draws, text, line| {
        by_hand(
            lent,
            sheet,
            draws,
            text,
            line,
            |(desk, tree), id, draw, record| match ask((&mut *desk, &mut *tree), id, draw, record) {
                0 => ask((desk, tree), id, draw, None),
                answer => answer,
            },
        )
    });
    read_caught(
        "the same verdict not written",
        |lent, sheet, draws, text, line| {
            by_hand(lent, sheet, draws, text, line, |lent, id, draw, record| {
                let skipped = record.filter(|record| record[0] != 3);
                ask(lent, id, draw, skipped)
            })
        },
    );
    read_caught(
        "the first draw for all",
        |lent, sheet, draws, text, line| {
            let first = draws.first().copied().unwrap_or(0);
            read(lent, sheet, &vec![first; draws.len()], text, line)
        },
    );
    read_caught("draws backward", |lent, sheet, draws, text, line| {
        let backward: Vec<u16> = draws.iter().rev().copied().collect();
        read(lent, sheet, &backward, text, line)
    });
    read_caught(
        "year's bytes exchanged",
        |lent, mut sheet, draws, text, line| {
            sheet.year = sheet.year.swap_bytes();
            read(lent, sheet, draws, text, line)
        },
    );
    read_caught(
        "chapter 31 refused",
        |lent, mut sheet, draws, text, line| {
            if sheet.asked.chapter == 31 {
                sheet.asked.chapter = 32;
            }
            read(lent, sheet, draws, text, line)
        },
    );
    read_caught("any chapter", |lent, mut sheet, draws, text, line| {
        sheet.asked.chapter %= 32;
        read(lent, sheet, draws, text, line)
    });
}

/// The requests of the lines before the one that is refused are made.
#[test]
fn asked_before_the_text_is_read() {
    read_caught("asked line by line", |lent, sheet, draws, text, line| {
        let (desk, tree) = lent;
        let before = *line;
        let answer = read((&mut *desk, &mut *tree), sheet, draws, text, line);
        if answer == -12 && line[0] > 3 {
            let id = sheet.asked.first;
            if ask((desk, tree), id, draws[0], None) < 0 {
                *line = before;
            }
        }
        answer
    });
}

#[test]
fn lines_that_are_left() {
    for (what, answers) in [
        ("line cleared when done", &[0][..]),
        (
            "line cleared by another refusal",
            &[-1, -2, -3, -5, -6, -7, -9, -10, -11],
        ),
    ] {
        for &cleared in answers {
            read_caught(what, move |lent, sheet, draws, text, line| {
                let answer = read(lent, sheet, draws, text, line);
                if answer == cleared {
                    *line = [0];
                }
                answer
            });
        }
    }
    for kept in [-12, -13] {
        read_caught("line not told", move |lent, sheet, draws, text, line| {
            let before = *line;
            let answer = read(lent, sheet, draws, text, line);
            if answer == kept {
                *line = before;
            }
            answer
        });
        read_caught("line of 32 bits", move |lent, sheet, draws, text, line| {
            let before = line[0];
            let answer = read(lent, sheet, draws, text, line);
            if answer == kept {
                line[0] |= before & !0xffff_ffff;
            }
            answer
        });
    }
}

/// A reader that gives `instead` where `given` would come and `also` holds.
fn read_swapped(
    what: &str,
    given: i32,
    instead: i32,
    also: fn(&[u8], Sheet, &[u16], bool) -> bool,
) {
    read_caught(what, move |(desk, tree), sheet, draws, text, line| {
        let asked = sheet.asked;
        let count = asked.end.saturating_sub(asked.first).max(1);
        let good = text::read(text, asked.chapter, count).is_ok();
        let also = also(desk, sheet, draws, good);
        let before = *line;
        match read((desk, tree), sheet, draws, text, line) {
            answer if answer == given && also => {
                *line = before;
                instead
            }
            answer => answer,
        }
    });
}

fn status(desk: &[u8]) -> u8 {
    desk.get(desk::STATUS).copied().unwrap_or(0)
}

fn bad_leaf(desk: &[u8], draws: &[u16]) -> bool {
    let height = desk.get(desk::HEIGHT).copied().unwrap_or(0);
    draws
        .iter()
        .any(|draw| u32::from(*draw) >= 1 << height.min(16))
}

#[test]
fn orders_of_a_reader() {
    for text in [-12, -13] {
        read_swapped("Stopped before the text", text, -2, |desk, _, _, _| {
            status(desk) > 1
        });
        read_swapped("Open before the text", text, -3, |desk, _, _, _| {
            status(desk) == 1
        });
        read_swapped("BadLeaf before the text", text, -6, |desk, _, draws, _| {
            bad_leaf(desk, draws)
        });
    }
    read_swapped("the text before BadDesk", -1, -12, |_, _, _, good| !good);
    read_swapped("the text before BadId", -5, -12, |_, _, _, good| !good);
    read_swapped("the text before BadLength", -7, -12, |_, _, _, good| !good);
    read_swapped("BadLength before BadId", -5, -7, |_, sheet, draws, _| {
        let Asked { first, end, .. } = sheet.asked;
        draws.len() != usize::from(end.saturating_sub(first))
    });
}

#[test]
fn outs_that_are_left() {
    write_caught("the rest cleared", |lent, asked, draws, out| {
        let answer = write(lent, asked, draws, out);
        if answer > 0 {
            out[answer as usize..].fill(0);
        }
        answer
    });
    write_caught("a zero behind", |lent, asked, draws, out| {
        let answer = write(lent, asked, draws, out);
        if let Some(byte) = usize::try_from(answer).ok().and_then(|at| out.get_mut(at)) {
            *byte = 0;
        }
        answer
    });
    for refused in [-1, -2, -3, -5, -6, -7, -9, -10, -11] {
        write_caught("the head written", move |lent, asked, draws, out| {
            let answer = write(lent, asked, draws, out);
            if answer == refused {
                let head = out.len().min(15);
                out[..head].copy_from_slice(&b"TAP version 13\n"[..head]);
            }
            answer
        });
    }
    write_caught("any room that is enough", |lent, asked, draws, out| {
        let room = Second.tap_room(asked.end.saturating_sub(asked.first).min(4096));
        let length = out.len();
        write(lent, asked, draws, &mut out[..length.min(room)])
    });
    write_caught("out looked at after the asks", |lent, asked, draws, out| {
        let status = status(lent.0);
        match write(lent, asked, draws, out) {
            -7 if status > 1 => -2,
            answer => answer,
        }
    });
    write_caught(
        "out looked at before the range",
        |lent, asked, draws, out| {
            let room = Second.tap_room(asked.end.saturating_sub(asked.first).min(40));
            match write(lent, asked, draws, out) {
                -5 if out.len() != room => -7,
                answer => answer,
            }
        },
    );
}

#[test]
fn texts_written_wrongly() {
    write_caught(
        "nothing kept of asks without a line",
        |lent, asked, draws, out| {
            let (desk, tree) = lent;
            let before = (desk.to_vec(), tree.to_vec());
            let answer = write((&mut *desk, &mut *tree), asked, draws, out);
            let head = print::head(asked.end.saturating_sub(asked.first)).len();
            if answer == head as i32 {
                desk.copy_from_slice(&before.0);
                tree.copy_from_slice(&before.1);
            }
            answer
        },
    );
    write_caught("draws backward", |lent, asked, draws, out| {
        let backward: Vec<u16> = draws.iter().rev().copied().collect();
        write(lent, asked, &backward, out)
    });
    write_caught(
        "a chapter above 31 as its last bits",
        |lent, mut asked, draws, out| {
            asked.chapter %= 32;
            write(lent, asked, draws, out)
        },
    );
    write_caught("without the last line feed", |lent, asked, draws, out| {
        let answer = write(lent, asked, draws, out);
        answer - i32::from(answer > 0)
    });
}

#[test]
fn rooms_that_are_wrong() {
    type Room = fn(u16) -> usize;
    let rooms: [(&str, Room); 3] = [
        ("a room of 16 bits", |count| {
            usize::from(Second.tap_room(count) as u16)
        }),
        ("no more than 4,096 ids", |count| {
            Second.tap_room(count.min(4096))
        }),
        ("a byte more", |count| Second.tap_room(count) + 1),
    ];
    for (what, room) in rooms {
        let wrong = Wrong {
            tap_room: Box::new(room),
            ..Wrong::default()
        };
        caught(what, "tap", &wrong);
    }
}

#[test]
fn every_condition_of_a_desk() {
    for flaw in Flaw::ALL {
        read_caught(flaw.name(), move |lent, sheet, draws, text, line| {
            match flaws(lent.0).only() == Some(*flaw) {
                true => -2,
                false => read(lent, sheet, draws, text, line),
            }
        });
        write_caught(flaw.name(), move |lent, asked, draws, out| {
            match flaws(lent.0).only() == Some(*flaw) {
                true => -2,
                false => write(lent, asked, draws, out),
            }
        });
    }
}
