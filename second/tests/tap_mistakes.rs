//! Every plausible mistake in reading or writing a text is shown by at least
//! one stored file.

mod mistaken;

use mistaken::Mistake;
use second::corpus::{self, Sample};
use second::found::Named;
use second::tap::print;
use second::verdict::{self, Said, Verdict};

fn samples() -> Vec<Sample> {
    corpus::texts(&corpus::texts_folder()).expect("stored texts")
}

#[test]
fn without_a_mistake_every_text_is_read_as_expected() {
    for sample in samples() {
        let read = mistaken::read(&sample.text, sample.count, None);
        assert_eq!(read, sample.expected, "{}", sample.name);
    }
}

#[test]
fn every_mistake_in_reading_is_seen() {
    let samples = samples();
    let mut unseen = Vec::new();
    for mistake in Mistake::ALL {
        let differs = |sample: &&Sample| {
            mistaken::read(&sample.text, sample.count, Some(*mistake)) != sample.expected
        };
        let seen: Vec<&str> = samples
            .iter()
            .filter(differs)
            .map(|it| &it.name[..])
            .collect();
        println!("{}: {}", mistake.name(), seen.join(" "));
        if seen.is_empty() {
            unseen.push(mistake.name());
        }
    }
    assert!(unseen.is_empty(), "not seen: {unseen:?}");
}

/// What is written for a number: a line, or nothing.
type Writer = fn(u16, Option<&[u8; 64]>) -> Vec<u8>;

fn said(slot: Option<&[u8; 64]>) -> Option<Said<'_>> {
    let said = verdict::read(slot?)?;
    (said.chapter == corpus::CHAPTER).then_some(said)
}

fn right(number: u16, slot: Option<&[u8; 64]>) -> Vec<u8> {
    let mut line = Vec::new();
    if let Some(said) = said(slot) {
        print::line(&mut line, number, said);
    }
    line
}

/// The verdict printed as another one.
fn printed(number: u16, slot: Option<&[u8; 64]>, change: fn(Said) -> Said) -> Vec<u8> {
    let mut line = Vec::new();
    if let Some(said) = said(slot) {
        print::line(&mut line, number, change(said));
    }
    line
}

fn instead(number: u16, slot: Option<&[u8; 64]>, line: &str) -> Vec<u8> {
    let right = right(number, slot);
    match right.is_empty() {
        true => line.replace('K', &number.to_string()).into_bytes(),
        false => right,
    }
}

fn replaced(line: Vec<u8>, from: &str, to: &str) -> Vec<u8> {
    let text: String = line.iter().map(|byte| *byte as char).collect();
    text.replace(from, to).chars().map(|it| it as u8).collect()
}

fn differing(head: fn(&[Option<[u8; 64]>]) -> Vec<u8>, writer: Writer) -> Vec<String> {
    let lists = corpus::lists(&corpus::written_folder()).expect("stored records");
    let mut differing = Vec::new();
    for list in lists {
        let mut text = head(&list.slots);
        for (slot, number) in list.slots.iter().zip(1..) {
            text.extend(writer(number, slot.as_ref()));
        }
        if text != corpus::bytes(&list.text).expect("a stored text") {
            differing.push(list.name);
        }
    }
    differing
}

fn right_head(slots: &[Option<[u8; 64]>]) -> Vec<u8> {
    print::head(slots.len() as u16)
}

#[test]
fn without_a_mistake_every_text_is_written_as_stored() {
    assert_eq!(differing(right_head, right), Vec::<String>::new());
}

#[test]
fn every_mistake_in_writing_is_seen() {
    let writers: &[(&str, Writer)] = &[
        ("Never as ok", |k, slot| match slot {
            None => instead(k, slot, "ok K\n"),
            _ => right(k, slot),
        }),
        ("Never as not ok", |k, slot| match slot {
            None => instead(k, slot, "not ok K\n"),
            _ => right(k, slot),
        }),
        ("Never as SKIP", |k, slot| match slot {
            None => instead(k, slot, "ok K # SKIP\n"),
            _ => right(k, slot),
        }),
        ("bad as not ok", |k, slot| match slot {
            Some(_) => instead(k, slot, "not ok K - \n"),
            _ => right(k, slot),
        }),
        ("no line as a comment", |k, slot| instead(k, slot, "# K\n")),
        ("another chapter printed", |k, slot| {
            let mut own = slot.copied();
            if let Some(record) = &mut own {
                record[1] = corpus::CHAPTER;
            }
            right(k, own.as_ref())
        }),
        ("a line feed printed", |k, slot| {
            let line = printed(k, slot, |said| Said { name: b"", ..said });
            match said(slot) {
                Some(said) if said.name.contains(&b'\n') => {
                    let mut line = line[..line.len() - 1].to_vec();
                    line.extend(said.name);
                    line.push(b'\n');
                    line
                }
                _ => right(k, slot),
            }
        }),
        ("a name cut at its line feed", |k, slot| {
            printed(k, slot, |said| {
                let end = said.name.iter().position(|byte| *byte == b'\n');
                let name = &said.name[..end.unwrap_or(said.name.len())];
                Said { name, ..said }
            })
        }),
        ("skipped as pass", |k, slot| {
            printed(k, slot, |said| match said.verdict {
                Verdict::Skipped => Said {
                    verdict: Verdict::Pass,
                    ..said
                },
                _ => said,
            })
        }),
        ("error as fail", |k, slot| {
            printed(k, slot, |said| match said.verdict {
                Verdict::Error => Said {
                    verdict: Verdict::Fail,
                    ..said
                },
                _ => said,
            })
        }),
        ("skipped as not ok", |k, slot| {
            let line = right(k, slot);
            match line.ends_with(b" # SKIP\n") && line.starts_with(b"ok") {
                true => [b"not ".to_vec(), line].concat(),
                false => line,
            }
        }),
        ("error as ok", |k, slot| {
            let line = right(k, slot);
            match line.ends_with(b" # TODO\n") {
                true => line[b"not ".len()..].to_vec(),
                false => line,
            }
        }),
        ("directives in small letters", |k, slot| {
            replaced(
                replaced(right(k, slot), "SKIP\n", "skip\n"),
                "TODO\n",
                "todo\n",
            )
        }),
        ("hashes escaped", |k, slot| {
            replaced(right(k, slot), "#4", "\\#4")
        }),
        ("backslashes escaped", |k, slot| {
            replaced(right(k, slot), "\\", "\\\\")
        }),
        ("names trimmed", |k, slot| {
            printed(k, slot, |said| {
                let name = said.name.trim_ascii();
                Said { name, ..said }
            })
        }),
        ("no dash before an empty name", |k, slot| {
            match said(slot).is_some_and(|said| said.name.is_empty()) {
                true => replaced(right(k, slot), " - ", ""),
                false => right(k, slot),
            }
        }),
        ("carriage returns", |k, slot| {
            replaced(right(k, slot), "\n", "\r\n")
        }),
        ("numbers from 0", |k, slot| right(k - 1, slot)),
        ("numbers of the ids", |k, slot| right(k + 2, slot)),
    ];
    for (what, writer) in writers {
        let seen = differing(right_head, *writer);
        println!("{what}: {}", seen.join(" "));
        assert!(!seen.is_empty(), "not seen: {what}");
    }
    let lines_alone = |slots: &[Option<[u8; 64]>]| {
        let lined = slots
            .iter()
            .filter(|slot| !right(1, slot.as_ref()).is_empty());
        print::head(lined.count() as u16)
    };
    assert!(!differing(lines_alone, right).is_empty());
    let no_version = |slots: &[Option<[u8; 64]>]| {
        let head = print::head(slots.len() as u16);
        head[b"TAP version 13\n".len()..].to_vec()
    };
    assert!(!differing(no_version, right).is_empty());
}
