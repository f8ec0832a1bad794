//! Verdicts in records: made and read back, and every damage noticed.

use second::random::Random;
use second::store::{Second, Store};
use second::verdict::{make, read, Said, Verdict};

const VERDICTS: [Verdict; 4] = [
    Verdict::Pass,
    Verdict::Fail,
    Verdict::Skipped,
    Verdict::Error,
];
/// What stands in `said` before a call.
const BEFORE: [u16; 3] = [0xa5a5, 0x5a5a, 0xffff];

fn name(random: &mut Random, length: usize) -> Vec<u8> {
    (0..length).map(|_| random.range(1, 255) as u8).collect()
}

/// A record with a name of `length` bytes.
fn record(random: &mut Random, length: usize) -> [u8; 64] {
    let said = Said {
        verdict: random.pick(&VERDICTS),
        chapter: random.range(0, 31) as u8,
        year: random.word() as u16,
        name: &name(random, length),
    };
    make(said).expect("a verdict")
}

fn is_bad(record: &[u8]) {
    assert_eq!(read(record), None, "{record:?}");
    let mut said = BEFORE;
    assert_eq!(Second.verdict_read(record, &mut said), 0);
    assert_eq!(said, BEFORE);
}

#[test]
fn made_records_read_back() {
    let mut random = Random::new(1);
    for verdict in VERDICTS {
        for chapter in 0..=31 {
            for length in 0..=60 {
                let drawn = random.word() as u16;
                let year = random.pick(&[0, 1, 255, 256, 2026, 65535, drawn]);
                let name = name(&mut random, length);
                let said = Said {
                    verdict,
                    chapter,
                    year,
                    name: &name,
                };
                let record = make(said).expect("a verdict");
                assert_eq!(read(&record), Some(said));
            }
        }
    }
}

#[test]
fn bytes_lie_where_they_are_said_to() {
    let said = Said {
        verdict: Verdict::Skipped,
        chapter: 31,
        year: 0x0102,
        name: b"case",
    };
    let mut expected = [0; 64];
    expected[..8].copy_from_slice(&[3, 31, 2, 1, b'c', b'a', b's', b'e']);
    assert_eq!(make(said), Some(expected));
    let mut read = BEFORE;
    assert_eq!(Second.verdict_read(&expected, &mut read), 3);
    assert_eq!(read, [31, 0x0102, 4]);
}

#[test]
fn every_first_byte_but_four_is_bad() {
    let mut random = Random::new(2);
    for byte in (0..=255).filter(|byte| !(1..=4).contains(byte)) {
        let mut record = record(&mut random, 9);
        record[0] = byte;
        is_bad(&record);
    }
}

#[test]
fn every_chapter_above_31_is_bad() {
    let mut random = Random::new(3);
    for chapter in 32..=255 {
        let mut record = record(&mut random, 9);
        record[1] = chapter;
        is_bad(&record);
    }
}

/// Any byte behind the first zero of a name, and any zero inside one.
#[test]
fn every_zero_inside_a_name_is_bad() {
    let mut random = Random::new(4);
    for length in 0..60 {
        for place in length + 1..60 {
            let mut record = record(&mut random, length);
            record[4 + place] = random.range(1, 255) as u8;
            is_bad(&record);
        }
    }
    for length in 1..=60 {
        for place in 0..length - 1 {
            let mut record = record(&mut random, length);
            record[4 + place] = 0;
            is_bad(&record);
        }
    }
}

/// A zero at the end of a name makes it shorter, which isn't bad; a byte right
/// behind one makes it longer.
#[test]
fn the_ends_of_a_name_are_no_damage() {
    let mut random = Random::new(5);
    for length in 1..60 {
        let mut shorter = record(&mut random, length);
        shorter[3 + length] = 0;
        assert_eq!(read(&shorter).map(|said| said.name.len()), Some(length - 1));
        let mut longer = record(&mut random, length);
        longer[4 + length] = 1;
        assert_eq!(read(&longer).map(|said| said.name.len()), Some(length + 1));
    }
}

#[test]
fn every_other_length_is_bad() {
    let mut random = Random::new(6);
    for length in (0..200).filter(|length| *length != 64) {
        let mut longer = record(&mut random, 9).to_vec();
        longer.resize(length, 0);
        is_bad(&longer);
    }
}

/// What can't be read back isn't made, and the record stays as it was.
#[test]
fn what_is_refused_changes_nothing() {
    let long = [b'n'; 61];
    let mut zero = [b'n'; 60];
    zero[59] = 0;
    let cases: [(usize, u8, u8, &[u8]); 11] = [
        (64, 0, 0, b"name"),
        (64, 5, 0, b"name"),
        (64, 255, 0, b"name"),
        (64, 1, 32, b"name"),
        (64, 1, 255, b"name"),
        (64, 1, 0, &long),
        (64, 1, 0, &zero),
        (64, 1, 0, b"\0"),
        (63, 1, 0, b"name"),
        (65, 1, 0, b"name"),
        (0, 1, 0, b""),
    ];
    for (length, verdict, chapter, name) in cases {
        let mut record = vec![0xa5; length];
        let answer = Second.verdict_make(&mut record, verdict, chapter, 2026, name);
        assert_eq!(answer, 0, "{verdict} {chapter} {name:?}");
        assert_eq!(record, vec![0xa5; length]);
    }
    let mut record = [0xa5; 64];
    assert_eq!(Second.verdict_make(&mut record, 4, 31, 2026, &long[1..]), 4);
    assert_eq!(&record[4..], &long[1..]);
    assert_eq!(Second.verdict_make(&mut record, 1, 0, 0, b""), 1);
    assert_eq!(&record[1..], &[0; 63]);
}
