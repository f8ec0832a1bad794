//! Lines of texts, put together from pieces.

use crate::random::Random;

/// Pieces of descriptions: what may begin, end or hide a directive, a dash or
/// a name.
const PIECES: &[&[u8]] = &[
    b"-",
    b"- ",
    b" -",
    b"--",
    b" ",
    b"  ",
    b"\t",
    b"\r",
    b"a",
    b"name",
    b"reads a header",
    b"1",
    b"42",
    b"ok 1",
    b"1..3",
    b"#",
    b"# ",
    b" # ",
    b"##",
    b"\\",
    b"\\#",
    b"SKIP",
    b"TODO",
    b"skip",
    b"Todo",
    b"SKIPPED",
    b"TODO_",
    b"SKI",
    b"_",
    b"#SKIP",
    b"# SKIP",
    b" # SKIP no net",
    b" # TODO not yet",
    b" # todo",
    b" # sKiP: x",
    b" #   SKIP",
    b" #\tSKIP",
    b" # SKIPPED",
    b" # TODOS",
    b"# SKIP1",
    b"# TODO\xe9",
    b"# SKIP/",
    b"# TODO:",
    b"# SKIP@",
    b"# TODO[",
    b"# SKIP`",
    b"# TODO{",
    b"# SKIP9",
    b"# TODOz",
    b"\xff",
    b"\xc3\xa4",
    b"abcdefghijabcdefghijabcdefghij",
];

/// Whole lines that belong in no text, or seldom.
const STRANGE: &[&[u8]] = &[
    b"",
    b" ",
    b"\t",
    b"\r",
    b"TAP version 13",
    b"TAP version 12",
    b"1..0",
    b"1..0 # SKIP all",
    b"1..",
    b"1..x",
    b"1.. 3",
    b" 1..3",
    b"01..3",
    b"2..3",
    b"1..3 # SKIP",
    b"1..3\t",
    b"1..99999999999999999999",
    b"1..65537",
    b"  ---",
    b"  message: no",
    b"  ...",
    b"Bail out!",
    b"Bail out! disk is full",
    b"pragma +strict",
    b"    ok 1 - inner",
    b"    1..1",
    b"ok",
    b"not ok",
    b"ok ",
    b"ok -",
    b"ok - a",
    b"ok  1",
    b"ok\t1",
    b"ok 1-",
    b"ok 1.",
    b"ok 1\t",
    b"ok 1\0",
    b"ok -1",
    b"ok +1",
    b"ok # SKIP",
    b"okay 1",
    b"OK 1",
    b"not  ok 1",
    b"notok 1",
    b"not 1",
    b"ok 0",
    b"ok 000 - zero",
    b"ok 65537 - wrapped",
    b"ok 4294967297",
    b"ok 18446744073709551617",
    b"ok 99999999999999999999999999",
    b"not ok 99999999999999999999x",
    b" # SKIP",
    b"\0",
    b"#\0",
];

/// A line that belongs in no text, or seldom.
pub fn strange(random: &mut Random, count: u16) -> Vec<u8> {
    let number = random.range(0, u64::from(count) + 2);
    match random.below(5) {
        0 => format!("1..{number}").into_bytes(),
        1 => test(random, number),
        2 => bad_name(random, number),
        _ => random.pick(STRANGE).to_vec(),
    }
}

/// A test line with a number.
pub fn test(random: &mut Random, number: u64) -> Vec<u8> {
    let mut line = random.pick(&["ok ", "ok ", "not ok "]).as_bytes().to_vec();
    let width = random.pick(&[0, 0, 0, 0, 0, 2, 3, 30]);
    line.extend(format!("{number:0width$}").bytes());
    match random.below(8) {
        0 => {}
        1 => line.extend(b" "),
        2 => line.extend(full(random)),
        _ => line.extend(described(random)),
    }
    line
}

pub fn comment(random: &mut Random) -> Vec<u8> {
    let mut line = b"#".to_vec();
    line.extend(described(random));
    line
}

/// A space and a description of some pieces, mostly behind a dash.
fn described(random: &mut Random) -> Vec<u8> {
    let front = random.pick(&[" - ", " - ", " - ", " ", "  -", "   "]);
    let mut description = front.as_bytes().to_vec();
    for _ in 0..random.below(6) {
        description.extend(random.pick(PIECES));
    }
    description
}

/// A description that is just short enough, by its bytes.
fn full(random: &mut Random) -> Vec<u8> {
    let mut description = b" - ".to_vec();
    let length = random.pick(&[59, 60, 60]);
    description.extend((0..length).map(|_| random.range(b'a'.into(), b'z'.into()) as u8));
    description.extend(
        random
            .pick(&["", "", "  ", " # SKIP", " # TODO later"])
            .bytes(),
    );
    description
}

/// A test line whose description is too long or has a zero in it.
fn bad_name(random: &mut Random, number: u64) -> Vec<u8> {
    let mut line = format!("ok {number} - ").into_bytes();
    let start = line.len();
    let drawn = random.range(61, 400) as usize;
    let length = random.pick(&[3, 10, 61, 61, 62, 256, drawn]);
    line.resize(start + length, b'n');
    if length < 61 {
        line[start + random.index(length)] = 0;
    }
    line.extend(random.pick(&["", "", " # SKIP"]).bytes());
    line
}
