//! The entries for texts, counted by what they answer and what was in the
//! texts.

use super::calls::{name, refusal};
use super::pair::{Mismatch, Pair};
use super::tap_tally::{KINDS, REFUSED_BY};
use crate::desk;
use crate::found::Named;
use crate::row::Asked;
use crate::store::Sheet;
use crate::tap::line::{self, Line, Test};
use crate::tap::text;

impl Pair<'_> {
    pub fn tap_room(&mut self, count: u16) -> Result<usize, Mismatch> {
        let room = self.call("tap_room", |store, _| store.tap_room(count))?;
        let name = match count {
            0 => "0 ids",
            1 => "1 id",
            4096 => "4,096 ids",
            65535 => "65,535 ids",
            _ => return Ok(room),
        };
        self.tally.reach("tap_room", name);
        Ok(room)
    }

    /// Reads the lent input as a text into the lent desk and tree, with the
    /// lent draws.
    pub fn tap_read(&mut self, sheet: Sheet, text: &[u8]) -> Result<i32, Mismatch> {
        self.lend_input(text);
        let (status, before) = (self.stopped(), self.root());
        let answer = self.call("tap_read", |store, lent| {
            let (desk, tree) = (lent.desk.get_mut(), lent.tree.get_mut());
            let line = lent.line.get_mut().try_into().expect("one line");
            store.tap_read(desk, tree, sheet, lent.draws.get(), lent.input.get(), line)
        })?;
        self.tally.reach("tap_read", name(answer, "done"));
        self.count_stopped("tap_read, status", status, answer);
        match answer {
            0 => self.count_text(sheet.asked, text),
            -13 | -12 => self.count_refused(sheet.asked, text),
            _ if self.root() != before => {
                self.tally
                    .reach("tap_read, after a request", refusal(answer));
            }
            _ => {}
        }
        Ok(answer)
    }

    /// Writes the text of a row to the lent out, with the lent draws.
    pub fn tap_write(&mut self, asked: Asked) -> Result<i32, Mismatch> {
        let (status, before) = (self.stopped(), self.root());
        let answer = self.call("tap_write", |store, lent| {
            let (desk, tree) = (lent.desk.get_mut(), lent.tree.get_mut());
            store.tap_write(desk, tree, asked, lent.draws.get(), lent.out.get_mut())
        })?;
        self.tally.reach("tap_write", name(answer, "text"));
        self.count_stopped("tap_write, status", status, answer);
        if answer < 0 && self.root() != before {
            self.tally
                .reach("tap_write, after a request", refusal(answer));
        }
        if answer > 0 {
            self.count_written(asked, answer);
        }
        Ok(answer)
    }

    fn root(&self) -> Option<Vec<u8>> {
        self.desk().get(desk::ROOT_DIGEST).map(<[u8]>::to_vec)
    }

    fn count_refused(&mut self, asked: Asked, text: &[u8]) {
        let refused = text::read(text, asked.chapter, asked.length());
        let why = refused.expect_err("a text that was refused").why;
        self.tally.reach(REFUSED_BY, why.name());
    }

    fn count_text(&mut self, asked: Asked, text: &[u8]) {
        let tests = text::read(text, asked.chapter, asked.length()).expect("a good text");
        for test in &tests {
            let kind = test.map_or(0, |test| test.verdict as usize);
            self.tally.reach("tap_read, said", KINDS[kind]);
        }
        let some = |wanted: fn(&Test) -> bool| tests.iter().flatten().any(wanted);
        let lines: Vec<&[u8]> = text.split(|byte| *byte == b'\n').collect();
        let read: Vec<Line> = lines.iter().filter_map(|it| line::read(it).ok()).collect();
        let numbers: Vec<u64> = read.iter().filter_map(number).collect();
        let plan = read.iter().position(|line| matches!(line, Line::Plan(_)));
        let (before, behind) = read.split_at(plan.expect("a plan"));
        let tests_in = |part: &[Line]| part.iter().any(|line| number(line).is_some());
        let length = asked.length();
        let with = [
            (tests_in(before) && !tests_in(behind), "the plan last"),
            (
                tests_in(before) && tests_in(behind),
                "the plan between tests",
            ),
            (numbers.is_empty(), "no test at all"),
            (read.contains(&Line::Comment), "a comment"),
            (text.last() != Some(&b'\n'), "no line feed at the end"),
            (some(|test| test.name.is_empty()), "a name of 0 bytes"),
            (some(|test| test.name.len() == 60), "a name of 60 bytes"),
            (some(|test| test.name.contains(&b'#')), "a hash in a name"),
            (
                lines.iter().any(|line| line.starts_with(b"ok 0")),
                "zeros before a number",
            ),
            (!numbers.is_sorted(), "numbers that don't rise"),
            (length == 1, "one id"),
            (length > 255, "more than 255 ids"),
            (length == 4096, "4,096 ids"),
            (asked.chapter > 31, "a chapter above 31"),
        ];
        for (reached, name) in with {
            if reached {
                self.tally.reach("tap_read, taken with", name);
            }
        }
    }

    fn count_written(&mut self, asked: Asked, length: i32) {
        let text = self.out()[..length as usize].to_vec();
        for line in text.split(|byte| *byte == b'\n') {
            if let Ok(Line::Test(_, test)) = line::read(line) {
                let kind = KINDS[test.verdict as usize];
                self.tally.reach("tap_write, line", kind);
            }
        }
        let with = [
            (asked.length() == 1, "one id"),
            (asked.length() == 4096, "4,096 ids"),
            (asked.chapter > 31, "a chapter above 31"),
        ];
        for (reached, name) in with {
            if reached {
                self.tally.reach("tap_write, taken with", name);
            }
        }
    }
}

fn number(line: &Line) -> Option<u64> {
    match line {
        Line::Test(number, _) => Some(*number),
        _ => None,
    }
}
