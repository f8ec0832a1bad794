//! The reader itself: lines, plans and numbers.

use super::Mistake::{self, *};
use second::corpus::Outcome;
use second::verdict::Verdict;

pub const MALFORMED: u8 = 12;
const BAD_PLAN: u8 = 13;

type Test = (Verdict, Vec<u8>);

/// Reads a text with one mistake, or with none.
pub fn read(text: &[u8], count: u16, mistake: Option<Mistake>) -> Outcome {
    let mut reader = Reader {
        mistake,
        bound: u64::from(count),
        plan: None,
        last: 0,
        tests: vec![None; usize::from(count)],
    };
    reader.all(text)
}

pub struct Reader {
    pub mistake: Option<Mistake>,
    bound: u64,
    plan: Option<u64>,
    last: u64,
    tests: Vec<Option<Test>>,
}

impl Reader {
    pub fn makes(&self, mistake: Mistake) -> bool {
        self.mistake == Some(mistake)
    }

    fn lines<'a>(&self, text: &'a [u8]) -> Vec<&'a [u8]> {
        let ends = |byte: &u8| *byte == b'\n' || (self.makes(ReturnsAlone) && *byte == b'\r');
        let mut lines: Vec<&[u8]> = text.split(ends).collect();
        let cut = lines.last().is_some_and(|line| !line.is_empty());
        if (!cut && !self.makes(EmptyLast)) || (cut && self.makes(LastNeedsFeed)) {
            lines.pop();
        }
        if self.makes(ReturnsEnd) {
            lines = lines
                .iter()
                .map(|line| line.strip_suffix(b"\r").unwrap_or(line))
                .collect();
        }
        lines
    }

    fn all(&mut self, text: &[u8]) -> Outcome {
        let lines = self.lines(text);
        let mut refused = None;
        let mut counted = 0;
        for (place, line) in lines.iter().enumerate() {
            let comment = line.starts_with(b"#");
            counted += u64::from(!(comment && self.makes(LinesNoComments)));
            if self.makes(BailEnds) && line.starts_with(b"Bail out!") {
                break;
            }
            let taken = match place {
                0 if !self.makes(VersionOptional) || self.is_version(line) => self.first(line),
                _ => self.take(line),
            };
            if let Err(number) = taken {
                let replaces =
                    self.makes(LaterDecides) || self.makes(MalformedFirst) && number == MALFORMED;
                let earlier = matches!(refused, Some((MALFORMED, _))) && self.makes(MalformedFirst);
                if refused.is_none() || (replaces && !earlier) {
                    refused = Some((number, counted));
                }
            }
        }
        let none = lines.is_empty() && !self.makes(VersionOptional);
        if refused.is_none() && (none || (self.plan.is_none() && !self.makes(PlanOptional))) {
            let number = if self.makes(PlanMissingBad) {
                BAD_PLAN
            } else {
                MALFORMED
            };
            let line = match self.mistake {
                Some(PlanMissingAtEnd) => counted,
                Some(PlanMissingAtFirst) => 1,
                _ => counted + 1,
            };
            refused = Some((number, line));
        }
        if refused.is_none() && self.makes(NumbersAll) && self.tests.contains(&None) {
            refused = Some((BAD_PLAN, counted + 1));
        }
        match refused {
            Some((number, line)) => {
                Outcome::Refused(number, line - u64::from(self.makes(LinesFromZero)))
            }
            None => Outcome::Read(self.told()),
        }
    }

    fn told(&self) -> Vec<Option<Test>> {
        let instead = match self.mistake {
            Some(MissingAsFail) => Some((Verdict::Fail, Vec::new())),
            Some(MissingAsSkipped) => Some((Verdict::Skipped, Vec::new())),
            _ => None,
        };
        self.tests
            .iter()
            .map(|test| test.clone().or(instead.clone()))
            .collect()
    }

    fn is_version(&self, line: &[u8]) -> bool {
        let line = match self.mistake {
            Some(VersionSpaces) => line.trim_ascii(),
            Some(VersionMark) => line.strip_prefix(b"\xef\xbb\xbf").unwrap_or(line),
            _ => line,
        };
        match self.mistake {
            Some(VersionAny) => line.starts_with(b"TAP version "),
            Some(VersionCase) => line.eq_ignore_ascii_case(b"TAP version 13"),
            _ => line == b"TAP version 13",
        }
    }

    fn first(&mut self, line: &[u8]) -> Result<(), u8> {
        if self.is_version(line) {
            return Ok(());
        }
        match self.makes(VersionAnywhere) {
            true => self.take(line),
            false => Err(MALFORMED),
        }
    }

    fn take(&mut self, line: &[u8]) -> Result<(), u8> {
        if self.makes(ZeroAnywhere) && line.contains(&0) {
            return Err(MALFORMED);
        }
        if line.starts_with(b"#") {
            return if self.makes(CommentRefused) {
                Err(MALFORMED)
            } else {
                Ok(())
            };
        }
        let again = self.makes(VersionAgain) || self.makes(VersionAnywhere);
        if again && self.is_version(line) {
            return Ok(());
        }
        if let Some(at) = line.windows(2).position(|two| two == b"..") {
            let one = &line[..at] == b"1";
            let digits = at > 0 && line[..at].iter().all(u8::is_ascii_digit);
            if one || (digits && self.makes(PlanAnyFirst)) {
                return self.plan(&line[at + 2..]);
            }
        }
        let unindented = line.trim_ascii_start();
        let line = if self.makes(TestIndented) {
            unindented
        } else {
            line
        };
        let folded = line.to_ascii_lowercase();
        let front = if self.makes(OkAnyCase) { &folded } else { line };
        for (words, plainly) in [("ok", Verdict::Pass), ("not ok", Verdict::Fail)] {
            if let Some(rest) = front.strip_prefix(words.as_bytes()) {
                return self.test(plainly, &line[line.len() - rest.len()..]);
            }
        }
        let passed = match self.mistake {
            Some(UnknownPassed) => true,
            Some(BlankPassed) => line.is_empty(),
            Some(SpacesPassed) => unindented.is_empty() && !line.is_empty(),
            Some(IndentedPassed) => line.starts_with(b"  "),
            Some(YamlPassed) => line.starts_with(b"  ") && !line.starts_with(b"    "),
            Some(PragmaPassed) => line.starts_with(b"pragma "),
            Some(CommentIndented) => unindented.starts_with(b"#"),
            _ => false,
        };
        if passed {
            Ok(())
        } else {
            Err(MALFORMED)
        }
    }

    fn plan(&mut self, rest: &[u8]) -> Result<(), u8> {
        let (count, behind) = self.number(rest)?;
        let fine = match self.mistake {
            Some(PlanTail) => true,
            Some(PlanTabs) => behind.iter().all(|byte| b" \t".contains(byte)),
            Some(PlanNoSpaces) => behind.is_empty(),
            Some(ReturnsTrimmed) => behind.iter().all(|byte| b" \r".contains(byte)),
            _ => behind.iter().all(|byte| *byte == b' '),
        };
        let late = self.makes(PlanBeforeTests) && self.tests.iter().any(Option::is_some);
        let own = self.bound;
        let differs = match self.mistake {
            Some(PlanNotCompared) => false,
            Some(PlanMayBeLess) => count > own,
            Some(PlanMayBeMore) => count < own,
            Some(PlanZeroTaken) => count != own && count != 0,
            _ => count != own,
        };
        if self.makes(PlanFirst) && differs && self.plan.is_none() {
            return Err(BAD_PLAN);
        }
        if !fine || late {
            return Err(MALFORMED);
        }
        if self.plan.is_some() {
            return match self.mistake {
                Some(SecondPlanTaken) if !differs => Ok(()),
                Some(SecondPlanBad) if differs => Err(BAD_PLAN),
                _ => Err(MALFORMED),
            };
        }
        self.plan = Some(count);
        if self.makes(PlanBounds) && self.tests.len() as u64 != count {
            return Err(BAD_PLAN);
        }
        if differs {
            Err(BAD_PLAN)
        } else {
            Ok(())
        }
    }

    fn number<'a>(&self, bytes: &'a [u8]) -> Result<(u64, &'a [u8]), u8> {
        let length = bytes
            .iter()
            .take_while(|byte| byte.is_ascii_digit())
            .count();
        let (digits, behind) = bytes.split_at(length);
        let zeros = digits.len() > 1 && digits[0] == b'0';
        if digits.is_empty() || (zeros && self.makes(NumberZeros)) {
            return Err(MALFORMED);
        }
        let text = std::str::from_utf8(digits).expect("digits");
        let wide = digits.iter().fold(0_u128, |number, digit| {
            number
                .wrapping_mul(10)
                .wrapping_add(u128::from(digit - b'0'))
        });
        match self.mistake {
            Some(NumberWraps16) => return Ok((u64::from(wide as u16), behind)),
            Some(NumberWraps32) => return Ok((u64::from(wide as u32), behind)),
            Some(NumberWraps64) => return Ok((wide as u64, behind)),
            Some(NumberHuge) if text.parse::<u64>().is_err() => return Err(MALFORMED),
            _ => {}
        }
        Ok((text.parse().unwrap_or(u64::MAX), behind))
    }

    fn test(&mut self, plainly: Verdict, rest: &[u8]) -> Result<(), u8> {
        let optional = self.makes(NumberOptional);
        let rest = match rest.strip_prefix(b" ") {
            Some(rest) => rest,
            None if self.makes(NumberTabs) => rest.strip_prefix(b"\t").ok_or(MALFORMED)?,
            None if self.makes(OkPrefix) => {
                let at = rest
                    .iter()
                    .position(|byte| *byte == b' ')
                    .ok_or(MALFORMED)?;
                &rest[at + 1..]
            }
            None if optional && rest.is_empty() => rest,
            None => return Err(MALFORMED),
        };
        let rest = match self.mistake {
            Some(NumberSpaces) => rest.trim_ascii_start(),
            Some(NumberSigned) => rest.strip_prefix(b"+").unwrap_or(rest),
            _ => rest,
        };
        let (number, behind) = match self.number(rest) {
            Err(_) if optional => (self.last + 1, rest),
            read => read?,
        };
        let numbered = self.numbered(number);
        if self.makes(PlanFirst) {
            numbered?;
        }
        let description = match behind {
            [b' ', description @ ..] => description,
            [] => behind,
            [b'\r'] if self.makes(ReturnsTrimmed) => b"",
            _ if self.makes(NumberGlued) || optional => behind,
            _ => return Err(MALFORMED),
        };
        let (words, directive) = self.until_directive(description);
        let name = self.name(words, description)?;
        let verdict = self.verdict(plainly, directive);
        numbered?;
        self.last = number;
        let place = number.wrapping_sub(1) as usize;
        let Some(slot) = self.tests.get_mut(place) else {
            return Ok(());
        };
        if slot.is_none() || self.mistake == Some(RepeatedReplaces) {
            *slot = Some((verdict, name));
        }
        Ok(())
    }

    /// Whether the number may stand there.
    fn numbered(&self, number: u64) -> Result<(), u8> {
        let bound = match self.plan {
            Some(plan) if self.makes(PlanBounds) => plan,
            None if self.makes(PlanBounds) => u64::MAX,
            _ => self.bound,
        };
        if number == 0 {
            return match self.mistake {
                Some(NumberZeroMalformed) => Err(MALFORMED),
                Some(NumberZeroTaken) => Ok(()),
                _ => Err(BAD_PLAN),
            };
        }
        if number > bound {
            return match self.mistake {
                Some(NumberAboveDropped) => Ok(()),
                Some(NumberAboveMalformed) => Err(MALFORMED),
                _ => Err(BAD_PLAN),
            };
        }
        let taken = self
            .tests
            .get(number as usize - 1)
            .is_some_and(Option::is_some);
        match self.mistake {
            Some(RepeatedDropped | RepeatedReplaces) => Ok(()),
            Some(RepeatedMalformed) if taken => Err(MALFORMED),
            Some(NumbersRise) if number <= self.last => Err(BAD_PLAN),
            _ if taken => Err(BAD_PLAN),
            _ => Ok(()),
        }
    }
}
