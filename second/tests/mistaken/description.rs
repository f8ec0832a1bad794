//! What the reader makes of a description.

use super::reader::{Reader, MALFORMED};
use super::Mistake::*;
use second::verdict::Verdict;

impl Reader {
    pub fn until_directive<'a>(&self, description: &'a [u8]) -> (&'a [u8], Option<Verdict>) {
        let hashes = |at: &usize| description[*at] == b'#';
        let mut places: Vec<usize> = (0..description.len()).filter(hashes).collect();
        match self.mistake {
            Some(FirstHashAlone) => places.truncate(1),
            Some(LastDirective) => places.reverse(),
            Some(HashEscaped) => places.retain(|at| *at == 0 || description[at - 1] != b'\\'),
            Some(SpaceBefore) => places.retain(|at| *at == 0 || description[at - 1] == b' '),
            Some(WordWithoutHash) if places.is_empty() => places = (0..description.len()).collect(),
            _ => {}
        }
        let found = |at: &usize| Some((*at, self.directive(&description[*at..])?));
        let mut all: Vec<(usize, Verdict)> = places.iter().filter_map(found).collect();
        if self.makes(SkipBeforeTodo) {
            all.sort_by_key(|(_, verdict)| *verdict as u8);
        }
        match (all.first(), places.first()) {
            (Some((at, verdict)), _) => (&description[..*at], Some(*verdict)),
            (None, Some(at)) if self.makes(HashEnds) => (&description[..*at], None),
            _ => (description, None),
        }
    }

    fn directive(&self, bytes: &[u8]) -> Option<Verdict> {
        let rest = bytes.strip_prefix(b"#").unwrap_or(bytes);
        let spaces = |rest: &[u8], of: &[u8]| rest.iter().take_while(|it| of.contains(it)).count();
        let skipped = match self.mistake {
            Some(TabBetween) => spaces(rest, b" \t"),
            Some(OneSpaceBetween) => spaces(rest, b" ").min(1),
            Some(NoGlue) if !rest.starts_with(b" ") => return None,
            Some(WordAnywhere) => rest.windows(4).position(|word| self.word(word).is_some())?,
            _ => spaces(rest, b" "),
        };
        let rest = &rest[skipped..];
        let verdict = self.word(rest.get(..4)?)?;
        let on = rest.get(4).is_some_and(|byte| match self.mistake {
            Some(SkippedAsSkip) => false,
            Some(SkippedUnderscore) => byte.is_ascii_alphanumeric(),
            Some(SkippedDigit) => byte.is_ascii_alphabetic() || *byte == b'_',
            Some(SlashGoesOn) => (b'/'..=b'{').contains(byte) || *byte == b'_',
            Some(EdgesEnd) => byte.is_ascii_alphanumeric() && !b"09AZaz".contains(byte),
            Some(HighBytesGoOn) => byte.is_ascii_alphanumeric() || *byte == b'_' || *byte > 127,
            Some(ColonGoesOn) => *byte != b' ',
            _ => byte.is_ascii_alphanumeric() || *byte == b'_',
        });
        (!on).then_some(verdict)
    }

    fn word(&self, word: &[u8]) -> Option<Verdict> {
        let capitals = match self.makes(CaseMatters) {
            true => word.to_vec(),
            false => word.to_ascii_uppercase(),
        };
        match &capitals[..] {
            b"SKIP" => Some(Verdict::Skipped),
            b"TODO" => Some(Verdict::Error),
            _ => None,
        }
    }

    pub fn verdict(&self, plainly: Verdict, directive: Option<Verdict>) -> Verdict {
        match (directive, self.mistake) {
            (Some(Verdict::Skipped), Some(SkipAsPass)) => Verdict::Pass,
            (Some(Verdict::Skipped), Some(SkipAsError)) => Verdict::Error,
            (Some(Verdict::Skipped), Some(NotOkSkipAsFail)) if plainly == Verdict::Fail => plainly,
            (Some(Verdict::Error), Some(TodoAsSkipped)) => Verdict::Skipped,
            (Some(Verdict::Error), Some(TodoAsPlain)) => plainly,
            (Some(Verdict::Error), Some(OkTodoAsPass)) if plainly == Verdict::Pass => plainly,
            (Some(verdict), _) => verdict,
            (None, _) => plainly,
        }
    }

    pub fn name(&self, words: &[u8], description: &[u8]) -> Result<Vec<u8>, u8> {
        let blank = |byte: &u8| match self.mistake {
            Some(TabsTrimmed) => b" \t".contains(byte),
            Some(ReturnsTrimmed) => b" \r".contains(byte),
            _ => *byte == b' ',
        };
        let front = |bytes: &[u8]| bytes.iter().take_while(|byte| blank(byte)).count();
        let behind = words.iter().rev().take_while(|byte| blank(byte)).count();
        let mut name = match self.makes(TrailingKept) {
            true => words,
            false => &words[..words.len() - behind],
        };
        let untrimmed = words.len();
        if !self.makes(LeadingKept) {
            name = &name[front(name)..];
        }
        let dashed = name.len();
        if let Some(rest) = name.strip_prefix(b"-") {
            let spaced = rest.is_empty() || rest.starts_with(b" ");
            if !self.makes(DashKept) && (spaced || !self.makes(DashNeedsSpace)) {
                name = if self.makes(DashSpacesKept) {
                    rest
                } else {
                    &rest[front(rest)..]
                };
            }
        }
        while self.makes(DashesAll) && name.starts_with(b"-") {
            name = &name[1..][front(&name[1..])..];
        }
        let length = match self.mistake {
            Some(NameUntrimmed) => untrimmed,
            Some(NameWithDash) => dashed,
            Some(NameExplained) => name.len() + description.len() - words.len(),
            _ => name.len(),
        };
        let most = match self.mistake {
            Some(NameOf59) => 59,
            Some(NameOf61) => 61,
            Some(NameCut) => usize::MAX,
            _ => 60,
        };
        let zero = name.iter().position(|byte| *byte == 0);
        let fine = zero.is_none() || self.makes(ZeroTaken) || self.makes(ZeroEnds);
        if length > most || !fine || (self.makes(NameOfCharacters) && !name.is_ascii()) {
            return Err(MALFORMED);
        }
        let mut name = name.to_vec();
        match self.mistake {
            Some(NameCut) => name.truncate(60),
            Some(ZeroEnds) => name.truncate(zero.unwrap_or(name.len())),
            Some(InnerSpaces) => name.dedup_by(|one, two| *one == b' ' && *two == b' '),
            Some(BackslashDropped) => name.retain(|byte| *byte != b'\\'),
            _ => {}
        }
        Ok(name)
    }
}
