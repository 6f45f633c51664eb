//! The sorts of cases that seeded texts are to yield.

use super::Lent;
use crate::reference::{check, read_lifts, take_counts, Intake, SheetLift, Verdict};
use crate::sheets::number_of;
use std::str;

/// A text on a sheet, with the reply.
pub struct Case {
    lent: Lent,
    /// The lifts of the sheet lent, if it can be read.
    lifts: Vec<SheetLift>,
    /// What the sheet lent is found to be.
    verdict: Verdict,
    reply: Intake,
    /// The lift numbers and counts of the lines before the refused one, or of all lines.
    entries: Vec<(u128, u128)>,
}

/// A sort's name, and whether a line is of it.
type LineSort = (&'static str, fn(&[u8]) -> bool);

/// A sort's name, and whether a case is of it.
type CaseSort = (&'static str, fn(&Case) -> bool);

/// The sorts of texts that are taken.
const TAKEN_SORTS: [CaseSort; 22] = [
    ("ended by LF", |case| case.lines().any(ends_by_lf)),
    ("ended by CR LF", |case| case.lines().any(ends_by_cr_lf)),
    ("ended by both", |case| {
        case.lines().any(ends_by_lf) && case.lines().any(ends_by_cr_lf)
    }),
    ("last line not ended", |case| {
        case.lines().any(|line| !line.ends_with(b"\n"))
    }),
    ("no line", |case| case.entries.is_empty()),
    ("30 zeros before a lift", |case| {
        case.lines().any(|line| line.starts_with(&[b'0'; 30]))
    }),
    ("30 zeros before a count", |case| {
        case.lines()
            .any(|line| fields(line).1.starts_with(&[b'0'; 30]))
    }),
    ("lift 268,435,455", |case| case.names(268_435_455)),
    ("count 104,857,600", |case| case.counts(104_857_600)),
    ("count 0", |case| case.counts(0)),
    ("withdrawn lift with count 0", |case| {
        let withdrawn = case.withdrawn();
        withdrawn.iter().any(|&number| case.names(number))
    }),
    ("all lifts, rising", |case| {
        case.names_all() && case.entries.is_sorted()
    }),
    ("all lifts, falling", |case| {
        case.names_all() && case.entries.iter().rev().is_sorted()
    }),
    ("all lifts, in neither order", |case| {
        let entries = &case.entries;
        case.names_all() && !entries.is_sorted() && !entries.iter().rev().is_sorted()
    }),
    ("sum 0 cured", |case| number_of(case.verdict) == 9),
    ("sum above the largest cured", |case| {
        number_of(case.verdict) == 8
    }),
    ("some lifts", |case| {
        !case.entries.is_empty() && case.lifts.len() > case.entries.len()
    }),
    ("lift not counted with a line", |case| {
        case.silent().any(|lift| case.names(lift.number.into()))
    }),
    ("lift not counted with count 0", |case| {
        let mut silent = case.silent();
        silent.any(|lift| case.entries.contains(&(lift.number.into(), 0)))
    }),
    ("lines, but not for a lift not counted", |case| {
        let mut silent = case.silent();
        let stays = silent.any(|lift| !case.names(lift.number.into()));
        stays && !case.entries.is_empty()
    }),
    ("sum 0 with a lift not counted cured", |case| {
        number_of(case.verdict) == 9 && case.silent().any(|lift| case.is_blamed(lift))
    }),
    (
        "sum above the largest with a lift not counted cured",
        |case| number_of(case.verdict) == 8 && case.silent().any(|lift| case.is_blamed(lift)),
    ),
];

/// The sorts of lines refused by 14: each has no other fault.
const LINE_SORTS: [LineSort; 20] = [
    ("empty line", |line| matches!(line, b"\n" | b"\r\n")),
    ("blank", |line| intrudes(line, |byte| byte == b' ')),
    ("sign", |line| intrudes(line, |byte| b"+-".contains(&byte))),
    ("quote", |line| intrudes(line, |byte| byte == b'"')),
    ("letter", |line| {
        intrudes(line, |byte| byte.is_ascii_alphabetic())
    }),
    ("NUL", |line| intrudes(line, |byte| byte == 0)),
    ("byte above 127", |line| intrudes(line, |byte| byte > 127)),
    ("beside the digits", |line| {
        intrudes(line, |byte| b"/:".contains(&byte))
    }),
    ("second comma", has_second_comma),
    ("no comma", |line| {
        unended(line).iter().all(u8::is_ascii_digit) && !unended(line).is_empty()
    }),
    ("nothing before the comma", |line| {
        line.starts_with(b",") && has_form(&[b"1", line].concat())
    }),
    ("nothing behind the comma", |line| {
        unended(line).ends_with(b",") && has_form(&[unended(line), b"1"].concat())
    }),
    ("CR within a line", |line| {
        !unended(line).ends_with(b"\r") && intrudes(line, |byte| byte == b'\r')
    }),
    ("CR between lines", |line| {
        unended(line).split(|&byte| byte == b'\r').all(has_form)
    }),
    ("CR at the end of the text", |line| {
        line.strip_suffix(b"\r").is_some_and(has_form)
    }),
    ("CR CR LF", |line| {
        line.strip_suffix(b"\r\r\n").is_some_and(has_form)
    }),
    ("lift 268,435,456", |line| lift_digits(line) == b"268435456"),
    ("count 104,857,601", |line| {
        count_digits(line) == b"104857601"
    }),
    ("lift beyond 64 bits", |line| {
        is_beyond_64_bits(lift_digits(line))
    }),
    ("count beyond 64 bits", |line| {
        is_beyond_64_bits(count_digits(line))
    }),
];

/// The sorts of texts that are refused.
const REFUSED_SORTS: [CaseSort; 21] = [
    ("absent lift", |case| {
        case.refuses_lift(|case, number| !case.names(number))
    }),
    ("lift that had a line", |case| {
        case.refuses_lift(Case::names)
    }),
    ("lift 0", |case| case.refuses_lift(|_, number| number == 0)),
    ("lift 268,435,455 absent", |case| {
        case.refuses_lift(|case, number| number == 268_435_455 && !case.names(number))
    }),
    ("14 before 15", |case| {
        case.is_refused_by(14) && case.number_for(case.behind()) == 15
    }),
    ("15 before 14", |case| {
        case.is_refused_by(15) && case.number_for(case.behind()) == 14
    }),
    ("14 and 15 on a line", |case| {
        let lift = fields(case.refused_line()).0;
        case.is_refused_by(14) && case.number_for(&[case.before(), lift, b",0"].concat()) == 15
    }),
    ("line refused where the rounds would be", |case| {
        (case.is_refused_by(14) || case.is_refused_by(15)) && number_of(case.verdict) >= 7
    }),
    ("withdrawn lift with a count", |case| case.is_caused(4)),
    ("withdrawn lifts with counts, the higher first", |case| {
        case.is_caused(4) && !case.counted_withdrawn().is_sorted()
    }),
    ("old rounds stay refused by 7", |case| {
        case.is_refused_by(7) && !case.entries.is_empty()
    }),
    ("sum above the largest caused", |case| case.is_caused(8)),
    ("sum 0 caused", |case| case.is_caused(9)),
    ("new rounds stay refused by 10", |case| {
        case.is_refused_by(10) && !case.entries.is_empty()
    }),
    ("sum 0 stays", |case| {
        case.is_refused_by(9) && number_of(case.verdict) == 9
    }),
    ("result refused by another number", |case| {
        let (lent, result) = (number_of(case.verdict), case.number());
        lent >= 7 && lent != result && [4, 7, 8, 9, 10].contains(&result)
    }),
    ("no line, refused by the rounds", |case| {
        case.lent.text.is_empty() && (7..=10).contains(&case.number())
    }),
    ("newcomer not counted, with a line", |case| {
        case.is_refused_by(16) && case.has_line_for_newcomer()
    }),
    ("newcomer not counted, without a line", |case| {
        case.is_refused_by(16) && !case.has_line_for_newcomer()
    }),
    (
        "sum above the largest caused beside a lift not counted",
        |case| case.is_caused(8) && case.stays_silent_where_refused(),
    ),
    ("sum 0 caused beside a lift not counted", |case| {
        case.is_caused(9) && case.stays_silent_where_refused()
    }),
];

/// The names of all sorts.
pub fn names_of_sorts() -> Vec<&'static str> {
    let cases = TAKEN_SORTS.iter().chain(&REFUSED_SORTS);
    let cases = cases.map(|(name, _)| *name);
    let lines = LINE_SORTS.iter().map(|(name, _)| *name);
    cases.chain(lines).collect()
}

impl Case {
    /// What was lent, and what was replied.
    pub fn new(lent: Lent, reply: Intake) -> Case {
        let mut case = Case {
            lifts: read_lifts(&lent.sheet).unwrap_or_default(),
            verdict: check(&lent.sheet),
            lent,
            reply,
            entries: Vec::new(),
        };
        if !case.is_refused_unread() {
            let lines = lines_of(case.before());
            case.entries = lines.map(entry_of).collect();
        }
        case
    }

    /// The document's number, 0 for counts taken.
    fn number(&self) -> u32 {
        number_of_reply(self.reply)
    }

    /// The place of a refusal, 0 for counts taken.
    fn place(&self) -> usize {
        match self.reply {
            Intake::Refused { place, .. } => place,
            Intake::Taken { .. } => 0,
        }
    }

    /// Whether the sheet lent is refused by 1 to 6, or 16.
    pub fn is_refused_unread(&self) -> bool {
        matches!(number_of(self.verdict), 1..=6 | 16)
    }

    /// Whether a line would be refused if the sheet had no damage.
    pub fn has_faulty_text(&self) -> bool {
        let reply = take_counts(&mut self.lent.intact.clone(), &self.lent.text);
        [14, 15].contains(&number_of_reply(reply))
    }

    /// The names of the sorts that it is of.
    pub fn sorts(&self) -> Vec<&'static str> {
        let cases = match self.reply {
            Intake::Taken { .. } => &TAKEN_SORTS[..],
            Intake::Refused { .. } => &REFUSED_SORTS,
        };
        let cases = cases.iter().filter(|(_, has)| has(self));
        let cases = cases.map(|(name, _)| *name);
        let line = self.refused_line();
        let lines = LINE_SORTS
            .iter()
            .filter(|(_, has)| self.is_refused_by(14) && has(line));
        cases.chain(lines.map(|(name, _)| *name)).collect()
    }

    /// The lines with their endings.
    fn lines(&self) -> impl Iterator<Item = &[u8]> {
        lines_of(&self.lent.text)
    }

    /// How many lines are before the refused one; if there is none, more than there can be.
    fn lines_before(&self) -> usize {
        match self.reply {
            Intake::Refused {
                number: 14 | 15,
                place,
            } => place - 1,
            _ => usize::MAX,
        }
    }

    /// The text before the refused line, or all of it.
    fn before(&self) -> &[u8] {
        let lines = self.lines().take(self.lines_before());
        &self.lent.text[..lines.map(<[u8]>::len).sum()]
    }

    /// The refused line, if there is one.
    fn refused_line(&self) -> &[u8] {
        self.lines().nth(self.lines_before()).unwrap_or_default()
    }

    /// The text behind the refused line.
    fn behind(&self) -> &[u8] {
        &self.lent.text[self.before().len() + self.refused_line().len()..]
    }

    /// The number of the reply to another text.
    fn number_for(&self, text: &[u8]) -> u32 {
        number_of_reply(take_counts(&mut self.lent.sheet.clone(), text))
    }

    /// Whether it is refused by this number.
    fn is_refused_by(&self, number: u32) -> bool {
        self.number() == number
    }

    /// Whether it is refused by this number on a sheet that fitted.
    fn is_caused(&self, number: u32) -> bool {
        self.is_refused_by(number) && number_of(self.verdict) == 0
    }

    /// Whether it is refused by 15 for such a lift number.
    fn refuses_lift(&self, such: fn(&Case, u128) -> bool) -> bool {
        self.is_refused_by(15) && such(self, entry_of(self.refused_line()).0)
    }

    /// Whether a line that was read has this lift number.
    fn names(&self, number: u128) -> bool {
        self.entries.iter().any(|entry| entry.0 == number)
    }

    /// Whether a line that was read has this count.
    fn counts(&self, count: u128) -> bool {
        self.entries.iter().any(|entry| entry.1 == count)
    }

    /// Whether all lifts, of which there are three or more, have lines.
    fn names_all(&self) -> bool {
        self.lifts.len() >= 3 && self.lifts.len() == self.entries.len()
    }

    /// The numbers of the withdrawn lifts.
    fn withdrawn(&self) -> Vec<u128> {
        let lifts = self.lifts.iter().filter(|lift| lift.new_round == 0);
        lifts.map(|lift| lift.number.into()).collect()
    }

    /// The lifts that were not counted in the sheet lent.
    fn silent(&self) -> impl Iterator<Item = &SheetLift> {
        self.lifts.iter().filter(|lift| lift.is_silent())
    }

    /// Whether a lift is in the new round that the sheet lent is refused for.
    fn is_blamed(&self, lift: &SheetLift) -> bool {
        let round = lift.new_round as usize;
        matches!(self.verdict, Verdict::Refused { place, .. } if place == round)
    }

    /// Whether a lift of the new round that the result is refused for was not counted and has no line.
    fn stays_silent_where_refused(&self) -> bool {
        let mut silent = self.silent();
        silent
            .any(|lift| lift.new_round as usize == self.place() && !self.names(lift.number.into()))
    }

    /// Whether a line has the number of the newcomer that was not counted.
    fn has_line_for_newcomer(&self) -> bool {
        let number = self.lent.sheet[self.place() - 2] << 4 >> 4;
        let mut lines = self.lines().filter(|line| has_form(line));
        lines.any(|line| entry_of(line).0 == number.into())
    }

    /// The numbers of the withdrawn lifts that lines give a count above 0, line by line.
    fn counted_withdrawn(&self) -> Vec<u128> {
        let withdrawn = self.withdrawn();
        let entries = self.entries.iter().filter(|entry| entry.1 > 0);
        let numbers = entries.map(|entry| entry.0);
        numbers
            .filter(|number| withdrawn.contains(number))
            .collect()
    }
}

/// The document's number, 0 for counts taken.
fn number_of_reply(reply: Intake) -> u32 {
    match reply {
        Intake::Refused { number, .. } => number,
        Intake::Taken { .. } => 0,
    }
}

/// The lines of a text with their endings.
fn lines_of(text: &[u8]) -> impl Iterator<Item = &[u8]> {
    text.split_inclusive(|&byte| byte == b'\n')
}

/// Whether a line ends by LF alone.
fn ends_by_lf(line: &[u8]) -> bool {
    line.ends_with(b"\n") && !ends_by_cr_lf(line)
}

/// Whether a line ends by CR LF.
fn ends_by_cr_lf(line: &[u8]) -> bool {
    line.ends_with(b"\r\n")
}

/// A line without its ending.
fn unended(line: &[u8]) -> &[u8] {
    match ends_by_cr_lf(line) {
        true => &line[..line.len() - 2],
        false => line.strip_suffix(b"\n").unwrap_or(line),
    }
}

/// What is before the first comma of a line, and what is behind it without the ending.
fn fields(line: &[u8]) -> (&[u8], &[u8]) {
    let line = unended(line);
    let comma = line.iter().position(|&byte| byte == b',');
    comma.map_or((line, b""), |comma| (&line[..comma], &line[comma + 1..]))
}

/// The lift number and the count of a line that has the form.
fn entry_of(line: &[u8]) -> (u128, u128) {
    let value = |digits| str::from_utf8(digits).ok()?.parse().ok();
    let value = |digits| value(digits).expect("the line has the form");
    let (number, count) = fields(line);
    (value(number), value(count))
}

/// Whether a line has the form: on a sheet without lifts it is refused by 15.
fn has_form(line: &[u8]) -> bool {
    number_of_reply(take_counts(&mut [0xF000_0000], line)) == 15
}

/// Whether a line has such bytes, and has the form without them.
fn intrudes(line: &[u8], such: fn(u8) -> bool) -> bool {
    let others = line.iter().copied().filter(|&byte| !such(byte));
    let others: Vec<u8> = others.collect();
    others.len() < line.len() && has_form(&others)
}

/// Whether a line is of digits and two commas.
fn has_second_comma(line: &[u8]) -> bool {
    let mut others = unended(line).to_vec();
    others.retain(|byte| !byte.is_ascii_digit());
    others == b",,"
}

/// The digits before the comma without leading zeros, if all else has the form.
fn lift_digits(line: &[u8]) -> &[u8] {
    let (number, count) = fields(line);
    match has_form(&[b"1,", count].concat()) {
        true => significant(number),
        false => b"",
    }
}

/// The digits behind the comma without leading zeros, if all else has the form.
fn count_digits(line: &[u8]) -> &[u8] {
    let (number, count) = fields(line);
    match has_form(&[number, b",1"].concat()) {
        true => significant(count),
        false => b"",
    }
}

/// Digits without leading zeros.
fn significant(digits: &[u8]) -> &[u8] {
    let zeros = digits.iter().take_while(|&&digit| digit == b'0');
    &digits[zeros.count()..]
}

/// Whether these are digits of a number beyond 64 bits.
fn is_beyond_64_bits(digits: &[u8]) -> bool {
    let text = str::from_utf8(digits).unwrap_or_default();
    let all_digits = !text.is_empty() && digits.iter().all(u8::is_ascii_digit);
    all_digits && text.parse::<u64>().is_err()
}
