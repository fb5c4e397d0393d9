//! What `ledger`, `explain` and `quarters` print, read for a picture: a listing (S, R and E lines), an explanation (F lines among them), or
//! quarter-hours and days (Q and D lines in the place of S lines).
//!
//! In an explanation the S line of a second comes after the F lines of the next one, as it is printed one mark late; both say of which
//! second they are. A line that cannot be read, or that contradicts those before it, is told with what was expected.

use crate::program::{commas, decimal, plural, quoted};
use std::collections::BTreeSet;
use std::ops::RangeInclusive;

/// Where the numbers of a span stand: the heads; then groups, the section's, the path's, and those of the provisioned levels.
pub(crate) const HEAD: usize = 2;
const GROUPS: usize = 12;

/// The figures of a group; far violations are the sum of the numbers that the far end reports.
const FIGURES: [&str; 5] = ["near blocks", "far blocks", "near DS", "far DS", "far violations"];
const GROUP: usize = FIGURES.len();

/// Those of them that have a row of bars, and where the defect seconds under it stand, if it has any.
const BARS: [(usize, Option<usize>); 3] = [(0, Some(2)), (1, Some(3)), (4, None)];

/// Section and path have a group in every S line.
pub(crate) const ALWAYS: usize = 2;

/// The numbers of an S line without tandem levels, and with all six.
const LEAST: usize = GROUPS + ALWAYS * GROUP;
const MOST: usize = LEAST + 6 * GROUP;

/// The group of a row of bars after that of failed frames, and what of it the row shows.
fn of_group(row: usize) -> (usize, (usize, Option<usize>)) {
    ((row - 1) / BARS.len(), BARS[(row - 1) % BARS.len()])
}

/// Where in a span such a row has its number, and its defect seconds if it has any.
pub(crate) fn row_at(row: usize) -> (usize, Option<usize>) {
    let (group, (bar, ds)) = of_group(row);
    let at = |figure| GROUPS + GROUP * group + figure;
    (at(bar), ds.map(at))
}

/// The most frames of a second.
const FULL: u64 = 400_000;

/// The numbers of a second, as its S line has them, with zeros where it has no more groups. Those of a quarter-hour and of a day stand in
/// the same places: its own number is the first, and DS is the number of seconds that have it.
pub(crate) type Span = [u64; MOST];

/// What a line tells of.
#[derive(Clone, Copy, Debug, Default, PartialEq)]
pub(crate) enum Unit {
    #[default]
    Second,
    Quarter,
    Day,
}

impl Unit {
    pub(crate) fn name(self) -> &'static str {
        match self {
            Unit::Second => "second",
            Unit::Quarter => "quarter-hour",
            Unit::Day => "day",
        }
    }
    pub(crate) fn seconds(self) -> u64 {
        match self {
            Unit::Second => 1,
            Unit::Quarter => 900,
            Unit::Day => 86_400,
        }
    }
    /// The first second of one: seconds are numbered from 1, quarter-hours and days from 0.
    pub(crate) fn first(self, number: u64) -> u64 {
        match self {
            Unit::Second => number,
            _ => self.seconds() * number + 1,
        }
    }
}

/// The fault causes that begin or end in a frame, as the F line has them. The frame is counted from the beginning of its second.
#[derive(Debug)]
pub(crate) struct Causes {
    pub(crate) second: u64,
    pub(crate) frame: u64,
    pub(crate) words: String,
}

/// The place of an F line: its second, the frame in it, and in the trace.
#[derive(Clone, Copy, Debug, Default)]
pub(crate) struct Told {
    pub(crate) second: u64,
    frame: u64,
    total: u64,
}

/// The numbers of a Q or D line after its own: first second, length, frames, heads, section and path.
type Sums = [u64; 1 + LEAST];

fn sum_name(at: usize) -> String {
    match at {
        0 => "first second".into(),
        1 => "length".into(),
        2 => "frames".into(),
        3..=12 => format!("head {}", at - 3),
        _ => format!("{} {}", ["section", "path"][(at - 13) / GROUP], FIGURES[(at - 13) % GROUP]),
    }
}

/// The same as a span of this number.
fn span_of(number: u64, sums: &Sums) -> Span {
    let mut span = [0; MOST];
    span[0] = number;
    span[1..LEAST].copy_from_slice(&sums[2..]);
    span
}

#[derive(Debug, Default)]
pub struct Listing {
    /// What its lines tell of, seconds or quarter-hours; none before the first of them.
    unit: Option<Unit>,
    /// Those of the S or Q lines.
    pub(crate) spans: Vec<Span>,
    /// Those of the D lines.
    pub(crate) days: Vec<Span>,
    /// The seconds of the S or Q lines so far, and those of the D lines.
    pub(crate) closed: u64,
    in_days: u64,
    /// What the Q lines since the last D line have together.
    day: Sums,
    /// The groups of an S line: two, and one for each provisioned level.
    pub(crate) groups: usize,
    /// The levels that F lines name: of no other is anything told.
    pub(crate) levels: BTreeSet<u8>,
    /// Number and byte offset.
    pub(crate) refusal: Option<(u64, u64)>,
    pub(crate) frames: u64,
    /// Frames of the S or Q lines so far.
    filed: u64,
    /// Where the last F line is.
    pub(crate) told: Told,
    /// Frames of the second that is closed and has no S line yet, where F lines of the next one tell them.
    held: Option<u64>,
    causes: Vec<Causes>,
}

/// "A, B or C".
fn one_of(letters: &[&str]) -> String {
    match letters {
        [all @ .., last] if !all.is_empty() => format!("{} or {last}", all.join(", ")),
        _ => letters.concat(),
    }
}

/// The listing in a text, or the number of the line that cannot be read and what was expected.
pub fn read(text: &str) -> Result<Listing, String> {
    let mut listing = Listing { groups: ALWAYS, ..Listing::default() };
    let mut ended = false;
    for (i, line) in text.lines().enumerate() {
        listing.line(line, &mut ended).map_err(|mistake| format!("line {}: {mistake}", i + 1))?;
    }
    match ended {
        true => Ok(listing),
        false => Err(format!("line {}: the listing ends; expected E", text.lines().count() + 1)),
    }
}

/// The numbers after the letter of a line, so many.
fn numbers<const N: usize>(words: &[&str]) -> Result<[u64; N], String> {
    match words.len() == N {
        true => read_numbers(words),
        false => Err(format!("{}; expected {N}", plural(words.len() as u64, "number"))),
    }
}

/// The numbers of words, and zeros after them.
fn read_numbers<const N: usize>(words: &[&str]) -> Result<[u64; N], String> {
    let mut all = [0; N];
    for (number, word) in all.iter_mut().zip(words) {
        *number = decimal(word).ok_or_else(|| format!("{} is not a number; expected digits", quoted(word)))?;
    }
    Ok(all)
}

/// A number of frames that lines before ask for.
fn at_least(least: u64, whose: &str, frames: u64) -> Result<(), String> {
    (frames >= least).then_some(()).ok_or_else(|| format!("{}; expected at least {least}, {whose}", plural(frames, "frame")))
}

/// A name that begins or ends, as an F line tells it.
fn is_turn(word: &str) -> bool {
    let name = word.strip_prefix(['+', '-']).unwrap_or("");
    !name.is_empty() && name.bytes().all(|b| b.is_ascii_alphanumeric() || b == b'.' || b == b'-')
}

/// A fault cause: of the line, of a layer, or of a level.
fn is_cause(word: &str) -> bool {
    word[1..].rsplit('.').next().is_some_and(|name| name.starts_with('c'))
}

/// The level that a word of an F line names: `+TCM3.dLTC`, or `TCM3.trace="...`.
fn level_of(word: &str) -> Option<u8> {
    let name = word.strip_prefix(['+', '-']).unwrap_or(word).strip_prefix("TCM")?;
    name.split_once('.')?.0.parse().ok().filter(|level| (1..=6).contains(level))
}

/// Where a trace begins in an F line.
fn is_trace(word: &str) -> bool {
    word.split_once(".trace=\"").is_some_and(|(of, _)| of == "SM" || of == "PM" || level_of(word).is_some())
}

/// The names that begin or end, of an F line's changes. After them come the head and the traces, whose text is free.
fn turns<'a>(changes: &'a [&'a str]) -> Result<&'a [&'a str], String> {
    let names = changes.iter().take_while(|word| is_turn(word)).count();
    let free = |word: &str| word.starts_with("head=") || is_trace(word);
    match changes.get(names) {
        None if names > 0 => Ok(changes),
        Some(word) if free(word) => Ok(&changes[..names]),
        word => Err(format!("{} is not a change; expected +NAME, -NAME, head= or a trace", quoted(word.unwrap_or(&"")))),
    }
}

impl Listing {
    /// What it is a listing of. One without any is of seconds.
    pub(crate) fn unit(&self) -> Unit {
        self.unit.unwrap_or_default()
    }

    /// The letters that the next line may begin with, where nothing was refused. A day is told where its last quarter-hour is; at the end
    /// what there is of the last quarter-hour, and of the last day.
    fn letters(&self) -> &'static [&'static str] {
        let whole = |unit: Unit| self.closed % unit.seconds() == 0;
        match (self.unit, self.closed > self.in_days) {
            (None, _) => &["S", "F", "Q", "R", "E"],
            (Some(Unit::Second), _) => &["S", "F", "R", "E"],
            (_, true) if whole(Unit::Quarter) && !whole(Unit::Day) => &["Q", "D"],
            (_, true) => &["D"],
            (_, false) if whole(Unit::Day) => &["Q", "R", "E"],
            (_, false) => &["R", "E"],
        }
    }

    fn line(&mut self, line: &str, ended: &mut bool) -> Result<(), String> {
        let words: Vec<&str> = line.split(' ').collect();
        let (letter, words) = (words[0], &words[1..]);
        let (letters, expected): (&[&str], String) = match (*ended, self.refusal) {
            (true, _) => (&[], "nothing after E".into()),
            (_, Some(_)) => (&["E"], "E after R".into()),
            _ => (self.letters(), one_of(self.letters())),
        };
        if !letters.contains(&letter) {
            return Err(format!("{} begins the line; expected {expected}", quoted(letter)));
        }
        match letter {
            "S" => {
                self.unit = Some(Unit::Second);
                self.count_groups(words.len())?;
                self.second(read_numbers(words)?)
            }
            "F" => {
                self.unit = Some(Unit::Second);
                self.change(words)
            }
            "Q" => {
                self.unit = Some(Unit::Quarter);
                let [number, sums @ ..] = numbers::<{ 2 + LEAST }>(words)?;
                self.quarter(number, &sums)
            }
            "D" => {
                let [number, sums @ ..] = numbers::<{ 2 + LEAST }>(words)?;
                self.end_day(number, &sums)
            }
            "R" => self.refuse(numbers(words)?),
            _ => {
                *ended = true;
                self.end(numbers(words)?)
            }
        }
    }

    fn refuse(&mut self, [number, offset]: [u64; 2]) -> Result<(), String> {
        self.refusal = Some((number, offset));
        (1..=19).contains(&number).then_some(()).ok_or(format!("refusal {number}; expected 1 to 19"))
    }

    /// An S line has a group for each provisioned level, and all S lines have as many.
    fn count_groups(&mut self, numbers: usize) -> Result<(), String> {
        let (first, before) = (self.spans.is_empty(), GROUPS + GROUP * self.groups);
        let good = if first { (LEAST..=MOST).step_by(GROUP).any(|n| n == numbers) } else { numbers == before };
        let expected = match first {
            true => format!("{LEAST}, and {GROUP} more for each tandem level"),
            false => format!("{before}, as in the line before"),
        };
        if !good {
            return Err(format!("{}; expected {expected}", plural(numbers as u64, "number")));
        }
        self.groups = (numbers - GROUPS) / GROUP;
        Ok(())
    }

    /// Whose group it is. A line S names no level: its number is known where the F lines name as many levels as there are groups.
    pub(crate) fn group(&self, group: usize) -> String {
        match group {
            0 => "section".into(),
            1 => "path".into(),
            _ => match self.levels.iter().nth(group - ALWAYS).filter(|_| self.levels.len() == self.groups - ALWAYS) {
                Some(level) => format!("TCM{level}"),
                None => format!("level {} of {}", group + 1 - ALWAYS, self.groups - ALWAYS),
            },
        }
    }

    /// How many rows of bars there are: failed frames, and those of each group.
    pub(crate) fn rows(&self) -> usize {
        1 + BARS.len() * self.groups
    }

    /// What stands beside a row.
    pub(crate) fn row(&self, row: usize) -> String {
        match row {
            0 => "failed frames".into(),
            _ => {
                let (group, (bar, _)) = of_group(row);
                format!("{} {}", self.group(group), FIGURES[bar])
            }
        }
    }

    fn end(&mut self, [marks, frames]: [u64; 2]) -> Result<(), String> {
        let closed = self.closed;
        self.frames = frames;
        if self.unit() == Unit::Quarter {
            if marks != closed {
                return Err(format!("{}; expected {closed}, the seconds of the Q lines", plural(marks, "mark")));
            }
            return at_least(self.filed, "those of the Q lines", frames);
        }
        let (next, told) = (closed + 1, self.told.second);
        if told > next {
            return Err(format!("no S line of second {next}; expected one, as an F line is of second {told}"));
        }
        if marks != closed {
            return Err(format!("{}; expected {closed}, the S lines", plural(marks, "mark")));
        }
        at_least(self.filed, "those of the S lines", frames)?;
        at_least(self.told.total, "the F line's", frames)
    }

    /// Frames of the second that no mark has closed.
    pub(crate) fn open_frames(&self) -> u64 {
        self.frames - self.filed
    }

    /// An F line is of the open second: the one before it is closed and has no S line yet. Only before the first mark there is none.
    fn is_open(&self, second: u64) -> Result<(), String> {
        let open = self.closed + 2;
        let first = if open == 2 { self.told.second.max(1) } else { open };
        match (first..=open).contains(&second) {
            true => Ok(()),
            false if first == open => Err(format!("second {second}; expected {open}")),
            false => Err(format!("second {second}; expected {first} or {open}")),
        }
    }

    /// The frames that a second has at least, by the last F line.
    fn at_least_told(&self, second: u64) -> u64 {
        if self.told.second == second {
            self.told.frame
        } else {
            0
        }
    }

    /// A frame that an F line tells: by its number in the second, which is more than the last one's, and by that in the trace, which tells
    /// the frames of the second before.
    fn frame(&mut self, told: Told) -> Result<(), String> {
        let Told { second, frame, total } = told;
        let least = self.at_least_told(second) + 1;
        if !(least..=FULL).contains(&frame) {
            return Err(format!("frame {frame}; expected {least} to 400,000"));
        }
        let follows = second > self.closed + 1;
        let [low, high] = match (follows, self.held) {
            (false, _) => [0, 0],
            (true, Some(frames)) => [frames, frames],
            (true, None) => [self.at_least_told(second - 1), FULL],
        }
        .map(|held| self.filed + held + frame);
        if !(low..=high).contains(&total) {
            let to = if low == high { String::new() } else { format!(" to {high}") };
            return Err(format!("frame {total} of the trace; expected {low}{to}"));
        }
        self.held = follows.then(|| total - frame - self.filed);
        self.told = told;
        Ok(())
    }

    /// An F line: its frame is held against the lines before it. Of its changes the fault causes are kept.
    fn change(&mut self, words: &[&str]) -> Result<(), String> {
        let (place, changes) = words.split_at(words.len().min(3));
        let [second, frame, total] = numbers(place)?;
        self.is_open(second)?;
        self.frame(Told { second, frame, total })?;
        let turned = turns(changes)?;
        self.levels.extend(turned.iter().filter_map(|word| level_of(word)));
        let words = turned.iter().copied().filter(|word| is_cause(word)).collect::<Vec<_>>().join(" ");
        if !words.is_empty() {
            self.causes.push(Causes { second, frame, words });
        }
        Ok(())
    }

    /// The frames of so many seconds, those under the ten heads, and the blocks, DS and far violations of each group.
    fn figures(&self, s: &Span, seconds: u64) -> Result<(), String> {
        let filed = s[HEAD..HEAD + 10].iter().fold(0u64, |sum, n| sum.saturating_add(*n));
        let whose = self.unit().name();
        if s[1] > FULL * seconds {
            return Err(format!("{}; expected at most {}", plural(s[1], "frame"), commas(FULL * seconds)));
        }
        if filed != s[1] {
            return Err(format!("{} under the ten heads; expected {}, the {whose}'s", plural(filed, "frame"), s[1]));
        }
        for group in s[GROUPS..].chunks(GROUP).take(self.groups) {
            let (blocks, far, ds, violations) = (group[0].max(group[1]), group[1], group[2].max(group[3]), group[4]);
            if blocks > s[1] {
                return Err(format!("{}; expected at most {}, the {whose}'s frames", plural(blocks, "block"), s[1]));
            }
            match self.unit() {
                Unit::Second if ds > 1 => return Err(format!("{ds} for a defect second; expected 0 or 1")),
                _ if ds > seconds => {
                    return Err(format!("{}; expected at most {seconds}, the {whose}'s", plural(ds, "defect second")))
                }
                _ => (),
            }
            if !(far..=8 * far).contains(&violations) {
                let violations = plural(violations, "far violation");
                return Err(format!("{violations}; expected 1 to 8 for each of {}", plural(far, "far block")));
            }
        }
        Ok(())
    }

    fn second(&mut self, s: Span) -> Result<(), String> {
        let next = self.closed + 1;
        if s[0] != next {
            return Err(format!("second {}; expected {next}", s[0]));
        }
        self.figures(&s, 1)?;
        at_least(self.at_least_told(s[0]), "the F line's", s[1])?;
        if let Some(frames) = self.held.take().filter(|frames| *frames != s[1]) {
            return Err(format!("{}; expected {frames}, by the F lines of the next second", plural(s[1], "frame")));
        }
        self.keep(s, 1);
        Ok(())
    }

    fn keep(&mut self, span: Span, seconds: u64) {
        self.filed += span[1];
        self.closed += seconds;
        self.spans.push(span);
    }

    /// A Q line: the next quarter-hour, whole or not.
    fn quarter(&mut self, number: u64, sums: &Sums) -> Result<(), String> {
        let (next, [first, length, ..]) = (self.spans.len() as u64, *sums);
        if number != next {
            return Err(format!("quarter-hour {number}; expected {next}"));
        }
        let begin = Unit::Quarter.first(number);
        if first != begin {
            return Err(format!("first second {first}; expected {begin}"));
        }
        if !(1..=Unit::Quarter.seconds()).contains(&length) {
            return Err(format!("{}; expected 1 to 900", plural(length, "second")));
        }
        let span = span_of(number, sums);
        self.figures(&span, length)?;
        if self.day[1] == 0 {
            self.day[0] = first;
        }
        self.day.iter_mut().zip(sums).skip(1).for_each(|(sum, number)| *sum += number);
        self.keep(span, length);
        Ok(())
    }

    /// A D line: the sums of the Q lines since the last one.
    fn end_day(&mut self, number: u64, sums: &Sums) -> Result<(), String> {
        let next = self.days.len() as u64;
        if number != next {
            return Err(format!("day {number}; expected {next}"));
        }
        if let Some(at) = (0..sums.len()).find(|at| sums[*at] != self.day[*at]) {
            return Err(format!("{}: {}; expected {}, by the Q lines of the day", sum_name(at), sums[at], self.day[at]));
        }
        self.days.push(span_of(number, sums));
        self.in_days = self.closed;
        self.day = Sums::default();
        Ok(())
    }

    /// How many seconds some of them have: what is told last may not be whole.
    pub(crate) fn seconds_of(&self, unit: Unit, spans: &[Span]) -> u64 {
        let (Some(first), Some(last)) = (spans.first(), spans.last()) else { return 0 };
        unit.first(last[0] + 1).min(self.closed + 1) - unit.first(first[0])
    }

    /// Those that have a second from one to another, as far as there are any.
    pub(crate) fn from_to(&self, range: RangeInclusive<u64>) -> Result<&[Span], String> {
        let (from, seconds) = (*range.start(), self.unit().seconds());
        let last = (*range.end()).min(self.closed).div_ceil(seconds) as usize;
        match self.spans.get((from.saturating_sub(1).min(self.closed) / seconds) as usize..last) {
            Some(spans) if from <= self.closed && !spans.is_empty() => Ok(spans),
            _ => {
                let all = plural(self.closed, "second");
                Err(format!("no second from {} on; the listing has {all}", commas(from)))
            }
        }
    }

    /// The fault causes of some seconds, first to last.
    pub(crate) fn causes(&self, first: u64, last: u64) -> &[Causes] {
        let before = |second: u64| self.causes.partition_point(|causes| causes.second < second);
        &self.causes[before(first)..before(last + 1)]
    }
}
