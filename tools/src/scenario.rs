//! Scenarios: a plain text of one directive to a line, and the trace that it makes. docs/BENCH.md tells the language.

use crate::frame::{plain, plain_level, Sent};
use crate::program::{cut, decimal, quoted};
use crate::provisioning::{LevelProvisioning, Provisioning, PATH, SECTION};
use crate::reader::Trace;
use std::collections::VecDeque;
use std::io::Write;

/// The highest DEGThr for k = 1, 2, 3.
const CEILING: [u32; 3] = [20_420, 82_025, 329_492];
/// STAT of a good frame: the normal path signal of G.709.
const NORMAL: u8 = 1;
/// Section, path and tandem levels 1 to 6: what has a provisioning and a trace.
const LAYERS: [(&str, usize); 8] =
    [("section", SECTION), ("path", PATH), ("tcm1", 2), ("tcm2", 3), ("tcm3", 4), ("tcm4", 5), ("tcm5", 6), ("tcm6", 7)];
/// Of the layers, the levels; level 1 is the first of them.
const LEVELS: std::ops::Range<usize> = 2..8;

/// A name's bytes and where they stand in the 64 of a trace.
#[derive(Clone, Debug)]
struct Name {
    layer: usize,
    at: usize,
    bytes: Vec<u8>,
}

impl Name {
    fn put(&self, trace: &mut [u8]) {
        trace[self.at..self.at + self.bytes.len()].copy_from_slice(&self.bytes);
    }
}

/// What a condition changes in a frame.
#[derive(Clone, Debug)]
enum Change {
    FasLost,
    FasWrong(usize),
    MfasStuck(u8),
    MfasOff(u8),
    MfasMoved(u8),
    Stat(usize, u8),
    Iae,
    Flag(u8),
    Bdi(usize),
    Bei(usize, u8),
    Violations(usize, u8),
    Sends(Name),
}

impl Change {
    /// The layer that it is of; what is of the line counts to the section.
    fn layer(&self) -> usize {
        match self {
            Change::Stat(layer, _) | Change::Bdi(layer) | Change::Bei(layer, _) | Change::Violations(layer, _) => *layer,
            Change::Sends(name) => name.layer,
            _ => SECTION,
        }
    }
}

/// Frames from `first`, so many; of each `every` of them the first `burst`.
#[derive(Clone, Copy, Debug)]
struct Span {
    first: u64,
    length: u64,
    every: u64,
    burst: u64,
}

impl Span {
    fn covers(&self, frame: u64) -> bool {
        frame >= self.first && frame - self.first < self.length && (frame - self.first) % self.every < self.burst
    }
}

#[derive(Clone, Copy, Debug)]
enum Mark {
    After(u64),
    Every(u64),
}

/// A scenario as read. `last` has the frames that lines named last, with the line, to be held against the number of frames.
#[derive(Debug)]
pub struct Scenario {
    k: u8,
    /// What is provisioned of each layer; of a level that is not, nothing.
    asked: [Option<Asked>; 8],
    /// Frames bring the levels' counts: a line names a level.
    counted: bool,
    sent: Vec<Name>,
    frames: u64,
    conditions: Vec<(Span, Change)>,
    marks: Vec<Mark>,
    line: usize,
    last: Vec<(usize, u64)>,
}

/// What a layer's lines ask for, and the line that gave its DEGThr.
#[derive(Clone, Debug)]
struct Asked {
    options: LevelProvisioning,
    degthr_line: usize,
}

impl Asked {
    fn plain() -> Asked {
        Asked { options: LevelProvisioning { mode: 3, ..plain_level() }, degthr_line: 0 }
    }
}

/// A directive: its words after the first, read into the scenario.
type Directive = fn(&mut Scenario, &mut Line) -> Result<(), String>;
const DIRECTIVES: [(&str, Directive); 8] = [
    ("k", Scenario::k),
    ("section", |s, line| s.provision(SECTION, line)),
    ("path", |s, line| s.provision(PATH, line)),
    ("tcm", |s, line| {
        let level = line.number("a level", 1, 6)? as usize;
        s.provision(LEVELS.start + level - 1, line)
    }),
    ("send", Scenario::send),
    ("good", Scenario::good),
    ("from", Scenario::from),
    ("mark", Scenario::mark),
];

/// The scenario of a text, or the number of the line that is mistaken and what was expected.
pub fn read(text: &str) -> Result<Scenario, String> {
    let mut s = Scenario {
        k: 1,
        asked: std::array::from_fn(|layer| (!LEVELS.contains(&layer)).then(Asked::plain)),
        counted: false,
        sent: Vec::new(),
        frames: 0,
        conditions: Vec::new(),
        marks: Vec::new(),
        line: 0,
        last: Vec::new(),
    };
    for (i, text) in text.lines().enumerate() {
        s.line = i + 1;
        s.directive(text).map_err(|mistake| format!("line {}: {mistake}", s.line))?;
    }
    s.check()?;
    match s.frames == 0 && s.marks.is_empty() {
        true => Err(format!("line {}: the scenario ends with no frame and no mark; expected good or mark", s.line + 1)),
        false => Ok(s),
    }
}

impl Scenario {
    fn directive(&mut self, text: &str) -> Result<(), String> {
        let mut line = Line::of(text)?;
        if line.is_over() {
            return Ok(());
        }
        line.choice("a directive", &DIRECTIVES)?(self, &mut line)?;
        match line.0.pop_front() {
            None => Ok(()),
            Some(word) => Err(format!("{} is too much; expected the end of the line", quoted(&word.text))),
        }
    }

    fn k(&mut self, line: &mut Line) -> Result<(), String> {
        self.k = line.number("k", 1, 3)? as u8;
        Ok(())
    }

    fn provision(&mut self, layer: usize, line: &mut Line) -> Result<(), String> {
        type Field = fn(&mut Asked, usize, &mut Line) -> Result<(), String>;
        let fields: [(&str, Field); 6] = [
            ("sapi", |a, _, line| Ok(line.name(SECTION, "sapi")?.put(&mut a.options.names))),
            ("dapi", |a, _, line| Ok(line.name(SECTION, "dapi")?.put(&mut a.options.names))),
            ("mode", |a, _, line| {
                a.options.mode = line.choice("a mode", &[("off", 0), ("sapi", 1), ("dapi", 2), ("both", 3)])?;
                Ok(())
            }),
            ("act", |a, _, line| {
                a.options.dis = line.choice("a word after act", &[("on", 0), ("off", 1), ("default", 2)])?;
                Ok(())
            }),
            ("degthr", |a, number, line| {
                a.options.degthr = line.number("degthr", 1, CEILING[2].into())? as u32;
                a.degthr_line = number;
                Ok(())
            }),
            ("degm", |a, _, line| {
                a.options.degm = line.number("degm", 2, 10)? as u8;
                Ok(())
            }),
        ];
        self.names(layer);
        let number = self.line;
        let asked = self.asked[layer].get_or_insert_with(Asked::plain);
        line.each(|line| line.choice("a field of the provisioning", &fields)?(asked, number, line))
    }

    /// A line names a layer: where it is a level, frames bring the levels' counts.
    fn names(&mut self, layer: usize) {
        self.counted |= LEVELS.contains(&layer);
    }

    fn send(&mut self, line: &mut Line) -> Result<(), String> {
        let layer = line.choice("a layer", &LAYERS)?;
        self.names(layer);
        line.each(|line| {
            let field = line.choice("a field of the trace", &[("sapi", "sapi"), ("dapi", "dapi"), ("operator", "operator")])?;
            self.sent.push(line.name(layer, field)?);
            Ok(())
        })
    }

    fn good(&mut self, line: &mut Line) -> Result<(), String> {
        self.frames += line.number("a number of frames", 1, u32::MAX.into())?;
        Ok(())
    }

    fn from(&mut self, line: &mut Line) -> Result<(), String> {
        let first = line.number("a frame", 1, u32::MAX.into())?;
        line.choice("a span", &[("for", ())])?;
        let length = line.number("a number of frames", 1, u32::MAX.into())?;
        let mut span = Span { first, length, every: length, burst: length };
        if line.take("every") {
            span.every = line.number("a number of frames", 1, u32::MAX.into())?;
            line.choice("a span", &[("for", ())])?;
            span.burst = line.number("a number of frames within that", 1, span.every)?;
        }
        self.last.push((self.line, first + length - 1));
        line.each(|line| {
            let change = line.condition()?;
            self.names(change.layer());
            self.conditions.push((span, change));
            Ok(())
        })
    }

    fn mark(&mut self, line: &mut Line) -> Result<(), String> {
        let (mark, frame) = match line.take("every") {
            true => {
                let frames = line.number("a number of frames", 1, u32::MAX.into())?;
                (Mark::Every(frames), frames)
            }
            false => {
                let frame = line.number("a frame", 0, u32::MAX.into()).map_err(|mistake| mistake + ", or every")?;
                (Mark::After(frame), frame)
            }
        };
        self.marks.push(mark);
        self.last.push((self.line, frame));
        Ok(())
    }

    /// What can be said only when all lines are read.
    fn check(&self) -> Result<(), String> {
        let ceiling = CEILING[usize::from(self.k) - 1];
        if let Some(asked) = self.asked.iter().flatten().find(|asked| asked.options.degthr > ceiling) {
            let (line, found) = (asked.degthr_line, asked.options.degthr);
            return Err(format!(
                "line {line}: degthr {found} is too high for k {}; expected a number from 1 to {ceiling}",
                self.k
            ));
        }
        match self.last.iter().find(|(_, frame)| *frame > self.frames) {
            None => Ok(()),
            Some((line, frame)) => Err(format!(
                "line {line}: frame {frame} is past the end; expected at most {}, the good frames of all lines",
                self.frames
            )),
        }
    }

    /// The trace that the far end sends where no condition changes it: the expected names, but for those that `send` gives.
    fn traces(&self) -> [[u8; 64]; 8] {
        let mut traces = [[0; 64]; 8];
        for (trace, asked) in traces.iter_mut().zip(&self.asked) {
            asked.iter().for_each(|asked| trace[..32].copy_from_slice(&asked.options.names));
        }
        for name in &self.sent {
            name.put(&mut traces[name.layer]);
        }
        traces
    }

    /// Frame number `number`, from 1.
    fn frame(&self, number: u64, mut traces: [[u8; 64]; 8]) -> Sent {
        let count = (number - 1) as u8;
        let mut f = Sent { stat: NORMAL, ..Sent::good(count) };
        for (level, asked) in f.levels.iter_mut().zip(&self.asked[LEVELS]) {
            level.stat = if asked.is_some() { NORMAL } else { 0 };
        }
        // The multiframe's own number: it is the count, but for a multiframe that has moved.
        let mut place = count;
        for (_, change) in self.conditions.iter().filter(|(span, _)| span.covers(number)) {
            match change {
                Change::FasLost => f.fas = [0; 6],
                Change::FasWrong(column) => f.fas[column - 1] = 0,
                Change::MfasStuck(value) => (f.mfas, place) = (*value, count),
                Change::MfasOff(by) => (f.mfas, place) = (count.wrapping_add(*by), count),
                Change::MfasMoved(by) => (f.mfas, place) = (count.wrapping_add(*by), count.wrapping_add(*by)),
                Change::Iae => f.iae = true,
                Change::Flag(value) => f.flags |= value,
                Change::Stat(PATH, value) => f.stat = *value,
                Change::Stat(layer, value) => f.levels[layer - LEVELS.start].stat = *value,
                Change::Bdi(layer @ (SECTION | PATH)) => f.bdi[*layer] = true,
                Change::Bdi(layer) => f.levels[layer - LEVELS.start].bdi = true,
                Change::Bei(layer @ (SECTION | PATH), value) => f.bei[*layer] = *value,
                Change::Bei(layer, value) => f.levels[layer - LEVELS.start].bei = *value,
                Change::Violations(layer @ (SECTION | PATH), value) => f.violations[*layer] = *value,
                Change::Violations(layer, value) => f.levels[layer - LEVELS.start].violations = *value,
                Change::Sends(name) => name.put(&mut traces[name.layer]),
            }
        }
        let tti = traces.map(|trace| trace[usize::from(place) % 64]);
        f.tti = [tti[SECTION], tti[PATH]];
        f.levels.iter_mut().zip(&tti[LEVELS]).for_each(|(level, tti)| level.tti = *tti);
        f
    }

    /// The record of kind 3, and those of kind 4, the lowest level first.
    fn provisionings(&self, t: &mut Trace) {
        let [section, path] =
            [SECTION, PATH].map(|layer| self.asked[layer].as_ref().expect("it is always there").options.clone());
        t.provisioning(&Provisioning {
            degthr: [section.degthr, path.degthr],
            degm: [section.degm, path.degm],
            mode: [section.mode, path.mode],
            dis: [section.dis, path.dis],
            names: [section.names, path.names],
            ..plain(self.k)
        });
        for (level, asked) in (1..).zip(&self.asked[LEVELS]) {
            asked.iter().for_each(|asked| t.level(level, &asked.options));
        }
    }

    fn marks_after(&self, frame: u64) -> usize {
        let falls = |mark: &&Mark| match mark {
            Mark::After(number) => frame == *number,
            Mark::Every(frames) => frame > 0 && frame % frames == 0,
        };
        self.marks.iter().filter(falls).count()
    }

    /// Writes the trace.
    pub fn write(&self, out: &mut dyn Write) -> std::io::Result<()> {
        let traces = self.traces();
        let mut t = Trace::default();
        self.provisionings(&mut t);
        for number in 0..=self.frames {
            if number > 0 {
                let f = self.frame(number, traces);
                let (sm, pm) = (f.violations[SECTION], f.violations[PATH]);
                match self.counted {
                    true => t.frame_levels(&f.overhead(), f.flags, sm, pm, f.counts()),
                    false => t.frame(&f.overhead(), f.flags, sm, pm),
                }
            }
            for _ in 0..self.marks_after(number) {
                t.mark();
            }
            if t.0.len() > 1 << 20 {
                out.write_all(&t.0)?;
                t.0.clear();
            }
        }
        out.write_all(&t.0)?;
        out.flush()
    }
}

/// The value in binary of a word that is out of range in decimal, or that begins with 0 and is another number there.
fn binary(text: &str, high: u64) -> Option<u64> {
    let digits = text.strip_prefix("0b").unwrap_or(text);
    let value = u64::from_str_radix(digits, 2).ok().filter(|value| *value <= high && !digits.starts_with('+'))?;
    let in_decimal = decimal(text).filter(|value| *value <= high);
    (in_decimal.is_none() || (text.starts_with('0') && in_decimal != Some(value))).then_some(value)
}

struct Word {
    text: String,
    quoted: bool,
}

/// The words of a line that are not read yet.
struct Line(VecDeque<Word>);

impl Line {
    /// Words end at a blank; a name stands in quotes; # begins a comment.
    fn of(text: &str) -> Result<Line, String> {
        let mut words = VecDeque::new();
        let mut rest = text.trim_start();
        while !rest.is_empty() && !rest.starts_with('#') {
            let (word, after, quoted) = match rest.strip_prefix('"') {
                Some(name) => name
                    .split_once('"')
                    .map(|(word, after)| (word, after, true))
                    .ok_or_else(|| format!("{} has no closing quote; expected a name in quotes", quoted(rest)))?,
                None => {
                    let end = rest.find(|c: char| c.is_whitespace() || c == '"' || c == '#').unwrap_or(rest.len());
                    (&rest[..end], &rest[end..], false)
                }
            };
            words.push_back(Word { text: word.into(), quoted });
            rest = after.trim_start();
        }
        Ok(Line(words))
    }

    fn is_over(&self) -> bool {
        self.0.is_empty()
    }

    /// Takes the next word if it is this one.
    fn take(&mut self, word: &str) -> bool {
        let met = self.0.front().is_some_and(|next| !next.quoted && next.text == word);
        if met {
            self.0.pop_front();
        }
        met
    }

    /// Reads one thing or more, to the end of the line.
    fn each(&mut self, mut one: impl FnMut(&mut Line) -> Result<(), String>) -> Result<(), String> {
        one(self)?;
        while !self.is_over() {
            one(self)?;
        }
        Ok(())
    }

    /// What the next word stands for, of those offered.
    fn choice<T: Copy>(&mut self, what: &str, offered: &[(&str, T)]) -> Result<T, String> {
        let names: Vec<&str> = offered.iter().map(|(name, _)| *name).collect();
        let expected = match names.split_last() {
            Some((last, others)) if !others.is_empty() => format!("{} or {last}", others.join(", ")),
            _ => names.concat(),
        };
        self.word(what, &expected, |text| offered.iter().find(|(name, _)| *name == text).map(|(_, value)| *value))
    }

    fn number(&mut self, what: &str, low: u64, high: u64) -> Result<u64, String> {
        let expected = format!("a number from {low} to {high}");
        self.word(what, &expected, |text| decimal(text).filter(|value| (low..=high).contains(value)))
    }

    /// A field of bits, from 0, or what `or` says. G.709 writes it in binary: who does so too gets a hint.
    fn bits(&mut self, what: &str, high: u64, or: &str) -> Result<u8, String> {
        let word = self.0.front().filter(|word| !word.quoted);
        let meant = word.and_then(|word| Some((cut(&word.text), binary(&word.text, high)?)));
        let hint = meant.map(|(text, value)| format!("; numbers are decimal, and {text} in binary is {value}"));
        let expected = format!("a number from 0 to {high}{or}{}", hint.as_deref().unwrap_or(""));
        self.word(what, &expected, |text| decimal(text).filter(|value| *value <= high && hint.is_none())).map(|value| value as u8)
    }

    /// What the next word stands for, which is not in quotes.
    fn word<T>(&mut self, what: &str, expected: &str, value: impl Fn(&str) -> Option<T>) -> Result<T, String> {
        let Some(word) = self.0.pop_front() else {
            return Err(format!("the line ends; expected {expected}"));
        };
        let met = if word.quoted { None } else { value(&word.text) };
        met.ok_or_else(|| format!("{} is not {what}; expected {expected}", quoted(&word.text)))
    }

    /// A name in quotes as the field's bytes: SAPI and DAPI have a 0 before their 15 characters (G.709), the operator's field has 32.
    fn name(&mut self, layer: usize, field: &str) -> Result<Name, String> {
        let (at, before, room) = match field {
            "sapi" => (0, 1, 15),
            "dapi" => (16, 1, 15),
            _ => (32, 0, 32),
        };
        let expected = format!("expected a name in quotes, of at most {room} ASCII characters");
        let Some(word) = self.0.pop_front() else {
            return Err(format!("the line ends; {expected}"));
        };
        if !word.quoted || word.text.len() > room || !word.text.bytes().all(|b| (b' '..=b'~').contains(&b)) {
            return Err(format!("{} is not a name for {field}; {expected}", quoted(&word.text)));
        }
        let mut bytes = vec![0; before + room];
        bytes[before..before + word.text.len()].copy_from_slice(word.text.as_bytes());
        Ok(Name { layer, at, bytes })
    }

    fn condition(&mut self) -> Result<Change, String> {
        type Condition = fn(&mut Line) -> Result<Change, String>;
        let conditions: [(&str, Condition); 13] = [
            ("fas", |line| match line.choice("a word after fas", &[("lost", false), ("wrong", true)])? {
                false => Ok(Change::FasLost),
                true => Ok(Change::FasWrong(line.number("a column of the FAS", 1, 6)? as usize)),
            }),
            ("mfas", |line| {
                type Make = fn(u8) -> Change;
                let offered: [(&str, Make); 3] =
                    [("stuck", Change::MfasStuck), ("off", Change::MfasOff), ("moved", Change::MfasMoved)];
                let make = line.choice("a word after mfas", &offered)?;
                Ok(make(line.number("an MFAS", 0, 255)? as u8))
            }),
            ("stat", |line| line.stat(PATH, &[("ais", 7), ("oci", 6), ("lck", 5)], ", or ais, oci or lck")),
            ("iae", |_| Ok(Change::Iae)),
            ("flag", |line| Ok(Change::Flag(line.choice("a flag", &[("tsf", 1), ("ais", 2)])?))),
            ("section", |line| line.of_layer(SECTION)),
            ("path", |line| line.of_layer(PATH)),
            ("tcm1", |line| line.of_layer(2)),
            ("tcm2", |line| line.of_layer(3)),
            ("tcm3", |line| line.of_layer(4)),
            ("tcm4", |line| line.of_layer(5)),
            ("tcm5", |line| line.of_layer(6)),
            ("tcm6", |line| line.of_layer(7)),
        ];
        self.choice("a condition", &conditions)?(self)
    }

    /// A STAT, by one of its words or by number.
    fn stat(&mut self, layer: usize, words: &[(&str, u8)], or: &str) -> Result<Change, String> {
        let named = words.iter().find(|(word, _)| self.take(word));
        Ok(Change::Stat(layer, named.map_or_else(|| self.bits("a STAT", 7, or), |(_, value)| Ok(*value))?))
    }

    fn of_layer(&mut self, layer: usize) -> Result<Change, String> {
        type Condition = fn(&mut Line, usize) -> Result<Change, String>;
        let conditions: [(&str, Condition); 7] = [
            ("bdi", |_, layer| Ok(Change::Bdi(layer))),
            ("bei", |line, layer| Ok(Change::Bei(layer, line.bits("a BEI", 15, "")?))),
            ("violations", |line, layer| Ok(Change::Violations(layer, line.number("a violation count", 0, 8)? as u8))),
            ("sapi", |line, layer| Ok(Change::Sends(line.name(layer, "sapi")?))),
            ("dapi", |line, layer| Ok(Change::Sends(line.name(layer, "dapi")?))),
            ("operator", |line, layer| Ok(Change::Sends(line.name(layer, "operator")?))),
            ("stat", |line, layer| {
                let words = [("ais", 7), ("oci", 6), ("lck", 5), ("iae", 2), ("ltc", 0)];
                line.stat(layer, &words, ", or ais, oci, lck, iae or ltc")
            }),
        ];
        // The path's STAT is a condition by itself.
        let of = if LEVELS.contains(&layer) { &conditions[..] } else { &conditions[..6] };
        self.choice("a condition of a layer", of)?(self, layer)
    }
}
