//! Directed cases: a small text that gives a trace, what its reports show, and the listing worked out by hand.
//!
//! ```text
//! provision k=1 thr=1,1 degm=2,2 mode=0,0 dis=0,0 s.names=0:5 p.names=16:7   (first line; what is not named is as here,
//!                                                names are zero but for the bytes named)
//! frames 3 [field=value ...]   good framing, MFAS counting up from 0 at the first frame, all else zero but the fields
//! zeros 62 [field=value ...]   the same without framing (columns 1 to 6 zero) and with MFAS zero; the count goes on unseen
//! to 63 [field=value ...]      frames up to and with the next whose count is 63 modulo 64
//! jump 9                       adds to the count
//! mark
//! repeat 7 ... end             not nested
//! expect head=3 dLOF !dLOM s.dTIM s.trace !p.trace      about the last frame
//! begins cLOF 1                up to here cLOF went from absent to standing so many times
//! bytes 45 00 01 00            raw bytes at this place
//! listing                      from here on the file is the listing
//! quarters                     from here on it is what `quarters` prints; a case has one of the two, or both
//! ```
//!
//! With levels:
//!
//! ```text
//! none                         in the place of provision: no provisioning record, and what is expected is of a plain one
//! level 3 thr=1 degm=2 mode=0 dis=0 names=0:5           a record of kind 4; what is not named is as here
//! counts                       from here frames are of kind 5, with the counts of all six levels; without it of kind 1
//! no counts                    from here frames are of kind 1 again
//! expect t3.dLTC !t3.aTSF t3.trace !all.dTIM            bits of otn_level_report, after the last frame and mark
//! begins t3.cLTC 1             from frame to frame
//! ```
//!
//! With summaries (K6), by their 23 numbers or a record's 22 figures in order; those not written are 0, so that `0` is the empty summary:
//!
//! ```text
//! second 1 2 0 2 gives 1 1 2 0 2            otn_summary
//! join 1 10 with 11 10 gives 1 20           otn_join
//! join 1 10 with 12 9 refuses 21
//! ```
//!
//! Fields: s. and p. before bdi, bei, count, tti; iae, stat, flags, mfas (a number, or off: the count with its highest bit turned),
//! fas (six hex bytes with no spaces, or 2to5 and 3to5: only these columns right); t1. to t6., or all. for the six of them, before
//! bdi, bei, count, stat, tti. tti=0:5 is a trace of zeros whose byte 0 is 5; which byte is sent goes by the count. # begins a
//! comment, which in every case says how the listing was worked out.

use crate::card::Handed;
use crate::frame::{plain, plain_level, Sent};
use crate::generate::Item;
use crate::level;
use crate::provisioning::{LevelProvisioning, Provisioning};
use crate::reader::{self, Trace};
use crate::report;
use crate::summary::{self, Summary, BYTES};
use crate::supervisor::Supervisor;

#[derive(Clone, Debug)]
pub struct Case {
    pub provisioning: Provisioning,
    /// The levels whose records are accepted.
    pub levels: Vec<(u8, LevelProvisioning)>,
    /// A frame of kind 1 has six counts 0 here.
    pub items: Vec<Item>,
    /// What is handed in to be summed.
    pub handed: Vec<Handed>,
    pub bytes: Vec<u8>,
    /// As the text has it; where it does not, as the second program prints it.
    pub listing: String,
    pub quarters: String,
    /// What an expectation of the text does not find.
    pub unmet: Vec<String>,
}

fn number(text: &str) -> Result<u64, String> {
    text.parse().map_err(|_| format!("{text:?} is not a number"))
}

fn two<T: TryFrom<u64>>(text: &str) -> Result<[T; 2], String> {
    let mut both = text.split(',').map(|t| number(t).and_then(|v| T::try_from(v).map_err(|_| format!("{t} is too large"))));
    match (both.next(), both.next(), both.next()) {
        (Some(a), Some(b), None) => Ok([a?, b?]),
        _ => Err(format!("{text:?} is not two numbers")),
    }
}

fn byte_of(text: &str) -> Result<(usize, u8), String> {
    let (at, value) = text.split_once(':').ok_or(format!("{text:?} is not place:value"))?;
    Ok((number(at)? as usize, number(value)? as u8))
}

fn provision(fields: &[&str]) -> Result<Provisioning, String> {
    let mut p = plain(1);
    for field in fields {
        let (key, value) = field.split_once('=').ok_or(format!("{field:?}"))?;
        match key {
            "k" => p.k = number(value)? as u8,
            "thr" => p.degthr = two(value)?,
            "degm" => p.degm = two(value)?,
            "mode" => p.mode = two(value)?,
            "dis" => p.dis = two(value)?,
            "s.names" | "p.names" => {
                let (at, byte) = byte_of(value)?;
                p.names[usize::from(key == "p.names")][at] = byte;
            }
            _ => return Err(format!("{key:?} is no field")),
        }
    }
    Ok(p)
}

fn level_provision(fields: &[&str]) -> Result<LevelProvisioning, String> {
    let mut p = plain_level();
    for field in fields {
        let (key, value) = field.split_once('=').ok_or(format!("{field:?}"))?;
        match key {
            "thr" => p.degthr = number(value)? as u32,
            "degm" => p.degm = number(value)? as u8,
            "mode" => p.mode = number(value)? as u8,
            "dis" => p.dis = number(value)? as u8,
            "names" => {
                let (at, byte) = byte_of(value)?;
                p.names[at] = byte;
            }
            _ => return Err(format!("{key:?} is no field of a level")),
        }
    }
    Ok(p)
}

/// The level in `t3`, and what follows the dot.
fn of_level(name: &str) -> Option<(u8, &str)> {
    let (level, rest) = name.strip_prefix('t')?.split_once('.')?;
    Some((level.parse().ok()?, rest))
}

/// What is expected of each of the six levels, or the word alone.
fn of_all(word: &str) -> Vec<String> {
    let (not, name) = word.strip_prefix('!').map_or(("", word), |name| ("!", name));
    match name.strip_prefix("all.") {
        Some(name) => (1..=6).map(|level| format!("{not}t{level}.{name}")).collect(),
        None => vec![word.into()],
    }
}

/// One field of a level.
fn level_field(l: &mut level::Received, count: u8, key: &str, value: &str) -> Result<(), String> {
    match key {
        "bdi" => l.bdi = value == "1",
        "bei" => l.bei = number(value)? as u8,
        "count" => l.violations = number(value)? as u8,
        "stat" => l.stat = number(value)? as u8,
        "tti" => {
            let (at, byte) = byte_of(value)?;
            l.tti = if usize::from(count) % 64 == at { byte } else { 0 };
        }
        _ => return Err(format!("{key:?} is no field of a level's bytes")),
    }
    Ok(())
}

fn frame(zeros: bool, count: u8, fields: &[&str]) -> Result<Sent, String> {
    let mut f = if zeros { Sent::ZEROS } else { Sent::good(count) };
    for field in fields {
        let (key, value) = field.split_once('=').ok_or(format!("{field:?}"))?;
        if let Some(key) = key.strip_prefix("all.") {
            f.levels.iter_mut().try_for_each(|l| level_field(l, count, key, value))?;
            continue;
        }
        if let Some((level, key)) = of_level(key) {
            let l = f.levels.get_mut(usize::from(level).wrapping_sub(1)).ok_or(format!("{level} is no level"))?;
            level_field(l, count, key, value)?;
            continue;
        }
        let (layer, key) = match key.split_once('.') {
            Some(("s", key)) => (0, key),
            Some(("p", key)) => (1, key),
            _ => (2, key),
        };
        match (layer, key) {
            (2, "iae") => f.iae = value == "1",
            (2, "stat") => f.stat = number(value)? as u8,
            (2, "flags") => f.flags = number(value)? as u8,
            (2, "ignored") => f.ignored = number(value)? as u8,
            (2, "mfas") if value == "off" => f.mfas = count ^ 0x80,
            (2, "mfas") => f.mfas = number(value)? as u8,
            (2, "fas") => {
                let hex = match value {
                    "2to5" => "00F6F6282800",
                    "3to5" => "0000F6282800",
                    other => other,
                };
                for i in 0..6 {
                    f.fas[i] = u8::from_str_radix(hex.get(2 * i..2 * i + 2).unwrap_or("?"), 16).map_err(|e| e.to_string())?;
                }
            }
            (0 | 1, "bdi") => f.bdi[layer] = value == "1",
            (0 | 1, "bei") => f.bei[layer] = number(value)? as u8,
            (0 | 1, "count") => f.violations[layer] = number(value)? as u8,
            (0 | 1, "tti") => {
                let (at, byte) = byte_of(value)?;
                f.tti[layer] = if usize::from(count) % 64 == at { byte } else { 0 };
            }
            _ => return Err(format!("{field:?} is no field of a frame")),
        }
    }
    Ok(f)
}

/// So many numbers in order; those not written are 0.
fn numbers<T: TryFrom<u64> + Copy + Default, const N: usize>(words: &[&str]) -> Result<[T; N], String> {
    let mut all = [T::default(); N];
    if words.len() > N {
        return Err(format!("more than {N} numbers"));
    }
    for (place, word) in all.iter_mut().zip(words) {
        *place = T::try_from(number(word)?).map_err(|_| format!("{word} is too large"))?;
    }
    Ok(all)
}

/// What stands before a word and after it.
fn parted<'a, 'b>(words: &'a [&'b str], at: &str) -> Option<(&'a [&'b str], &'a [&'b str])> {
    let place = words.iter().position(|word| *word == at)?;
    Some((&words[..place], &words[place + 1..]))
}

/// What the line hands in, and what it says of the answer.
fn handed(words: &[&str]) -> Result<(Handed, Result<Summary, u8>), String> {
    let (given, answer) = match (parted(words, "gives"), parted(words, "refuses")) {
        (Some((given, sum)), None) => (given, Ok(Summary::from(numbers(sum)?))),
        (None, Some((given, refusal))) => (given, Err(numbers::<u8, 1>(refusal)?[0])),
        _ => return Err("it gives a summary or refuses".into()),
    };
    let bytes = |words: &[&str]| numbers(words).map(|numbers| Summary::from(numbers).bytes().to_vec());
    let handed = match (given[0], parted(&given[1..], "with")) {
        ("second", None) => Handed::Record(numbers::<u32, 22>(&given[1..])?.into_iter().flat_map(u32::to_le_bytes).collect()),
        ("join", Some((earlier, later))) => Handed::Two(bytes(earlier)?, bytes(later)?),
        _ => return Err("a second, or two to be joined".into()),
    };
    Ok((handed, answer))
}

/// The case in a text, or the line that cannot be read.
pub fn read(text: &str) -> Result<Case, String> {
    let mut lines: Vec<(usize, String)> = Vec::new();
    // The listing and what `quarters` prints, and which of them is being read.
    let mut printed: [Option<String>; 2] = [None, None];
    let mut into = None;
    let mut repeated: Option<(u64, Vec<(usize, String)>)> = None;
    for (i, whole) in text.lines().enumerate() {
        let line = whole.split('#').next().unwrap().trim();
        if let Some(which) = ["listing", "quarters"].iter().position(|word| line == *word && repeated.is_none()) {
            into = Some(printed[which].insert(String::new()));
            continue;
        }
        if let Some(into) = &mut into {
            if !line.is_empty() {
                **into += whole;
                **into += "\n";
            }
            continue;
        }
        match (line.split_whitespace().next(), &mut repeated) {
            (None, _) => {}
            (Some("repeat"), None) => repeated = Some((number(line[6..].trim())?, Vec::new())),
            (Some("end"), Some(_)) => {
                let (times, body) = repeated.take().unwrap();
                for _ in 0..times {
                    lines.extend(body.iter().cloned());
                }
            }
            (Some(_), Some((_, body))) => body.push((i + 1, line.into())),
            (Some(_), None) => lines.push((i + 1, line.into())),
        }
    }
    let [listing, quarters] = printed;
    if listing.is_none() && quarters.is_none() {
        return Err("no listing".into());
    }
    let mut lines = lines.into_iter();
    let (at, head) = lines.next().ok_or("empty")?;
    let fields: Vec<&str> = head.split_whitespace().collect();
    let mut trace = Trace::default();
    let p = match fields[0] {
        "provision" => provision(&fields[1..]).map_err(|e| format!("line {at}: {e}"))?,
        "none" => plain(1),
        _ => return Err(format!("line {at}: the first line provisions")),
    };
    if fields[0] == "provision" {
        trace.provisioning(&p);
    }
    let mut case = Case {
        provisioning: p.clone(),
        levels: Vec::new(),
        items: Vec::new(),
        handed: Vec::new(),
        bytes: Vec::new(),
        listing: String::new(),
        quarters: String::new(),
        unmet: Vec::new(),
    };
    let mut s = Supervisor::fresh(p);
    let mut count = 0u8;
    let mut word = 0u64;
    let mut begins = [0u64; 64];
    let mut with_counts = false;
    let mut level_words = [0u64; 6];
    let mut level_begins = [[0u64; 64]; 6];
    for (at, line) in lines {
        let fail = |e: String| format!("line {at}: {e}");
        let words: Vec<&str> = line.split_whitespace().collect();
        match words[0] {
            "frames" | "zeros" | "to" => {
                let zeros = words[0] == "zeros";
                let value = number(words.get(1).copied().unwrap_or("")).map_err(fail)?;
                let mut left = if words[0] == "to" { u64::MAX } else { value };
                while left > 0 {
                    let mut f = frame(zeros, count, &words[2..]).map_err(fail)?;
                    let (sm, pm) = (f.violations[0], f.violations[1]);
                    if !with_counts {
                        f.levels.iter_mut().for_each(|l| l.violations = 0);
                    }
                    let counts = f.counts();
                    match with_counts {
                        true => trace.frame_levels(&f.overhead(), f.flags, sm, pm, counts),
                        false => trace.frame(&f.overhead(), f.flags, sm, pm),
                    }
                    case.items.push(Item::Frame(f));
                    if let Ok(answer) = s.step_levels(&f.overhead(), f.flags, sm, pm, counts) {
                        began(&mut begins, word, answer);
                        word = answer;
                        for level in 1..=6 {
                            let answer = s.level_report(level).expect("it is a level");
                            let at = usize::from(level) - 1;
                            began(&mut level_begins[at], level_words[at], answer);
                            level_words[at] = answer;
                        }
                    }
                    left = if words[0] == "to" && u64::from(count) % 64 == value { 0 } else { left - 1 };
                    count = count.wrapping_add(1);
                }
            }
            "level" => {
                let level = words.get(1).copied().unwrap_or("");
                let (level, p) = (number(level).map_err(fail)? as u8, level_provision(&words[2..]).map_err(fail)?);
                trace.level(level, &p);
                if !s.begun() && s.takes(level) {
                    s.provision(level, p.clone());
                    case.levels.push((level, p));
                }
            }
            "counts" => with_counts = true,
            "no" if words[1..] == ["counts"] => with_counts = false,
            "jump" => count = count.wrapping_add(number(words[1]).map_err(fail)? as u8),
            "mark" => {
                trace.mark();
                case.items.push(Item::Mark);
                let _ = s.mark();
            }
            "bytes" => {
                for hex in &words[1..] {
                    trace.0.push(u8::from_str_radix(hex, 16).map_err(|e| fail(e.to_string()))?);
                }
            }
            "second" | "join" => {
                let (handed, said) = handed(&words).map_err(fail)?;
                let mut out = [0; BYTES];
                let answer = (handed.answer(&mut out), out);
                if answer != said.map_or_else(|refusal| (u64::from(refusal), [0; BYTES]), |sum| (0, sum.bytes())) {
                    let sum = Summary::from_bytes(&out).map(|sum| sum.numbers());
                    case.unmet.push(fail(format!("answered {}: {sum:?}", answer.0)));
                }
                case.handed.push(handed);
            }
            "begins" => {
                let (of, place) = match of_level(words[1]) {
                    Some((level, name)) => (&level_begins[usize::from(level) - 1], level_place(name)),
                    None => (&begins, place(words[1])),
                };
                let met = of[place.ok_or(fail(format!("{:?} is no bit", words[1])))? as usize];
                if met != number(words[2]).map_err(fail)? {
                    case.unmet.push(fail(format!("{} began {met} times", words[1])));
                }
            }
            "expect" => {
                for want in words[1..].iter().flat_map(|word| of_all(word)) {
                    let (stands, name) = match want.strip_prefix('!') {
                        Some(name) => (false, name),
                        None => (true, &want[..]),
                    };
                    let met = match name {
                        _ if of_level(name).is_some() => {
                            let (level, name) = of_level(name).expect("it is one");
                            match (name, level_place(name)) {
                                ("trace", _) => s.level_trace(level, 64).is_ok(),
                                (_, Some(place)) => s.level_report(level).is_ok_and(|word| word >> place & 1 == 1),
                                _ => return Err(fail(format!("{name:?} is no bit of a level"))),
                            }
                        }
                        "s.trace" => s.trace(0, 64).is_ok(),
                        "p.trace" => s.trace(1, 64).is_ok(),
                        _ if name.starts_with("head=") => word >> 8 & 15 == number(&name[5..]).map_err(fail)?,
                        _ => word >> place(name).ok_or(fail(format!("{name:?} is no bit")))? & 1 == 1,
                    };
                    if met != stands {
                        case.unmet.push(fail(format!("{want} is not so")));
                    }
                }
            }
            other => return Err(fail(format!("{other:?}"))),
        }
    }
    case.bytes = trace.0;
    case.listing = listing.unwrap_or_else(|| reader::list(&case.bytes));
    case.quarters = quarters.unwrap_or_else(|| summary::quarters(&case.bytes));
    Ok(case)
}

/// Counts the bits that stand in `after` and not in `before`.
fn began(counted: &mut [u64; 64], before: u64, after: u64) {
    for (place, number) in counted.iter_mut().enumerate() {
        *number += (after & !before) >> place & 1;
    }
}

/// Where a bit of a level's report stands.
fn level_place(name: &str) -> Option<u32> {
    report::level_bits(&Default::default()).iter().find(|(_, n, _)| *n == name).map(|(place, _, _)| *place)
}

/// Where a bit of the report stands, by the name used in the cases.
fn place(name: &str) -> Option<u32> {
    let standing = Default::default();
    let all = report::bits(&standing);
    all.iter().find(|(_, n, _)| n.replace("section ", "s.").replace("path ", "p.") == name).map(|(place, _, _)| *place)
}
