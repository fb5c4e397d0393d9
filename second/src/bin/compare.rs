//! Runs the second program against the programs and the calls, over traces by seed, and says what the traces exercised.
//!
//!     compare --seed N --traces M [--from I] [--cases DIR] [--write DIR]
//!
//! --from I --traces 1 repeats trace I alone; --write keeps each trace and its listing. With every 25th trace comes one of quarter-hours.
//!
//! LEDGERS: programs that read a trace and print its listing, by path, with colons between. EXPLAINS: programs that print its
//! explanation, SUMMARIES: programs that print its quarter-hours and days, and CALLS: programs made of calls.c and a card's library,
//! likewise. second/compare builds them and sets all four. LEDGER is taken where LEDGERS is not set.

use second::bei_cover::BeiCover;
use second::card::{Card, Handed, LevelFields, RECORD, TOLD};
use second::causes_cover::CausesCover;
use second::cover::Cover;
use second::explain::explain;
use second::generate::{self, Generated, Item};
use second::level;
use second::level_cover::LevelCover;
use second::level_generate;
use second::provisioning::{ceiling, LevelProvisioning, Provisioning};
use second::random::Random;
use second::reader;
use second::report;
use second::seconds_cover::SecondsCover;
use second::seconds_generate;
use second::summary::{self, Summary, BYTES, DAY, QUARTER};
use second::summary_cover::SummaryCover;
use second::summary_generate;
use std::io::{Read, Write};
use std::process::{Child, ChildStdin, ChildStdout, Command, Stdio};
use std::sync::atomic::{AtomicU64, Ordering};
use std::sync::mpsc::{channel, Sender};
use std::time::Instant;

/// A program fed by a thread, so that neither side waits for the other.
struct Program {
    path: String,
    child: Child,
    feed: Option<Sender<Vec<u8>>>,
    answers: ChildStdout,
}

impl Program {
    fn start(path: &str) -> Program {
        let mut child = Command::new(path)
            .stdin(Stdio::piped())
            .stdout(Stdio::piped())
            .spawn()
            .unwrap_or_else(|e| panic!("{path} cannot be started: {e}"));
        let mut stdin: ChildStdin = child.stdin.take().unwrap();
        let answers = child.stdout.take().unwrap();
        let (feed, orders) = channel::<Vec<u8>>();
        std::thread::spawn(move || {
            for bytes in orders {
                // A program may stop reading at a record refused.
                if stdin.write_all(&bytes).is_err() {
                    break;
                }
            }
        });
        Program { path: path.into(), child, feed: Some(feed), answers }
    }

    /// Begins again, for it may be out of step with the orders.
    fn again(&mut self) {
        let _ = self.child.kill();
        let _ = self.child.wait();
        *self = Program::start(&self.path.clone());
    }
}

/// What a program prints to a trace.
fn printed(path: &str, trace: &[u8]) -> String {
    let mut program = Program::start(path);
    program.feed.take().unwrap().send(trace.to_vec()).unwrap();
    let mut out = Vec::new();
    program.answers.read_to_end(&mut out).unwrap();
    let status = program.child.wait().unwrap();
    let mut text = String::from_utf8_lossy(&out).into_owned();
    if status.code().is_none() {
        text += &format!("({status})\n");
    }
    text
}

/// What was exercised: of line, section and path, of the path's causes, of the levels, of neighbouring seconds, of the far end's violations, and of summaries.
#[derive(Default)]
struct Exercised {
    base: Cover,
    causes: CausesCover,
    levels: LevelCover,
    seconds: SecondsCover,
    violations: BeiCover,
    summaries: SummaryCover,
}

impl Exercised {
    fn calls(&self) -> u64 {
        self.base.refusals.iter().sum::<u64>() + self.summaries.calls
    }

    /// The tables, and what in them is wrong.
    fn tables(&self) -> Vec<(String, Vec<String>)> {
        let (base, causes, levels) = (self.base.table(), self.causes.table(), self.levels.table());
        vec![base, causes, levels, self.seconds.table(), self.violations.table(), self.summaries.table()]
    }
}

/// Orders for calls.c, and what the second program answers to them.
#[derive(Default)]
struct Session {
    orders: Vec<u8>,
    expected: Vec<u8>,
    /// Where each order's answer begins, and what it was.
    calls: Vec<(usize, String)>,
    /// Where the second program's own answers are not as demand 3 has them, or a sum is not within the bounds of its far blocks.
    broken: Vec<String>,
    /// What stood of the levels after the last frame.
    stood: [level::Standing; 6],
}

impl Session {
    fn answer(&mut self, what: String, word: u64, buffer: &[u8], cover: &mut Exercised) {
        cover.base.refusals[(word & 255) as usize] += 1;
        self.expect(what, word, buffer);
    }

    fn expect(&mut self, what: String, word: u64, buffer: &[u8]) {
        self.calls.push((self.expected.len(), what));
        self.expected.extend(word.to_le_bytes());
        self.expected.push(0);
        self.expected.extend(buffer);
    }
}

struct Fields<'a> {
    k: u8,
    thr: [u32; 2],
    degm: [u8; 2],
    mode: [u8; 2],
    dis: [u8; 2],
    names: [&'a [u8]; 2],
}

fn fresh(session: &mut Session, card: &mut Card, sup: u8, f: &Fields, cover: &mut Exercised) {
    let o = &mut session.orders;
    o.extend([b'F', sup, f.k]);
    for layer in 0..2 {
        o.extend(f.thr[layer].to_le_bytes());
        o.push(f.degm[layer]);
    }
    o.extend(f.mode);
    o.extend(f.dis);
    for layer in 0..2 {
        o.extend((f.names[layer].len() as u16).to_le_bytes());
    }
    for layer in 0..2 {
        o.extend(f.names[layer]);
    }
    // A fresh supervisor is made whatever the bytes were; only the length counts. One made elsewhere is not the one compared.
    let answer = Provisioning::of(f.k, f.thr, f.degm, f.mode, f.dis, f.names);
    let word = match sup {
        0 => card.fresh(true, answer),
        1..=3 => card.fresh(false, answer),
        _ => Card::default().fresh(true, answer),
    };
    session.answer("otn_fresh".into(), word, &[], cover);
}

fn level(session: &mut Session, card: &mut Card, sup: u8, f: &LevelFields, cover: &mut Exercised) {
    let o = &mut session.orders;
    o.extend([b'L', sup, f.level]);
    o.extend(f.thr.to_le_bytes());
    o.extend([f.degm, f.mode, f.dis]);
    o.extend((f.names.len() as u16).to_le_bytes());
    o.extend(f.names);
    let word = card.level(sup == 0, f);
    session.answer(format!("otn_level, level {}", f.level), word, &[], cover);
}

/// One frame's overhead and what comes with it. Without the six counts the call is otn_step.
struct Given<'a> {
    overhead: &'a [u8],
    flags: u8,
    counts: [u8; 2],
    six: Option<[u8; 6]>,
}

fn step(session: &mut Session, card: &mut Card, sup: u8, f: &Given, cover: &mut Exercised) {
    let o = &mut session.orders;
    o.extend([if f.six.is_some() { b'N' } else { b'S' }, sup]);
    o.extend((f.overhead.len() as u16).to_le_bytes());
    o.extend(f.overhead);
    o.extend([f.flags, f.counts[0], f.counts[1]]);
    o.extend(f.six.iter().flatten());
    let before = card.supervisor.as_ref().map(|s| s.standing());
    let word = match f.six {
        Some(six) => card.step_levels(sup == 0, f.overhead, f.flags, f.counts[0], f.counts[1], six),
        None => card.step(sup == 0, f.overhead, f.flags, f.counts[0], f.counts[1]),
    };
    if let (Some(before), Some(s), 0) = (before, &card.supervisor, word & 255) {
        cover.base.frame(&before, &s.standing());
        cover.causes.frame(&s.standing(), !s.provisioning.acts(1));
        cover.levels.follow(s, &mut session.stood);
        cover.seconds.frame(s);
        cover.violations.frame(s, f.overhead);
        let acts = [s.provisioning.acts(0), s.provisioning.acts(1)];
        session.broken.extend(demand_3(word, acts));
    }
    session.answer(String::new(), word, &[], cover);
}

/// A mark, and the record that it filled.
fn mark(session: &mut Session, card: &mut Card, sup: u8, room: usize, fill: u8, cover: &mut Exercised) -> Option<Vec<u8>> {
    let mut buffer = vec![fill; room];
    if let (0, Some(s)) = (sup, &card.supervisor) {
        cover.seconds.mark(s);
        cover.violations.mark();
    }
    let word = card.mark(sup == 0, &mut buffer);
    cover.base.marks += u64::from(word & 255 == 0);
    told(session, b'M', sup, word, fill, buffer, cover)
}

fn pending(session: &mut Session, card: &Card, sup: u8, room: usize, fill: u8, cover: &mut Exercised) -> Option<Vec<u8>> {
    let mut buffer = vec![fill; room];
    let word = card.pending(sup == 0, &mut buffer);
    told(session, b'Q', sup, word, fill, buffer, cover)
}

/// The order of otn_mark or otn_pending, and its answer: the word and the record. The record is handed back where it has the 22 figures.
fn told(
    session: &mut Session,
    order: u8,
    sup: u8,
    word: u64,
    fill: u8,
    buffer: Vec<u8>,
    cover: &mut Exercised,
) -> Option<Vec<u8>> {
    session.orders.extend([order, sup]);
    session.orders.extend((buffer.len() as u16).to_le_bytes());
    session.orders.push(fill);
    let name = if order == b'M' { "otn_mark" } else { "otn_pending" };
    session.answer(format!("{name}, {} bytes", buffer.len()), word, &buffer, cover);
    if word != TOLD || buffer.len() < 88 {
        return None;
    }
    let figure = |i: usize| u32::from_le_bytes(buffer[4 * i..4 * i + 4].try_into().unwrap());
    session.broken.extend(demand_3_second(&std::array::from_fn(figure)));
    if buffer.len() >= RECORD {
        session.broken.extend(bounds(&std::array::from_fn(figure)));
    }
    Some(buffer)
}

/// The order of otn_summary or otn_join, and its answer: the word and the output, which is handed back where the call is accepted.
fn summed(session: &mut Session, handed: &Handed, room: usize, fill: u8, cover: &mut Exercised) -> Option<Vec<u8>> {
    let (order, what, inputs) = match handed {
        Handed::Record(record) => (b'R', "otn_summary", vec![record]),
        Handed::Two(earlier, later) => (b'J', "otn_join", vec![earlier, later]),
    };
    session.orders.push(order);
    for input in inputs {
        session.orders.extend((input.len() as u16).to_le_bytes());
        session.orders.extend(input);
    }
    session.orders.extend((room as u16).to_le_bytes());
    session.orders.push(fill);
    let mut out = vec![fill; room];
    let word = handed.answer(&mut out);
    session.expect(format!("{what}, {room} bytes"), word, &out);
    cover.summaries.call(handed, word);
    (word == 0).then_some(out)
}

/// What a caller keeps beside the seconds: the summaries of the quarter-hour and of the day so far.
struct Kept {
    quarter: Vec<u8>,
    day: Vec<u8>,
}

fn empty() -> Vec<u8> {
    Summary::default().bytes().to_vec()
}

impl Kept {
    /// A reported second is joined to its quarter-hour, and a quarter-hour that is whole to its day.
    fn second(&mut self, session: &mut Session, record: Vec<u8>, fill: u8, cover: &mut Exercised) {
        let number = u64::from(u32::from_le_bytes(record[..4].try_into().unwrap()));
        let second = summed(session, &Handed::Record(record), BYTES, fill, cover).expect("it is a reported second");
        join(session, &mut self.quarter, second, fill, cover);
        if number % QUARTER == 0 {
            let quarter = std::mem::replace(&mut self.quarter, empty());
            join(session, &mut self.day, quarter, fill, cover);
        }
        if number % DAY == 0 {
            self.day = empty();
        }
    }
}

/// What comes later is joined to what is kept, or kept alone where that is refused: a caller whose record was too short has a gap.
fn join(session: &mut Session, kept: &mut Vec<u8>, later: Vec<u8>, fill: u8, cover: &mut Exercised) {
    let handed = Handed::Two(std::mem::take(kept), later.clone());
    *kept = summed(session, &handed, BYTES, fill, cover).unwrap_or(later);
}

/// Whose accepted trace is read.
enum Of {
    Layer(u8),
    Level(u8),
}

fn trace(session: &mut Session, card: &Card, sup: u8, of: Of, room: usize, fill: u8, cover: &mut Exercised) {
    let mut buffer = vec![fill; room];
    let (order, number, word, what) = match of {
        Of::Layer(n) => (b'T', n, card.trace(sup == 0, n, &mut buffer), "otn_trace, layer"),
        Of::Level(n) => (b'U', n, card.level_trace(sup == 0, n, &mut buffer), "otn_level_trace, level"),
    };
    session.orders.extend([order, sup, number]);
    session.orders.extend((room as u16).to_le_bytes());
    session.orders.push(fill);
    session.answer(format!("{what} {number}, {room} bytes"), word, &buffer, cover);
}

fn level_report(session: &mut Session, card: &Card, sup: u8, level: u8, cover: &mut Exercised) {
    session.orders.extend([b'P', sup, level]);
    session.answer(format!("otn_level_report, level {level}"), card.level_report(sup == 0, level), &[], cover);
}

/// What demand 3 says of one frame's report: what is not so.
fn demand_3(word: u64, acts: [bool; 2]) -> Option<String> {
    let head = word >> 8 & 15;
    let stands = |place: u32| word >> place & 1 == 1;
    let causes = [(44, 3, true), (45, 4, true), (46, 5, acts[0]), (50, 7, true), (51, 8, true), (52, 9, acts[1])];
    for (place, of, fails) in causes {
        if fails && stands(place) != (head == of) {
            return Some(format!("demand 3: head {head}, cause of head {of}: {}", stands(place)));
        }
    }
    (stands(37) != (head != 0)).then(|| format!("demand 3: head {head}, path failed: {}", stands(37)))
}

/// And of a second that is told.
fn demand_3_second(s: &[u32; 22]) -> Option<String> {
    if s[2..12].iter().sum::<u32>() != s[1] {
        return Some(format!("demand 3: the ten figures do not add up to the frames: {s:?}"));
    }
    let most = s[2] + s[11];
    (s[17] > most || s[18] > most)
        .then(|| format!("demand 3: more path blocks than frames clear or under path trace mismatch: {s:?}"))
}

/// "In each reported second the sum is at least the far blocks and at most eight times them": of section, path and each level.
fn bounds(record: &[u32; RECORD / 4]) -> Option<String> {
    let broken = |five: &&[u32]| five[4] < five[1] || five[4] > 8 * five[1];
    record[12..].chunks(5).find(broken).map(|five| format!("a sum out of its bounds: {five:?}"))
}

/// A supervisor that is refused with 17, but for otn_fresh: of a wrong length, or with numbers beyond their ranges.
fn refused(rng: &mut Random) -> u8 {
    if rng.once_in(2) {
        return rng.within(1, 4) as u8;
    }
    rng.within(5, 55) as u8
}

/// Any room for a record, mostly the right one.
fn any_room(rng: &mut Random) -> usize {
    match rng.below(8) {
        0 => rng.below(300) as usize,
        1 => rng.pick(&[0, 1, 5, 88, 207, 209, 240]),
        _ => RECORD,
    }
}

/// A call that is refused, of any number, or one that changes nothing.
fn aside(rng: &mut Random, session: &mut Session, card: &mut Card, p: &Provisioning, cover: &mut Exercised) {
    let sup = if rng.once_in(3) { refused(rng) } else { 0 };
    let mut overhead = vec![0u8; rng.pick(&[0, 1, 63, 65, 128, 300])];
    rng.fill(&mut overhead);
    let good = [0u8; 64];
    let six = rng.once_in(2).then(|| std::array::from_fn(|_| rng.below(9) as u8));
    match rng.below(12) {
        0 => {
            let f = Given { overhead: &overhead, flags: rng.byte(), counts: [rng.byte(), rng.byte()], six };
            step(session, card, sup, &f, cover);
        }
        1 => {
            let f = Given { overhead: &good, flags: rng.within(4, 255) as u8, counts: [rng.below(12) as u8, rng.byte()], six };
            step(session, card, sup, &f, cover);
        }
        2 => {
            // One count of the two or of the eight is too high.
            let mut counts: [u8; 8] = std::array::from_fn(|_| rng.below(9) as u8);
            counts[rng.below(if six.is_some() { 8 } else { 2 }) as usize] = rng.within(9, 255) as u8;
            let six = six.map(|_| std::array::from_fn(|i| counts[2 + i]));
            let f = Given { overhead: &good, flags: rng.below(4) as u8, counts: [counts[0], counts[1]], six };
            step(session, card, sup, &f, cover);
        }
        3 => {
            let f = Given { overhead: &good, flags: 0, counts: [0; 2], six };
            step(session, card, refused(rng), &f, cover);
        }
        4 => drop(mark(session, card, refused(rng), rng.pick(&[0, 1, 87, 88, 89, 207, 208, 209]), rng.byte(), cover)),
        10 => drop(pending(session, card, sup, any_room(rng), rng.byte(), cover)),
        5 | 6 => {
            let layer = if rng.once_in(4) { rng.byte() } else { rng.below(2) as u8 };
            let of = if rng.once_in(2) { Of::Layer(layer) } else { Of::Level(any_level(rng)) };
            let room = if rng.once_in(3) { rng.pick(&[0, 1, 63, 65, 200]) } else { 64 };
            trace(session, card, sup, of, room, rng.byte(), cover);
        }
        7 => {
            let level = any_level(rng);
            level_report(session, card, sup, level, cover);
        }
        8 | 9 => late_level(rng, session, card, sup, p.k, cover),
        _ => {
            // A fresh that is refused: one field or more out of range.
            let empty: [u8; 33] = [7; 33];
            let mut f =
                Fields { k: p.k, thr: p.degthr, degm: p.degm, mode: p.mode, dis: p.dis, names: [&p.names[0], &p.names[1]] };
            let layer = rng.below(2) as usize;
            let ceiling = [20_420u32, 82_025, 329_492][p.k as usize - 1];
            for wrong in 5..=10 {
                if !rng.once_in(3) {
                    continue;
                }
                match wrong {
                    5 => f.k = rng.pick(&[0, 4, 255]),
                    6 => f.thr[layer] = rng.pick(&[0, ceiling + 1, u32::MAX]),
                    7 => f.degm[layer] = rng.pick(&[0, 1, 11, 255]),
                    8 => f.mode[layer] = rng.pick(&[4, 255]),
                    9 => f.dis[layer] = rng.pick(&[3, 255]),
                    _ => f.names[layer] = &empty[..rng.pick(&[0, 31, 33])],
                }
            }
            let accepted = Provisioning::of(f.k, f.thr, f.degm, f.mode, f.dis, f.names).is_ok();
            let sup = if accepted { refused(rng) } else { sup };
            fresh(session, card, sup, &f, cover);
        }
    }
}

/// A level, mostly of the six.
fn any_level(rng: &mut Random) -> u8 {
    if rng.once_in(6) {
        return rng.pick(&[0, 7, 255]);
    }
    rng.within(1, 6) as u8
}

/// A level's provisioning that is refused where a frame or a mark was accepted, or the level is none or given; otherwise it is not
/// asked of the supervisor that is compared.
fn late_level(rng: &mut Random, session: &mut Session, card: &mut Card, sup: u8, k: u8, cover: &mut Exercised) {
    let ceiling = ceiling(k).expect("k is 1 to 3");
    let names = [9u8; 33];
    let mut f = LevelFields { level: any_level(rng), thr: 1, degm: 2, mode: 0, dis: 0, names: &names[..32] };
    for wrong in 6..=10 {
        if !rng.once_in(6) {
            continue;
        }
        match wrong {
            6 => f.thr = rng.pick(&[0, ceiling + 1, u32::MAX]),
            7 => f.degm = rng.pick(&[0, 1, 11, 255]),
            8 => f.mode = rng.pick(&[4, 255]),
            9 => f.dis = rng.pick(&[3, 255]),
            _ => f.names = &names[..rng.pick(&[0, 31, 33])],
        }
    }
    let accepted = card.clone().level(true, &f) == 0;
    level(session, card, if accepted { refused(rng) } else { sup }, &f, cover);
}

fn level_fields(level: u8, p: &LevelProvisioning) -> LevelFields<'_> {
    LevelFields { level, thr: p.degthr, degm: p.degm, mode: p.mode, dis: p.dis, names: &p.names }
}

/// What is handed in to be summed after the trace, each with the room for its answer; and whether the caller has room for every record, so that its
/// summaries have no gap.
struct Caller {
    handed: Vec<(Handed, usize)>,
    roomy: bool,
}

fn session(rng: &mut Random, g: &Generated, caller: &Caller, cover: &mut Exercised) -> Session {
    let mut session = Session::default();
    let mut card = Card::default();
    let mut kept = Kept { quarter: empty(), day: empty() };
    let p = &g.provisioning;
    let fields = Fields { k: p.k, thr: p.degthr, degm: p.degm, mode: p.mode, dis: p.dis, names: [&p.names[0], &p.names[1]] };
    fresh(&mut session, &mut card, 0, &fields, cover);
    for (number, p) in &g.levels {
        if rng.once_in(4) {
            late_level(rng, &mut session, &mut card, 0, g.provisioning.k, cover);
        }
        level(&mut session, &mut card, 0, &level_fields(*number, p), cover);
    }
    let often = rng.pick(&[5, 20, 100]);
    let read: Vec<usize> = g.levels.iter().flat_map(|(n, _)| [level::field(*n), level::field(*n) + 2]).collect();
    for item in &g.items {
        if rng.once_in(often) {
            aside(rng, &mut session, &mut card, p, cover);
        }
        match item {
            Item::Frame(f) => {
                // Bytes that are ignored hold anything.
                let mut overhead = f.overhead();
                for i in (10..41).chain(44..64).chain([8, 42]).filter(|i| !read.contains(i)) {
                    overhead[i] = rng.byte();
                }
                // otn_step is the frame whose six counts are 0.
                let six = if g.counted { f.counts() } else { [0; 6] };
                let six = (six != [0; 6] || rng.once_in(2)).then_some(six);
                let frame = Given { overhead: &overhead, flags: f.flags, counts: f.violations, six };
                step(&mut session, &mut card, 0, &frame, cover);
                if f.mfas % 64 == 63 && rng.once_in(4) {
                    let of = if rng.once_in(2) { Of::Layer(rng.below(2) as u8) } else { Of::Level(any_level(rng)) };
                    trace(&mut session, &card, 0, of, 64, rng.byte(), cover);
                }
                if !g.levels.is_empty() && rng.once_in(2) {
                    let level = any_level(rng);
                    level_report(&mut session, &card, 0, level, cover);
                }
            }
            Item::Mark => {
                let (room, fill) = (any_room(rng), rng.byte());
                let room = if caller.roomy { RECORD } else { room };
                if let Some(record) = mark(&mut session, &mut card, 0, room, fill, cover) {
                    kept.second(&mut session, record, fill, cover);
                }
                if rng.once_in(2) {
                    pending(&mut session, &card, 0, any_room(rng), rng.byte(), cover);
                }
                for (number, _) in &g.levels {
                    level_report(&mut session, &card, 0, *number, cover);
                }
            }
        }
    }
    // What a scan prints last.
    let fill = rng.byte();
    if let Some(record) = pending(&mut session, &card, 0, RECORD, fill, cover) {
        kept.second(&mut session, record, fill, cover);
    }
    for (handed, room) in &caller.handed {
        summed(&mut session, handed, *room, rng.byte(), cover);
    }
    card.supervisor.iter().for_each(|s| cover.seconds.end(s));
    cover.violations.end();
    session.orders.push(b'Z');
    session
}

/// What a worker is given: whose trace it is, the trace, its listing, its quarter-hours and its explanation (empty where it is not compared),
/// the orders and their answers.
struct Task {
    whose: String,
    trace: Vec<u8>,
    listing: String,
    quarters: String,
    explanation: String,
    session: Option<Session>,
}

/// One program under test with its thread. The tasks in waiting are few, so that the generator does not run far ahead.
struct Worker {
    tasks: std::sync::mpsc::SyncSender<std::sync::Arc<Task>>,
    thread: std::thread::JoinHandle<()>,
}

/// After so many differences no more is compared.
const MANY: u64 = 10;
static DIFFERENCES: AtomicU64 = AtomicU64::new(0);

fn enough() -> bool {
    DIFFERENCES.load(Ordering::Relaxed) >= MANY
}

fn differs(what: String) {
    DIFFERENCES.fetch_add(1, Ordering::Relaxed);
    println!("{what}");
}

/// Compares what a program prints to each trace with the text that the task has for it.
fn text_worker(path: String, text: fn(&Task) -> &str) -> Worker {
    let (tasks, waiting) = std::sync::mpsc::sync_channel::<std::sync::Arc<Task>>(8);
    let thread = std::thread::spawn(move || {
        for task in waiting {
            let expected = text(&task);
            if expected.is_empty() || enough() {
                continue;
            }
            let got = printed(&path, &task.trace);
            if got != expected {
                differs(format!("{}: {path}: {}", task.whose, parting(&got, expected)));
            }
        }
    });
    Worker { tasks, thread }
}

/// Gives every order to a program made of calls.c and compares what it answers.
fn calls_worker(path: String) -> Worker {
    let (tasks, waiting) = std::sync::mpsc::sync_channel::<std::sync::Arc<Task>>(8);
    let thread = std::thread::spawn(move || {
        let mut program = Program::start(&path);
        for task in waiting {
            let Some(session) = task.session.as_ref().filter(|_| !enough()) else { continue };
            if let Err(what) = check_calls(&mut program, session) {
                differs(format!("{}: {path}: {what}", task.whose));
                program.again();
            }
        }
        drop(program.feed.take());
        let status = program.child.wait().unwrap();
        if !status.success() {
            differs(format!("{path}: {status}"));
        }
    });
    Worker { tasks, thread }
}

/// The programs under test, by path.
struct Programs {
    ledgers: Vec<String>,
    summaries: Vec<String>,
    explains: Vec<String>,
    calls: Vec<String>,
}

impl Programs {
    /// The explanation, where there is a program to hold it against.
    fn explanation(&self, trace: &[u8]) -> String {
        if self.explains.is_empty() {
            return String::new();
        }
        explain(trace)
    }
}

struct Workers(Vec<Worker>);

impl Workers {
    fn start(programs: &Programs) -> Workers {
        let ledgers = programs.ledgers.iter().map(|path| text_worker(path.clone(), |task| &task.listing));
        let summaries = programs.summaries.iter().map(|path| text_worker(path.clone(), |task| &task.quarters));
        let explains = programs.explains.iter().map(|path| text_worker(path.clone(), |task| &task.explanation));
        let calls = programs.calls.iter().map(|path| calls_worker(path.clone()));
        Workers(ledgers.chain(summaries).chain(explains).chain(calls).collect())
    }
    fn give(&self, task: Task) {
        let task = std::sync::Arc::new(task);
        for worker in &self.0 {
            worker.tasks.send(task.clone()).expect("the worker goes on");
        }
    }
    /// Waits for all.
    fn end(self) {
        let threads: Vec<_> = self.0.into_iter().map(|w| w.thread).collect();
        threads.into_iter().for_each(|t| t.join().expect("the worker ends"));
    }
}

fn check_calls(program: &mut Program, session: &Session) -> Result<(), String> {
    let feed = program.feed.as_ref().unwrap();
    feed.send(session.orders.clone()).map_err(|_| "it takes no more orders".to_string())?;
    let mut got = vec![0u8; session.expected.len()];
    program.answers.read_exact(&mut got).map_err(|e| format!("it stopped answering: {e}"))?;
    if got == session.expected {
        return Ok(());
    }
    let at = got.iter().zip(&session.expected).position(|(a, b)| a != b).unwrap();
    let call = session.calls.partition_point(|(start, _)| *start <= at) - 1;
    let start = session.calls[call].0;
    let word = |bytes: &[u8]| u64::from_le_bytes(bytes[start..start + 8].try_into().unwrap());
    let (a, b) = (word(&got), word(&session.expected));
    let frames = session.calls[..call].iter().filter(|(_, what)| what.is_empty()).count();
    let what = if session.calls[call].1.is_empty() { "otn_step" } else { &session.calls[call].1 };
    Err(format!(
        "call {} ({what}, after {frames} steps): answered {a:#x}, second {b:#x} ({}); complaints {:#x}; byte {} of the answer",
        call + 1,
        report::difference(a, b),
        got[start + 8],
        at - start
    ))
}

fn paths(variable: &str) -> Vec<String> {
    let value = std::env::var(variable).unwrap_or_default();
    value.split(':').filter(|p| !p.is_empty()).map(String::from).collect()
}

/// Where two texts part.
fn parting(got: &str, expected: &str) -> String {
    match got.lines().zip(expected.lines()).enumerate().find(|(_, (a, b))| a != b) {
        Some((i, (a, b))) => format!("line {}: printed {a:?}, expected {b:?}", i + 1),
        None => format!("{} lines, expected {}", got.lines().count(), expected.lines().count()),
    }
}

/// The directed cases: the second program, each program and each card's calls against the listing and reports in the text. What they
/// select of the path's causes counts.
fn directed(dir: &str, programs: &Programs, write: &Option<String>, causes: &mut CausesCover) {
    let workers = Workers::start(programs);
    let mut names: Vec<_> = std::fs::read_dir(dir).expect("the cases are there").map(|e| e.unwrap().path()).collect();
    names.retain(|p| p.extension().is_some_and(|e| e == "txt"));
    names.sort();
    let mut count = 0;
    for path in names {
        let name = path.file_stem().unwrap().to_string_lossy().into_owned();
        let whose = format!("case {name}");
        let fail = |what: String| differs(format!("{whose}: second: {what}"));
        count += 1;
        let case = match second::cases::read(&std::fs::read_to_string(&path).unwrap()) {
            Ok(case) => case,
            Err(what) => {
                fail(what);
                continue;
            }
        };
        if let Some(dir) = write {
            std::fs::write(format!("{dir}/{name}.trace"), &case.bytes).unwrap();
            std::fs::write(format!("{dir}/{name}.listing"), &case.listing).unwrap();
        }
        for unmet in &case.unmet {
            fail(unmet.clone());
        }
        for (got, expected) in [(reader::list(&case.bytes), &case.listing), (summary::quarters(&case.bytes), &case.quarters)] {
            if got != *expected {
                fail(parting(&got, expected));
            }
        }
        // The calls meet a full second in trace 0.
        let g = Generated {
            provisioning: case.provisioning,
            levels: case.levels,
            counted: true,
            items: case.items,
            bytes: Vec::new(),
            about: String::new(),
        };
        let mut cover = Exercised::default();
        let caller = Caller { handed: case.handed.into_iter().map(|handed| (handed, BYTES)).collect(), roomy: false };
        let session = (g.items.len() < 100_000).then(|| session(&mut Random::new(count), &g, &caller, &mut cover));
        causes.add(&cover.causes);
        let explanation = programs.explanation(&case.bytes);
        let (listing, quarters) = (case.listing, case.quarters);
        workers.give(Task { whose, trace: case.bytes, listing, quarters, explanation, session });
    }
    workers.end();
    println!("{count} directed cases, {} differences", DIFFERENCES.load(Ordering::Relaxed));
}

/// Trace `index` by seed. Every fifth is of neighbouring seconds; of the others every third has levels.
fn generated(seed: u64, index: u64) -> Generated {
    let other = index - index / 5;
    match (index % 5, other % 3) {
        (4, _) => seconds_generate::trace(seed, index / 5),
        (_, 2) => level_generate::trace(seed, other / 3),
        _ => generate::trace(seed, other - other / 3),
    }
}

/// A run over traces by seed.
struct Run<'a> {
    seed: u64,
    programs: &'a Programs,
    workers: Workers,
    write: Option<String>,
    cover: Exercised,
    listings: u64,
    explanations: u64,
}

impl Run<'_> {
    /// One trace to every program. `number` is its own, and `roomy` as in `Caller`.
    fn trace(&mut self, name: &str, number: u64, g: Generated, roomy: bool) {
        let seed = self.seed;
        let whose = format!("seed {seed} trace {name} ({})", g.about);
        // The full second's texts are a directed case.
        let [listing, quarters, explanation] = match number {
            0 => Default::default(),
            _ => [reader::list(&g.bytes), summary::quarters(&g.bytes), self.programs.explanation(&g.bytes)],
        };
        self.listings += u64::from(!listing.is_empty());
        self.explanations += u64::from(!explanation.is_empty());
        self.cover.summaries.printed(&quarters);
        if let Some(number) = listing.lines().find_map(|l| l.strip_prefix("R ")?.split(' ').next()?.parse::<usize>().ok()) {
            self.cover.base.refusals[number] += 1;
        }
        if let Some(dir) = &self.write {
            std::fs::write(format!("{dir}/{seed}-{name}.trace"), &g.bytes).unwrap();
            std::fs::write(format!("{dir}/{seed}-{name}.listing"), &listing).unwrap();
        }
        let mixed = seed ^ number.wrapping_mul(0xD1B5_4A32_D192_ED03);
        let mut rng = Random::new(mixed.rotate_left(32));
        let handed = (0..20).map(|_| (summary_generate::handed(&mut rng), summary_generate::room(&mut rng))).collect();
        let caller = Caller { handed, roomy };
        let session = session(&mut Random::new(mixed), &g, &caller, &mut self.cover);
        for broken in session.broken.iter().take(1) {
            differs(format!("{whose}: second: {broken}"));
        }
        self.workers.give(Task { whose, trace: g.bytes, listing, quarters, explanation, session: Some(session) });
    }
}

fn main() {
    let mut seed = 1u64;
    let mut traces = 500u64;
    let mut from = 0u64;
    let mut write: Option<String> = None;
    let mut cases: Option<String> = None;
    let mut args = std::env::args().skip(1);
    while let Some(arg) = args.next() {
        let value = args.next();
        match (arg.as_str(), value) {
            ("--seed", Some(v)) => seed = v.parse().expect("--seed takes a number"),
            ("--traces", Some(v)) => traces = v.parse().expect("--traces takes a number"),
            ("--from", Some(v)) => from = v.parse().expect("--from takes a number"),
            ("--write", Some(v)) => write = Some(v),
            ("--cases", Some(v)) => cases = Some(v),
            _ => {
                eprintln!("compare --seed N --traces M [--from I] [--cases DIR] [--write DIR]");
                std::process::exit(2);
            }
        }
    }
    let mut programs =
        Programs { ledgers: paths("LEDGERS"), summaries: paths("SUMMARIES"), explains: paths("EXPLAINS"), calls: paths("CALLS") };
    if programs.ledgers.is_empty() {
        programs.ledgers = paths("LEDGER");
    }
    let began = Instant::now();
    let mut cover = Exercised::default();
    if let Some(dir) = &cases {
        directed(dir, &programs, &write, &mut cover.causes);
    }
    println!("seed {seed}, {traces} traces");
    let workers = Workers::start(&programs);
    let mut run = Run { seed, programs: &programs, workers, write, cover, listings: 0, explanations: 0 };
    for index in from..from + traces {
        if enough() {
            println!("{MANY} differences; no more is compared");
            break;
        }
        run.trace(&index.to_string(), index, generated(seed, index), false);
        if index % 25 == 24 {
            run.trace(&format!("{index}-quarters"), !index, summary_generate::trace(seed, index / 25), true);
        }
    }
    run.workers.end();
    let failures = DIFFERENCES.load(Ordering::Relaxed);
    let mut wrong = Vec::new();
    for (table, of_table) in run.cover.tables() {
        println!("{table}");
        wrong.extend(of_table);
    }
    for line in &wrong {
        println!("{line}");
    }
    println!(
        "compared: {} listings each of {}, {} of quarter-hours each of {}, {} explanations each of {}, {} calls each of {}; {:.1} s",
        run.listings,
        programs.ledgers.len(),
        run.listings,
        programs.summaries.len(),
        run.explanations,
        programs.explains.len(),
        run.cover.calls(),
        programs.calls.len(),
        began.elapsed().as_secs_f64()
    );
    if failures > 0 || !wrong.is_empty() {
        println!("compare: {failures} differences, {} rows wrong (seed {seed})", wrong.len());
        std::process::exit(1);
    }
    println!("compare: all equal (seed {seed})");
}
