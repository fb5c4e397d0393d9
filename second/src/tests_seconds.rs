//! Request K3: the pending second. What it is voided by, when it is told, and what the calls answer; by tallies written here anew.

use crate::card::{Card, RECORD, TOLD};
use crate::explain::explain;
use crate::frame::{plain, Sent};
use crate::generate::{self, Generated, Item};
use crate::listing;
use crate::reader::{list, told, Place, Trace};
use crate::seconds_cover::SecondsCover;
use crate::seconds_generate;
use crate::supervisor::{Second, Supervisor};

/// A supervisor with the levels of a generated trace.
fn begun(g: &Generated) -> Supervisor {
    let mut s = Supervisor::fresh(g.provisioning.clone());
    g.levels.iter().for_each(|(level, p)| s.provision(*level, p.clone()));
    s
}

fn step(s: &mut Supervisor, g: &Generated, f: &Sent) {
    let counts = if g.counted { f.counts() } else { [0; 6] };
    s.step_levels(&f.overhead(), f.flags, f.violations[0], f.violations[1], counts).unwrap();
}

#[test]
fn the_traces_exercise_every_row() {
    let mut cover = SecondsCover::default();
    for index in 0..60 {
        let g = seconds_generate::trace(1, index);
        let mut s = begun(&g);
        for item in &g.items {
            match item {
                Item::Frame(f) => {
                    step(&mut s, &g, f);
                    cover.frame(&s);
                }
                Item::Mark => {
                    cover.mark(&s);
                    s.mark().unwrap();
                }
            }
        }
        cover.end(&s);
    }
    let (table, wrong) = cover.table();
    println!("{table}");
    assert_eq!(wrong, Vec::<String>::new());
}

/// What the section and the levels have of a closed second before any discard, and what stood in it. The path's five are never discarded.
#[derive(Clone, Default)]
struct Tally {
    frames: u32,
    heads: [u32; 10],
    /// Section, path, levels 1 to 6.
    raw: [[u32; 5]; 8],
    iae: [bool; 8],
    biae: [bool; 8],
}

impl Tally {
    fn frame(&mut self, s: &Supervisor, g: &Generated, f: &Sent) {
        let now = s.standing();
        self.frames += 1;
        self.heads[usize::from(crate::report::head(&now))] += 1;
        let stopped = now.ssf[1] || now.dais() || now.doci() || now.dlck();
        let silent = [now.ssf[0], stopped];
        for layer in 0..2 {
            let near_ds = silent[layer] || now.dtim[layer];
            self.count(layer, silent[layer], f.violations[layer], f.bei[layer], near_ds, now.dbdi[layer]);
        }
        (self.iae[0], self.biae[0]) = (self.iae[0] || now.diae, self.biae[0] || now.dbiae);
        for (at, l) in (2..).zip(&f.levels) {
            let Some(level) = s.level(at as u8 - 1) else { continue };
            let now = level.standing();
            let violations = if g.counted { l.violations } else { 0 };
            self.count(at, now.silent(), violations, l.bei, now.silent() || now.dtim, now.dbdi);
            self.iae[at] |= now.stat == Some(2) && !now.dtim;
            self.biae[at] |= now.dbiae;
        }
    }

    fn count(&mut self, at: usize, silent: bool, violations: u8, bei: u8, near_ds: bool, far_ds: bool) {
        let five = &mut self.raw[at];
        five[0] += u32::from(violations > 0 && !silent);
        five[1] += u32::from(bei > 0 && bei < 9 && !silent);
        five[2] |= u32::from(near_ds);
        five[3] |= u32::from(far_ds);
        five[4] += if bei < 9 && !silent { u32::from(bei) } else { 0 };
    }

    /// Second `number` as it is told: voided by itself and by those in `next`, which is the second after it or nothing.
    fn told(&self, number: u32, next: Option<&Tally>, s: &Supervisor) -> Second {
        let by = |what: fn(&Tally) -> &[bool; 8], at: usize| what(self)[at] || next.is_some_and(|next| what(next)[at]);
        let five: [[u32; 5]; 8] = std::array::from_fn(|at| {
            let (iae, biae) = (by(|t| &t.iae, at), by(|t| &t.biae, at));
            let [near, _, near_ds, _, _] = self.raw[at];
            match (iae, biae) {
                (true, _) => [0; 5],
                (false, true) => [near, 0, near_ds, 0, 0],
                (false, false) => self.raw[at],
            }
        });
        let mut figures = [0; 22];
        (figures[0], figures[1]) = (number, self.frames);
        figures[2..12].copy_from_slice(&self.heads);
        figures[12..17].copy_from_slice(&five[0]);
        figures[17..22].copy_from_slice(&five[1]);
        Second { figures, levels: std::array::from_fn(|i| s.level(i as u8 + 1).map(|_| five[2 + i])) }
    }
}

/// Every second is told once and in order: second i at mark i + 1, the last one at the end; each by tallies of its own frames, voided by what
/// stood in it and in the next, the last one by what stood in it.
#[test]
fn tallies_tell_the_same() {
    for index in 0..120 {
        let g = match index % 2 {
            0 => seconds_generate::trace(3, index),
            _ => generate::trace(3, index),
        };
        let mut s = begun(&g);
        let mut closed: Vec<Tally> = Vec::new();
        let mut open = Tally::default();
        let mut listed = String::new();
        for item in &g.items {
            match item {
                Item::Frame(f) => {
                    step(&mut s, &g, f);
                    open.frame(&s, &g, f);
                }
                Item::Mark => {
                    let before = closed.len();
                    let reported = closed.last().map(|t| t.told(before as u32, Some(&open), &s));
                    assert_eq!(s.mark(), Ok(reported), "{}: mark {}", g.about, before + 1);
                    listed += &reported.as_ref().map_or(String::new(), listing::second);
                    closed.push(std::mem::take(&mut open));
                }
            }
            // Frames of the open second void nothing.
            let pending = closed.last().map(|t| t.told(closed.len() as u32, None, &s));
            assert_eq!(s.pending(), pending, "{}", g.about);
        }
        listed += &s.pending().as_ref().map_or(String::new(), listing::second);
        let frames = g.items.iter().filter(|item| **item != Item::Mark).count();
        listed += &listing::end(closed.len() as u64, frames as u64);
        assert_eq!(list(&crate::level_generate::records(&g)), listed);
    }
}

/// dDEG as it was before K3: by the near blocks that were printed then, which are those of the second just closed with its own discard.
#[test]
fn ddeg_is_not_revised() {
    for index in 0..40 {
        let g = seconds_generate::trace(4, index);
        let mut s = begun(&g);
        let (mut bad, mut stands) = (Vec::new(), false);
        for item in &g.items {
            match item {
                Item::Frame(f) => {
                    step(&mut s, &g, f);
                    assert_eq!(s.standing().ddeg[0], stands, "{}", g.about);
                }
                Item::Mark => {
                    s.mark().unwrap();
                    bad.push(s.pending().unwrap().figures[12] >= g.provisioning.degthr[0]);
                    if let Some([.., a, b]) = bad.get(bad.len().saturating_sub(2)..).filter(|two| two.len() == 2) {
                        stands = if a == b { *a } else { stands };
                    }
                }
            }
        }
    }
}

fn good_frames(s: &mut Supervisor, frames: u32, change: impl Fn(&mut Sent)) {
    for number in 0..frames {
        let mut f = Sent { bei: [1, 1], violations: [1, 1], ..Sent::good(number as u8) };
        change(&mut f);
        s.step(&f.overhead(), f.flags, f.violations[0], f.violations[1]).unwrap();
    }
}

/// A mark that is refused with 4 reports nothing, and leaves the pending second and the open one.
#[test]
fn a_refused_mark_keeps_the_pending_second() {
    let mut s = Supervisor::fresh(plain(1)).with_closed(u64::from(u32::MAX) - 1);
    good_frames(&mut s, 6, |_| {});
    let reported = s.mark().unwrap().unwrap();
    assert_eq!((reported.figures[0], &reported.figures[1..]), (u32::MAX - 1, &[0; 21][..]));
    let expected = [u32::MAX, 6, 6, 0, 0, 0, 0, 0, 0, 0, 0, 0, 6, 6, 0, 0, 6, 6, 6, 0, 0, 6];
    assert_eq!(s.pending().unwrap().figures, expected);
    good_frames(&mut s, 5, |f| f.iae = true);
    assert!(s.standing().diae);
    let mut card = Card { supervisor: Some(s) };
    let mut record = [9; RECORD];
    for _ in 0..3 {
        assert_eq!((card.mark(true, &mut record), record), (4, [9; RECORD]));
        let s = card.supervisor.as_ref().unwrap();
        assert_eq!((s.pending().unwrap().figures, s.open_frames(), s.closed()), (expected, 5, u64::from(u32::MAX)));
    }
    assert_eq!(card.pending(true, &mut record), TOLD);
    assert_eq!((&record[..4], &record[4..8]), (&[255; 4][..], &[6, 0, 0, 0][..]));
}

/// otn_mark: 17, 4, bit 8. otn_pending: 17, bit 8. A record is filled where bit 8 stands, as far as it has room, and left alone otherwise.
#[test]
fn what_the_calls_answer() {
    let mut card = Card::default();
    let mut record = [9; RECORD + 8];
    assert_eq!((card.mark(true, &mut record), card.pending(true, &mut record)), (17, 17));
    card.fresh(true, Ok(plain(1)));
    assert_eq!((card.mark(false, &mut record), card.pending(false, &mut record)), (17, 17));
    // Nothing is pending before the first mark, frames or not.
    assert_eq!(card.pending(true, &mut record), 0);
    good_frames(card.supervisor.as_mut().unwrap(), 3, |_| {});
    assert_eq!((card.pending(true, &mut record), card.mark(true, &mut record)), (0, 0));
    assert_eq!(record, [9; RECORD + 8]);
    // The second just closed is pending, and reading it changes nothing.
    for _ in 0..2 {
        assert_eq!(card.pending(true, &mut record), TOLD);
        assert_eq!((&record[..12], &record[RECORD..]), (&[1, 0, 0, 0, 3, 0, 0, 0, 3, 0, 0, 0][..], &[9; 8][..]));
        assert_eq!(record[48..68], [3, 0, 0, 0, 3, 0, 0, 0, 0, 0, 0, 0, 0, 0, 0, 0, 3, 0, 0, 0]);
        record = [9; RECORD + 8];
    }
    for room in [0, 1, 7, 48, 50, 207, 208, 209] {
        assert_eq!(card.pending(true, &mut record[..room]), TOLD);
        assert_eq!(record[room.min(RECORD)..], [9; RECORD + 8][room.min(RECORD)..]);
        record = [9; RECORD + 8];
    }
    // dIAE in the open second: pending keeps its three and three, the mark reports them voided.
    good_frames(card.supervisor.as_mut().unwrap(), 5, |f| f.iae = true);
    assert_eq!((card.pending(true, &mut record), &record[48..52]), (TOLD, &[3, 0, 0, 0][..]));
    assert_eq!((card.mark(true, &mut record), &record[..8]), (TOLD, &[1, 0, 0, 0, 3, 0, 0, 0][..]));
    assert_eq!((&record[48..68], &record[68..72]), (&[0; 20][..], &[3, 0, 0, 0][..]));
    assert_eq!((card.pending(true, &mut record), &record[..8]), (TOLD, &[2, 0, 0, 0, 5, 0, 0, 0][..]));
    // Anew nothing is pending.
    card.fresh(true, Ok(plain(1)));
    assert_eq!(card.pending(true, &mut []), 0);
}

/// Each second's line stands at the next mark's place, after the F lines of the next second; the last one's before R and E.
#[test]
fn where_the_lines_stand() {
    for index in 0..80 {
        let bytes = seconds_generate::trace(5, index).bytes;
        let text = explain(&bytes);
        let others: String = text.lines().filter(|line| !line.starts_with('F')).map(|line| format!("{line}\n")).collect();
        assert_eq!(others, list(&bytes));
        let number = |line: &str| line.split(' ').nth(1).unwrap().parse::<u64>().unwrap();
        let (mut seconds, mut refused) = (0, false);
        for line in text.lines() {
            match &line[..1] {
                "S" => {
                    seconds += 1;
                    assert_eq!((number(line), refused), (seconds, false));
                }
                "F" => assert!(!refused && [seconds + 1, seconds + 2].contains(&number(line)), "{line}"),
                "R" => refused = true,
                _ => assert_eq!(number(line), seconds),
            }
        }
        // By the marks themselves: how many S lines there are before each.
        let (mut marks, mut lines) = (0u64, 0u64);
        told(&bytes, |place, _| {
            if let Place::Mark(reported) = place {
                lines += u64::from(reported.is_some());
                marks += 1;
                assert_eq!(lines, marks - 1);
            }
            String::new()
        });
    }
}

/// A trace with no mark prints no second; refused before any provisioning it has no supervisor to ask.
#[test]
fn nothing_pending_is_printed() {
    let mut t = Trace::default();
    t.provisioning(&plain(1));
    t.frame(&[0; 64], 0, 0, 0);
    assert_eq!(list(&t.0), "E 0 1\n");
    t.0.push(0);
    assert_eq!(list(&t.0), "R 14 154\nE 0 1\n");
    assert_eq!(list(&[2, 0, 2, 0]), "R 16 0\nE 0 0\n");
}
