//! Request K1: the directed cases of the levels, where a level's bytes stand, the order of refusals in records and in calls, and what
//! generated traces with levels must keep.

use crate::card::{Card, LevelFields, RECORD, TOLD};
use crate::cases;
use crate::explain::explain;
use crate::frame::{plain, plain_level, Sent};
use crate::generate::{Generated, Item};
use crate::level::{field, Received, Standing};
use crate::level_cover::{self, LevelCover};
use crate::level_generate;
use crate::provisioning::LevelProvisioning;
use crate::random::Random;
use crate::reader::{list, told, Place, Trace};
use crate::report::{level_bits, level_word};
use crate::seconds_generate;
use crate::supervisor::{Second, Supervisor, FULL_SECOND};

/// Each pair of a level's conditions that can begin and clear in the same frame is in some directed case.
#[test]
fn each_pair_is_in_some_case() {
    let dir = concat!(env!("CARGO_MANIFEST_DIR"), "/cases");
    let mut cover = LevelCover::default();
    for entry in std::fs::read_dir(dir).unwrap() {
        let case = cases::read(&std::fs::read_to_string(entry.unwrap().path()).unwrap()).unwrap();
        let mut before = [Standing::default(); 6];
        told(&case.bytes, |place, s| {
            if let Place::Frame(_) = place {
                cover.follow(s, &mut before);
            }
            String::new()
        });
    }
    let missing: Vec<_> = level_cover::pairs().into_iter().filter(|(x, y)| cover.pairs[*x][*y] == 0).collect();
    assert_eq!(missing, []);
}

#[test]
fn pairs_that_can_happen() {
    assert_eq!(level_cover::pairs().len(), 10 * 9 - 8 - 3 - 1 - 1);
}

/// A supervisor with the levels of a generated trace.
fn begun(g: &Generated) -> Supervisor {
    let mut s = Supervisor::fresh(g.provisioning.clone());
    for (level, p) in &g.levels {
        assert!(!s.begun() && s.takes(*level));
        s.provision(*level, p.clone());
    }
    s
}

/// The counts that a trace's frame brings.
fn counts(g: &Generated, f: &Sent) -> [u8; 6] {
    if g.counted {
        f.counts()
    } else {
        [0; 6]
    }
}

fn step(s: &mut Supervisor, g: &Generated, f: &Sent) -> u64 {
    s.step_levels(&f.overhead(), f.flags, f.violations[0], f.violations[1], counts(g, f)).unwrap()
}

/// The number after R in a listing, 0 without.
fn refused(listing: &str) -> usize {
    listing.lines().find_map(|l| l.strip_prefix("R ")?.split(' ').next()?.parse().ok()).unwrap_or(0)
}

#[test]
fn the_traces_exercise_every_condition_and_pair() {
    let mut cover = LevelCover::default();
    for index in 0..160 {
        let g = level_generate::trace(1, index);
        let mut s = begun(&g);
        let mut before = [Standing::default(); 6];
        for item in &g.items {
            let Item::Frame(f) = item else {
                s.mark().unwrap();
                continue;
            };
            step(&mut s, &g, f);
            cover.follow(&s, &mut before);
        }
    }
    let (table, wrong) = cover.table();
    println!("{table}");
    assert_eq!(wrong, Vec::<String>::new());
}

#[test]
fn the_traces_meet_the_refusals_of_records() {
    let mut met = [0; 20];
    (0..500).for_each(|index| met[refused(&list(&level_generate::trace(8, index).bytes))] += 1);
    println!("{met:?}");
    for number in [0, 2, 3, 6, 7, 8, 9, 14, 15, 16, 18, 19] {
        assert!(met[number] > 0, "no record was refused with {number}");
    }
}

/// "By G.709 their three-byte fields begin at ..": index 16 (row - 1) + column - 1.
#[test]
fn where_the_bytes_stand() {
    assert_eq!([1, 2, 3, 4, 5, 6].map(field), [38, 35, 32, 26, 23, 20]);
    for level in 1..=6u8 {
        let at = field(level);
        assert_eq!(at, if level <= 3 { 41 - 3 * usize::from(level) } else { 38 - 3 * usize::from(level) });
        // Each of the 64 bytes is FF in its turn: only two of them are read.
        for i in 0..64 {
            let mut overhead = [0; 64];
            overhead[i] = 0xFF;
            let mut expected = Received { violations: 5, ..Received::default() };
            if i == at {
                expected.tti = 0xFF;
            }
            if i == at + 2 {
                expected = Received { bei: 15, bdi: true, stat: 7, ..expected };
            }
            assert_eq!(Received::of(level, &overhead, 5), expected, "level {level}, byte {i}");
        }
    }
}

/// The nine equations of the actions and causes, as clause 14.5.1.1.3 has them, for every standing.
#[test]
fn actions_and_causes() {
    for bits in 0..32u8 {
        for stat in (0..8).map(Some).chain([None]) {
            let bit = |i: u8| bits >> i & 1 == 1;
            let (ssf, tim, act_dis, bdi, deg) = (bit(0), bit(1), bit(2), bit(3), bit(4));
            let (ltc, ais, oci, lck) = (stat == Some(0), stat == Some(7), stat == Some(6), stat == Some(5));
            let s = Standing { ssf, stat, dtim: tim, acting: tim && !act_dis, dbdi: bdi, dbiae: false, ddeg: deg };
            let expected = [
                ("dIAE", stat == Some(2) && !tim),
                ("aTSF", ssf || (ais || ltc || oci || lck || (tim && !act_dis))),
                ("aTSD", deg),
                ("cSSF", ssf || ais),
                ("cLTC", ltc && !ssf),
                ("cOCI", oci && !ssf),
                ("cLCK", lck && !ssf),
                ("cTIM", tim && !ssf && !ais && !ltc && !oci && !lck),
                ("cDEG", deg && !ssf && !ais && !ltc && !oci && !lck && !(tim && !act_dis)),
                ("cBDI", bdi && !ssf && !ais && !ltc && !oci && !lck && !(tim && !act_dis)),
            ];
            for (name, stands) in expected {
                let met = level_bits(&s).iter().find(|(_, n, _)| *n == name).unwrap().2;
                assert_eq!(met, stands, "{name} of {s:?}");
            }
            assert!(level_word(&s) >> 8 & 1 == 1 && level_word(&s) & 0xFF == 0 && level_word(&s) >> 28 == 0);
        }
    }
}

/// A level told by counters that run from frame to frame, to hold against the questions to history.
#[derive(Clone, Default)]
struct Counters {
    stat: Option<u8>,
    stat_run: (u8, u8),
    cycle: Vec<u8>,
    previous: Option<[u8; 64]>,
    equal: u8,
    accepted: Option<[u8; 64]>,
    bdi: (bool, u8),
    biae: (bool, u8),
    near: u32,
    far: u32,
    near_ds: bool,
    far_ds: bool,
    sum: u32,
    iae: bool,
    discard_far: bool,
    deg: (bool, u8),
    /// The second closed last, after its own discard.
    pending: Option<[u32; 5]>,
}

/// A defect that changes after `n` in a row of the other sort: what stands, and how many there were.
fn filter(state: &mut (bool, u8), bit: bool, n: u8) {
    state.1 = if bit == state.0 { 0 } else { state.1 + 1 };
    if state.1 == n {
        *state = (bit, 0);
    }
}

impl Counters {
    fn step(&mut self, p: &LevelProvisioning, ssf: bool, local: Option<u8>, r: &Received) -> Standing {
        self.stat_run = (r.stat, if self.stat_run.0 == r.stat { (self.stat_run.1 + 1).min(3) } else { 1 });
        if ssf {
            (self.stat, self.stat_run) = (None, (0, 0));
        }
        if self.stat_run.1 == 3 {
            self.stat = Some(r.stat);
        }
        let ais = self.stat == Some(7);
        match local {
            Some(n) if n % 64 == 0 => self.cycle = vec![r.tti],
            Some(n) if self.cycle.len() == usize::from(n % 64) => self.cycle.push(r.tti),
            Some(_) => self.cycle.clear(),
            None => (self.cycle, self.previous, self.equal) = (Vec::new(), None, 0),
        }
        if ssf || ais {
            (self.cycle, self.previous, self.equal, self.accepted) = (Vec::new(), None, 0, None);
            self.bdi = (false, 0);
        } else {
            filter(&mut self.bdi, r.bdi, 5);
        }
        if let Ok(whole) = <[u8; 64]>::try_from(&self.cycle[..]) {
            self.equal = if self.previous == Some(whole) { (self.equal + 1).min(3) } else { 1 };
            self.previous = Some(whole);
            self.cycle.clear();
            if self.equal == 3 {
                self.accepted = Some(whole);
            }
        }
        let other = |from: usize, to: usize| self.accepted.is_some_and(|a| a[from..to] != p.names[from..to]);
        let tim = (p.mode & 1 == 1 && other(0, 16)) || (p.mode & 2 == 2 && other(16, 32));
        match ssf || ais || tim {
            true => self.biae = (false, 0),
            false => filter(&mut self.biae, r.bei == 11, 3),
        }
        let acting = tim && p.dis == 0;
        let s = Standing { ssf, stat: self.stat, dtim: tim, acting, dbdi: self.bdi.0, dbiae: self.biae.0, ddeg: self.deg.0 };
        let failed = ssf || matches!(self.stat, Some(0 | 5 | 6 | 7));
        self.near += u32::from(r.violations > 0 && !failed);
        if (1..9).contains(&r.bei) && !failed {
            self.far += 1;
            self.sum += u32::from(r.bei);
        }
        self.near_ds |= failed || tim;
        self.far_ds |= self.bdi.0;
        self.iae |= self.stat == Some(2) && !tim;
        self.discard_far |= self.biae.0;
        s
    }

    /// The figures that are reported, and those of the second just closed are pending.
    fn mark(&mut self, p: &LevelProvisioning) -> Option<[u32; 5]> {
        let [iae, biae] = [self.iae, self.iae || self.discard_far].map(|void| u32::from(!void));
        let kept =
            |[near, far, near_ds, far_ds, sum]: [u32; 5]| [near * iae, far * biae, near_ds * iae, far_ds * biae, sum * biae];
        let reported = self.pending.map(kept);
        let own = kept([self.near, self.far, u32::from(self.near_ds), u32::from(self.far_ds), self.sum]);
        filter(&mut self.deg, own[0] >= p.degthr, p.degm);
        (self.near, self.far, self.near_ds, self.far_ds, self.sum, self.iae, self.discard_far) = Default::default();
        self.pending = Some(own);
        reported
    }
}

#[test]
fn counters_tell_the_same() {
    for index in 0..150 {
        let g = match index % 3 {
            2 => seconds_generate::trace(2, index),
            _ => level_generate::trace(2, index),
        };
        let mut s = begun(&g);
        let mut told: Vec<(u8, LevelProvisioning, Counters)> =
            g.levels.iter().map(|(level, p)| (*level, p.clone(), Counters::default())).collect();
        let mut frames = 0;
        for item in &g.items {
            match item {
                Item::Frame(f) => {
                    step(&mut s, &g, f);
                    frames += 1;
                    let outside = s.standing();
                    for (level, p, counters) in &mut told {
                        let r = Received::of(*level, &f.overhead(), counts(&g, f)[usize::from(*level) - 1]);
                        let expected = counters.step(p, outside.ssf[1], outside.local(frames), &r);
                        let l = s.level(*level).unwrap();
                        assert_eq!(l.standing(), expected, "{}: level {level}, frame {frames}", g.about);
                        assert_eq!(l.accepted_trace(), counters.accepted.as_ref());
                    }
                }
                Item::Mark => {
                    let reported = s.mark().unwrap();
                    let pending = s.pending().unwrap();
                    for (level, p, counters) in &mut told {
                        let at = usize::from(*level) - 1;
                        assert_eq!(reported.and_then(|second| second.levels[at]), counters.mark(p), "{}: level {level}", g.about);
                        assert_eq!(pending.levels[at], counters.pending, "{}: level {level}", g.about);
                        assert_eq!(s.level(*level).unwrap().standing().ddeg, counters.deg.0);
                    }
                }
            }
        }
    }
}

/// Line, section, path, heads and the 22 figures answer as if there were no levels.
#[test]
fn levels_are_silent() {
    for index in 0..60 {
        let g = level_generate::trace(3, index);
        let (mut s, mut base) = (begun(&g), Supervisor::fresh(g.provisioning.clone()));
        for item in &g.items {
            match item {
                Item::Frame(f) => {
                    let alone = base.step(&f.overhead(), f.flags, f.violations[0], f.violations[1]).unwrap();
                    assert_eq!(step(&mut s, &g, f), alone);
                    assert_eq!(s.standing(), base.standing());
                }
                Item::Mark => {
                    let (reported, reported_alone) = (s.mark().unwrap(), base.mark().unwrap());
                    assert_eq!(reported.map(|second| second.figures), reported_alone.map(|second| second.figures));
                    let (second, alone) = (s.pending().unwrap(), base.pending().unwrap());
                    assert_eq!(second.figures, alone.figures);
                    assert_eq!(alone.levels, [None; 6]);
                    let given: Vec<u8> = (1..=6).filter(|l| second.levels[usize::from(*l) - 1].is_some()).collect();
                    let mut expected: Vec<u8> = g.levels.iter().map(|(level, _)| *level).collect();
                    expected.sort();
                    assert_eq!(given, expected);
                }
            }
        }
        assert!((0..=7).all(|level| base.level(level).is_none()));
    }
}

/// The same trace with the levels' bytes, counts and records at other levels: the same answers there. One text for all six.
#[test]
fn a_level_is_its_place_alone() {
    let mut rng = Random::new(4);
    for index in 0..40 {
        let mut g = level_generate::trace(4, index);
        g.counted = true;
        let mut order = [0usize, 1, 2, 3, 4, 5];
        (0..6).for_each(|i| order.swap(i, rng.within(i as u64, 5) as usize));
        let other = |level: u8| order[usize::from(level) - 1] as u8 + 1;
        let (mut s, mut moved) = (begun(&g), Supervisor::fresh(g.provisioning.clone()));
        for (level, p) in &g.levels {
            moved.provision(other(*level), p.clone());
        }
        for item in &g.items {
            match item {
                Item::Frame(f) => {
                    let mut m = *f;
                    (0..6).for_each(|i| m.levels[order[i]] = f.levels[i]);
                    step(&mut s, &g, f);
                    step(&mut moved, &g, &m);
                    for level in 1..=6 {
                        assert_eq!(s.level_report(level), moved.level_report(other(level)));
                        assert_eq!(s.level_trace(level, 64), moved.level_trace(other(level), 64));
                    }
                }
                Item::Mark => {
                    let (a, b) = (s.mark().unwrap(), moved.mark().unwrap());
                    for (a, b) in a.iter().zip(&b).chain(s.pending().iter().zip(&moved.pending())) {
                        (0..6).for_each(|i| assert_eq!(a.levels[i], b.levels[order[i]]));
                    }
                }
            }
        }
    }
}

/// Nothing of a level leans on another's bytes, or count, or on the path's, and BIP bytes are not read.
#[test]
fn a_level_reads_its_own_bytes() {
    let mut rng = Random::new(5);
    for index in 0..24 {
        let g = level_generate::trace(5, index);
        let level = rng.pick(&g.levels.iter().map(|(level, _)| *level).collect::<Vec<_>>());
        let (mut s, mut noisy) = (begun(&g), begun(&g));
        let at = field(level);
        for item in &g.items {
            match item {
                Item::Frame(f) => {
                    step(&mut s, &g, f);
                    let mut overhead = f.overhead();
                    for i in (8..64).filter(|i| ![9, at, at + 2].contains(i)) {
                        overhead[i] = rng.byte();
                    }
                    let mut noise = [0u8; 6].map(|_| rng.below(9) as u8);
                    noise[usize::from(level) - 1] = counts(&g, f)[usize::from(level) - 1];
                    noisy.step_levels(&overhead, f.flags, rng.below(9) as u8, rng.below(9) as u8, noise).unwrap();
                    assert_eq!(s.level_report(level), noisy.level_report(level), "{}: level {level}", g.about);
                }
                Item::Mark => {
                    let at = usize::from(level) - 1;
                    let of = |second: Option<Second>| second.and_then(|second| second.levels[at]);
                    assert_eq!(of(s.mark().unwrap()), of(noisy.mark().unwrap()));
                    assert_eq!(of(s.pending()), of(noisy.pending()));
                }
            }
        }
    }
}

/// Case 10 with any bytes: what differs at 26 to 28 alone, with only level 5 provisioned, prints the same.
#[test]
fn bytes_of_a_level_that_is_not_provisioned() {
    let mut rng = Random::new(6);
    let (mut a, mut b) = (Trace::default(), Trace::default());
    for t in [&mut a, &mut b] {
        t.provisioning(&plain(1));
        t.level(5, &plain_level());
    }
    for i in 0..400u32 {
        let mut overhead = [0; 64];
        rng.fill(&mut overhead);
        overhead[..6].copy_from_slice(&crate::frame::FAS);
        overhead[6] = i as u8;
        a.frame(&overhead, 0, 1, 1);
        rng.fill(&mut overhead[26..29]);
        b.frame(&overhead, 0, 1, 1);
        if i % 50 == 49 {
            a.mark();
            b.mark();
        }
    }
    assert_eq!(list(&a.0), list(&b.0));
    assert_eq!(explain(&a.0), explain(&b.0));
}

/// The calls driven by a trace answer what the reader lists, and otn_mark's record has each level at its fixed place.
#[test]
fn calls_answer_what_is_listed() {
    for index in 0..60 {
        let g = level_generate::trace(6, index);
        let mut card = Card::default();
        card.fresh(true, Ok(g.provisioning.clone()));
        for (level, p) in &g.levels {
            assert_eq!(card.level(true, &fields(*level, p)), 0);
            assert_eq!(card.level_report(true, *level), 1 << 8);
        }
        let mut listed = String::new();
        let (mut marks, mut frames) = (0, 0);
        // The line of a record of 52 figures, with nothing written past it.
        let line = |bytes: &[u8; RECORD + 4]| {
            assert_eq!(bytes[RECORD..], [0xEE; 4]);
            let figures: Vec<u32> = bytes.chunks(4).map(|w| u32::from_le_bytes(w.try_into().unwrap())).take(52).collect();
            let mut printed: Vec<u32> = figures[..22].to_vec();
            for level in 1..=6u8 {
                let five = &figures[22 + 5 * (usize::from(level) - 1)..][..5];
                match g.levels.iter().any(|(l, _)| *l == level) {
                    true => printed.extend(five),
                    false => assert_eq!(five, [0; 5]),
                }
            }
            format!("S {}\n", printed.iter().map(u32::to_string).collect::<Vec<_>>().join(" "))
        };
        for item in &g.items {
            match item {
                Item::Frame(f) => {
                    let (o, sm, pm) = (f.overhead(), f.violations[0], f.violations[1]);
                    let word = match g.counted {
                        true => card.step_levels(true, &o, f.flags, sm, pm, f.counts()),
                        false => card.step(true, &o, f.flags, sm, pm),
                    };
                    assert_eq!(word & 0xFF, 0);
                    frames += 1;
                }
                Item::Mark => {
                    let mut bytes = [0xEE; RECORD + 4];
                    let answer = card.mark(true, &mut bytes);
                    assert_eq!((answer, bytes == [0xEE; RECORD + 4]), if marks == 0 { (0, true) } else { (TOLD, false) });
                    if marks > 0 {
                        listed += &line(&bytes);
                    }
                    marks += 1;
                }
            }
        }
        let mut bytes = [0xEE; RECORD + 4];
        if card.pending(true, &mut bytes) == TOLD {
            listed += &line(&bytes);
        }
        assert_eq!(list(&level_generate::records(&g)), listed + &format!("E {marks} {frames}\n"));
    }
}

fn fields(level: u8, p: &LevelProvisioning) -> LevelFields<'_> {
    LevelFields { level, thr: p.degthr, degm: p.degm, mode: p.mode, dis: p.dis, names: &p.names }
}

/// otn_level: 17 6 7 8 9 10 16 18.
#[test]
fn refusals_of_otn_level() {
    let names = [0u8; 33];
    // Each fault in its turn is mended, and the next one answers.
    let at = |card: &mut Card, right: bool, mended: u8| {
        let or = |number: u8, wrong: u32, good: u32| if mended >= number { good } else { wrong };
        let f = LevelFields {
            level: or(18, 7, 1) as u8,
            thr: or(6, 20_421, 20_420),
            degm: or(7, 11, 10) as u8,
            mode: or(8, 4, 3) as u8,
            dis: or(9, 3, 2) as u8,
            names: &names[..or(10, 33, 32) as usize],
        };
        card.level(right, &f)
    };
    let mut card = Card::default();
    assert_eq!(at(&mut card, true, 18), 17);
    card.fresh(true, Ok(plain(1)));
    assert_eq!(card.step(true, &[0; 64], 0, 0, 0) & 0xFF, 0);
    assert_eq!(at(&mut card, false, 0), 17);
    for (mended, answer) in [(0, 6), (6, 7), (7, 8), (8, 9), (9, 10), (10, 16), (18, 16)] {
        assert_eq!(at(&mut card, true, mended), answer);
    }
    // 16 after a mark alone, too.
    card.fresh(true, Ok(plain(1)));
    assert_eq!(card.mark(true, &mut []), 0);
    assert_eq!(at(&mut card, true, 18), 16);
    card.fresh(true, Ok(plain(1)));
    assert_eq!([at(&mut card, true, 10), at(&mut card, true, 18), at(&mut card, true, 18)], [18, 0, 18]);
    // A level that is refused is not provisioned; refused calls do not count as a frame or mark.
    card.fresh(true, Ok(plain(3)));
    let p = LevelProvisioning { degthr: 329_492, ..plain_level() };
    assert_eq!(card.step(true, &[0; 63], 0, 0, 0), 1);
    assert_eq!(card.level(true, &LevelFields { thr: 329_493, ..fields(6, &p) }), 6);
    assert_eq!(card.level_report(true, 6), 0);
    for level in [0, 7, 255] {
        assert_eq!(card.level(true, &fields(level, &p)), 18);
    }
    for level in [6, 1, 3] {
        assert_eq!(card.level(true, &fields(level, &p)), 0);
    }
    assert_eq!([1, 2, 3, 4, 5, 6].map(|l| card.level_report(true, l)), [256, 0, 256, 0, 0, 256]);
}

/// otn_step_levels 17 1 2 3 4; otn_level_report 17 18; otn_level_trace 17 12 13.
#[test]
fn refusals_of_the_other_calls() {
    let mut card = Card::default();
    assert_eq!(card.step_levels(true, &[0; 63], 4, 9, 9, [9; 6]), 17);
    assert_eq!((card.level_report(true, 9), card.level_trace(true, 9, &mut [0; 3])), (17, 17));
    card.fresh(true, Ok(plain(1)));
    assert_eq!(card.level(true, &fields(2, &plain_level())), 0);
    for _ in 0..FULL_SECOND {
        card.step_levels(true, &[0; 64], 1, 0, 0, [8; 6]);
    }
    assert_eq!(card.step_levels(false, &[0; 63], 4, 9, 9, [9; 6]), 17);
    assert_eq!(card.step_levels(true, &[0; 65], 4, 9, 9, [9; 6]), 1);
    assert_eq!(card.step_levels(true, &[0; 64], 4, 9, 9, [9; 6]), 2);
    assert_eq!(card.step_levels(true, &[0; 64], 3, 9, 0, [0; 6]), 3);
    for level in 0..6 {
        let mut counts = [0; 6];
        counts[level] = 9;
        assert_eq!(card.step_levels(true, &[0; 64], 3, 0, 0, counts), 3);
    }
    assert_eq!(card.step_levels(true, &[0; 64], 3, 8, 8, [8; 6]), 4);
    assert_eq!((card.level_report(false, 9), card.level_report(true, 0), card.level_report(true, 7)), (17, 18, 18));
    // SSF, aTSF, cSSF.
    assert_eq!((card.level_report(true, 2), card.level_report(true, 1)), (1 << 8 | 1 << 9 | 1 << 19 | 1 << 21, 0));
    let mut buffer = [7; 65];
    assert_eq!(card.level_trace(false, 9, &mut buffer), 17);
    for room in [0, 63, 65] {
        assert_eq!(card.level_trace(true, 9, &mut buffer[..room]), 12);
    }
    for level in [0, 1, 2, 7] {
        assert_eq!(card.level_trace(true, level, &mut buffer[..64]), 13);
    }
    assert_eq!(buffer, [7; 65]);
    // Levels are no layers.
    for layer in 2..=8 {
        assert_eq!(card.trace(true, layer, &mut buffer[..64]), 11);
    }
    // The first mark leaves the record. One that is too short gets what it has room for.
    let mut short = [7; 83];
    assert_eq!((card.mark(true, &mut short), short), (0, [7; 83]));
    assert_eq!(card.pending(true, &mut short), TOLD);
    assert_eq!((&short[..8], &short[80..]), (&[1, 0, 0, 0, 0x80, 0x1A, 6, 0][..], &[0; 3][..]));
}

/// A level's trace can be read out, in mode 0 too, and dDEG is told by the report between a mark and the next frame.
#[test]
fn what_the_readings_tell() {
    let mut card = Card::default();
    card.fresh(true, Ok(plain(1)));
    assert_eq!(card.level(true, &fields(6, &plain_level())), 0);
    let frame = |card: &mut Card, number: u32, count: u8| {
        let mut f = Sent::good(number as u8);
        f.levels[5] = Received { tti: number as u8 % 64, stat: 1, ..Received::default() };
        assert_eq!(card.step_levels(true, &f.overhead(), 0, 0, 0, [0, 0, 0, 0, 0, count]) & 0xFF, 0);
    };
    (254..256 + 191).for_each(|number| frame(&mut card, number, 1));
    // Calls may be mixed: otn_step is the frame whose six counts are 0.
    let mut f = Sent::good(191);
    f.levels[5] = Received { tti: 63, stat: 1, violations: 8, ..Received::default() };
    assert_eq!(card.step(true, &f.overhead(), 0, 0, 0) & 0xFF, 0);
    let mut buffer = [0; 64];
    assert_eq!(card.level_trace(true, 6, &mut buffer), 0);
    assert_eq!(buffer, std::array::from_fn(|i| i as u8));
    assert_eq!(card.level_report(true, 6), 1 << 8);
    let mut record = [0; RECORD];
    card.mark(true, &mut []);
    assert_eq!(card.pending(true, &mut record), TOLD);
    assert_eq!(record[4 * 47..], [193, 0, 0, 0, 0, 0, 0, 0, 0, 0, 0, 0, 0, 0, 0, 0, 0, 0, 0, 0]);
    frame(&mut card, 448, 1);
    assert_eq!(card.level_report(true, 6), 1 << 8);
    assert_eq!(card.mark(true, &mut record), TOLD);
    assert_eq!(record[4 * 47..4 * 48], [193, 0, 0, 0]);
    // dDEG, aTSD, cDEG.
    assert_eq!(card.level_report(true, 6), 1 << 8 | 1 << 18 | 1 << 20 | 1 << 26);
    card.mark(true, &mut []);
    card.mark(true, &mut []);
    assert_eq!(card.level_report(true, 6), 1 << 8);
}

/// Records of kind 4: 14, 15, 14, then 16, 18, and 6 to 9 in number order.
#[test]
fn refusals_of_records() {
    let mut whole = Trace::default();
    whole.provisioning(&plain(1));
    whole.level(1, &plain_level());
    whole.frame_levels(&[0; 64], 0, 0, 0, [0; 6]);
    for n in 84..127 {
        assert_eq!(list(&whole.0[..n]), "R 14 83\nE 0 0\n");
    }
    for n in 128..204 {
        assert_eq!(list(&whole.0[..n]), "R 14 127\nE 0 0\n");
    }
    assert_eq!((list(&whole.0[..127]), list(&whole.0)), ("E 0 0\n".into(), "E 0 1\n".into()));
    assert_eq!(list(&whole.0[83..]), "R 16 0\nE 0 0\n");
    assert_eq!(list(&whole.0[127..]), "R 16 0\nE 0 0\n");
    for header in
        [[41, 0, 4, 0], [43, 0, 4, 0], [42, 1, 4, 0], [42, 0, 5, 0], [69, 0, 5, 0], [74, 0, 5, 0], [75, 0, 1, 0], [4, 0, 6, 0]]
    {
        assert_eq!(list(&[&whole.0[..83], &header].concat()), "R 15 83\nE 0 0\n");
    }
    // Each fault in its turn is mended, and the next one answers.
    let good = LevelProvisioning { degthr: 20_420, degm: 10, mode: 3, dis: 2, names: [9; 32] };
    for (mended, answer) in [(0, "R 18"), (18, "R 6"), (19, "R 7"), (20, "R 8"), (21, "R 9")] {
        let mut t = Trace(whole.0[..127].to_vec());
        let mut p = LevelProvisioning { degthr: 0, degm: 1, mode: 4, dis: 3, names: [0; 32] };
        if mended >= 19 {
            p.degthr = good.degthr;
        }
        if mended >= 20 {
            p.degm = good.degm;
        }
        if mended >= 21 {
            p.mode = good.mode;
        }
        t.level(if mended == 0 { 1 } else { 6 }, &p);
        assert_eq!(list(&t.0), format!("{answer} 127\nE 0 0\n"));
    }
    let mut t = Trace(whole.0[..127].to_vec());
    t.level(6, &good);
    assert_eq!(list(&t.0), "E 0 0\n");
    // A later provisioning is 16 between levels too; frames of kind 5 and a kind that is unknown as before.
    t.provisioning(&plain(1));
    assert_eq!(list(&t.0), "R 16 171\nE 0 0\n");
    for (flags, counts, answer) in [(4, [9; 6], 2), (3, [8, 8, 8, 8, 8, 9], 3)] {
        let mut t = Trace(whole.0.clone());
        t.frame_levels(&[0; 64], flags, 0, 0, counts);
        assert_eq!(list(&t.0), format!("R {answer} 204\nE 0 1\n"));
    }
}

/// The S and E lines of an explanation are the listing, for traces damaged or not.
#[test]
fn the_explanation_holds_the_listing() {
    for index in 0..80 {
        let bytes = level_generate::trace(7, index).bytes;
        let others: String =
            explain(&bytes).lines().filter(|line| !line.starts_with('F')).map(|line| format!("{line}\n")).collect();
        assert_eq!(others, list(&bytes));
    }
}

/// A level's words follow the path's, in the order of otn_level_report's bits, lowest level first; then the head; its trace after the path's.
#[test]
fn the_words_of_a_level() {
    let mut t = Trace::default();
    t.provisioning(&plain(1));
    for level in [6, 3] {
        t.level(
            level,
            &LevelProvisioning { mode: 1, dis: level % 2, names: *b"expected SAPI...expected DAPI...", ..plain_level() },
        );
    }
    let frame = |t: &mut Trace, number: u32, change: &dyn Fn(&mut Sent)| {
        let mut f = Sent { stat: 1, ..Sent::good(number as u8) };
        for l in &mut f.levels {
            (l.tti, l.stat) = (b'x', 1);
        }
        change(&mut f);
        t.frame_levels(&f.overhead(), f.flags, 0, 0, f.counts());
    };
    let counted = |f: &mut Sent| f.levels[5].violations = 1;
    // MFAS from 254: three cycles end in frame 194.
    (254..447).for_each(|number| frame(&mut t, number, &counted));
    frame(&mut t, 447, &|f| f.flags = 0);
    t.mark();
    frame(&mut t, 448, &counted);
    t.mark();
    frame(&mut t, 449, &|_| {});
    frame(&mut t, 450, &|f| f.flags = 1);
    (451..454).for_each(|number| {
        frame(&mut t, number, &|f| {
            f.levels[2].stat = 0;
            f.levels[5].stat = 7;
        })
    });
    let x = "x".repeat(64);
    let dots = ".".repeat(64);
    let expected = format!(
        "F 1 2 2 +IF\nF 1 3 3 +IM\n\
         F 1 194 194 +TCM3.dTIM +TCM3.cTIM +TCM6.dTIM +TCM6.aTSF +TCM6.cTIM SM.trace=\"{dots}\" PM.trace=\"{dots}\" TCM3.trace=\"{x}\" TCM6.trace=\"{x}\"\n\
         S 1 194 194 0 0 0 0 0 0 0 0 0 0 0 0 0 0 0 0 0 0 0 0 0 1 0 0 193 0 1 0 0\n\
         F 3 1 196 +TCM6.dDEG +TCM6.aTSD\n\
         F 3 2 197 +TSF-P +SM.SSF +PM.SSF +SM.aTSF +SM.aBDI +PM.aTSF +PM.aBDI +SM.cSSF +PM.cSSF \
         +TCM3.SSF -TCM3.dTIM +TCM3.aTSF +TCM3.cSSF -TCM3.cTIM +TCM6.SSF -TCM6.dTIM +TCM6.cSSF -TCM6.cTIM head=1 \
         -SM.trace -PM.trace -TCM3.trace -TCM6.trace\n\
         F 3 3 198 -TSF-P -SM.SSF -PM.SSF -SM.aTSF -SM.aBDI -PM.aTSF -PM.aBDI -SM.cSSF -PM.cSSF \
         -TCM3.SSF -TCM3.aTSF -TCM3.cSSF -TCM6.SSF -TCM6.aTSF -TCM6.cSSF +TCM6.cDEG head=0\n\
         F 3 5 200 +TCM3.dLTC +TCM3.aTSF +TCM3.cLTC +TCM6.dAIS +TCM6.aTSF +TCM6.cSSF -TCM6.cDEG\n\
         S 2 1 1 0 0 0 0 0 0 0 0 0 0 0 0 0 0 0 0 0 0 0 0 0 1 0 0 1 0 1 0 0\n\
         E 2 200\n"
    );
    assert_eq!(explain(&t.0), expected);
}
