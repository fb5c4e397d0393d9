//! Traces with levels by seed, of the two sorts of `generate.rs`: every signal of every level wanders beside the line's; or, in one
//! frame, each level has one of its conditions begin where another clears. Then some traces are damaged.

use crate::frame::{Sent, FAS};
use crate::generate::{
    act_dis, another, default_for_some, names, provisioning, traces, wandering_counts, with_marks, Generated, Item, Tti, Wave,
};
use crate::level_cover::{self, AIS, BDI, BIAE, CONDITIONS, DEG, IAE, LCK, LTC, OCI, SSF, TIM};
use crate::provisioning::{ceiling, LevelProvisioning, Provisioning, SECTION};
use crate::random::Random;
use crate::reader::Trace;

/// The provisioned levels, in the order of their records.
type Levels = Vec<(u8, LevelProvisioning)>;

/// Trace number `index` of the run with this seed.
pub fn trace(seed: u64, index: u64) -> Generated {
    let mut rng = Random::new(seed.wrapping_mul(0x1_0000_0003).wrapping_add(index).wrapping_add(1 << 40));
    rng.next();
    let mut g = if index % 2 == 1 { blocks(&mut rng, index / 2) } else { wander(&mut rng) };
    g.bytes = records(&g);
    if rng.once_in(3) {
        let what = damage(&mut rng, &mut g.bytes);
        g.about += &what;
    }
    g
}

/// The records of a trace.
pub fn records(g: &Generated) -> Vec<u8> {
    let mut trace = Trace::default();
    trace.provisioning(&g.provisioning);
    for (level, p) in &g.levels {
        trace.level(*level, p);
    }
    for item in &g.items {
        match item {
            Item::Frame(f) if g.counted => {
                trace.frame_levels(&f.overhead(), f.flags, f.violations[0], f.violations[1], f.counts())
            }
            Item::Frame(f) => trace.frame(&f.overhead(), f.flags, f.violations[0], f.violations[1]),
            Item::Mark => trace.mark(),
        }
    }
    trace.0
}

/// One level to all six, in any order.
fn some_levels(rng: &mut Random, k: u8) -> Levels {
    let mut left: Vec<u8> = (1..=6).collect();
    let how_many = rng.pick(&[1, 2, 3, 4, 6, 6]);
    (0..how_many)
        .map(|_| {
            let level = left.remove(rng.below(left.len() as u64) as usize);
            (level, level_provisioning(rng, k))
        })
        .collect()
}

fn level_provisioning(rng: &mut Random, k: u8) -> LevelProvisioning {
    let ceiling = ceiling(k).expect("k is 1 to 3");
    let mut p = LevelProvisioning {
        degthr: match rng.below(8) {
            0 => ceiling,
            1 => rng.within(1, u64::from(ceiling)) as u32,
            2..=4 => rng.within(1, 40) as u32,
            _ => 1,
        },
        degm: rng.pick(&[2, 2, 2, 3, 4, 7, 10]),
        mode: rng.below(4) as u8,
        dis: act_dis(rng),
        names: names(rng),
    };
    p.dis = default_for_some(p.dis, &p.names);
    p
}

fn wander(rng: &mut Random) -> Generated {
    let k = rng.pick(&[1, 1, 1, 1, 2, 3]);
    let mut p = provisioning(rng, k);
    let levels = some_levels(rng, k);
    let sound = !rng.once_in(3);
    if sound && rng.once_in(2) {
        p.mode[SECTION] = 0;
    }
    let length = rng.within(300, 3_000);
    let mut counts = Vec::new();
    let mut frames = Vec::new();
    for (mut f, count) in wandering_counts(rng, &p, length) {
        if sound {
            (f.fas, f.mfas, f.flags) = (FAS, count, 0);
        }
        frames.push(f);
        counts.push(count);
    }
    for level in 1..=6 {
        let names = levels.iter().find(|(l, _)| *l == level).map_or([0; 32], |(_, p)| p.names);
        wander_level(rng, level, &names, &counts, &mut frames);
    }
    let counted = !rng.once_in(4);
    let items = with_marks(rng, &p, &levels, &frames);
    let about = format!("levels that wander, k = {k}");
    Generated { provisioning: p, levels, counted, items, bytes: Vec::new(), about }
}

/// Every signal of a level wanders by itself, also where it is not provisioned.
fn wander_level(rng: &mut Random, level: u8, names: &[u8; 32], counts: &[u8], frames: &mut [Sent]) {
    let mut tti = Tti::new(rng, names);
    let mut stat = Wave::new(rng, &[1, 7, 6, 5, 0, 2, 1, 7, 6, 5, 0, 2, 3, 4], 200);
    let mut bdi = Wave::new(rng, &[0, 1], 200);
    let mut bei = Wave::new(rng, &[0, 11, 11, 11, 1, 8, 9, 15, 5, 3], 60);
    let mut violations = Wave::new(rng, &[0, 1, 8, 3], 400);
    for (f, count) in frames.iter_mut().zip(counts) {
        let l = &mut f.levels[usize::from(level) - 1];
        l.tti = tti.next(rng, *count);
        l.stat = stat.next(rng);
        l.bdi = bdi.next(rng) == 1;
        l.bei = another(bei.next(rng), f.ignored.rotate_left(u32::from(level)));
        l.violations = violations.next(rng);
    }
}

/// Frames of one second where dDEG is driven.
const WIDTH: usize = 60;

/// A block: quiet, then each level driven so that one condition begins in frame `at` where another clears, then a few frames more.
struct Block {
    frames: Vec<Sent>,
    marks: Vec<bool>,
    section_wrong: Vec<bool>,
    wrong: [Vec<bool>; 6],
    at: usize,
}

impl Block {
    fn quiet(rng: &mut Random, first: u8) -> Block {
        let mut at = 640 + rng.below(64) as usize;
        // At the end of a cycle.
        while first.wrapping_add(at as u8) % 64 != 63 {
            at += 1;
        }
        let length = at + rng.within(1, 12) as usize;
        let mut frames: Vec<Sent> = (0..length).map(|i| Sent { stat: 1, ..Sent::good(first.wrapping_add(i as u8)) }).collect();
        frames.iter_mut().flat_map(|f| &mut f.levels).for_each(|l| l.stat = 1);
        let mut marks = vec![false; length];
        // What stood before is over: more empty seconds than DEGM clear dDEG.
        marks[100..103].fill(true);
        Block { frames, marks, section_wrong: vec![false; length], wrong: std::array::from_fn(|_| vec![false; length]), at }
    }

    fn set(&mut self, level: usize, from: usize, to: usize, set: impl Fn(&mut crate::level::Received)) {
        self.frames[from..to].iter_mut().for_each(|f| set(&mut f.levels[level]));
    }

    /// `y` of a level stands before frame `at` and clears in it: by itself, or, where it is held, by what begins there.
    fn clear(&mut self, rng: &mut Random, level: usize, y: usize, held: bool) {
        let (t, end) = (self.at, self.frames.len());
        let some = rng.within(5, 20) as usize;
        let until = |frames: usize| if held { end } else { t - frames };
        match y {
            SSF => self.frames[t - 5..t].iter_mut().for_each(|f| f.flags |= 1),
            LTC | AIS | OCI | LCK | IAE => self.set(level, t - 2 - some, until(2), |l| l.stat = code(y)),
            TIM => self.wrong[level][t - 383..until(191)].fill(true),
            BDI => self.set(level, t - 4 - some, until(4), |l| l.bdi = true),
            BIAE => self.set(level, t - 2 - some, until(2), |l| l.bei = 11),
            _ => {
                (0..=4).for_each(|j| self.marks[t - j * WIDTH] = true);
                self.set(level, t - 4 * WIDTH, t - 2 * WIDTH, |l| l.violations = 1);
            }
        }
    }

    /// `x` of a level begins in frame `at`.
    fn begin(&mut self, level: usize, x: usize, masked: bool) {
        let (t, end) = (self.at, self.frames.len());
        match x {
            SSF => {}
            IAE if masked => self.set(level, t - 100, end, |l| l.stat = code(IAE)),
            LTC | AIS | OCI | LCK | IAE => self.set(level, t - 2, end, |l| l.stat = code(x)),
            TIM => self.wrong[level][t - 191..end].fill(true),
            BDI => self.set(level, t - 4, end, |l| l.bdi = true),
            BIAE => self.set(level, t - 2, end, |l| l.bei = 11),
            _ => {
                (0..=2).for_each(|j| self.marks[t - j * WIDTH] = true);
                self.set(level, t - 2 * WIDTH, t, |l| l.violations = 1);
            }
        }
    }

    /// SSF begins in frame `at`, by the flags or by the section's trace.
    fn begin_ssf(&mut self, rng: &mut Random) {
        let (t, end) = (self.at, self.frames.len());
        let flags = rng.below(4) as u8;
        match flags {
            0 => self.section_wrong[t - 191..end].fill(true),
            _ => self.frames[t..end].iter_mut().for_each(|f| f.flags = flags),
        }
    }
}

/// The STAT that is a defect.
fn code(defect: usize) -> u8 {
    match defect {
        LTC => 0b000,
        AIS => 0b111,
        OCI => 0b110,
        LCK => 0b101,
        _ => 0b010,
    }
}

/// Whether `x` forgets or masks `y` where it begins.
fn ends(x: usize, y: usize) -> bool {
    match x {
        SSF => y != DEG,
        AIS => [TIM, BDI, BIAE].contains(&y),
        TIM => [IAE, BIAE].contains(&y),
        _ => false,
    }
}

/// For each level what begins and what clears in block `number`. SSF is one for all.
fn chosen(number: u64, levels: &Levels) -> Vec<(u8, usize, usize)> {
    let all = level_cover::pairs();
    let of: Vec<(usize, usize)> = match number % 8 {
        0 => all.into_iter().filter(|(x, _)| *x == SSF).collect(),
        1 => all.into_iter().filter(|(_, y)| *y == SSF).collect(),
        _ => all.into_iter().filter(|(x, y)| *x != SSF && *y != SSF).collect(),
    };
    let pair = |level: u8| of[((6 * (number / 8 * 6 + number % 8) + u64::from(level)) % of.len() as u64) as usize];
    levels.iter().map(|(level, _)| (*level, pair(*level).0, pair(*level).1)).collect()
}

fn blocks(rng: &mut Random, number: u64) -> Generated {
    let k = rng.pick(&[1, 1, 1, 2, 3]);
    let mut p: Provisioning = provisioning(rng, k);
    // An explicit 0, drawn as it was while it was 0 or 2.
    (p.mode[SECTION], p.dis[SECTION]) = (1, rng.pick(&[0, 0]));
    let mut levels = some_levels(rng, k);
    for (_, l) in &mut levels {
        (l.mode, l.degthr, l.degm) = (rng.within(1, 3) as u8, rng.within(1, 5) as u32, 2);
    }
    let section = traces(rng, &p.names[SECTION]);
    let of_level = levels.iter().map(|(level, l)| (*level, l.mode, traces(rng, &l.names))).collect::<Vec<_>>();
    let mut items = Vec::new();
    let mut about = format!("k = {k}");
    let mut first = rng.byte();
    for block in 3 * number..3 * number + 3 {
        let mut b = Block::quiet(rng, first);
        for (level, x, y) in chosen(block, &levels) {
            about += &format!(", TCM{level}.{} begins where {} clears", CONDITIONS[x], CONDITIONS[y]);
            let at = usize::from(level) - 1;
            let held = ends(x, y) && rng.once_in(2);
            b.clear(rng, at, y, held);
            let masked = (x, y) == (IAE, TIM) && rng.once_in(2);
            b.begin(at, x, masked);
        }
        if block % 8 == 0 {
            b.begin_ssf(rng);
        }
        for i in 0..b.frames.len() {
            let number = usize::from(first.wrapping_add(i as u8)) % 64;
            b.frames[i].tti[SECTION] = section[usize::from(b.section_wrong[i])][number];
            // All codes in turn where dBIAE is not driven: far blocks of every number in every condition.
            for (level, l) in b.frames[i].levels.iter_mut().enumerate().filter(|(_, l)| l.bei != 11) {
                l.bei = [0, 1, 2, 3, 4, 5, 6, 7, 8, 9, 10, 12, 13, 14, 15][(i + level) % 15];
            }
            for (level, mode, tti) in &of_level {
                // The changed byte lies in the field that the mode compares.
                let at = usize::from(*level) - 1;
                let which = if b.wrong[at][i] { 1 + usize::from(*mode == 2) } else { 0 };
                b.frames[i].levels[at].tti = tti[which][number];
            }
            if b.marks[i] {
                items.push(Item::Mark);
            }
            items.push(Item::Frame(b.frames[i]));
        }
        first = b.frames[b.frames.len() - 1].mfas.wrapping_add(1);
    }
    items.push(Item::Mark);
    let counted = !rng.once_in(6);
    Generated { provisioning: p, levels, counted, items, bytes: Vec::new(), about }
}

/// Where each record begins, with its kind.
fn offsets(bytes: &[u8]) -> Vec<(usize, u8)> {
    let mut at = 0;
    let mut all = Vec::new();
    while at + 4 <= bytes.len() {
        all.push((at, bytes[at + 2]));
        at += 2 + usize::from(u16::from_le_bytes([bytes[at], bytes[at + 1]]));
    }
    all
}

/// Damage to the levels' records, to the frames or anywhere; what was done.
fn damage(rng: &mut Random, bytes: &mut Vec<u8>) -> String {
    let all = offsets(bytes);
    let of = |kinds: &[u8]| -> Vec<usize> { all.iter().filter(|(_, kind)| kinds.contains(kind)).map(|(at, _)| *at).collect() };
    let level = rng.pick(&of(&[4]));
    let frame = rng.pick(&of(&[1, 5]));
    let record = rng.pick(&all).0;
    let levels_record = bytes[level..level + 44].to_vec();
    let what = rng.below(21);
    match what {
        0 => {
            let cut = rng.within(1, 90) as usize;
            bytes.truncate(bytes.len() - cut);
        }
        1 => bytes.truncate(rng.below(bytes.len() as u64) as usize),
        // Given twice.
        2 => drop(bytes.splice(level..level, levels_record)),
        3 => bytes[level + 4] = rng.below(9) as u8,
        // After a frame or a mark, or elsewhere.
        4 => drop(bytes.splice(record..record, levels_record)),
        5 => drop(bytes.splice(0..0, levels_record)),
        6 => drop(bytes.splice(83..83, [2, 0, 2, 0])),
        // A frame of the other kind, with fields in range or not.
        7 | 8 => {
            let mut t = Trace::default();
            let (flags, sm, counts) = (rng.below(6) as u8, rng.below(11) as u8, [rng.below(11) as u8; 6]);
            match bytes[frame + 2] {
                1 => t.frame_levels(&[0; 64], flags, sm, 0, counts),
                _ => t.frame(&[0; 64], flags, sm, 0),
            }
            bytes.splice(frame..frame, t.0);
        }
        9 => {
            let last = if bytes[frame + 2] == 5 { 72 } else { 66 };
            bytes[frame + 4 + rng.within(65, last) as usize] = rng.within(7, 12) as u8;
        }
        10 => bytes[level + 5 + rng.below(4) as usize] = rng.byte(),
        11 => bytes[level + 5..level + 9].fill(0),
        12 => bytes[level + 9] = rng.below(13) as u8,
        13 => bytes[level + 10] = rng.below(6) as u8,
        14 => bytes[level + 11] = rng.below(5) as u8,
        15 => bytes[record] = rng.byte(),
        16 => bytes[record + 2] = rng.below(7) as u8,
        17 => {
            let at = rng.below(bytes.len() as u64) as usize;
            bytes[at] ^= 1 << rng.below(8);
        }
        18 => bytes[frame + 4 + 64] = rng.below(8) as u8,
        19 => {
            // Several fields of a level at once, so that the order of refusals is seen.
            for at in [4, 9, 10, 11] {
                bytes[level + at] = rng.below(13) as u8;
            }
        }
        _ => drop(bytes.splice(record..record, bytes[..83].to_vec())),
    }
    format!(", damaged ({what})")
}
