//! Traces by seed. Two sorts: signals that each hold, flicker or wander for their own random number of frames, so that waits
//! overlap; and blocks that make one condition begin in the very frame where another clears. Marks fall at random and right
//! before the frames in which something changes. Then some traces are damaged.

use crate::bei::Bei;
use crate::cover::{
    self, conditions, AIS, BIAE, IAE, LCK, LOF, LOM, OCI, OTU_AIS, P_BDI, P_DEG, P_TIM, S_BDI, S_DEG, S_TIM, TSF,
};
use crate::frame::{Sent, FAS};
use crate::level;
use crate::provisioning::{LevelProvisioning, Provisioning, PATH, SECTION};
use crate::random::Random;
use crate::reader::Trace;
use crate::supervisor::Supervisor;

#[derive(Clone, Copy, Debug, PartialEq, Eq)]
pub enum Item {
    Frame(Sent),
    Mark,
}

#[derive(Clone, Debug)]
pub struct Generated {
    pub provisioning: Provisioning,
    /// The provisioned levels, in the order of their records.
    pub levels: Vec<(u8, LevelProvisioning)>,
    /// Whether frames bring the levels' counts: kind 5.
    pub counted: bool,
    pub items: Vec<Item>,
    /// The records; damaged in some traces.
    pub bytes: Vec<u8>,
    pub about: String,
}

/// Trace number `index` of the run with this seed.
pub fn trace(seed: u64, index: u64) -> Generated {
    let mut rng = Random::new(seed.wrapping_mul(0x1_0000_0001).wrapping_add(index));
    rng.next();
    let (provisioning, items, about) = match index % 2 {
        _ if index == 0 => full_second(),
        1 => blocks(&mut rng, index / 2),
        _ => wander(&mut rng),
    };
    let mut trace = Trace::default();
    trace.provisioning(&provisioning);
    for item in &items {
        match item {
            Item::Frame(f) => trace.frame(&f.overhead(), f.flags, f.violations[0], f.violations[1]),
            Item::Mark => trace.mark(),
        }
    }
    let mut bytes = trace.0;
    let mut about = about;
    if index > 0 && rng.once_in(3) {
        about += &damage(&mut rng, &mut bytes, index);
    }
    Generated { provisioning, levels: Vec::new(), counted: false, items, bytes, about }
}

/// 400,000 frames and one too many, with as many blocks and as great sums as there can be.
fn full_second() -> (Provisioning, Vec<Item>, String) {
    let frame = |i: u32| Sent { violations: [1, 1], bei: [8, 8], ..Sent::good(i as u8) };
    let mut items: Vec<Item> = (0..400_001).map(|i| Item::Frame(frame(i))).collect();
    items.push(Item::Mark);
    (crate::frame::plain(1), items, "a full second".into())
}

pub(crate) fn names(rng: &mut Random) -> [u8; 32] {
    let mut names = [0u8; 32];
    if !rng.once_in(8) {
        rng.fill(&mut names);
    }
    names
}

/// A TIMActDis byte that acts or that disables. What is drawn as a third choice was 2, while 2 acted, and is an explicit 0 since K5, so that a trace by its seed prints
/// what it printed.
pub(crate) fn act_dis(rng: &mut Random) -> u8 {
    [0, 1, 0][rng.below(3) as usize]
}

/// The same, with 2 for some of the 1, by the last byte of the names.
pub(crate) fn default_for_some(dis: u8, names: &[u8; 32]) -> u8 {
    if dis == 1 && names[31] % 2 == 1 {
        2
    } else {
        dis
    }
}

/// Half of the codes are put for others that say the same, a number for a number and none for none, by four bits of a byte that is not drawn for
/// it; so a trace by its seed prints what it printed before K7, but for the sums.
pub(crate) fn another(code: u8, by: u8) -> u8 {
    let alike: &[u8] = match Bei::of(code) {
        Bei::None => &[0, 9, 10, 12, 13, 14, 15],
        Bei::Number(_) => &[1, 2, 3, 4, 5, 6, 7, 8],
        Bei::Biae => &[11],
    };
    match by % 2 {
        0 => code,
        _ => alike[usize::from(by / 2 % 8) % alike.len()],
    }
}

pub(crate) fn provisioning(rng: &mut Random, k: u8) -> Provisioning {
    let ceiling = [20_420, 82_025, 329_492][k as usize - 1];
    let thr = |rng: &mut Random| match rng.below(8) {
        0 => ceiling,
        1 => rng.within(1, u64::from(ceiling)) as u32,
        2..=4 => rng.within(1, 40) as u32,
        _ => 1,
    };
    let mut p = Provisioning {
        k,
        degthr: [thr(rng), thr(rng)],
        degm: [rng.pick(&[2, 2, 2, 3, 4, 7, 10]), rng.pick(&[2, 2, 2, 3, 4, 7, 10])],
        mode: [rng.below(4) as u8, rng.below(4) as u8],
        dis: [act_dis(rng), act_dis(rng)],
        names: [names(rng), names(rng)],
    };
    p.dis = [SECTION, PATH].map(|layer| default_for_some(p.dis[layer], &p.names[layer]));
    p
}

/// A trace that a layer expects, and some that differ from it in one byte.
pub(crate) fn traces(rng: &mut Random, expected: &[u8; 32]) -> Vec<[u8; 64]> {
    let mut right = [0u8; 64];
    rng.fill(&mut right);
    right[..32].copy_from_slice(expected);
    let mut all = vec![right];
    for (low, high) in [(0, 15), (16, 31), (32, 63), (0, 63)] {
        let mut other = right;
        other[rng.within(low, high) as usize] ^= 1 << rng.below(8);
        all.push(other);
    }
    all
}

/// A value that holds, flickers or wanders, each for its own number of frames.
pub(crate) struct Wave {
    palette: Vec<u8>,
    quiet: u64,
    long: u64,
    left: u64,
    sort: u8,
    pair: [u8; 2],
    period: u64,
}

impl Wave {
    pub(crate) fn new(rng: &mut Random, palette: &[u8], long: u64) -> Wave {
        let quiet = rng.pick(&[8, 60, 400, 3_000, 1_000_000]);
        Wave { palette: palette.to_vec(), quiet, long, left: 0, sort: 0, pair: [palette[0]; 2], period: 1 }
    }
    pub(crate) fn next(&mut self, rng: &mut Random) -> u8 {
        if self.left == 0 {
            self.sort = rng.below(8) as u8;
            self.pair = [rng.pick(&self.palette), rng.pick(&self.palette)];
            self.period = rng.within(1, 8);
            self.left = match self.sort {
                0..=2 => {
                    self.pair[0] = self.palette[0];
                    rng.within(1, self.quiet)
                }
                3 | 4 => rng.within(1, 7),
                5 => rng.within(1, self.long),
                _ => rng.within(4, 60),
            };
        }
        self.left -= 1;
        match self.sort {
            0..=5 => self.pair[0],
            6 => self.pair[usize::from(self.left % (self.period + 1) == 0)],
            _ => rng.pick(&self.palette),
        }
    }
}

/// Framing: good, lost for 1 to 2N frames, or lost hundreds of times for a few frames.
struct Framing {
    n: u64,
    quiet: u64,
    left: u64,
    bad: bool,
    losses: u64,
    style: u64,
}

impl Framing {
    fn next(&mut self, rng: &mut Random) -> [u8; 6] {
        if self.left == 0 {
            if self.losses > 0 {
                self.bad = !self.bad;
                self.losses -= 1;
                self.left = if self.bad { rng.within(4, 8) } else { rng.within(1, 12) };
            } else {
                self.bad = !self.bad && !rng.once_in(3);
                self.left = match self.bad {
                    true if rng.once_in(2) => rng.within(1, 2 * self.n),
                    true => rng.within(1, 9),
                    false => rng.within(1, self.quiet),
                };
                if self.bad && rng.once_in(4) {
                    self.losses = rng.within(2, 300);
                }
            }
            self.style = rng.below(6);
        }
        self.left -= 1;
        let mut fas = FAS;
        if rng.once_in(50) {
            fas[rng.pick(&[0, 5])] = rng.byte();
        }
        if self.bad {
            match self.style {
                0 => fas = [0; 6],
                1 => rng.fill(&mut fas),
                2 => fas[1] = 0xF7,
                3 => fas[rng.within(2, 4) as usize] ^= 1 << rng.below(8),
                4 => fas[rng.below(6) as usize] = 0,
                _ => fas = [0xFF; 6],
            }
        }
        fas
    }
}

/// MFAS: counts; jumps; sticks; is off for four frames or five, or for some; is noise.
struct Mfas {
    n: u64,
    quiet: u64,
    count: u8,
    left: u64,
    sort: u8,
    mask: u8,
}

impl Mfas {
    fn next(&mut self, rng: &mut Random) -> u8 {
        self.count = self.count.wrapping_add(1);
        if self.left == 0 {
            self.sort = rng.below(10) as u8;
            self.mask = rng.within(1, 255) as u8;
            self.left = match self.sort {
                0..=3 => rng.within(1, self.quiet),
                4 => 4,
                5 => 5,
                6 => rng.within(1, 12),
                7 => rng.within(2, 2 * self.n),
                8 => {
                    self.count = self.count.wrapping_add(self.mask);
                    rng.within(1, self.quiet)
                }
                _ => rng.within(1, 20),
            };
        }
        self.left -= 1;
        match self.sort {
            4..=6 => self.count ^ self.mask,
            7 => {
                self.count = self.count.wrapping_sub(1);
                self.count
            }
            9 => rng.byte(),
            _ => self.count,
        }
    }
}

/// Which of a layer's traces is sent.
pub(crate) struct Tti {
    traces: Vec<[u8; 64]>,
    quiet: u64,
    which: usize,
    left: u64,
}

impl Tti {
    pub(crate) fn new(rng: &mut Random, names: &[u8; 32]) -> Tti {
        Tti { traces: traces(rng, names), quiet: rng.pick(&[300, 600, 2_000]), which: 0, left: rng.within(1, 500) }
    }
    pub(crate) fn next(&mut self, rng: &mut Random, number: u8) -> u8 {
        if self.left == 0 {
            self.which = if rng.once_in(2) { 0 } else { rng.below(self.traces.len() as u64) as usize };
            self.left = match rng.below(4) {
                0 => rng.within(1, 64),
                1 => 64 * rng.within(1, 4),
                _ => rng.within(1, self.quiet),
            };
        }
        self.left -= 1;
        let byte = self.traces[self.which][number as usize % 64];
        if rng.once_in(3_000) {
            byte ^ 1
        } else {
            byte
        }
    }
}

fn wander(rng: &mut Random) -> (Provisioning, Vec<Item>, String) {
    let k = rng.pick(&[1, 1, 1, 1, 2, 2, 3]);
    let p = provisioning(rng, k);
    let length = match k {
        1 => rng.within(300, 4_500),
        2 => rng.within(1_500, 5_000),
        _ => rng.within(4_000, 8_000),
    };
    let frames = wandering(rng, &p, length);
    let items = with_marks(rng, &p, &[], &frames);
    (p, items, format!("signals that wander, k = {k}"))
}

/// Frames in which every signal wanders by itself.
pub fn wandering(rng: &mut Random, p: &Provisioning, length: u64) -> Vec<Sent> {
    wandering_counts(rng, p, length).into_iter().map(|(f, _)| f).collect()
}

/// The same, each with the count that its trace bytes go by: the MFAS, where it is not disturbed.
pub(crate) fn wandering_counts(rng: &mut Random, p: &Provisioning, length: u64) -> Vec<(Sent, u8)> {
    let n = p.n();
    let quiet = |rng: &mut Random| rng.pick(&[20, 150, 900, 3 * n, 1_000_000]);
    let mut framing = Framing { n, quiet: quiet(rng), left: rng.below(50), bad: rng.once_in(4), losses: 0, style: 0 };
    let mut mfas = Mfas { n, quiet: quiet(rng), count: rng.byte(), left: rng.below(300), sort: 0, mask: 0 };
    let mut tti = [SECTION, PATH].map(|layer| Tti::new(rng, &p.names[layer]));
    let mut flags = Wave::new(rng, &[0, 0, 1, 2, 3], 2 * n);
    if rng.once_in(2) {
        flags.quiet = 1_000_000;
        flags.left = length;
    }
    // In some, the line is sound for long, so that traces are accepted and what they cause stands beside the rest.
    if rng.once_in(3) {
        let sound = rng.within(length / 2, length);
        (flags.left, mfas.left) = (flags.left.max(sound), sound);
        (framing.bad, framing.left) = (false, sound);
    }
    let rest = rng.pick(&[1, 1, 0, 4]);
    let mut stat = Wave::new(rng, &[rest, 7, 6, 5, 1, 7, 6, 5, 0, 2, 3, 4], 200);
    let mut bdi = [Wave::new(rng, &[0, 1], 200), Wave::new(rng, &[0, 1], 200)];
    let mut iae = Wave::new(rng, &[0, 1], 200);
    let mut bei = [
        Wave::new(rng, &[0, 11, 11, 11, 1, 8, 9, 15, 5, 3], 60),
        Wave::new(rng, &[0, 1, 2, 3, 4, 5, 6, 7, 8, 9, 10, 11, 12, 13, 14, 15], 60),
    ];
    let mut counts = [Wave::new(rng, &[0, 1, 8, 3], 400), Wave::new(rng, &[0, 1, 8, 3], 400)];
    (0..length)
        .map(|_| {
            let m = mfas.next(rng);
            let mut sent = Sent {
                fas: framing.next(rng),
                mfas: m,
                tti: [tti[0].next(rng, mfas.count), tti[1].next(rng, mfas.count)],
                bei: [bei[0].next(rng), bei[1].next(rng)],
                bdi: [bdi[0].next(rng) == 1, bdi[1].next(rng) == 1],
                iae: iae.next(rng) == 1,
                stat: stat.next(rng),
                ignored: rng.byte(),
                flags: flags.next(rng),
                violations: [counts[0].next(rng), counts[1].next(rng)],
                ..Sent::ZEROS
            };
            sent.bei = [another(sent.bei[0], sent.ignored), another(sent.bei[1], sent.ignored >> 4)];
            (sent, mfas.count)
        })
        .collect()
}

/// The conditions that stand after the last frame, and what stands of each level.
fn standing(s: &Supervisor) -> ([bool; 15], [Option<level::Standing>; 6]) {
    (conditions(&s.standing()), std::array::from_fn(|i| s.level(i as u8 + 1).map(|level| level.standing())))
}

/// Marks at random, and right before some of the frames in which something changes.
pub(crate) fn with_marks(rng: &mut Random, p: &Provisioning, levels: &[(u8, LevelProvisioning)], frames: &[Sent]) -> Vec<Item> {
    let mean = rng.pick(&[8, 40, 150, 600, 3_000]);
    let eager = rng.pick(&[2, 4, 16, 1_000]);
    let mut s = Supervisor::fresh(p.clone());
    for (level, p) in levels {
        s.provision(*level, p.clone());
    }
    let mut items = Vec::with_capacity(frames.len() + 64);
    let mut before = standing(&s);
    for f in frames {
        s.step_levels(&f.overhead(), f.flags, f.violations[0], f.violations[1], f.counts()).expect("the frame is in range");
        let after = standing(&s);
        if (before != after && rng.once_in(eager)) || rng.once_in(mean) {
            for _ in 0..if rng.once_in(20) { rng.within(1, 11) } else { 1 } {
                items.push(Item::Mark);
            }
        }
        before = after;
        items.push(Item::Frame(*f));
    }
    for _ in 0..rng.below(3) {
        items.push(Item::Mark);
    }
    items
}

/// A block: quiet, then driven so that `begins` begins in the frame `at` where `clears` clears, then a few frames more.
struct Block {
    frames: Vec<Sent>,
    marks: Vec<bool>,
    wrong: [Vec<bool>; 2],
    at: usize,
}

fn block(rng: &mut Random, p: &Provisioning, tti: &[Vec<[u8; 64]>; 2], first: u8, begins: usize, clears: usize) -> Block {
    let n = p.n() as usize;
    let degm = p.degm[0].max(p.degm[1]) as usize;
    let width = (2 * n + 80).max(300);
    let degraded = [S_DEG, P_DEG].iter().any(|d| *d == begins || *d == clears);
    let mut at = 2 * n + 620 + rng.below(64) as usize;
    if degraded {
        at = at.max(2 * degm * width + n + 200);
    }
    // At the end of a cycle.
    while first.wrapping_add(at as u8) % 64 != 63 {
        at += 1;
    }
    let length = at + rng.within(1, 12) as usize;
    let mut b = Block {
        frames: (0..length).map(|i| Sent { stat: 1, ..Sent::good(first.wrapping_add(i as u8)) }).collect(),
        marks: vec![false; length],
        wrong: [vec![false; length], vec![false; length]],
        at,
    };
    // What stood before is over: DEGM empty seconds and one more clear dDEG.
    for i in 0..=degm {
        b.marks[n + 100 + i] = true;
    }
    b.clear(rng, p, clears, width);
    b.begin(p, begins, clears, width);
    if (begins, clears) == (LOM, LOF) {
        // Four mismatches in the bad frames that are still IF; the frame that is IF again brings the fifth, and MFAS sticks.
        let bad = (0..at).rev().find(|i| b.frames[*i].fas != FAS).expect("framing was lost");
        let start = (0..bad).rev().find(|i| b.frames[*i].fas == FAS).expect("framing was there") + 1;
        let stuck = first.wrapping_add((at - n + 1) as u8).wrapping_add(100);
        for i in start..start + 4 {
            b.frames[i].mfas ^= 0x80;
        }
        for i in start + 4..length {
            b.frames[i].mfas = stuck;
        }
    }
    for i in 0..length {
        let number = first.wrapping_add(i as u8) as usize % 64;
        for layer in [SECTION, PATH] {
            // The changed byte lies in the field that the mode compares.
            let which = match (b.wrong[layer][i], p.mode[layer]) {
                (false, _) => 0,
                (true, 2) => 2,
                _ => 1,
            };
            b.frames[i].tti[layer] = tti[layer][which][number];
            b.frames[i].bei[layer] = another(b.frames[i].bei[layer], i as u8);
        }
    }
    b
}

impl Block {
    fn deg(&mut self, layer: usize, from: usize, to: usize) {
        for f in &mut self.frames[from..to] {
            f.violations[layer] = 1;
        }
    }

    fn lose_framing(&mut self, from: usize, to: usize) {
        for f in &mut self.frames[from..to] {
            f.fas = [0; 6];
        }
    }

    /// `y` stands before frame `at` and clears in it.
    fn clear(&mut self, rng: &mut Random, p: &Provisioning, y: usize, width: usize) {
        let (t, n) = (self.at, p.n() as usize);
        let some = rng.within(5, 20) as usize;
        match y {
            TSF => self.frames[t - some..t].iter_mut().for_each(|f| f.flags |= 1),
            OTU_AIS => self.frames[t - some..t].iter_mut().for_each(|f| f.flags |= 2),
            LOF => self.lose_framing(t - n - (n + 3 + some), t - n),
            LOM => {
                let from = t - n - 6 - some;
                let stuck = self.frames[from].mfas;
                for i in from..t {
                    self.frames[i].mfas = stuck;
                }
                for i in t..self.frames.len() {
                    self.frames[i].mfas = stuck.wrapping_add((i - t) as u8).wrapping_add(1);
                }
            }
            S_TIM | P_TIM => {
                let layer = usize::from(y == P_TIM);
                self.wrong[layer][t - 383 - n..t - 191].fill(true);
            }
            S_BDI => self.frames[t - 4 - some..t - 4].iter_mut().for_each(|f| f.bdi[0] = true),
            P_BDI => self.frames[t - 4 - some..t - 4].iter_mut().for_each(|f| f.bdi[1] = true),
            IAE => self.frames[t - 4 - some..t - 4].iter_mut().for_each(|f| f.iae = true),
            BIAE => self.frames[t - 2 - some..t - 2].iter_mut().for_each(|f| f.bei[0] = 11),
            AIS | OCI | LCK => {
                let value = [7, 6, 5][y - AIS];
                self.frames[t - 2 - some..t - 2].iter_mut().for_each(|f| f.stat = value);
            }
            _ => {
                let layer = usize::from(y == P_DEG);
                let m = p.degm[layer] as usize;
                for j in 0..=2 * m {
                    self.marks[t - j * width] = true;
                }
                self.deg(layer, t - 2 * m * width, t - m * width);
            }
        }
    }

    /// `x` begins in frame `at`.
    fn begin(&mut self, p: &Provisioning, x: usize, clears: usize, width: usize) {
        let (t, n, end) = (self.at, p.n() as usize, self.frames.len());
        match x {
            TSF => self.frames[t..end].iter_mut().for_each(|f| f.flags |= 1),
            OTU_AIS => self.frames[t..end].iter_mut().for_each(|f| f.flags |= 2),
            LOF => self.lose_framing(t - n - 3, end),
            LOM if clears == LOF => {}
            LOM => {
                let from = t - n - 3;
                let stuck = self.frames[from - 1].mfas;
                self.frames[from..end].iter_mut().for_each(|f| f.mfas = stuck);
            }
            S_TIM => self.wrong[0][t - 191..end].fill(true),
            P_TIM => self.wrong[1][t - 191..end].fill(true),
            S_BDI => self.frames[t - 4..end].iter_mut().for_each(|f| f.bdi[0] = true),
            P_BDI => self.frames[t - 4..end].iter_mut().for_each(|f| f.bdi[1] = true),
            IAE => self.frames[t - 4..end].iter_mut().for_each(|f| f.iae = true),
            BIAE => self.frames[t - 2..end].iter_mut().for_each(|f| f.bei[0] = 11),
            AIS | OCI | LCK => {
                let value = [7, 6, 5][x - AIS];
                self.frames[t - 2..end].iter_mut().for_each(|f| f.stat = value);
            }
            _ => {
                let layer = usize::from(x == P_DEG);
                let m = p.degm[layer] as usize;
                for j in 0..=m {
                    self.marks[t - j * width] = true;
                }
                self.deg(layer, t - m * width, t);
            }
        }
    }
}

fn blocks(rng: &mut Random, number: u64) -> (Provisioning, Vec<Item>, String) {
    let all = cover::pairs();
    let chosen: Vec<(usize, usize)> = (0..3).map(|j| all[((3 * number + j) % all.len() as u64) as usize]).collect();
    let degraded = chosen.iter().any(|(x, y)| [S_DEG, P_DEG].contains(x) || [S_DEG, P_DEG].contains(y));
    let k = match rng.below(if degraded { 24 } else { 12 }) {
        0 => 3,
        1 | 2 => 2,
        _ => 1,
    };
    let mut p = provisioning(rng, k);
    p.mode = [rng.within(1, 3) as u8, rng.within(1, 3) as u8];
    p.degthr = [rng.within(1, 5) as u32, rng.within(1, 5) as u32];
    p.degm = [2, 2];
    if chosen.iter().any(|(x, y)| *y == S_TIM && *x >= AIS) {
        p.dis[0] = 1;
    }
    let tti = [traces(rng, &p.names[0]), traces(rng, &p.names[1])];
    let mut items = Vec::new();
    let mut first = rng.byte();
    let mut about = format!("k = {k}");
    for (x, y) in chosen {
        let b = block(rng, &p, &tti, first, x, y);
        about += &format!(", {} begins where {} clears", cover::CONDITIONS[x], cover::CONDITIONS[y]);
        for (f, mark) in b.frames.iter().zip(&b.marks) {
            if *mark {
                items.push(Item::Mark);
            }
            items.push(Item::Frame(*f));
        }
        first = b.frames[b.frames.len() - 1].mfas.wrapping_add(1);
    }
    items.push(Item::Mark);
    (p, items, about)
}

/// Where each record begins.
fn offsets(bytes: &[u8]) -> Vec<usize> {
    let mut at = 0;
    let mut all = Vec::new();
    while at + 4 <= bytes.len() {
        all.push(at);
        at += 2 + usize::from(u16::from_le_bytes([bytes[at], bytes[at + 1]]));
    }
    all
}

/// Damage at the end or in the middle; what was done.
fn damage(rng: &mut Random, bytes: &mut Vec<u8>, index: u64) -> String {
    let all = offsets(bytes);
    let frames: Vec<usize> = all.iter().copied().filter(|at| bytes[at + 2] == 1).collect();
    let record = if rng.once_in(4) { all[0] } else { rng.pick(&all) };
    let frame = rng.pick(&frames);
    let what = index / 3 % 16;
    match what {
        0 => {
            let cut = rng.within(1, 90).min(bytes.len() as u64) as usize;
            bytes.truncate(bytes.len() - cut);
        }
        1 => bytes.truncate(rng.below(bytes.len() as u64) as usize),
        2 => bytes[record] = rng.byte(),
        3 => bytes[record + 1] ^= 1 << rng.below(8),
        4 => bytes[record + 2] = rng.below(5) as u8,
        5 => bytes[record + 3] = rng.byte(),
        6 => bytes[frame + 4 + 64] = rng.within(0, 8) as u8,
        7 => bytes[frame + 4 + 65 + rng.below(2) as usize] = rng.within(7, 12) as u8,
        8 => {
            let head: Vec<u8> = bytes[..83].to_vec();
            bytes.splice(record..record, head);
        }
        9 => {
            bytes.drain(..83);
        }
        10 => bytes[4 + rng.below(15) as usize] = rng.byte(),
        11 => bytes[4] = rng.below(5) as u8,
        12 => bytes[4 + 11 + rng.below(4) as usize] = rng.below(5) as u8,
        13 => bytes[4 + rng.pick(&[5, 10])] = rng.below(13) as u8,
        14 => {
            let at = rng.below(bytes.len() as u64) as usize;
            bytes[at] ^= 1 << rng.below(8);
        }
        _ => {
            let extra = rng.within(1, 80) as usize;
            for _ in 0..extra {
                let b = rng.byte();
                bytes.push(b);
            }
        }
    }
    format!(", damaged ({what})")
}
