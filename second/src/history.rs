//! The record of the frames, and the two questions most rules put to it.

use crate::bei::Bei;
use std::collections::VecDeque;

/// How far a look-back goes before it takes up the answer recorded there.
pub const WINDOW: u64 = 64;
/// How many frames are kept when a second is closed, and more where the pending second has more: three trace cycles and some.
pub const KEPT: usize = 512;

/// What one frame brought.
#[derive(Clone, Copy, Debug, Default)]
pub struct Received {
    pub columns_2_to_5: bool,
    pub columns_3_to_5: bool,
    pub mfas: u8,
    pub tti: [u8; 2],
    pub bei: [u8; 2],
    pub bdi: [bool; 2],
    pub iae: bool,
    pub stat: u8,
    pub tsf: bool,
    pub otu_ais: bool,
    pub violations: [u8; 2],
}

impl Received {
    pub fn of(overhead: &[u8], flags: u8, sm: u8, pm: u8) -> Received {
        let at = |row: usize, column: usize| overhead[(row - 1) * 16 + column - 1];
        let (s, p) = (at(1, 10), at(3, 12));
        Received {
            columns_2_to_5: (2..=5).map(|c| at(1, c)).eq([0xF6, 0xF6, 0x28, 0x28]),
            columns_3_to_5: (3..=5).map(|c| at(1, c)).eq([0xF6, 0x28, 0x28]),
            mfas: at(1, 7),
            tti: [at(1, 8), at(3, 10)],
            bei: [s >> 4, p >> 4],
            bdi: [s & 8 != 0, p & 8 != 0],
            iae: s & 4 != 0,
            stat: p & 7,
            tsf: flags & 1 != 0,
            otu_ais: flags & 2 != 0,
            violations: [sm, pm],
        }
    }
}

/// What stood after one frame.
#[derive(Clone, Copy, Debug, Default, PartialEq, Eq)]
pub struct Standing {
    pub in_frame: bool,
    /// The frame in which the present IM was entered and the MFAS it brought; none in OOM.
    pub entered: Option<(u64, u8)>,
    pub tsf: bool,
    pub otu_ais: bool,
    pub dlof: bool,
    pub dlom: bool,
    pub ssf: [bool; 2],
    pub dtim: [bool; 2],
    pub dbdi: [bool; 2],
    pub diae: bool,
    pub dbiae: bool,
    pub stat: Option<u8>,
    pub ddeg: [bool; 2],
    pub acting: [bool; 2],
}

impl Standing {
    /// The local number in frame `number`: the MFAS that entered IM and the frames since, modulo 256. None in OOM.
    pub fn local(&self, number: u64) -> Option<u8> {
        self.entered.map(|(frame, mfas)| mfas.wrapping_add(((number - frame) % 256) as u8))
    }
    pub fn dais(&self) -> bool {
        self.stat == Some(0b111)
    }
    pub fn doci(&self) -> bool {
        self.stat == Some(0b110)
    }
    pub fn dlck(&self) -> bool {
        self.stat == Some(0b101)
    }
}

/// What a frame brought and what stood after it: of line, section and path, or of one tandem level.
#[derive(Clone, Copy, Debug)]
pub struct Frame<R, S> {
    pub received: R,
    pub standing: S,
}

/// Frames by number, counted from 1. The oldest are dropped when they can no longer be asked for.
#[derive(Clone, Debug, Default)]
pub struct History<R, S> {
    frames: VecDeque<Frame<R, S>>,
    dropped: u64,
}

impl<R, S: Default> History<R, S> {
    pub fn last(&self) -> u64 {
        self.dropped + self.frames.len() as u64
    }
    pub fn record(&mut self, received: R) -> u64 {
        self.frames.push_back(Frame { received, standing: S::default() });
        self.last()
    }
    pub fn at(&self, number: u64) -> &Frame<R, S> {
        &self.frames[(number - self.dropped - 1) as usize]
    }
    pub fn standing_mut(&mut self, number: u64) -> &mut S {
        let i = (number - self.dropped - 1) as usize;
        &mut self.frames[i].standing
    }
    /// The frames of a stretch.
    pub fn of(&self, stretch: Stretch) -> impl Iterator<Item = &Frame<R, S>> {
        self.frames.range((stretch.after - self.dropped) as usize..(stretch.last - self.dropped) as usize)
    }
    /// Drops the frames up to `number`, but for the last `kept` of all.
    pub fn forget(&mut self, number: u64, kept: usize) {
        while self.dropped < number && self.frames.len() > kept {
            self.frames.pop_front();
            self.dropped += 1;
        }
    }
}

/// The frames after one frame up to and with another, by number.
#[derive(Clone, Copy, Debug, Default, PartialEq, Eq)]
pub struct Stretch {
    pub after: u64,
    pub last: u64,
}

impl Stretch {
    pub fn frames(&self) -> u64 {
        self.last - self.after
    }
    /// This one and the one that follows it.
    pub fn with(self, next: Stretch) -> Stretch {
        Stretch { after: self.after, last: next.last }
    }
}

/// The five figures of a section, path or level over the frames of one second.
#[derive(Clone, Copy, Debug, Default, PartialEq, Eq)]
pub struct Figures {
    pub near: u32,
    pub far: u32,
    pub near_ds: bool,
    pub far_ds: bool,
    /// "the sum of BEI violations beside errored blocks" (K7): eight at most for each of 400,000 frames, so that it needs no bound of its own here.
    pub sum: u32,
}

impl Figures {
    /// A frame that is counted: its own violations, and what its BEI says of the far end.
    pub fn count(&mut self, violations: u8, bei: Bei) {
        self.near += u32::from(violations > 0);
        self.far += u32::from(bei.violations().is_some());
        self.sum += u32::from(bei.violations().unwrap_or(0));
    }
    /// "pIAE discards near and far values .., pBIAE the far values" (K3); the sum "is discarded .. as the far block count is" (K7).
    pub fn discarded(self, iae: bool, biae: bool) -> Figures {
        Figures {
            near: if iae { 0 } else { self.near },
            far: if iae || biae { 0 } else { self.far },
            near_ds: self.near_ds && !iae,
            far_ds: self.far_ds && !iae && !biae,
            sum: if iae || biae { 0 } else { self.sum },
        }
    }
    /// As they stand in a line and in a record: "the sum comes last in each layer's group".
    pub fn five(&self) -> [u32; 5] {
        [self.near, self.far, u32::from(self.near_ds), u32::from(self.far_ds), self.sum]
    }
}

/// Going back from `now`, and never to `forgotten` or before: the latest `n` in a row that are alike, and which. Without any,
/// false. `recorded(u)` is the answer that this question had at `u`.
pub fn latest_row(now: u64, forgotten: u64, n: u64, bit: impl Fn(u64) -> bool, recorded: impl Fn(u64) -> bool) -> bool {
    let mut end = now;
    while end >= forgotten + n {
        if now - end >= WINDOW {
            return recorded(end);
        }
        let which = bit(end);
        if (end + 1 - n..end).all(|u| bit(u) == which) {
            return which;
        }
        end -= 1;
    }
    false
}

/// The same with values instead of bits: the latest value met `n` times in a row, none without.
pub fn latest_value(
    now: u64,
    forgotten: u64,
    n: u64,
    value: impl Fn(u64) -> u8,
    recorded: impl Fn(u64) -> Option<u8>,
) -> Option<u8> {
    let mut end = now;
    while end >= forgotten + n {
        if now - end >= WINDOW {
            return recorded(end);
        }
        let which = value(end);
        if (end + 1 - n..end).all(|u| value(u) == which) {
            return Some(which);
        }
        end -= 1;
    }
    None
}

/// The three cycles that end in frame `now`, where they are whole, in IM, since the last forgetting, and alike. `s` is what stands in
/// that frame after alignment, `tti(u)` the byte that frame `u` brought.
pub fn three_cycles(s: &Standing, now: u64, forgotten: u64, tti: impl Fn(u64) -> u8) -> Option<[u8; 64]> {
    if s.local(now)? % 64 != 63 || now < forgotten + 192 || s.entered?.0 + 191 > now {
        return None;
    }
    let cycle = |end: u64| -> [u8; 64] { std::array::from_fn(|i| tti(end - 63 + i as u64)) };
    let last = cycle(now);
    (cycle(now - 64) == last && cycle(now - 128) == last).then_some(last)
}

/// Seconds closed so far: was it bad, and what dDEG became. The oldest are dropped when they can no longer be asked for.
#[derive(Clone, Debug, Default)]
pub struct Seconds {
    record: VecDeque<(bool, bool)>,
    dropped: u64,
}

impl Seconds {
    /// dDEG: the latest DEGM closed seconds in a row that were all bad or all not.
    pub fn ddeg(&self, degm: u8) -> bool {
        let at = |u: u64| &self.record[(u - self.dropped - 1) as usize];
        let last = self.dropped + self.record.len() as u64;
        latest_row(last, 0, u64::from(degm), |u| at(u).0, |u| at(u).1)
    }

    pub fn close(&mut self, bad: bool, degm: u8) {
        self.record.push_back((bad, false));
        let became = self.ddeg(degm);
        self.record.back_mut().unwrap().1 = became;
        if self.record.len() as u64 > 2 * WINDOW {
            self.record.pop_front();
            self.dropped += 1;
        }
    }
}
