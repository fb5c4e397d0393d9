//! The supervisor: each rule of document 01 as a question to the history. The tandem levels stand beside it, in `level.rs`.

use crate::bei::Bei;
use crate::history::{
    latest_row, latest_value, three_cycles, Figures, History, Received, Seconds, Standing, Stretch, KEPT, WINDOW,
};
use crate::level::{self, Level};
use crate::provisioning::{LevelProvisioning, Provisioning, PATH, SECTION};
use crate::report;
use std::collections::VecDeque;

pub const FULL_SECOND: u64 = 400_000;

/// A second that is told: the 22 figures of line, section and path, and the five of each level that is provisioned.
#[derive(Clone, Copy, Debug, PartialEq, Eq)]
pub struct Second {
    pub figures: [u32; 22],
    pub levels: [Option<[u32; 5]>; 6],
}

#[derive(Clone, Debug)]
pub struct Supervisor {
    pub provisioning: Provisioning,
    history: History<Received, Standing>,
    /// OOF frames with fewer than N IF frames between one and the next; the last N of them are enough.
    oof: VecDeque<u64>,
    /// The last frame in IM, 0 without.
    last_im: u64,
    /// For the frames whose MFAS was held against the local number since IM was entered: whether it was another.
    mismatches: VecDeque<bool>,
    /// The last frame in which this was forgotten, 0 without.
    trace_forgotten: [u64; 2],
    bdi_forgotten: [u64; 2],
    iae_forgotten: u64,
    stat_forgotten: u64,
    /// The latest acceptance and the frame it fell in.
    accepted: [Option<(u64, [u8; 64])>; 2],
    seconds: [Seconds; 2],
    closed: u64,
    /// The frames of the pending second, which is the one closed last (K3).
    pending: Stretch,
    /// "A level is monitored only if provisioned" (K1).
    levels: [Option<Level>; 6],
}

impl Supervisor {
    pub fn fresh(provisioning: Provisioning) -> Supervisor {
        Supervisor {
            provisioning,
            history: History::default(),
            oof: VecDeque::new(),
            last_im: 0,
            mismatches: VecDeque::new(),
            trace_forgotten: [0; 2],
            bdi_forgotten: [0; 2],
            iae_forgotten: 0,
            stat_forgotten: 0,
            accepted: [None, None],
            seconds: Default::default(),
            closed: 0,
            pending: Stretch::default(),
            levels: Default::default(),
        }
    }

    /// Whether a frame or a mark was accepted: no level is provisioned after that.
    pub fn begun(&self) -> bool {
        self.closed > 0 || self.history.last() > 0
    }

    /// Whether this is a level, 1 to 6, that is not given yet.
    pub fn takes(&self, level: u8) -> bool {
        (1..=6).contains(&level) && self.level(level).is_none()
    }

    /// From here on the level is monitored. It is one that `takes` knows, and nothing was accepted yet.
    pub fn provision(&mut self, level: u8, provisioning: LevelProvisioning) {
        self.levels[usize::from(level) - 1] = Some(Level::fresh(provisioning));
    }

    /// A level, if it is one and is provisioned.
    pub fn level(&self, level: u8) -> Option<&Level> {
        self.levels.get(usize::from(level).wrapping_sub(1))?.as_ref()
    }

    /// A supervisor that has closed so many seconds more, all of them empty: for refusal 4, which no trace can reach in time.
    pub fn with_closed(mut self, closed: u64) -> Supervisor {
        self.closed = closed;
        self.pending.after = self.pending.last;
        self
    }

    pub fn closed(&self) -> u64 {
        self.closed
    }

    pub fn open_frames(&self) -> u64 {
        self.open().frames()
    }

    /// The frames of the open second.
    fn open(&self) -> Stretch {
        Stretch { after: self.pending.last, last: self.history.last() }
    }

    pub fn standing(&self) -> Standing {
        match self.history.last() {
            0 => Standing::default(),
            now => self.history.at(now).standing,
        }
    }

    /// One frame whose levels' counts are 0: its report, or refusal 1 to 4.
    pub fn step(&mut self, overhead: &[u8], flags: u8, sm: u8, pm: u8) -> Result<u64, u8> {
        self.step_levels(overhead, flags, sm, pm, [0; 6])
    }

    /// One frame with the counts of levels 1 to 6: its report, or refusal 1 to 4. A count is refused whether or not its level is
    /// provisioned.
    pub fn step_levels(&mut self, overhead: &[u8], flags: u8, sm: u8, pm: u8, counts: [u8; 6]) -> Result<u64, u8> {
        if overhead.len() != 64 {
            return Err(1);
        }
        if flags > 3 {
            return Err(2);
        }
        if sm > 8 || pm > 8 || counts.iter().any(|count| *count > 8) {
            return Err(3);
        }
        if self.open_frames() == FULL_SECOND {
            return Err(4);
        }
        let received = Received::of(overhead, flags, sm, pm);
        let now = self.history.record(received);
        let mut s = Standing { tsf: received.tsf, otu_ais: received.otu_ais, ..Standing::default() };
        s.in_frame = self.in_frame(now);
        self.history.standing_mut(now).in_frame = s.in_frame;
        s.dlof = self.dlof(now, s.in_frame);
        s.entered = self.entered(now, s.in_frame);
        s.dlom = self.dlom(now, s.entered);
        *self.history.standing_mut(now) = s;
        self.section(now, &mut s);
        *self.history.standing_mut(now) = s;
        self.path(now, &mut s);
        s.ddeg = [SECTION, PATH].map(|layer| self.seconds[layer].ddeg(self.provisioning.degm[layer]));
        *self.history.standing_mut(now) = s;
        for (number, level) in (1..).zip(&mut self.levels) {
            if let Some(level) = level {
                level.step(&s, level::Received::of(number, overhead, counts[usize::from(number) - 1]));
            }
        }
        Ok(report::word(&s, &received.violations))
    }

    /// IF: two frames with columns 2 to 5 right, one after the other, and since then never five in a row with columns 3 to 5
    /// wrong. (A pair met in IF changes nothing, and the five always begin after the pair: its frames have columns 3 to 5 right.)
    fn in_frame(&self, now: u64) -> bool {
        let h = &self.history;
        let mut u = now;
        loop {
            if u < 2 {
                return false;
            }
            if now - u >= WINDOW {
                return h.at(u).standing.in_frame;
            }
            if u >= 5 && (u - 4..=u).all(|v| !h.at(v).received.columns_3_to_5) {
                return false;
            }
            if h.at(u).received.columns_2_to_5 && h.at(u - 1).received.columns_2_to_5 {
                return true;
            }
            u -= 1;
        }
    }

    /// dLOF: N frames in OOF, with no N IF frames in a row between any two of them nor after the last.
    fn dlof(&mut self, now: u64, in_frame: bool) -> bool {
        let n = self.provisioning.n();
        if !in_frame {
            if self.oof.back().is_some_and(|last| now - last - 1 >= n) {
                self.oof.clear();
            }
            self.oof.push_back(now);
            if self.oof.len() as u64 > n {
                self.oof.pop_front();
            }
        }
        self.oof.len() as u64 == n && self.oof.back().is_some_and(|last| now - last < n)
    }

    /// IM and where it was entered. In IM: it ends when the last five MFAS that were held against the local number were all
    /// others. In OOM: it begins at an MFAS that follows the frame's before, both frames in IF after them.
    fn entered(&mut self, now: u64, in_frame: bool) -> Option<(u64, u8)> {
        let mfas = self.history.at(now).received.mfas;
        let before = match now {
            1 => Standing::default(),
            _ => self.history.at(now - 1).standing,
        };
        if before.entered.is_some() {
            let mut lost = false;
            if in_frame {
                let local = Standing { entered: before.entered, ..Standing::default() }.local(now);
                self.mismatches.push_back(Some(mfas) != local);
                if self.mismatches.len() > 5 {
                    self.mismatches.pop_front();
                }
                lost = self.mismatches.len() == 5 && self.mismatches.iter().all(|other| *other);
            }
            return if lost { None } else { before.entered };
        }
        if in_frame && before.in_frame && mfas == self.history.at(now - 1).received.mfas.wrapping_add(1) {
            self.mismatches.clear();
            return Some((now, mfas));
        }
        None
    }

    /// dLOM: the last N frames were all in OOM.
    fn dlom(&mut self, now: u64, entered: Option<(u64, u8)>) -> bool {
        if entered.is_some() {
            self.last_im = now;
        }
        now - self.last_im >= self.provisioning.n()
    }

    fn section(&mut self, now: u64, s: &mut Standing) {
        let ssf = s.tsf || s.otu_ais || s.dlof || s.dlom;
        s.ssf[SECTION] = ssf;
        if ssf {
            self.trace_forgotten[SECTION] = now;
            self.bdi_forgotten[SECTION] = now;
        }
        s.dtim[SECTION] = self.dtim(SECTION, now);
        s.acting[SECTION] = s.dtim[SECTION] && self.provisioning.acts(SECTION);
        s.dbdi[SECTION] = self.dbdi(SECTION, now);
        if ssf || s.dtim[SECTION] {
            self.iae_forgotten = now;
        }
        let h = &self.history;
        s.diae = latest_row(now, self.iae_forgotten, 5, |u| h.at(u).received.iae, |u| h.at(u).standing.diae);
        let biae = |u: u64| Bei::of(h.at(u).received.bei[SECTION]) == Bei::Biae;
        s.dbiae = latest_row(now, self.iae_forgotten, 3, biae, |u| h.at(u).standing.dbiae);
    }

    fn path(&mut self, now: u64, s: &mut Standing) {
        let ssf = s.ssf[SECTION] || s.acting[SECTION];
        s.ssf[PATH] = ssf;
        if ssf {
            self.stat_forgotten = now;
        }
        let h = &self.history;
        s.stat = latest_value(now, self.stat_forgotten, 3, |u| h.at(u).received.stat, |u| h.at(u).standing.stat);
        if ssf || s.dais() {
            self.trace_forgotten[PATH] = now;
            self.bdi_forgotten[PATH] = now;
        }
        s.dtim[PATH] = self.dtim(PATH, now);
        s.acting[PATH] = s.dtim[PATH] && self.provisioning.acts(PATH);
        s.dbdi[PATH] = self.dbdi(PATH, now);
    }

    fn dbdi(&self, layer: usize, now: u64) -> bool {
        let h = &self.history;
        let bit = |u: u64| h.at(u).received.bdi[layer];
        latest_row(now, self.bdi_forgotten[layer], 5, bit, |u| h.at(u).standing.dbdi[layer])
    }

    fn dtim(&mut self, layer: usize, now: u64) -> bool {
        let h = &self.history;
        let tti = |u: u64| h.at(u).received.tti[layer];
        if let Some(trace) = three_cycles(&h.at(now).standing, now, self.trace_forgotten[layer], tti) {
            self.accepted[layer] = Some((now, trace));
        }
        self.accepted_trace(layer).is_some_and(|trace| self.provisioning.differs(layer, trace))
    }

    /// The latest acceptance, if nothing was forgotten in its frame or later.
    pub fn accepted_trace(&self, layer: usize) -> Option<&[u8; 64]> {
        match &self.accepted[layer] {
            Some((frame, trace)) if *frame > self.trace_forgotten[layer] => Some(trace),
            _ => None,
        }
    }

    /// A mark: the second that it reports, or refusal 4. "a report now comes one mark late", and "the first mark reports nothing": it
    /// tells the pending second, voided by what stood in that one and in the one closed here, which is pending from here on.
    pub fn mark(&mut self) -> Result<Option<Second>, u8> {
        if self.closed == u64::from(u32::MAX) {
            return Err(4);
        }
        let closed = self.open();
        let reported = self.told(self.pending.with(closed));
        // "The degraded decision still uses the second just closed, with its own discard alone".
        for layer in [SECTION, PATH] {
            let bad = self.figures(layer, closed, closed).near >= self.provisioning.degthr[layer];
            self.seconds[layer].close(bad, self.provisioning.degm[layer]);
        }
        self.levels.iter_mut().flatten().for_each(|level| level.close(closed));
        self.closed += 1;
        self.pending = closed;
        self.history.forget(closed.after, KEPT);
        Ok(reported)
    }

    /// The pending second as it is told at the end of a scan: the open second has no pIAE and no pBIAE yet, so that its own discard
    /// alone counts. None before the first mark.
    pub fn pending(&self) -> Option<Second> {
        self.told(self.pending)
    }

    /// The pending second, where there is one, voided by what stood in some frame of `voiding`. Frames and heads are never discarded.
    fn told(&self, voiding: Stretch) -> Option<Second> {
        if self.closed == 0 {
            return None;
        }
        let mut figures = [0; 22];
        (figures[0], figures[1]) = (self.closed as u32, self.pending.frames() as u32);
        for frame in self.history.of(self.pending) {
            figures[2 + report::head(&frame.standing) as usize] += 1;
        }
        for layer in [SECTION, PATH] {
            let five = self.figures(layer, self.pending, voiding).five();
            figures[12 + 5 * layer..17 + 5 * layer].copy_from_slice(&five);
        }
        let levels = self.levels.each_ref().map(|level| Some(level.as_ref()?.figures(self.pending, voiding).five()));
        Some(Second { figures, levels })
    }

    /// Near blocks, far blocks, near DS, far DS and the sum of BEI numbers of a layer in a second, the section's put to 0 and false by dIAE
    /// and dBIAE in some frame of `voiding`; the path has neither.
    fn figures(&self, layer: usize, second: Stretch, voiding: Stretch) -> Figures {
        let mut all = Figures::default();
        for frame in self.history.of(second) {
            let (r, s) = (&frame.received, &frame.standing);
            let silent = s.ssf[layer] || (layer == PATH && (s.dais() || s.doci() || s.dlck()));
            if !silent {
                let bei = if layer == PATH { Bei::of_path } else { Bei::of };
                all.count(r.violations[layer], bei(r.bei[layer]));
            }
            all.near_ds |= silent || s.dtim[layer];
            all.far_ds |= s.dbdi[layer];
        }
        if layer == PATH {
            return all;
        }
        let stood = |what: fn(&Standing) -> bool| self.history.of(voiding).any(|frame| what(&frame.standing));
        all.discarded(stood(|s| s.diae), stood(|s| s.dbiae))
    }

    /// The accepted trace of a layer for a lent buffer of `room` bytes, or refusal 11 to 13.
    pub fn trace(&self, layer: u8, room: usize) -> Result<[u8; 64], u8> {
        if layer > 1 {
            return Err(11);
        }
        if room != 64 {
            return Err(12);
        }
        self.accepted_trace(layer as usize).copied().ok_or(13)
    }

    /// The accepted trace of a level for a lent buffer of `room` bytes, or refusal 12 or 13. What is no level, or is not provisioned,
    /// has none.
    pub fn level_trace(&self, level: u8, room: usize) -> Result<[u8; 64], u8> {
        if room != 64 {
            return Err(12);
        }
        self.level(level).and_then(Level::accepted_trace).copied().ok_or(13)
    }

    /// What stands of a level after the last frame and mark, as otn_level_report answers it, or refusal 18. A level that is not
    /// provisioned answers 0.
    pub fn level_report(&self, level: u8) -> Result<u64, u8> {
        if !(1..=6).contains(&level) {
            return Err(18);
        }
        Ok(self.level(level).map_or(0, |level| report::level_word(&level.standing())))
    }
}
