//! One tandem level, TCM1 to TCM6: each rule of request K1 (ODUkTm, clause 14.5.1.1.3) as a question to the level's own history.
//! There is one text for all six; a level's number says where its bytes stand and nothing else.
//!
//! Order in a frame: STAT, then trace and BDI, then dTIM, then dIAE and BIAE. What is forgotten: by SSF trace, BDI, BIAE and STAT;
//! by dAIS trace, BDI and BIAE; by dTIM, acting or not, BIAE alone; by dLTC, dOCI and dLCK nothing.

use crate::bei::Bei;
use crate::history::{self, latest_row, latest_value, three_cycles, Figures, History, Seconds, Stretch, KEPT};
use crate::provisioning::{LevelProvisioning, PATH};

/// Where a level's three bytes begin in the 64: "row 3 columns 7, 4, 1 for levels 1 to 3 and row 2 columns 11, 8, 5 for levels 4
/// to 6".
pub fn field(level: u8) -> usize {
    let (row, column) = match level {
        1 => (3, 7),
        2 => (3, 4),
        3 => (3, 1),
        4 => (2, 11),
        5 => (2, 8),
        6 => (2, 5),
        _ => panic!("{level} is no level"),
    };
    16 * (row - 1) + column - 1
}

/// What one frame brought of a level.
#[derive(Clone, Copy, Debug, Default, PartialEq, Eq)]
pub struct Received {
    pub tti: u8,
    pub bei: u8,
    pub bdi: bool,
    pub stat: u8,
    pub violations: u8,
}

impl Received {
    /// TTI byte, BIP-8 byte, status byte, as in PM: bits 1 to 4 BEI, bit 5 BDI, bits 6 to 8 STAT.
    pub fn of(level: u8, overhead: &[u8], violations: u8) -> Received {
        let at = field(level);
        let status = overhead[at + 2];
        Received { tti: overhead[at], bei: status >> 4, bdi: status & 8 != 0, stat: status & 7, violations }
    }
}

/// What stood of a level after one frame.
#[derive(Clone, Copy, Debug, Default, PartialEq, Eq)]
pub struct Standing {
    pub ssf: bool,
    /// The accepted STAT. A fresh level has none, and so has one after SSF: none is not 000.
    pub stat: Option<u8>,
    pub dtim: bool,
    pub acting: bool,
    pub dbdi: bool,
    pub dbiae: bool,
    pub ddeg: bool,
}

impl Standing {
    /// "STAT 000 is dLTC".
    pub fn dltc(&self) -> bool {
        self.stat == Some(0b000)
    }
    pub fn dais(&self) -> bool {
        self.stat == Some(0b111)
    }
    pub fn doci(&self) -> bool {
        self.stat == Some(0b110)
    }
    pub fn dlck(&self) -> bool {
        self.stat == Some(0b101)
    }
    /// "010 dIAE", false during dTIM. A STAT is not forgotten then: where dTIM ends, dIAE stands in that very frame.
    pub fn diae(&self) -> bool {
        self.stat == Some(0b010) && !self.dtim
    }
    /// SSF or one of the four defects that stop the counts of blocks, and so the sum: dAIS, dLTC, dOCI, dLCK.
    pub fn silent(&self) -> bool {
        self.ssf || self.dais() || self.dltc() || self.doci() || self.dlck()
    }
}

/// A level that is provisioned. Its frames have the numbers that they have in the supervisor: it is provisioned ahead of the first.
#[derive(Clone, Debug)]
pub struct Level {
    pub provisioning: LevelProvisioning,
    history: History<Received, Standing>,
    /// The last frame in which this was forgotten, 0 without.
    stat_forgotten: u64,
    trace_forgotten: u64,
    bdi_forgotten: u64,
    biae_forgotten: u64,
    /// The latest acceptance and the frame it fell in.
    accepted: Option<(u64, [u8; 64])>,
    seconds: Seconds,
}

impl Level {
    pub fn fresh(provisioning: LevelProvisioning) -> Level {
        Level {
            provisioning,
            history: History::default(),
            stat_forgotten: 0,
            trace_forgotten: 0,
            bdi_forgotten: 0,
            biae_forgotten: 0,
            accepted: None,
            seconds: Seconds::default(),
        }
    }

    /// One frame, after alignment, section and path: "each level takes path SSF".
    pub fn step(&mut self, outside: &history::Standing, received: Received) {
        let now = self.history.record(received);
        let mut s = Standing { ssf: outside.ssf[PATH], ..Standing::default() };
        if s.ssf {
            self.stat_forgotten = now;
        }
        s.stat = self.stat(now);
        if s.ssf || s.dais() {
            self.trace_forgotten = now;
            self.bdi_forgotten = now;
        }
        s.dbdi = self.dbdi(now);
        s.dtim = self.dtim(now, outside);
        s.acting = s.dtim && self.provisioning.acts();
        if s.ssf || s.dais() || s.dtim {
            self.biae_forgotten = now;
        }
        s.dbiae = self.dbiae(now);
        s.ddeg = self.ddeg();
        *self.history.standing_mut(now) = s;
    }

    /// "a value in three frames in a row is accepted", forgotten only during SSF.
    fn stat(&self, now: u64) -> Option<u8> {
        let h = &self.history;
        latest_value(now, self.stat_forgotten, 3, |u| h.at(u).received.stat, |u| h.at(u).standing.stat)
    }

    /// "BDI 1 in five frames in a row; cleared by five 0", false during SSF and dAIS.
    fn dbdi(&self, now: u64) -> bool {
        let h = &self.history;
        latest_row(now, self.bdi_forgotten, 5, |u| h.at(u).received.bdi, |u| h.at(u).standing.dbdi)
    }

    /// "a trace is accepted and the compared field differs", false during SSF and dAIS.
    fn dtim(&mut self, now: u64, outside: &history::Standing) -> bool {
        let h = &self.history;
        if let Some(trace) = three_cycles(outside, now, self.trace_forgotten, |u| h.at(u).received.tti) {
            self.accepted = Some((now, trace));
        }
        self.accepted_trace().is_some_and(|trace| self.provisioning.differs(trace))
    }

    /// "BIAE stands in BEI": 1011 in three frames in a row, cleared by three others, false during SSF, dAIS and dTIM.
    fn dbiae(&self, now: u64) -> bool {
        let h = &self.history;
        let biae = |u: u64| Bei::of(h.at(u).received.bei) == Bei::Biae;
        latest_row(now, self.biae_forgotten, 3, biae, |u| h.at(u).standing.dbiae)
    }

    fn ddeg(&self) -> bool {
        self.seconds.ddeg(self.provisioning.degm)
    }

    /// The latest acceptance, if nothing was forgotten in its frame or later.
    pub fn accepted_trace(&self) -> Option<&[u8; 64]> {
        match &self.accepted {
            Some((frame, trace)) if *frame > self.trace_forgotten => Some(trace),
            _ => None,
        }
    }

    /// What stands after the last frame and mark: a mark decides dDEG and nothing else.
    pub fn standing(&self) -> Standing {
        let frame = match self.history.last() {
            0 => Standing::default(),
            now => self.history.at(now).standing,
        };
        Standing { ddeg: self.ddeg(), ..frame }
    }

    /// Near blocks, far blocks, near DS, far DS and the sum of BEI numbers of a second, put to 0 and false by the level's own dIAE and
    /// dBIAE in some frame of `voiding`.
    pub fn figures(&self, second: Stretch, voiding: Stretch) -> Figures {
        let mut all = Figures::default();
        for frame in self.history.of(second) {
            let (r, s) = (&frame.received, &frame.standing);
            if !s.silent() {
                all.count(r.violations, Bei::of(r.bei));
            }
            all.near_ds |= s.silent() || s.dtim;
            all.far_ds |= s.dbdi;
        }
        let stood = |what: fn(&Standing) -> bool| self.history.of(voiding).any(|frame| what(&frame.standing));
        all.discarded(stood(Standing::diae), stood(|s| s.dbiae))
    }

    /// A mark: dDEG by the second just closed, with its own discard alone.
    pub fn close(&mut self, closed: Stretch) {
        let bad = self.figures(closed, closed).near >= self.provisioning.degthr;
        self.seconds.close(bad, self.provisioning.degm);
        self.history.forget(closed.after, KEPT);
    }
}
