//! What the traces exercised of request K3: what voids a second, by itself, from the next one, or not at all, for the section and for
//! each level.
//!
//! A row counts seconds in which it shows: where a figure is voided there was something to void, and where it is kept it is not 0. That
//! an empty second has no pIAE while dIAE stands cannot show: dIAE stood in the last frame before it then, so that second is voided
//! by itself, and the empty one has nothing to void.

use crate::supervisor::{Second, Supervisor};

/// The section and the levels 1 to 6.
const PARTIES: [&str; 7] = ["SM", "TCM1", "TCM2", "TCM3", "TCM4", "TCM5", "TCM6"];

const ROWS: [&str; 16] = [
    "near voided by the next second's dIAE alone",
    "far voided by the next second's dIAE alone",
    "far voided by the next second's dBIAE alone, near kept",
    "near DS voided by the next second's dIAE alone",
    "far DS voided by the next second's dIAE alone",
    "far DS voided by the next second's dBIAE alone",
    "voided by its own dIAE, none in the next",
    "far voided by its own dBIAE, none in the next, near kept",
    "far voided by its own dBIAE, near by the next second's dIAE",
    "dIAE in both",
    "bad for dDEG, and reported with no near blocks",
    "near kept, dIAE in the second after the next",
    "near kept, the next second empty, dIAE in the one after it",
    "near kept, another's dIAE in the next second",
    "near kept at the end, dIAE in the open second",
    "far kept at the end, dBIAE in the open second",
];

/// What stood in some frame of a second.
#[derive(Clone, Copy, Debug, Default)]
struct Stood {
    iae: bool,
    biae: bool,
}

#[derive(Clone, Debug, Default)]
pub struct SecondsCover {
    rows: [[u64; 7]; ROWS.len()],
    pending: [Stood; 7],
    open: [Stood; 7],
    /// Whether the second reported last kept near blocks.
    kept: [bool; 7],
}

/// The figures of a party, none where it is a level that is not provisioned.
fn five(second: &Second, party: usize) -> Option<[u32; 5]> {
    match party {
        0 => Some([12, 13, 14, 15, 16].map(|i| second.figures[i])),
        _ => second.levels[party - 1],
    }
}

/// The near blocks that make a second bad for dDEG.
fn threshold(s: &Supervisor, party: usize) -> u32 {
    match s.level(party as u8) {
        Some(level) => level.provisioning.degthr,
        None => s.provisioning.degthr[0],
    }
}

impl SecondsCover {
    /// After an accepted frame.
    pub fn frame(&mut self, s: &Supervisor) {
        let line = s.standing();
        self.open[0].iae |= line.diae;
        self.open[0].biae |= line.dbiae;
        for (level, stood) in (1..).zip(&mut self.open[1..]) {
            let standing = s.level(level).map(|level| level.standing()).unwrap_or_default();
            stood.iae |= standing.diae();
            stood.biae |= standing.dbiae;
        }
    }

    /// Right before a mark that is accepted.
    pub fn mark(&mut self, s: &Supervisor) {
        if let Some(second) = s.pending() {
            for party in 0..7 {
                if let Some(figures) = five(&second, party) {
                    self.second(party, figures, second.figures[1] == 0, threshold(s, party));
                }
            }
        }
        self.pending = std::mem::take(&mut self.open);
    }

    /// A second that is reported, with its figures after its own discard.
    fn second(&mut self, party: usize, [near, far, near_ds, far_ds, _]: [u32; 5], empty: bool, threshold: u32) {
        let (own, next) = (self.pending[party], self.open[party]);
        let clear = !own.iae && !own.biae;
        let quiet = !next.iae && !next.biae;
        let others = (0..7).any(|other| other != party && self.open[other].iae);
        let kept = self.kept[party];
        let shows = [
            clear && next.iae && near > 0,
            clear && next.iae && far > 0,
            clear && next.biae && !next.iae && far > 0 && near > 0,
            clear && next.iae && near_ds > 0,
            clear && next.iae && far_ds > 0,
            clear && next.biae && !next.iae && far_ds > 0,
            own.iae && quiet,
            own.biae && !own.iae && quiet && near > 0,
            own.biae && !own.iae && next.iae && near > 0,
            own.iae && next.iae,
            !own.iae && next.iae && near >= threshold,
            kept && !empty && clear && next.iae,
            kept && empty && next.iae,
            clear && quiet && others && near > 0,
            false,
            false,
        ];
        for (row, shows) in self.rows.iter_mut().zip(shows) {
            row[party] += u64::from(shows);
        }
        self.kept[party] = near > 0 && !next.iae;
    }

    /// At the end of a trace, with the second that is pending then.
    pub fn end(&mut self, s: &Supervisor) {
        if let Some(second) = s.pending() {
            for party in 0..7 {
                if let Some([near, far, ..]) = five(&second, party) {
                    self.rows[ROWS.len() - 2][party] += u64::from(self.open[party].iae && near > 0);
                    self.rows[ROWS.len() - 1][party] += u64::from(self.open[party].biae && far > 0);
                }
            }
        }
        *self = SecondsCover { rows: self.rows, ..SecondsCover::default() };
    }

    /// The table, and what in it should not be zero and is.
    pub fn table(&self) -> (String, Vec<String>) {
        let mut out = format!("{:60}{}\n", "seconds", PARTIES.map(|name| format!("{name:>7}")).concat());
        let mut wrong = Vec::new();
        for (name, row) in ROWS.iter().zip(&self.rows) {
            out += &format!("{name:60}{}\n", row.map(|value| format!("{value:7}")).concat());
            let empty = PARTIES.iter().zip(row).filter(|(_, value)| **value == 0);
            wrong.extend(empty.map(|(party, _)| format!("nothing exercised: {party}: {name}")));
        }
        (out, wrong)
    }
}
