//! Which entries of the path's table of causes (document 02, K4) the frames select. The second program has no table: an entry is eight
//! conditions, the first in the lowest bit.
//!
//! Of the 256 entries 56 can be selected. One at most of dAIS, dOCI and dLCK stands, and SSF forgets the STAT; dTIM and dBDI are false
//! during SSF and dAIS.

use crate::history::Standing;
use crate::provisioning::PATH;

pub const INPUTS: [&str; 8] = ["SSF", "dAIS", "dOCI", "dLCK", "dTIM", "TIMActDis", "dDEG", "dBDI"];

/// The entry that a frame selects.
pub fn entry(s: &Standing, disabled: bool) -> usize {
    let inputs = [s.ssf[PATH], s.dais(), s.doci(), s.dlck(), s.dtim[PATH], disabled, s.ddeg[PATH], s.dbdi[PATH]];
    inputs.iter().enumerate().map(|(i, stands)| usize::from(*stands) << i).sum()
}

/// Whether a frame can select it.
pub fn can(entry: usize) -> bool {
    let signals = entry & 0b1111; // SSF, dAIS, dOCI, dLCK
    let filtered = entry & 0b1001_0000; // dTIM, dBDI
    signals.count_ones() <= 1 && (signals & 0b11 == 0 || filtered == 0)
}

/// The conditions of an entry by their names.
pub fn named(entry: usize) -> String {
    let names: Vec<_> = INPUTS.iter().enumerate().filter(|(i, _)| entry >> i & 1 == 1).map(|(_, name)| *name).collect();
    if names.is_empty() {
        "nothing".into()
    } else {
        names.join(" ")
    }
}

#[derive(Clone, Debug)]
pub struct CausesCover {
    pub met: [u64; 256],
}

impl Default for CausesCover {
    fn default() -> Self {
        CausesCover { met: [0; 256] }
    }
}

impl CausesCover {
    /// After an accepted frame.
    pub fn frame(&mut self, s: &Standing, disabled: bool) {
        self.met[entry(s, disabled)] += 1;
    }

    /// And what another has met.
    pub fn add(&mut self, other: &CausesCover) {
        self.met.iter_mut().zip(other.met).for_each(|(a, b)| *a += b);
    }

    /// A line, and what in it should not be zero and is, or should be and is not.
    pub fn table(&self) -> (String, Vec<String>) {
        let met = (0..256).filter(|e| self.met[*e] > 0).count();
        let wrong = (0..256).filter(|e| can(*e) != (self.met[*e] > 0));
        let what = |e| if can(e) { "nothing exercised" } else { "held to be impossible, and met" };
        let wrong = wrong.map(|e| format!("{}: causes of {}", what(e), named(e))).collect();
        let all = (0..256).filter(|e| can(*e)).count();
        (format!("entries of the path's table of causes: {met} selected of the {all} that can be\n"), wrong)
    }
}
