//! What the traces exercised: frames under each head, each condition raised and cleared, and each pair of conditions where one
//! begins in the frame where another clears.
//!
//! dDEG changes at a mark; it begins or clears here in the first frame after it, where the report first shows it.
//!
//! Pairs that cannot happen, "X begins where Y clears", by document 01:
//!
//! - Y is TSF-P, OTUk-AIS, dLOF or dLOM and X a filtered defect of the section or the path. Y stood in the frame before, so
//!   section SSF stood there, and with it path SSF; X was false and its run forgotten in that frame. X needs 3, 5 or 192 frames
//!   since, so it cannot begin in the very next one. (36 pairs: dTIM, dBDI, dIAE, dBIAE, dAIS, dOCI, dLCK, path dTIM, path dBDI.)
//! - dIAE or dBIAE begins where section dTIM clears: forgotten in the frame before by dTIM. (2)
//! - Path dTIM or path dBDI begins where dAIS clears: forgotten in the frame before by dAIS. (2)
//! - dLOF begins where dLOM clears: dLOF begins in a frame in OOF, dLOM clears in a frame that enters IM, which is in IF. (1)
//! - Section dDEG begins where dIAE clears: dIAE stood in the last frame of the second that the mark closed, so that second is
//!   discarded, has 0 blocks, and is not bad; nor is any empty one after it. (1)

use crate::history::Standing;
use crate::provisioning::{PATH, SECTION};
use crate::report;

pub const CONDITIONS: [&str; 15] = [
    "TSF-P", "OTUk-AIS", "dLOF", "dLOM", "s.dTIM", "s.dBDI", "dIAE", "dBIAE", "s.dDEG", "dAIS", "dOCI", "dLCK", "p.dTIM",
    "p.dBDI", "p.dDEG",
];
pub const TSF: usize = 0;
pub const OTU_AIS: usize = 1;
pub const LOF: usize = 2;
pub const LOM: usize = 3;
pub const S_TIM: usize = 4;
pub const S_BDI: usize = 5;
pub const IAE: usize = 6;
pub const BIAE: usize = 7;
pub const S_DEG: usize = 8;
pub const AIS: usize = 9;
pub const OCI: usize = 10;
pub const LCK: usize = 11;
pub const P_TIM: usize = 12;
pub const P_BDI: usize = 13;
pub const P_DEG: usize = 14;

pub fn conditions(s: &Standing) -> [bool; 15] {
    [
        s.tsf,
        s.otu_ais,
        s.dlof,
        s.dlom,
        s.dtim[SECTION],
        s.dbdi[SECTION],
        s.diae,
        s.dbiae,
        s.ddeg[SECTION],
        s.dais(),
        s.doci(),
        s.dlck(),
        s.dtim[PATH],
        s.dbdi[PATH],
        s.ddeg[PATH],
    ]
}

/// Whether `begins` can begin in the frame where `clears` clears.
pub fn can(begins: usize, clears: usize) -> bool {
    let filtered = [S_TIM, S_BDI, IAE, BIAE, AIS, OCI, LCK, P_TIM, P_BDI];
    begins != clears
        && !(clears <= LOM && filtered.contains(&begins))
        && !(clears == S_TIM && (begins == IAE || begins == BIAE))
        && !(clears == AIS && (begins == P_TIM || begins == P_BDI))
        && (begins, clears) != (LOF, LOM)
        && (begins, clears) != (S_DEG, IAE)
}

/// All pairs that can happen.
pub fn pairs() -> Vec<(usize, usize)> {
    (0..15).flat_map(|x| (0..15).map(move |y| (x, y))).filter(|(x, y)| can(*x, *y)).collect()
}

#[derive(Clone, Debug, Default)]
pub struct Cover {
    pub frames: u64,
    pub marks: u64,
    pub heads: [u64; 10],
    pub raised: [u64; 15],
    pub cleared: [u64; 15],
    pub pairs: [[u64; 15]; 15],
    /// Refusals by number, calls and records together.
    pub refusals: [u64; 20],
}

impl Cover {
    pub fn frame(&mut self, before: &Standing, after: &Standing) {
        self.frames += 1;
        self.heads[report::head(after) as usize] += 1;
        let (b, a) = (conditions(before), conditions(after));
        for x in 0..15 {
            if a[x] && !b[x] {
                self.raised[x] += 1;
                for y in 0..15 {
                    self.pairs[x][y] += u64::from(b[y] && !a[y]);
                }
            }
            self.cleared[x] += u64::from(b[x] && !a[x]);
        }
    }

    /// The table, and what in it should not be zero and is, or should be and is not.
    pub fn table(&self) -> (String, Vec<String>) {
        let mut out = String::new();
        let mut wrong = Vec::new();
        let mut row = |name: String, value: u64, wanted: bool| {
            if wanted && value == 0 {
                wrong.push(format!("nothing exercised: {name}"));
            }
            if !wanted && value != 0 {
                wrong.push(format!("held to be impossible, and met {value} times: {name}"));
            }
        };
        out += &format!("{} frames, {} marks\n", self.frames, self.marks);
        out += "frames under heads 0 to 9:";
        for (head, value) in self.heads.iter().enumerate() {
            out += &format!(" {value}");
            row(format!("head {head}"), *value, true);
        }
        out += "\nrefusals 1 to 19:";
        for (number, value) in self.refusals.iter().enumerate().skip(1) {
            out += &format!(" {value}");
            row(format!("refusal {number}"), *value, true);
        }
        out += "\n\nrow begins in the frame where column clears (. cannot be):\n";
        out += &format!("{:9}{:>7}{:>8}", "", "raised", "cleared");
        for name in CONDITIONS {
            out += &format!("{name:>9}");
        }
        out += "\n";
        for x in 0..15 {
            out += &format!("{:9}{:7}{:8}", CONDITIONS[x], self.raised[x], self.cleared[x]);
            row(format!("{} raised", CONDITIONS[x]), self.raised[x], true);
            row(format!("{} cleared", CONDITIONS[x]), self.cleared[x], true);
            for y in 0..15 {
                let value = self.pairs[x][y];
                if x != y {
                    row(format!("{} begins where {} clears", CONDITIONS[x], CONDITIONS[y]), value, can(x, y));
                }
                out += &if can(x, y) || value > 0 { format!("{value:9}") } else { format!("{:>9}", ".") };
            }
            out += "\n";
        }
        (out, wrong)
    }
}
