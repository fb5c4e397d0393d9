//! What the traces with levels exercised: of each level each condition, action and cause raised and cleared, and each pair of a
//! level's conditions where one begins in the frame where another clears.
//!
//! dDEG changes at a mark; it begins or clears here in the first frame after it.
//!
//! Pairs that cannot happen, "X begins where Y clears", by request K1:
//!
//! - Y is SSF and X a filtered defect. SSF stood in the frame before, where X was false and its run forgotten, STAT's too. X needs 3,
//!   5 or 192 frames since. (8: dLTC, dAIS, dOCI, dLCK, dTIM, dBDI, dIAE, dBIAE.)
//! - dTIM, dBDI or dBIAE begins where dAIS clears: forgotten in the frame before by dAIS. (3) dIAE can: it comes from the accepted
//!   STAT, which dAIS does not forget.
//! - dBIAE begins where dTIM clears: forgotten in the frame before by dTIM. (1) dIAE can, and does where the accepted STAT is 010.
//! - dDEG begins where dIAE clears: dIAE stood in the last frame of the second that the mark closed, so that second is discarded for
//!   the level, has 0 blocks, and is not bad; nor is any empty one after it. (1)

use crate::level::Standing;
use crate::report::level_bits;
use crate::supervisor::Supervisor;

pub const CONDITIONS: [&str; 10] = ["SSF", "dLTC", "dAIS", "dOCI", "dLCK", "dTIM", "dBDI", "dIAE", "dBIAE", "dDEG"];
pub const SSF: usize = 0;
pub const LTC: usize = 1;
pub const AIS: usize = 2;
pub const OCI: usize = 3;
pub const LCK: usize = 4;
pub const TIM: usize = 5;
pub const BDI: usize = 6;
pub const IAE: usize = 7;
pub const BIAE: usize = 8;
pub const DEG: usize = 9;

/// Whether `begins` can begin in the frame where `clears` clears.
pub fn can(begins: usize, clears: usize) -> bool {
    begins != clears
        && (clears != SSF || begins == DEG)
        && !(clears == AIS && [TIM, BDI, BIAE].contains(&begins))
        && (begins, clears) != (BIAE, TIM)
        && (begins, clears) != (DEG, IAE)
}

/// All pairs that can happen.
pub fn pairs() -> Vec<(usize, usize)> {
    (0..10).flat_map(|x| (0..10).map(move |y| (x, y))).filter(|(x, y)| can(*x, *y)).collect()
}

#[derive(Clone, Debug, Default)]
pub struct LevelCover {
    pub frames: u64,
    /// By level and by bit of otn_level_report.
    pub raised: [[u64; 19]; 6],
    pub cleared: [[u64; 19]; 6],
    pub pairs: [[u64; 10]; 10],
}

impl LevelCover {
    /// What changed at each provisioned level since the frame before.
    pub fn follow(&mut self, s: &Supervisor, before: &mut [Standing; 6]) {
        for (level, before) in (1..).zip(before) {
            if let Some(after) = s.level(level).map(|l| l.standing()) {
                self.frame(level, before, &after);
                *before = after;
            }
        }
    }

    /// What stood of a level after one frame, and after the next.
    pub fn frame(&mut self, level: u8, before: &Standing, after: &Standing) {
        self.frames += 1;
        let (b, a) = (level_bits(before).map(|bit| bit.2), level_bits(after).map(|bit| bit.2));
        let at = usize::from(level) - 1;
        for x in 0..19 {
            self.raised[at][x] += u64::from(a[x] && !b[x]);
            self.cleared[at][x] += u64::from(b[x] && !a[x]);
        }
        for x in (0..10).filter(|x| a[*x] && !b[*x]) {
            for y in (0..10).filter(|y| b[*y] && !a[*y]) {
                self.pairs[x][y] += 1;
            }
        }
    }

    /// The table, and what in it should not be zero and is, or should be and is not.
    pub fn table(&self) -> (String, Vec<String>) {
        let mut out = format!("{} frames of levels\nraised and cleared at levels 1 to 6:\n", self.frames);
        let mut wrong = Vec::new();
        let mut row = |name: String, value: u64, wanted: bool| {
            if wanted && value == 0 {
                wrong.push(format!("nothing exercised: {name}"));
            }
            if !wanted && value != 0 {
                wrong.push(format!("held to be impossible, and met {value} times: {name}"));
            }
        };
        for (i, (_, name, _)) in level_bits(&Standing::default()).iter().enumerate() {
            out += &format!("{name:6}");
            for level in 1..=6 {
                let (raised, cleared) = (self.raised[level - 1][i], self.cleared[level - 1][i]);
                out += &format!("{raised:7}{cleared:7}");
                row(format!("TCM{level}.{name} raised"), raised, true);
                row(format!("TCM{level}.{name} cleared"), cleared, true);
            }
            out += "\n";
        }
        out += "\nrow begins in the frame where column clears (. cannot be):\n      ";
        out += &CONDITIONS.map(|name| format!("{name:>7}")).concat();
        out += "\n";
        for x in 0..10 {
            out += &format!("{:6}", CONDITIONS[x]);
            for y in 0..10 {
                let value = self.pairs[x][y];
                if x != y {
                    row(format!("{} begins where {} clears", CONDITIONS[x], CONDITIONS[y]), value, can(x, y));
                }
                out += &if can(x, y) || value > 0 { format!("{value:7}") } else { format!("{:>7}", ".") };
            }
            out += "\n";
        }
        (out, wrong)
    }
}
