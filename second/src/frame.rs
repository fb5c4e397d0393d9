//! One frame to be sent: overhead fields by name, and what comes with them.

use crate::level::{self, field};
use crate::provisioning::{LevelProvisioning, Provisioning, PATH, SECTION};

pub const FAS: [u8; 6] = [0xF6, 0xF6, 0xF6, 0x28, 0x28, 0x28];

#[derive(Clone, Copy, Debug, PartialEq, Eq)]
pub struct Sent {
    pub fas: [u8; 6],
    pub mfas: u8,
    pub tti: [u8; 2],
    pub bei: [u8; 2],
    pub bdi: [bool; 2],
    pub iae: bool,
    pub stat: u8,
    /// Section status bits 7 and 8, which are ignored.
    pub ignored: u8,
    pub flags: u8,
    pub violations: [u8; 2],
    /// Levels 1 to 6, each with its count.
    pub levels: [level::Received; 6],
}

impl Sent {
    /// All zeros.
    pub const ZEROS: Sent = Sent {
        fas: [0; 6],
        mfas: 0,
        tti: [0; 2],
        bei: [0; 2],
        bdi: [false; 2],
        iae: false,
        stat: 0,
        ignored: 0,
        flags: 0,
        violations: [0; 2],
        levels: [level::Received { tti: 0, bei: 0, bdi: false, stat: 0, violations: 0 }; 6],
    };

    /// Good framing and an MFAS, all else zero.
    pub fn good(mfas: u8) -> Sent {
        Sent { fas: FAS, mfas, ..Sent::ZEROS }
    }

    pub fn overhead(&self) -> [u8; 64] {
        let mut o = [0u8; 64];
        o[0..6].copy_from_slice(&self.fas);
        o[6] = self.mfas;
        o[7] = self.tti[SECTION];
        o[9] = self.bei[SECTION] << 4 | u8::from(self.bdi[SECTION]) << 3 | u8::from(self.iae) << 2 | self.ignored & 3;
        o[32 + 9] = self.tti[PATH];
        o[32 + 11] = self.bei[PATH] << 4 | u8::from(self.bdi[PATH]) << 3 | self.stat & 7;
        for (number, l) in (1..).zip(&self.levels) {
            o[field(number)] = l.tti;
            o[field(number) + 2] = l.bei << 4 | u8::from(l.bdi) << 3 | l.stat & 7;
        }
        o
    }

    /// The counts of levels 1 to 6.
    pub fn counts(&self) -> [u8; 6] {
        self.levels.map(|level| level.violations)
    }
}

/// The plainest provisioning: thresholds 1, two seconds, modes off, actions by default, names zero.
pub fn plain(k: u8) -> Provisioning {
    Provisioning { k, degthr: [1; 2], degm: [2; 2], mode: [0; 2], dis: [0; 2], names: [[0; 32]; 2] }
}

/// The plainest level: threshold 1, two seconds, mode off, actions by default, names zero.
pub fn plain_level() -> LevelProvisioning {
    LevelProvisioning { degthr: 1, degm: 2, mode: 0, dis: 0, names: [0; 32] }
}
