//! What the traces exercised of request K7: which BEI was met in frames that are counted, in which failures one with a number was not, and
//! what became of the sums, for the section, the path and each level.
//!
//! A row of seconds counts those in which it shows: where a sum is voided or kept it was not 0.

use crate::bei::Bei;
use crate::history;
use crate::level::{field, Level};
use crate::supervisor::Supervisor;

/// The section, the path, and the levels 1 to 6.
const PARTIES: [&str; 8] = ["SM", "PM", "TCM1", "TCM2", "TCM3", "TCM4", "TCM5", "TCM6"];
const SM: usize = 0;
const PM: usize = 1;

const FRAMES: [&str; 6] = [
    "a number in SSF",
    "a number in dAIS",
    "a number in dOCI",
    "a number in dLCK",
    "a number in dLTC",
    "a number in dTIM, which is counted",
];

const SECONDS: [&str; 11] = [
    "a sum as great as its far blocks",
    "a sum above its far blocks and below eight times them",
    "a sum of eight times its far blocks",
    "a sum voided by its own dIAE",
    "a sum voided by its own dBIAE",
    "a sum voided by the next second's dIAE alone",
    "a sum voided by the next second's dBIAE alone",
    "a sum kept, another's dIAE or dBIAE in it or in the next",
    "a sum kept at the end, dIAE in the open second",
    "a sum kept at the end, dBIAE in the open second",
    "a sum kept, 1011 in three frames in a row",
];

/// Whether a row of frames can show: the section has no STAT, and of dLTC the path knows nothing.
fn frames_can(row: usize, party: usize) -> bool {
    match row {
        1..=3 => party != SM,
        4 => party > PM,
        _ => true,
    }
}

/// Whether a row of seconds can show, and is asked for: the path is never voided, and 1011 is no mark there alone.
fn seconds_can(row: usize, party: usize) -> bool {
    match row {
        3..=6 | 8 | 9 => party != PM,
        10 => party == PM,
        _ => true,
    }
}

/// What a frame brought of a party, and what stands of it after that frame.
struct At {
    code: u8,
    ssf: bool,
    stat: Option<u8>,
    tim: bool,
    iae: bool,
    biae: bool,
}

/// What a second has of a party before any discard.
#[derive(Clone, Copy, Debug, Default)]
struct Tally {
    far: u32,
    sum: u32,
    iae: bool,
    biae: bool,
    /// 1011 came in three frames in a row.
    marked: bool,
}

#[derive(Clone, Debug, Default)]
pub struct BeiCover {
    /// By code and party, of the frames that are counted.
    codes: [[u64; 8]; 16],
    frames: [[u64; 8]; FRAMES.len()],
    seconds: [[u64; 8]; SECONDS.len()],
    pending: [Tally; 8],
    open: [Tally; 8],
    /// Frames in a row with 1011.
    run: [u8; 8],
}

/// The party in a frame that was accepted; none of a level that is not provisioned.
fn at(s: &Supervisor, overhead: &[u8], party: usize) -> Option<At> {
    let line: history::Standing = s.standing();
    Some(match party {
        SM => At { code: overhead[9] >> 4, ssf: line.ssf[SM], stat: None, tim: line.dtim[SM], iae: line.diae, biae: line.dbiae },
        PM => At { code: overhead[43] >> 4, ssf: line.ssf[PM], stat: line.stat, tim: line.dtim[PM], iae: false, biae: false },
        _ => {
            let number = party as u8 - 1;
            let l = s.level(number).map(Level::standing)?;
            let code = overhead[field(number) + 2] >> 4;
            At { code, ssf: l.ssf, stat: l.stat, tim: l.dtim, iae: l.diae(), biae: l.dbiae }
        }
    })
}

impl BeiCover {
    /// After an accepted frame.
    pub fn frame(&mut self, s: &Supervisor, overhead: &[u8]) {
        for party in 0..8 {
            if let Some(at) = at(s, overhead, party) {
                self.party(party, &at);
            }
        }
    }

    fn party(&mut self, party: usize, at: &At) {
        let stat = |code: u8| !at.ssf && at.stat == Some(code);
        let failed = [at.ssf, stat(7), stat(6), stat(5), stat(0) && party > PM];
        let stopped = failed.contains(&true);
        let number = Bei::of(at.code).violations();
        let open = &mut self.open[party];
        if !stopped {
            self.codes[usize::from(at.code)][party] += 1;
            open.far += u32::from(number.is_some());
            open.sum += u32::from(number.unwrap_or(0));
        }
        if number.is_some() {
            let shows = failed.into_iter().chain([at.tim && !stopped]);
            self.frames.iter_mut().zip(shows).for_each(|(row, shows)| row[party] += u64::from(shows));
        }
        self.run[party] = if Bei::of(at.code) == Bei::Biae { (self.run[party] + 1).min(3) } else { 0 };
        open.marked |= self.run[party] == 3;
        open.iae |= at.iae;
        open.biae |= at.biae;
    }

    /// Right before a mark that is accepted: the pending second is told.
    pub fn mark(&mut self) {
        for party in 0..8 {
            self.second(party);
        }
        self.pending = std::mem::take(&mut self.open);
    }

    fn second(&mut self, party: usize) {
        let (own, next) = (self.pending[party], self.open[party]);
        if own.sum == 0 {
            return;
        }
        let clear = !own.iae && !own.biae;
        let kept = clear && !next.iae && !next.biae;
        let others = (0..8).filter(|other| *other != party).flat_map(|other| [&self.pending[other], &self.open[other]]);
        let others = others.into_iter().any(|t| t.iae || t.biae);
        let shows = [
            kept && own.sum == own.far,
            kept && own.sum > own.far && own.sum < 8 * own.far,
            kept && own.sum == 8 * own.far,
            own.iae,
            own.biae && !own.iae,
            clear && next.iae,
            clear && next.biae && !next.iae,
            kept && others,
            false,
            false,
            kept && own.marked,
        ];
        self.seconds.iter_mut().zip(shows).for_each(|(row, shows)| row[party] += u64::from(shows));
    }

    /// At the end of a trace: the open second voids nothing.
    pub fn end(&mut self) {
        for party in 0..8 {
            let (own, open) = (self.pending[party], self.open[party]);
            let kept = own.sum > 0 && !own.iae && !own.biae;
            self.seconds[8][party] += u64::from(kept && open.iae);
            self.seconds[9][party] += u64::from(kept && open.biae);
        }
        *self = BeiCover { codes: self.codes, frames: self.frames, seconds: self.seconds, ..BeiCover::default() };
    }

    /// The table, and what in it should not be zero and is.
    pub fn table(&self) -> (String, Vec<String>) {
        let mut out = format!("{:60}{}\n", "violations of the far end", PARTIES.map(|name| format!("{name:>7}")).concat());
        let mut wrong = Vec::new();
        let mut row = |name: &str, row: &[u64; 8], can: &dyn Fn(usize) -> bool| {
            let cell = |party: usize| match row[party] {
                0 if !can(party) => format!("{:>7}", "."),
                value => format!("{value:7}"),
            };
            out += &format!("{name:60}{}\n", (0..8).map(cell).collect::<String>());
            let empty = (0..8).filter(|party| can(*party) && row[*party] == 0);
            wrong.extend(empty.map(|party| format!("nothing exercised: {}: {name}", PARTIES[party])));
        };
        for (code, met) in self.codes.iter().enumerate() {
            row(&format!("BEI {code} in a frame that is counted"), met, &|_| true);
        }
        for (i, met) in self.frames.iter().enumerate() {
            row(FRAMES[i], met, &|party| frames_can(i, party));
        }
        for (i, met) in self.seconds.iter().enumerate() {
            row(SECONDS[i], met, &|party| seconds_can(i, party));
        }
        (out, wrong)
    }
}
