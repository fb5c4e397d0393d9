//! The explanation of a trace: its listing, with a line for each frame at which anything changed. A second's line stands where its
//! report does: at the next mark, after the frames of the next second; the last one's at the end.

use crate::level::Level;
use crate::provisioning::{PATH, SECTION};
use crate::reader::{self, Place};
use crate::report;
use crate::supervisor::Supervisor;

/// What may stand after a frame, in the order of the line. The levels' words follow, then the head, then the accepted traces.
const NAMES: [&str; 38] = [
    "IF", "IM", "TSF-P", "OTUk-AIS", "dLOF", "dLOM", //
    "SM.SSF", "SM.dTIM", "SM.dBDI", "SM.dIAE", "SM.dBIAE", "SM.dDEG", //
    "PM.SSF", "PM.dAIS", "PM.dOCI", "PM.dLCK", "PM.dTIM", "PM.dBDI", "PM.dDEG", //
    "SM.aTSF", "SM.aTSD", "SM.aBDI", "SM.aBIAE", "PM.aTSF", "PM.aTSD", "PM.aBDI", //
    "cLOF", "cLOM", "SM.cTIM", "SM.cDEG", "SM.cBDI", "SM.cSSF", //
    "PM.cOCI", "PM.cLCK", "PM.cTIM", "PM.cDEG", "PM.cBDI", "PM.cSSF",
];

const LEVELS: [u8; 6] = [1, 2, 3, 4, 5, 6];

/// What is told of the state after a frame; by default nothing stands, the head is 0, and no trace is accepted.
struct State {
    stands: [bool; 38],
    /// Of each level, in the order of otn_level_report's bits. Nothing stands of one that is not provisioned.
    levels: [[bool; 19]; 6],
    head: u8,
    /// Section, path, levels 1 to 6.
    traces: [Option<[u8; 64]>; 8],
}

impl State {
    fn before_all() -> State {
        State { stands: [false; 38], levels: [[false; 19]; 6], head: 0, traces: [None; 8] }
    }

    /// The report's bits come in the order of the names; the flags stand between IM and dLOF.
    fn of(supervisor: &Supervisor) -> State {
        let s = supervisor.standing();
        let bits = report::bits(&s).map(|(_, _, stands)| stands);
        let mut stands = [false; 38];
        stands[..2].copy_from_slice(&bits[..2]);
        stands[2..4].copy_from_slice(&[s.tsf, s.otu_ais]);
        stands[4..].copy_from_slice(&bits[2..]);
        let levels = LEVELS.map(|level| supervisor.level(level).map_or([false; 19], stands_of));
        let mut traces = [None; 8];
        for (i, trace) in traces.iter_mut().enumerate() {
            let accepted = match i {
                SECTION | PATH => supervisor.accepted_trace(i),
                _ => supervisor.level(i as u8 - 1).and_then(Level::accepted_trace),
            };
            *trace = accepted.copied();
        }
        State { stands, levels, head: report::head(&s), traces }
    }

    /// What is other than before, each after one blank.
    fn changes_since(&self, before: &State) -> String {
        let mut out = String::new();
        for (i, name) in NAMES.iter().enumerate() {
            out += &change(before.stands[i], self.stands[i], name);
        }
        let names = report::level_bits(&Default::default()).map(|(_, name, _)| name);
        for (level, (was, now)) in LEVELS.iter().zip(before.levels.iter().zip(&self.levels)) {
            for i in (0..19).filter(|i| was[*i] != now[*i]) {
                out += &change(was[i], now[i], &format!("TCM{level}.{}", names[i]));
            }
        }
        if self.head != before.head {
            out += &format!(" head={}", self.head);
        }
        for (i, of) in ["SM", "PM", "TCM1", "TCM2", "TCM3", "TCM4", "TCM5", "TCM6"].iter().enumerate() {
            match (&before.traces[i], &self.traces[i]) {
                (was, Some(now)) if *was != Some(*now) => out += &format!(" {of}.trace=\"{}\"", readable(now)),
                (Some(_), None) => out += &format!(" -{of}.trace"),
                _ => {}
            }
        }
        out
    }
}

fn stands_of(level: &Level) -> [bool; 19] {
    report::level_bits(&level.standing()).map(|(_, _, stands)| stands)
}

/// The word for what began or ended, after one blank.
fn change(before: bool, now: bool, name: &str) -> String {
    match (before, now) {
        (false, true) => format!(" +{name}"),
        (true, false) => format!(" -{name}"),
        _ => String::new(),
    }
}

/// Bytes 32 to 126 as they are, any other as a dot.
fn readable(trace: &[u8; 64]) -> String {
    trace.iter().map(|byte| if (32..=126).contains(byte) { char::from(*byte) } else { '.' }).collect()
}

/// The explanation of a whole trace.
pub fn explain(trace: &[u8]) -> String {
    let mut before = State::before_all();
    reader::told(trace, |place, supervisor| {
        let Place::Frame(total) = place else { return reader::seconds(place, supervisor) };
        let now = State::of(supervisor);
        let changes = now.changes_since(&before);
        before = now;
        if changes.is_empty() {
            return changes;
        }
        format!("F {} {} {total}{changes}\n", supervisor.closed() + 1, supervisor.open_frames())
    })
}
