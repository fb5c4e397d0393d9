//! What each C call answers, over a supervisor that may not be there: a lent supervisor of a wrong length is refusal 17. otn_summary and otn_join
//! have none.

use crate::provisioning::{LevelProvisioning, Provisioning};
use crate::summary::Summary;
use crate::supervisor::{Second, Supervisor};

/// The word a call answers.
pub fn word(answer: Result<u64, u8>) -> u64 {
    answer.unwrap_or_else(u64::from)
}

/// Bytes of the record that otn_mark and otn_pending store.
pub const RECORD: usize = 208;

/// Bit 8 of what they answer: there is a second to tell, and the record is filled.
pub const TOLD: u64 = 1 << 8;

/// The answer of otn_mark and otn_pending: without a second the buffer keeps its contents.
fn told(second: Option<Second>, buffer: &mut [u8]) -> u64 {
    second.map_or(0, |second| {
        record(&second, buffer);
        TOLD
    })
}

/// The bytes stored in a buffer, as many as it has room for; the rest keep their contents. Each level has its fixed place, and there
/// are zeros where it is not provisioned.
pub fn record(second: &Second, buffer: &mut [u8]) {
    let levels = second.levels.iter().flat_map(|five| five.unwrap_or([0; 5]));
    let bytes = second.figures.into_iter().chain(levels).flat_map(u32::to_le_bytes);
    for (place, byte) in buffer.iter_mut().zip(bytes.take(RECORD)) {
        *place = byte;
    }
}

/// What otn_summary is handed, a record, or otn_join, an earlier and a later summary: any bytes.
#[derive(Clone, Debug)]
pub enum Handed {
    Record(Vec<u8>),
    Two(Vec<u8>, Vec<u8>),
}

impl Handed {
    pub fn answer(&self, out: &mut [u8]) -> u64 {
        match self {
            Handed::Record(record) => summary(record, out),
            Handed::Two(earlier, later) => join(earlier, later, out),
        }
    }
}

/// otn_summary: of a record's first 22 words; fewer bytes are 26.
pub fn summary(record: &[u8], out: &mut [u8]) -> u64 {
    if record.len() < 88 {
        return 26;
    }
    let figure = |i: usize| u32::from_le_bytes(std::array::from_fn(|at| record[4 * i + at]));
    summed(Summary::of_record(std::array::from_fn(figure)), out)
}

/// otn_join: "a handed-in one of a wrong byte length is 26".
pub fn join(earlier: &[u8], later: &[u8], out: &mut [u8]) -> u64 {
    match (Summary::from_bytes(earlier), Summary::from_bytes(later)) {
        (Some(earlier), Some(later)) => summed(earlier.join(&later), out),
        _ => 26,
    }
}

/// The answer of otn_summary and otn_join: a refusal leaves the buffer, and otherwise it gets as many bytes as it has room for.
fn summed(summary: Result<Summary, u8>, out: &mut [u8]) -> u64 {
    word(summary.map(|summary| {
        out.iter_mut().zip(summary.bytes()).for_each(|(place, byte)| *place = byte);
        0
    }))
}

/// The fields that otn_level is given.
#[derive(Clone, Copy, Debug)]
pub struct LevelFields<'a> {
    pub level: u8,
    pub thr: u32,
    pub degm: u8,
    pub mode: u8,
    pub dis: u8,
    pub names: &'a [u8],
}

#[derive(Clone, Debug, Default)]
pub struct Card {
    pub supervisor: Option<Supervisor>,
}

impl Card {
    pub fn fresh(&mut self, right_length: bool, provisioning: Result<Provisioning, u8>) -> u64 {
        if !right_length {
            return 17;
        }
        match provisioning {
            Ok(p) => {
                self.supervisor = Some(Supervisor::fresh(p));
                0
            }
            Err(number) => u64::from(number),
        }
    }

    /// 17, then in number order: 6 to 10, 16 where a frame or a mark was accepted, 18.
    pub fn level(&mut self, right_length: bool, f: &LevelFields) -> u64 {
        match &mut self.supervisor {
            Some(s) if right_length => match LevelProvisioning::of(s.provisioning.k, f.thr, f.degm, f.mode, f.dis, f.names) {
                Err(number) => u64::from(number),
                Ok(_) if s.begun() => 16,
                Ok(_) if !s.takes(f.level) => 18,
                Ok(p) => {
                    s.provision(f.level, p);
                    0
                }
            },
            _ => 17,
        }
    }

    pub fn step(&mut self, right_length: bool, overhead: &[u8], flags: u8, sm: u8, pm: u8) -> u64 {
        match &mut self.supervisor {
            Some(s) if right_length => word(s.step(overhead, flags, sm, pm)),
            _ => 17,
        }
    }

    pub fn step_levels(&mut self, right_length: bool, overhead: &[u8], flags: u8, sm: u8, pm: u8, counts: [u8; 6]) -> u64 {
        match &mut self.supervisor {
            Some(s) if right_length => word(s.step_levels(overhead, flags, sm, pm, counts)),
            _ => 17,
        }
    }

    pub fn level_report(&self, right_length: bool, level: u8) -> u64 {
        match &self.supervisor {
            Some(s) if right_length => word(s.level_report(level)),
            _ => 17,
        }
    }

    pub fn level_trace(&self, right_length: bool, level: u8, buffer: &mut [u8]) -> u64 {
        match &self.supervisor {
            Some(s) if right_length => word(s.level_trace(level, buffer.len()).map(|trace| {
                buffer.copy_from_slice(&trace);
                0
            })),
            _ => 17,
        }
    }

    pub fn mark(&mut self, right_length: bool, buffer: &mut [u8]) -> u64 {
        match &mut self.supervisor {
            Some(s) if right_length => word(s.mark().map(|reported| told(reported, buffer))),
            _ => 17,
        }
    }

    pub fn pending(&self, right_length: bool, buffer: &mut [u8]) -> u64 {
        match &self.supervisor {
            Some(s) if right_length => told(s.pending(), buffer),
            _ => 17,
        }
    }

    pub fn trace(&self, right_length: bool, layer: u8, buffer: &mut [u8]) -> u64 {
        match &self.supervisor {
            Some(s) if right_length => word(s.trace(layer, buffer.len()).map(|trace| {
                buffer.copy_from_slice(&trace);
                0
            })),
            _ => 17,
        }
    }
}
