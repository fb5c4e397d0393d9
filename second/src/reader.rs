//! Trace records, the scan, and the listing of a whole trace.

use crate::listing;
use crate::provisioning::{LevelProvisioning, Provisioning};
use crate::supervisor::{Second, Supervisor};

#[derive(Clone, Debug, PartialEq, Eq)]
pub enum Record<'a> {
    /// Kind 1, whose levels' counts are 0, or kind 5.
    Frame {
        kind: u16,
        overhead: &'a [u8],
        flags: u8,
        sm: u8,
        pm: u8,
        counts: [u8; 6],
    },
    Mark,
    Provisioning(&'a [u8]),
    Level(&'a [u8]),
}

/// The record at the head of `rest` and the bytes it takes; or 14, 15, 14 in that order.
pub fn record(rest: &[u8]) -> Result<(Record<'_>, usize), u8> {
    if rest.len() < 4 {
        return Err(14);
    }
    let length = usize::from(u16::from_le_bytes([rest[0], rest[1]]));
    let kind = u16::from_le_bytes([rest[2], rest[3]]);
    match (kind, length) {
        (1, 69) | (2, 2) | (3, 81) | (4, 42) | (5, 75) => {}
        _ => return Err(15),
    }
    let whole = length + 2;
    if rest.len() < whole {
        return Err(14);
    }
    let body = &rest[4..whole];
    let record = match kind {
        1 | 5 => {
            let mut counts = [0; 6];
            counts[..body.len() - 67].copy_from_slice(&body[67..]);
            Record::Frame { kind, overhead: &body[..64], flags: body[64], sm: body[65], pm: body[66], counts }
        }
        2 => Record::Mark,
        3 => Record::Provisioning(body),
        _ => Record::Level(body),
    };
    Ok((record, whole))
}

/// The provisioning in a body of 79 bytes, or refusal 5 to 9.
pub fn provisioning(body: &[u8]) -> Result<Provisioning, u8> {
    let word = |i: usize| u32::from_le_bytes([body[i], body[i + 1], body[i + 2], body[i + 3]]);
    Provisioning::of(
        body[0],
        [word(1), word(6)],
        [body[5], body[10]],
        [body[11], body[12]],
        [body[13], body[14]],
        [&body[15..47], &body[47..79]],
    )
}

/// A level's body of 40 bytes: 16 after a frame or mark, 18 for no level or one given twice, then 6 to 9 by the trace's k.
fn level(supervisor: &mut Supervisor, body: &[u8]) -> Result<(), u8> {
    if supervisor.begun() {
        return Err(16);
    }
    let level = body[0];
    if !supervisor.takes(level) {
        return Err(18);
    }
    let thr = u32::from_le_bytes([body[1], body[2], body[3], body[4]]);
    let p = LevelProvisioning::of(supervisor.provisioning.k, thr, body[5], body[6], body[7], &body[8..40])?;
    supervisor.provision(level, p);
    Ok(())
}

/// The listing of a whole trace.
pub fn list(trace: &[u8]) -> String {
    told(trace, seconds)
}

/// Where a scan stands.
#[derive(Clone, Copy, Debug)]
pub enum Place {
    /// After an accepted frame, which has this number in the trace.
    Frame(u64),
    /// After an accepted mark, with the second that it reports.
    Mark(Option<Second>),
    /// Where the scan ends, at the end of the input or at a refusal.
    End,
}

/// The S lines: a mark's second, and "at the end of the scan the pending second, if there is one, is printed before R or E" (K3).
pub fn seconds(place: Place, supervisor: &Supervisor) -> String {
    let told = match place {
        Place::Frame(_) => None,
        Place::Mark(reported) => reported,
        Place::End => supervisor.pending(),
    };
    told.as_ref().map_or(String::new(), listing::second)
}

/// A scan: what the records accepted so far have made.
#[derive(Default)]
struct Scan {
    supervisor: Option<Supervisor>,
    /// "a trace uses kind 1 or kind 5 and not both": the kind of the frames accepted.
    frame_kind: Option<u16>,
    marks: u64,
    frames: u64,
}

impl Scan {
    /// One record: what is told of it, or its refusal: 16, then 18 and 19, then the rest.
    fn take(&mut self, record: Record, mut tell: impl FnMut(Place, &Supervisor) -> String) -> Result<String, u8> {
        let Some(s) = &mut self.supervisor else {
            let Record::Provisioning(body) = record else { return Err(16) };
            self.supervisor = Some(Supervisor::fresh(provisioning(body)?));
            return Ok(String::new());
        };
        match record {
            Record::Provisioning(_) => Err(16),
            Record::Level(body) => level(s, body).map(|()| String::new()),
            Record::Mark => {
                let reported = s.mark()?;
                self.marks += 1;
                Ok(tell(Place::Mark(reported), s))
            }
            Record::Frame { kind, overhead, flags, sm, pm, counts } => {
                if self.frame_kind.is_some_and(|used| used != kind) {
                    return Err(19);
                }
                s.step_levels(overhead, flags, sm, pm, counts)?;
                self.frame_kind = Some(kind);
                self.frames += 1;
                Ok(tell(Place::Frame(self.frames), s))
            }
        }
    }
}

/// What `tell` says of a whole trace, after each frame and mark accepted and at the end, of the supervisor then; and then the R and E
/// lines.
pub fn told(trace: &[u8], mut tell: impl FnMut(Place, &Supervisor) -> String) -> String {
    let mut out = String::new();
    let mut scan = Scan::default();
    let mut offset = 0;
    let mut refused = None;
    while offset < trace.len() && refused.is_none() {
        let taken = record(&trace[offset..]).and_then(|(record, bytes)| Ok((scan.take(record, &mut tell)?, bytes)));
        match taken {
            Ok((text, bytes)) => {
                out += &text;
                offset += bytes;
            }
            Err(number) => refused = Some(number),
        }
    }
    out += &scan.supervisor.as_ref().map_or(String::new(), |s| tell(Place::End, s));
    out += &refused.map_or(String::new(), |number| listing::refusal(number, offset as u64));
    out + &listing::end(scan.marks, scan.frames)
}

/// A trace under construction.
#[derive(Clone, Debug, Default)]
pub struct Trace(pub Vec<u8>);

impl Trace {
    pub fn record(&mut self, kind: u16, body: &[u8]) {
        self.0.extend((body.len() as u16 + 2).to_le_bytes());
        self.0.extend(kind.to_le_bytes());
        self.0.extend(body);
    }
    pub fn provisioning(&mut self, p: &Provisioning) {
        self.record(3, &p.body());
    }
    pub fn frame(&mut self, overhead: &[u8; 64], flags: u8, sm: u8, pm: u8) {
        let mut body = overhead.to_vec();
        body.extend([flags, sm, pm]);
        self.record(1, &body);
    }
    pub fn mark(&mut self) {
        self.record(2, &[]);
    }
    /// A kind 4 record.
    pub fn level(&mut self, level: u8, p: &LevelProvisioning) {
        self.record(4, &p.body(level));
    }
    /// A kind 5 record.
    pub fn frame_levels(&mut self, overhead: &[u8; 64], flags: u8, sm: u8, pm: u8, counts: [u8; 6]) {
        let mut body = overhead.to_vec();
        body.extend([flags, sm, pm]);
        body.extend(counts);
        self.record(5, &body);
    }
}
