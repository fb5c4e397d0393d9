//! Summaries of reported seconds (document 02, K6): of a stretch by plain sums, which are valid, how two are joined, their bytes; and the
//! quarter-hours and days of a trace.

use crate::listing;
use crate::provisioning::{PATH, SECTION};
use crate::reader::{self, Place};
use crate::supervisor::{Second, FULL_SECOND};

/// "up to 86,400 seconds joined into one record".
pub const LONGEST: u64 = 86_400;

/// "Quarter-hour q, from 0, is seconds 900q + 1 to 900q + 900"; and a day is 96 of them.
pub const QUARTER: u64 = 900;
pub const DAY: u64 = 96 * QUARTER;

/// "last second above 4,294,967,295" is refused.
pub const LAST_SECOND: u64 = u32::MAX as u64;

/// The most that the far end's violations of a second can sum up to: eight in each frame.
pub const FULL_SUM: u64 = 8 * FULL_SECOND;

/// 23 numbers of 64 bits.
pub const BYTES: usize = 184;

/// By default the empty one: "the empty summary, whose first second is 0".
#[derive(Clone, Copy, Debug, Default, PartialEq, Eq)]
pub struct Summary {
    pub first: u64,
    pub length: u64,
    pub frames: u64,
    pub heads: [u64; 10],
    /// Section and path: near blocks, far blocks, seconds with near DS, seconds with far DS, the sum of BEI violations.
    pub layers: [[u64; 5]; 2],
}

impl Summary {
    /// "counts and heads added in 64 bits, DS as seconds with DS; no tandem level's", and "summaries gain the sum" (K7): of seconds that follow one
    /// another.
    pub fn of(seconds: &[Second]) -> Summary {
        let sum = |figure: usize| seconds.iter().map(|second| u64::from(second.figures[figure])).sum::<u64>();
        let with = |ds: usize| seconds.iter().filter(|second| second.figures[ds] == 1).count() as u64;
        Summary {
            first: seconds.first().map_or(0, |second| u64::from(second.figures[0])),
            length: seconds.len() as u64,
            frames: sum(1),
            heads: std::array::from_fn(|head| sum(2 + head)),
            layers: [12, 17].map(|at| [sum(at), sum(at + 1), with(at + 2), with(at + 3), sum(at + 4)]),
        }
    }

    /// Of the first 22 figures of a record, which may be anything: a summary of length 1 with first = its number; or refusal 26.
    pub fn of_record(figures: [u32; 22]) -> Result<Summary, u8> {
        let figures = figures.map(u64::from);
        let mut numbers = [1; 23];
        numbers[0] = figures[0];
        numbers[2..].copy_from_slice(&figures[1..]);
        let summary = Summary::from(numbers);
        if !summary.valid() {
            return Err(26);
        }
        Ok(summary)
    }

    /// Whether a handed-in one is not refused with 26. That the heads add up to the frames is not asked, nor how a sum stands to its far blocks.
    pub fn valid(&self) -> bool {
        let up_to = |most: u64, value: u64| u128::from(value) <= u128::from(most) * u128::from(self.length);
        let count = |value: u64| up_to(FULL_SECOND, value);
        let ds = |value: u64| value <= self.length;
        self.length <= LONGEST
            && (self.first == 0) == (self.length == 0)
            && u128::from(self.first) + u128::from(self.length) <= u128::from(LAST_SECOND) + 1
            && self.layers.iter().all(|[_, _, near_ds, far_ds, _]| ds(*near_ds) && ds(*far_ds))
            && count(self.frames)
            && self.heads.iter().all(|head| count(*head))
            && self.layers.iter().all(|[near, far, _, _, _]| count(*near) && count(*far))
            // "A handed-in sum above 3,200,000 times the length is 26" (K7).
            && self.layers.iter().all(|[_, _, _, _, sum]| up_to(FULL_SUM, *sum))
    }

    pub fn is_empty(&self) -> bool {
        *self == Summary::default()
    }

    /// "the empty summary .. follows on from anything and any summary from it". Both are valid.
    fn follows(&self, earlier: &Summary) -> bool {
        self.is_empty() || earlier.is_empty() || self.first == earlier.first + earlier.length
    }

    /// This one and the later one as one: "in the order 26, 20, 21".
    pub fn join(&self, later: &Summary) -> Result<Summary, u8> {
        if !self.valid() || !later.valid() {
            return Err(26);
        }
        if self.length + later.length > LONGEST {
            return Err(20);
        }
        if !later.follows(self) {
            return Err(21);
        }
        let mut numbers = self.numbers();
        numbers.iter_mut().zip(later.numbers()).for_each(|(sum, number)| *sum += number);
        numbers[0] = if self.is_empty() { later.first } else { self.first };
        Ok(Summary::from(numbers))
    }

    /// In the order in which they are stored and printed.
    pub fn numbers(&self) -> [u64; 23] {
        let mut all = [0; 23];
        all[..3].copy_from_slice(&[self.first, self.length, self.frames]);
        all[3..13].copy_from_slice(&self.heads);
        all[13..18].copy_from_slice(&self.layers[SECTION]);
        all[18..].copy_from_slice(&self.layers[PATH]);
        all
    }

    pub fn bytes(&self) -> [u8; BYTES] {
        let mut bytes = self.numbers().into_iter().flat_map(u64::to_le_bytes);
        std::array::from_fn(|_| bytes.next().expect("there are 184"))
    }

    /// What 184 bytes say, valid or not; of another length they are none.
    pub fn from_bytes(bytes: &[u8]) -> Option<Summary> {
        let bytes: &[u8; BYTES] = bytes.try_into().ok()?;
        let number = |i: usize| u64::from_le_bytes(std::array::from_fn(|at| bytes[8 * i + at]));
        Some(Summary::from(std::array::from_fn(number)))
    }
}

impl From<[u64; 23]> for Summary {
    fn from(numbers: [u64; 23]) -> Summary {
        let [first, length, frames, ..] = numbers;
        let heads = std::array::from_fn(|head| numbers[3 + head]);
        let layers = [13, 18].map(|at| std::array::from_fn(|i| numbers[at + i]));
        Summary { first, length, frames, heads, layers }
    }
}

/// What `quarters` prints of a whole trace: of each quarter-hour and then of each day its line as soon as its last second is reported, at the
/// end what there is of the last ones; then R and E.
pub fn quarters(trace: &[u8]) -> String {
    let mut seconds = Vec::new();
    reader::told(trace, |place, supervisor| {
        let reported = match place {
            Place::Frame(_) => None,
            Place::Mark(reported) => reported,
            Place::End => supervisor.pending(),
        };
        let Some(second) = reported else { return String::new() };
        seconds.push(second);
        let ends = matches!(place, Place::End);
        [('Q', QUARTER), ('D', DAY)].map(|(letter, length)| last_of(&seconds, letter, length, ends)).concat()
    })
}

/// The line of the quarter-hour or day that the last of the seconds is in, where that is whole or, at the end, in any case.
fn last_of(seconds: &[Second], letter: char, length: u64, ends: bool) -> String {
    let told = seconds.len() as u64;
    let number = (told - 1) / length;
    if told % length != 0 && !ends {
        return String::new();
    }
    listing::summary(letter, number, &Summary::of(&seconds[(number * length) as usize..]))
}
