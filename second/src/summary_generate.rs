//! By seed, for request K6: traces of quarter-hours and days, most of whose seconds are marks alone; and what is handed to otn_summary and
//! otn_join, valid or not.

use crate::card::{Handed, RECORD};
use crate::frame::plain_level;
use crate::generate::{self, Generated, Item};
use crate::level_generate::records;
use crate::provisioning::{LevelProvisioning, Provisioning};
use crate::random::Random;
use crate::seconds_generate::damage;
use crate::summary::{Summary, BYTES, DAY, LAST_SECOND, LONGEST, QUARTER};

/// Trace number `index` of the run with this seed. Every tenth is a day, or a day and more.
pub fn trace(seed: u64, index: u64) -> Generated {
    let mut rng = Random::new(seed.wrapping_mul(0x1_0000_0007).wrapping_add(index).wrapping_add(1 << 42));
    rng.next();
    let provisioning = generate::provisioning(&mut rng, 1);
    let levels = some_levels(&mut rng);
    let seconds = match index % 20 {
        0 => DAY + rng.within(1, 2 * QUARTER),
        10 => DAY,
        _ => how_many(&mut rng),
    };
    let counted = rng.once_in(2);
    let items = seconds_of(&mut rng, &provisioning, seconds);
    let about = format!("{seconds} seconds");
    let mut g = Generated { provisioning, levels, counted, items, bytes: Vec::new(), about };
    g.bytes = records(&g);
    if index % 10 != 0 && rng.once_in(3) {
        g.about += &damage(&mut rng, &mut g.bytes);
    }
    g
}

/// Some quarter-hours: to the end of one, to the second before or after it, or to any.
fn how_many(rng: &mut Random) -> u64 {
    let whole = QUARTER * rng.within(1, 4);
    match rng.below(4) {
        0 => whole,
        1 => whole - 1,
        2 => whole + 1,
        _ => rng.within(1, whole),
    }
}

/// In some traces levels, which are in no summary.
fn some_levels(rng: &mut Random) -> Vec<(u8, LevelProvisioning)> {
    let first = rng.within(1, 6) as u8;
    let last = rng.pick(&[0, 0, first, 6]);
    (first..=last).map(|level| (level, plain_level())).collect()
}

/// So many seconds and at times some frames after them.
fn seconds_of(rng: &mut Random, p: &Provisioning, seconds: u64) -> Vec<Item> {
    let mut frames = frames_in(rng, seconds);
    frames.push(rng.pick(&[0, 5]));
    let mut sent = generate::wandering(rng, p, frames.iter().sum()).into_iter().map(|mut f| {
        f.levels.iter_mut().for_each(|l| (l.stat, l.bei, l.violations) = (1, 1, 1));
        Item::Frame(f)
    });
    let mut items = Vec::new();
    for (second, frames) in (1..).zip(frames) {
        items.extend(sent.by_ref().take(frames as usize));
        if second <= seconds {
            items.push(Item::Mark);
        }
    }
    items
}

/// How many frames each second has: in some quarter-hours none, in the others some at both ends and here and there.
fn frames_in(rng: &mut Random, seconds: u64) -> Vec<u64> {
    let quiet = if seconds < DAY { 2 } else { 6 };
    let mut busy = false;
    (0..seconds)
        .map(|second| {
            let place = second % QUARTER;
            if place == 0 {
                busy = rng.once_in(quiet);
            }
            let often = if place < 2 || place > QUARTER - 3 { 2 } else { 60 };
            if busy && rng.once_in(often) {
                return rng.pick(&[1, 3, 6, 20, 60]);
            }
            0
        })
        .collect()
}

/// The numbers of a summary that are sums of BEI violations.
const SUMS: [usize; 2] = [17, 22];

/// What number `i` of a summary may be for each second: a DS, a sum, or a count or head.
fn most(i: usize) -> u64 {
    match i {
        15 | 16 | 20 | 21 => 1,
        _ if SUMS.contains(&i) => 3_200_000,
        _ => 400_000,
    }
}

/// Any of the 23 numbers, more often a sum.
fn any_number(rng: &mut Random) -> usize {
    if rng.once_in(4) {
        return rng.pick(&SUMS);
    }
    rng.below(23) as usize
}

/// A number up to `most`: 0, all of it, some or a few.
fn up_to(rng: &mut Random, most: u64) -> u64 {
    match rng.below(4) {
        0 => 0,
        1 => most,
        2 => rng.within(0, most),
        _ => rng.within(0, most.min(9)),
    }
}

/// A valid summary of these seconds. Heads need not add up to the frames.
fn stretch(rng: &mut Random, first: u64, length: u64) -> Summary {
    if length == 0 {
        return Summary::default();
    }
    Summary::from(std::array::from_fn(|i| match i {
        0 => first,
        1 => length,
        _ => up_to(rng, most(i) * length),
    }))
}

/// A valid summary: empty, of a second, a quarter-hour, a day or any length; from the first second, to the last one or between.
pub fn valid(rng: &mut Random) -> Summary {
    let length = match rng.below(8) {
        0 => 0,
        1 => 1,
        2 => QUARTER,
        3 => LONGEST,
        4 => rng.within(1, 20),
        _ => rng.within(1, LONGEST),
    };
    let first = match rng.below(4) {
        0 => 1,
        1 => LAST_SECOND + 1 - length,
        2 => 1 + QUARTER * rng.within(0, 200),
        _ => rng.within(1, LAST_SECOND + 1 - length),
    };
    stretch(rng, first, length)
}

/// A valid one that follows on from an earlier one, where there are seconds left: of any length, or such that both together are as long as one may
/// be, or one second longer.
pub fn following(rng: &mut Random, earlier: &Summary) -> Summary {
    let first = (earlier.first + earlier.length).max(1);
    let wanted = match rng.below(4) {
        0 => LONGEST - earlier.length,
        1 => LONGEST + 1 - earlier.length,
        2 => rng.within(1, LONGEST),
        _ => rng.within(1, 2 * QUARTER),
    };
    stretch(rng, first, wanted.min(LONGEST).min(LAST_SECOND + 1 - first))
}

/// Two valid ones: mostly such that one follows on from the other, at times from a second beside it, or empty.
pub fn two(rng: &mut Random) -> (Summary, Summary) {
    let earlier = valid(rng);
    let mut later = following(rng, &earlier);
    match rng.below(8) {
        0 => later = Summary::default(),
        1 => return (Summary::default(), earlier),
        2 => later = valid(rng),
        3 => return (later, earlier),
        4 if !later.is_empty() && later.first > 1 => later.first -= 1,
        5 if later.first + later.length <= LAST_SECOND && !later.is_empty() => later.first += 1,
        _ => {}
    }
    (earlier, later)
}

/// One of its numbers beyond its range by one, or anything.
pub fn damaged(rng: &mut Random, summary: &Summary) -> Summary {
    let mut numbers = summary.numbers();
    let length = numbers[1];
    let i = any_number(rng);
    match (rng.below(4), i) {
        (0, _) => numbers[i] = rng.next() >> rng.below(64),
        (1, _) => numbers[0] = LAST_SECOND + 2 - length,
        (2, _) if length > 0 => numbers[rng.below(2) as usize] = 0,
        (_, 0) => numbers[0] = 7,
        (_, 1) => numbers[..2].copy_from_slice(&[summary.first.max(1), LONGEST + 1]),
        _ => numbers[i] = most(i) * length + 1,
    }
    Summary::from(numbers)
}

/// The bytes of a summary, cut or with some more; or noise.
fn damaged_bytes(rng: &mut Random, summary: &Summary) -> Vec<u8> {
    let mut bytes = summary.bytes().to_vec();
    if rng.once_in(4) {
        rng.fill(&mut bytes);
    }
    bytes.resize(rng.pick(&[0, 1, 8, BYTES - 8, BYTES - 1, BYTES, BYTES + 1, BYTES + 8, 2 * BYTES]), 0);
    bytes
}

/// A record's bytes: figures in their ranges, or one of them not; those of the levels are not looked at. Of a right length or another.
fn record(rng: &mut Random) -> Vec<u8> {
    let mut figures: [u32; RECORD / 4] = std::array::from_fn(|i| match i {
        0 => rng.within(1, LAST_SECOND) as u32,
        1..=21 => up_to(rng, most(i + 1)) as u32,
        _ => rng.next() as u32,
    });
    // A record has no length.
    let i = any_number(rng).saturating_sub(1);
    match (rng.below(6), i) {
        (0, _) => figures[i] = (rng.next() >> rng.below(64)) as u32,
        (1, _) => figures[0] = rng.pick(&[0, u32::MAX]),
        (2 | 3, 1..) => figures[i] = most(i + 1) as u32 + 1,
        _ => {}
    }
    let mut bytes: Vec<u8> = figures.into_iter().flat_map(u32::to_le_bytes).collect();
    if rng.once_in(8) {
        rng.fill(&mut bytes);
    }
    if rng.once_in(3) {
        bytes.resize(rng.pick(&[0, 1, 4, 80, 87, 88, 89, RECORD - 1, RECORD + 1, 240]), 0);
    }
    bytes
}

/// What may be handed to otn_summary or otn_join.
pub fn handed(rng: &mut Random) -> Handed {
    let (earlier, later) = two(rng);
    match rng.below(12) {
        0..=3 => Handed::Record(record(rng)),
        4 => Handed::Two(damaged(rng, &earlier).bytes().to_vec(), later.bytes().to_vec()),
        5 => Handed::Two(earlier.bytes().to_vec(), damaged(rng, &later).bytes().to_vec()),
        6 => Handed::Two(damaged_bytes(rng, &earlier), later.bytes().to_vec()),
        7 => Handed::Two(earlier.bytes().to_vec(), damaged_bytes(rng, &later)),
        _ => Handed::Two(earlier.bytes().to_vec(), later.bytes().to_vec()),
    }
}

/// Room for a summary, mostly the right one.
pub fn room(rng: &mut Random) -> usize {
    match rng.below(6) {
        0 => rng.below(2 * BYTES as u64) as usize,
        1 => rng.pick(&[0, 1, 7, 8, BYTES - 1, BYTES + 1]),
        _ => BYTES,
    }
}
