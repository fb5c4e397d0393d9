//! Traces by seed for request K3: short seconds, some of them empty, with IAE and BIAE of the section and of the levels in neighbouring
//! ones, through all of a second, at its start or at its end. Then some traces are damaged.

use crate::frame::{plain, plain_level, Sent};
use crate::generate::{Generated, Item};
use crate::level_generate::records;
use crate::provisioning::{LevelProvisioning, Provisioning, SECTION};
use crate::random::Random;

/// Trace number `index` of the run with this seed.
pub fn trace(seed: u64, index: u64) -> Generated {
    let mut rng = Random::new(seed.wrapping_mul(0x1_0000_0005).wrapping_add(index).wrapping_add(1 << 41));
    rng.next();
    let k = rng.pick(&[1, 1, 1, 2, 3]);
    let provisioning = Provisioning { degthr: [degthr(&mut rng), 1], mode: [rng.below(2) as u8; 2], ..plain(k) };
    let levels = some_levels(&mut rng);
    let items = seconds(&mut rng);
    let counted = !rng.once_in(8);
    let about = format!("neighbouring seconds, k = {k}");
    let mut g = Generated { provisioning, levels, counted, items, bytes: Vec::new(), about };
    g.bytes = records(&g);
    if rng.once_in(3) {
        g.about += &damage(&mut rng, &mut g.bytes);
    }
    g
}

fn degthr(rng: &mut Random) -> u32 {
    rng.pick(&[1, 1, 5, 10])
}

/// No level, one, or all of them, in any order.
fn some_levels(rng: &mut Random) -> Vec<(u8, LevelProvisioning)> {
    let mut left: Vec<u8> = (1..=6).collect();
    let how_many = rng.pick(&[0, 1, 3, 6, 6, 6]);
    (0..how_many)
        .map(|_| {
            let level = left.remove(rng.below(left.len() as u64) as usize);
            (level, LevelProvisioning { degthr: degthr(rng), degm: rng.within(2, 3) as u8, ..plain_level() })
        })
        .collect()
}

/// What a second does to the section or to a level, in those of its frames that `place` chooses.
#[derive(Clone, Copy)]
enum Does {
    Nothing,
    Iae,
    Biae,
    Bdi,
    /// SSF of the section, a defect of the level: near DS, and no dIAE.
    Fails,
}

/// The first frame and the one after the last.
fn place(rng: &mut Random, frames: u64) -> (u64, u64) {
    let some = rng.within(3, 7).min(frames);
    match rng.below(4) {
        0 => (0, some),
        1 => (frames - some, frames),
        2 => {
            let from = rng.below(frames - some + 1);
            (from, from + some)
        }
        _ => (0, frames),
    }
}

/// Some tens of seconds. The last one may stay open; in some traces it has dIAE and dBIAE then, after two that have neither.
fn seconds(rng: &mut Random) -> Vec<Item> {
    let mut items = Vec::new();
    let mut mfas = rng.byte();
    // The more often a second does nothing, the more often one stands alone.
    let idle = rng.pick(&[3, 8, 20]);
    for _ in 0..rng.within(2, 60) {
        let frames = rng.pick(&[0, 0, 1, 3, 5, 6, 10, 12, 12, 16, 24]);
        let does = |rng: &mut Random| match rng.below(idle + 8) {
            0 | 1 => Does::Iae,
            2 | 3 => Does::Biae,
            4 | 5 => Does::Bdi,
            6 | 7 => Does::Fails,
            _ => Does::Nothing,
        };
        second(rng, &mut items, &mut mfas, frames, does);
    }
    match rng.below(3) {
        0 => {}
        1 => drop(items.pop()),
        _ => {
            for _ in 0..2 {
                second(rng, &mut items, &mut mfas, 10, |_| Does::Nothing);
            }
            second(rng, &mut items, &mut mfas, 12, |rng| rng.pick(&[Does::Iae, Does::Biae]));
            items.pop();
        }
    }
    items
}

/// One second and its mark, with a block and a far block of every party in nearly every frame, of one violation to eight in turn, and what each
/// party does in it.
fn second(rng: &mut Random, items: &mut Vec<Item>, mfas: &mut u8, frames: u64, does: impl Fn(&mut Random) -> Does) {
    let mut sent: Vec<Sent> = (0..frames)
        .map(|_| {
            let number = |party: u8| 1 + mfas.wrapping_add(party) % 8;
            let mut f = Sent { stat: 1, bei: [number(0), number(1)], violations: [1, 1], ..Sent::good(*mfas) };
            for (party, l) in (2..).zip(&mut f.levels) {
                (l.stat, l.bei, l.violations) = (1, number(party), 1);
            }
            *mfas = mfas.wrapping_add(1);
            if rng.once_in(8) {
                (f.bei[SECTION], f.violations[SECTION]) = (rng.below(16) as u8, 0);
            }
            f
        })
        .collect();
    for party in 0..7 {
        let does = does(rng);
        let (from, to) = place(rng, frames);
        let code = rng.pick(&[0, 5, 6, 7]);
        for f in &mut sent[from as usize..to as usize] {
            drive(f, party, does, code);
        }
    }
    items.extend(sent.into_iter().map(Item::Frame));
    items.push(Item::Mark);
}

/// One frame of it. Party 0 is the section; `code` is the STAT that fails a level.
fn drive(f: &mut Sent, party: usize, does: Does, code: u8) {
    match (party, does) {
        (_, Does::Nothing) => {}
        (0, Does::Iae) => f.iae = true,
        (0, Does::Biae) => f.bei[SECTION] = 11,
        (0, Does::Bdi) => f.bdi[SECTION] = true,
        (0, Does::Fails) => f.flags = 1,
        (level, Does::Iae) => f.levels[level - 1].stat = 2,
        (level, Does::Biae) => f.levels[level - 1].bei = 11,
        (level, Does::Bdi) => f.levels[level - 1].bdi = true,
        (level, Does::Fails) => f.levels[level - 1].stat = code,
    }
}

/// Damage that refuses a record, so that the scan ends with a second pending; what was done.
pub(crate) fn damage(rng: &mut Random, bytes: &mut Vec<u8>) -> String {
    let mut at = 0;
    let mut all = Vec::new();
    while at + 4 <= bytes.len() {
        all.push(at);
        at += 2 + usize::from(u16::from_le_bytes([bytes[at], bytes[at + 1]]));
    }
    let record = rng.pick(&all);
    let what = rng.below(4);
    match what {
        0 => bytes.truncate(rng.below(bytes.len() as u64) as usize),
        1 => {
            let extra = rng.within(1, 3);
            bytes.extend((0..extra).map(|_| 2));
        }
        2 => drop(bytes.splice(record..record, bytes[..83].to_vec())),
        _ => bytes[record + 3] = 1,
    }
    format!(", damaged ({what})")
}
