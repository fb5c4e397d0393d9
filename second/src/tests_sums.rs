//! Request K7: what a BEI says by its code, the sums by tallies written here anew, what stops and what voids them, their bounds, and a full second.
//! The seven cases of the request are `cases/k7-01-*.txt` to `cases/k7-07-*.txt`.

use crate::bei::Bei;
use crate::bei_cover::BeiCover;
use crate::card::{self, Card, RECORD, TOLD};
use crate::frame::{plain, plain_level, Sent};
use crate::generate::{self, another, Generated, Item};
use crate::level_generate;
use crate::reader::{told, Place};
use crate::seconds_generate;
use crate::summary::{Summary, BYTES};
use crate::supervisor::{Second, Supervisor, FULL_SECOND};

/// "none, a number 1 to 8, or the BIAE mark", by section and level and by path, for all sixteen.
#[test]
fn sixteen_codes() {
    let none = [0, 9, 10, 12, 13, 14, 15];
    for code in 0..16 {
        let (of, of_path) = (Bei::of(code), Bei::of_path(code));
        match code {
            1..=8 => assert_eq!((of, of_path, of.violations()), (Bei::Number(code), Bei::Number(code), Some(code))),
            0b1011 => assert_eq!((of, of_path, of.violations()), (Bei::Biae, Bei::None, None)),
            _ => {
                assert!(none.contains(&code));
                assert_eq!((of, of_path, of.violations()), (Bei::None, Bei::None, None));
            }
        }
        // What the generators put in its place says the same, in the section and in the path.
        for by in 0..=255 {
            let other = another(code, by);
            assert!(other < 16);
            assert_eq!(
                (Bei::of(other).violations().is_some(), Bei::of(other) == Bei::Biae),
                (of.violations().is_some(), of == Bei::Biae)
            );
            assert_eq!(Bei::of_path(other).violations().is_some(), of_path.violations().is_some());
        }
    }
}

/// A supervisor with the levels of a generated trace.
fn begun(g: &Generated) -> Supervisor {
    let mut s = Supervisor::fresh(g.provisioning.clone());
    g.levels.iter().for_each(|(level, p)| s.provision(*level, p.clone()));
    s
}

/// The far blocks and the sum of a party: section, path, levels 1 to 6.
fn far(second: &Second, party: usize) -> Option<[u32; 2]> {
    match party {
        0 | 1 => Some([second.figures[13 + 5 * party], second.figures[16 + 5 * party]]),
        _ => second.levels[party - 2].map(|five| [five[1], five[4]]),
    }
}

/// Traces by seed of each sort.
fn traces(count: u64) -> impl Iterator<Item = Generated> {
    (0..count).map(|index| match index % 3 {
        0 => generate::trace(13, index + 1),
        1 => level_generate::trace(13, index / 3),
        _ => seconds_generate::trace(13, index / 3),
    })
}

/// What a second has so far: far blocks and sum of each party before any discard, and whether dIAE or dBIAE stood.
#[derive(Clone, Copy, Default)]
struct Tally {
    far: [[u32; 2]; 8],
    void: [bool; 8],
}

/// The sum of a reported second is the total of the numbers over the frames whose far block is counted, or 0 where these are voided. Which frames
/// have a far block is told by a second that has this frame alone, on a copy of the supervisor.
#[test]
fn the_sum_goes_with_the_far_count() {
    let (mut blocks_met, mut voided) = ([0; 8], [0; 8]);
    for g in traces(30) {
        let mut s = begun(&g);
        let (mut open, mut last) = (Tally::default(), Tally::default());
        for item in g.items.iter().take(1_500) {
            let Item::Frame(f) = item else {
                let reported = s.mark().unwrap();
                let pending = s.pending().unwrap();
                for party in 0..8 {
                    let kept = |void: bool, figures: [u32; 2]| if void { [0; 2] } else { figures };
                    if let Some(told) = reported.and_then(|second| far(&second, party)) {
                        assert_eq!(told, kept(last.void[party] || open.void[party], last.far[party]), "{}", g.about);
                        voided[party] += u64::from(told == [0; 2] && last.far[party] != [0; 2]);
                    }
                    if let Some(told) = far(&pending, party) {
                        assert_eq!(told, kept(open.void[party], open.far[party]), "{}", g.about);
                    }
                }
                last = std::mem::take(&mut open);
                continue;
            };
            let step = |s: &mut Supervisor| s.step_levels(&f.overhead(), f.flags, f.violations[0], f.violations[1], [0; 6]);
            let mut alone = s.clone();
            alone.mark().unwrap();
            step(&mut alone).unwrap();
            step(&mut s).unwrap();
            alone.mark().unwrap();
            let one = alone.pending().unwrap();
            let (codes, voiding) = (codes(f), voiding(&s));
            for party in 0..8 {
                let Some([blocks, sum]) = far(&one, party) else { continue };
                assert!(blocks == 0 || (blocks == 1 && (1..=8).contains(&codes[party])), "{}", g.about);
                assert_eq!(sum, blocks * u32::from(codes[party]), "{}", g.about);
                open.far[party][0] += blocks;
                open.far[party][1] += sum;
                open.void[party] |= voiding[party];
                blocks_met[party] += blocks;
            }
        }
    }
    assert!(blocks_met.iter().all(|times| *times > 100), "{blocks_met:?}");
    assert!((0..8).all(|party| (voided[party] > 0) == (party != 1)), "{voided:?}");
}

/// Whether dIAE or dBIAE of a party stands.
fn voiding(s: &Supervisor) -> [bool; 8] {
    std::array::from_fn(|party| match party {
        0 => s.standing().diae || s.standing().dbiae,
        1 => false,
        _ => s.level(party as u8 - 1).is_some_and(|l| l.standing().diae() || l.standing().dbiae),
    })
}

/// The four bits of each party in a frame.
fn codes(f: &Sent) -> [u8; 8] {
    std::array::from_fn(|party| if party < 2 { f.bei[party] } else { f.levels[party - 2].bei })
}

/// "In each reported second the sum is at least the far blocks and at most eight times them": section, path and levels, at a mark and at the end.
#[test]
fn bounds_of_reported_seconds() {
    for g in traces(90) {
        let bytes = level_generate::records(&g);
        told(&bytes, |place, supervisor| {
            let second = match place {
                Place::Frame(_) => None,
                Place::Mark(reported) => reported,
                Place::End => supervisor.pending(),
            };
            for [far, sum] in second.iter().flat_map(|second| (0..8).filter_map(|party| far(second, party))) {
                assert!(far <= sum && sum <= 8 * far, "{}: {far} {sum}", g.about);
            }
            String::new()
        });
    }
}

/// BEI alone decides the far count and the sum, violations the near count: the one does not change the other.
#[test]
fn near_and_far_apart() {
    for g in traces(30) {
        let (mut s, mut without, mut flat) = (begun(&g), begun(&g), begun(&g));
        for item in &g.items {
            match item {
                Item::Frame(f) => {
                    let step = |s: &mut Supervisor, f: &Sent, counts: [u8; 2], six: [u8; 6]| {
                        s.step_levels(&f.overhead(), f.flags, counts[0], counts[1], six).unwrap();
                    };
                    step(&mut s, f, f.violations, f.counts());
                    step(&mut without, f, [0; 2], [0; 6]);
                    // Every number is 1, all else as it is.
                    let mut ones = *f;
                    let one = |code: &mut u8| *code = if (1..=8).contains(code) { 1 } else { *code };
                    ones.bei.iter_mut().for_each(one);
                    ones.levels.iter_mut().for_each(|l| one(&mut l.bei));
                    step(&mut flat, &ones, f.violations, f.counts());
                }
                Item::Mark => {
                    let [told, without, flat] = [s.mark(), without.mark(), flat.mark()].map(Result::unwrap);
                    let (Some(told), Some(without), Some(flat)) = (told, without, flat) else { continue };
                    for party in 0..8 {
                        assert_eq!(far(&told, party), far(&without, party));
                        if let (Some([blocks, _]), Some(ones)) = (far(&told, party), far(&flat, party)) {
                            assert_eq!(ones, [blocks; 2]);
                        }
                    }
                }
            }
        }
    }
}

/// 400,000 frames with BEI 8 everywhere: 400,000 far blocks, a sum of 3,200,000, in section, path and a level; of which a summary is valid. One more is 26.
#[test]
fn a_full_second() {
    let mut card = Card::default();
    card.fresh(true, Ok(plain(1)));
    card.supervisor.as_mut().unwrap().provision(4, plain_level());
    for number in 0..FULL_SECOND {
        let mut f = Sent { stat: 1, bei: [8, 8], ..Sent::good(number as u8) };
        (f.levels[3].stat, f.levels[3].bei) = (1, 8);
        assert_eq!(card.step(true, &f.overhead(), 0, 0, 0) & 255, 0);
    }
    assert_eq!(card.step(true, &Sent::ZEROS.overhead(), 0, 0, 0), 4);
    assert_eq!(card.mark(true, &mut []), 0);
    let mut record = [0; RECORD];
    assert_eq!(card.pending(true, &mut record), TOLD);
    let figure = |i: usize| u32::from_le_bytes(std::array::from_fn(|at| record[4 * i + at]));
    for at in [12, 17, 37] {
        assert_eq!([0, 1, 2, 3, 4].map(|i| figure(at + i)), [0, 400_000, 0, 0, 3_200_000]);
    }
    let mut sum = [0; BYTES];
    assert_eq!(card::summary(&record, &mut sum), 0);
    let one = Summary::from_bytes(&sum).unwrap();
    assert_eq!(one.layers, [[0, 400_000, 0, 0, 3_200_000]; 2]);
    for at in [16, 21] {
        let mut above = record;
        above[4 * at..4 * at + 4].copy_from_slice(&3_200_001u32.to_le_bytes());
        let mut out = [9; BYTES];
        assert_eq!((card::summary(&above, &mut out), out), (26, [9; BYTES]));
    }
    // A level's sum is in no summary, whatever it is.
    let mut above = record;
    above[4 * 41..4 * 42].fill(0xFF);
    let mut out = [0; BYTES];
    assert_eq!((card::summary(&above, &mut out), out), (0, sum));
}

/// The bound of a handed-in sum is of the length, by itself: not of the far blocks.
#[test]
fn the_bound_of_a_sum() {
    for length in [1u64, 2, 900, 86_400] {
        for layer in [0, 1] {
            let with = |sum: u64| {
                let mut s = Summary { first: 1, length, ..Summary::default() };
                s.layers[layer][4] = sum;
                s
            };
            for (sum, valid) in
                [(0, true), (1, true), (3_200_000 * length, true), (3_200_000 * length + 1, false), (u64::MAX, false)]
            {
                assert_eq!(with(sum).valid(), valid, "{sum} in {length} seconds");
                let empty = Summary::default();
                let answer = if valid { Ok(with(sum)) } else { Err(26) };
                assert_eq!((with(sum).join(&empty), empty.join(&with(sum))), (answer, answer));
            }
        }
    }
    let far_alone = Summary { first: 1, length: 1, layers: [[0, 5, 0, 0, 0]; 2], ..Summary::default() };
    assert!(far_alone.valid());
}

#[test]
fn the_traces_exercise_every_row() {
    let mut cover = BeiCover::default();
    for g in traces(240) {
        let mut s = begun(&g);
        for item in &g.items {
            match item {
                Item::Frame(f) => {
                    let counts = if g.counted { f.counts() } else { [0; 6] };
                    s.step_levels(&f.overhead(), f.flags, f.violations[0], f.violations[1], counts).unwrap();
                    cover.frame(&s, &f.overhead());
                }
                Item::Mark => {
                    cover.mark();
                    s.mark().unwrap();
                }
            }
        }
        cover.end();
    }
    let (table, wrong) = cover.table();
    println!("{table}");
    assert_eq!(wrong, Vec::<String>::new());
}
