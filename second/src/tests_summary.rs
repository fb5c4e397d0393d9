//! Request K6: the laws of joining over summaries by seed, stretches and quarter-hours by plain sums, bytes, what the calls answer, and what
//! `quarters` prints. The eleven cases of the request are `cases/k6-01-*.txt` to `cases/k6-11-*.txt`.

use crate::card::{join, summary};
use crate::frame::plain;
use crate::random::Random;
use crate::reader::{list, told, Place, Trace};
use crate::summary::{quarters, Summary, BYTES, DAY, LAST_SECOND};
use crate::summary_cover::SummaryCover;
use crate::summary_generate::{damaged, following, handed, trace, two, valid};
use crate::supervisor::Second;

const EMPTY: Summary = Summary { first: 0, length: 0, frames: 0, heads: [0; 10], layers: [[0; 5]; 2] };

/// So many seconds from this one on, their figures anything that a reported second may have; a level's are there too.
fn seconds(rng: &mut Random, first: u64, length: u64) -> Vec<Second> {
    (first..first + length)
        .map(|number| {
            let figures = std::array::from_fn(|i| match i {
                0 => number as u32,
                14 | 15 | 19 | 20 => rng.below(2) as u32,
                16 | 21 => rng.pick(&[0, 1, 3_200_000, 3_199_999, 401_000]),
                _ => rng.pick(&[0, 1, 400_000, 399_999, 77]),
            });
            Second { figures, levels: [Some([9, 9, 1, 1, 9]), None, None, None, None, None] }
        })
        .collect()
}

/// The one-second summaries of these joined one after another, which is accepted.
fn folded(seconds: &[Second]) -> Summary {
    seconds.iter().fold(EMPTY, |sum, second| sum.join(&Summary::of_record(second.figures).unwrap()).unwrap())
}

/// The reported seconds of a trace.
fn reported(bytes: &[u8]) -> Vec<Second> {
    let mut all = Vec::new();
    told(bytes, |place, supervisor| {
        match place {
            Place::Frame(_) => {}
            Place::Mark(second) => all.extend(second),
            Place::End => all.extend(supervisor.pending()),
        }
        String::new()
    });
    all
}

#[test]
fn the_empty_one_is_the_unit() {
    let mut rng = Random::new(1);
    for _ in 0..20_000 {
        let s = valid(&mut rng);
        assert!(s.valid());
        assert_eq!((s.join(&EMPTY), EMPTY.join(&s)), (Ok(s), Ok(s)));
    }
    // It is the only one of length 0, or from second 0 on.
    for i in 0..23 {
        let mut numbers = [0; 23];
        numbers[i] = 1;
        assert!(!Summary::from(numbers).valid(), "number {i}");
    }
}

#[test]
fn what_is_joined_is_valid() {
    let mut rng = Random::new(2);
    let mut answers = [0; 27];
    for _ in 0..50_000 {
        let (a, b) = two(&mut rng);
        match a.join(&b) {
            Ok(joined) => assert!(joined.valid(), "{a:?} {b:?}"),
            Err(number) => answers[usize::from(number)] += 1,
        }
        answers[0] += 1;
    }
    // All three ways are met, and two valid ones are never 26.
    assert!(answers[20] > 1_000 && answers[21] > 1_000 && answers[0] - answers[20] - answers[21] > 1_000 && answers[26] == 0);
}

/// Accepted one way if and only if the other, and then equal. The refusal may be another.
#[test]
fn joining_is_associative() {
    let mut rng = Random::new(3);
    let (mut accepted, mut refused, mut others) = (0, 0, 0);
    for _ in 0..100_000 {
        let (a, b) = two(&mut rng);
        let c = match rng.below(4) {
            0 => valid(&mut rng),
            1 => EMPTY,
            _ if b.is_empty() => following(&mut rng, &a),
            _ => following(&mut rng, &b),
        };
        let (left, right) = (a.join(&b).and_then(|ab| ab.join(&c)), b.join(&c).and_then(|bc| a.join(&bc)));
        match (left, right) {
            (Ok(left), Ok(right)) => assert_eq!(left, right),
            (Err(left), Err(right)) => {
                refused += 1;
                others += u64::from(left != right);
            }
            _ => panic!("{a:?} {b:?} {c:?}: {left:?}, {right:?}"),
        }
        accepted += u64::from(left.is_ok());
    }
    assert!(accepted > 10_000 && refused > 10_000 && others > 100, "{accepted} {refused} {others}");
}

/// The summaries of two neighbouring stretches join to the summary of both, also where one of them is empty.
#[test]
fn neighbours_join_to_both() {
    let mut rng = Random::new(4);
    for _ in 0..300 {
        let length = rng.within(0, 300);
        let first = rng.pick(&[1, 900, 5_000_000, LAST_SECOND + 1 - length.max(1)]);
        let all = seconds(&mut rng, first, length);
        let whole = Summary::of(&all);
        assert!(whole.valid());
        for at in [0, 1.min(length), rng.within(0, length), length] {
            let (earlier, later) = all.split_at(at as usize);
            assert_eq!(Summary::of(earlier).join(&Summary::of(later)), Ok(whole));
        }
        assert_eq!(folded(&all), whole);
    }
}

/// A day and a second more: its quarter-hours by joining are their plain sums, and so is the day of them; with the second more it is too long.
#[test]
fn quarter_hours_and_days() {
    let mut rng = Random::new(5);
    for q in [0, 1, 4_772_000] {
        let all = seconds(&mut rng, 900 * q + 1, DAY + 1);
        let by_quarters: Vec<Summary> = all[..DAY as usize].chunks(900).map(folded).collect();
        for (i, quarter) in by_quarters.iter().enumerate() {
            assert_eq!((quarter.first, quarter.length), (900 * (q + i as u64) + 1, 900));
            assert_eq!(*quarter, Summary::of(&all[900 * i..900 * i + 900]));
        }
        let day = by_quarters.iter().fold(EMPTY, |day, quarter| day.join(quarter).unwrap());
        assert_eq!((day, by_quarters.len()), (Summary::of(&all[..DAY as usize]), 96));
        assert_eq!(day.join(&Summary::of(&all[DAY as usize..])), Err(20));
    }
}

/// The greatest whole quarter-hour is 4,772,184: it ends with second 4,294,966,500, and 795 are left.
#[test]
fn the_last_quarter_hour() {
    let last = Summary { first: 900 * 4_772_184 + 1, length: 900, ..EMPTY };
    assert_eq!(last.first + last.length - 1, 4_294_966_500);
    assert!(last.valid() && !Summary { first: last.first + 900, ..last }.valid());
    let rest = Summary { first: last.first + 900, length: 795, ..EMPTY };
    assert!(rest.valid() && !Summary { length: 796, ..rest }.valid());
    assert_eq!(last.join(&rest).map(|both| both.length), Ok(1_695));
}

/// In every stretch of a history the ten heads add up to the frames, the blocks of a layer are at most the frames, its sum is at least its far blocks and
/// at most eight times them, and neighbours join.
#[test]
fn stretches_of_a_history() {
    let mut rng = Random::new(6);
    for index in 1..10 {
        let all = reported(&trace(7, index).bytes);
        for _ in 0..50 {
            let mut cut = [0; 3].map(|_| rng.within(0, all.len() as u64) as usize);
            cut.sort();
            let [earlier, later, both] = [cut[0]..cut[1], cut[1]..cut[2], cut[0]..cut[2]].map(|range| Summary::of(&all[range]));
            assert_eq!(earlier.join(&later), Ok(both));
            assert_eq!(both.heads.iter().sum::<u64>(), both.frames);
            assert!(both.layers.iter().all(|[near, far, ..]| *near <= both.frames && *far <= both.frames));
            assert!(both.layers.iter().all(|[_, far, _, _, sum]| far <= sum && *sum <= 8 * far));
        }
    }
}

/// One number out of its range is 26 on either side, ahead of 20 and 21; what the reading leaves open is accepted.
#[test]
fn what_is_not_valid() {
    let mut rng = Random::new(8);
    let mut refused = 0;
    for _ in 0..50_000 {
        let (a, b) = two(&mut rng);
        let wrong = damaged(&mut rng, &a);
        if !wrong.valid() {
            refused += 1;
            assert_eq!((wrong.join(&b), b.join(&wrong), wrong.join(&wrong)), (Err(26), Err(26), Err(26)));
        }
    }
    assert!(refused > 10_000);
    let odd = Summary {
        first: 1,
        length: 1,
        frames: 0,
        heads: [400_000; 10],
        layers: [[0, 400_000, 1, 1, 0], [0, 0, 1, 1, 3_200_000]],
    };
    assert_eq!(odd.join(&EMPTY), Ok(odd));
}

#[test]
fn bytes_there_and_back() {
    let mut rng = Random::new(9);
    for _ in 0..1_000 {
        let numbers = std::array::from_fn(|_| rng.next());
        let s = Summary::from(numbers);
        assert_eq!((s.numbers(), Summary::from_bytes(&s.bytes())), (numbers, Some(s)));
    }
    let s = Summary { first: 0x0102_0304_0506_0708, layers: [[0; 5], [0, 0, 0, 0, 0xFF00]], ..EMPTY };
    assert_eq!((&s.bytes()[..9], &s.bytes()[174..]), (&[8, 7, 6, 5, 4, 3, 2, 1, 0][..], &[0, 0, 0, 0xFF, 0, 0, 0, 0, 0, 0][..]));
    assert_eq!((Summary::from_bytes(&[0; BYTES - 1]), Summary::from_bytes(&[0; BYTES + 1])), (None, None));
}

/// A refused call changes no byte; an accepted one fills what the output has room for, and nothing after the 184.
#[test]
fn what_the_calls_answer() {
    let mut rng = Random::new(10);
    for _ in 0..5_000 {
        let handed = handed(&mut rng);
        let mut whole = [0; BYTES];
        let word = handed.answer(&mut whole);
        for room in [0, 1, 7, 8, 100, BYTES - 1, BYTES, BYTES + 9] {
            let mut out = vec![0xEE; room];
            assert_eq!(handed.answer(&mut out), word);
            let (filled, left) = out.split_at(if word == 0 { room.min(BYTES) } else { 0 });
            assert_eq!(filled, &whole[..filled.len()]);
            assert!(left.iter().all(|byte| *byte == 0xEE));
        }
    }
    // The first 88 bytes of a record are read.
    let mut record = [0xFF; 209];
    record[..88].fill(0);
    record[0] = 3;
    let mut out = [0; BYTES];
    for (length, word) in [(0, 26), (80, 26), (87, 26), (88, 0), (89, 0), (208, 0), (209, 0)] {
        assert_eq!(summary(&record[..length], &mut out), word, "{length} bytes");
    }
    assert_eq!(Summary::from_bytes(&out), Some(Summary { first: 3, length: 1, ..EMPTY }));
    // A summary has 184 bytes; before K7 it had 168.
    for length in [0, 168, BYTES - 1, BYTES + 1, 2 * BYTES] {
        let bytes = vec![0; length];
        assert_eq!((join(&bytes, &EMPTY.bytes(), &mut out), join(&EMPTY.bytes(), &bytes, &mut out)), (26, 26));
    }
}

/// The lines of `quarters` are the joinings of the seconds that the listing has, in the order of their ends, a quarter-hour before its day; then
/// what is left; then the listing's R and E.
#[test]
fn lines_of_joined_seconds() {
    for index in 0..12 {
        let bytes = trace(11, index).bytes;
        let (mut quarter, mut day, mut text) = (EMPTY, EMPTY, String::new());
        let line = |letter: char, length: u64, sum: &mut Summary| {
            let sum = std::mem::replace(sum, EMPTY);
            let numbers: Vec<String> = sum.numbers().iter().map(u64::to_string).collect();
            format!("{letter} {} {}\n", (sum.first - 1) / length, numbers.join(" "))
        };
        let seconds = reported(&bytes);
        for second in &seconds {
            let one = Summary::of_record(second.figures).unwrap();
            (quarter, day) = (quarter.join(&one).unwrap(), day.join(&one).unwrap());
            if second.figures[0] % 900 == 0 {
                text += &line('Q', 900, &mut quarter);
            }
            if second.figures[0] % 86_400 == 0 {
                text += &line('D', 86_400, &mut day);
            }
        }
        if quarter != EMPTY {
            text += &line('Q', 900, &mut quarter);
        }
        if day != EMPTY {
            text += &line('D', 86_400, &mut day);
        }
        let listed = list(&bytes);
        listed.lines().skip(seconds.len()).for_each(|line| text += &format!("{line}\n"));
        assert_eq!(quarters(&bytes), text, "trace {index}");
    }
}

/// A quarter-hour's line comes with the mark that reports its last second, which is the one after the mark that closes it.
#[test]
fn one_mark_late() {
    let mut t = Trace::default();
    t.provisioning(&plain(1));
    (0..900).for_each(|_| t.mark());
    let whole = format!("Q 0 1 900{}\n", " 0".repeat(21));
    let day = |length: u64| format!("D 0 1 {length}{}\n", " 0".repeat(21));
    assert_eq!(quarters(&t.0), format!("{whole}{}E 900 0\n", day(900)));
    t.mark();
    let rest = format!("Q 1 901 1{}\n", " 0".repeat(21));
    assert_eq!(quarters(&t.0), format!("{whole}{rest}{}E 901 0\n", day(901)));
}

#[test]
fn the_traces_exercise_every_row() {
    let mut cover = SummaryCover::default();
    let mut rng = Random::new(12);
    for index in 0..10 {
        cover.printed(&quarters(&trace(1, index).bytes));
    }
    for _ in 0..200 {
        let given = handed(&mut rng);
        cover.call(&given, given.answer(&mut []));
    }
    let (table, wrong) = cover.table();
    println!("{table}");
    assert_eq!(wrong, Vec::<String>::new());
}
