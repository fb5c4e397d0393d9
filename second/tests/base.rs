//! A trace of kinds 1 to 3 prints what it printed before there were levels, but for what request K3 moved and voided and for the sums of K7; where one had 2 in TIMActDis
//! it has an explicit 0 since K5, and since K7 some of its BEI are others that say the same.

use second::explain::explain;
use second::generate;
use second::listing;
use second::reader::{list, told, Place};

/// FNV-1a, 64 bits.
fn digest(of: u64, bytes: &[u8]) -> u64 {
    bytes.iter().fold(of, |d, byte| (d ^ u64::from(*byte)).wrapping_mul(0x0100_0000_01B3))
}

/// The listing as it was before K3: at each mark the second just closed, with its own discard alone. That is the second pending after it.
fn listed_before(bytes: &[u8]) -> String {
    told(bytes, |place, supervisor| match place {
        Place::Mark(_) => listing::second(&supervisor.pending().expect("a mark leaves a second pending")),
        _ => String::new(),
    })
}

/// What is printed, as it was before K7: without the sums, the last of the section's five figures and of the path's.
fn without_sums(text: &str) -> String {
    let line = |line: &str| {
        let sum = |at: usize| line.starts_with('S') && (at == 17 || at == 22);
        let kept: Vec<&str> = line.split(' ').enumerate().filter(|(at, _)| !sum(*at)).map(|(_, word)| word).collect();
        kept.join(" ") + "\n"
    };
    text.lines().map(line).collect()
}

/// The number that a line has first.
fn number(line: &str) -> u64 {
    line.split(' ').nth(1).and_then(|n| n.parse().ok()).expect("a line begins with a letter and a number")
}

/// The explanation as it was before K3: its F lines as they are, and each S line of that listing before the first F line of a later second.
fn explained_before(bytes: &[u8]) -> String {
    let listed = listed_before(bytes);
    let mut seconds = listed.lines().peekable();
    let mut out = String::new();
    for line in explain(bytes).lines().filter(|line| line.starts_with('F')) {
        while let Some(second) = seconds.next_if(|second| second.starts_with('S') && number(second) < number(line)) {
            out += &format!("{second}\n");
        }
        out += &format!("{line}\n");
    }
    seconds.for_each(|rest| out += &format!("{rest}\n"));
    out
}

/// The listings and explanations of traces by seed, as one number. It holds where what K3 changed is undone, that a report comes one mark late and that the
/// second after voids it too, and what K7 did, that there are sums. It was taken before K5, while 2 in TIMActDis acted, of the traces that had it; another one,
/// which had the traces in it too, was taken before the levels were written, and held until then.
#[test]
fn traces_without_levels_print_what_they_printed() {
    let mut all = 0xCBF2_9CE4_8422_2325;
    for seed in 1..=3 {
        for index in 1..=60 {
            let bytes = generate::trace(seed, index).bytes;
            let (listed, explained) = (without_sums(&listed_before(&bytes)), without_sums(&explained_before(&bytes)));
            all = [listed.as_bytes(), explained.as_bytes()].iter().fold(all, |d, part| digest(d, part));
        }
    }
    assert_eq!(all, 12_540_475_536_827_352_488);
}

/// And what is printed since K3 is that listing, line for line, with nothing changed but section figures that are 0 now: near ones only together
/// with far ones, and in the last second none.
#[test]
fn k3_changes_nothing_else() {
    let mut voided = [0; 5];
    for seed in 1..=3 {
        for index in 1..=60 {
            let bytes = generate::trace(seed, index).bytes;
            let (now, before) = (list(&bytes), listed_before(&bytes));
            assert_eq!(now.lines().count(), before.lines().count());
            let last = before.lines().filter(|line| line.starts_with('S')).count();
            for (i, (now, before)) in now.lines().zip(before.lines()).enumerate() {
                let (now, before): (Vec<&str>, Vec<&str>) = (now.split(' ').collect(), before.split(' ').collect());
                assert_eq!(now.len(), before.len());
                // S, the number, frames and heads, then the section's five.
                let changed: Vec<usize> = (0..now.len()).filter(|at| now[*at] != before[*at]).collect();
                for at in &changed {
                    assert!(before[0] == "S" && (13..18).contains(at) && now[*at] == "0" && i + 1 < last, "{before:?}, {now:?}");
                    voided[at - 13] += 1;
                }
                if changed.contains(&13) || changed.contains(&15) {
                    assert_eq!(now[13..18], ["0"; 5]);
                }
                assert_eq!(changed.contains(&14), changed.contains(&17));
            }
        }
    }
    assert!(voided.iter().all(|times| *times > 0), "{voided:?}");
}

/// The sums of K7 are two more figures of each S line, of which each is at least its far blocks and at most eight times them: as great as them, eight times as
/// great, and in between.
#[test]
fn k7_adds_sums() {
    let mut met = [[0; 3]; 2];
    for seed in 1..=3 {
        for index in 1..=60 {
            let listed = list(&generate::trace(seed, index).bytes);
            for line in listed.lines().filter(|line| line.starts_with('S')) {
                let figures: Vec<u32> = line.split(' ').skip(1).map(|figure| figure.parse().unwrap()).collect();
                assert_eq!(figures.len(), 22);
                for (layer, five) in figures[12..].chunks(5).enumerate() {
                    let (far, sum) = (five[1], five[4]);
                    assert!(far <= sum && sum <= 8 * far, "{line}");
                    if far > 0 {
                        met[layer][usize::from(sum > far) + usize::from(sum == 8 * far)] += 1;
                    }
                }
            }
        }
    }
    assert!(met.iter().flatten().all(|times| *times > 0), "{met:?}");
}
