//! The picture of fixed listings, explanations and quarter-hours: its marks stand where they must and in their shade, it is well-formed, and a
//! listing or a command line with a mistake is told.

use std::io::Write;
use std::ops::RangeInclusive;
use std::process::{Command, Stdio};
use tools::timeline::{page, read};

const LEFT: usize = 270;

/// An S line of so many frames: those under one failed head, and the five values of each layer.
fn second(number: usize, frames: u64, (head, failed): (usize, u64), layers: [u64; 10]) -> String {
    let mut heads = [0; 10];
    heads[0] = frames - failed;
    heads[head] += failed;
    let figures: Vec<String> = heads.iter().chain(&layers).map(u64::to_string).collect();
    format!("S {number} {frames} {}\n", figures.join(" "))
}

/// So many seconds of ten frames, clear but for those given with their head.
fn listing(seconds: usize, failed: &[(usize, usize)]) -> String {
    let mut text = String::new();
    for number in 1..=seconds {
        text += &match failed.iter().find(|(at, _)| *at == number) {
            Some((_, head)) => second(number, 10, (*head, 1), [0, 0, u64::from(*head < 6), 0, 0, 0, 0, 1, 0, 0]),
            None => second(number, 10, (0, 0), [0; 10]),
        };
    }
    format!("{text}E {seconds} {}\n", 10 * seconds)
}

fn picture(seconds: usize, failed: &[(usize, usize)]) -> String {
    drawn(&listing(seconds, failed))
}

fn drawn(listing: &str) -> String {
    named("my.listing", listing, None)
}

fn named(name: &str, listing: &str, range: Option<RangeInclusive<u64>>) -> String {
    let svg = page(name, &read(listing).unwrap(), range).unwrap();
    well_formed(&svg);
    svg
}

/// Every tag that begins ends, in order; attributes stand in quotes; text has no mark-up.
fn well_formed(svg: &str) {
    let mut open = Vec::new();
    let mut parts = svg.split('<');
    assert_eq!(parts.next(), Some(""));
    for part in parts {
        let (tag, text) = part.split_once('>').expect("a tag ends");
        let plain = ["&amp;", "&lt;", "&gt;", "&quot;"].iter().fold(text.to_string(), |text, sign| text.replace(sign, ""));
        assert!(!plain.contains(['>', '&']), "{text}");
        assert!(!open.is_empty() || !tag.starts_with('/'), "{tag}");
        if let Some(name) = tag.strip_prefix('/') {
            assert_eq!(open.pop(), Some(name));
            continue;
        }
        assert_eq!(tag.matches('"').count(), 2 * tag.matches('=').count(), "{tag}");
        if !tag.ends_with('/') {
            open.push(tag.split(' ').next().unwrap());
        }
    }
    assert!(open.is_empty(), "{open:?}");
}

/// The rectangles of a class among the columns: x, y, width, height.
fn rects(svg: &str, class: &str) -> Vec<[usize; 4]> {
    let begin = format!("<rect class=\"{class}\" ");
    let number = |line: &str, name: &str| -> usize {
        let (_, rest) = line.split_once(&format!(" {name}=\"")).unwrap();
        rest.split('"').next().unwrap().parse().unwrap()
    };
    let lines = svg.lines().filter(|line| line.starts_with(&begin));
    let all = lines.map(|line| ["x", "y", "width", "height"].map(|name| number(line, name)));
    all.filter(|rect| rect[0] >= LEFT).collect()
}

/// Those of the band, and those of the lane: x and width.
fn head(svg: &str, head: usize) -> [Vec<(usize, usize)>; 2] {
    shade(svg, &format!("h{head}"))
}

/// The same of a head in a shade.
fn shade(svg: &str, class: &str) -> [Vec<(usize, usize)>; 2] {
    let all = rects(svg, class);
    [30, 13].map(|height| all.iter().filter(|r| r[3] == height).map(|r| (r[0], r[2])).collect())
}

/// The figures of the column that begins with a second.
fn figures<'a>(svg: &'a str, begin: &str) -> Vec<&'a str> {
    let at = svg.find(&format!("<title>{begin}")).expect(begin) + 7;
    svg[at..].split("</title>").next().unwrap().lines().collect()
}

const EXAMPLES: &str = concat!(env!("CARGO_MANIFEST_DIR"), "/../examples/scenarios");

fn example(file: &str) -> String {
    std::fs::read_to_string(format!("{EXAMPLES}/{file}")).unwrap()
}

fn minute() -> String {
    named("minute.listing", &example("minute.listing"), None)
}

#[test]
fn a_minute_has_every_head_and_every_defect_second() {
    let svg = minute();
    // 15 pixels a second; the seconds are told in minute.txt.
    let place = |first: usize, last: usize| (LEFT + 15 * (first - 1), 15 * (last - first + 1));
    let stands =
        [(1, vec![(6, 8), (50, 50)]), (2, vec![(12, 12)]), (3, vec![(16, 17)]), (4, vec![(21, 21)]), (5, vec![(26, 28)])];
    let more = [(6, vec![(32, 32)]), (7, vec![(36, 36)]), (8, vec![(40, 40)]), (9, vec![(44, 45)])];
    for (number, runs) in stands.iter().chain(&more) {
        let places: Vec<_> = runs.iter().map(|(first, last)| place(*first, *last)).collect();
        assert_eq!(head(&svg, *number), [places.clone(), places], "head {number}");
        assert!(svg.contains(&format!(">{number} ")) && svg.contains(&format!("class=\"d{number}\"")));
    }
    let strips = rects(&svg, "strip");
    let runs = [
        vec![(6, 8), (12, 12), (16, 17), (21, 21), (26, 28), (50, 50)],
        vec![(56, 58)],
        vec![(6, 8), (12, 12), (16, 17), (21, 21), (26, 28), (32, 32), (36, 36), (40, 40), (44, 45), (50, 50)],
        vec![(59, 59)],
    ];
    assert_eq!(strips.len(), 4);
    for (strip, runs) in strips.iter().zip(runs) {
        let met: Vec<_> = rects(&svg, "ds").iter().filter(|r| r[1] == strip[1]).map(|r| (r[0], r[2])).collect();
        assert_eq!(met, runs.iter().map(|(first, last)| place(*first, *last)).collect::<Vec<_>>());
    }
    for words in [
        "minute.listing: 60 seconds, 60,000 frames",
        "16 seconds with failed frames, the first is second 6.",
        "A column of the picture is one second.",
    ] {
        assert!(svg.contains(&format!(">{words}</text>")), "{words}");
    }
    assert_eq!(svg.matches("class=\"pointer\"").count(), 60);
    // With a BEI of 2 in its frames a far block has two far violations.
    assert!(figures(&svg, "second 32\n").ends_with(&["path far blocks: 180", "path far violations: 360"]));
    assert!(
        svg.contains("<title>second 50\n0 clear: 999 frames\n1 line signal fail (TSF-P): 1 frame\nsection near blocks: 10, DS\n")
    );
}

#[test]
fn the_picture_among_the_examples_is_this_one() {
    assert!(minute() == include_str!("../../examples/scenarios/minute.svg"), "draw it again: see examples/scenarios");
}

#[test]
fn a_lone_failed_second_of_a_day_is_kept() {
    for (number, at) in [(1, 1), (2, 96), (3, 97), (4, 43_210), (5, 51_234), (6, 60_000), (7, 70_001), (8, 86_305), (9, 86_400)] {
        let svg = picture(86_400, &[(at, number)]);
        let x = LEFT + (at - 1) / 96;
        assert_eq!(shade(&svg, &format!("h{number} s1")), [vec![(x, 2)], vec![(x, 2)]], "head {number}");
        let layers = if number < 6 { 2 } else { 1 };
        // In the palest shade, with a line of the full colour under it, or over it where it is a bar.
        for (class, marks) in
            [(format!("h{number}"), vec![(x, 2); 2]), ("bar".into(), vec![(x, 1)]), ("ds".into(), vec![(x, 2); layers])]
        {
            let [pale, edge] = [rects(&svg, &format!("{class} s1")), rects(&svg, &class)];
            assert_eq!(pale.iter().map(|r| (r[0], r[2])).collect::<Vec<_>>(), marks, "{class}");
            assert!(pale.len() == edge.len() && edge.iter().all(|r| r[3] == 3), "{class}");
            for (pale, edge) in pale.iter().zip(&edge) {
                let y = if class == "bar" { pale[1] } else { pale[1] + pale[3] - 3 };
                assert_eq!(*edge, [pale[0], y, pale[2], 3]);
            }
        }
        let words = "A column of the picture holds 96 seconds; the worst of them is shown, its shade tells how many fail.";
        assert!(svg.contains(&format!(">{words}</text>")));
        assert!(svg.contains("1 is the worst, then 2 and so on to 9; clear comes last."));
    }
}

#[test]
fn the_worst_of_a_column_is_shown_and_every_lane() {
    let svg = picture(1_800, &[(5, 9), (6, 3)]);
    let x = LEFT + 2;
    // Both seconds of the column fail, and each lane has one of them.
    assert_eq!(head(&svg, 3), [vec![(x, 2)], vec![]]);
    assert_eq!(shade(&svg, "h3 s2"), [vec![], vec![(x, 2)]]);
    assert_eq!([shade(&svg, "h9 s2"), head(&svg, 9)], [[vec![], vec![(x, 2)]], [vec![], vec![]]]);
}

#[test]
fn the_shade_tells_how_many_seconds_of_a_column_fail() {
    // Ten seconds to a column: in the first 1 of them fails, in the second 2, and so on to 10; then a column is clear.
    let failed: Vec<(usize, usize)> = (1..=10).flat_map(|n| (1..=n).map(move |i| (10 * (n - 1) + i, 5))).collect();
    let svg = picture(9_000, &failed);
    let run = |first: usize, last: usize| vec![(LEFT + first - 1, last - first + 1)];
    for (class, marks) in [("h5 s1", run(1, 2)), ("h5 s2", run(3, 5)), ("h5 s3", run(6, 7)), ("h5", run(8, 10))] {
        assert_eq!(shade(&svg, class), [marks.clone(), marks.clone()], "{class}");
        let strip: Vec<_> = rects(&svg, &class.replace("h5", "ds")).iter().filter(|r| r[3] == 8).map(|r| (r[0], r[2])).collect();
        assert_eq!(strip, [marks.clone(), marks].concat(), "{class}");
    }
    for (class, columns) in [("bar s1", 1..=2), ("bar s2", 3..=5), ("bar s3", 6..=7)] {
        let bars: Vec<_> = rects(&svg, class).iter().map(|r| (r[0], r[2])).collect();
        assert_eq!(bars, columns.map(|n| (LEFT + n - 1, 1)).collect::<Vec<_>>(), "{class}");
    }
    let begins = ["seconds 1 to 10: 1 of 10 with failed frames", "0 clear: 99 frames in 10 of 10 seconds"];
    assert_eq!(figures(&svg, "seconds 1 to 10:")[..2], begins);
    let begins = ["seconds 61 to 70: 7 of 10 with failed frames", "0 clear: 93 frames in 10 of 10 seconds"];
    assert_eq!(figures(&svg, "seconds 61 to 70:")[..2], begins);
    assert_eq!(figures(&svg, "seconds 61 to 70:")[2], "5 section trace mismatch: 7 frames in 7 of 10 seconds");
    assert_eq!(figures(&svg, "seconds 61 to 70:")[6], "path near blocks: 0, DS in 7 of 10 seconds");
    assert_eq!(figures(&svg, "seconds 101 to 110:")[0], "seconds 101 to 110: 0 of 10 with failed frames");
    assert!(svg.contains(">Shade: how many seconds of the column have it, in the band how many fail: "));
    // The full colour of head 5 is #117733; of the palest 40 hundredths are left.
    assert!(svg.contains(".h5 { fill: #117733 }") && svg.contains(".h5.s1 { fill: #a0c9ad }"));
    // Where a second has its column there is no shade.
    assert!(!picture(900, &[(5, 3)]).contains("s1") && !minute().contains("Shade"));
}

#[test]
fn one_in_five_is_no_block() {
    // One second, two seconds, five seconds to a column of one pixel. A mark among others is not made wider.
    for (seconds, colour) in [(900, 20), (1_500, 24), (4_500, 40)] {
        let failed: Vec<(usize, usize)> = (1..=seconds / 5).map(|n| (5 * n, 1)).collect();
        let svg = picture(seconds, &failed);
        let left = |(class, hundredths): (&str, usize)| head_pixels(&svg, class) * hundredths;
        let all: usize = [("h1", 100), ("h1 s1", 40), ("h1 s2", 60), ("h1 s3", 80)].into_iter().map(left).sum();
        assert_eq!(all, colour * seconds / seconds.div_ceil(900), "{seconds} seconds");
    }
}

/// The pixels of a class in the band, of its whole height.
fn head_pixels(svg: &str, class: &str) -> usize {
    shade(svg, class)[0].iter().map(|(_, width)| width).sum()
}

#[test]
fn neighbours_cover_no_other() {
    // Columns 3, 4 and 5 of one pixel; what is drawn later lies above.
    let svg = picture(1_800, &[(5, 3), (7, 9), (9, 3)]);
    let drawn: Vec<_> = svg.lines().filter(|line| line.contains("y=\"96\"") && line.contains("class=\"h")).collect();
    assert!(drawn[2..].iter().all(|line| line.contains(" s2\"") && line.contains("width=\"1\"")), "{drawn:?}");
    let x = |line: &str| line.split("x=\"").nth(1).and_then(|rest| rest.split('"').next()?.parse::<usize>().ok()).unwrap();
    let order: Vec<(&str, usize)> = drawn.iter().map(|line| (&line[13..15], x(line))).collect();
    assert_eq!(order, [("h0", 270), ("h0", 275), ("h3", 272), ("h9", 273), ("h3", 274)]);
}

#[test]
fn bars_show_the_highest_of_a_column_by_powers_of_ten() {
    let mut text: String = (1..=1_798).map(|number| second(number, 1_000, (0, 0), [0; 10])).collect();
    text += &second(1_799, 1_000, (0, 0), [5, 0, 0, 0, 0, 0, 0, 0, 0, 0]);
    text += &second(1_800, 1_000, (0, 0), [1_000, 1, 0, 0, 1, 0, 20, 0, 0, 100]);
    let svg = drawn(&format!("{text}E 1800 1800000\n"));
    // Four steps of 14 pixels: 1, 10, 100, 1,000.
    let heights = |class: &str| rects(&svg, class).iter().map(|r| (r[0], r[3])).filter(|r| r.1 > 3).collect::<Vec<_>>();
    assert_eq!(heights("bar"), [(LEFT + 899, 56)]);
    assert_eq!(heights("bar s2"), [14, 14, 32, 42].map(|height| (LEFT + 899, height)));
    assert!(svg.contains(">1,005</text>"));
}

#[test]
fn the_fullest_seconds() {
    let full = [400_000, 400_000, 1, 1, 3_200_000, 400_000, 400_000, 1, 1, 3_200_000];
    let svg = drawn(&format!("{}{}E 2 800000\n", second(1, 400_000, (9, 400_000), full), second(2, 400_000, (0, 0), full)));
    assert!(rects(&svg, "bar").iter().all(|r| r[3] <= 56));
    assert_eq!((rects(&svg, "bar").len(), rects(&svg, "ds").len()), (13, 4));
}

#[test]
fn seconds_without_frames_are_blank() {
    let svg = drawn(&format!("{}{}E 2 3\n", second(1, 0, (0, 0), [0; 10]), second(2, 3, (0, 0), [0; 10])));
    assert_eq!(head(&svg, 0)[0], [(LEFT + 60, 60)]);
}

#[test]
fn a_refused_listing_shows_where_the_record_ends() {
    let svg = drawn("S 1 2 0 2 0 0 0 0 0 0 0 0 0 0 1 0 0 0 0 1 0 0\nR 15 1234\nE 1 7\n");
    assert_eq!(rects(&svg, "end").iter().map(|r| r[0]).collect::<Vec<_>>(), [LEFT + 60]);
    for words in [
        "the record ends here",
        "5 frames after the last mark: not in the picture.",
        "The record ends after 1 second: refusal 15 (kind unknown, or length wrong for it) at byte 1,234.",
    ] {
        assert!(svg.contains(&format!(">{words}</text>")), "{words}");
    }
    let svg = drawn("R 5 0\nE 0 0\n");
    assert_eq!(rects(&svg, "end").iter().map(|r| r[0]).collect::<Vec<_>>(), [LEFT]);
    assert!(svg.contains(">The record ends after 0 seconds: refusal 5 (k not 1 to 3) at byte 0.</text>"));
    assert_eq!(rects(&minute(), "end").len(), 0);
}

#[test]
fn an_empty_listing() {
    let svg = drawn("E 0 0\n");
    assert!(svg.contains(">No second was closed.</text>"));
    for class in ["bar", "ds", "end", "h0", "h1", "pointer"] {
        assert_eq!(rects(&svg, class).len(), 0, "{class}");
    }
}

/// Where the axis has labels.
fn axis_labels(svg: &str) -> Vec<usize> {
    svg.lines()
        .filter_map(|line| line.strip_prefix("<text class=\"small middle\" x=\""))
        .map(|rest| rest.split('"').next().unwrap().parse().unwrap())
        .collect()
}

#[test]
fn labels_of_the_axis_keep_apart() {
    for seconds in [1, 2, 13, 60, 61, 899, 900, 901, 3_600, 86_400, 604_800] {
        let labels = axis_labels(&picture(seconds, &[]));
        assert!(!labels.is_empty() && labels.windows(2).all(|two| two[0] + 60 <= two[1]), "{seconds}: {labels:?}");
    }
}

#[test]
fn mistakes_tell_the_line_and_what_was_expected() {
    let good = "S 1 2 0 2 0 0 0 0 0 0 0 0 0 0 1 0 0 0 0 1 0 0\n";
    let told = [
        ("", "the listing ends; expected E"),
        ("X 1", "\"X\" begins the line; expected S, F, R or E"),
        ("\n", "\"\" begins the line; expected S, F, R or E"),
        ("\u{1}\u{fffd}q", "\"..q\" begins the line; expected S, F, R or E"),
        ("S 2 0 0", "3 numbers; expected 22, as in the line before"),
        ("S 3 0 0 0 0 0 0 0 0 0 0 0 0 0 0 0 0 0 0 0 0 0", "second 3; expected 2"),
        ("S 2 x 0 0 0 0 0 0 0 0 0 0 0 0 0 0 0 0 0 0 0 0", "\"x\" is not a number; expected digits"),
        ("S 2  0 0 0 0 0 0 0 0 0 0 0 0 0 0 0 0 0 0 0 0", "\"\" is not a number; expected digits"),
        ("S 2 +1 1 0 0 0 0 0 0 0 0 0 0 0 0 0 0 0 0 0 0 0", "\"+1\" is not a number; expected digits"),
        ("S 2 400001 0 0 0 0 0 0 0 0 0 0 0 0 0 0 0 0 0 0 0 0", "400,001 frames; expected at most 400,000"),
        ("S 2 9 4 4 0 0 0 0 0 0 0 0 0 0 0 0 0 0 0 0 0 0", "8 frames under the ten heads; expected 9, the second's"),
        ("S 2 1 1 0 0 0 0 0 0 0 0 0 0 2 0 0 2 0 0 0 0 0", "2 blocks; expected at most 1, the second's frames"),
        ("S 2 0 0 0 0 0 0 0 0 0 0 0 0 0 0 0 0 0 0 0 2 0", "2 for a defect second; expected 0 or 1"),
        ("S 2 3 3 0 0 0 0 0 0 0 0 0 0 2 0 0 1 0 0 0 0 0", "1 far violation; expected 1 to 8 for each of 2 far blocks"),
        ("S 2 3 3 0 0 0 0 0 0 0 0 0 0 2 0 0 2 0 1 0 0 9", "9 far violations; expected 1 to 8 for each of 1 far block"),
        ("S 2 3 3 0 0 0 0 0 0 0 0 0 3 0 0 0 1 0 0 0 0 0", "1 far violation; expected 1 to 8 for each of 0 far blocks"),
        ("F 2 1", "2 numbers; expected 3"),
        ("F 1 2 2 +IF", "second 1; expected 3"),
        ("F 2 1 3 +IF", "second 2; expected 3"),
        ("F 3 0 2 +IF", "frame 0; expected 1 to 400,000"),
        ("F 3 3 4 +IF", "frame 4 of the trace; expected 5 to 400005"),
        ("F 3 3 400006 +IF", "frame 400006 of the trace; expected 5 to 400005"),
        ("F 3 3 5", "\"\" is not a change; expected +NAME, -NAME, head= or a trace"),
        ("F 3 3 5 +<b>", "\"+<b>\" is not a change; expected +NAME, -NAME, head= or a trace"),
        ("F 3 3 5 +IF IM", "\"IM\" is not a change; expected +NAME, -NAME, head= or a trace"),
        ("R 20 5", "refusal 20; expected 1 to 19"),
        ("R 14", "1 number; expected 2"),
        ("E 2 2", "2 marks; expected 1, the S lines"),
        ("E 1 1", "1 frame; expected at least 2, those of the S lines"),
    ];
    for (line, message) in told {
        assert_eq!(read(&format!("{good}{line}")).expect_err("a mistake"), format!("line 2: {message}"));
    }
    assert_eq!(read(&format!("{good}R 2 5\n{good}E 1 2\n")).unwrap_err(), "line 3: \"S\" begins the line; expected E after R");
    assert_eq!(read(&format!("{good}E 1 2\nE 1 2\n")).unwrap_err(), "line 3: \"E\" begins the line; expected nothing after E");
    assert_eq!(read("").unwrap_err(), "line 1: the listing ends; expected E");
    // An explanation: after S 1 the open second is 3, and second 2 has 7 frames by its F lines.
    let explained = |after: &str| read(&format!("{good}F 3 3 12 +IF\n{after}\n")).unwrap_err();
    assert_eq!(explained("F 3 3 12 -IF"), "line 3: frame 3; expected 4 to 400,000");
    assert_eq!(explained("F 3 4 14 -IF"), "line 3: frame 14 of the trace; expected 13");
    assert_eq!(explained("F 4 1 15 -IF"), "line 3: second 4; expected 3");
    let zeros = "0 0 0 0 0 0 0 0 0 0 0 0 0 0 0 0 0 0 0";
    let wrong = "8 frames; expected 7, by the F lines of the next second";
    assert_eq!(explained(&format!("S 2 8 8 {zeros}")), format!("line 3: {wrong}"));
    let both = format!("S 2 7 7 {zeros}\nS 3 2 2 {zeros}");
    assert_eq!(explained(&both), "line 4: 2 frames; expected at least 3, the F line's");
    assert_eq!(explained(&format!("S 2 7 7 {zeros}\nF 4 1 12 +IM")), "line 4: frame 12 of the trace; expected 13 to 400010");
    assert_eq!(explained(&format!("S 2 7 7 {zeros}\nE 2 11")), "line 4: 11 frames; expected at least 12, the F line's");
    assert_eq!(explained("E 1 12"), "line 3: no S line of second 2; expected one, as an F line is of second 3");
    assert_eq!(explained("R 15 9\nE 1 12"), "line 4: no S line of second 2; expected one, as an F line is of second 3");
    // Before the first S line the open second is 1 or 2.
    assert_eq!(read("F 3 1 1 +IF").unwrap_err(), "line 1: second 3; expected 1 or 2");
    assert_eq!(read("F 0 1 1 +IF").unwrap_err(), "line 1: second 0; expected 1 or 2");
    assert_eq!(read("F 1 2 3 +IF").unwrap_err(), "line 1: frame 3 of the trace; expected 2");
    assert_eq!(read("F 1 2 2 +IF\nF 2 1 2 +IM").unwrap_err(), "line 2: frame 2 of the trace; expected 3 to 400001");
    assert_eq!(read("F 2 1 2 +IF\nF 1 3 3 +IM").unwrap_err(), "line 2: second 1; expected 2");
    let junk = format!("{}\n", "\u{fffd}".repeat(1_000));
    assert_eq!(read(&junk).unwrap_err(), format!("line 1: \"{}\"... begins the line; expected S, F, Q, R or E", ".".repeat(60)));
}

#[test]
fn an_explanation_has_the_picture_of_its_listing() {
    let note = "With the figures of a column: the frames in which a fault cause begins (+) or ends (-).";
    let files = std::fs::read_dir(EXAMPLES).unwrap().map(|entry| entry.unwrap().file_name().into_string().unwrap());
    for name in files.filter_map(|file| Some(file.strip_suffix(".explained")?.to_string())) {
        let explained = drawn(&example(&format!("{name}.explained")));
        assert!(explained.contains(note), "{name}");
        // The note makes the page 17 pixels higher.
        let marks = |svg: &str| -> Vec<String> {
            svg.lines().filter(|l| l.starts_with("<rect") && !l.contains("\"page\"")).map(String::from).collect()
        };
        let listed = drawn(&example(&format!("{name}.listing")));
        assert_eq!(marks(&explained), marks(&listed), "{name}");
        assert!(!listed.contains(note));
    }
    let figures = |begin: &str| figures(&drawn(&example("one-cut-once.explained")), begin).join("; ");
    assert!(figures("second 1\n")
        .ends_with("; path far violations: 0; frame 5,066: +cLOF +SM.cSSF +PM.cSSF; frame 5,863: -cLOF -SM.cSSF -PM.cSSF"));
    assert!(figures("second 2\n").ends_with("; path far violations: 0"));
}

/// So many seconds of nine frames, with an F line of the changes in frame 5 of each; the S line of a second stands behind the F line of the next.
fn explanation(seconds: usize, changes: &str) -> String {
    let mut text = String::new();
    for number in 1..=seconds {
        text += &format!("F {number} 5 {} {changes}\n", 9 * (number - 1) + 5);
        if number > 1 {
            text += &second(number - 1, 9, (0, 0), [0; 10]);
        }
    }
    format!("{text}{}E {seconds} {}\n", second(seconds, 9, (0, 0), [0; 10]), 9 * seconds)
}

/// Two seconds with the groups of two levels, and an F line of the changes in the first.
fn levels(changes: &str) -> String {
    let told = if changes.is_empty() { String::new() } else { format!("F 1 5 5 {changes}\n") };
    let zeros = "0 0 0 0 0 0 0 0 0 0 0 0 0 0 0 0 0 0 0";
    format!("{told}S 1 9 9 {zeros} 3 2 1 0 16 0 0 0 1 0\nS 2 9 9 {zeros} 0 0 0 0 0 1 1 0 0 1\nE 2 18\n")
}

#[test]
fn each_provisioned_level_has_its_group() {
    let figures_of = |listing: &str| figures(&drawn(listing), "second 1\n")[8..].join("; ");
    let plain = "level 1 of 2 near blocks: 3, DS; level 1 of 2 far blocks: 2; level 1 of 2 far violations: 16; \
                 level 2 of 2 near blocks: 0; level 2 of 2 far blocks: 0, DS; level 2 of 2 far violations: 0";
    assert_eq!(figures_of(&levels("")), plain);
    // A listing does not number the levels; an explanation that names both does, one that names one does not.
    assert_eq!(figures_of(&levels("+TCM3.SSF")), plain);
    let named = plain.replace("level 1 of 2", "TCM2").replace("level 2 of 2", "TCM6");
    assert_eq!(figures_of(&levels("+TCM6.SSF -TCM2.trace")), named);
    assert_eq!(figures_of(&levels("+TCM2.cLTC +TCM6.dDEG TCM2.trace=\"x\"")), format!("{named}; frame 5: +TCM2.cLTC"));
    // Three rows of bars more for each level, and what is under them moves down.
    let (none, two) = (drawn(&listing(2, &[])), drawn(&levels("")));
    let high = |svg: &str| svg.split("height=\"").nth(1).unwrap().split('"').next().unwrap().parse::<usize>().unwrap();
    assert_eq!(high(&two), high(&none) + 6 * 86 + 17);
    assert!(two.contains("Tandem levels: in the order of their numbers") && !none.contains("Tandem levels"));
    let mistake = |text: &str| read(text).unwrap_err();
    assert_eq!(mistake("S 1 0 0"), "line 1: 3 numbers; expected 22, and 5 more for each tandem level");
    assert_eq!(
        mistake(&levels("").replace("S 2 9 9 0 0 0 0 0", "S 2 9 9")),
        "line 2: 27 numbers; expected 32, as in the line before"
    );
    assert_eq!(mistake(&levels("").replace(" 3 2 1 0", " 3 2 2 0")), "line 1: 2 for a defect second; expected 0 or 1");
    assert_eq!(
        mistake(&levels("").replace(" 1 0 16", " 1 0 17")),
        "line 1: 17 far violations; expected 1 to 8 for each of 2 far blocks"
    );
    assert_eq!(
        mistake(&levels("+TCM3.trace=x")),
        "line 1: \"+TCM3.trace=x\" is not a change; expected +NAME, -NAME, head= or a trace"
    );
}

#[test]
fn fault_causes_are_told_with_the_figures() {
    let told = |svg: &str, begin: &str| figures(svg, begin)[8..].join("; ");
    // Names of other kinds, the head and the traces are no causes, whatever is in a trace.
    let svg = drawn(&explanation(2, "+dLOF +SM.aBDI -cLOM +PM.cTIM head=3 SM.trace=\"a +cLOF <b> & \" -PM.trace"));
    assert_eq!(told(&svg, "second 2\n"), "frame 5: -cLOM +PM.cTIM");
    assert_eq!(told(&drawn(&explanation(2, "+cLOF -SM.trace")), "second 2\n"), "frame 5: +cLOF");
    assert_eq!(figures(&drawn(&explanation(2, "head=3")), "second 2\n").len(), 8);
    assert_eq!(figures(&drawn(&explanation(2, "PM.trace=\"x y\"")), "second 2\n").len(), 8);
    // Of seconds that share a column each has its number, and six frames are told.
    assert_eq!(
        told(&drawn(&explanation(1_800, "+cLOF")), "seconds 3 to 4:"),
        "second 3, frame 5: +cLOF; second 4, frame 5: +cLOF"
    );
    let svg = drawn(&explanation(7_200, "+cLOF"));
    assert_eq!(figures(&svg, "seconds 1 to 8:").len(), 15);
    assert_eq!(*figures(&svg, "seconds 1 to 8:").last().unwrap(), "and 2 frames more with fault causes");
}

#[test]
fn a_range_of_seconds() {
    let text = listing(5_000, &[(10, 1), (2_000, 3), (2_001, 4), (4_000, 2)]);
    let svg = named("my.listing", &text, Some(2_000..=2_099));
    assert!(svg.contains(">my.listing: seconds 2,000 to 2,099 of 5,000, 1,000 frames</text>"));
    assert!(svg.contains(">2 seconds with failed frames, the first is second 2,000.</text>"));
    // The failed frames of the part, beside their bars.
    assert!(svg.contains("<text class=\"\" x=\"16\" y=\"336\">2</text>"));
    assert!(svg.contains(">A column of the picture is one second.</text>"));
    assert_eq!((head(&svg, 3), head(&svg, 4)), ([vec![(LEFT, 9)], vec![(LEFT, 9)]], [vec![(LEFT + 9, 9)], vec![(LEFT + 9, 9)]]));
    assert_eq!((head(&svg, 1)[1].len(), head(&svg, 2)[1].len(), svg.matches("class=\"pointer\"").count()), (0, 0, 100));
    // The axis has the numbers of the listing.
    for label in [">2,000</text>", ">0:33:20</text>", ">2,010</text>", ">2,090</text>"] {
        assert!(svg.contains(label), "{label}");
    }
    // Either end may be left out, and the last may be past the end.
    let to_the_end = named("my.listing", &text, Some(4_900..=u64::MAX));
    assert!(to_the_end.contains(">my.listing: seconds 4,900 to 5,000 of 5,000, 1,010 frames</text>"));
    assert!(named("my.listing", &text, Some(1..=1)).contains(">my.listing: second 1 of 5,000, 10 frames</text>"));
    assert!(named("my.listing", &text, Some(1..=9_999)) == drawn(&text));
    let none = |text: &str, range| page("my.listing", &read(text).unwrap(), Some(range)).unwrap_err();
    assert_eq!(none(&text, 5_001..=6_000), "no second from 5,001 on; the listing has 5,000 seconds");
    assert_eq!(none("E 0 0\n", 1..=6_000), "no second from 1 on; the listing has 0 seconds");
}

#[test]
fn the_end_of_the_record_is_where_the_last_second_is() {
    let text = listing(50, &[]).replace("E 50 500", "R 15 1234\nE 50 507");
    for (range, lines) in [(1..=49, 0), (30..=50, 1)] {
        let svg = named("my.listing", &text, Some(range));
        assert_eq!((rects(&svg, "end").len(), svg.matches("7 frames after the last mark").count()), (lines, lines));
        assert!(svg.contains("The record ends after 50 seconds: refusal 15"));
    }
}

/// What `quarters` prints of so many seconds of 20 frames, clear but for those given: some seconds, a head, and the frames of each under it. They
/// make near DS, under heads 1 to 5 of section and path, otherwise of the path.
fn quarters(seconds: u64, failed: &[(RangeInclusive<u64>, usize, u64)]) -> String {
    let mut text = String::new();
    let mut open = [('Q', 900, [0; 23]), ('D', 86_400, [0; 23])];
    for number in 1..=seconds {
        let mut second = [0; 23];
        second[..4].copy_from_slice(&[number, 1, 20, 20]);
        for (_, head, frames) in failed.iter().filter(|(at, _, _)| at.contains(&number)) {
            second[3] -= frames;
            second[3 + head] += frames;
            second[15] = u64::from(*head < 6);
            second[20] = 1;
        }
        for (letter, length, sums) in &mut open {
            sums[0] = if sums[1] == 0 { number } else { sums[0] };
            (1..23).for_each(|i| sums[i] += second[i]);
            if sums[1] == *length || number == seconds {
                text += &summed(*letter, (number - 1) / *length, &std::mem::take(sums));
            }
        }
    }
    format!("{text}E {seconds} {}\n", 20 * seconds)
}

/// A Q or D line: the first of its 23 numbers, zeros for the others.
fn summed(letter: char, number: u64, sums: &[u64]) -> String {
    let sums: Vec<String> = (0..23).map(|i| sums.get(i).unwrap_or(&0).to_string()).collect();
    format!("{letter} {number} {}\n", sums.join(" "))
}

/// The rectangles of a class that are so high: x and width.
fn of_height(svg: &str, class: &str, height: usize) -> Vec<(usize, usize)> {
    rects(svg, class).iter().filter(|r| r[3] == height).map(|r| (r[0], r[2])).collect()
}

/// Quarter-hour 1 fails, of quarter-hour 5 ten seconds, of the last one a frame of its last second.
fn a_bad_day() -> String {
    quarters(86_400, &[(901..=1_800, 1, 20), (5_000..=5_009, 3, 20), (86_400..=86_400, 9, 1)])
}

#[test]
fn a_day_of_quarter_hours() {
    let svg = named("my.quarters", &a_bad_day(), None);
    // Nine pixels each. The shade tells how many frames are under the head: all, and 200 or one of 18,000.
    let place = |number: usize| vec![(LEFT + 9 * number, 9)];
    for (class, number) in [("h1", 1), ("h3 s1", 5), ("h9 s1", 95)] {
        assert_eq!(shade(&svg, class), [place(number), place(number)], "{class}");
    }
    assert_eq!(head(&svg, 0)[0], [(LEFT, 9), (LEFT + 18, 27), (LEFT + 54, 801)]);
    // Strips of DS, of the section and of the path; near ones alone.
    assert_eq!(of_height(&svg, "ds", 8), [place(1), place(1)].concat());
    assert_eq!(of_height(&svg, "ds s1", 8), [place(5), place(5), place(95)].concat());
    // The day: head 1 is its worst, and a hundredth of its frames fail.
    assert_eq!(of_height(&svg, "h1 s1", 18), [(LEFT, 863)]);
    for words in [
        "my.quarters: 96 quarter-hours, 1,728,000 frames",
        "3 quarter-hours with failed frames, the first is quarter-hour 1.",
        "A column of the picture is one quarter-hour.",
        "day 0: head 1",
        "1 q",
        "18,201",
        "DS in 910 seconds",
        "DS in 911 seconds",
        "88",
        "22:00",
        "time at its beginning, h:mm",
    ] {
        assert!(svg.contains(&format!(">{words}</text>")), "{words}");
    }
    assert!(svg.contains(">Shade: how many frames are under the head, ") && !svg.contains("The last quarter-hour"));
    let figures_of = |begin: &str| figures(&svg, begin).join("; ");
    assert_eq!(
        figures_of("quarter-hour 5,"),
        "quarter-hour 5, seconds 4,501 to 5,400; 0 clear: 17,800 frames; 3 loss of frame (dLOF): 200 frames; \
         section near blocks: 0, DS in 10 of 900 seconds; section far blocks: 0; section far violations: 0; \
         path near blocks: 0, DS in 10 of 900 seconds; path far blocks: 0; path far violations: 0"
    );
    assert_eq!(
        figures_of("day 0,"),
        "day 0, seconds 1 to 86,400; 0 clear: 1,709,799 frames; 1 line signal fail (TSF-P): 18,000 frames; \
         3 loss of frame (dLOF): 200 frames; 9 path trace mismatch: 1 frame; \
         section near blocks: 0, DS in 910 of 86,400 seconds; section far blocks: 0; section far violations: 0; \
         path near blocks: 0, DS in 911 of 86,400 seconds; path far blocks: 0; path far violations: 0"
    );
    assert_eq!(svg.matches("class=\"pointer\"").count(), 97);
}

#[test]
fn quarter_hours_have_their_bars_and_far_figures() {
    // Near and far of section and path: blocks by powers of ten, DS in 900, 675, 450 and 1 of 900 seconds, and far violations.
    let layers = [[1, 100, 900, 675, 100], [10_000, 100_000_000, 450, 1, 100_000_000]];
    let sums = [&[1, 900, 360_000_000, 360_000_000, 0, 0, 0, 0, 0, 0, 0, 0, 0][..], layers.as_flattened()].concat();
    let svg = drawn(&format!("{}{}E 900 360000000\n", summed('Q', 0, &sums), summed('D', 0, &sums)));
    // Nine steps of 6.2 pixels: 1, 10, 100 and so on to 100,000,000.
    assert_eq!(rects(&svg, "bar").iter().map(|r| r[3]).collect::<Vec<_>>(), [6, 19, 19, 31, 56, 56]);
    assert_eq!(["ds", "ds s3", "ds s2", "ds s1"].map(|class| of_height(&svg, class, 8).len()), [1, 1, 1, 1]);
    assert_eq!(
        figures(&svg, "quarter-hour 0,")[2..].join("; "),
        "section near blocks: 1, DS in 900 of 900 seconds; section far blocks: 100, DS in 675 of 900 seconds; \
         section far violations: 100; path near blocks: 10,000, DS in 450 of 900 seconds; \
         path far blocks: 100,000,000, DS in 1 of 900 seconds; path far violations: 100,000,000"
    );
    // One column: the day is as narrow.
    assert!(!svg.contains(">day 0: ") && of_height(&svg, "h0", 18) == [(LEFT, 59)]);
}

#[test]
fn quarter_hours_without_frames_are_blank() {
    let sums = [1, 900];
    let svg = drawn(&format!("{}{}{}E 901 3\n", summed('Q', 0, &sums), summed('Q', 1, &[901, 1]), summed('D', 0, &[1, 901])));
    for class in ["h0", "h1", "bar", "ds"] {
        assert_eq!(rects(&svg, class).len(), 0, "{class}");
    }
    assert!(
        svg.contains(">day 0: no frames</text>") && svg.contains(">3 frames after the last mark: not in the picture.</text>")
    );
    assert_eq!(figures(&svg, "quarter-hour 1,")[0], "quarter-hour 1, second 901");
}

#[test]
fn what_is_left_of_a_quarter_hour() {
    let svg = drawn(&quarters(902, &[(901..=901, 1, 20)]).replace("E 902 18040", "R 15 3758\nE 902 18045"));
    assert_eq!(shade(&svg, "h1 s2"), [vec![(LEFT + 60, 60)], vec![(LEFT + 60, 60)]]);
    assert_eq!(of_height(&svg, "h1 s1", 18), [(LEFT, 119)]);
    assert_eq!(rects(&svg, "end").iter().map(|r| r[0]).collect::<Vec<_>>(), [LEFT + 120]);
    for words in [
        "The last quarter-hour, 1, has 2 of its 900 seconds.",
        "5 frames after the last mark: not in the picture.",
        "The record ends after 902 seconds: refusal 15 (kind unknown, or length wrong for it) at byte 3,758.",
    ] {
        assert!(svg.contains(&format!(">{words}</text>")), "{words}");
    }
    assert_eq!(figures(&svg, "quarter-hour 1,")[0], "quarter-hour 1, seconds 901 to 902");
    assert_eq!(figures(&svg, "day 0,")[0], "day 0, seconds 1 to 902");
    // A trace that ends with a quarter-hour has none left.
    assert!(!drawn(&quarters(1_800, &[])).contains("The last quarter-hour"));
}

#[test]
fn quarter_hours_of_many_days_share_columns() {
    // Ten days: two quarter-hours to a pixel, 48 pixels to a day. One frame fails, of quarter-hour 5, and day 8 fails.
    let svg = drawn(&quarters(864_000, &[(5_000..=5_000, 3, 1), (8 * 86_400 + 1..=9 * 86_400, 2, 20)]));
    assert_eq!(shade(&svg, "h3 s1"), [vec![(LEFT + 2, 2)], vec![(LEFT + 2, 2)]]);
    assert_eq!(head(&svg, 2), [vec![(LEFT + 384, 48)], vec![(LEFT + 384, 48)]]);
    assert_eq!((of_height(&svg, "h3 s1", 18), of_height(&svg, "h2", 18)), (vec![(LEFT, 47)], vec![(LEFT + 384, 47)]));
    assert_eq!(of_height(&svg, "h0", 18).len(), 8);
    let days: Vec<_> = of_height(&svg, "pointer", 18);
    assert_eq!(days, (0..10).map(|day| (LEFT + 48 * day, 48)).collect::<Vec<_>>());
    let begins = [
        "quarter-hours 4 to 5, seconds 3,601 to 5,400: 1 of 2 with failed frames",
        "0 clear: 35,999 frames in 2 of 2 quarter-hours",
    ];
    assert_eq!(figures(&svg, "quarter-hours 4 to 5,")[..2], begins);
    assert_eq!(figures(&svg, "quarter-hours 4 to 5,")[2], "3 loss of frame (dLOF): 1 frame in 1 of 2 quarter-hours");
    assert_eq!(figures(&svg, "quarter-hours 4 to 5,")[3], "section near blocks: 0, DS in 1 of 1,800 seconds");
    let words =
        "A column of the picture holds 2 quarter-hours; the worst of them is shown, its shade tells how many frames fail.";
    assert!(svg.contains(&format!(">{words}</text>")));
    // Where a day is less than a pixel it still has its place, and no label stands on another.
    for all in [1, 3, 97, 901, 2_000, 90_000] {
        let lines = |number: u64| {
            let day =
                if number % 96 == 95 || number + 1 == all { summed('D', number / 96, &day_until(number)) } else { String::new() };
            summed('Q', number, &[900 * number + 1, 900]) + &day
        };
        let svg = drawn(&((0..all).map(lines).collect::<String>() + &format!("E {} 0\n", 900 * all)));
        assert_eq!(of_height(&svg, "pointer", 18).len() as u64, all.div_ceil(96));
        assert!(of_height(&svg, "pointer", 18).iter().all(|(x, w)| *w > 0 && x + w <= LEFT + 901), "{all}");
        let labels: Vec<usize> = axis_labels(&svg);
        assert!(!labels.is_empty() && labels.windows(2).all(|two| two[0] + 60 <= two[1]), "{all}: {labels:?}");
    }
}

/// First second and length of the day up to a whole quarter-hour.
fn day_until(quarter: u64) -> [u64; 2] {
    [86_400 * (quarter / 96) + 1, 900 * (quarter % 96 + 1)]
}

#[test]
fn a_range_of_quarter_hours() {
    let text = a_bad_day();
    let part = |range| named("my.quarters", &text, Some(range));
    // Those that have a second of the range.
    assert!(part(4_501..=5_400).contains(">my.quarters: quarter-hour 5 of 96, 18,000 frames</text>"));
    let svg = part(4_500..=5_401);
    assert!(svg.contains(">my.quarters: quarter-hours 4 to 6 of 96, 54,000 frames</text>"));
    assert!(svg.contains(">1 quarter-hour with failed frames, the first is quarter-hour 5.</text>"));
    assert_eq!(shade(&svg, "h3 s1"), [vec![(LEFT + 60, 60)], vec![(LEFT + 60, 60)]]);
    // Of its day stands what its line tells.
    assert_eq!(of_height(&svg, "h1 s1", 18), [(LEFT, 179)]);
    assert_eq!(figures(&svg, "day 0,")[0], "day 0, seconds 1 to 86,400");
    assert!(part(1..=u64::MAX) == named("my.quarters", &text, None));
    let none = |text: &str, range| page("my.quarters", &read(text).unwrap(), Some(range)).unwrap_err();
    assert_eq!(none(&text, 86_401..=u64::MAX), "no second from 86,401 on; the listing has 86,400 seconds");
    assert_eq!(none(&quarters(902, &[]), 903..=1_000), "no second from 903 on; the listing has 902 seconds");
    let svg = named("my.quarters", &quarters(902, &[]), Some(902..=1_000));
    assert!(svg.contains(">my.quarters: quarter-hour 1 of 2, 40 frames</text>"));
}

#[test]
fn mistakes_in_quarter_hours() {
    let q = |number: u64, sums: &[u64]| summed('Q', number, sums);
    let d = |number: u64, sums: &[u64]| summed('D', number, sums);
    let (first, rest) = (q(0, &[1, 900]), q(0, &[1, 2]));
    let [filed, ended] = [q(0, &[1, 900, 5, 3, 2]), d(0, &[1, 900, 5, 3, 2])];
    let begins = |letter: char, expected: &str| format!("\"{letter}\" begins the line; expected {expected}");
    let told: Vec<(&str, String, String)> = vec![
        (&first, "E 900 0".into(), begins('E', "Q or D")),
        (&first, "R 15 4".into(), begins('R', "Q or D")),
        (&first, listing(1, &[]), begins('S', "Q or D")),
        (&first, q(2, &[1_801, 900]), "quarter-hour 2; expected 1".into()),
        (&first, q(0, &[1, 900]), "quarter-hour 0; expected 1".into()),
        (&first, q(1, &[900, 900]), "first second 900; expected 901".into()),
        (&first, q(1, &[901, 0]), "0 seconds; expected 1 to 900".into()),
        (&first, q(1, &[901, 901]), "901 seconds; expected 1 to 900".into()),
        (&first, "Q 1 901".into(), "2 numbers; expected 24".into()),
        (&first, q(1, &[901, 2]).replace(" 901 ", " x "), "\"x\" is not a number; expected digits".into()),
        (&first, q(1, &[901, 2, 800_001, 800_001]), "800,001 frames; expected at most 800,000".into()),
        (&first, q(1, &[901, 2, 9, 4, 4]), "8 frames under the ten heads; expected 9, the quarter-hour's".into()),
        (
            &first,
            q(1, &[901, 2, 1, 1, 0, 0, 0, 0, 0, 0, 0, 0, 0, 0, 2]),
            "2 blocks; expected at most 1, the quarter-hour's frames".into(),
        ),
        (
            &first,
            q(1, &[901, 2, 0, 0, 0, 0, 0, 0, 0, 0, 0, 0, 0, 0, 0, 0, 0, 0, 0, 0, 0, 3]),
            "3 defect seconds; expected at most 2, the quarter-hour's".into(),
        ),
        (
            &first,
            q(1, &[901, 2, 1, 1, 0, 0, 0, 0, 0, 0, 0, 0, 0, 0, 1, 0, 0, 9]),
            "9 far violations; expected 1 to 8 for each of 1 far block".into(),
        ),
        (&first, d(1, &[1, 900]), "day 1; expected 0".into()),
        (&first, d(0, &[2, 900]), "first second: 2; expected 1, by the Q lines of the day".into()),
        (&first, d(0, &[1, 899]), "length: 899; expected 900, by the Q lines of the day".into()),
        (&filed, d(0, &[1, 900, 6, 3, 3]), "frames: 6; expected 5, by the Q lines of the day".into()),
        (&filed, d(0, &[1, 900, 5, 2, 3]), "head 0: 2; expected 3, by the Q lines of the day".into()),
        (
            &first,
            d(0, &[1, 900, 0, 0, 0, 0, 0, 0, 0, 0, 0, 0, 0, 0, 0, 0, 7]),
            "section far DS: 7; expected 0, by the Q lines of the day".into(),
        ),
        (
            &first,
            d(0, &[1, 900, 0, 0, 0, 0, 0, 0, 0, 0, 0, 0, 0, 0, 0, 0, 0, 7]),
            "section far violations: 7; expected 0, by the Q lines of the day".into(),
        ),
        (
            &first,
            d(0, &[1, 900, 0, 0, 0, 0, 0, 0, 0, 0, 0, 0, 0, 0, 0, 0, 0, 0, 7]),
            "path near blocks: 7; expected 0, by the Q lines of the day".into(),
        ),
        // What is not whole is the last.
        (&rest, q(1, &[901, 2]), begins('Q', "D")),
        (&rest, "E 2 0".into(), begins('E', "D")),
        (&first, String::new(), "the listing ends; expected E".into()),
    ];
    for (before, line, message) in told {
        assert_eq!(read(&format!("{before}{line}")).expect_err("a mistake"), format!("line 2: {message}"));
    }
    let after = |before: &str, line: &str| read(&format!("{before}{line}")).unwrap_err();
    let rest = rest + &d(0, &[1, 2]);
    assert_eq!(after(&rest, &q(1, &[901, 2])), "line 3: \"Q\" begins the line; expected R or E");
    assert_eq!(after(&rest, &d(1, &[901, 2])), "line 3: \"D\" begins the line; expected R or E");
    assert_eq!(after(&rest, "R 15 9\nQ 1"), "line 4: \"Q\" begins the line; expected E after R");
    assert_eq!(after(&rest, "R 20 9\nE 2 0"), "line 3: refusal 20; expected 1 to 19");
    assert_eq!(after(&rest, "E 3 0"), "line 3: 3 marks; expected 2, the seconds of the Q lines");
    assert_eq!(after(&(filed + &ended), "E 900 4"), "line 3: 4 frames; expected at least 5, those of the Q lines");
    // A whole day, and what comes where.
    let day = quarters(86_400, &[]);
    let (day, _) = day.split_once('E').unwrap();
    assert_eq!(after(day, "D 1"), "line 98: \"D\" begins the line; expected Q, R or E");
    let without: String = day.lines().take(96).map(|line| format!("{line}\n")).collect();
    assert_eq!(after(&without, &q(96, &[86_401, 900])), "line 97: \"Q\" begins the line; expected D");
    // Seconds and quarter-hours do not stand in one listing.
    assert_eq!(read("D 0").unwrap_err(), "line 1: \"D\" begins the line; expected S, F, Q, R or E");
    assert_eq!(read("F 1 2 2 +IF\nQ 0").unwrap_err(), "line 2: \"Q\" begins the line; expected S, F, R or E");
    let seconds = second(1, 9, (0, 0), [0; 10]);
    assert_eq!(after(&seconds, "Q 0"), "line 2: \"Q\" begins the line; expected S, F, R or E");
}

#[test]
fn the_day_among_the_examples_is_that_of_its_scenario() {
    let [scenario, text, svg] = [
        include_str!("../../examples/quarters/day.txt"),
        include_str!("../../examples/quarters/day.quarters"),
        include_str!("../../examples/quarters/day.svg"),
    ];
    let mut trace = Vec::new();
    tools::scenario::read(scenario).unwrap().write(&mut trace).unwrap();
    assert!(second::summary::quarters(&trace) == text, "by the second program");
    assert!(named("day.quarters", text, None) == svg, "draw it again: see docs/BENCH.md");
    let told = figures(svg, "quarter-hour 50,").join("; ");
    assert!(
        told.starts_with("quarter-hour 50, seconds 45,001 to 45,900; 0 clear: 1,790 frames; 6 path AIS (dAIS): 10 frames; "),
        "{told}"
    );
    assert!(told.ends_with("path near blocks: 0, DS in 5 of 900 seconds; path far blocks: 0; path far violations: 0"), "{told}");
    assert!(figures(svg, "quarter-hour 83,").ends_with(&["path far blocks: 1,200", "path far violations: 2,400"]));
    assert_eq!(figures(svg, "day 1,")[..2], ["day 1, seconds 86,401 to 86,700", "0 clear: 600 frames"]);
}

#[test]
fn the_picture_names_its_listing() {
    let svg = named("<a> & \"b\".listing", "E 0 0\n", None);
    let title = "&lt;a&gt; &amp; &quot;b&quot;.listing: 0 seconds, 0 frames";
    assert!(svg.contains(&format!("<title>{title}</title>")) && svg.contains(&format!(">{title}</text>")));
    // A control character has no place in XML; a name that is too long for the page is cut.
    assert!(named("a\u{1}\nb", "E 0 0\n", None).contains("<title>a..b: 0 seconds"));
    assert!(named(&"n".repeat(200), "E 0 0\n", None).contains(&format!("<title>{}...: 0 seconds", "n".repeat(60))));
}

/// The program's standard output, standard error and status.
fn program(args: &[&str], input: &str) -> (String, String, Option<i32>) {
    let mut child = Command::new(env!("CARGO_BIN_EXE_timeline"));
    let mut child = child.args(args).stdin(Stdio::piped()).stdout(Stdio::piped()).stderr(Stdio::piped()).spawn().unwrap();
    let mut stdin = child.stdin.take().unwrap();
    // A program that ends without reading closes the pipe: no failure of the test.
    let _ = stdin.write_all(input.as_bytes());
    drop(stdin);
    let out = child.wait_with_output().unwrap();
    (String::from_utf8(out.stdout).unwrap(), String::from_utf8(out.stderr).unwrap(), out.status.code())
}

/// What the program says where it draws nothing: on standard error, and the status.
fn refused(args: &[&str], input: &str) -> (String, Option<i32>) {
    let (out, told, status) = program(args, input);
    assert!(out.is_empty(), "{args:?}");
    (told, status)
}

#[test]
fn the_program() {
    assert_eq!(program(&[], "E 0 0\n"), (named("standard input", "E 0 0\n", None), String::new(), Some(0)));
    // The page names the file without its folders.
    let file = format!("{EXAMPLES}/minute.listing");
    assert!(program(&[&file], "") == (minute(), String::new(), Some(0)));
    let text = example("minute.listing");
    let ranges: [(&[&str], _); 4] = [
        (&["--from", "10", "--to", "20"], 10..=20),
        (&["--to", "20"], 1..=20),
        (&["--from", "60"], 60..=60),
        (&["--from", "1", "--to", "99", "--from", "7"], 7..=60),
    ];
    for (args, range) in ranges {
        let svg = named("minute.listing", &text, Some(range));
        assert!(program(&[args, &[&file]].concat(), "") == (svg.clone(), String::new(), Some(0)), "{args:?}");
        assert!(program(&[&[file.as_str()], args].concat(), "").0 == svg, "{args:?}");
        assert!(program(args, &text).0 == svg.replace("minute.listing", "standard input"), "{args:?}");
    }
}

#[test]
fn the_program_names_the_text_of_a_mistake() {
    assert_eq!(refused(&[], "E 1 0\n"), ("standard input: line 1: 1 mark; expected 0, the S lines\n".into(), Some(1)));
    let file = format!("{EXAMPLES}/minute.txt");
    assert_eq!(refused(&[&file], ""), (format!("{file}: line 1: \"#\" begins the line; expected S, F, Q, R or E\n"), Some(1)));
    let file = format!("{EXAMPLES}/minute.listing");
    assert_eq!(
        refused(&["--from", "61", &file], ""),
        (format!("{file}: no second from 61 on; the listing has 60 seconds\n"), Some(1))
    );
    let (told, status) = refused(&["no such file"], "");
    assert!(told.starts_with("no such file: ") && status == Some(1), "{told}");
}

#[test]
fn the_program_tells_its_usage() {
    let usage = "timeline [--from N] [--to M] [FILE] > SVG: draws the listing, explanation or quarter-hours in FILE, or on standard input\n";
    for help in [&["-h"][..], &["--help"], &["--from", "--help"]] {
        let (out, told, status) = program(help, "");
        assert!(out.starts_with(usage) && out.contains("docs/BENCH.md") && out.lines().count() < 10, "{out}");
        assert_eq!((told.as_str(), status), ("", Some(0)));
    }
    let told = [
        (&["--width", "3"][..], "\"--width\" is not an option"),
        (&["-"], "\"-\" is not an option"),
        (&["a", "b"], "\"b\" is a second file; expected one at most"),
        (&["--from"], "--from ends the line; expected a number after it"),
        (&["--to", "x"], "--to \"x\"; expected a number from 1"),
        (&["--from", "0"], "--from \"0\"; expected a number from 1"),
        (&["--from", "-3"], "--from \"-3\"; expected a number from 1"),
        (&["--from", "9", "--to", "8"], "--from 9 is after --to 8; expected the earlier second first"),
    ];
    for (args, mistake) in told {
        assert_eq!(refused(args, "E 0 0\n"), (format!("{mistake}\n{usage}"), Some(2)));
    }
}
