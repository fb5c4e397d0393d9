//! Timeline: a listing, an explanation, or quarter-hours and days, to one SVG page, time from left to right.
//!
//! From the top: a band of the worst head, with days a second one of theirs, a lane for each of the nine failed heads, then failed frames and
//! the near and far blocks and the far violations of section and path, and of each provisioned tandem level, as bars, with defect seconds as
//! a strip under the blocks. Where there are more seconds than columns of pixels, several share a column, and the worst of them is shown, so
//! that no failed second disappears; the shade tells how many of them fail. Of quarter-hours it tells how much of them: how many frames are
//! under a head, how many seconds are defect seconds. What an explanation tells of fault causes is told with the figures of a column.

pub use crate::listing::read;
use crate::listing::{row_at, Causes, Listing, Span, Unit, ALWAYS, HEAD};
use crate::program::{commas, cut, plural, printable};
use std::fmt::Write;
use std::ops::RangeInclusive;

const WIDTH: usize = 1_200;
/// Where the columns begin, and the pixels that they may take.
const LEFT: usize = 270;
const PLOT: usize = 900;
/// The widest column of one second or quarter-hour.
const WIDEST: usize = 60;

const BAND: usize = 96;
const BAND_HEIGHT: usize = 30;
const LANES: usize = BAND + BAND_HEIGHT + 8;
const LANE: usize = 16;
const ROWS: usize = LANES + 9 * LANE + 18;
const ROW: usize = 86;
const BAR: usize = 56;
const STRIP: usize = 8;
/// The band of the days under that of the quarter-hours, and how far what is under it is moved down.
const DAYS: usize = BAND + BAND_HEIGHT + 4;
const DAY_HEIGHT: usize = 18;
const DOWN: usize = DAY_HEIGHT + 4;
/// Where the notes begin, under the axis.
const NOTES: usize = 56;

const HEADS: [&str; 10] = [
    "clear",
    "line signal fail (TSF-P)",
    "OTUk-AIS",
    "loss of frame (dLOF)",
    "loss of multiframe (dLOM)",
    "section trace mismatch",
    "path AIS (dAIS)",
    "open connection (dOCI)",
    "locked (dLCK)",
    "path trace mismatch",
];

/// Colours of the heads. Near Tol's muted set: any two are at least 18 apart (CIE 1976) to normal eyes and to those that lack red, green
/// or blue. Lanes and digits say the same without colour.
const COLOURS: [u32; 10] = [0xececec, 0x882255, 0xdb5273, 0x332288, 0x62ccfc, 0x117733, 0xddbb33, 0x3da693, 0x888811, 0xab4998];

/// The colour of the bars.
const GREY: u32 = 0x444444;

/// What is left of a colour, in hundredths, where up to a quarter of the seconds in a column have it, up to a half, up to three quarters, or
/// more. The rest is white.
const SHADES: [u32; 4] = [40, 60, 80, 100];

/// What is said of them under the picture: of seconds that share a column, and of quarter-hours.
const SHADE: &str =
    "Shade: how many seconds of the column have it, in the band how many fail: up to a quarter, up to a half, up to three quarters, more.";
const SHADE_OF_FRAMES: &str = "Shade: how many frames are under the head, in a band how many fail, beside DS how many seconds: \
    up to a quarter, up to a half, up to three quarters, more.";

/// A mark that has no other so many pixels to the left or right is at least two pixels wide.
const ALONE: usize = 8;

/// A line of the full colour, so high, is under each paler mark and on top of each paler bar: a lone second of many is seen.
const EDGE: usize = 3;

/// The most lines of fault causes among the figures of a column.
const CAUSES: usize = 6;

const REFUSALS: [&str; 19] = [
    "overhead not 64 bytes",
    "flags above 3",
    "a violation count above 8",
    "a second with more than 400,000 frames, or too many seconds",
    "k not 1 to 3",
    "DEGThr out of range",
    "DEGM not 2 to 10",
    "trace mode above 3",
    "TIMActDis byte above 2",
    "expected names not 32 bytes",
    "layer not 0 or 1",
    "lent trace buffer not 64 bytes",
    "no accepted trace",
    "trace record cut",
    "kind unknown, or length wrong for it",
    "first record not a provisioning, or a later one is, or a level is provisioned after a frame or a mark",
    "handed-in supervisor not in order",
    "level not 1 to 6, or given twice",
    "frames with and without the levels' counts",
];

/// What a mark or a bar is of.
#[derive(Clone, Copy)]
enum Of {
    Failed,
    Head(usize),
    /// A row of bars, and the strip under it, if it has one.
    Bar(usize),
    Ds(usize),
}

impl Of {
    /// The number of frames, blocks, violations or defect seconds.
    fn number(self, s: &Span) -> u64 {
        match self {
            Of::Failed | Of::Bar(0) => s[1] - s[HEAD],
            Of::Head(head) => s[HEAD + head],
            Of::Bar(row) => s[row_at(row).0],
            Of::Ds(row) => row_at(row).1.map_or(0, |at| s[at]),
        }
    }
    fn stands(self, s: &Span) -> bool {
        self.number(s) > 0
    }
}

/// Those of one column of pixels, or one day.
#[derive(Clone, Copy)]
struct Column<'a> {
    unit: Unit,
    spans: &'a [Span],
    seconds: u64,
}

impl Column<'_> {
    fn with(&self, of: Of) -> u64 {
        self.spans.iter().filter(|s| of.stands(s)).count() as u64
    }
    fn sum(&self, of: Of) -> u64 {
        self.spans.iter().map(|s| of.number(s)).sum()
    }
    /// How many of the seconds have it, in quarters, rounded up: 1 to 4; none where no second does. Of quarter-hours and of a day: how many
    /// of the frames, or of the seconds for DS.
    fn shade(&self, of: Of) -> Option<usize> {
        let (part, all) = match (self.unit, of) {
            (Unit::Second, _) | (_, Of::Bar(_)) => (self.with(of), self.spans.len() as u64),
            (_, Of::Ds(_)) => (self.sum(of), self.seconds),
            (_, Of::Failed | Of::Head(_)) => (self.sum(of), self.spans.iter().map(|s| s[1]).sum()),
        };
        (part > 0).then(|| (4 * part).div_ceil(all) as usize)
    }
    /// 1 is the worst, then 2 and so on to 9, then clear; none where there are no frames.
    fn worst(&self) -> Option<usize> {
        (1..=9).chain([0]).find(|head| self.with(Of::Head(*head)) > 0)
    }
    fn highest(&self, row: usize) -> u64 {
        self.spans.iter().map(|s| Of::Bar(row).number(s)).max().unwrap_or(0)
    }
    fn first(&self) -> u64 {
        self.spans[0][0]
    }
    fn last(&self) -> u64 {
        self.spans[self.spans.len() - 1][0]
    }
    /// Where several share the column, how many of them: "before 1 of 5 after".
    fn share(&self, before: &str, of: Of, after: &str) -> String {
        match self.spans.len() {
            1 => String::new(),
            all => format!("{before}{} of {}{after}", commas(self.with(of)), commas(all as u64)),
        }
    }

    /// Which they are.
    fn place(&self) -> String {
        let name = self.unit.name();
        let own = match self.spans.len() {
            1 => format!("{name} {}", commas(self.first())),
            _ => format!("{name}s {} to {}", commas(self.first()), commas(self.last())),
        };
        let first = self.unit.first(self.first());
        match (self.unit, self.seconds) {
            (Unit::Second, _) => own,
            (_, 1) => format!("{own}, second {}", commas(first)),
            (_, seconds) => format!("{own}, seconds {} to {}", commas(first), commas(first + seconds - 1)),
        }
    }

    /// Where it is a defect second; of quarter-hours and of a day, in how many seconds.
    fn ds(&self, row: usize) -> String {
        let of = Of::Ds(row);
        match self.unit {
            _ if self.with(of) == 0 => String::new(),
            Unit::Second => format!(", DS{}", self.share(" in ", of, " seconds")),
            _ => format!(", DS in {} of {}", commas(self.sum(of)), plural(self.seconds, "second")),
        }
    }

    /// What a pointer that rests on the column is told.
    fn words(&self, listing: &Listing) -> String {
        let mut text = self.place();
        text += &self.share(": ", Of::Failed, " with failed frames");
        for (head, words) in HEADS.iter().enumerate() {
            let frames = self.sum(Of::Head(head));
            if frames > 0 {
                let share = self.share(" in ", Of::Head(head), &format!(" {}s", self.unit.name()));
                let _ = write!(text, "\n{head} {words}: {}{share}", plural(frames, "frame"));
            }
        }
        for row in 1..listing.rows() {
            let _ = write!(text, "\n{}: {}{}", listing.row(row), commas(self.sum(Of::Bar(row))), self.ds(row));
        }
        if self.unit == Unit::Second {
            self.tell(listing.causes(self.first(), self.last()), &mut text);
        }
        text
    }

    /// The fault causes, a line for each frame, as far as there is room.
    fn tell(&self, causes: &[Causes], text: &mut String) {
        for Causes { second, frame, words } in &causes[..causes.len().min(CAUSES)] {
            let second = if self.spans.len() > 1 { format!("second {}, ", commas(*second)) } else { String::new() };
            let _ = write!(text, "\n{second}frame {}: {words}", commas(*frame));
        }
        if causes.len() > CAUSES {
            let _ = write!(text, "\nand {} more with fault causes", plural((causes.len() - CAUSES) as u64, "frame"));
        }
    }
}

/// Seconds as h:mm:ss.
fn clock(seconds: u64) -> String {
    format!("{}:{:02}:{:02}", seconds / 3_600, seconds / 60 % 60, seconds % 60)
}

/// Where the axis has a label, and what is told of the time there: of a second its end, of a quarter-hour its beginning.
struct Axis {
    steps: &'static [u64],
    time: &'static str,
}

fn axis_of(unit: Unit) -> Axis {
    match unit {
        Unit::Second => Axis {
            steps: &[1, 2, 5, 10, 15, 30, 60, 120, 300, 600, 900, 1_800, 3_600, 7_200, 14_400, 28_800, 43_200, 86_400],
            time: "time at its end, h:mm:ss",
        },
        _ => Axis { steps: &[1, 2, 4, 8, 12, 24, 48, 96], time: "time at its beginning, h:mm" },
    }
}

fn time_of(unit: Unit, number: u64) -> String {
    match unit {
        Unit::Second => clock(number),
        _ => format!("{}:{:02}", number / 4, number % 4 * 15),
    }
}

/// Text as XML has it.
fn escaped(text: &str) -> String {
    text.replace('&', "&amp;").replace('<', "&lt;").replace('>', "&gt;").replace('"', "&quot;")
}

/// A colour in the shade of so many hundredths, the rest white.
fn shaded(colour: u32, hundredths: u32) -> u32 {
    [16, 8, 0]
        .iter()
        .fold(0, |mixed, shift| (mixed << 8) | ((colour >> shift & 255) * hundredths + 255 * (100 - hundredths) + 50) / 100)
}

/// Black or white, whichever is read better on a colour, by the contrast of WCAG.
fn digit(colour: u32) -> &'static str {
    let linear = |shift: u32| (f64::from(colour >> shift & 255) / 255.0).powf(2.2);
    let luminance = 0.2126 * linear(16) + 0.7152 * linear(8) + 0.0722 * linear(0);
    if luminance > 0.18 {
        "#000"
    } else {
        "#fff"
    }
}

/// The class of a mark in a shade, 1 to 4. The full one has no word of its own.
fn class(mark: &str, shade: usize) -> String {
    match SHADES.len() - shade {
        0 => mark.into(),
        _ => format!("{mark} s{shade}"),
    }
}

/// Runs that stand alone become two pixels wide; among others they stay as they are, or one in five would look like one in two.
fn widen<K>(runs: &mut [(usize, usize, K)]) {
    let ends: Vec<(usize, usize)> = runs.iter().map(|(x, w, _)| (*x, x + w)).collect();
    for (i, run) in runs.iter_mut().enumerate() {
        let (x, end) = ends[i];
        let before = i == 0 || ends[i - 1].1 + ALONE <= x;
        let after = ends.get(i + 1).is_none_or(|(next, _)| end + ALONE <= *next);
        if before && after {
            run.1 = run.1.max(2);
        }
    }
}

struct Page<'a> {
    svg: String,
    listing: &'a Listing,
    unit: Unit,
    /// The seconds or quarter-hours that are shown.
    spans: &'a [Span],
    columns: Vec<Column<'a>>,
    /// How many of them are in a column, and its pixels.
    share: usize,
    wide: usize,
    /// The scale of all bars ends at ten to this power, the first that is not exceeded.
    decades: u32,
}

/// The page of a listing, which it names: of all its seconds, or of those in a range.
pub fn page(name: &str, listing: &Listing, range: Option<RangeInclusive<u64>>) -> Result<String, String> {
    let unit = listing.unit();
    let spans = range.map_or(Ok(&listing.spans[..]), |range| listing.from_to(range))?;
    let share = spans.len().div_ceil(PLOT).max(1);
    let column = |spans| Column { unit, spans, seconds: listing.seconds_of(unit, spans) };
    let columns: Vec<Column> = spans.chunks(share).map(column).collect();
    let wide = (PLOT / columns.len().max(1)).min(WIDEST);
    let highest = columns.iter().flat_map(|column| (0..listing.rows()).map(|row| column.highest(row))).max().unwrap_or(0);
    let decades = (1..).find(|power| 10u64.pow(*power) >= highest).unwrap_or(1);
    let mut page = Page { svg: String::new(), listing, unit, spans, columns, share, wide, decades };
    let notes = page.notes();
    page.begin(page.axis_at() + NOTES + 17 * notes.len());
    page.title(name);
    page.axis();
    page.heads();
    for row in 0..listing.rows() {
        page.bars(row);
    }
    page.end_of_record();
    page.pointers();
    if unit == Unit::Quarter {
        page.days();
    }
    page.legend(&notes);
    Ok(page.svg + "</svg>\n")
}

impl Page<'_> {
    fn rect(&mut self, x: usize, y: usize, w: usize, h: usize, class: &str) {
        let _ = writeln!(self.svg, r#"<rect class="{class}" x="{x}" y="{y}" width="{w}" height="{h}"/>"#);
    }

    fn text(&mut self, x: usize, y: usize, class: &str, text: &str) {
        let _ = writeln!(self.svg, r#"<text class="{class}" x="{x}" y="{y}">{text}</text>"#);
    }

    /// Where the lanes, the rows of bars and the axis under them are.
    fn below(&self, place: usize) -> usize {
        place + if self.unit == Unit::Quarter { DOWN } else { 0 }
    }

    fn axis_at(&self) -> usize {
        self.below(ROWS) + self.listing.rows() * ROW
    }

    /// Where the columns end.
    fn right(&self) -> usize {
        LEFT + self.columns.len() * self.wide
    }

    /// All that is shown.
    fn all(&self) -> Column<'_> {
        Column { unit: self.unit, spans: self.spans, seconds: self.listing.seconds_of(self.unit, self.spans) }
    }

    /// Whether there are paler marks.
    fn is_shaded(&self) -> bool {
        self.share > 1 || self.unit == Unit::Quarter
    }

    /// The last second of the listing is shown, or there is none.
    fn has_the_end(&self) -> bool {
        self.spans.last().map(|s| s[0]) == self.listing.spans.last().map(|s| s[0])
    }

    /// Runs of neighbouring columns in which `key` is the same and is something: where each begins, and its pixels.
    fn runs<K: PartialEq>(&self, key: impl Fn(&Column) -> Option<K>) -> Vec<(usize, usize, K)> {
        let mut runs = Vec::new();
        let mut at = LEFT;
        for run in self.columns.chunk_by(|a, b| key(a) == key(b)) {
            let w = run.len() * self.wide;
            runs.extend(key(&run[0]).map(|key| (at, w, key)));
            at += w;
        }
        widen(&mut runs);
        runs
    }

    /// A mark in a shade.
    fn mark(&mut self, x: usize, y: usize, w: usize, h: usize, mark: &str, shade: usize) {
        self.rect(x, y, w, h, &class(mark, shade));
        if shade < SHADES.len() {
            self.rect(x, y + h - EDGE, w, EDGE, mark);
        }
    }

    /// A mark for each run of columns that have it.
    fn marks(&mut self, y: usize, h: usize, mark: &str, of: Of) {
        for (x, w, shade) in self.runs(|c| c.shade(of)) {
            self.mark(x, y, w, h, mark, shade);
        }
    }

    fn begin(&mut self, height: usize) {
        let _ = writeln!(
            self.svg,
            r#"<svg xmlns="http://www.w3.org/2000/svg" width="{WIDTH}" height="{height}" viewBox="0 0 {WIDTH} {height}">"#
        );
        self.svg += "<style>\ntext { font-family: sans-serif; font-size: 12px; fill: #000 }\n\
            .big { font-size: 18px; font-weight: bold }\n.name { font-weight: bold }\n.small { font-size: 10px; fill: #444 }\n\
            .right { text-anchor: end }\n.scale { font-size: 10px; text-anchor: end; fill: #444 }\n.middle { text-anchor: middle }\n\
            .page { fill: #fff }\n.grid { fill: #d8d8d8 }\n.line { fill: #888 }\n.ds { fill: #000 }\n.strip { fill: #f4f4f4 }\n\
            .end { fill: #c00 }\n.told { fill: #c00; font-weight: bold }\n.pointer { fill-opacity: 0 }\n";
        let _ = writeln!(self.svg, ".bar {{ fill: #{GREY:06x} }}");
        for (head, colour) in COLOURS.iter().enumerate() {
            let digit = digit(*colour);
            let _ = writeln!(
                self.svg,
                ".h{head} {{ fill: #{colour:06x} }} .d{head} {{ fill: {digit}; text-anchor: middle; font-weight: bold }}"
            );
        }
        if self.is_shaded() {
            self.shades();
        }
        self.svg += "</style>\n";
        self.rect(0, 0, WIDTH, height, "page");
    }

    /// The paler colours of the bars, of defect seconds and of the failed heads.
    fn shades(&mut self) {
        for (i, hundredths) in SHADES.into_iter().take(SHADES.len() - 1).enumerate() {
            let shade = i + 1;
            let (bar, ds) = (shaded(GREY, hundredths), shaded(0, hundredths));
            let _ = writeln!(self.svg, ".bar.s{shade} {{ fill: #{bar:06x} }} .ds.s{shade} {{ fill: #{ds:06x} }}");
            for (head, colour) in COLOURS.iter().enumerate().skip(1) {
                let colour = shaded(*colour, hundredths);
                let digit = digit(colour);
                let _ = writeln!(self.svg, ".h{head}.s{shade} {{ fill: #{colour:06x} }} .d{head}.s{shade} {{ fill: {digit} }}");
            }
        }
    }

    /// What is shown, and its frames; of a whole listing all its frames.
    fn extent(&self) -> String {
        let (name, all) = (self.unit.name(), self.listing.spans.len());
        if self.spans.len() == all {
            return format!("{}, {}", plural(all as u64, name), plural(self.listing.frames, "frame"));
        }
        let frames = plural(self.spans.iter().map(|s| s[1]).sum(), "frame");
        match self.spans {
            [one] => format!("{name} {} of {}, {frames}", commas(one[0]), commas(all as u64)),
            more => format!(
                "{name}s {} to {} of {}, {frames}",
                commas(more[0][0]),
                commas(more[more.len() - 1][0]),
                commas(all as u64)
            ),
        }
    }

    fn title(&mut self, name: &str) {
        let title = format!("{}: {}", escaped(&cut(&printable(name))), self.extent());
        let _ = writeln!(self.svg, "<title>{title}</title>");
        self.text(16, 32, "big", &title);
        let name = self.unit.name();
        let first = self.spans.iter().find(|s| Of::Failed.stands(s));
        let first = first.map_or(String::new(), |s| format!(", the first is {name} {}", commas(s[0])));
        self.text(16, 54, "", &format!("{} with failed frames{first}.", plural(self.all().with(Of::Failed), name)));
        let share = match (self.share, self.unit) {
            (1, _) => format!("A column of the picture is one {name}."),
            (n, Unit::Second) => {
                format!("A column of the picture holds {n} seconds; the worst of them is shown, its shade tells how many fail.")
            }
            (n, _) => {
                format!("A column of the picture holds {n} {name}s; the worst of them is shown, its shade tells how many frames fail.")
            }
        };
        self.text(16, 72, "", &share);
    }

    /// Seconds or quarter-hours along the bottom, and lines up from them.
    fn axis(&mut self) {
        let (axis, Axis { steps, time }) = (self.axis_at(), axis_of(self.unit));
        self.rect(LEFT, axis, PLOT, 1, "line");
        self.text(16, axis + 18, "name", self.unit.name());
        self.text(16, axis + 33, "small", time);
        let fits = |step: &u64| step * self.wide as u64 / self.share as u64 >= 70;
        let day = steps[steps.len() - 1];
        let step = steps.iter().copied().chain((1..).map(|days| day << days)).find(fits).unwrap_or(1);
        let mut free = 0;
        for (i, number) in self.spans.iter().map(|s| s[0]).enumerate() {
            let x = LEFT + self.wide / 2 + i / self.share * self.wide;
            // A label has its room: the second one may stand too near to the first.
            if i > 0 && (number % step > 0 || x < free) {
                continue;
            }
            free = x + 60;
            self.rect(x, BAND, 1, axis + 5 - BAND, "grid");
            self.text(x, axis + 18, "middle", &commas(number));
            self.text(x, axis + 33, "small middle", &time_of(self.unit, number));
        }
    }

    fn heads(&mut self) {
        let (band, short) = match self.unit {
            Unit::Second => ("worst head", "s"),
            _ => ("worst head, quarter-hour", "q"),
        };
        self.text(16, BAND + 20, "name", band);
        for (x, w, ()) in self.runs(|c| (c.worst() == Some(0)).then_some(())) {
            self.rect(x, BAND, w, BAND_HEIGHT, "h0");
        }
        // The failed ones over it.
        for (x, w, (head, shade)) in self.runs(|c| Some((c.worst()?, c.shade(Of::Failed)?))) {
            self.mark(x, BAND, w, BAND_HEIGHT, &format!("h{head}"), shade);
            if w >= 10 {
                self.text(x + w / 2, BAND + 20, &class(&format!("d{head}"), shade), &head.to_string());
            }
        }
        for head in 1..=9 {
            let y = self.below(LANES) + (head - 1) * LANE;
            self.rect(16, y + 2, 12, LANE - 4, &format!("h{head}"));
            self.text(34, y + 12, "", &format!("{head} {}", HEADS[head]));
            let met = self.all().with(Of::Head(head));
            self.text(LEFT - 8, y + 12, "right", &format!("{} {short}", commas(met)));
            self.rect(LEFT, y + LANE - 1, PLOT, 1, "grid");
            self.marks(y + 1, LANE - 3, &format!("h{head}"), Of::Head(head));
        }
    }

    /// The days of the quarter-hours that are shown, each as its own line tells it.
    fn days(&mut self) {
        self.text(16, DAYS + 14, "name", "worst head, day");
        let day = |s: &Span| s[0] / (Unit::Day.seconds() / Unit::Quarter.seconds());
        let mut at = 0;
        for quarters in self.spans.chunk_by(|a, b| day(a) == day(b)) {
            let x = LEFT + at * self.wide / self.share;
            at += quarters.len();
            let end = if at == self.spans.len() { self.right() } else { LEFT + at * self.wide / self.share };
            self.day(day(&quarters[0]) as usize, x, (end - x).max(1));
        }
    }

    /// A day: its worst head by colour, and in words or by number where there is room.
    fn day(&mut self, number: usize, x: usize, w: usize) {
        let (listing, spans) = (self.listing, &self.listing.days[number..=number]);
        let day = Column { unit: Unit::Day, spans, seconds: listing.seconds_of(Unit::Day, spans) };
        let (inner, worst) = (w - usize::from(w > 4), day.worst());
        self.rect(x, DAYS, inner, DAY_HEIGHT, if worst == Some(0) { "h0" } else { "strip" });
        let (label, words, short) = match worst.zip(day.shade(Of::Failed)) {
            Some((head, shade)) => {
                self.mark(x, DAYS, inner, DAY_HEIGHT, &format!("h{head}"), shade);
                (class(&format!("d{head}"), shade), format!("head {head}"), head.to_string())
            }
            None => ("d0".into(), if worst.is_some() { "clear" } else { "no frames" }.into(), String::new()),
        };
        let text = match w {
            110.. => format!("day {}: {words}", commas(number as u64)),
            10.. => short,
            _ => String::new(),
        };
        if !text.is_empty() {
            self.text(x + w / 2, DAYS + 13, &label, &text);
        }
        self.pointer(x, DAYS, w, DAY_HEIGHT, &day.words(listing));
    }

    fn bars(&mut self, row: usize) {
        let base = self.below(ROWS) + row * ROW + BAR;
        let step = BAR as f64 / f64::from(self.decades + 1);
        let height = |value: u64| ((value as f64).log10() + 1.0) * step;
        for power in 0..=self.decades {
            let y = base - height(10u64.pow(power)).round() as usize;
            self.rect(LEFT, y, PLOT, 1, "grid");
            if self.decades < 4 || power % 2 == 0 {
                self.text(LEFT - 6, y + 4, "scale", &commas(10u64.pow(power)));
            }
        }
        self.rect(LEFT, base, PLOT, 1, "line");
        self.text(16, base - 32, "name", &self.listing.row(row));
        self.text(16, base - 16, "", &commas(self.all().sum(Of::Bar(row))));
        let gap = usize::from(self.wide > 4);
        for i in 0..self.columns.len() {
            if let Some(shade) = self.columns[i].shade(Of::Bar(row)) {
                let h = height(self.columns[i].highest(row)).round() as usize;
                self.rect(LEFT + i * self.wide, base - h, self.wide - gap, h, &class("bar", shade));
                if shade < SHADES.len() {
                    self.rect(LEFT + i * self.wide, base - h, self.wide - gap, EDGE, "bar");
                }
            }
        }
        if row > 0 && row_at(row).1.is_some() {
            self.text(16, base + 11, "", &format!("DS in {}", plural(self.all().sum(Of::Ds(row)), "second")));
            self.text(LEFT - 6, base + 12, "scale", "DS");
            self.rect(LEFT, base + 4, self.right() - LEFT, STRIP, "strip");
            self.marks(base + 4, STRIP, "ds", Of::Ds(row));
        }
    }

    /// A refused listing ends with a red line after the last second.
    fn end_of_record(&mut self) {
        if self.listing.refusal.is_some() && self.has_the_end() {
            let x = self.right();
            self.rect(x, BAND - 8, 3, self.axis_at() + 5 - (BAND - 8), "end");
            let (x, class) = if x > LEFT + PLOT / 2 { (x + 3, "told right") } else { (x, "told") };
            self.text(x, BAND - 12, class, "the record ends here");
        }
    }

    fn pointers(&mut self) {
        let h = self.axis_at() - BAND;
        for i in 0..self.columns.len() {
            let words = self.columns[i].words(self.listing);
            self.pointer(LEFT + i * self.wide, BAND, self.wide, h, &words);
        }
    }

    /// A place that tells these words where a pointer rests on it.
    fn pointer(&mut self, x: usize, y: usize, w: usize, h: usize, words: &str) {
        let _ =
            writeln!(self.svg, r#"<rect class="pointer" x="{x}" y="{y}" width="{w}" height="{h}"><title>{words}</title></rect>"#);
    }

    /// The notes under the picture: the first with the colour of clear before it, that of the shades with the four.
    fn legend(&mut self, notes: &[(&str, String)]) {
        let first = self.axis_at() + NOTES;
        self.rect(16, first - 10, 12, 12, "h0");
        for (i, (class, note)) in notes.iter().enumerate() {
            let y = first + 17 * i;
            self.text(34, y, class, note);
            if [SHADE, SHADE_OF_FRAMES].contains(&note.as_str()) {
                self.steps(y - 10);
            }
        }
    }

    /// The four shades side by side.
    fn steps(&mut self, y: usize) {
        for shade in 1..=SHADES.len() {
            self.rect(13 + 3 * shade, y, 3, 12, &class("ds", shade));
        }
    }

    /// The legend in words, and how the record ends: a class for each line, and the line.
    fn notes(&self) -> Vec<(&'static str, String)> {
        let name = self.unit.name();
        let (or_day, ds) = match self.unit {
            Unit::Second => ("", "black where a second of the column is a defect second"),
            _ => (" or a day", "where a second of the column is a defect second"),
        };
        let always = [
            format!("clear: no frame failed. A column without frames is blank. Rest the pointer on a column{or_day} to read its figures."),
            "Worst head: judged by its number. 1 is the worst, then 2 and so on to 9; clear comes last.".into(),
            format!("Lanes 1 to 9: each head that has a frame in the column. Beside a lane: how many {name}s have one. A mark that stands alone is at least 2 pixels wide."),
            format!("Bars: the highest of the {name}s in the column, by powers of ten; beside them the sum of all. Failed frames: all but clear. Far violations: the numbers 1 to 8 of BEI, added up."),
            format!("DS: {ds}, near or far as the bars above it."),
        ];
        let mut notes: Vec<(&str, String)> = always.map(|note| ("", note)).into();
        if self.is_shaded() {
            notes.push(("", if self.unit == Unit::Second { SHADE } else { SHADE_OF_FRAMES }.into()));
        }
        if self.listing.levels.len() + ALWAYS < self.listing.groups {
            notes.push(("", "Tandem levels: in the order of their numbers, the lowest first. A listing does not tell the numbers; an explanation may.".into()));
        }
        if self.listing.told.second > 0 {
            notes.push(("", "With the figures of a column: the frames in which a fault cause begins (+) or ends (-).".into()));
        }
        notes.extend(self.end_notes());
        notes
    }

    /// What is to be told of the listing's end.
    fn end_notes(&self) -> Vec<(&'static str, String)> {
        let mut notes = Vec::new();
        let (seconds, open) = (self.listing.closed, self.listing.open_frames());
        let rest = seconds % self.unit.seconds();
        if rest > 0 && self.has_the_end() {
            let last = commas(seconds / self.unit.seconds());
            notes
                .push(("", format!("The last {}, {last}, has {rest} of its {} seconds.", self.unit.name(), self.unit.seconds())));
        }
        if open > 0 && self.has_the_end() {
            notes.push(("", format!("{} after the last mark: not in the picture.", plural(open, "frame"))));
        }
        if let Some((number, offset)) = self.listing.refusal {
            let (words, offset) = (REFUSALS[number as usize - 1], commas(offset));
            let end =
                format!("The record ends after {}: refusal {number} ({words}) at byte {offset}.", plural(seconds, "second"));
            notes.push(("told", end));
        } else if seconds == 0 {
            notes.push(("name", "No second was closed.".into()));
        }
        notes
    }
}
