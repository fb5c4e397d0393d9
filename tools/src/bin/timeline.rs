//! Draws a listing, an explanation or quarter-hours as an SVG page.
//!
//!     timeline [--from N] [--to M] [FILE] > my.svg

use std::ops::RangeInclusive;
use std::path::Path;
use tools::program::{run, Given, Words};
use tools::timeline::{page, read};

const USAGE: &str =
    "timeline [--from N] [--to M] [FILE] > SVG: draws the listing, explanation or quarter-hours in FILE, or on standard input
One page for any browser. Of a long listing a part:
    --from N    the first second to show; without it, the first of all
    --to M      the last second to show; without it, the last of all
Status: 0 drawn, 1 a mistake in the listing or a file that cannot be read, 2 a mistake in the command line.
docs/BENCH.md tells how to read the picture.
";

type Range = Option<RangeInclusive<u64>>;

/// The seconds that the command line asks for, or none where it asks for all.
fn range(words: &mut Words) -> Result<Range, String> {
    match (words.number("--from")?, words.number("--to")?) {
        (Some(from), Some(to)) if from > to => {
            Err(format!("--from {from} is after --to {to}; expected the earlier second first"))
        }
        (None, None) => Ok(None),
        (from, to) => Ok(Some(from.unwrap_or(1)..=to.unwrap_or(u64::MAX))),
    }
}

/// The page names the file without its folders.
fn draw(given: &Given, range: Range) -> Result<String, String> {
    let name = Path::new(&given.name).file_name().map_or(given.name.clone(), |name| name.to_string_lossy().into_owned());
    page(&name, &read(&given.text)?, range)
}

fn main() -> std::process::ExitCode {
    run(USAGE, range, draw, |page, out| out.write_all(page.as_bytes()))
}
