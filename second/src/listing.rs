//! The text of the S, R and E lines, and of the Q and D lines.

use crate::summary::Summary;
use crate::supervisor::Second;

/// "Each S line gains the .. figures of every provisioned level, lowest level first" (K1): five of them, as of section and path (K7).
pub fn second(second: &Second) -> String {
    let levels = second.levels.iter().flatten().flatten();
    let figures: Vec<String> = second.figures.iter().chain(levels).map(u32::to_string).collect();
    format!("S {}\n", figures.join(" "))
}

/// The line of a quarter-hour (Q) or of a day (D), with its number.
pub fn summary(letter: char, number: u64, summary: &Summary) -> String {
    let numbers: String = summary.numbers().map(|n| format!(" {n}")).concat();
    format!("{letter} {number}{numbers}\n")
}

pub fn refusal(number: u8, offset: u64) -> String {
    format!("R {number} {offset}\n")
}

pub fn end(marks: u64, frames: u64) -> String {
    format!("E {marks} {frames}\n")
}
