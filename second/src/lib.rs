//! The second program: document 01 written again from the page alone, as questions put to recorded history.
//!
//! Nothing here counts a run or keeps a total from frame to frame. What was received and what was decided is recorded frame by
//! frame, and each state is found by looking back over the record: the latest row of five alike since the last forgetting, the
//! three cycles that end here, the OOF frames with no long IF stretch between them. A look-back stops after a window of frames and
//! takes up the answer recorded there, which is the same question put to the same history.
//!
//! The six tandem levels of document 02 (K1) are written the same way, each over its own history: `level.rs`. Of the pending second (K3)
//! nothing is kept but which frames it has: what is told of it is asked when it is told. A summary (K6) is the sums over the seconds that it is of. The sum of
//! the far end's violations (K7) is asked as the far blocks are: of the frames of the second.

pub mod bei;
pub mod bei_cover;
pub mod card;
pub mod cases;
pub mod causes_cover;
pub mod cover;
pub mod explain;
pub mod frame;
pub mod generate;
pub mod history;
pub mod level;
pub mod level_cover;
pub mod level_generate;
pub mod listing;
pub mod provisioning;
pub mod random;
pub mod reader;
pub mod report;
pub mod seconds_cover;
pub mod seconds_generate;
pub mod summary;
pub mod summary_cover;
pub mod summary_generate;
pub mod supervisor;

#[cfg(test)]
mod tests;

#[cfg(test)]
mod tests_levels;

#[cfg(test)]
mod tests_seconds;

#[cfg(test)]
mod tests_summary;

#[cfg(test)]
mod tests_sums;
