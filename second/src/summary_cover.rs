//! What the traces and the calls exercised of request K6, and of K7 what the sums in it make of it.

use crate::card::Handed;
use crate::summary::{Summary, DAY, FULL_SUM, LAST_SECOND, QUARTER};

const ROWS: [&str; 22] = [
    "a whole quarter-hour",
    "the rest of a quarter-hour",
    "a quarter-hour without frames",
    "a whole day",
    "the rest of a day",
    "otn_summary accepted",
    "otn_summary refused with 26",
    "otn_join accepted",
    "otn_join refused with 26",
    "otn_join refused with 20",
    "otn_join refused with 21",
    "an empty summary joined with a later one",
    "an empty summary joined to an earlier one",
    "two empty summaries joined",
    "86,400 seconds joined",
    "joined up to second 4,294,967,295",
    "otn_summary accepted, a sum of 3,200,000",
    "otn_summary refused with 26 for a sum alone",
    "otn_join accepted, a sum of 3,200,000 times its length",
    "otn_join refused with 26 for a sum alone",
    "otn_join accepted, a sum below its far blocks",
    "otn_join accepted, a sum above eight times its far blocks",
];

/// The same with its sums 0.
fn without_sums(summary: &Summary) -> Summary {
    Summary { layers: summary.layers.map(|[near, far, near_ds, far_ds, _]| [near, far, near_ds, far_ds, 0]), ..*summary }
}

/// Whether a layer of a summary has this.
fn in_some_layer(summary: &Summary, has: impl Fn(u64, u64) -> bool) -> bool {
    summary.layers.iter().any(|[_, far, _, _, sum]| has(*far, *sum))
}

#[derive(Clone, Debug, Default)]
pub struct SummaryCover {
    rows: [u64; ROWS.len()],
    /// Calls of both.
    pub calls: u64,
}

impl SummaryCover {
    fn count(&mut self, from: usize, shows: &[bool]) {
        for (row, shows) in self.rows[from..].iter_mut().zip(shows) {
            *row += u64::from(*shows);
        }
    }

    /// What `quarters` prints of a trace.
    pub fn printed(&mut self, text: &str) {
        for line in text.lines() {
            let numbers: Vec<u64> = line.split(' ').skip(1).filter_map(|word| word.parse().ok()).collect();
            match (&line[..1], &numbers[..]) {
                ("Q", [_, _, length, frames, ..]) => {
                    self.count(0, &[*length == QUARTER, *length < QUARTER, *length == QUARTER && *frames == 0]);
                }
                ("D", [_, _, length, ..]) => self.count(3, &[*length == DAY, *length < DAY]),
                _ => {}
            }
        }
    }

    /// A call and the word that it answers.
    pub fn call(&mut self, handed: &Handed, word: u64) {
        self.calls += 1;
        let (earlier, later) = match handed {
            Handed::Record(record) => return self.record(record, word),
            Handed::Two(earlier, later) => (earlier, later),
        };
        self.count(7, &[word == 0, word == 26, word == 20, word == 21]);
        if let (Some(earlier), Some(later)) = (Summary::from_bytes(earlier), Summary::from_bytes(later)) {
            let both = [earlier, later];
            let some = |has: &dyn Fn(&Summary) -> bool| word == 0 && both.iter().any(has);
            let full = some(&|s| s.length > 0 && in_some_layer(s, |_, sum| sum == FULL_SUM * s.length));
            let alone = word == 26 && both.iter().all(|s| without_sums(s).valid());
            let below = some(&|s| in_some_layer(s, |far, sum| sum < far));
            let above = some(&|s| in_some_layer(s, |far, sum| sum > 8 * far));
            self.count(18, &[full, alone, below, above]);
        }
        if let (Some(earlier), Some(later), 0) = (Summary::from_bytes(earlier), Summary::from_bytes(later), word) {
            let empty = [earlier.is_empty(), later.is_empty()];
            let (length, last) = (earlier.length + later.length, [earlier, later].map(|s| s.first + s.length).into_iter().max());
            let up_to_the_end = last == Some(LAST_SECOND + 1);
            self.count(11, &[empty == [true, false], empty == [false, true], empty == [true; 2], length == DAY, up_to_the_end]);
        }
    }

    /// otn_summary of a record.
    fn record(&mut self, record: &[u8], word: u64) {
        self.count(5, &[word == 0, word == 26]);
        if let Some(figures) = record.get(..88) {
            let figure = |i: usize| u32::from_le_bytes(std::array::from_fn(|at| figures[4 * i + at]));
            let mut figures: [u32; 22] = std::array::from_fn(figure);
            let full = [figures[16], figures[21]].iter().any(|sum| u64::from(*sum) == FULL_SUM);
            (figures[16], figures[21]) = (0, 0);
            self.count(16, &[word == 0 && full, word == 26 && Summary::of_record(figures).is_ok()]);
        }
    }

    /// The table, and what in it should not be zero and is.
    pub fn table(&self) -> (String, Vec<String>) {
        let out = ROWS.iter().zip(self.rows).map(|(name, row)| format!("{name:60}{row:7}\n")).collect();
        let empty = ROWS.iter().zip(self.rows).filter(|(_, row)| *row == 0);
        (out, empty.map(|(name, _)| format!("nothing exercised: {name}")).collect())
    }
}
