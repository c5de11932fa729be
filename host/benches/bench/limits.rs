//! What the product must reach.

/// How much of the reference's time the product's may be.
const VERDICT: f64 = 0.85;
const LIST: f64 = 1.25;
const VERDICT_ON_TWENTY_DENIES: f64 = 1.0;
const LIST_ON_TWENTY_DENIES: f64 = 1.6;

/// How many times version 1's time version 2's may be, on the same fabric.
pub const VERSION_2: f64 = 2.0;

/// How much of the reference's time the product's may be, by work and call.
pub fn most_ratio(work: &str, call: &str) -> f64 {
    match (work, call) {
        ("twenty denies" | "twenty denies v2", "verdict") => VERDICT_ON_TWENTY_DENIES,
        ("twenty denies" | "twenty denies v2", _) => LIST_ON_TWENTY_DENIES,
        (_, "verdict") => VERDICT,
        _ => LIST,
    }
}

/// How many rows were held to a limit, and how many are above it.
#[derive(Default)]
pub struct Tally {
    rows: usize,
    above: usize,
}

impl Tally {
    /// Counts a row with this figure, and gives the mark that it gets.
    pub fn mark(&mut self, figure: f64, most: f64) -> String {
        self.rows += 1;
        if figure <= most {
            return String::new();
        }
        self.above += 1;
        format!("above {most:.2}")
    }

    pub fn none_above(&self) -> bool {
        self.above == 0
    }

    pub fn print(&self) {
        println!(
            "{} of {} rows are above their limit.",
            self.above, self.rows
        );
    }
}
