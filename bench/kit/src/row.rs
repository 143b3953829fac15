//! One row of the table: its timing and its line.

use std::array::from_fn;
use std::fmt;
use std::hint::black_box;
use std::str::FromStr;
use std::time::Instant;

const TURNS: usize = 15;

pub type Work = Box<dyn FnMut() -> u64>;

/// One row: the number of items that a turn produces, and the work of each library that produces
/// them.
pub struct Row {
    name: &'static str,
    items: u64,
    works: [Option<Work>; 3],
}

impl Row {
    pub fn new(name: &'static str, items: u64, work: impl FnMut() -> u64 + 'static) -> Self {
        Row {
            name,
            items,
            works: [Some(Box::new(work)), None, None],
        }
    }

    pub fn original(mut self, work: Option<Work>) -> Self {
        self.works[1] = work;
        self
    }

    pub fn kit(mut self, work: impl FnMut() -> u64 + 'static) -> Self {
        self.works[2] = Some(Box::new(work));
        self
    }

    /// Times all works of the row.
    pub fn timed(&mut self) -> Times {
        let mut best = [f64::MAX; 3];
        let mut answers = [0; 3];
        for _ in 0..TURNS {
            for (place, work) in self.works.iter_mut().enumerate() {
                if let Some(work) = work {
                    let start = Instant::now();
                    answers[place] = black_box(work());
                    best[place] = best[place].min(start.elapsed().as_secs_f64());
                }
            }
        }
        let each = 1e9 / self.items as f64;
        Times {
            name: self.name.to_string(),
            times: from_fn(|place| self.works[place].is_some().then(|| best[place] * each)),
            same: self.works[1].is_none() || answers[0] == answers[1],
        }
    }
}

/// Nanoseconds per item of nanorand, the old crate and the kit, each the lowest of all turns.
pub struct Times {
    pub name: String,
    pub times: [Option<f64>; 3],
    /// Whether the old crate's result was the same.
    pub same: bool,
}

impl Times {
    /// Keeps the lower of both times for each library.
    pub fn lower(&mut self, other: &Times) {
        for (time, other) in self.times.iter_mut().zip(other.times) {
            *time = time.zip(other).map(|(time, other)| time.min(other));
        }
    }
}

impl fmt::Display for Times {
    fn fmt(&self, f: &mut fmt::Formatter<'_>) -> fmt::Result {
        write!(f, "{}\t{}", self.name, self.same)?;
        for time in self.times {
            match time {
                Some(time) => write!(f, "\t{time}")?,
                None => write!(f, "\t-")?,
            }
        }
        Ok(())
    }
}

impl FromStr for Times {
    type Err = String;

    fn from_str(line: &str) -> Result<Self, String> {
        let mut cells = line.split('\t');
        let mut cell = || cells.next().ok_or_else(|| format!("too short: {line}"));
        Ok(Times {
            name: cell()?.to_string(),
            same: cell()? == "true",
            times: [
                cell()?.parse().ok(),
                cell()?.parse().ok(),
                cell()?.parse().ok(),
            ],
        })
    }
}
