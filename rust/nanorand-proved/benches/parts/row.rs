//! One row of the table: its timing and its line.

use std::fmt;
use std::hint::black_box;
use std::str::FromStr;
use std::time::Instant;

const TURNS: usize = 15;

/// What one library does repeatedly for a row.
pub struct Work {
    pub name: String,
    /// The number of items that one run produces.
    pub items: u32,
    /// The largest accepted ratio of the library's time to the old crate's.
    pub limit: f64,
    pub run: Box<dyn FnMut() -> u64>,
}

pub struct Row {
    here: Work,
    original: Option<Work>,
    /// The same work by other libraries, whose names are the names of these works.
    peers: Vec<Work>,
}

impl Row {
    pub fn new(here: Work, original: Option<Work>, peers: Vec<Work>) -> Self {
        Self {
            here,
            original,
            peers,
        }
    }

    /// Times all works of the row. They take turns, so that a busy moment of the machine affects
    /// all.
    pub fn timed(&mut self) -> Times {
        let mut here = Best::new();
        let mut original = Best::new();
        let mut peers: Vec<_> = self.peers.iter().map(|_| Best::new()).collect();
        for _ in 0..TURNS {
            here.time(&mut self.here);
            if let Some(work) = &mut self.original {
                original.time(work);
            }
            for (best, work) in peers.iter_mut().zip(&mut self.peers) {
                best.time(work);
            }
        }
        let names = self.peers.iter().map(|work| work.name.clone());
        Times {
            name: self.here.name.clone(),
            limit: self.here.limit,
            here: here.nanoseconds,
            original: original.nanoseconds,
            same: self.original.is_none() || here.result == original.result,
            peers: names
                .zip(peers.iter().map(|best| best.nanoseconds))
                .collect(),
        }
    }
}

struct Best {
    nanoseconds: f64,
    result: u64,
}

impl Best {
    fn new() -> Self {
        Self {
            nanoseconds: f64::MAX,
            result: 0,
        }
    }

    fn time(&mut self, work: &mut Work) {
        let start = Instant::now();
        self.result = black_box((work.run)());
        let nanoseconds = start.elapsed().as_secs_f64() * 1e9;
        self.nanoseconds = self.nanoseconds.min(nanoseconds / f64::from(work.items));
    }
}

/// Nanoseconds per item, each the lowest of all turns.
pub struct Times {
    pub name: String,
    pub limit: f64,
    pub here: f64,
    /// `f64::MAX` if the old crate has no such call.
    pub original: f64,
    /// Whether both libraries' results are the same.
    pub same: bool,
    pub peers: Vec<(String, f64)>,
}

impl fmt::Display for Times {
    fn fmt(&self, f: &mut fmt::Formatter<'_>) -> fmt::Result {
        let Self {
            name,
            limit,
            here,
            original,
            same,
            peers,
        } = self;
        write!(f, "{name}\t{limit}\t{here}\t{original}\t{same}")?;
        for (peer, nanoseconds) in peers {
            write!(f, "\t{peer}\t{nanoseconds}")?;
        }
        Ok(())
    }
}

impl FromStr for Times {
    type Err = String;

    fn from_str(line: &str) -> Result<Self, String> {
        let cells: Vec<&str> = line.split('\t').collect();
        let [name, limit, here, original, same, ref peers @ ..] = cells[..] else {
            return Err(format!("fewer than five cells: {line}"));
        };
        let number = |cell: &str| cell.parse().map_err(|_| format!("not a number: {cell}"));
        let peer = |cells: &[&str]| Ok((cells[0].to_string(), number(cells[1])?));
        Ok(Self {
            name: name.to_string(),
            limit: number(limit)?,
            here: number(here)?,
            original: number(original)?,
            same: same == "true",
            peers: peers
                .chunks_exact(2)
                .map(peer)
                .collect::<Result<_, String>>()?,
        })
    }
}
