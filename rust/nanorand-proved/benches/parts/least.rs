//! Reads times from files.

use crate::row::Times;
use std::error::Error;
use std::fs;

impl Times {
    /// Keeps the lower of both times for each library.
    pub fn lower(&mut self, other: &Times) {
        self.here = self.here.min(other.here);
        self.original = self.original.min(other.original);
        for ((_, least), (_, time)) in self.peers.iter_mut().zip(&other.peers) {
            *least = least.min(*time);
        }
    }
}

/// The times of one build: for each row the lowest of its runs. The file has the runs one after
/// another.
pub fn read(path: &str) -> Result<Vec<Times>, Box<dyn Error>> {
    let mut rows: Vec<Times> = Vec::new();
    for line in fs::read_to_string(path)?.lines() {
        let row: Times = line.parse()?;
        match rows.iter_mut().find(|known| known.name == row.name) {
            Some(known) => known.lower(&row),
            None => rows.push(row),
        }
    }
    Ok(rows)
}
