//! The table: for each row the lowest time of the builds, and their median.

use crate::least::read;
use crate::row::Times;
use std::error::Error;

// The lowest of the builds' times, and their median.
fn figures(builds: &[Vec<Times>], time: impl Fn(&Vec<Times>) -> f64) -> [f64; 2] {
    let mut times: Vec<f64> = builds.iter().map(time).collect();
    times.sort_by(f64::total_cmp);
    let middle = (times.len() - 1) / 2;
    let median = (times[middle] + times[times.len() - 1 - middle]) / 2.0;
    [times[0], median]
}

fn cell([least, median]: [f64; 2]) -> String {
    format!("{least:.2} ({median:.2})")
}

// The old crate's figures, and the ratios of ours to them.
fn beside(ours: [f64; 2], original: [f64; 2]) -> String {
    if original[0] == f64::MAX {
        return "- | -".to_string();
    }
    format!("{} | {}", cell(original), cell(ratio(ours, original)))
}

// The peer with the lowest median, and its figures.
fn best_peer(builds: &[Vec<Times>], place: usize) -> Option<(&str, [f64; 2])> {
    let peers = builds[0][place].peers.iter().enumerate();
    peers
        .map(|(peer, (name, _))| {
            let times = figures(builds, |build| build[place].peers[peer].1);
            (name.as_str(), times)
        })
        .min_by(|(_, one), (_, other)| one[1].total_cmp(&other[1]))
}

fn ratio(ours: [f64; 2], theirs: [f64; 2]) -> [f64; 2] {
    [ours[0] / theirs[0], ours[1] / theirs[1]]
}

/// Prints the table for the builds whose times are in the files.
pub fn print(paths: impl Iterator<Item = String>) -> Result<(), Box<dyn Error>> {
    let builds = paths
        .map(|path| read(&path))
        .collect::<Result<Vec<_>, _>>()?;
    let first = builds.first().ok_or("no times")?;
    let count = builds.len();
    println!("Nanoseconds: the least of {count} builds, and (the median).");
    println!();
    println!("| Work | here | nanorand 0.7.0 | ratio | best peer | ratio |");
    println!("|---|---|---|---|---|---|");
    let mut above = Vec::new();
    for (place, row) in first.iter().enumerate() {
        let here = figures(&builds, |build| build[place].here);
        let original = figures(&builds, |build| build[place].original);
        let note = if row.same { "" } else { " (other results)" };
        let peer = match best_peer(&builds, place) {
            Some((name, times)) => {
                format!("`{name}` {} | {}", cell(times), cell(ratio(here, times)))
            }
            None => "- | -".to_string(),
        };
        println!(
            "| {}{note} | {} | {} | {peer} |",
            row.name,
            cell(here),
            beside(here, original)
        );
        if here[0] > row.limit * original[0] {
            above.push((&row.name, row.limit, ratio(here, original)));
        }
    }
    println!();
    println!("Rows above their limit: {}.", above.len());
    for (name, limit, ratio) in above {
        println!("- {name}: {} instead of {limit}", cell(ratio));
    }
    Ok(())
}
