//! The table: for each row the lowest time of the builds, and their median.

use crate::row::Times;
use std::collections::HashSet;
use std::error::Error;
use std::fs;

// The times of one build: for each row the lowest of its runs. The file has the runs one after
// another.
struct Build {
    places: String,
    rows: Vec<Times>,
}

impl Build {
    fn read(path: &str) -> Result<Build, Box<dyn Error>> {
        let text = fs::read_to_string(path)?;
        let mut lines = text.lines();
        let places = lines.next().ok_or("no times")?.to_string();
        let mut rows: Vec<Times> = Vec::new();
        for line in lines.filter(|line| *line != places) {
            let row: Times = line.parse()?;
            match rows.iter_mut().find(|known| known.name == row.name) {
                Some(known) => known.lower(&row),
                None => rows.push(row),
            }
        }
        Ok(Build { places, rows })
    }
}

// Whether each library's code begins at a different position in each build.
fn is_moved(builds: &[Build]) -> bool {
    (0..2).all(|library| {
        let places = builds
            .iter()
            .map(|build| build.places.split('\t').nth(library));
        places.collect::<HashSet<_>>().len() == builds.len()
    })
}

// The lowest of the builds' times, and their median.
fn figures(builds: &[Build], row: usize, library: usize) -> Option<[f64; 2]> {
    let mut times: Vec<f64> = builds
        .iter()
        .map(|build| build.rows[row].times[library])
        .collect::<Option<_>>()?;
    times.sort_by(f64::total_cmp);
    let middle = (times.len() - 1) / 2;
    let median = (times[middle] + times[times.len() - 1 - middle]) / 2.0;
    Some([times[0], median])
}

fn cell(figures: Option<[f64; 2]>) -> String {
    figures.map_or_else(
        || String::from("-"),
        |[least, median]| format!("{least:.2} ({median:.2})"),
    )
}

fn ratio(here: Option<[f64; 2]>, other: Option<[f64; 2]>) -> String {
    cell(
        here.zip(other)
            .map(|(here, other)| [here[0] / other[0], here[1] / other[1]]),
    )
}

/// Prints the table for the builds whose times are in the files.
pub fn print(paths: impl Iterator<Item = String>) -> Result<(), Box<dyn Error>> {
    let builds = paths
        .map(|path| Build::read(&path))
        .collect::<Result<Vec<_>, _>>()?;
    if !is_moved(&builds) {
        return Err("some builds have their code at the same place".into());
    }
    let count = builds.len();
    println!(
        "Nanoseconds an item: the least of {count} builds, and (the median). A ratio is how many times the other's."
    );
    println!();
    println!("| Work | nanorand | Rust original | ratio | kit | ratio |");
    println!("|---|---|---|---|---|---|");
    for (place, row) in builds[0].rows.iter().enumerate() {
        let [here, original, kit] = [0, 1, 2].map(|library| figures(&builds, place, library));
        println!(
            "| {}{} | {} | {} | {} | {} | {} |",
            row.name,
            if row.same { "" } else { " (another result)" },
            cell(here),
            cell(original),
            ratio(here, original),
            cell(kit),
            ratio(here, kit)
        );
    }
    Ok(())
}
