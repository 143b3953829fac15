//! The table of the benchmark of programs: for each work the best and the worst context.

use crate::contexts::{BOUNDED, TOLD};
use crate::least::read;
use crate::row::Times;
use std::error::Error;

/// The name of a work's row in a context.
pub fn row_name(work: &str, context: &str) -> String {
    format!("{work}: {context}")
}

// A row's work and context.
fn work_and_context(row: &Times) -> (&str, &str) {
    row.name.rsplit_once(": ").unwrap_or((&row.name, ""))
}

// The lowest time of each library in all builds.
fn least_of(paths: impl Iterator<Item = String>) -> Result<Vec<Times>, Box<dyn Error>> {
    let mut builds = paths.map(|path| read(&path));
    let mut least = builds.next().ok_or("no times")??;
    for build in builds {
        for (row, other) in least.iter_mut().zip(&build?) {
            row.lower(other);
        }
    }
    Ok(least)
}

// The fastest peer of a row, and the ratio of our time to its own.
fn peer_of(row: &Times) -> Option<(&str, f64)> {
    let least = row
        .peers
        .iter()
        .min_by(|(_, one), (_, other)| one.total_cmp(other));
    least.map(|(name, time)| (name.as_str(), row.here / time))
}

// The ratio by which a row is judged: to the fastest peer, or to the old crate if there is no peer.
fn ratio_of(row: &Times) -> f64 {
    peer_of(row).map_or(row.here / row.original, |(_, ratio)| ratio)
}

fn cells_of(row: &Times) -> String {
    let (_, context) = work_and_context(row);
    let peer = match peer_of(row) {
        Some((name, ratio)) => format!("`{name}` {ratio:.2}"),
        None => "-".to_string(),
    };
    format!(
        "{context} {:.2} | {:.2} | {peer}",
        row.here,
        row.here / row.original
    )
}

fn told(rows: &[&Times], context: &str) -> String {
    let row = rows.iter().find(|row| work_and_context(row).1 == context);
    match row {
        Some(row) => match peer_of(row) {
            Some((_, ratio)) => format!("{:.2} ({ratio:.2})", row.here),
            None => format!("{:.2}", row.here),
        },
        None => "-".to_string(),
    }
}

// The rows of each work, in the order of the works.
fn by_work(rows: &[Times]) -> Vec<Vec<&Times>> {
    let mut works: Vec<Vec<&Times>> = Vec::new();
    for row in rows {
        match works.last_mut() {
            Some(work) if work_and_context(work[0]).0 == work_and_context(row).0 => work.push(row),
            _ => works.push(vec![row]),
        }
    }
    works
}

fn print_work(work: &[&Times]) {
    let bounded = |row: &&&Times| BOUNDED.contains(&work_and_context(row).1);
    let by_ratio = |one: &&&Times, other: &&&Times| ratio_of(one).total_cmp(&ratio_of(other));
    let best = work.iter().filter(bounded).min_by(by_ratio);
    let worst = work.iter().filter(bounded).max_by(by_ratio);
    if let (Some(best), Some(worst)) = (best, worst) {
        let (name, _) = work_and_context(best);
        let told: Vec<String> = TOLD.iter().map(|context| told(work, context)).collect();
        println!(
            "| {name} | {} | {} | {} |",
            cells_of(best),
            cells_of(worst),
            told.join(" | ")
        );
    }
}

// Each context of each work: our time, and its ratio to the fastest peer's.
fn print_contexts(work: &[&Times]) {
    let contexts = BOUNDED.iter().chain(&TOLD);
    let cells: Vec<String> = contexts.map(|context| told(work, context)).collect();
    println!(
        "| {} | {} |",
        work_and_context(work[0]).0,
        cells.join(" | ")
    );
}

// The first context of each work: our time, that of the old crate, and each peer's, with our ratio
// to it.
fn print_peers(work: &[&Times]) {
    let row = work[0];
    let peers = row
        .peers
        .iter()
        .map(|(name, time)| format!("`{name}` {time:.1} ({:.2})", row.here / time));
    println!(
        "| {} | {:.1} | {:.1} | {} |",
        work_and_context(row).0,
        row.here,
        row.original,
        peers.collect::<Vec<_>>().join(", ")
    );
}

/// Prints the tables for the builds whose times are in the files.
pub fn print(paths: impl Iterator<Item = String>) -> Result<(), Box<dyn Error>> {
    let least = least_of(paths)?;
    let works = by_work(&least);
    println!("Nanoseconds an item, and divided by the time of nanorand 0.7.0 and of the fastest peer in the same");
    println!("context: the context that is best beside the peer, and the worst. Thread-local and `dyn` are told.");
    println!();
    println!(
        "| Work | best | original | peer | worst | original | peer | {} |",
        TOLD.join(" | ")
    );
    println!("|---|---|---|---|---|---|---|---|---|");
    for work in &works {
        print_work(work);
    }
    println!();
    println!("Each context, and beside the fastest peer:");
    println!();
    println!("| Work | {} | {} |", BOUNDED.join(" | "), TOLD.join(" | "));
    println!("|---|---|---|---|---|---|---|---|");
    for work in &works {
        print_contexts(work);
    }
    println!();
    println!(
        "Each peer, with the generator in a {} variable, and our time divided by its own:",
        BOUNDED[0]
    );
    println!();
    println!("| Work | nanorand-proved | nanorand 0.7.0 | peers |");
    println!("|---|---|---|---|");
    for work in &works {
        print_peers(work);
    }
    Ok(())
}
