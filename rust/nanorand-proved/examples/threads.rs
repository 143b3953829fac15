//! Generators for threads: one stream is divided into parts that do not overlap, one for each thread. Another
//! generator, whose seed is a constant, is shared behind a lock.

use nanorand_proved::{Parts, Pcg64, Rng, WyRand};
use std::sync::Mutex;
use std::thread;

/// How many numbers each worker draws, and so the length of a part: an odd number.
const SHARE: usize = 1001;

static SHARED: Mutex<WyRand> = Mutex::new(WyRand::new_seed(0x243f_6a88_85a3_08d3));

/// The part of a stream that belongs to a worker.
fn part(worker: u64) -> Vec<u64> {
    let part = Pcg64::seed_from_u64(99).part(worker, SHARE as u64);
    let mut rng = part.expect("within the period");
    let mut numbers = vec![0; SHARE];
    rng.fill(&mut numbers);
    let ticket: u64 = SHARED.lock().expect("no thread panics").generate();
    println!("worker {worker} has the ticket {ticket}");
    numbers
}

fn main() {
    let start = |worker| thread::spawn(move || part(worker));
    let workers: Vec<_> = (0..4).map(start).collect();
    let parts: Vec<u64> = workers
        .into_iter()
        .flat_map(|worker| worker.join().expect("no panic"))
        .collect();
    let mut whole = vec![0_u64; 4 * SHARE];
    Pcg64::seed_from_u64(99).fill(&mut whole);
    assert_eq!(parts, whole, "the numbers are those of a single thread");
}
