//! Estimates pi: draws points of a square, and counts those in the quarter circle. It uses only integers.

use nanorand_proved::{Rng, WyRand};

const POINTS: u64 = 100_000;

fn main() {
    let mut rng = WyRand::seed_from_u64(31);
    let mut within = 0;
    for _ in 0..POINTS {
        let (x, y): (u32, u32) = (rng.generate(), rng.generate());
        let distance = u128::from(x).pow(2) + u128::from(y).pow(2);
        within += u64::from(distance < 1 << 64);
    }
    let thousandths = 4000 * within / POINTS;
    println!(
        "pi is about {}.{:03}",
        thousandths / 1000,
        thousandths % 1000
    );
    assert!((3_100..3_180).contains(&thousandths));
}
