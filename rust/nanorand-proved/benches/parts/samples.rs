// Samples, which the old crate does not have.

const SAMPLES: [(u32, usize); 6] = [
    (10, 1_000_000),
    (100, 1_000_000),
    (10_000, 1_000_000),
    (100_000, 1_000_000),
    (10_000, 1_000_000_000),
    (100_000, 1_000_000_000),
];

#[inline(never)]
fn sampled(mut rng: WyRand, slots: u32, count: usize) -> u64 {
    let mut places = vec![0; slots as usize];
    drawn(rng.sample(count, &mut places));
    places.iter().map(|&place| place as u64).sum()
}

/// One sample. Its slots are allocated each time, as `rand` does.
pub fn samples() -> Vec<(Work, u32, usize)> {
    SAMPLES
        .map(|(slots, count)| {
            let name = format!("a sample of {slots} from {count}, a number");
            let run = move || sampled(wyrand(), slots, black_box(count));
            (work(&name, f64::MAX, slots, run), slots, count)
        })
        .into()
}
