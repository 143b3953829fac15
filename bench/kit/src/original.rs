//! The same work with the old Rust crate. As in the static library, each function is compiled once,
//! and the compiler does not know its arguments.

use nanorand::{BufferedRng, ChaCha, Pcg64, Rng, WyRand};
use std::hint::black_box;

fn words<R: Rng<OUTPUT>, const OUTPUT: usize>(mut rng: R, count: u64) -> u64 {
    let mut all = 0u64;
    for _ in 0..black_box(count) {
        all = all.rotate_left(1).wrapping_add(rng.generate::<u64>());
    }
    all
}

fn bytes<R: Rng<OUTPUT>, const OUTPUT: usize>(mut rng: R, count: u64) -> u64 {
    let mut all = 0u64;
    for _ in 0..black_box(count) {
        all = all
            .rotate_left(1)
            .wrapping_add(u64::from(rng.generate::<u8>()));
    }
    all
}

fn mixed(block: &[u8; 64]) -> u64 {
    let (words, _) = block.as_chunks::<8>();
    words.iter().fold(0, |all, word| {
        all.rotate_left(1).wrapping_add(u64::from_le_bytes(*word))
    })
}

#[inline(never)]
pub fn wyrand_u64(seed: u64, count: u64) -> u64 {
    words(WyRand::new_seed(seed), count)
}

#[inline(never)]
pub fn pcg64_u64(seed: u64, count: u64) -> u64 {
    words(Pcg64::new_seed(u128::from(seed)), count)
}

#[inline(never)]
pub fn chacha_blocks<const ROUNDS: u8>(seed: u8, count: u64) -> u64 {
    let mut rng = ChaCha::<ROUNDS>::new_key([seed; 32], [seed; 8]);
    let mut all = 0u64;
    for _ in 0..black_box(count) {
        all = all.rotate_left(1).wrapping_add(mixed(&rng.rand()));
    }
    all
}

#[inline(never)]
pub fn buffered_wyrand(seed: u64, count: u64) -> u64 {
    bytes(BufferedRng::new(WyRand::new_seed(seed)), count)
}

#[inline(never)]
pub fn buffered_chacha20(seed: u8, count: u64) -> u64 {
    bytes(
        BufferedRng::new(ChaCha::<20>::new_key([seed; 32], [seed; 8])),
        count,
    )
}

fn fill<R: Rng<OUTPUT>, const OUTPUT: usize>(mut rng: R, out: &mut [u8], times: u32) {
    for _ in 0..black_box(times) {
        rng.fill_bytes(&mut *out);
    }
}

#[inline(never)]
pub fn wyrand_fill(seed: u64, out: &mut [u8], times: u32) {
    fill(WyRand::new_seed(seed), out, times);
}

#[inline(never)]
pub fn pcg64_fill(seed: u64, out: &mut [u8], times: u32) {
    fill(Pcg64::new_seed(u128::from(seed)), out, times);
}

#[inline(never)]
pub fn chacha20_fill(seed: u8, out: &mut [u8], times: u32) {
    fill(ChaCha::<20>::new_key([seed; 32], [seed; 8]), out, times);
}

#[inline(never)]
pub fn buffered_chacha20_fill(seed: u8, out: &mut [u8], times: u32) {
    let rng = ChaCha::<20>::new_key([seed; 32], [seed; 8]);
    fill(BufferedRng::new(rng), out, times);
}

macro_rules! ranges {
    ($($name:ident: $number:ty),+) => { $(
        #[inline(never)]
        pub fn $name(seed: u64, size: $number, count: u64) -> u64 {
            let mut rng = WyRand::new_seed(seed);
            let size = black_box(size);
            let mut all = 0u64;
            for _ in 0..black_box(count) {
                all = all.rotate_left(1).wrapping_add(u64::from(rng.generate_range::<$number, _>(0..size)));
            }
            all
        }
    )+ };
}

ranges!(range_u8: u8, range_u32: u32, range_u64: u64);

#[inline(never)]
pub fn shuffle(seed: u64, items: &mut [u64], times: u32) {
    let mut rng = WyRand::new_seed(seed);
    for _ in 0..black_box(times) {
        rng.shuffle(&mut *items);
    }
}

// The old crate has no `choose`. This is what its users write.
#[inline(never)]
pub fn choose(seed: u64, items: &mut [u64], count: u64) -> u64 {
    let mut rng = WyRand::new_seed(seed);
    let mut all = 0u64;
    for _ in 0..black_box(count) {
        all = all
            .rotate_left(1)
            .wrapping_add(items[rng.generate_range(0..items.len())]);
    }
    all
}
