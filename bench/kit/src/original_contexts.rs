//! The works of `contexts` with the old Rust crate: with the generator behind a `&mut` parameter of
//! a function that is not inlined, and in a field.

use nanorand::{Rng, WyRand};
use std::hint::black_box;

struct Game {
    rng: WyRand,
    size: u64,
}

fn game(seed: u64, size: u64) -> Game {
    let rng = WyRand::new_seed(seed);
    Game { rng, size }
}

#[inline(never)]
fn words(rng: &mut WyRand, items: &mut [u64]) {
    for item in items {
        *item = rng.generate();
    }
}

#[inline(never)]
fn below_u32(rng: &mut WyRand, items: &mut [u64], size: u32) {
    for item in items {
        *item = u64::from(rng.generate_range(0..size));
    }
}

#[inline(never)]
fn below_u64(rng: &mut WyRand, items: &mut [u64], size: u64) {
    for item in items {
        *item = rng.generate_range(0..size);
    }
}

#[inline(never)]
fn shuffled(rng: &mut WyRand, items: &mut [u64]) {
    rng.shuffle(items);
}

impl Game {
    #[inline(never)]
    fn words(&mut self, items: &mut [u64]) {
        for item in items {
            *item = self.rng.generate();
        }
    }

    #[inline(never)]
    fn below_u32(&mut self, items: &mut [u64], size: u32) {
        for item in items {
            *item = u64::from(self.rng.generate_range(0..size));
        }
    }

    #[inline(never)]
    fn below_u64(&mut self, items: &mut [u64]) {
        let size = self.size;
        for item in items {
            *item = self.rng.generate_range(0..size);
        }
    }

    #[inline(never)]
    fn shuffled(&mut self, items: &mut [u64]) {
        self.rng.shuffle(items);
    }
}

pub fn words_by_parameter(seed: u64, items: &mut [u64], times: u32) {
    let mut rng = WyRand::new_seed(seed);
    for _ in 0..black_box(times) {
        words(&mut rng, items);
    }
}

pub fn words_by_field(seed: u64, items: &mut [u64], times: u32) {
    let mut game = game(seed, 0);
    for _ in 0..black_box(times) {
        game.words(items);
    }
}

pub fn below_u32_by_parameter(seed: u64, items: &mut [u64], size: u32, times: u32) {
    let mut rng = WyRand::new_seed(seed);
    for _ in 0..black_box(times) {
        below_u32(&mut rng, items, size);
    }
}

pub fn below_u32_by_field(seed: u64, items: &mut [u64], size: u32, times: u32) {
    let mut game = game(seed, 0);
    for _ in 0..black_box(times) {
        game.below_u32(items, size);
    }
}

pub fn below_u64_by_parameter(seed: u64, items: &mut [u64], size: u64, times: u32) {
    let mut rng = WyRand::new_seed(seed);
    for _ in 0..black_box(times) {
        below_u64(&mut rng, items, size);
    }
}

pub fn below_u64_by_field(seed: u64, items: &mut [u64], size: u64, times: u32) {
    let mut game = game(seed, size);
    for _ in 0..black_box(times) {
        game.below_u64(items);
    }
}

pub fn shuffle_by_parameter(seed: u64, items: &mut [u64], times: u32) {
    let mut rng = WyRand::new_seed(seed);
    for _ in 0..black_box(times) {
        shuffled(&mut rng, items);
    }
}

pub fn shuffle_by_field(seed: u64, items: &mut [u64], times: u32) {
    let mut game = game(seed, 0);
    for _ in 0..black_box(times) {
        game.shuffled(items);
    }
}
