// The works. This file is compiled once for each library. The module that includes it names the
// `library`, and defines how to take a draw's number (`drawn`), shuffle with partners from all
// indices, buffer ChaCha (`stream`) and seed a generator from the system (`seeded`).
//
// Each function with a loop is compiled separately, with its generator in a local variable, and the
// compiler does not know counts and seeds.

use crate::mixing::{mixed, mixed_items, Mix};
use crate::row::Work;
use library::{BufferedRng, ChaCha, Pcg64, RandomGen, Rng, WyRand};
use std::hint::black_box;

pub const DRAWS: u32 = 1 << 18;
pub const ITEMS: u32 = 400_000;
pub const BYTES: u32 = 1 << 18;
const SEEDS: u32 = 1 << 12;

fn wyrand() -> WyRand {
    WyRand::new_seed(black_box(42))
}

fn pcg64() -> Pcg64 {
    Pcg64::new_seed(black_box(42))
}

fn chacha<const ROUNDS: u8>() -> ChaCha<ROUNDS> {
    ChaCha::new_key([black_box(7); 32], [black_box(7); 8])
}

fn work(name: &str, limit: f64, items: u32, run: impl FnMut() -> u64 + 'static) -> Work {
    Work {
        name: name.to_string(),
        items,
        limit,
        run: Box::new(run),
    }
}

#[inline(never)]
fn values<T, R, const OUTPUT: usize>(mut rng: R) -> u64
where
    T: RandomGen<R, OUTPUT> + Mix,
    R: Rng<OUTPUT>,
{
    let mut all = 0;
    for _ in 0..black_box(DRAWS) {
        all = mixed(all, rng.generate::<T>());
    }
    all
}

macro_rules! values_of_all_types {
    ($works:ident, $generator:ident, $name:literal: $($value:ty),+) => { $(
        let name = concat!($name, ", ", stringify!($value));
        $works.push(work(name, 1.05, DRAWS, || values::<$value, _, 8>($generator())));
    )+ };
}

fn all_values(works: &mut Vec<Work>) {
    values_of_all_types!(works, wyrand, "WyRand":
        u8, u16, u32, u64, u128, usize, i8, i16, i32, i64, i128, isize, bool, f32, f64);
    values_of_all_types!(works, pcg64, "Pcg64":
        u8, u16, u32, u64, u128, usize, i8, i16, i32, i64, i128, isize, bool);
    works.push(work("ChaCha20, u64", 1.05, DRAWS / 16, || {
        chacha20_words(chacha())
    }));
}

#[inline(never)]
fn chacha20_words(mut rng: ChaCha<20>) -> u64 {
    let mut all = 0;
    for _ in 0..black_box(DRAWS / 16) {
        all = mixed(all, rng.generate::<u64>());
    }
    all
}

// A range that the compiler knows, and the same range with a bound that it does not know.
macro_rules! ranges {
    ($works:ident: $($name:literal $end:ident = $number:expr => $range:expr),+ $(,)?) => { $(
        $works.push(work($name, 1.05, DRAWS, || {
            #[inline(never)]
            fn run(mut rng: WyRand) -> u64 {
                let mut all = 0;
                for _ in 0..black_box(DRAWS) {
                    let $end = $number;
                    all = mixed(all, drawn(rng.generate_range($range)));
                }
                all
            }
            run(wyrand())
        }));
        $works.push(work(concat!($name, ", by a variable"), 1.05, DRAWS, || {
            #[inline(never)]
            fn run(mut rng: WyRand) -> u64 {
                let $end = black_box($number);
                let mut all = 0;
                for _ in 0..black_box(DRAWS) {
                    all = mixed(all, drawn(rng.generate_range($range)));
                }
                all
            }
            run(wyrand())
        }));
    )+ };
}

fn all_ranges(works: &mut Vec<Work>) {
    ranges!(works:
        "u8 below 200" end = 200_u8 => 0..end,
        "u32 below 1000" end = 1000_u32 => 0..end,
        "u64 below 1000" end = 1000_u64 => 0..end,
        "u64 below 2^63 + 1" end = (1_u64 << 63) + 1 => 0..end,
        "i32 of -50..=50" end = 50_i32 => -50..=end,
        "usize below 10" end = 10_usize => 0..end,
    );
}

#[inline(never)]
fn shuffles(mut rng: WyRand, items: &mut [u64], times: u32) {
    for _ in 0..times {
        drawn(rng.shuffle(&mut *items));
    }
}

#[inline(never)]
fn shuffles_from_all(mut rng: WyRand, items: &mut [u64], times: u32) {
    for _ in 0..times {
        shuffle_from_all(&mut rng, items);
    }
}

// Shuffles the same items repeatedly.
fn shuffled(length: u32, shuffle: fn(WyRand, &mut [u64], u32)) -> impl FnMut() -> u64 {
    let mut items: Vec<u64> = (0..u64::from(length)).collect();
    move || {
        shuffle(wyrand(), &mut items, black_box(ITEMS / length));
        mixed_items(&items)
    }
}

fn all_shuffles(works: &mut Vec<Work>) {
    for (length, text) in [(10, "10"), (1000, "1000"), (100_000, "100,000")] {
        let name = format!("shuffle of {text}, an item");
        works.push(work(&name, 1.2, ITEMS, shuffled(length, shuffles)));
        let name = format!("shuffle of {text} from all indices, an item");
        works.push(work(
            &name,
            1.05,
            ITEMS,
            shuffled(length, shuffles_from_all),
        ));
    }
}

#[inline(never)]
fn fill<R: Rng<8>>(mut rng: R, items: &mut [u32], times: u32)
where
    u32: RandomGen<R, 8>,
{
    for _ in 0..times {
        rng.fill(&mut *items);
    }
}

fn all_fills(works: &mut Vec<Work>) {
    let mut items = vec![0; 1000];
    works.push(work(
        "WyRand, fill of 1000 u32, an item",
        1.05,
        ITEMS,
        move || {
            fill(wyrand(), &mut items, black_box(ITEMS / 1000));
            mixed_items(&items)
        },
    ));
    let mut items = vec![0; 1000];
    works.push(work(
        "Pcg64, fill of 1000 u32, an item",
        1.05,
        ITEMS,
        move || {
            fill(pcg64(), &mut items, black_box(ITEMS / 1000));
            mixed_items(&items)
        },
    ));
    works.push(bytes_of("WyRand, fill of 4096 bytes, a byte", 4096, wyrand));
    works.push(bytes_of("Pcg64, fill of 4096 bytes, a byte", 4096, pcg64));
}

#[inline(never)]
fn fill_bytes<R: Rng<OUTPUT>, const OUTPUT: usize>(mut rng: R, bytes: &mut [u8], times: u32) {
    for _ in 0..times {
        rng.fill_bytes(&mut *bytes);
    }
}

fn bytes_of<R: Rng<OUTPUT> + 'static, const OUTPUT: usize>(
    name: &str,
    length: u32,
    rng: fn() -> R,
) -> Work {
    let mut bytes = vec![0; length as usize];
    work(name, 1.05, BYTES, move || {
        fill_bytes(rng(), &mut bytes, black_box(BYTES / length));
        mixed_items(&bytes)
    })
}

fn all_bytes_of<const ROUNDS: u8>(works: &mut Vec<Work>) {
    for (length, limit) in [(64, 1.05), (256, 0.5), (4096, 0.5)] {
        let name = format!("ChaCha{ROUNDS}, fill of {length} bytes, a byte");
        let mut bytes = vec![0; length as usize];
        works.push(work(&name, limit, BYTES, move || {
            fill_bytes(chacha::<ROUNDS>(), &mut bytes, black_box(BYTES / length));
            mixed_items(&bytes)
        }));
    }
}

// Fills five bytes repeatedly. The compiler knows this length.
#[inline(never)]
fn fives<R: Rng<OUTPUT>, const OUTPUT: usize>(mut rng: R) -> u64 {
    let mut all = 0;
    for _ in 0..black_box(DRAWS / 4) {
        let mut bytes = [0; 5];
        rng.fill_bytes(&mut bytes);
        let mut word = [0; 8];
        word[..5].copy_from_slice(&bytes);
        all = mixed(all, u64::from_le_bytes(word));
    }
    all
}

fn all_buffered(works: &mut Vec<Work>) {
    works.push(work("buffered WyRand, u8", 0.4, DRAWS, || {
        values::<u8, _, 8>(BufferedRng::new(wyrand()))
    }));
    works.push(work("buffered ChaCha20, u8", 0.4, DRAWS, || {
        values::<u8, _, 64>(BufferedRng::new(chacha::<20>()))
    }));
    works.push(work(
        "buffered WyRand, fill of 5 bytes",
        1.05,
        DRAWS / 4,
        || fives(BufferedRng::new(wyrand())),
    ));
    works.push(work(
        "buffered ChaCha20, fill of 5 bytes",
        1.05,
        DRAWS / 4,
        || fives(BufferedRng::new(chacha::<20>())),
    ));
}

fn all_of_streams<const ROUNDS: u8>(works: &mut Vec<Work>) {
    let name = format!("ChaCha{ROUNDS} stream, u64");
    works.push(work(&name, 1.05, DRAWS, || {
        values::<u64, _, GROUP>(stream::<ROUNDS>())
    }));
    let name = format!("ChaCha{ROUNDS} stream, fill of 64 bytes, a byte");
    works.push(bytes_of(&name, 64, stream::<ROUNDS>));
}

// The seeds differ, so nothing is mixed.
fn seeds() -> u64 {
    for _ in 0..black_box(SEEDS) {
        black_box(seeded());
    }
    0
}

/// All works, in the table's order.
pub fn works() -> Vec<Work> {
    let mut works = Vec::new();
    all_values(&mut works);
    works.push(work("WyRand, a seed from the system", 1.2, SEEDS, seeds));
    all_ranges(&mut works);
    all_shuffles(&mut works);
    all_fills(&mut works);
    all_bytes_of::<8>(&mut works);
    all_bytes_of::<12>(&mut works);
    all_bytes_of::<20>(&mut works);
    all_buffered(&mut works);
    all_of_streams::<8>(&mut works);
    all_of_streams::<12>(&mut works);
    all_of_streams::<20>(&mut works);
    works
}
