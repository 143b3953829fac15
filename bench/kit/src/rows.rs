//! The rows of the table: what is measured.

use crate::calls::*;
use crate::row::{Row, Work};
#[cfg(feature = "original")]
use crate::{original, original_contexts};

// The work of the old crate, if it is there.
macro_rules! old {
    ($kind:ty: $work:expr) => {{
        #[cfg(feature = "original")]
        let work: Option<$kind> = Some($work);
        #[cfg(not(feature = "original"))]
        let work: Option<$kind> = None;
        work
    }};
}

const WORDS: u64 = 1 << 20;
const BLOCKS: u64 = 1 << 14;
const BYTES: u64 = 1 << 20;
const JUMPS: u64 = 1 << 12;
const ITEMS: u64 = 100_000;

fn words(rows: &mut Vec<Row>) {
    rows.push(
        Row::new("WyRand, a word", WORDS, || {
            nanorand_bench_wyrand_u64(42, WORDS)
        })
        .original(old!(Work: Box::new(|| original::wyrand_u64(42, WORDS)))),
    );
    rows.push(
        Row::new("Pcg64, a word", WORDS, || {
            nanorand_bench_pcg64_u64(42, WORDS)
        })
        .original(old!(Work: Box::new(|| original::pcg64_u64(42, WORDS))))
        .kit(|| nanorand_bench_kit_pcg64_u64(42, WORDS)),
    );
    rows.push(
        Row::new("ChaCha8, a block", BLOCKS, || {
            nanorand_bench_chacha8_blocks(7, BLOCKS)
        })
        .original(old!(Work: Box::new(|| original::chacha_blocks::<8>(7, BLOCKS))))
        .kit(|| nanorand_bench_kit_chacha8_blocks(7, BLOCKS)),
    );
    rows.push(
        Row::new("ChaCha12, a block", BLOCKS, || {
            nanorand_bench_chacha12_blocks(7, BLOCKS)
        })
        .original(old!(Work: Box::new(|| original::chacha_blocks::<12>(7, BLOCKS))))
        .kit(|| nanorand_bench_kit_chacha12_blocks(7, BLOCKS)),
    );
    rows.push(
        Row::new("ChaCha20, a block", BLOCKS, || {
            nanorand_bench_chacha20_blocks(7, BLOCKS)
        })
        .original(old!(Work: Box::new(|| original::chacha_blocks::<20>(7, BLOCKS))))
        .kit(|| nanorand_bench_kit_chacha20_blocks(7, BLOCKS)),
    );
}

type Fill = fn(&mut [u8], u32);

// Fills a slice repeatedly, and returns a number that depends on the last fill.
fn filled(length: u64, fill: Fill) -> impl FnMut() -> u64 {
    let mut bytes = vec![0; length as usize];
    let times = (BYTES / length) as u32;
    move || {
        fill(&mut bytes, times);
        u64::from(bytes[17]) << 8 | u64::from(bytes[length as usize - 3])
    }
}

// A row of fills of one length.
fn fill_row(name: &'static str, length: u64, fill: Fill, original: Option<Fill>) -> Row {
    let original = original.map(|fill| Box::new(filled(length, fill)) as Work);
    Row::new(name, BYTES, filled(length, fill)).original(original)
}

fn fills(rows: &mut Vec<Row>) {
    const MIB: u64 = 1 << 20;
    let wyrand = old!(Fill: |out, times| original::wyrand_fill(42, out, times));
    let pcg64 = old!(Fill: |out, times| original::pcg64_fill(42, out, times));
    let chacha20 = old!(Fill: |out, times| original::chacha20_fill(7, out, times));
    let buffered = old!(Fill: |out, times| original::buffered_chacha20_fill(7, out, times));
    let pcg64_of_the_kit: Fill = |out, times| pcg64_fill_of_the_kit(42, out, times);
    let chacha20_of_the_kit: Fill = |out, times| chacha20_fill_of_the_kit(7, out, times);

    rows.push(fill_row(
        "WyRand, a byte of 1 MiB",
        MIB,
        |out, times| wyrand_fill(42, out, times),
        wyrand,
    ));
    rows.push(
        fill_row(
            "Pcg64, a byte of 1 MiB",
            MIB,
            |out, times| pcg64_fill(42, out, times),
            pcg64,
        )
        .kit(filled(MIB, pcg64_of_the_kit)),
    );
    let plain: (Fill, _) = (|out, times| chacha20_fill(7, out, times), chacha20);
    let kept: (Fill, _) = (|out, times| buffered_chacha20_fill(7, out, times), buffered);
    for (name, length, (fill, original)) in [
        ("ChaCha20, a byte of 256", 256, plain),
        ("ChaCha20, a byte of 4 KiB", 4096, plain),
        ("ChaCha20, a byte of 1 MiB", MIB, plain),
        ("buffered ChaCha20, a byte of 4 KiB", 4096, kept),
        ("buffered ChaCha20, a byte of 1 MiB", MIB, kept),
    ] {
        rows.push(fill_row(name, length, fill, original).kit(filled(length, chacha20_of_the_kit)));
    }
}

fn ranges(rows: &mut Vec<Row>) {
    for (name, size) in [("u8 below 6", 6), ("u8 below 200", 200)] {
        rows.push(
            Row::new(name, WORDS, move || {
                nanorand_bench_range_u8(42, size, WORDS)
            })
            .original(old!(Work: Box::new(move || original::range_u8(42, size, WORDS))))
            .kit(move || nanorand_bench_kit_range_u8(42, size, WORDS)),
        );
    }
    for (name, size) in [("u32 below 6", 6), ("u32 below 1000", 1000)] {
        rows.push(
            Row::new(name, WORDS, move || {
                nanorand_bench_range_u32(42, size, WORDS)
            })
            .original(old!(Work: Box::new(move || original::range_u32(42, size, WORDS))))
            .kit(move || nanorand_bench_kit_range_u32(42, size, WORDS)),
        );
    }
    for (name, size) in [
        ("u64 below 6", 6),
        ("u64 below 1000", 1000),
        ("u64 below 2^63 + 1", (1 << 63) + 1),
        ("u64 below 3 * 2^62", 3 << 62),
    ] {
        rows.push(
            Row::new(name, WORDS, move || {
                nanorand_bench_range_u64(42, size, WORDS)
            })
            .original(old!(Work: Box::new(move || original::range_u64(42, size, WORDS))))
            .kit(move || nanorand_bench_kit_range_u64(42, size, WORDS)),
        );
    }
}

type Shuffle = fn(u64, &mut [u64], u32);

// Shuffles numbers repeatedly, and returns a number that depends on the first eight.
fn shuffled(length: u64, shuffle: Shuffle) -> impl FnMut() -> u64 {
    let mut items: Vec<u64> = (0..length).collect();
    let times = (ITEMS / length) as u32;
    move || {
        shuffle(42, &mut items, times);
        items[..8].iter().fold(0, |all, item| all << 8 ^ item)
    }
}

fn shuffles(rows: &mut Vec<Row>) {
    let original = old!(Shuffle: original::shuffle);
    let calls: [(_, Shuffle); 6] = [
        ("shuffle of 10, an item", shuffle),
        ("shuffle of 1000, an item", shuffle),
        ("shuffle of 100,000, an item", shuffle),
        ("shuffle of 10 from all indices, an item", shuffle_full),
        ("shuffle of 1000 from all indices, an item", shuffle_full),
        ("shuffle of 100,000 from all indices, an item", shuffle_full),
    ];
    for ((name, call), length) in calls.into_iter().zip([10, 1000, 100_000].repeat(2)) {
        let original = original.map(|call| Box::new(shuffled(length, call)) as Work);
        rows.push(
            Row::new(name, ITEMS, shuffled(length, call))
                .original(original)
                .kit(shuffled(length, shuffle_of_the_kit)),
        );
    }
}

type Choose = fn(u64, &mut [u64], u64) -> u64;

// Chooses from a slice of numbers repeatedly.
fn chosen(length: u64, choose: Choose) -> impl FnMut() -> u64 {
    let mut items: Vec<u64> = (1..=length).collect();
    move || choose(42, &mut items, WORDS)
}

// Samples numbers below `count` repeatedly, and returns a number that depends on the last sample.
fn sampled(slots: u64, count: usize) -> impl FnMut() -> u64 {
    let mut places = vec![0; slots as usize];
    let times = (ITEMS / slots) as u32;
    move || {
        sample(42, &mut places, count, times);
        places.iter().fold(0, |all, place| all << 8 ^ *place as u64)
    }
}

type PartialShuffle = fn(u64, &mut [u64], usize, u32);

// Shuffles the first numbers of a slice repeatedly, and returns a number that depends on eight.
fn partly_shuffled(length: u64, steps: u64, shuffle: PartialShuffle) -> impl FnMut() -> u64 {
    let mut items: Vec<u64> = (0..length).collect();
    let times = (ITEMS / steps) as u32;
    move || {
        shuffle(42, &mut items, steps as usize, times);
        items[..8].iter().fold(0, |all, item| all << 8 ^ item)
    }
}

fn choices(rows: &mut Vec<Row>) {
    let original = old!(Choose: original::choose);
    let original = original.map(|call| Box::new(chosen(1000, call)) as Work);
    rows.push(
        Row::new("choose of 1000 items", WORDS, chosen(1000, choose))
            .original(original)
            .kit(chosen(1000, choose_of_the_kit)),
    );
    rows.push(Row::new(
        "choose by weight of 10 items",
        WORDS,
        chosen(10, choose_weighted),
    ));
    rows.push(Row::new(
        "sample of 10 from 1000, a number",
        ITEMS,
        sampled(10, 1000),
    ));
    rows.push(Row::new(
        "sample of 100 from 10^9, a number",
        ITEMS,
        sampled(100, 1_000_000_000),
    ));
    rows.push(
        Row::new(
            "partial shuffle of 1000, 10 steps, a step",
            ITEMS,
            partly_shuffled(1000, 10, partial_shuffle),
        )
        .kit(partly_shuffled(1000, 10, partial_shuffle_of_the_kit)),
    );
}

fn others(rows: &mut Vec<Row>) {
    rows.push(
        Row::new("buffered WyRand, a u8", WORDS, || {
            nanorand_bench_buffered_wyrand(42, WORDS)
        })
        .original(old!(Work: Box::new(|| original::buffered_wyrand(42, WORDS))))
        .kit(|| nanorand_bench_kit_pcg64_u8(42, WORDS)),
    );
    rows.push(
        Row::new("buffered ChaCha20, a u8", WORDS, || {
            nanorand_bench_buffered_chacha20(7, WORDS)
        })
        .original(old!(Work: Box::new(|| original::buffered_chacha20(7, WORDS))))
        .kit(|| nanorand_bench_kit_chacha20_u8(7, WORDS)),
    );
    rows.push(
        Row::new("Pcg64, a jump", JUMPS, || {
            nanorand_bench_pcg64_jump(42, JUMPS)
        })
        .kit(|| nanorand_bench_kit_pcg64_jump(42, JUMPS)),
    );
    rows.push(Row::new("Pcg64, a distance", JUMPS, || {
        nanorand_bench_pcg64_distance(42, JUMPS)
    }));
}

// Does a work on 1000 numbers repeatedly, and returns a number that depends on the first eight.
fn done(work: Shuffle) -> impl FnMut() -> u64 {
    shuffled(1000, work)
}

// Works with the generator behind a `&mut` parameter, and in a field.
fn contexts(rows: &mut Vec<Row>) {
    let works: [(_, Shuffle, Option<Shuffle>, Shuffle); 8] = [
        (
            "u64, behind a parameter",
            words_by_parameter,
            old!(Shuffle: original_contexts::words_by_parameter),
            words_by_parameter_of_the_kit,
        ),
        (
            "u64, in a field",
            words_by_field,
            old!(Shuffle: original_contexts::words_by_field),
            words_by_field_of_the_kit,
        ),
        (
            "u32 below 1000, behind a parameter",
            |seed, items, times| below_u32_by_parameter(seed, items, 1000, times),
            old!(Shuffle: |seed, items, times| original_contexts::below_u32_by_parameter(seed, items, 1000, times)),
            |seed, items, times| below_u32_by_parameter_of_the_kit(seed, items, 1000, times),
        ),
        (
            "u32 below 1000, in a field",
            |seed, items, times| below_u32_by_field(seed, items, 1000, times),
            old!(Shuffle: |seed, items, times| original_contexts::below_u32_by_field(seed, items, 1000, times)),
            |seed, items, times| below_u32_by_field_of_the_kit(seed, items, 1000, times),
        ),
        (
            "u64 below 1000, behind a parameter",
            |seed, items, times| below_u64_by_parameter(seed, items, 1000, times),
            old!(Shuffle: |seed, items, times| original_contexts::below_u64_by_parameter(seed, items, 1000, times)),
            |seed, items, times| below_u64_by_parameter_of_the_kit(seed, items, 1000, times),
        ),
        (
            "u64 below 1000, in a field",
            |seed, items, times| below_u64_by_field(seed, items, 1000, times),
            old!(Shuffle: |seed, items, times| original_contexts::below_u64_by_field(seed, items, 1000, times)),
            |seed, items, times| below_u64_by_field_of_the_kit(seed, items, 1000, times),
        ),
        (
            "shuffle of 1000, an item, behind a parameter",
            shuffle_by_parameter,
            old!(Shuffle: original_contexts::shuffle_by_parameter),
            shuffle_by_parameter_of_the_kit,
        ),
        (
            "shuffle of 1000, an item, in a field",
            shuffle_by_field,
            old!(Shuffle: original_contexts::shuffle_by_field),
            shuffle_by_field_of_the_kit,
        ),
    ];
    for (name, work, original, kit) in works {
        let original = original.map(|work| Box::new(done(work)) as Work);
        rows.push(
            Row::new(name, ITEMS, done(work))
                .original(original)
                .kit(done(kit)),
        );
    }
}

/// All rows, in the table's order.
pub fn all() -> Vec<Row> {
    let mut rows = Vec::new();
    words(&mut rows);
    fills(&mut rows);
    ranges(&mut rows);
    shuffles(&mut rows);
    contexts(&mut rows);
    choices(&mut rows);
    others(&mut rows);
    rows
}

/// The position of one function of each library in its 64-byte line.
pub fn places() -> [usize; 2] {
    let here = nanorand_bench_wyrand_u64 as *const () as usize;
    #[cfg(feature = "original")]
    let original = original::wyrand_u64 as *const () as usize;
    #[cfg(not(feature = "original"))]
    let original = places as *const () as usize;
    [here % 64, original % 64]
}
