//! Compares this crate with nanorand 0.7.0, by three million random calls of the same generators in
//! the same states.
//!
//! Results and states are the same, except for calls that have a listed fault of 0.7.0. Whether a
//! call has one depends only on the call. The right result is then found with calls of 0.7.0 that
//! have none. Each fault has to occur.

mod blocks;
mod faults;
mod own;
mod pair;

use faults::{caught, quiet, Faults};
use nanorand_proved::{Rng, WyRand};
use own::{Own, State};
use pair::{Buffered, Calls, Pair};

const SEEDS: u64 = 48;
const CALLS: usize = 6_000;

/// Compares a generator, alone by the first calls and in a buffer by the others.
fn check<New, Old, const SEED: usize, const OUTPUT: usize>(
    pair: Pair<New, Old, SEED, OUTPUT>,
    (calls, of_buffer): (
        Calls<Pair<New, Old, SEED, OUTPUT>>,
        Calls<Buffered<New, Old, SEED, OUTPUT>>,
    ),
    choices: &mut WyRand,
    faults: &mut Faults,
) where
    New: new::SeedableRng<SEED, OUTPUT> + State,
    Old: old::SeedableRng<SEED, OUTPUT> + State,
{
    pair.clone().agrees(&calls, CALLS, choices, faults);
    let mut buffered = pair.buffered();
    for _ in 0..10 {
        buffered.agrees(&of_buffer, CALLS / 10, choices, faults);
        buffered.reads(choices);
    }
}

macro_rules! check_all {
    ($choices:ident, $faults:ident: $($types:ident $generator:ident $(::<$rounds:literal>)? :: $new:ident($($seed:ident),+);)+) => { $({
        $( let $seed = $choices.generate(); )+
        let pair = Pair {
            new: new::$generator $(::<$rounds>)? ::$new($($seed),+),
            old: old::$generator $(::<$rounds>)? ::$new($($seed),+),
        };
        check(pair, (Calls::$types(), Calls::$types()), &mut $choices, &mut $faults);
    })+ };
}

/// No width, precision or flag changes the `Display` text of a generator, which has its address.
fn displays_plainly(generator: &impl std::fmt::Display) {
    let plain = generator.to_string();
    for text in [
        format!("{generator:60}"),
        format!("{generator:<60}"),
        format!("{generator:060}"),
        format!("{generator:#}"),
        format!("{generator:+}"),
        format!("{generator:.1}"),
    ] {
        assert_eq!(text, plain);
    }
}

#[test]
fn displays() {
    displays_plainly(&new::WyRand::new_seed(1));
    displays_plainly(&old::WyRand::new_seed(1));
    displays_plainly(&new::Pcg64::new_seed(1));
    displays_plainly(&old::Pcg64::new_seed(1));
    displays_plainly(&new::ChaCha8::new_key([1; 32], [1; 8]));
    displays_plainly(&old::ChaCha8::new_key([1; 32], [1; 8]));
    displays_plainly(&new::ChaCha20::new_key([1; 32], [1; 8]));
    displays_plainly(&old::ChaCha20::new_key([1; 32], [1; 8]));
}

/// The texts of generators with seeds whose halves, bytes or bits are zeros or ones, before and
/// after a draw.
#[test]
fn texts_of_plain_seeds() {
    for bit in 0..128 {
        for seed in [
            0,
            1_u128 << bit,
            (1 << bit) - 1,
            u128::MAX << bit,
            0x2a << bit,
        ] {
            let low = u64::try_from(seed & u128::from(u64::MAX)).expect("64 bits");
            let mut pair = (new::Pcg64::new_seed(seed), old::Pcg64::new_seed(seed));
            let mut small = (new::WyRand::new_seed(low), old::WyRand::new_seed(low));
            for _ in 0..2 {
                assert_eq!(pair.0.state(), pair.1.state());
                assert_eq!(small.0.state(), small.1.state());
                assert_eq!(new::Rng::rand(&mut pair.0), old::Rng::rand(&mut pair.1));
                assert_eq!(new::Rng::rand(&mut small.0), old::Rng::rand(&mut small.1));
            }
        }
    }
}

#[test]
fn three_million_calls() {
    quiet();
    let mut faults = Faults::new();
    for seed in 0..SEEDS {
        let mut choices = WyRand::new_seed(seed);
        check_all!(choices, faults:
            of_all_types WyRand::new_seed(seed);
            of_few_types Pcg64::new_seed(seed);
            of_few_types ChaCha::<6>::new_key(key, nonce);
            of_few_types ChaCha::<20>::new_key(key, nonce);
        );
        let own = Own { seed, stuck: 0 };
        let pair = Pair {
            new: own.clone(),
            old: own,
        };
        let all = || (Calls::of_all_types(), Calls::of_all_types());
        check(pair.clone(), all(), &mut choices, &mut faults);
        let few = (Calls::of_few_types(), Calls::of_few_types());
        check(pair.buffered(), few, &mut choices, &mut faults);
    }
    println!("{faults:?}");
    assert_eq!(faults.len(), 5, "each fault is met");
}

/// 0.7.0 draws without limit as long as words are rejected.
#[test]
fn words_without_end() {
    quiet();
    for stuck in [0, 1, 127, 128, 129, 383, 384] {
        let own = Own { seed: 1, stuck };
        let (mut new, mut old) = (own.clone(), own);
        let drawn = caught(|| new::Rng::generate_range(&mut new, 10_u8..=12));
        let number = old::Rng::generate_range(&mut old, 10_u8..=12);
        assert_eq!(drawn, (stuck < 128).then_some(number), "{stuck}");
        assert_eq!(new.stuck, stuck.saturating_sub(128), "{stuck}");
        assert_eq!(old.stuck, 0);
        // A word of an index takes two blocks.
        let shuffled = caught(|| new::Rng::shuffle(&mut new, &mut [1, 2, 3]));
        assert_eq!(shuffled.is_some(), stuck < 128 + 2 * 128, "{stuck}");
    }
}
