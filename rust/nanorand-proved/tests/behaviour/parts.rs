//! Parts of a stream, tested with code for any generator that has them. Each part begins where the
//! one before it ends, and none extends past the end of the period.

use nanorand_proved::{
    BufferedRng, ChaCha, ChaCha20Stream, ChaChaGroups, ChaChaStream, Parts, PastPeriod, Pcg64, Rng,
    WyRand,
};
use std::fmt::Debug;

const KEY: [u8; 32] = [1; 32];

const NONCE: [u8; 8] = [2; 8];

const LENGTHS: [u64; 9] = [0, 1, 2, 7, 8, 9, 63, 64, 65];

/// Tests parts with each of these numbers of draws.
fn follow_each_other<R, const N: usize>(rng: &R, lengths: &[u64])
where
    R: Parts<N> + Clone + PartialEq + Debug,
{
    for &draws in lengths {
        let mut drawn = rng.clone();
        for index in 0..12 {
            assert_eq!(rng.part(index, draws).as_ref(), Ok(&drawn), "{draws}");
            for _ in 0..draws {
                let _: u64 = drawn.generate();
            }
        }
    }
}

/// Tests, for each index, the longest part within the period, and one with one draw more.
fn end_with_the_period<R, const N: usize>(rng: &R, period: u128)
where
    R: Parts<N> + PartialEq + Debug,
{
    let beside_powers = (0..64).flat_map(|bit| [(1_u64 << bit) - 1, 1 << bit, 3 << bit]);
    for index in beside_powers.chain([274_176, 21_982_970, 193_707_720, u64::MAX]) {
        let longest = period / (u128::from(index) + 1);
        let longest = u64::try_from(longest).unwrap_or(u64::MAX);
        assert!(rng.part(index, longest).is_ok(), "{index} {longest}");
        assert_eq!(rng.part(index, 0).as_ref(), Ok(rng));
        if let Some(longer) = longest.checked_add(1) {
            assert_eq!(rng.part(index, longer), Err(PastPeriod), "{index}");
        }
    }
}

/// Compares `part` with `ahead`, which moves a generator by a number of draws in another way.
fn begin_far_away<R, const N: usize>(rng: &R, period: u128, ahead: impl Fn(&mut R, u128))
where
    R: Parts<N> + Clone + PartialEq + Debug,
{
    for bit in 0..64 {
        let index = (0x9e37_79b9_7f4a_7c15 >> bit) | 1;
        for draws in (0..64).map(|bit| (0xa076_1d64_78bd_642f >> bit) | 1) {
            let before = u128::from(index) * u128::from(draws);
            let mut wanted = Err(PastPeriod);
            if before + u128::from(draws) <= period {
                let mut there = rng.clone();
                ahead(&mut there, before);
                wanted = Ok(there);
            }
            assert_eq!(rng.part(index, draws), wanted, "{index} {draws}");
        }
    }
}

fn narrow(draws: u128) -> u64 {
    u64::try_from(draws).expect("fewer than 2^64")
}

#[test]
fn of_wyrand() {
    for seed in [0, 42, u64::MAX] {
        let rng = WyRand::new_seed(seed);
        follow_each_other(&rng, &LENGTHS);
        end_with_the_period(&rng, 1 << 64);
        begin_far_away(&rng, 1 << 64, |rng, draws| rng.jump(narrow(draws)));
    }
}

/// `state` and `inc` are those of the last draw as well.
#[test]
fn of_pcg64() {
    let mut drawn = Pcg64::new_seed(7);
    let _ = drawn.rand();
    for rng in [drawn, Pcg64::new_seed(0), Pcg64::new_seed(u128::MAX)] {
        follow_each_other(&rng, &LENGTHS);
        end_with_the_period(&rng, 1 << 126);
        begin_far_away(&rng, 1 << 126, Pcg64::jump);
    }
}

fn of_chacha<const ROUNDS: u8>() {
    for counter in [0, 5, u64::MAX - 3] {
        let rng = ChaCha::<ROUNDS>::at(KEY, NONCE, counter);
        follow_each_other(&rng, &LENGTHS);
        end_with_the_period(&rng, 1 << 64);
        begin_far_away(&rng, 1 << 64, |rng, draws| rng.jump(narrow(draws)));
    }
}

#[test]
fn of_every_chacha() {
    of_chacha::<8>();
    of_chacha::<12>();
    of_chacha::<20>();
}

/// Groups begin at multiples of eight blocks, as after a seek.
fn of_stream<const ROUNDS: u8>() {
    for (index, taken) in [(0, 0), (8, 511), (u64::MAX - 7, 3)] {
        let mut rng = ChaChaStream::<ROUNDS>::at_block(KEY, NONCE, index);
        rng.fill_bytes(&mut vec![0; taken]);
        follow_each_other(&rng, &LENGTHS);
        end_with_the_period(&rng, 1 << 67);
        begin_far_away(&rng, 1 << 67, |rng, draws| {
            rng.seek(rng.position() + 8 * draws);
        });
    }
}

// The next test has 20 rounds, which take longer.
#[test]
fn of_streams() {
    of_stream::<8>();
}

/// The buffered bytes can be any, and the group after them can begin at any block.
#[test]
fn of_all_numbers_of_buffered_bytes() {
    let mut bytes = [0; 512];
    WyRand::new_seed(5).fill_bytes(&mut bytes);
    for (buffered, index) in (0..512).zip((0..=u64::MAX).rev()) {
        let groups = ChaChaGroups::at(KEY, NONCE, index);
        let rng: ChaCha20Stream = BufferedRng::with_rest(groups, &bytes[..buffered]).expect("rest");
        follow_each_other(&rng, &[1, 6, 7, 64]);
    }
}
