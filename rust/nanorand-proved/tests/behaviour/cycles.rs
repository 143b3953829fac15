//! Jumps and distances, and the two numbers that `Pcg64` keeps besides its seed.

use nanorand_proved::{Pcg64, Rng, SeedableRng, WyRand};

/// The seed of `Pcg64` after one draw from the seed 0.
const FIRST: u128 = 0x3b1d_d060_ff2f_d1e0_9624_b94f_c0ad_a4df;

const AFTER_ONE_DRAW: &str = "Pcg64 { seed: 0x3b1dd060ff2fd1e09624b94fc0ada4df, state: 0x3b1dd060ff2fd1e09624b94fc0ada4df, inc: 0x1 }";

#[test]
fn a_new_seed_leaves_state_and_inc() {
    let mut rng = Pcg64::new_seed(0);
    let first = rng.rand();
    rng.reseed([0; 16]);
    assert_eq!(
        format!("{rng:?}"),
        "Pcg64 { seed: 0x0, state: 0x3b1dd060ff2fd1e09624b94fc0ada4df, inc: 0x1 }"
    );
    assert_eq!(rng.rand(), first);
    assert_eq!(format!("{rng:?}"), AFTER_ONE_DRAW);
}

/// `state` and `inc` are those of the last draw as well.
#[test]
fn a_jump_is_its_draws() {
    for seed in [0, 42, 1 << 127] {
        let mut drawn = Pcg64::new_seed(seed);
        for draws in 0..=1000 {
            let mut jumped = Pcg64::new_seed(seed);
            jumped.jump(draws);
            assert_eq!(jumped, drawn, "{draws}");
            let _ = drawn.rand();
        }
    }
}

/// For most of these, a search through all numbers of draws would take too long.
#[test]
fn distances_of_wyrand() {
    for (start, end, draws) in [
        (0, 0xa076_1d64_78bd_642f, 1),
        (0xa076_1d64_78bd_642f, 0, u64::MAX),
        (0, 1 << 63, 1 << 63),
        (u64::MAX, u64::MAX, 0),
    ] {
        let mut rng = WyRand::new_seed(start);
        assert_eq!(rng.distance(&WyRand::new_seed(end)), draws, "{start} {end}");
        rng.jump(draws);
        assert_eq!(rng.seed(), end);
    }
}

/// A jump by the distance leads to the second seed.
#[test]
fn distances_of_pcg64() {
    for (start, end, draws) in [
        (5, (1 << 127) + 5, Some(1 << 125)),
        (0, 1, None),
        (0, 0, Some(0)),
        (0, FIRST, Some(1)),
        (FIRST, 0, Some((1 << 126) - 1)),
        (5, 3, None),
    ] {
        let mut rng = Pcg64::new_seed(start);
        let distance = rng.distance(&Pcg64::new_seed(end));
        assert_eq!(distance, draws, "{start} {end}");
        if let Some(draws) = draws {
            rng.jump(draws);
            assert_eq!(rng.seed(), end);
        }
    }
}

/// An even number of draws leads from a seed to those that are equal to it modulo 8, an odd number
/// of draws to those whose sum with it is 7 modulo 8, and no number of draws to any other.
#[test]
fn distances_of_small_seeds() {
    for (start, end) in (0..8).flat_map(|start| (0..16).map(move |end| (start, end))) {
        let mut rng = Pcg64::new_seed(start);
        let distance = rng.distance(&Pcg64::new_seed(end));
        let is_equal = start == end % 8;
        let is_near = is_equal || (start + end) % 8 == 7;
        assert_eq!(distance.is_some(), is_near, "{start} {end}");
        if let Some(draws) = distance {
            assert_eq!(draws % 2 == 0, is_equal, "{start} {end}");
            rng.jump(draws);
            assert_eq!(rng.seed(), end);
        }
    }
}

/// The distance depends on the seeds alone, not on `state` and `inc`.
#[test]
fn distances_after_draws() {
    let mut drawn = Pcg64::new_seed(5);
    drawn.jump(1000);
    assert_eq!(Pcg64::new_seed(5).distance(&drawn), Some(1000));
    let back = drawn.distance(&Pcg64::new_seed(5));
    assert_eq!(back, Some((1 << 126) - 1000));
}

/// Among the seeds 0 to 7, draws lead from seed s to s and to 7 - s, and to no other.
#[test]
fn four_cycles() {
    for start in 0..8 {
        for end in 0..8 {
            let mut rng = Pcg64::new_seed(start);
            let distance = rng.distance(&Pcg64::new_seed(end));
            assert_eq!(distance.is_some(), start == end || start + end == 7);
            if let Some(draws) = distance {
                rng.jump(draws);
                assert_eq!(rng.seed(), end);
            }
        }
    }
}
