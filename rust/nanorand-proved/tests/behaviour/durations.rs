//! Durations are drawn as numbers of nanoseconds, by words of 64 or of 128 bits.

use crate::common::{zeros, Constant};
use nanorand_proved::RangeError::{self, Empty, Exhausted};
use nanorand_proved::{ChaCha20Stream, Pcg64, Rng, WyRand};
use std::fmt::Debug;
use std::ops::Bound::{self, Excluded, Included, Unbounded};
use std::time::Duration;

const NANOSECOND: Duration = Duration::from_nanos(1);

/// A range of durations draws as the range of its nanoseconds: in `u64` if both bounds have 64 bits, else in `u128`.
fn are_nanoseconds<G: Rng<N> + Clone + Debug + PartialEq, const N: usize>(mut rng: G) {
    let mut same = rng.clone();
    let longest = Duration::from_nanos(u64::MAX);
    let ends = [
        NANOSECOND,
        Duration::from_millis(250),
        Duration::from_nanos(u64::MAX - 1),
        longest,
        longest + NANOSECOND,
        Duration::MAX,
    ];
    for low in ends {
        for high in ends {
            for low in [Included(low), Excluded(low), Unbounded] {
                for high in [Included(high), Excluded(high), Unbounded] {
                    let drawn = rng.generate_range((low, high));
                    let drawn = drawn.map(|drawn| drawn.as_nanos());
                    assert_eq!(drawn, expected(&mut same, low, high), "{low:?} {high:?}");
                    assert_eq!(rng, same);
                }
            }
        }
    }
    let any: Duration = rng.generate();
    let most = Duration::MAX.as_nanos();
    assert_eq!(Ok(any.as_nanos()), same.generate_range(..=most));
    assert_eq!(rng, same);
}

fn expected<G: Rng<N>, const N: usize>(
    rng: &mut G,
    low: Bound<Duration>,
    high: Bound<Duration>,
) -> Result<u128, RangeError> {
    let (first, last) = (nanoseconds(low), nanoseconds(high));
    if let (Some(first), Some(last)) = (narrow(first), narrow(last)) {
        if last != Unbounded {
            return rng.generate_range((first, last)).map(u128::from);
        }
    }
    let last = match last {
        Unbounded => Included(Duration::MAX.as_nanos()),
        last => last,
    };
    rng.generate_range((first, last))
}

fn nanoseconds(bound: Bound<Duration>) -> Bound<u128> {
    match bound {
        Included(duration) => Included(duration.as_nanos()),
        Excluded(duration) => Excluded(duration.as_nanos()),
        Unbounded => Unbounded,
    }
}

fn narrow(bound: Bound<u128>) -> Option<Bound<u64>> {
    match bound {
        Included(count) => count.try_into().ok().map(Included),
        Excluded(count) => count.try_into().ok().map(Excluded),
        Unbounded => Some(Unbounded),
    }
}

#[test]
fn ranges_are_those_of_nanoseconds() {
    are_nanoseconds(WyRand::new_seed(42));
    are_nanoseconds(Pcg64::new_seed(42));
    are_nanoseconds(ChaCha20Stream::new_key([1; 32], [2; 8]));
}

#[test]
fn ends_and_errors() {
    let longest = Constant::new(255).generate_range(Duration::ZERO..);
    assert_eq!(longest, Ok(Duration::MAX));
    assert_eq!(Constant::new(255).generate::<Duration>(), Duration::MAX);
    let mut rng = zeros();
    assert_eq!(rng.generate_range(NANOSECOND..NANOSECOND), Err(Empty));
    assert_eq!(rng.generate_range(..Duration::ZERO), Err(Empty));
    let past = (Excluded(Duration::MAX), Unbounded);
    assert_eq!(rng.generate_range(past), Err(Empty));
    assert_eq!(rng.drawn(), 0);
    assert_eq!(rng.generate_range(..3 * NANOSECOND), Err(Exhausted));
    assert_eq!(rng.drawn(), 128);
    let long = Duration::from_secs(u64::MAX);
    assert_eq!(rng.generate_range(..long), Err(Exhausted));
    assert_eq!(rng.drawn(), 128 + 256);
    assert_eq!(rng.generate::<Duration>(), Duration::ZERO);
    assert_eq!(rng.drawn(), 128 + 512);
}
