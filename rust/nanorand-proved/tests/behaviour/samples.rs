//! Samples, compared with Floyd's algorithm, with tables of every length, whole and in pieces.

use crate::common::{rising, Script};
use nanorand_proved::samples::{extend_sample, sample, sample_with};
use nanorand_proved::{ChaCha20Stream, Pcg64, RangeError, Rng, WyRand};

/// Floyd's algorithm: for the last `length` values j below `count`, adds a number drawn from 0 to
/// j, or j if that number is in the sample already.
fn by_the_rule<G: Rng<N>, const N: usize>(rng: &mut G, count: usize, length: usize) -> Vec<usize> {
    let mut numbers = Vec::new();
    for last in count - length..count {
        let drawn = rng.generate_range(0..=last).expect("a number");
        numbers.push(if numbers.contains(&drawn) {
            last
        } else {
            drawn
        });
    }
    numbers
}

/// Counts for a length, of which all are drawn, all but one, some, or few.
fn counts(length: usize) -> [usize; 6] {
    let more = [length, length + 1, 2 * length + 3, length * length + 7];
    [more[0], more[1], more[2], more[3], 1 << 31, usize::MAX]
}

fn check<G>(start: &G, length: usize, count: usize, rooms: &[usize])
where
    G: Rng<8> + Clone + PartialEq + core::fmt::Debug,
{
    let mut after = start.clone();
    let numbers = by_the_rule(&mut after, count, length);
    let mut places = vec![usize::MAX; length];
    let mut rng = start.clone();
    assert_eq!(rng.sample(count, &mut places), Ok(()));
    assert_eq!((&places, &rng), (&numbers, &after), "{length} of {count}");
    for &room in rooms {
        // The old contents of the table do not matter.
        for item in [0, 1, usize::MAX] {
            let (mut rng, mut places) = (start.clone(), vec![7; length]);
            let mut table = vec![item; room];
            let answer = sample_with(&mut rng, count, &mut places, &mut table);
            assert_eq!(answer, Ok(()));
            assert_eq!((&places, &rng), (&numbers, &after), "{length} {room}");
        }
    }
}

#[test]
fn tables_of_every_length() {
    for length in 0..12 {
        for count in counts(length) {
            let rooms: Vec<usize> = (0..4 * length + 3).collect();
            check(&WyRand::new_seed(5), length, count, &rooms);
            check(&Pcg64::new_seed(5), length, count, &rooms);
        }
    }
}

#[test]
fn samples_of_every_length() {
    for length in (12..70).chain([127, 128, 129, 300]) {
        for count in counts(length) {
            let rooms = [0, length, length + 1, 2 * length, 3 * length, 5 * length];
            check(&WyRand::new_seed(6), length, count, &rooms);
        }
    }
}

/// Filled slots are kept, whatever they hold. The others are drawn as if the filled ones had been
/// drawn as well.
#[test]
fn pieces_of_every_length() {
    let start = ChaCha20Stream::new_key([5; 32], [0; 8]);
    for length in 0..20 {
        for count in counts(length) {
            let mut after = start.clone();
            let mut numbers = vec![0; length];
            assert_eq!(sample(&mut after, count, &mut numbers), Ok(()));
            for first in 0..=length {
                let (mut rng, mut places) = (start.clone(), vec![7; length]);
                let mut table = vec![9; 3 * length];
                let less = count - (length - first);
                let answer = extend_sample(&mut rng, less, &mut places[..first], 0, &mut table);
                assert_eq!(answer, Ok(()));
                assert_eq!(places[..first], numbers[..first]);
                assert!(places[first..].iter().all(|&place| place == 7));
                for room in [0, 3 * length] {
                    let (mut rng, mut places) = (rng.clone(), places.clone());
                    let table = &mut table[..room];
                    let answer = extend_sample(&mut rng, count, &mut places, first, table);
                    assert_eq!(answer, Ok(()));
                    assert_eq!((&places, &rng), (&numbers, &after));
                }
            }
        }
    }
}

/// Filled slots may hold any numbers. The drawn numbers differ from them.
#[test]
fn slots_that_no_sample_left() {
    for room in [0, 9, 100] {
        let mut places = [3, usize::MAX, 3, 0, 0, 0];
        let (mut rng, mut same) = (WyRand::new_seed(8), WyRand::new_seed(8));
        let answer = extend_sample(&mut rng, 8, &mut places, 3, &mut vec![1; room]);
        assert_eq!(answer, Ok(()));
        assert_eq!(places[..3], [3, usize::MAX, 3]);
        let mut numbers = vec![3, usize::MAX, 3];
        for last in 5..8 {
            let drawn = same.generate_range(0..=last).expect("a number");
            numbers.push(if numbers.contains(&drawn) {
                last
            } else {
                drawn
            });
        }
        assert_eq!((&places[..], &rng), (&numbers[..], &same), "{room}");
    }
}

/// Long samples. Without std a sample of k numbers takes time O(k^2), so they are shorter.
#[test]
fn many_of_many() {
    let most = if cfg!(feature = "std") {
        100_000
    } else {
        2_000
    };
    for (count, length) in [(1_000_000, most), (most, most), (1 << 30, most.min(65_537))] {
        let mut places = vec![0; length];
        assert_eq!(WyRand::new_seed(9).sample(count, &mut places), Ok(()));
        places.sort_unstable();
        assert!(places.windows(2).all(|pair| pair[0] < pair[1]));
        assert!(places.iter().all(|&place| place < count));
        assert!(count > length || places == rising(length));
    }
}

/// A sample of three from 7 draws numbers below 5, 6 and 7, which all reject zeros. The slots from
/// the failed draw on stay unchanged.
#[test]
fn a_sample_refused_at_each_draw() {
    let refused = Err(RangeError::Exhausted);
    let rows = [
        (0, refused, [99, 98, 97], 128),
        (1, refused, [1, 98, 97], 129),
        (2, refused, [1, 4, 97], 130),
        (3, Ok(()), [1, 4, 0], 3),
    ];
    for (draws, answer, left, drawn) in rows {
        for room in 0..12 {
            let mut script = Script::new(&[76, 192, 18][..draws]);
            let mut places = [99, 98, 97];
            let given = sample_with(&mut script, 7, &mut places, &mut vec![5; room]);
            assert_eq!((given, places), (answer, left));
            assert_eq!(script.drawn(), drawn);
        }
        let mut script = Script::new(&[76, 192, 18][..draws]);
        let mut places = [99, 98, 97];
        assert_eq!(sample(&mut script, 7, &mut places), answer);
        assert_eq!(places, left);
        assert_eq!(script.drawn(), drawn);
    }
}

/// Samples are distinct numbers below the count.
#[test]
fn a_sample_holds_no_number_twice() {
    for seed in 0..20 {
        let mut places = [usize::MAX; 20];
        let mut rng = WyRand::new_seed(seed);
        assert_eq!(sample(&mut rng, 25, &mut places), Ok(()));
        places.sort_unstable();
        assert!(places.windows(2).all(|pair| pair[0] < pair[1]), "{seed}");
        assert!(places.iter().all(|place| *place < 25), "{seed}");
    }
}
