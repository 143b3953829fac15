//! Each call of `dyn AnyRng` is that of `Rng`.

use crate::common::{rising, Constant, Rising};
use nanorand_proved::{AnyRng, BufferedRng, ChaCha20Stream, ChaCha8, Pcg64, Rng, WyRand};
use std::fmt::Debug;
use std::time::Duration;

/// Both generators return the same and are left in the same state, call by call.
fn agree<G, const N: usize>(mut rng: G)
where
    G: Rng<N> + AnyRng + Clone + Debug + PartialEq,
{
    let mut same = rng.clone();
    for count in 5..30_usize {
        numbers(&mut rng, &mut same, count);
        assert_eq!(rng, same, "numbers, {count}");
        items(&mut rng, &mut same, count);
        assert_eq!(rng, same, "items, {count}");
    }
}

fn numbers<G: Rng<N>, const N: usize>(any: &mut dyn AnyRng, same: &mut G, count: usize) {
    let (mut bytes, mut same_bytes) = ([0; 70], [0; 70]);
    any.fill_bytes(&mut bytes[..count]);
    same.fill_bytes(&mut same_bytes[..count]);
    assert_eq!(bytes, same_bytes);
    assert_eq!(any.generate::<u16>(), same.generate());
    assert_eq!(any.generate::<(char, bool)>(), same.generate());
    assert_eq!(any.generate::<[u32; 5]>(), same.generate::<[u32; 5]>());
    assert_eq!(any.generate::<Option<i8>>(), same.generate());
    let drawn: Vec<u64> = any.generate_iter().take(count).collect();
    let expected: Vec<u64> = same.generate_iter().take(count).collect();
    assert_eq!(drawn, expected);
    let (mut values, mut same_values) = ([0_i16; 30], [0_i16; 30]);
    any.fill(&mut values[..count]);
    same.fill(&mut same_values[..count]);
    assert_eq!(values, same_values);
    assert_eq!(any.generate_range(3..count), same.generate_range(3..count));
    assert_eq!(any.range(-4..=9_i32), same.range(-4..=9));
    assert_eq!(any.generate_range_or_panic('a'..), same.range('a'..));
    let float: f64 = any.range(0.5..1.5);
    assert_eq!(float.to_bits(), same.range(0.5..1.5_f64).to_bits());
    let second = Duration::from_secs(1);
    assert_eq!(any.range(..second), same.range(..second));
    assert_eq!(any.gen_bool(0.3), same.gen_bool(0.3));
    assert_eq!(any.alphanumeric(), same.alphanumeric());
    assert_eq!(any.ratio(2, 3), same.ratio(2, 3));
    assert_eq!(any.ratio_or_panic(2, 3), same.ratio_or_panic(2, 3));
    assert_eq!(
        (any.next_u32(), any.next_u64()),
        (same.next_u32(), same.next_u64())
    );
}

fn items<G: Rng<N>, const N: usize>(any: &mut dyn AnyRng, same: &mut G, count: usize) {
    let (mut left, mut right) = (rising(30), rising(30));
    assert_eq!(any.shuffle(&mut left), same.shuffle(&mut right));
    any.shuffle_or_panic(&mut left[..count]);
    same.shuffle_or_panic(&mut right[..count]);
    any.permute(&mut left[count..]);
    same.permute(&mut right[count..]);
    assert_eq!(
        any.partial_shuffle(&mut left, 4),
        same.partial_shuffle(&mut right, 4)
    );
    any.partial_shuffle_or_panic(&mut left, count);
    same.partial_shuffle_or_panic(&mut right, count);
    assert_eq!(any.choose(&left), same.choose(&right));
    assert_eq!(any.choose_or_panic(&left), same.choose_or_panic(&right));
    *any.choose_mut(&mut left).expect("items") = count;
    *same.choose_mut(&mut right).expect("items") = count;
    *any.choose_mut_or_panic(&mut left) = 0;
    *same.choose_mut_or_panic(&mut right) = 0;
    assert_eq!(left, right);
    let weights = &[0, 5, 1, 7, 2][..count.min(5)];
    assert_eq!(any.choose_weighted(weights), same.choose_weighted(weights));
    let index = any.choose_weighted_or_panic(weights);
    assert_eq!(index, same.choose_weighted_or_panic(weights));
    let (mut places, mut same_places) = ([0; 20], [0; 20]);
    for slots in [0, 1, 5] {
        let drawn = any.sample(count, &mut places[..slots]);
        assert_eq!(drawn, same.sample(count, &mut same_places[..slots]));
        any.sample_or_panic(count, &mut places[..slots]);
        same.sample_or_panic(count, &mut same_places[..slots]);
    }
    assert_eq!(places, same_places);
}

#[test]
fn calls_of_a_trait_object_are_those_of_the_generator() {
    agree(WyRand::new_seed(42));
    agree(Pcg64::new_seed(42));
    agree(ChaCha8::new_key([1; 32], [2; 8]));
    agree(ChaCha20Stream::new_key([1; 32], [2; 8]));
    agree(BufferedRng::new(Rising::<3>::new()));
}

#[test]
fn errors_are_those_of_the_generator() {
    let (mut rng, mut same) = (Constant::new(0), Constant::new(0));
    let mut lent = rng.as_any();
    let any = lent.rng();
    assert_eq!(any.generate_range(5..5_u8), same.generate_range(5..5_u8));
    assert_eq!(any.generate_range(0..3_u8), same.generate_range(0..3_u8));
    assert_eq!(any.shuffle(&mut [1, 2, 3]), same.shuffle(&mut [1, 2, 3]));
    let partial = any.partial_shuffle(&mut [1, 2, 3], 1);
    assert_eq!(partial, same.partial_shuffle(&mut [1, 2, 3], 1));
    assert_eq!(any.choose::<u8>(&[]), same.choose::<u8>(&[]));
    assert_eq!(
        any.choose_mut(&mut [1, 2, 3]),
        same.choose_mut(&mut [1, 2, 3])
    );
    assert_eq!(any.choose_weighted(&[0]), same.choose_weighted(&[0]));
    assert_eq!(any.ratio(1, 0), same.ratio(1, 0));
    assert_eq!(any.sample(9, &mut [1; 3]), same.sample(9, &mut [1; 3]));
    assert_eq!(rng, same);
}
