//! Optional and wrapping values are drawn as what they hold.

use nanorand_proved::{ChaCha8, RandomGen, Rng, WyRand};
use std::fmt::Debug;
use std::num::Wrapping;

fn is_drawn_in_turn<T, G, const N: usize>(fresh: &G)
where
    T: RandomGen<G, N> + Debug + PartialEq,
    G: Rng<N> + Clone + Debug + PartialEq,
{
    let (mut rng, mut same) = (fresh.clone(), fresh.clone());
    for _ in 0..100 {
        let drawn: Option<T> = rng.generate();
        let there: bool = same.generate();
        assert_eq!(drawn, there.then(|| same.generate()));
        assert_eq!(rng, same);
        let wrapping: Wrapping<T> = rng.generate();
        assert_eq!(wrapping, Wrapping(same.generate()));
    }
    assert_eq!(rng, same);
}

#[test]
fn values_are_drawn_in_turn() {
    let (wyrand, chacha) = (WyRand::new_seed(42), ChaCha8::new_key([1; 32], [2; 8]));
    is_drawn_in_turn::<u8, _, 8>(&wyrand);
    is_drawn_in_turn::<u32, _, 8>(&wyrand);
    is_drawn_in_turn::<i128, _, 8>(&wyrand);
    is_drawn_in_turn::<char, _, 8>(&wyrand);
    is_drawn_in_turn::<Option<u16>, _, 64>(&chacha);
    is_drawn_in_turn::<(bool, u64), _, 64>(&chacha);
}
