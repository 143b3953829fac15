//! The README's recipe for `rand_core` 0.10, over the traits of that version. They are restated here from its
//! documentation, as the crate itself is not available where these tests run: signatures, supertraits and blanket
//! implementations are meant to be the same, and so is what the provided functions return.

// The recipe imports its traits from `rand_core`. In this program that is the program itself, and not version 0.6.
extern crate self as rand_core;

#[path = "recipes/rand_core_0_10.rs"]
#[rustfmt::skip] // One line for each function, as in the README.
mod recipe;

use nanorand_proved::{ChaCha, ChaCha20, ChaCha20Stream, Pcg64, WyRand};
use nanorand_proved_rand_core::ChaChaSeed;
use recipe::Core;
use std::convert::Infallible;
use std::error::Error;
use std::fmt::Debug;
use std::ops::DerefMut;

trait TryRng {
    type Error: Error;

    fn try_next_u32(&mut self) -> Result<u32, Self::Error>;
    fn try_next_u64(&mut self) -> Result<u64, Self::Error>;
    fn try_fill_bytes(&mut self, dst: &mut [u8]) -> Result<(), Self::Error>;
}

impl<R: DerefMut> TryRng for R
where
    R::Target: TryRng,
{
    type Error = <R::Target as TryRng>::Error;

    fn try_next_u32(&mut self) -> Result<u32, Self::Error> {
        self.deref_mut().try_next_u32()
    }

    fn try_next_u64(&mut self) -> Result<u64, Self::Error> {
        self.deref_mut().try_next_u64()
    }

    fn try_fill_bytes(&mut self, dst: &mut [u8]) -> Result<(), Self::Error> {
        self.deref_mut().try_fill_bytes(dst)
    }
}

trait Rng: TryRng<Error = Infallible> {
    fn next_u32(&mut self) -> u32;
    fn next_u64(&mut self) -> u64;
    fn fill_bytes(&mut self, dst: &mut [u8]);
}

impl<R: TryRng<Error = Infallible> + ?Sized> Rng for R {
    fn next_u32(&mut self) -> u32 {
        infallible(self.try_next_u32())
    }

    fn next_u64(&mut self) -> u64 {
        infallible(self.try_next_u64())
    }

    fn fill_bytes(&mut self, dst: &mut [u8]) {
        infallible(self.try_fill_bytes(dst));
    }
}

fn infallible<T>(result: Result<T, Infallible>) -> T {
    match result {
        Ok(value) => value,
        Err(never) => match never {},
    }
}

trait SeedableRng: Sized {
    type Seed: Clone + Default + AsRef<[u8]> + AsMut<[u8]>;

    fn from_seed(seed: Self::Seed) -> Self;

    /// The provided function of the crate mixes the number by PCG32. The recipe replaces it.
    fn seed_from_u64(_state: u64) -> Self {
        unreachable!("the recipe has its own")
    }

    fn from_rng<R: Rng + ?Sized>(rng: &mut R) -> Self {
        let mut seed = Self::Seed::default();
        rng.fill_bytes(seed.as_mut());
        Self::from_seed(seed)
    }

    fn try_from_rng<R: TryRng + ?Sized>(rng: &mut R) -> Result<Self, R::Error> {
        let mut seed = Self::Seed::default();
        rng.try_fill_bytes(seed.as_mut())?;
        Ok(Self::from_seed(seed))
    }

    fn fork(&mut self) -> Self
    where
        Self: Rng,
    {
        Self::from_rng(self)
    }
}

fn word<R: Rng>(mut rng: R) -> u64 {
    rng.next_u64()
}

/// The calls draw what those of the generator itself draw, also behind a reference, in a box and as calls that may fail.
fn check<G, const OUTPUT: usize>(fresh: &G)
where
    G: nanorand_proved::Rng<OUTPUT> + Clone + PartialEq + Debug,
{
    let (mut core, mut own) = (Core(fresh.clone()), fresh.clone());
    for length in [0, 1, 7, 8, 9, 63, 64, 65, 511, 513] {
        let (mut some, mut again) = (vec![0; length], vec![1; length]);
        assert_eq!(core.next_u32(), own.next_u32());
        assert_eq!(word(&mut core), own.next_u64());
        core.fill_bytes(&mut some);
        own.fill_bytes(&mut again);
        assert_eq!(some, again);
        let rng: &mut dyn Rng<Error = Infallible> = &mut core;
        assert_eq!(rng.try_next_u32(), Ok(own.next_u32()));
        assert_eq!(rng.try_next_u64(), Ok(own.next_u64()));
        assert_eq!(rng.try_fill_bytes(&mut some), Ok(()));
        own.fill_bytes(&mut again);
        assert_eq!(some, again);
        assert_eq!(core.0, own);
    }
    let mut boxed: Box<dyn Rng<Error = Infallible>> = Box::new(Core(fresh.clone()));
    assert_eq!(boxed.next_u64(), fresh.clone().next_u64());
}

#[test]
fn generators() {
    check(&WyRand::new_seed(42));
    check(&Pcg64::new_seed(42));
    check(&ChaCha20Stream::new_key([1; 32], [2; 8]));
}

#[test]
fn seeds() {
    for number in [0, 1, 42, u64::MAX] {
        let Core(rng) = Core::<WyRand, 8>::seed_from_u64(number);
        assert_eq!(rng, WyRand::seed_from_u64(number));
        let Core(rng) = Core::<WyRand, 8>::from_seed(number.to_le_bytes());
        assert_eq!(rng, WyRand::new_seed(number));
    }
    let mut source = Core(Pcg64::new_seed(42));
    let mut words = Core(Pcg64::new_seed(42));
    let Core(rng) = Core::<WyRand, 8>::from_rng(&mut source);
    assert_eq!(rng, WyRand::new_seed(words.next_u64()));
    let made = Core::<WyRand, 8>::try_from_rng(&mut source);
    assert_eq!(made, Ok(Core(WyRand::new_seed(words.next_u64()))));
    let mut source = Core(WyRand::new_seed(42));
    let Core(rng) = source.fork();
    assert_eq!(rng, WyRand::new_seed(12_558_987_674_375_533_620));
}

// The two impls that the README describes.
impl SeedableRng for Core<Pcg64, 8> {
    type Seed = [u8; 16];

    fn from_seed(seed: [u8; 16]) -> Self {
        Core(Pcg64::from_seed(seed))
    }
}

impl<const ROUNDS: u8> SeedableRng for Core<ChaCha<ROUNDS>, 64> {
    type Seed = ChaChaSeed;

    fn from_seed(seed: ChaChaSeed) -> Self {
        Core(ChaCha::from_seed(seed.0))
    }
}

#[test]
fn longer_seeds() {
    let mut bytes = [0; 56];
    let mut source = Core(ChaCha20Stream::new_key([1; 32], [2; 8]));
    source.fill_bytes(&mut bytes);
    source.0.seek(0);
    let Core(rng) = Core::<Pcg64, 8>::from_rng(&mut source);
    assert_eq!(rng.seed().to_le_bytes(), bytes[..16]);
    let Core(rng) = Core::<ChaCha20, 64>::from_rng(&mut source);
    assert_eq!([&rng.key()[..], &rng.nonce()].concat(), bytes[16..]);
}
