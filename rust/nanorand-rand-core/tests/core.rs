//! `Core` returns what the generator inside it returns, and seeds it as `rand_core` specifies.

use nanorand_proved::{
    AnyRng, BufferedRng, ChaCha, ChaCha12, ChaCha12Stream, ChaCha20, ChaCha20Stream, ChaCha8,
    ChaCha8Stream, ChaChaStream, Pcg64, Rng, WyRand,
};
use nanorand_proved_rand_core::{ChaChaSeed, Core};
use rand_core::{CryptoRng, RngCore, SeedableRng};
use std::collections::hash_map::DefaultHasher;
use std::fmt::{Debug, Display, LowerHex, UpperHex};
use std::hash::{Hash, Hasher};

/// Does not compile if the type implements the trait: it would have two implementations of
/// `Without`.
macro_rules! lacks {
    ($kind:ty: $($name:path),+) => { $({
        trait Without<Mark> {
            fn check() {}
        }
        struct Mark;
        impl<T> Without<()> for T {}
        impl<T: $name> Without<Mark> for T {}
        <$kind as Without<_>>::check();
    })+ };
}

/// No generator is a `CryptoRng`. A `ChaChaSeed` has no text that would show its key.
#[test]
fn what_is_not_implemented() {
    lacks!(Core<WyRand, 8>: CryptoRng);
    lacks!(Core<Pcg64, 8>: CryptoRng);
    lacks!(Core<ChaCha8, 64>: CryptoRng);
    lacks!(Core<ChaCha12, 64>: CryptoRng);
    lacks!(Core<ChaCha20, 64>: CryptoRng);
    lacks!(Core<BufferedRng<ChaCha20, 64>, 64>: CryptoRng);
    lacks!(Core<ChaCha20Stream, 512>: CryptoRng);
    lacks!(ChaChaSeed: Display, LowerHex, UpperHex);
    for seed in [ChaChaSeed::default(), ChaChaSeed([0x5a; 40])] {
        assert_eq!(
            format!("{seed:?} {seed:#?}"),
            "ChaChaSeed(..) ChaChaSeed(..)"
        );
    }
}

/// The four functions of `RngCore` return what the functions of `Rng` return, and leave the same
/// state.
fn check<G: Rng<OUTPUT> + Clone + PartialEq + Debug, const OUTPUT: usize>(fresh: &G) {
    let (mut core, mut own) = (Core(fresh.clone()), fresh.clone());
    let long = [65_535, 65_536, 65_537, 1_000_003];
    for length in (0..40).chain([63, 64, 65, 255, 256, 257, 600]).chain(long) {
        assert_eq!(core.next_u32(), own.next_u32());
        assert_eq!(core.next_u64(), own.next_u64());
        let (mut some, mut again) = (vec![0; length], vec![1; length]);
        core.fill_bytes(&mut some);
        own.fill_bytes(&mut again);
        assert_eq!(some, again, "{length}");
        core.try_fill_bytes(&mut some).expect("no error");
        own.fill_bytes(&mut again);
        assert_eq!(some, again, "{length}");
        assert_eq!(core.0, own, "{length}");
    }
}

/// A lent generator draws by `Core`, and keeps its own calls.
#[test]
fn lent_generators() {
    let (mut rng, mut own) = (WyRand::seed_from_u64(42), WyRand::seed_from_u64(42));
    assert_eq!(Core(&mut rng).next_u64(), own.next_u64());
    assert_eq!(rng.range::<u64>(1..=6), own.range(1..=6));
    assert_eq!(Core(AnyRng::rng(&mut rng)).next_u32(), own.next_u32());
    assert_eq!(rng, own);
    let mut stream = ChaCha20Stream::seed_from_u64(42);
    let first = Core(&mut stream).next_u64();
    assert_eq!(first, ChaCha20Stream::seed_from_u64(42).next_u64());
}

/// A generator with blocks of any size. Each byte of a block differs from the byte before it, and
/// from that in the block before.
#[derive(Clone, Debug, Default, PartialEq)]
struct Blocks<const SIZE: usize>(u8);

impl<const SIZE: usize> Rng<SIZE> for Blocks<SIZE> {
    fn rand(&mut self) -> [u8; SIZE] {
        self.0 = self.0.wrapping_add(101);
        let mut byte = self.0;
        [(); SIZE].map(|()| {
            byte = byte.wrapping_add(1);
            byte
        })
    }
}

/// A user's own generator, and generators that own or borrow another one.
#[test]
fn generators() {
    #[derive(Clone, Debug, PartialEq)]
    struct Counter(u32);

    impl Rng<4> for Counter {
        fn rand(&mut self) -> [u8; 4] {
            self.0 += 1;
            self.0.to_le_bytes()
        }
    }

    check(&Blocks::<1>(0));
    check(&Blocks::<7>(0));
    check(&Blocks::<100>(0));
    check(&Blocks::<512>(0));
    check(&Blocks::<4096>(0));
    for seed in [0, 1, 42, u64::MAX] {
        check(&WyRand::new_seed(seed));
        check(&Pcg64::new_seed(u128::from(seed) << 60));
        check(&ChaCha8::at([3; 32], [4; 8], seed));
        check(&ChaCha12::at([3; 32], [4; 8], seed));
        check(&ChaCha20::at([3; 32], [4; 8], seed));
        check(&BufferedRng::new(WyRand::new_seed(seed)));
        check(&BufferedRng::new(ChaCha20::at([3; 32], [4; 8], seed)));
    }
    check(&ChaCha8Stream::at_block([3; 32], [4; 8], 1));
    check(&ChaCha12Stream::at_block([3; 32], [4; 8], u64::MAX));
    check(&ChaCha20Stream::at_block([3; 32], [4; 8], 0));
    check(&Counter(0));
    let mut lent = WyRand::new_seed(42);
    let word = Core(&mut lent).next_u64();
    assert_eq!(word, 12_558_987_674_375_533_620);
    assert_ne!(lent, WyRand::new_seed(42));
}

/// `Default` and `From` wrap what the inner type gives, and the compiler finds the length of the blocks.
#[test]
fn wrapped() {
    assert_eq!(Core::<_, 7>::default(), Core(Blocks::<7>(0)));
    assert_eq!(Core::from(Blocks::<7>(3)), Core(Blocks::<7>(3)));
    let word = Core::from(WyRand::new_seed(42)).next_u64();
    assert_eq!(word, 12_558_987_674_375_533_620);
    let core: Core<_, 512> = ChaCha20Stream::seed_from_u64(42).into();
    assert_eq!(core.0, ChaCha20Stream::seed_from_u64(42));
    let mut lent = WyRand::new_seed(42);
    Core::from(&mut lent).next_u64();
    assert_ne!(lent, WyRand::new_seed(42));
}

/// Two defaults have different seeds of the operating system: they are equal once in 2^64 times or less.
#[test]
fn defaults_of_the_system() {
    fn differ<G: Rng<OUTPUT> + Default + PartialEq + Debug, const OUTPUT: usize>() {
        assert_ne!(Core::<G, OUTPUT>::default(), Core::<G, OUTPUT>::default());
    }

    differ::<WyRand, 8>();
    differ::<Pcg64, 8>();
    differ::<ChaCha20, 64>();
    differ::<ChaCha20Stream, 512>();
    differ::<BufferedRng<WyRand, 8>, 8>();
}

fn hash_of<T: Hash>(value: &T) -> u64 {
    let mut hasher = DefaultHasher::new();
    value.hash(&mut hasher);
    hasher.finish()
}

/// Of these generators, which all differ, equal ones have equal hashes and different ones different hashes. Each is also
/// compared with what it is after some draws.
fn check_hashes<G, const OUTPUT: usize>(generators: &[G])
where
    G: Rng<OUTPUT> + Clone + Eq + Hash + Debug,
{
    let mut cores: Vec<_> = generators.iter().cloned().map(Core).collect();
    for generator in generators {
        let mut core = Core(generator.clone());
        core.next_u32();
        cores.push(core);
    }
    for (one, core) in cores.iter().enumerate() {
        assert_eq!(hash_of(core), hash_of(&core.0));
        assert_eq!(hash_of(core), hash_of(&core.clone()));
        for (other, another) in cores.iter().enumerate() {
            assert_eq!(core == another, one == other);
            assert_eq!(hash_of(core) == hash_of(another), one == other);
        }
    }
}

#[test]
fn hashes() {
    check_hashes(&[0, 1, 1 << 63, u64::MAX].map(WyRand::new_seed));
    check_hashes(&[0, 1, 1 << 64, u128::MAX].map(Pcg64::new_seed));
    check_hashes(&[0, 5, 1 << 63, u64::MAX - 1].map(|index| ChaCha8::at([3; 32], [4; 8], index)));
    check_hashes(&[0, 1, 1 << 63].map(|index| ChaCha20Stream::at_block([3; 32], [4; 8], index)));
    check_hashes(&[0, 1, 2].map(|seed| BufferedRng::new(WyRand::new_seed(seed))));
}

/// Two generators that came to one state by different ways are equal, and so are their hashes.
#[test]
fn hashes_of_equal_states() {
    let (mut drawn, mut jumped) = (Core(WyRand::new_seed(1)), Core(WyRand::new_seed(1)));
    for _ in 0..3 {
        drawn.next_u64();
    }
    jumped.0.jump(3);
    assert_eq!((&drawn, hash_of(&drawn)), (&jumped, hash_of(&jumped)));

    let mut drawn = Core(ChaCha20Stream::new_key([1; 32], [2; 8]));
    let mut sought = drawn.clone();
    drawn.fill_bytes(&mut [0; 700]);
    drawn.next_u32();
    sought.0.seek(500);
    sought.fill_bytes(&mut [0; 204]);
    assert_eq!((&drawn, hash_of(&drawn)), (&sought, hash_of(&sought)));
}

/// The generators can be used as trait objects of `rand_core`.
#[test]
fn trait_objects() {
    let rngs: [(Box<dyn RngCore>, u64); 4] = [
        (
            Box::new(Core(WyRand::new_seed(42))),
            12_558_987_674_375_533_620,
        ),
        (Box::new(Core(Pcg64::new_seed(0))), 0xad39_692f_3f82_753f),
        (
            Box::new(Core(ChaCha20::new_key([0; 32], [0; 8]))),
            0x903d_f1a0_ade0_b876,
        ),
        (
            Box::new(Core(BufferedRng::new(WyRand::new_seed(42)))),
            12_558_987_674_375_533_620,
        ),
    ];
    for (mut rng, word) in rngs {
        assert_eq!(rng.next_u64(), word);
    }
}

/// The seed of `ChaCha` is the key followed by the nonce.
fn chacha_of<const ROUNDS: u8>() {
    let mut seed = ChaChaSeed::default();
    assert_eq!(seed.as_mut(), [0; 40]);
    seed.as_mut().fill(1);
    seed.as_mut()[32..].fill(2);
    assert_eq!(seed.as_ref(), seed.0);
    let made = Core::from_seed(seed);
    assert_eq!(made, Core(ChaCha::<ROUNDS>::new_key([1; 32], [2; 8])));
    let made = Core::from_seed(seed);
    assert_eq!(made, Core(ChaChaStream::<ROUNDS>::new_key([1; 32], [2; 8])));
}

#[test]
fn seeds() {
    let eight = [1, 2, 3, 4, 5, 6, 7, 8];
    let made = Core::from_seed(eight);
    assert_eq!(made, Core(WyRand::new_seed(0x0807_0605_0403_0201)));
    let mut sixteen = [0; 16];
    sixteen[0] = 5;
    sixteen[15] = 3;
    let made = Core::from_seed(sixteen);
    assert_eq!(made, Core(Pcg64::new_seed((3 << 120) + 5)));
    chacha_of::<8>();
    chacha_of::<12>();
    chacha_of::<20>();
}

/// Seeds of equal bytes, and zeros and ones with one different bit.
fn plain_seeds<const SIZE: usize>() -> Vec<[u8; SIZE]> {
    let mut seeds: Vec<_> = (0..=255).map(|byte| [byte; SIZE]).collect();
    for place in 0..8 * SIZE {
        for byte in [0, 255] {
            let mut seed = [byte; SIZE];
            seed[place / 8] ^= 1 << (place % 8);
            seeds.push(seed);
        }
    }
    seeds
}

fn plain_keys_of<const ROUNDS: u8>() {
    for seed in plain_seeds() {
        let Core(rng) = Core::<ChaCha<ROUNDS>, 64>::from_seed(ChaChaSeed(seed));
        assert_eq!([&rng.key()[..], &rng.nonce()].concat(), seed);
        assert_eq!(rng.counter(), 0);
        let Core(stream) = Core::<ChaChaStream<ROUNDS>, 512>::from_seed(ChaChaSeed(seed));
        assert_eq!(stream, ChaChaStream::from_seed(seed));
        let inner = stream.inner();
        assert_eq!([&inner.key()[..], &inner.nonce()].concat(), seed);
        assert_eq!((stream.position(), stream.buffered()), (0, 0));
    }
}

/// Seeds are not changed, not even those of equal bytes.
#[test]
fn plain_seeds_are_the_state() {
    for seed in plain_seeds() {
        let Core(rng) = Core::<WyRand, 8>::from_seed(seed);
        assert_eq!(rng.seed().to_le_bytes(), seed);
    }
    for seed in plain_seeds() {
        let Core(rng) = Core::<Pcg64, 8>::from_seed(seed);
        assert_eq!(rng, Pcg64::new_seed(u128::from_le_bytes(seed)));
        assert_eq!(rng.seed().to_le_bytes(), seed);
    }
    plain_keys_of::<8>();
    plain_keys_of::<12>();
    plain_keys_of::<20>();
}

fn streams_of_a_number<const ROUNDS: u8>(number: u64) {
    let Core(stream) = Core::<ChaChaStream<ROUNDS>, 512>::seed_from_u64(number);
    assert_eq!(stream, ChaChaStream::seed_from_u64(number));
    assert_eq!(
        stream.inner().key(),
        ChaCha::<ROUNDS>::seed_from_u64(number).key()
    );
}

/// A number as seed makes the same generator as without the adapter.
#[test]
fn seeds_of_a_number() {
    for number in [0, 1, 42, u64::MAX] {
        streams_of_a_number::<8>(number);
        streams_of_a_number::<12>(number);
        streams_of_a_number::<20>(number);
        assert_eq!(
            Core::seed_from_u64(number),
            Core(WyRand::seed_from_u64(number))
        );
        assert_eq!(
            Core::seed_from_u64(number),
            Core(Pcg64::seed_from_u64(number))
        );
        assert_eq!(
            Core::seed_from_u64(number),
            Core(ChaCha8::seed_from_u64(number))
        );
        assert_eq!(
            Core::seed_from_u64(number),
            Core(ChaCha12::seed_from_u64(number))
        );
        assert_eq!(
            Core::seed_from_u64(number),
            Core(ChaCha20::seed_from_u64(number))
        );
    }
}

/// A generator seeded by another takes as many of its bytes as a seed has.
#[test]
fn seeds_from_a_generator() {
    let mut source = WyRand::new_seed(42);
    let made = Core::<Pcg64, 8>::from_rng(Core(&mut source)).expect("no error");
    let bytes = WyRand::new_seed(42).generate();
    assert_eq!(made, Core(Pcg64::from_seed(bytes)));
}

/// The requests of a stream leave no gap: whatever their lengths, they are one piece of the keystream.
fn unbroken<const ROUNDS: u8>() {
    let seed = [7; 40];
    let mut core = Core::<ChaChaStream<ROUNDS>, 512>::from_seed(ChaChaSeed(seed));
    let mut delivered = Vec::new();
    for length in (0..40).chain([63, 64, 65, 511, 512, 513, 4095, 3, 10_000, 0, 1]) {
        delivered.extend(core.next_u32().to_le_bytes());
        let mut some = vec![0; length];
        core.fill_bytes(&mut some);
        delivered.append(&mut some);
        delivered.extend(core.next_u64().to_le_bytes());
        let mut some = vec![0; length];
        core.try_fill_bytes(&mut some).expect("no error");
        delivered.append(&mut some);
        assert_eq!(core.0.position(), delivered.len() as u128);
    }
    let mut keystream = vec![0; delivered.len()];
    ChaCha::<ROUNDS>::from_seed(seed).fill_bytes(&mut keystream);
    assert!(delivered == keystream);
}

#[test]
fn streams_keep_no_gap() {
    unbroken::<8>();
    unbroken::<12>();
    unbroken::<20>();
}
