//! A client that names everything that is public in nanorand 0.7.0. It is compiled with 0.7.0 and
//! with this crate, for several sets of features, and as a program without std.
#![no_std]

#[cfg(feature = "std")]
extern crate std;

use core::fmt::{Debug, Display};
use core::ops::{Bound, RangeBounds};
use nanorand::crypto::chacha::{chacha_block, chacha_increment_counter, chacha_init};
use nanorand::{gen, rand, RandomGen, RandomRange, Rng, SeedableRng};

/// All calls of a generator, with each form of their arguments and with explicit type parameters.
pub fn calls<R: Rng<OUTPUT>, const OUTPUT: usize>(rng: &mut R) -> [u8; OUTPUT] {
    let (mut bytes, mut words) = ([0_u8; 9], [0_u32; 3]);
    rng.fill_bytes([0_u8; 4]);
    rng.fill_bytes::<&mut [u8]>(&mut bytes[2..]);
    rng.fill_bytes(&mut bytes);
    rng.fill::<u8, _>([0_u8; 4]);
    rng.fill::<u32, &mut [u32; 3]>(&mut words);
    rng.fill(&mut [false; 3]);
    rng.shuffle::<u32, _>([1_u32, 2, 3]);
    rng.shuffle(&mut words[..]);
    let _ = rng.generate_range::<u64, _>(..);
    let _ = rng.generate_range::<i8, core::ops::Range<i8>>(-4..5);
    let _: usize = rng.generate_range(3..=4);
    let _: isize = rng.generate_range(..=4);
    let _: u16 = rng.generate_range(4..);
    let _: u8 = rng.generate_range((Bound::Excluded(3), Bound::Included(4)));
    let _ = rng.generate_range(-50..50); // i32
    let _: (u32, i16, i64) = (
        rng.generate_range(..3),
        i16::random_range(rng, 1..3),
        <i64 as RandomRange<R, OUTPUT>>::random_range(rng, 1..3),
    );
    let _: (f32, f64, bool) = (rng.generate(), rng.generate(), rng.generate());
    let _: (u8, u16, u32) = (rng.generate(), rng.generate(), rng.generate());
    let _: (u64, u128, usize) = (rng.generate(), rng.generate(), usize::random(rng));
    let _: (i8, i16, i32) = (rng.generate(), rng.generate(), rng.generate());
    let _: (i64, i128) = (rng.generate(), rng.generate());
    let _ = <isize as RandomGen<R, OUTPUT>>::random(rng);
    let Pips(_) = rng.generate();
    let Pips(_) = rng.generate_range(Pips(1)..Pips(6));
    rng.clone().rand()
}

/// A user's own value type.
pub struct Pips(pub u8);

impl<R: rand::Rng<OUTPUT>, const OUTPUT: usize> gen::RandomGen<R, OUTPUT> for Pips {
    fn random(rng: &mut R) -> Self {
        Self(rng.generate_range(1..=6))
    }
}

impl<R: rand::Rng<OUTPUT>, const OUTPUT: usize> gen::RandomRange<R, OUTPUT> for Pips {
    fn random_range<Bounds: RangeBounds<Self>>(rng: &mut R, range: Bounds) -> Self {
        match (range.start_bound(), range.end_bound()) {
            (Bound::Included(low), _) => Self(rng.generate_range(low.0..7)),
            _ => rng.generate(),
        }
    }
}

/// A user's own generator, with its own `fill_bytes`.
#[derive(Clone)]
pub struct Counter(pub u8);

impl Rng<3> for Counter {
    fn rand(&mut self) -> [u8; 3] {
        self.0 = self.0.wrapping_add(1);
        [self.0; 3]
    }

    fn fill_bytes<Bytes: AsMut<[u8]>>(&mut self, mut buffer: Bytes) {
        buffer.as_mut().fill(self.rand()[0]);
    }
}

impl SeedableRng<1, 3> for Counter {
    fn reseed(&mut self, [seed]: [u8; 1]) {
        self.0 = seed;
    }
}

/// The traits and methods of each generator of the crate.
pub fn of_the_crate<R, const SEED: usize, const OUTPUT: usize>(mut rng: R) -> [u8; OUTPUT]
where
    R: SeedableRng<SEED, OUTPUT> + rand::SeedableRng<SEED, OUTPUT> + Default,
    R: Debug + Display + Send + Sync + Unpin + 'static,
{
    rng.reseed([7; SEED]);
    let _ = (R::default(), format_args!("{rng} {rng:?} {rng:#?}"));
    calls(&mut rng)
}

#[cfg(feature = "wyrand")]
pub mod wyrand {
    use nanorand::rand::wyrand::WyRand;

    pub const START: nanorand::WyRand = nanorand::wyrand::WyRand::new_seed(1_u64);

    pub fn new() -> nanorand::rand::WyRand {
        let _ = super::of_the_crate::<_, 8, 8>(START);
        WyRand::new()
    }
}

#[cfg(feature = "pcg64")]
pub mod pcg64 {
    pub const START: nanorand::Pcg64 = nanorand::pcg64::Pcg64::new_seed(1_u128);

    #[cfg(feature = "std")]
    pub fn new() -> nanorand::rand::Pcg64 {
        let _ = super::of_the_crate::<_, 16, 8>(START);
        nanorand::rand::pcg64::Pcg64::new()
    }
}

#[cfg(feature = "chacha")]
pub mod chacha {
    use nanorand::rand::chacha::{ChaCha, ChaCha12, ChaCha20, ChaCha8};

    pub const START: nanorand::ChaCha8 = nanorand::ChaCha::new_key([1_u8; 32], [2_u8; 8]);
    pub const OTHER: nanorand::ChaCha12 = nanorand::rand::ChaCha12::new_key([1; 32], [2; 8]);
    /// Odd rounds have a type and a state.
    pub const ODD: nanorand::rand::ChaCha<7> = nanorand::chacha::ChaCha::new_key([1; 32], [2; 8]);

    pub fn new() -> (ChaCha<6>, ChaCha8, ChaCha12, nanorand::rand::ChaCha20) {
        let _: [u8; 64] = super::of_the_crate::<_, 40, 64>(START);
        let _: [u8; 64] = super::of_the_crate::<_, 40, 64>(nanorand::ChaCha20::new());
        (
            ChaCha::new(),
            ChaCha8::default(),
            ChaCha12::new(),
            ChaCha20::new(),
        )
    }
}

pub const STATE: [u32; 16] = chacha_init([1_u8; 32], [2_u8; 8]);

/// The functions of the modules `crypto` and `entropy`.
pub fn functions(out: &mut [u8]) -> ([u32; 16], bool, Option<usize>) {
    let mut state = chacha_block::<20>(STATE);
    let counted = chacha_increment_counter(&mut state);
    #[cfg(not(feature = "getrandom"))]
    let filled: bool = nanorand::entropy::system(out) && nanorand::entropy::linux::entropy(out);
    #[cfg(feature = "getrandom")]
    let (filled, ()) = (true, nanorand::entropy::system(out));
    let pulled: Option<usize> = nanorand::entropy::rdseed(out);
    let _: fn(&mut [u8]) = nanorand::entropy::backup;
    (state, counted && filled, pulled)
}

#[cfg(feature = "alloc")]
pub fn buffered(rng: Counter) -> Counter {
    let mut buffered: nanorand::buffer::BufferedRng<Counter, 3> = nanorand::BufferedRng::new(rng);
    buffered.reseed([1_u8]);
    let _: [u8; 3] = calls(&mut buffered);
    let _: usize = buffered.clone().buffered();
    #[cfg(feature = "std")]
    let _: std::io::Result<usize> = std::io::Read::read(&mut buffered, &mut [0; 4]);
    #[cfg(feature = "wyrand")]
    let _ = nanorand::BufferedRng::<nanorand::WyRand, 8>::default();
    buffered.into_inner()
}

#[cfg(feature = "tls")]
pub fn of_the_thread() -> [u8; 8] {
    let mut rng: nanorand::tls::TlsWyRand = nanorand::tls_rng();
    rng.reseed([1_u8; 8]);
    calls(&mut nanorand::tls::tls_rng())
}

#[cfg(feature = "zeroize")]
pub fn wiped<const ROUNDS: u8>() {
    fn is_wiped<R: zeroize::Zeroize>() {
        assert!(core::mem::needs_drop::<R>());
    }
    is_wiped::<nanorand::WyRand>();
    is_wiped::<nanorand::Pcg64>();
    is_wiped::<nanorand::ChaCha<ROUNDS>>();
}

#[cfg(feature = "without_std")]
#[panic_handler]
fn panic(_: &core::panic::PanicInfo<'_>) -> ! {
    loop {}
}

#[cfg(feature = "without_std")]
#[no_mangle]
pub extern "C" fn program() -> u8 {
    let mut bytes = [0; 4];
    functions(&mut bytes);
    let rngs = (wyrand::new(), chacha::new().0, buffered(Counter(bytes[0])));
    calls(&mut { rngs.0 })[0] ^ calls(&mut { rngs.1 })[0] ^ calls(&mut { rngs.2 })[0]
}
