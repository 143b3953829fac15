//! Buffered generators: requests, reads, reseeding, clones, and buffers that are stored and restored.

use crate::common::{Forking, Rising, Steps, Waste};
use nanorand_proved::buffer::{RestTooLong, TextRefused};
use nanorand_proved::{
    chacha_stream, BufferedRng, ChaCha12, ChaCha20, ChaCha8, Pcg64, Rng, SeedableRng, WyRand,
};
use std::cell::Cell;
use std::fmt::Debug;
use std::io::{ErrorKind, Read};
use std::panic::{catch_unwind, AssertUnwindSafe};

/// Runs a check with blocks of 1, 8, 64 and 512 bytes. The generators have the last three sizes.
macro_rules! for_each_size {
    ($check:ident) => {{
        $check::<1>();
        $check::<8>();
        $check::<64>();
        $check::<512>();
    }};
}

/// The byte of `Rising` with this number.
fn byte(number: usize) -> u8 {
    number.to_le_bytes()[0]
}

/// The bytes of `Rising` with the numbers `from` to `to - 1`.
fn bytes(from: usize, to: usize) -> Vec<u8> {
    (from..to).map(byte).collect()
}

/// The number of bytes left in the current block after `drawn` bytes.
fn left_after(drawn: usize, size: usize) -> usize {
    (size - drawn % size) % size
}

/// A buffer after its first `taken` bytes were drawn.
fn after<const SIZE: usize>(taken: usize) -> BufferedRng<Rising<SIZE>, SIZE> {
    let mut rng = BufferedRng::new(Rising::new());
    rng.fill_bytes(&mut vec![0; taken]);
    rng
}

#[test]
fn requests_go_on() {
    for mut rng in [BufferedRng::new(Steps::new()), BufferedRng::default()] {
        assert_eq!(rng.generate::<u8>(), 0);
        assert_eq!(rng.generate::<u8>(), 1);
        assert_eq!(rng.generate::<u16>(), 0x0302);
        assert_eq!(rng.buffered(), 4);
        assert_eq!(rng.generate::<u64>(), 0x0b0a_0908_0706_0504);
        assert_eq!(rng.buffered(), 4);
        assert_eq!(rng.rand(), [12, 13, 14, 15, 16, 17, 18, 19]);
        assert_eq!(rng.rest(), [20, 21, 22, 23]);
        assert_eq!(rng.inner().drawn(), 3);
    }
}

/// `read_to_string` returns an error, and leaves the text and the buffer unchanged.
fn refuses_text<const SIZE: usize>() {
    for taken in 0..=SIZE {
        let mut rng = after::<SIZE>(taken);
        let before = rng.clone();
        let mut text = String::from("as it was");
        assert_eq!(rng.read_to_string(&mut text), Err(TextRefused));
        let error = Read::read_to_string(&mut rng, &mut text).expect_err("no text");
        assert_eq!(error.kind(), ErrorKind::Other);
        let cause = error.get_ref().expect("a cause");
        assert!(cause.is::<TextRefused>());
        assert_eq!(text, "as it was");
        assert_eq!(rng, before);
    }
}

#[test]
fn no_text() {
    for_each_size!(refuses_text);
}

/// `read` fills a slice of any length with the next bytes.
fn reads<const SIZE: usize>() {
    for taken in 0..=SIZE {
        for length in [0, 1, 4, SIZE, 3 * SIZE - 1] {
            let mut rng = after::<SIZE>(taken);
            let mut out = vec![9; length];
            assert_eq!(rng.read(&mut out).expect("no error"), length);
            assert_eq!(out, bytes(taken, taken + length));
            assert_eq!(rng.buffered(), left_after(taken + length, SIZE));
        }
    }
}

#[test]
fn read_fills_the_slice() {
    for_each_size!(reads);
}

/// After some bytes, `read_to_end` appends the rest of the block to a vector, with and without spare
/// capacity, and draws nothing.
fn appends_its_rest<G, const OUTPUT: usize>(fresh: &G)
where
    G: Rng<OUTPUT> + Clone + PartialEq + Debug,
{
    let block = fresh.clone().rand();
    for taken in 1..=OUTPUT {
        for held in [0, 1, 1000, 70_000] {
            for room in [0, 1, 64, 4096] {
                let mut rng = BufferedRng::new(fresh.clone());
                rng.fill_bytes(&mut vec![0; taken]);
                let drawn = rng.inner().clone();
                let mut out = vec![7; held];
                out.reserve_exact(room);
                assert_eq!(rng.read_to_end(&mut out), Ok(OUTPUT - taken));
                assert_eq!(out[..held], vec![7; held]);
                assert_eq!(out[held..], block[taken..]);
                assert_eq!(rng.buffered(), 0);
                assert_eq!(rng.inner(), &drawn);
                assert_eq!(rng.read_to_end(&mut out), Ok(0));
                assert_eq!(out.len(), held + OUTPUT - taken);
            }
        }
    }
}

#[test]
fn buffered_bytes_are_appended_to_a_vector() {
    appends_its_rest(&Rising::<1>::new());
    appends_its_rest(&Rising::<8>::new());
    appends_its_rest(&Rising::<64>::new());
    appends_its_rest(&Rising::<512>::new());
    appends_its_rest(chacha_stream::<20>([3; 32], [4; 8]).inner());
    appends_its_rest(&WyRand::new_seed(42));
    appends_its_rest(&Pcg64::new_seed(0));
    appends_its_rest(&ChaCha8::new_key([1; 32], [2; 8]));
    appends_its_rest(&ChaCha20::new_key([255; 32], [255; 8]));
}

/// An empty buffer has nothing to append.
fn appends_nothing<const SIZE: usize>() {
    let mut out = Vec::new();
    let mut rng = after::<SIZE>(0);
    assert_eq!(rng.read_to_end(&mut out), Ok(0));
    assert_eq!(out.capacity(), 0);
    assert_eq!(rng.inner().drawn(), 0);
}

#[test]
fn an_empty_buffer_allocates_nothing() {
    for_each_size!(appends_nothing);
}

/// After `reseed`, the buffered bytes still come first, and then the bytes of the new seed.
fn keeps_its_rest<const SIZE: usize>() {
    for taken in 0..=SIZE {
        let mut rng = after::<SIZE>(taken);
        rng.reseed([9]);
        let left = left_after(taken, SIZE);
        assert_eq!(rng.rest(), bytes(taken, taken + left));
        let mut out = vec![0; left + SIZE + 1];
        rng.fill_bytes(&mut out);
        assert_eq!(out[..left], bytes(taken, taken + left));
        assert_eq!(out[left..], bytes(9 * SIZE, 10 * SIZE + 1));
    }
}

#[test]
fn reseeded_behind_the_buffer() {
    for_each_size!(keeps_its_rest);
    let mut rng = BufferedRng::new(WyRand::new_seed(0x5f89_e29b_8742_9bd2));
    let mut five = [0_u8; 5];
    rng.fill(&mut five);
    assert_eq!(five, [218, 40, 180, 160, 209]);
    rng.reseed([0xd3, 0x9b, 0x42, 0x87, 0x9b, 0xe2, 0x89, 0x5f]);
    let mut four = [0_u8; 4];
    rng.fill(&mut four);
    assert_eq!(four, [126, 3, 231, 179]);
}

/// A generator that panics once no block is left.
struct Ending<'a, const SIZE: usize> {
    rising: Rising<SIZE>,
    left: &'a Cell<usize>,
}

impl<const SIZE: usize> Rng<SIZE> for Ending<'_, SIZE> {
    fn rand(&mut self) -> [u8; SIZE] {
        let left = self.left.get().checked_sub(1);
        self.left.set(left.expect("no block is left"));
        self.rising.rand()
    }
}

/// If a request panics because the generator has only `blocks` blocks left, the stream continues
/// after the blocks that were drawn for it.
fn goes_on_behind<const SIZE: usize>(taken: usize, length: usize, blocks: usize) {
    let (rising, left) = (Rising::<SIZE>::new(), Cell::new(usize::MAX));
    let mut rng = BufferedRng::new(Ending {
        rising,
        left: &left,
    });
    rng.fill_bytes(&mut vec![0; taken]);
    left.set(blocks);
    let request = || rng.fill_bytes(&mut vec![0; length]);
    let ended = catch_unwind(AssertUnwindSafe(request)).is_err();
    left.set(usize::MAX);
    let drawn = SIZE * ((taken + SIZE - 1) / SIZE + blocks);
    let next = if ended { drawn } else { taken + length };
    assert_eq!(rng.generate::<u8>(), byte(next), "{taken} {length}");
}

/// Requests of up to five blocks, from every position in the first two and a half blocks. For
/// blocks of 64 and 512 bytes only some of them.
fn no_byte_comes_again<const SIZE: usize>() {
    let step = (SIZE / 8).max(2) - 1;
    for taken in (0..(5 * SIZE + 1) / 2).step_by(step) {
        for length in (0..5 * SIZE).step_by(step) {
            for blocks in 0..6 {
                goes_on_behind::<SIZE>(taken, length, blocks);
            }
        }
    }
}

#[test]
fn a_panic_makes_no_byte_come_again() {
    for_each_size!(no_byte_comes_again);
}

/// The outer buffer takes whole blocks from the inner one, which keeps its own rest.
fn buffers_a_buffer<const SIZE: usize>() {
    let once = after::<SIZE>(1);
    assert_eq!(once.buffered(), SIZE - 1);
    let mut twice = BufferedRng::new(once);
    assert_eq!(twice.generate::<u8>(), 1);
    assert_eq!(twice.buffered(), SIZE - 1);
    let mut out = vec![0; 2 * SIZE + 4];
    assert_eq!(twice.read(&mut out).expect("no error"), out.len());
    assert_eq!(out, bytes(2, 2 * SIZE + 6));
    assert_eq!(twice.into_inner().buffered(), SIZE - 1);
}

#[test]
fn a_buffer_in_a_buffer() {
    for_each_size!(buffers_a_buffer);
}

/// A generator that delivers blocks only through `rand`.
struct ByRand<const SIZE: usize>(Rising<SIZE>);

impl<const SIZE: usize> Rng<SIZE> for ByRand<SIZE> {
    fn rand(&mut self) -> [u8; SIZE] {
        self.0.rand()
    }

    fn fill_bytes(&mut self, _: &mut [u8]) {
        panic!("a buffer draws its blocks by `rand`");
    }
}

/// The buffer takes the fewest blocks that cover a request, each by the inner `rand`.
fn draws_by_rand<const SIZE: usize>() {
    let lengths = [0, 1, 2, SIZE - 1, SIZE, SIZE + 1, 3 * SIZE, 7 * SIZE / 2];
    for taken in lengths {
        for length in lengths {
            let mut rng = BufferedRng::new(ByRand::<SIZE>(Rising::new()));
            let (mut first, mut second) = (vec![0; taken], vec![0; length]);
            rng.fill_bytes(&mut first);
            rng.read_exact(&mut second).expect("no error");
            assert_eq!([first, second].concat(), bytes(0, taken + length));
            let blocks = (taken + length + SIZE - 1) / SIZE;
            assert_eq!(rng.inner().0.drawn(), u64::try_from(blocks).unwrap());
        }
    }
}

#[test]
fn blocks_are_drawn_by_rand() {
    for_each_size!(draws_by_rand);
}

/// Any two requests return the same bytes as one request of both lengths, and leave the same
/// buffer.
fn goes_on<G: Rng<OUTPUT> + Clone + PartialEq + Debug, const OUTPUT: usize>(fresh: &G) {
    for first in 0..2 * OUTPUT + 2 {
        for second in [0, 1, 2, OUTPUT - 1, OUTPUT, OUTPUT + 1, 3 * OUTPUT] {
            let mut one = BufferedRng::new(fresh.clone());
            let mut two = one.clone();
            let mut whole = vec![0; first + second];
            let mut parts = vec![1; first + second];
            one.fill_bytes(&mut whole);
            two.fill_bytes(&mut parts[..first]);
            two.fill_bytes(&mut parts[first..]);
            assert_eq!(parts, whole, "{first} {second}");
            assert_eq!(one, two, "{first} {second}");
        }
    }
}

#[test]
fn requests_join() {
    goes_on(&Rising::<1>::new());
    goes_on(&Rising::<3>::new());
    goes_on(&Rising::<8>::new());
    goes_on(&Rising::<64>::new());
    goes_on(&Rising::<512>::new());
    goes_on(&WyRand::new_seed(7));
    goes_on(&Pcg64::new_seed(7));
    goes_on(&ChaCha12::new_key([7; 32], [9; 8]));
    let (mut first, mut second) = ([0; 5], [0; 3]);
    let mut rng = BufferedRng::new(WyRand::new_seed(0x5f89_e29b_8742_9bd2));
    rng.fill_bytes(&mut first);
    rng.fill_bytes(&mut second);
    assert_eq!(first, [218, 40, 180, 160, 209]);
    assert_eq!(second, [126, 3, 231]);
}

/// A clone of a buffer has the buffered bytes of the original, and the inner generator that the
/// inner clone returns, whatever that is.
fn clones_its_rest<const SIZE: usize>() {
    let block = |stream, drawn| Forking::<SIZE> { stream, drawn }.rand();
    for taken in 1..=SIZE {
        let left = SIZE - taken;
        let mut original = BufferedRng::new(Forking::<SIZE> {
            stream: 7,
            drawn: 0,
        });
        original.fill_bytes(&mut vec![0; taken]);
        let mut copy = original.clone();
        assert_eq!([original.buffered(), copy.buffered()], [left; 2]);
        for (rng, stream) in [(&mut original, 7), (&mut copy, 8)] {
            let mut out = vec![9; left + SIZE];
            rng.fill_bytes(&mut out);
            assert_eq!(out[..left], block(7, 0)[taken..]);
            assert_eq!(out[left..], block(stream, 1));
            assert_eq!(rng.inner(), &Forking { stream, drawn: 2 });
        }
    }
}

#[test]
fn a_buffer_keeps_the_bytes_of_its_original() {
    for_each_size!(clones_its_rest);
}

thread_local! {
    /// The number of generators that this thread has made.
    static MADE: Cell<usize> = const { Cell::new(0) };
}

/// A generator that counts how often it is created.
struct Counted;

impl Counted {
    fn new() -> Self {
        MADE.with(|made| made.set(made.get() + 1));
        Counted
    }
}

impl Default for Counted {
    fn default() -> Self {
        Self::new()
    }
}

impl Clone for Counted {
    fn clone(&self) -> Self {
        Self::new()
    }
}

impl Rng<8> for Counted {
    fn rand(&mut self) -> [u8; 8] {
        [7; 8]
    }
}

/// `default` and `clone` of a buffer create exactly one generator.
#[test]
fn a_buffer_makes_its_generator_once() {
    let made = || MADE.with(|made| made.replace(0));
    let mut rng = BufferedRng::<Counted, 8>::default();
    assert_eq!(made(), 1);
    rng.fill_bytes(&mut [0; 3]);
    let copy = rng.clone();
    assert_eq!(made(), 1);
    let _ = (rng.into_inner(), copy.into_inner());
    assert_eq!(made(), 0);
}

/// A buffer that is restored from its buffered bytes and its generator delivers the same bytes.
fn is_restored<G: Rng<OUTPUT> + Clone, const OUTPUT: usize>(rng: &BufferedRng<G, OUTPUT>) {
    let mut original = rng.clone();
    let inner = rng.inner().clone();
    let mut restored = BufferedRng::with_rest(inner, rng.rest()).expect("less than a block");
    assert_eq!(restored.rest(), rng.rest());
    assert_eq!(restored.buffered(), rng.buffered());
    for _ in 0..3 {
        let (mut next, mut again) = ([0; 50], [1; 50]);
        original.fill_bytes(&mut next);
        restored.fill_bytes(&mut again);
        assert_eq!(next, again);
        assert_eq!(restored.rest(), original.rest());
    }
}

/// The same for each number of buffered bytes.
fn each_is_restored<G: Rng<OUTPUT> + Clone, const OUTPUT: usize>(fresh: G) {
    let mut rng = BufferedRng::new(fresh);
    for _ in 0..=OUTPUT {
        is_restored(&rng);
        let _ = rng.generate::<u8>();
    }
}

#[test]
fn buffers_are_restored() {
    each_is_restored(Rising::<1>::new());
    each_is_restored(Rising::<8>::new());
    each_is_restored(Waste::new());
    each_is_restored(Rising::<64>::new());
    each_is_restored(Rising::<512>::new());
    each_is_restored(WyRand::new_seed(42));
    each_is_restored(Pcg64::new_seed(42));
    each_is_restored(ChaCha8::new_key([1; 32], [2; 8]));
    each_is_restored(ChaCha12::new_key([1; 32], [2; 8]));
    each_is_restored(ChaCha20::new_key([1; 32], [2; 8]));
}

/// First come the given bytes, beginning with the next one, and then the generator's.
fn begins_with_what_is_given<const SIZE: usize>() {
    let given = [101, 102, 103].repeat(SIZE);
    for count in 0..SIZE {
        let generator = Rising::<SIZE>::new();
        let mut rng = BufferedRng::with_rest(generator, &given[..count]).expect("a short rest");
        assert_eq!(rng.buffered(), count);
        assert_eq!(rng.inner().drawn(), 0);
        for byte in &given[..count] {
            assert_eq!(rng.generate::<u8>(), *byte);
        }
        assert_eq!(rng.inner().drawn(), 0);
        assert_eq!(rng.generate::<u32>(), 0x0302_0100);
        assert_eq!(rng.buffered(), left_after(4, SIZE));
    }
}

#[test]
fn given_bytes_come_first() {
    for_each_size!(begins_with_what_is_given);
}

#[test]
fn a_block_or_more_is_refused() {
    fn outcome<const SIZE: usize>(rest: &[u8]) -> Result<usize, RestTooLong> {
        BufferedRng::with_rest(Rising::<SIZE>::new(), rest).map(|rng| rng.buffered())
    }
    for count in (0..70).chain(500..600) {
        let rest = vec![7; count];
        let expected = |size| {
            if count < size {
                Ok(count)
            } else {
                Err(RestTooLong)
            }
        };
        assert_eq!(outcome::<1>(&rest), expected(1));
        assert_eq!(outcome::<8>(&rest), expected(8));
        assert_eq!(outcome::<64>(&rest), expected(64));
        assert_eq!(outcome::<512>(&rest), expected(512));
    }
}
