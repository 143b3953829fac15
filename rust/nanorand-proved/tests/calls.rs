//! What the crate does around the proved functions: ranges as Rust writes them, borrowed generators,
//! readers, constants, texts that keep secrets, and preconditions that panic.
#![cfg(feature = "std")]
#![allow(clippy::mut_mut)] // a borrowed generator is borrowed again

mod common;

use common::{rising, zeros, Constant, Script, Steps, Waste};
use nanorand_proved::choices::{below, choose, choose_mut, choose_weighted, ratio};
use nanorand_proved::rand::fill_by_blocks;
use nanorand_proved::replay::{replay, Answer, Call, Kind, Span};
use nanorand_proved::samples::{extend_sample, reservoir, sample, sample_with};
use nanorand_proved::shuffles::{
    apply_choices, choices_of, partial_shuffle, shuffle_and_record, shuffle_full,
};
use nanorand_proved::values::number::Number;
use nanorand_proved::values::range::draw_number;
use nanorand_proved::values::word::draw_below;
use nanorand_proved::values::{fill_with, pick_word};
use nanorand_proved::{
    BufferedRng, ChaCha, ChaCha12, ChaCha20, ChaCha8, ChaChaStream, GenerateIter, Pcg64,
    RangeError, Rng, SeedableRng, WyRand,
};
use std::fmt::Debug;
use std::io::{self, Read};
use std::ops::Bound::{Excluded, Included, Unbounded};
use std::panic::{catch_unwind, AssertUnwindSafe};
use std::rc::Rc;
use std::sync::Mutex;

/// Every way to write a range of a type, between two adjacent numbers and at both ends of the type.
macro_rules! check_forms {
    ($($number:ty),+) => { $({
        let (least, greatest): ($number, $number) = (<$number>::MIN, <$number>::MAX);
        let (low, high): ($number, $number) = (5, 6);
        let ones = || Constant::new(255);
        assert_eq!(zeros().generate_range(low..high), Ok(low));
        assert_eq!(ones().generate_range(low..high), Ok(low));
        assert_eq!(zeros().generate_range(low..=high), Ok(low));
        assert_eq!(ones().generate_range(low..=high), Ok(high));
        assert_eq!(ones().generate_range(low..), Ok(greatest));
        assert_eq!(zeros().generate_range(greatest..), Ok(greatest));
        assert_eq!(ones().generate_range(..high), Ok(low));
        assert_eq!(zeros().generate_range(..=least), Ok(least));
        assert_eq!(ones().generate_range(..=high), Ok(high));
        assert_eq!(zeros().generate_range::<$number>(..), Ok(least));
        assert_eq!(ones().generate_range::<$number>(..), Ok(greatest));
        assert_eq!(zeros().generate_range((Excluded(low), Included(high))), Ok(high));
        assert_eq!(ones().generate_range((Included(low), Excluded(high))), Ok(low));
        assert_eq!(ones().generate_range((Excluded(low), Unbounded)), Ok(greatest));
        assert_eq!(ones().generate_range::<$number>((Unbounded, Included(&low))), Ok(low));
        assert_eq!(zeros().generate_range::<$number>(&low..&high), Ok(low));
        assert_eq!(ones().generate_range::<$number>(&low..=&high), Ok(high));
        assert_eq!(ones().generate_range::<$number>(&low..), Ok(greatest));
        assert_eq!(ones().generate_range::<$number>(..&high), Ok(low));
        assert_eq!(ones().generate_range::<$number>(..=&high), Ok(high));
        let mut rng = zeros();
        for empty in [low..low, high..low, greatest..least] {
            assert_eq!(rng.generate_range(empty), Err(RangeError::Empty));
        }
        for empty in [high..=low, greatest..=least] {
            assert_eq!(rng.generate_range(empty), Err(RangeError::Empty));
        }
        assert_eq!(rng.generate_range(..least), Err(RangeError::Empty));
        // A range that was used up as an iterator is empty.
        let mut used = low..=low;
        assert_eq!(used.next(), Some(low));
        assert_eq!(rng.generate_range(used), Err(RangeError::Empty));
        assert_eq!(rng.drawn(), 0);
    })+ };
}

#[test]
fn every_form_of_bounds_of_every_type() {
    check_forms!(u8, u16, u32, u64, u128, usize, i8, i16, i32, i64, i128, isize);
}

/// `generate_range` draws the same with a range and with a pair of bounds, from each generator.
fn check_ranges<G: Rng<OUTPUT> + Clone + PartialEq + Debug, const OUTPUT: usize>(mut rng: G) {
    for size in 1..300_u64 {
        let mut same = rng.clone();
        let drawn = rng.generate_range(10..10 + size);
        let bounds = (Included(10), Excluded(10 + size));
        assert_eq!(drawn, same.generate_range(bounds));
        assert_eq!(rng, same);
        assert!((10..10 + size).contains(&drawn.expect("a number")));
    }
    let whole = rng.clone().generate_range::<u64>(..);
    assert_eq!(whole, Ok(rng.next_u64()));
}

#[test]
fn ranges_of_every_generator() {
    check_ranges(WyRand::new_seed(3));
    check_ranges(Pcg64::new_seed(3));
    check_ranges(ChaCha8::new_key([3; 32], [4; 8]));
    check_ranges(ChaCha12::new_key([3; 32], [4; 8]));
    check_ranges(ChaCha20::new_key([3; 32], [4; 8]));
    check_ranges(BufferedRng::new(WyRand::new_seed(3)));
    check_ranges(BufferedRng::new(BufferedRng::new(Pcg64::new_seed(3))));
}

/// A call returns the same, and leaves the same state, if the generator is borrowed with `&mut`.
macro_rules! check_lent {
    ($rng:ident, $call:expr) => {{
        let mut own = WyRand::new_seed(7);
        let expected = {
            let $rng = &mut own;
            $call
        };
        let mut lent = WyRand::new_seed(7);
        let given = {
            let mut borrowed = &mut lent;
            let $rng = &mut borrowed;
            $call
        };
        assert_eq!(given, expected);
        assert_eq!(lent, own);
        assert_ne!(lent, WyRand::new_seed(7));
    }};
}

/// The buffer after a call, and the call's result.
macro_rules! left_in {
    ($buffer:expr, $call:expr) => {{
        let mut buffer = $buffer;
        let result = $call(&mut buffer);
        (result, buffer)
    }};
}

/// Shuffles items and fills bytes with any generator.
fn shuffled_and_filled<R: Rng<N>, const N: usize>(
    mut rng: R,
    length: usize,
) -> (Vec<usize>, Vec<u8>) {
    let (mut items, mut bytes) = (rising(length), vec![0; length]);
    assert_eq!(rng.shuffle(&mut items), Ok(()));
    rng.fill_bytes(&mut bytes);
    (items, bytes)
}

/// Slices of any length, even 0 and 1, leave the same state if the generator is borrowed.
fn check_lengths<G: Rng<N> + Clone + PartialEq + Debug, const N: usize>(fresh: &G) {
    for length in 0..140 {
        let (mut lent, mut borrowed) = (fresh.clone(), fresh.clone());
        let (mut items, mut bytes) = (rising(length), vec![0; length]);
        let mut own = fresh.clone();
        assert_eq!(own.shuffle(&mut items), Ok(()));
        own.fill_bytes(&mut bytes);
        let wanted = (items, bytes);
        assert_eq!(shuffled_and_filled(&mut lent, length), wanted);
        assert_eq!(shuffled_and_filled(&mut &mut borrowed, length), wanted);
        assert_eq!((&lent, &borrowed), (&own, &own));
    }
}

#[test]
fn lengths_by_a_lent_generator() {
    check_lengths(&WyRand::new_seed(3));
    check_lengths(&Pcg64::new_seed(3));
    check_lengths(&ChaCha12::new_key([3; 32], [4; 8]));
    check_lengths(&BufferedRng::new(WyRand::new_seed(3)));
    check_lengths(&BufferedRng::new(ChaCha8::new_key([3; 32], [4; 8])));
}

#[test]
fn methods_of_a_lent_generator() {
    check_lent!(rng, rng.rand());
    check_lent!(rng, left_in!([0; 11], |out: &mut [u8]| rng.fill_bytes(out)));
    check_lent!(rng, rng.generate::<u8>());
    check_lent!(rng, rng.generate::<i128>());
    check_lent!(rng, rng.generate::<bool>());
    check_lent!(rng, rng.generate::<[u8; 9]>());
    check_lent!(rng, left_in!([0; 5], |out: &mut [u16]| rng.fill(out)));
    check_lent!(rng, rng.generate_range::<i8>(-5..=5));
    check_lent!(
        rng,
        left_in!(rising(9), |out: &mut [usize]| rng.shuffle(out))
    );
    check_lent!(rng, rng.next_u32());
    check_lent!(rng, rng.next_u64());
}

#[test]
fn functions_over_a_lent_generator() {
    check_lent!(rng, below(rng, 6_u32));
    check_lent!(rng, choose(rng, &[1, 2, 3]).copied());
    check_lent!(rng, choose_mut(rng, &mut [1, 2, 3]).map(|item| *item));
    check_lent!(rng, ratio(rng, 1, 3));
    check_lent!(rng, choose_weighted(rng, &[1, 2, 3]));
    check_lent!(rng, draw_below(rng, 1000, 16));
    check_lent!(rng, draw_number(rng, Included(-5), Unbounded::<i32>));
    check_lent!(
        rng,
        left_in!([0; 3], |out: &mut [usize]| sample(rng, 99, out))
    );
    check_lent!(
        rng,
        left_in!([0; 3], |out: &mut [usize]| sample_with(
            rng,
            99,
            out,
            &mut [0; 9]
        ))
    );
    check_lent!(
        rng,
        left_in!([0; 3], |out: &mut [usize]| reservoir(rng, 0..9, out))
    );
    check_lent!(
        rng,
        left_in!([5, 0, 0], |out: &mut [usize]| extend_sample(
            rng,
            99,
            out,
            1,
            &mut [0; 9]
        ))
    );
    check_lent!(
        rng,
        left_in!([0; 9], |out: &mut [u8]| fill_by_blocks(rng, out))
    );
    check_lent!(
        rng,
        left_in!(rising(9), |out: &mut [usize]| shuffle_full(rng, out))
    );
    check_lent!(
        rng,
        left_in!(rising(9), |out: &mut [usize]| partial_shuffle(rng, out, 4))
    );
    check_lent!(rng, {
        let mut choices = [0; 9];
        (
            shuffle_and_record(rng, &mut rising(9), &mut choices),
            choices,
        )
    });
    check_lent!(rng, {
        let mut answers = [Answer::Empty; 2];
        replay(
            rng,
            &[Call::Gen(Kind::U8), Call::Shuffle],
            &mut [1, 2],
            &mut answers,
        );
        answers
    });
}

#[test]
fn fills_and_buffers_over_a_lent_generator() {
    let (mut own, mut lent) = (WyRand::new_seed(7), WyRand::new_seed(7));
    let (mut some, mut again) = ([0_u8; 5], [1_u8; 5]);
    fill_with(&mut own, &mut some, |rng: &mut WyRand| rng.generate());
    fill_with(&mut &mut lent, &mut again, |rng: &mut &mut WyRand| {
        rng.generate()
    });
    assert_eq!(some, again);
    assert_eq!(lent, own);

    let mut buffered = BufferedRng::new(&mut lent);
    assert_eq!(buffered.generate::<[u8; 5]>(), own.rand()[..5]);
    assert_eq!(buffered.buffered(), 3);
    assert_eq!(lent, own);
}

/// A generic function takes a generator by value, borrowed, or borrowed twice.
#[test]
fn generators_are_passed_down() {
    fn two<R: Rng<8>>(mut rng: R) -> [u64; 2] {
        [one(&mut rng), one(rng)]
    }
    fn one(mut rng: impl Rng<8>) -> u64 {
        rng.next_u64()
    }
    let mut rng = WyRand::new_seed(42);
    let expected = [12_558_987_674_375_533_620, 16_846_851_108_956_068_306];
    assert_eq!(two(rng.clone()), expected);
    assert_eq!(two(&mut &mut rng), expected);
    assert_eq!(one(&mut rng), 14_652_274_819_296_609_082);
}

/// A borrowed generator makes the same requests as its own `fill_bytes`.
#[test]
fn a_lent_generator_keeps_its_requests() {
    let (mut own, mut lent) = (Waste::new(), Waste::new());
    for _ in 0..3 {
        let mut borrowed = &mut lent;
        assert_eq!(Rng::<8>::generate::<u8>(&mut borrowed), own.generate());
    }
    assert_eq!(own.drawn(), 6);
    assert_eq!(lent, own);
}

#[test]
fn words_are_values() {
    fn check<G: Rng<OUTPUT> + Clone + PartialEq + Debug, const OUTPUT: usize>(mut rng: G) {
        for _ in 0..40 {
            let mut same = rng.clone();
            assert_eq!(rng.next_u32(), same.generate::<u32>());
            assert_eq!(rng.next_u64(), same.generate::<u64>());
            assert_eq!(rng, same);
        }
    }
    check(WyRand::new_seed(5));
    check(Pcg64::new_seed(5));
    check(ChaCha8::new_key([5; 32], [6; 8]));
    check(ChaCha12::new_key([5; 32], [6; 8]));
    check(ChaCha20::new_key([5; 32], [6; 8]));
    check(BufferedRng::new(ChaCha20::new_key([5; 32], [6; 8])));
    check(Steps::new());
    check(Waste::new());
    assert_eq!(Steps::new().next_u32(), 0x0302_0100);
    assert_eq!(Steps::new().next_u64(), 0x0706_0504_0302_0100);
}

/// A generator made from a seed's bytes equals one that is reseeded with them.
#[test]
fn seeds() {
    let mut bytes = [0; 40];
    for (place, byte) in (0..).zip(&mut bytes) {
        *byte = 6 * place + 1;
    }
    let eight = bytes[..8].try_into().expect("8 bytes");
    let sixteen = bytes[..16].try_into().expect("16 bytes");
    let mut wyrand = WyRand::new_seed(0);
    wyrand.reseed(eight);
    assert_eq!(WyRand::from_seed(eight), wyrand);
    assert_eq!(wyrand.seed(), u64::from_le_bytes(eight));
    let mut pcg64 = Pcg64::new_seed(0);
    pcg64.reseed(sixteen);
    assert_eq!(Pcg64::from_seed(sixteen), pcg64);
    assert_eq!(pcg64.seed(), u128::from_le_bytes(sixteen));
    let mut chacha = ChaCha20::new_key([0; 32], [0; 8]);
    let _ = chacha.rand();
    chacha.reseed(bytes);
    assert_eq!(ChaCha20::from_seed(bytes), chacha);
    assert_eq!(chacha.key(), bytes[..32]);
    assert_eq!(chacha.nonce(), bytes[32..]);
    assert_eq!(chacha.counter(), 0);
    assert_eq!(
        WyRand::from_seed([42, 0, 0, 0, 0, 0, 0, 0]),
        WyRand::new_seed(42)
    );
}

/// Seeds of equal bytes, and zeros and ones with one different bit.
fn plain_seeds<const SIZE: usize>() -> Vec<[u8; SIZE]> {
    let mut seeds: Vec<_> = (0..=255).map(|byte| [byte; SIZE]).collect();
    for place in 0..8 * SIZE {
        for byte in [0, 255] {
            let mut seed = [byte; SIZE];
            seed[place / 8] ^= 1 << (place % 8);
            seeds.push(seed);
        }
    }
    seeds
}

/// Seeds are not changed, not even those of equal bytes.
#[test]
fn plain_seeds_of_numbers() {
    for seed in plain_seeds() {
        let number = u64::from_le_bytes(seed);
        let mut reseeded = WyRand::new_seed(5);
        reseeded.reseed(seed);
        assert_eq!(reseeded.seed(), number);
        assert_eq!(WyRand::from_seed(seed).seed(), number);
        assert_eq!(WyRand::new_seed(number).seed(), number);
        assert_eq!(WyRand::new(&mut &seed[..]), Ok(reseeded));
    }
    for seed in plain_seeds() {
        let number = u128::from_le_bytes(seed);
        let text = format!("Pcg64 {{ seed: {number:#x}, state: 0x0, inc: 0x0 }}");
        let mut reseeded = Pcg64::new_seed(5);
        reseeded.reseed(seed);
        assert_eq!(format!("{reseeded:?}"), text);
        assert_eq!(format!("{:?}", Pcg64::from_seed(seed)), text);
        assert_eq!(format!("{:?}", Pcg64::new_seed(number)), text);
        assert_eq!(Pcg64::new(&mut &seed[..]), Ok(reseeded));
    }
}

fn plain_keys_of<const ROUNDS: u8>() {
    for seed in plain_seeds() {
        let key = seed[..32].try_into().expect("a key");
        let nonce = seed[32..].try_into().expect("a nonce");
        let mut reseeded = ChaCha::<ROUNDS>::at([5; 32], [6; 8], 7);
        reseeded.reseed(seed);
        let read = ChaCha::new(&mut &seed[..]).expect("a seed");
        for rng in [
            &reseeded,
            &read,
            &ChaCha::from_seed(seed),
            &ChaCha::new_key(key, nonce),
        ] {
            assert_eq!((rng.key(), rng.nonce(), rng.counter()), (key, nonce, 0));
        }
        let mut stream = ChaChaStream::<ROUNDS>::at_block([5; 32], [6; 8], 7);
        stream.reseed(seed);
        for stream in [&stream, &ChaChaStream::from_seed(seed)] {
            let rng = stream.inner();
            assert_eq!((rng.key(), rng.nonce(), rng.counter()), (key, nonce, 0));
        }
    }
}

#[test]
fn plain_seeds_of_keys() {
    plain_keys_of::<8>();
    plain_keys_of::<12>();
    plain_keys_of::<20>();
}

static SHARED: Mutex<WyRand> = Mutex::new(WyRand::new_seed(42));
static BUFFERED: Mutex<BufferedRng<Pcg64, 8>> = Mutex::new(BufferedRng::new(Pcg64::new_seed(42)));
const KEYED: ChaCha20 = ChaCha20::new_key([1; 32], [2; 8]);
const SEEDED: (WyRand, Pcg64) = (WyRand::from_seed([1; 8]), Pcg64::from_seed([2; 16]));
const SEEDED_CHACHA: ChaCha8 = ChaCha8::from_seed([3; 40]);
const STATE: [u32; 16] = nanorand_proved::crypto::chacha::chacha_init([0; 32], [0; 8]);

const SEEDS: (u64, u128) = (WyRand::new_seed(42).seed(), Pcg64::new_seed(43).seed());

/// Lists of calls and their answers are copied and compared like plain values.
#[test]
fn calls_are_plain_values() {
    fn check<T: Copy + Eq + Debug>() {}
    check::<(Call, Kind, Span, Answer)>();
}

#[test]
fn constants_and_statics() {
    let number = SHARED.lock().expect("no panic").generate::<u64>();
    assert_eq!(number, 12_558_987_674_375_533_620);
    let byte = BUFFERED.lock().expect("no panic").generate::<u8>();
    assert_eq!(byte, Pcg64::new_seed(42).rand()[0]);
    assert_eq!(KEYED, ChaCha20::new_key([1; 32], [2; 8]));
    assert_eq!(SEEDED.0.seed(), u64::from_le_bytes([1; 8]));
    assert_eq!(SEEDED.1.seed(), u128::from_le_bytes([2; 16]));
    assert_eq!(SEEDS, (42, 43));
    assert_eq!(SEEDED_CHACHA, ChaCha8::new_key([3; 32], [3; 8]));
    assert_eq!(
        STATE[..4],
        [0x6170_7865, 0x3320_646e, 0x7962_2d32, 0x6b20_6574]
    );
}

/// A buffer around `Steps` that has delivered five bytes.
fn after_five() -> BufferedRng<Steps, 8> {
    let mut rng = BufferedRng::new(Steps::new());
    rng.fill(&mut [0_u8; 5]);
    rng
}

/// All bytes of a reader, read by a function that takes any reader.
fn all_of(reader: &mut dyn Read) -> io::Result<Vec<u8>> {
    let mut bytes = vec![99];
    let count = reader.read_to_end(&mut bytes)?;
    assert_eq!(bytes.len(), count + 1);
    Ok(bytes)
}

#[test]
fn a_buffer_is_a_reader() -> io::Result<()> {
    let mut rng = after_five();
    let mut bytes = [0; 10];
    rng.read_exact(&mut bytes)?;
    assert!(bytes.into_iter().eq(5..15));
    assert_eq!(rng.read(&mut [])?, 0);
    assert_eq!(rng.buffered(), 1);
    assert_eq!(all_of(&mut rng)?, [99, 15]);
    assert_eq!(all_of(&mut rng)?, [99]);
    assert_eq!(rng.inner().drawn(), 2);

    let mut copied = Vec::new();
    assert_eq!(io::copy(&mut rng.by_ref().take(20), &mut copied)?, 20);
    assert!(copied.into_iter().eq(16..36));
    let mut chained = [0; 5];
    (&[1, 2][..]).chain(&mut rng).read_exact(&mut chained)?;
    assert_eq!(chained, [1, 2, 36, 37, 38]);
    Ok(())
}

#[test]
fn a_buffer_is_no_text() {
    let mut rng = after_five();
    let mut text = String::from("as it was");
    let refused = Read::read_to_string(&mut rng, &mut text).expect_err("no text");
    assert_eq!(refused.kind(), io::ErrorKind::Other);
    assert_eq!(text, "as it was");
    let reader: &mut dyn Read = &mut rng;
    assert!(reader.read_to_string(&mut text).is_err());
    assert_eq!(rng.rest(), [5, 6, 7]);
}

/// Texts do not depend on a key, a nonce or buffered bytes.
#[test]
fn texts_keep_secrets() {
    fn texts<const ROUNDS: u8>(byte: u8) -> [String; 4] {
        let key = nanorand_proved::ChaCha::<ROUNDS>::new_key([byte; 32], [byte; 8]);
        let rest = [byte; 9];
        let buffered = BufferedRng::with_rest(key.clone(), &rest).expect("less than a block");
        let twice = BufferedRng::new(buffered.clone());
        [
            format!("{key:?} {key:#?} {key:x?}"),
            format!("{key}"),
            format!("{buffered:?} {buffered:#?} {buffered:x?}"),
            format!("{twice:?} {twice:#?}"),
        ]
    }
    for byte in [1, 77, 171, 255] {
        assert_eq!(texts::<8>(byte), texts::<8>(0));
        assert_eq!(texts::<20>(byte), texts::<20>(0));
    }
    let buffer = |rest: &[u8]| BufferedRng::with_rest(WyRand::new_seed(1), rest);
    let text = |rest| format!("{:?}", buffer(rest).expect("less than a block"));
    assert_eq!(text(&[1, 2, 3]), text(&[200, 201, 202]));
}

#[test]
fn generators_go_to_threads() {
    fn check<T: Send + Sync + Unpin + 'static>(_: &T) {}
    check(&WyRand::new_seed(1));
    check(&Pcg64::new_seed(1));
    check(&ChaCha8::new_key([0; 32], [0; 8]));
    check(&BufferedRng::new(ChaCha20::new_key([0; 32], [0; 8])));
    check(&RangeError::Empty);
    let mut rng = WyRand::new_seed(42);
    let there = std::thread::spawn(move || rng.next_u64()).join();
    assert_eq!(there.expect("no panic"), 12_558_987_674_375_533_620);
}

/// An iterator has no values yet, so those that cannot go to a thread do not keep it from going.
#[test]
fn iterators_go_to_threads() {
    fn check<T: Send + Sync + Unpin + 'static>() {}
    check::<GenerateIter<'static, Rc<u8>, WyRand, 8>>();
}

#[test]
fn clones_are_apart() {
    let mut first = WyRand::new_seed(1);
    let second = first.clone();
    assert_eq!(first, second);
    let _ = first.rand();
    assert_ne!(first, second);
    assert_eq!(second, WyRand::new_seed(1));
}

/// `?` turns errors into a boxed error that threads can share.
#[test]
fn errors_are_passed_on() {
    type Boxed = Box<dyn std::error::Error + Send + Sync>;
    fn draw() -> Result<u8, Boxed> {
        let mut rng = WyRand::new(&mut [1_u8, 0, 0, 0, 0, 0, 0, 0].as_slice())?;
        let _ = choose_weighted(&mut rng, &[1, 2])?;
        let _ = BufferedRng::with_rest(rng.clone(), &[])?;
        choices_of(&[1, 0], &mut [0; 2], &mut [0; 2])?;
        Ok(rng.generate_range(5..5)?)
    }
    let refused = draw().expect_err("an empty range");
    assert_eq!(refused.to_string(), "there is nothing to draw from");
    assert!(WyRand::new(&mut io::empty()).is_err());
}

#[cfg(unix)]
fn every_byte_changes<const SIZE: usize>(seeds: &[[u8; SIZE]]) -> bool {
    (0..SIZE).all(|place| seeds.iter().any(|seed| seed[place] != seeds[0][place]))
}

#[cfg(unix)]
#[test]
fn seeds_from_the_system() {
    let made: Vec<ChaCha20> = (0..64)
        .map(|_| ChaCha20::from_entropy().expect("entropy"))
        .collect();
    let keys: Vec<[u8; 32]> = made.iter().map(ChaCha20::key).collect();
    let nonces: Vec<[u8; 8]> = made.iter().map(ChaCha20::nonce).collect();
    assert!(made.iter().all(|rng| rng.counter() == 0));
    // A byte that never changes would not be from the system.
    let words: Vec<[u8; 8]> = (0..64)
        .map(|_| {
            WyRand::from_entropy()
                .expect("entropy")
                .seed()
                .to_le_bytes()
        })
        .collect();
    let seeds: Vec<[u8; 16]> = (0..64)
        .map(|_| Pcg64::from_entropy().expect("entropy").seed().to_le_bytes())
        .collect();
    assert!(every_byte_changes(&keys) && every_byte_changes(&nonces));
    assert!(every_byte_changes(&words) && every_byte_changes(&seeds));
}

fn panics<T>(call: impl FnOnce() -> T) -> bool {
    catch_unwind(AssertUnwindSafe(call)).is_err()
}

#[test]
fn preconditions_of_words() {
    let mut rng = WyRand::new_seed(1);
    for bits in [0, 1, 7, 9, 15, 24, 63, 65, 128, u32::MAX] {
        assert!(panics(|| pick_word(1, bits, 0)), "{bits}");
        assert!(panics(|| draw_below(&mut rng, 1, bits)), "{bits}");
    }
    for bits in [8, 16, 32, 64] {
        let beyond = (1_u128 << bits) + 1;
        for size in [0, beyond, u128::MAX] {
            assert!(panics(|| pick_word(size, bits, 0)), "{size} {bits}");
            assert!(panics(|| draw_below(&mut rng, size, bits)), "{size} {bits}");
        }
        if bits < 64 {
            assert!(panics(|| pick_word(3, bits, 1 << bits)), "{bits}");
            assert!(panics(|| pick_word(1 << bits, bits, 1 << bits)), "{bits}");
        }
    }
    assert_eq!(rng, WyRand::new_seed(1));
}

/// `below` with a type's minimum is an empty range.
#[test]
fn nothing_below_the_least() {
    let mut rng = WyRand::new_seed(1);
    assert_eq!(below(&mut rng, 0_u8), Err(RangeError::Empty));
    assert_eq!(below(&mut rng, 0_u64), Err(RangeError::Empty));
    assert_eq!(below(&mut rng, 0_usize), Err(RangeError::Empty));
    assert_eq!(below(&mut rng, i8::MIN), Err(RangeError::Empty));
    assert_eq!(below(&mut rng, isize::MIN), Err(RangeError::Empty));
    assert_eq!(rng, WyRand::new_seed(1));
}

#[test]
fn preconditions_of_lists() {
    let mut rng = WyRand::new_seed(1);
    assert!(panics(|| sample(&mut rng, 2, &mut [0; 3])));
    assert!(panics(|| sample(&mut rng, 0, &mut [0; 1])));
    for room in [0, 1, 3, 9] {
        let mut table = vec![0; room];
        assert!(panics(|| sample_with(&mut rng, 2, &mut [0; 3], &mut table)));
        assert!(panics(|| sample_with(&mut rng, 0, &mut [0; 1], &mut table)));
        for filled in [0, 1, 3] {
            let mut places = [0; 3];
            assert!(panics(|| {
                extend_sample(&mut rng, 2, &mut places, filled, &mut table)
            }));
        }
        for filled in [4, 9, usize::MAX] {
            let mut places = [0; 3];
            assert!(panics(|| {
                extend_sample(&mut rng, 9, &mut places, filled, &mut table)
            }));
        }
    }
    for length in [0, 1, 3, 9] {
        let mut other = vec![0; length];
        assert!(panics(|| apply_choices(&vec![9; length], &mut ['a', 'b'])));
        assert!(panics(|| choices_of(&[0, 1], &mut other, &mut [0; 2])));
        assert!(panics(|| choices_of(&[0, 1], &mut [0; 2], &mut other)));
        let mut items = ['a', 'b'];
        assert!(panics(|| shuffle_and_record(
            &mut rng, &mut items, &mut other
        )));
        assert_eq!(items, ['a', 'b']);
        let calls = [Call::Shuffle, Call::Gen(Kind::U8)];
        let mut answers = vec![Answer::Empty; length];
        assert!(panics(|| replay(
            &mut rng,
            &calls,
            &mut [1, 2],
            &mut answers
        )));
    }
    for choices in [
        [0, 0, 2],
        [0, 1, 1],
        [0, 1, 3],
        [3, 1, 2],
        [1, 2, usize::MAX],
    ] {
        let mut items = ['a', 'b', 'c'];
        assert!(
            panics(|| apply_choices(&choices, &mut items)),
            "{choices:?}"
        );
    }
    assert_eq!(rng, WyRand::new_seed(1));
}

/// A number and its rank, which is 0 for the minimum.
#[test]
fn ranks_of_numbers() {
    macro_rules! check {
        ($($number:ty),+) => { $(
            for number in [<$number>::MIN, <$number>::MIN + 1, 0, 1, 77, <$number>::MAX] {
                assert_eq!(<$number>::at_place(number.place()), number);
            }
            assert_eq!(<$number>::MIN.place(), 0);
            assert_eq!(<$number>::MAX.place(), u64::MAX >> (64 - <$number as Number>::BITS));
        )+ };
    }
    check!(u8, u16, u32, u64, usize, i8, i16, i32, i64, isize);
}

/// A borrowed generator can be reseeded.
#[test]
fn a_lent_generator_is_reseeded() {
    fn seed<R: SeedableRng<SIZE, OUTPUT>, const SIZE: usize, const OUTPUT: usize>(mut rng: R) {
        let mut bytes = [0; SIZE];
        bytes[0] = 42;
        rng.reseed(bytes);
    }
    let mut rng = BufferedRng::new(WyRand::new_seed(0));
    seed(&mut rng);
    assert_eq!(rng, BufferedRng::new(WyRand::new_seed(42)));
    let mut rng = Pcg64::new_seed(0);
    seed(&mut rng);
    assert_eq!(rng, Pcg64::new_seed(42));
    let mut rng = ChaCha8::new_key([0; 32], [0; 8]);
    seed(&mut rng);
    assert_eq!(rng.key()[0], 42);
}

/// If a generator panics in the middle of a shuffle, a permutation of the items remains.
#[test]
fn a_panic_in_a_shuffle_loses_nothing() {
    struct Panicking(Script);
    impl Rng<8> for Panicking {
        fn rand(&mut self) -> [u8; 8] {
            assert!(self.0.drawn() < 4, "no more blocks");
            self.0.rand()
        }
    }
    let mut items: Vec<String> = (0..9).map(|n| n.to_string()).collect();
    let mut rng = Panicking(Script::new(&[200; 9]));
    assert!(panics(|| rng.shuffle(&mut items)));
    items.sort();
    assert!(items.into_iter().eq((0..9).map(|n| n.to_string())));
}
