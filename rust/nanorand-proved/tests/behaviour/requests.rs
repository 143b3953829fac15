//! Values, and the bytes and blocks that a request takes.

use crate::common::{zeros, Rising, Script, Steps, Waste};
use nanorand_proved::values::fill_with;
use nanorand_proved::{
    chacha_stream, BufferedRng, ChaCha12, ChaCha20, ChaCha8, Pcg64, RandomGen, Rng, WyRand,
};
use std::fmt::Debug;
use std::io::Read;
use std::thread;

/// The value of each type for bytes that are all equal. Signed types are in two's complement.
#[test]
fn ones_and_halves() {
    let mut ones = Script::new(&[255; 14]);
    assert_eq!(ones.generate::<u8>(), u8::MAX);
    assert_eq!(ones.generate::<u16>(), u16::MAX);
    assert_eq!(ones.generate::<u32>(), u32::MAX);
    assert_eq!(ones.generate::<u64>(), u64::MAX);
    assert_eq!(ones.generate::<u128>(), u128::MAX);
    assert_eq!(ones.generate::<usize>(), usize::MAX);
    assert_eq!(ones.generate::<i8>(), -1);
    assert_eq!(ones.generate::<i16>(), -1);
    assert_eq!(ones.generate::<i32>(), -1);
    assert_eq!(ones.generate::<i64>(), -1);
    assert_eq!(ones.generate::<isize>(), -1);
    assert_eq!(ones.generate::<[u8; 3]>(), [255; 3]);
    let mut truths = Script::new(&[127, 128, 0, 255]);
    assert_eq!(truths.generate::<i8>(), 127);
    assert_eq!(truths.generate::<i8>(), -128);
    for (byte, truth) in [(0, true), (127, true), (128, false), (255, false)] {
        assert_eq!(Script::new(&[byte]).generate::<bool>(), truth, "{byte}");
    }
}

#[test]
fn one_value_an_item() {
    let mut steps = Steps::new();
    let mut bytes = [9_u8; 3];
    steps.fill(&mut bytes);
    assert_eq!(bytes, [0, 8, 16]);
    assert_eq!(steps.drawn(), 3);

    let mut none: [u64; 0] = [];
    steps.fill(&mut none);
    assert_eq!(steps.drawn(), 3);
}

#[test]
fn wasted_blocks() {
    let mut waste = Waste::new();
    assert_eq!(waste.generate::<u8>(), 0);
    assert_eq!(waste.generate::<u64>(), 0x1716_1514_1312_1110);
    assert_eq!(waste.generate::<u8>(), 24);
    assert_eq!(waste.drawn(), 5);
    let mut buffered = BufferedRng::new(Waste::new());
    assert_eq!(buffered.generate::<u8>(), 0);
    assert_eq!(buffered.generate::<u8>(), 1);
}

#[test]
fn one_call_an_item() {
    let mut steps = Steps::new();
    let mut bytes = [99_u8; 3];
    let mut calls = 0;
    fill_with(&mut steps, &mut bytes, |rng: &mut Steps| {
        calls += 1;
        rng.generate::<u8>()
    });
    assert_eq!(bytes, [0, 8, 16]);
    assert_eq!(calls, 3);
    assert_eq!(steps.drawn(), 3);

    let mut none: [u8; 0] = [];
    fill_with(&mut steps, &mut none, |rng: &mut Steps| {
        rng.generate::<u8>()
    });
    assert_eq!(steps.drawn(), 3);
}

/// Items that are not a value of one type: a number in a range, and a pair.
#[test]
fn ranges_and_pairs() {
    let mut script = Script::new(&[0, 255, 130]);
    let mut faces = [99_u8; 3];
    fill_with(&mut script, &mut faces, |rng: &mut Script| {
        rng.generate_range(1..=6).unwrap_or(0)
    });
    assert_eq!(faces, [6, 4, 0]);
    assert_eq!(script.drawn(), 131);

    let mut steps = Steps::new();
    let mut pairs = [(9_u8, 9_u16); 2];
    fill_with(&mut steps, &mut pairs, |rng: &mut Steps| {
        (rng.generate(), rng.generate())
    });
    assert_eq!(pairs, [(0, 0x0908), (16, 0x1918)]);

    let mut script = Script::new(&[130, 255, 1, 200]);
    let mut faces = [0_u8; 4];
    fill_with(&mut script, &mut faces, |rng: &mut Script| {
        rng.generate_range(1..=6).unwrap_or(1)
    });
    assert_eq!(faces, [4, 6, 1, 5]);
}

#[test]
fn arrays_of_bytes() {
    let mut steps = Steps::new();
    assert_eq!(steps.generate::<[u8; 4]>(), [0, 1, 2, 3]);
    assert_eq!(steps.generate::<[u8; 8]>(), [8, 9, 10, 11, 12, 13, 14, 15]);
    assert_eq!(steps.drawn(), 2);
    assert_eq!(
        steps.generate::<[u8; 12]>(),
        [16, 17, 18, 19, 20, 21, 22, 23, 24, 25, 26, 27]
    );
    assert_eq!(steps.drawn(), 4);
    assert_eq!(steps.generate::<[u8; 0]>(), []);
    assert_eq!(steps.drawn(), 4);

    let mut buffered = BufferedRng::new(Steps::new());
    assert_eq!(buffered.generate::<[u8; 4]>(), [0, 1, 2, 3]);
    assert_eq!(buffered.generate::<[u8; 4]>(), [4, 5, 6, 7]);
    let mut pieces = [[9_u8; 4]; 2];
    Steps::new().fill(&mut pieces);
    assert_eq!(pieces, [[0, 1, 2, 3], [8, 9, 10, 11]]);
}

/// An array of bytes is one request, alone and as an item.
fn check_array<G, const OUTPUT: usize, const SIZE: usize>(fresh: &G)
where
    G: Rng<OUTPUT> + Clone + PartialEq + Debug,
{
    let (mut rng, mut same) = (fresh.clone(), fresh.clone());
    let mut filled = |bytes: &[u8; SIZE]| {
        let mut wanted = vec![!bytes[0]; SIZE];
        same.fill_bytes(&mut wanted);
        assert!(wanted == bytes, "{SIZE}");
    };
    let bytes = rng.generate();
    filled(&bytes);
    let (first, [second, third]): ([u8; SIZE], [[u8; SIZE]; 2]) = rng.generate();
    for bytes in [first, second, third] {
        filled(&bytes);
    }
    let mut arrays = [bytes; 2];
    rng.fill(&mut arrays);
    for bytes in arrays {
        filled(&bytes);
    }
    assert_eq!(rng, same, "{SIZE}");
}

/// An array of other values takes the bytes that its items take.
fn check_items<G, const OUTPUT: usize, const SIZE: usize>(fresh: &G)
where
    G: Rng<OUTPUT> + Clone + PartialEq + Debug,
{
    let (mut rng, mut same) = (fresh.clone(), fresh.clone());
    let truths: [bool; SIZE] = rng.generate();
    assert!(truths.iter().all(|truth| same.generate::<bool>() == *truth));
    let bytes: [i8; SIZE] = rng.generate();
    assert!(bytes.iter().all(|byte| same.generate::<i8>() == *byte));
    let words: [u16; SIZE] = rng.generate();
    assert!(words.iter().all(|word| same.generate::<u16>() == *word));
    let words: [u64; SIZE] = rng.generate();
    assert!(words.iter().all(|word| same.generate::<u64>() == *word));
    let pairs: [[u8; 2]; SIZE] = rng.generate();
    assert!(pairs.iter().all(|pair| same.generate::<[u8; 2]>() == *pair));
    assert_eq!(rng, same, "{SIZE}");
}

fn check_arrays<G: Rng<OUTPUT> + Clone + PartialEq + Debug, const OUTPUT: usize>(fresh: &G) {
    macro_rules! check {
        ($($size:literal)+) => { $(check_array::<G, OUTPUT, $size>(fresh);)+ };
    }
    check!(1 2 64 255 256 257 512 513 1000 4096 65_537);
    // Items are drawn one by one, whatever their number.
    check_items::<G, OUTPUT, 1>(fresh);
    check_items::<G, OUTPUT, 257>(fresh);
    check_items::<G, OUTPUT, 4096>(fresh);
}

/// Runs checks with a large stack, because each call moves some arrays and blocks by value.
fn on_a_large_stack(checks: fn()) {
    let thread = thread::Builder::new().stack_size(1 << 26).spawn(checks);
    thread.expect("a thread").join().expect("all checks pass");
}

#[test]
fn arrays_of_any_length() {
    on_a_large_stack(|| {
        check_arrays(&Rising::<3>::new());
        check_arrays(&WyRand::new_seed(42));
        check_arrays(&ChaCha8::new_key([1; 32], [2; 8]));
        let mut stream = chacha_stream::<8>([1; 32], [2; 8]);
        let _: [u8; 300] = stream.generate();
        check_arrays(&stream);
    });
}

const LENGTHS: [usize; 13] = [0, 1, 7, 8, 9, 63, 64, 65, 255, 256, 257, 4096, 70_000];

/// The blocks of a generator, one after another, until they have at least `count` bytes.
fn stream_of<G: Rng<OUTPUT>, const OUTPUT: usize>(mut rng: G, count: usize) -> Vec<u8> {
    let mut stream = Vec::new();
    while stream.len() < count {
        stream.extend_from_slice(&rng.rand());
    }
    stream
}

/// One request to a plain generator, and three to a buffered one, the second by `read` and the third by `read_exact`.
fn check_length<G: Rng<OUTPUT> + Clone, const OUTPUT: usize>(
    fresh: &G,
    stream: &[u8],
    length: usize,
) {
    let mut bytes = vec![0xee; length];
    fresh.clone().fill_bytes(&mut bytes);
    assert_eq!(bytes, stream[..length], "{length}");

    let mut buffered = BufferedRng::new(fresh.clone());
    bytes.fill(0xee);
    buffered.fill_bytes(&mut bytes);
    assert_eq!(bytes, stream[..length], "{length}");
    assert_eq!(buffered.read(&mut bytes).expect("no error"), length);
    assert_eq!(bytes, stream[length..2 * length], "{length}");
    buffered.read_exact(&mut bytes).expect("no error");
    assert_eq!(bytes, stream[2 * length..3 * length], "{length}");
}

/// A request of any length returns the bytes of the blocks, and leaves the state after the last
/// block that it began.
fn check_lengths<G: Rng<OUTPUT> + Clone + PartialEq + Debug, const OUTPUT: usize>(fresh: &G) {
    let stream = stream_of(fresh.clone(), 210_000);
    for length in LENGTHS {
        check_length(fresh, &stream, length);
    }
    let mut blocks = fresh.clone();
    for length in 1..=1000 {
        let mut rng = fresh.clone();
        let mut bytes = vec![0xee; length];
        rng.fill_bytes(&mut bytes);
        assert_eq!(bytes, stream[..length], "{length}");
        if length % OUTPUT == 1 % OUTPUT {
            let _ = blocks.rand();
        }
        assert_eq!(rng, blocks, "{length}");
    }
}

#[test]
fn requests_give_the_blocks() {
    check_lengths(&Steps::new());
    check_lengths(&Rising::<1>::new());
    check_lengths(&Rising::<3>::new());
    check_lengths(&Rising::<64>::new());
    check_lengths(&Rising::<512>::new());
    check_lengths(chacha_stream::<12>([5; 32], [6; 8]).inner());
    check_lengths(&WyRand::new_seed(42));
    check_lengths(&Pcg64::new_seed(42 << 64 | 7));
    check_lengths(&ChaCha8::new_key([1; 32], [2; 8]));
    check_lengths(&ChaCha12::new_key([1; 32], [2; 8]));
    check_lengths(&ChaCha20::new_key([1; 32], [2; 8]));
}

/// Blocks of more than 2^16 bytes, of which a request may leave a part.
#[test]
fn blocks_of_any_size() {
    fn check<const SIZE: usize>() {
        let fresh = Rising::<SIZE>::new();
        let stream = stream_of(fresh.clone(), 4 * SIZE);
        for length in [
            255,
            256,
            SIZE - 1,
            SIZE,
            SIZE + 1,
            65_535,
            65_536,
            65_537,
            4 * SIZE / 3,
        ] {
            check_length(&fresh, &stream, length.min(4 * SIZE / 3));
        }
    }
    fn checks() {
        check::<255>();
        check::<256>();
        check::<257>();
        check::<65_535>();
        check::<65_536>();
        check::<65_537>();
        check::<100_000>();
    }
    on_a_large_stack(checks);
}

/// The values of every type are read from the bytes of one request.
fn check_values<G: Rng<OUTPUT> + Clone, const OUTPUT: usize>(fresh: &G) {
    fn drawn<T: RandomGen<G, OUTPUT>, G: Rng<OUTPUT> + Clone, const OUTPUT: usize>(fresh: &G) -> T {
        fresh.clone().generate()
    }
    let mut bytes = [0; 16];
    fresh.clone().fill_bytes(&mut bytes);
    let number = u128::from_le_bytes(bytes);
    let [byte, ..] = bytes;
    assert_eq!(drawn::<u128, G, OUTPUT>(fresh), number);
    assert_eq!(drawn::<i128, G, OUTPUT>(fresh), i128::from_le_bytes(bytes));
    assert_eq!(
        u128::from(drawn::<u64, G, OUTPUT>(fresh)),
        number % (1 << 64)
    );
    assert_eq!(
        u128::from(drawn::<u32, G, OUTPUT>(fresh)),
        number % (1 << 32)
    );
    assert_eq!(
        u128::from(drawn::<u16, G, OUTPUT>(fresh)),
        number % (1 << 16)
    );
    assert_eq!(drawn::<u8, G, OUTPUT>(fresh), byte);
    assert_eq!(drawn::<usize, G, OUTPUT>(fresh).to_le_bytes(), bytes[..8]);
    assert_eq!(drawn::<isize, G, OUTPUT>(fresh).to_le_bytes(), bytes[..8]);
    assert_eq!(drawn::<i64, G, OUTPUT>(fresh).to_le_bytes(), bytes[..8]);
    assert_eq!(drawn::<i32, G, OUTPUT>(fresh).to_le_bytes(), bytes[..4]);
    assert_eq!(drawn::<i16, G, OUTPUT>(fresh).to_le_bytes(), bytes[..2]);
    assert_eq!(drawn::<i8, G, OUTPUT>(fresh).to_le_bytes(), [byte]);
    assert_eq!(drawn::<bool, G, OUTPUT>(fresh), byte < 128);
    assert_eq!(drawn::<[u8; 5], G, OUTPUT>(fresh), bytes[..5]);
}

#[test]
fn values_are_read_from_requests() {
    for seed in 0..50 {
        check_values(&WyRand::new_seed(seed));
        check_values(&Pcg64::new_seed(u128::from(seed)));
        check_values(&ChaCha8::at([9; 32], [8; 8], seed));
    }
    check_values(&Steps::new());
    check_values(&Rising::<1>::new());
    check_values(&Rising::<64>::new());
    check_values(&Rising::<512>::new());
    check_values(&Waste::new());
    check_values(&zeros());
    let mut buffered = BufferedRng::new(WyRand::new_seed(3));
    for _ in 0..20 {
        check_values(&buffered);
        let _ = buffered.generate::<u8>();
    }
}
