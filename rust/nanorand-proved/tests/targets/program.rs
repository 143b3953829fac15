//! Checks that every target draws what x86-64 draws. Any difference is a panic.

use nanorand_proved::choices::{choose, choose_weighted, ratio};
use nanorand_proved::replay::{replay, Answer, Call, Kind, Span};
use nanorand_proved::samples::sample;
use nanorand_proved::shuffles::partial_shuffle;
use nanorand_proved::{BufferedRng, ChaCha20, ChaCha20Stream, Pcg64, Rng, WyRand};
use std::error::Error;
use std::io::ErrorKind;
use std::ops::Bound::{Excluded, Included};

type Outcome = Result<(), Box<dyn Error>>;

// The first two words of `WyRand` with the seed 42.
const FIRST: u64 = 12_558_987_674_375_533_620;
const SECOND: u64 = 16_846_851_108_956_068_306;

fn values() {
    let mut rng = WyRand::new_seed(42);
    let drawn: (u8, u16, u32) = (rng.generate(), rng.generate(), rng.generate());
    assert_eq!(drawn, (52, 55_762, 731_071_290));
    assert_eq!(rng.generate::<u64>(), 16_945_271_478_357_465_713);
    assert_eq!(rng.generate::<u128>() >> 64, 17_023_095_405_122_205_773);
    assert_eq!(rng.generate::<[u8; 3]>(), [210, 170, 158]);
}

// A 64-bit word is drawn on every target. If `usize` has 32 bits, a value is the word's low half,
// and the word's high half is the number in a range of all numbers.
fn whole_words() -> Outcome {
    let mut rng = BufferedRng::new(WyRand::new_seed(42));
    assert_eq!(rng.generate::<usize>(), FIRST as usize);
    let number: usize = rng.generate_range(..)?;
    assert_eq!(number as u64, SECOND >> (64 - usize::BITS));
    Ok(())
}

fn parts_and_letters() -> Outcome {
    let mut rng = Pcg64::new_seed(42);
    let (part, small): (f64, f32) = (rng.generate(), rng.generate());
    assert_eq!(
        (part.to_bits(), small.to_bits()),
        (4_606_536_209_448_539_444, 1_057_140_734)
    );
    let between: f64 = rng.generate_range(-1.0..=1.0)?;
    assert_eq!(between.to_bits(), 13_823_086_902_998_516_066);
    let letters: [char; 2] = [rng.generate(), rng.generate_range('a'..='z')?];
    assert_eq!(letters, ['\u{402d2}', 'n']);
    let wide: u128 = rng.generate_range(..10_u128.pow(30))?;
    assert_eq!(wide, 250_483_202_042_847_840_397_902_931_295);
    Ok(())
}

fn indices() -> Outcome {
    let mut rng = Pcg64::new_seed(42);
    let mut drawn = [1, 2, 10, 52, 1000, 1_000_003, 0x7fff_ffff, 0xffff_ffff];
    for number in &mut drawn {
        *number = rng.generate_range(0..*number)?;
    }
    let expected: [usize; 8] = [0, 0, 3, 10, 223, 691_225, 537_908_580, 3_606_815_459];
    assert_eq!(drawn, expected);
    let mut buffered = BufferedRng::new(rng);
    let mut drawn = [0, 1, 100, 0x7fff_ffff];
    for number in &mut drawn {
        *number = buffered.generate_range(-*number..=*number)?;
    }
    let expected: [isize; 4] = [0, -1, 46, 1_924_746_274];
    assert_eq!(drawn, expected);
    Ok(())
}

fn permutations() -> Outcome {
    let mut rng = WyRand::new_seed(42);
    let mut items = [0, 1, 2, 3, 4, 5, 6, 7, 8, 9];
    rng.shuffle(&mut items)?;
    partial_shuffle(&mut rng, &mut items, 4)?;
    assert_eq!(items, [9, 2, 1, 7, 0, 3, 4, 8, 5, 6]);
    let mut places = [0; 6];
    sample(&mut rng, 100_000, &mut places)?;
    assert_eq!(places, [877, 47_952, 18_200, 49_463, 93_686, 73_114]);
    Ok(())
}

fn choices() -> Outcome {
    let mut rng = ChaCha20::new_key([7; 32], [9; 8]);
    for expected in [
        (50, 3, false),
        (20, 1, false),
        (10, 3, true),
        (50, 3, false),
    ] {
        let item = *choose(&mut rng, &[10, 20, 30, 40, 50, 60, 70])?;
        let index = choose_weighted(&mut rng, &[1, 2, 3, 4])?;
        assert_eq!((item, index, ratio(&mut rng, 1, 3)?), expected);
    }
    Ok(())
}

// Many blocks side by side, and the same blocks one by one.
fn keystreams() {
    let mut bytes = [0; 64 * 21];
    ChaCha20Stream::new_key([1; 32], [2; 8]).fill_bytes(&mut bytes);
    let mut rng = ChaCha20::new_key([1; 32], [2; 8]);
    assert!(bytes.chunks(64).all(|block| block == rng.rand()));
    assert_eq!(rng.next_u64(), 3_926_706_526_752_523_387);
    let mut last = ChaCha20Stream::at_block([1; 32], [2; 8], u64::MAX);
    assert_eq!(last.next_u64(), 10_904_953_932_718_057_405);
    assert_eq!(last.next_u64(), 8_187_130_211_892_592_034);
}

fn jumps() {
    let mut wyrand = WyRand::new_seed(42);
    wyrand.jump(1 << 40);
    assert_eq!(wyrand.next_u64(), 4_999_773_203_753_815_565);
    let mut pcg64 = Pcg64::new_seed(42);
    pcg64.jump(1 << 100);
    assert_eq!(pcg64.next_u64(), 10_562_325_450_995_638_866);
    let mut chacha = ChaCha20::new_key([1; 32], [2; 8]);
    chacha.jump(1 << 40);
    assert_eq!(chacha.next_u64(), 13_553_234_188_032_670_053);
}

fn replays() {
    let calls = [
        Call::Gen(Kind::Usize),
        Call::Range(Span::Usize(Included(5), Excluded(1000))),
        Call::Range(Span::Isize(Excluded(5), Included(5))),
        Call::Shuffle,
    ];
    let mut items = [0, 1, 2, 3, 4];
    let mut answers = [Answer::Empty; 4];
    replay(&mut WyRand::new_seed(42), &calls, &mut items, &mut answers);
    let [first, second] = [FIRST, 913].map(|number| Answer::Unsigned(number.into()));
    assert_eq!(answers, [first, second, Answer::Empty, Answer::Shuffled]);
    assert_eq!(items, [3, 4, 0, 1, 2]);
}

// The system provides seeds, which differ, except for WebAssembly without a system.
fn seeds() -> Outcome {
    match WyRand::from_entropy() {
        Ok(rng) => assert_ne!(rng, WyRand::from_entropy()?),
        Err(error) => {
            assert_eq!(error.kind(), ErrorKind::Unsupported, "{error}");
            assert!(cfg!(all(target_family = "wasm", target_os = "unknown")));
        }
    }
    Ok(())
}

fn main() -> Outcome {
    values();
    whole_words()?;
    parts_and_letters()?;
    indices()?;
    permutations()?;
    choices()?;
    keystreams();
    jumps();
    replays();
    seeds()
}
