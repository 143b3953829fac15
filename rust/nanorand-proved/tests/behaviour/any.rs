//! Generators behind `AnyRng` draw the same as through `Rng`.

use crate::common::{Rising, Waste};
use nanorand_proved::rand::ChaChaGroups;
use nanorand_proved::{
    chacha_stream, AnyRng, BufferedRng, ChaCha12, ChaCha8, Pcg64, RangeError, Rng, WyRand,
};
use std::fmt::Debug;

type Drawn = (u8, char, [u16; 3], [u8; 9], i64);

/// A draw of each kind.
fn draws<R: Rng<N>, const N: usize>(rng: &mut R) -> Result<Drawn, RangeError> {
    let mut items = [0, 1, 2];
    rng.shuffle(&mut items)?;
    let mut bytes = [0; 9];
    rng.fill_bytes(&mut bytes);
    let letter = rng.generate_range('a'..='z')?;
    Ok((
        rng.generate(),
        letter,
        items,
        bytes,
        rng.generate_range(-5..)?,
    ))
}

fn by_parameter(rng: &mut impl AnyRng) -> Result<u16, RangeError> {
    rng.rng().generate_range(..1000)
}

fn by_table(rng: &mut dyn AnyRng) -> Result<u16, RangeError> {
    rng.rng().generate_range(..1000)
}

fn check<G: Rng<N> + AnyRng + Clone + PartialEq + Debug, const N: usize>(fresh: &G) {
    check_lengths(fresh);
    let (mut rng, mut any) = (fresh.clone(), fresh.clone());
    assert_eq!(draws(&mut rng), draws(&mut any.rng()));
    assert_eq!(rng, any);
    let numbers = [(); 6].map(|()| rng.generate_range(..1000));
    let same = [
        by_parameter(&mut any),
        by_parameter(&mut &mut any),
        by_parameter(&mut any.rng()),
        by_table(&mut any),
        by_table(&mut any.as_any()),
        by_table(any.rng()),
    ];
    assert_eq!(numbers, same);
    let lent: &mut dyn AnyRng = &mut any;
    let mut bytes = [0; 5];
    lent.bytes(&mut bytes);
    let drawn = (bytes, lent.u32(), lent.u64(), lent.rng().rand());
    rng.fill_bytes(&mut bytes);
    assert_eq!(
        drawn,
        (bytes, rng.next_u32(), rng.next_u64(), rng.generate())
    );
    let mut boxed: Box<dyn AnyRng + '_> = Box::new(&mut any);
    let drawn = (
        boxed.u32(),
        boxed.u64(),
        by_parameter(&mut boxed),
        by_table(&mut *boxed),
    );
    let numbers = (rng.next_u32(), rng.next_u64());
    assert_eq!(
        drawn,
        (
            numbers.0,
            numbers.1,
            rng.generate_range(..1000),
            rng.generate_range(..1000)
        )
    );
    drop(boxed);
    assert_eq!(rng, any);
}

/// Each way to make a request makes one request of the whole length, at the beginning of a block
/// and within one.
fn check_lengths<G: Rng<N> + AnyRng + Clone + PartialEq + Debug, const N: usize>(fresh: &G) {
    let calls: [fn(&mut G, &mut [u8]); 7] = [
        |rng, bytes| AnyRng::bytes(rng, bytes),
        |rng, bytes| AnyRng::bytes(&mut &mut *rng, bytes),
        |rng, bytes| rng.as_any().bytes(bytes),
        |rng, bytes| AnyRng::rng(rng).bytes(bytes),
        |rng, bytes| AnyRng::rng(rng).fill_bytes(bytes),
        |rng, bytes| Box::new(rng).bytes(bytes),
        |rng, bytes| (Box::new(rng) as Box<dyn AnyRng + '_>).rng().bytes(bytes),
    ];
    let mut begun = fresh.clone();
    let _ = begun.next_u32();
    for start in [fresh, &begun] {
        for size in [0, 1, 64, 65, 255, 256, 257, 511, 512, 513, 4097] {
            let mut same = start.clone();
            let mut expected = vec![1; size];
            same.fill_bytes(&mut expected);
            for (place, call) in calls.iter().enumerate() {
                let (mut rng, mut bytes) = (start.clone(), vec![0; size]);
                call(&mut rng, &mut bytes);
                assert!(bytes == expected && rng == same, "{start:?} {place} {size}");
            }
        }
        let (mut rng, mut same) = (start.clone(), start.clone());
        let array: [u8; 513] = AnyRng::rng(&mut rng).generate();
        assert!(
            array == same.generate::<[u8; 513]>() && rng == same,
            "{start:?}"
        );
    }
}

#[test]
fn all_draw_what_they_draw_as_generators() {
    let (key, nonce) = ([1; 32], [2; 8]);
    check(&WyRand::new_seed(42));
    check(&Pcg64::new_seed(42));
    check(&ChaCha8::new_key(key, nonce));
    check(&ChaChaGroups::<12>::new_key(key, nonce));
    check(&BufferedRng::new(ChaCha12::new_key(key, nonce)));
    check(&BufferedRng::new(Rising::<1>::new()));
    check(&BufferedRng::new(Rising::<3>::new()));
    check(&BufferedRng::new(Rising::<600>::new()));
    check(&BufferedRng::new(ChaChaGroups::<12>::new_key(key, nonce)));
    check(&chacha_stream::<20>(key, nonce));
}

/// A call is one request, of 4, 8 or all bytes.
#[test]
fn one_request_a_call() {
    let mut waste = Waste::new();
    let mut lent = waste.as_any();
    assert_eq!(
        (lent.u64(), lent.u32()),
        (0x0706_0504_0302_0100, 0x0b0a_0908)
    );
    let mut bytes = [0; 3];
    lent.bytes(&mut bytes);
    assert_eq!(bytes, [24, 25, 26]);
    lent.rng().fill_bytes(&mut bytes);
    assert_eq!(bytes, [40, 41, 42]);
    lent.bytes(&mut []);
    assert_eq!(lent.rng().rand(), [56, 57, 58, 59, 60, 61, 62, 63]);
    assert_eq!(waste.drawn(), 8);
}

/// Makes one request to a generator that is passed by value or by reference.
fn by_reference<R: Rng<N>, const N: usize>(mut rng: R, bytes: &mut [u8]) {
    rng.fill_bytes(bytes);
}

/// A large request is passed on as one, even through a borrowed generator.
#[test]
fn large_requests_are_one() {
    for size in [9, 63, 64, 65, 511, 512, 513, 4096, 4097, 100_000] {
        let (mut waste, mut same) = (Waste::new(), Waste::new());
        let (mut bytes, mut expected) = (vec![0; size], vec![1; size]);
        same.fill_bytes(&mut expected);
        let mut lent = waste.as_any();
        lent.bytes(&mut bytes);
        assert!(bytes == expected, "{size}");
        lent.rng().fill_bytes(&mut bytes);
        same.fill_bytes(&mut expected);
        assert!(bytes == expected, "{size}");
        by_reference(&mut waste, &mut bytes);
        same.fill_bytes(&mut expected);
        assert!(bytes == expected, "{size}");
        assert_eq!(waste, same, "{size}");
    }
}

/// A user's own methods, none of which makes a request through another one.
struct Own;

impl AnyRng for Own {
    fn bytes(&mut self, buffer: &mut [u8]) {
        buffer.fill(1);
    }

    fn u32(&mut self) -> u32 {
        2
    }

    fn u64(&mut self) -> u64 {
        3
    }
}

#[test]
fn references_pass_each_call_on() {
    fn calls<R: AnyRng>(mut rng: R) -> (u32, u64, [u8; 8], u8) {
        (rng.u32(), rng.u64(), rng.rng().rand(), rng.rng().generate())
    }
    let expected = (2, 3, 3_u64.to_le_bytes(), 1);
    assert_eq!(calls(&mut Own), expected);
    assert_eq!(calls(Box::new(Own)), expected);
}
