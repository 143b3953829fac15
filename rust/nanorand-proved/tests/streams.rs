//! ChaCha streams deliver the same bytes as buffered generators, and can seek.

use nanorand_proved::{
    chacha_stream, chacha_stream_at, BufferedRng, ChaCha, ChaCha20, ChaCha20Stream, ChaCha8Stream,
    ChaChaGroups, ChaChaStream, Keystream, Rng, SeedableRng,
};

const KEY: [u8; 32] = [1; 32];

const NONCE: [u8; 8] = [2; 8];

#[test]
fn streams_of_seeds() {
    let mut seed = [1; 40];
    seed[32..].copy_from_slice(&NONCE);
    let stream = ChaCha20Stream::from_seed(seed);
    assert_eq!(stream, ChaCha20Stream::new_key(KEY, NONCE));
    assert_eq!(stream.position(), 0);
}

#[test]
fn streams_by_functions() {
    let stream: ChaCha20Stream = chacha_stream(KEY, NONCE);
    assert_eq!(stream, ChaCha20Stream::new_key(KEY, NONCE));
    let stream: ChaCha8Stream = chacha_stream_at(KEY, NONCE, 3);
    assert_eq!(stream, ChaCha8Stream::at_block(KEY, NONCE, 3));
}

/// The calls of a stream are those of the trait.
#[test]
fn calls_of_the_trait() {
    type Stream = ChaChaStream<12>;
    for index in [0, 1, 1 << 32, u64::MAX] {
        let mut stream = Stream::at_block(KEY, NONCE, index);
        let mut same = <Stream as Keystream<512>>::at_block(KEY, NONCE, index);
        assert_eq!(stream, same);
        for byte in [0, 1, 511, 512, 513, 1 << 69, (1 << 70) + 5, u128::MAX] {
            stream.seek(byte);
            Keystream::seek(&mut same, byte);
            assert_eq!(stream, same);
            assert_eq!(stream.position(), Keystream::position(&same));
        }
    }
    let same: Stream = Keystream::new_key(KEY, NONCE);
    assert_eq!(Stream::new_key(KEY, NONCE), same);
}

/// A stream is restored from its key, its nonce and its position, wherever it is.
#[test]
fn stored_streams() {
    for size in [0, 1, 8, 63, 64, 511, 512, 513, 4096] {
        let mut stream = ChaCha20Stream::at_block([3; 32], [4; 8], 5);
        stream.fill_bytes(&mut vec![0; size]);
        let (key, nonce) = (stream.key(), stream.nonce());
        assert_eq!((key, nonce), ([3; 32], [4; 8]));
        let mut restored = ChaCha20Stream::new_key(key, nonce);
        restored.seek(stream.position());
        assert_eq!(restored.position(), stream.position());
        assert_eq!(restored.next_u64(), stream.next_u64(), "{size}");
    }
}

#[cfg(all(unix, feature = "std"))]
#[test]
fn streams_from_the_system() {
    let made = || nanorand_proved::ChaCha12Stream::from_entropy().expect("entropy");
    let (one, other) = (made(), made());
    assert_ne!(one.inner().key(), other.inner().key());
    assert_ne!(one.inner().nonce(), other.inner().nonce());
    assert_eq!((one.position(), other.position()), (0, 0));
}

fn deliver_alike<const ROUNDS: u8>(index: u64) {
    let mut stream = ChaChaStream::<ROUNDS>::at_block(KEY, NONCE, index);
    let mut buffered = BufferedRng::new(ChaCha::<ROUNDS>::at(KEY, NONCE, index));
    for size in 0..=1100 {
        let (mut left, mut right) = (vec![0xee; size], vec![0xdd; size]);
        stream.fill_bytes(&mut left);
        buffered.fill_bytes(&mut right);
        assert_eq!(left, right);
        assert_eq!(stream.generate::<u64>(), buffered.generate::<u64>());
    }
}

#[test]
fn streams_deliver_what_buffers_deliver() {
    for index in [0, 0xffff_fffb, u64::MAX - 2, u64::MAX] {
        deliver_alike::<2>(index);
        deliver_alike::<6>(index);
        deliver_alike::<8>(index);
        deliver_alike::<12>(index);
        deliver_alike::<20>(index);
    }
}

/// Positions at ends of blocks and groups, a carry of the counter, and the end of the stream.
const PLACES: [u128; 16] = [
    0,
    1,
    63,
    64,
    511,
    512,
    513,
    100_000,
    (1 << 38) - 513,
    (1 << 38) - 1,
    1 << 38,
    (1 << 70) - 513,
    (1 << 70) - 1,
    1 << 70,
    (1 << 70) + 77,
    u128::MAX,
];

/// After a seek to each position, the bytes of the blocks follow.
fn is_sought<const ROUNDS: u8>() {
    let mut stream: ChaChaStream<ROUNDS> = chacha_stream_at(KEY, NONCE, 3);
    assert_eq!(stream.position(), 192);
    for byte in PLACES {
        let place = byte % (1 << 70);
        stream.seek(byte);
        assert_eq!(stream.position(), place);
        let mut blocks = [0; 700];
        let index = u64::try_from(place / 64).expect("an index");
        ChaCha::<ROUNDS>::at(KEY, NONCE, index).fill_bytes(&mut blocks);
        let start = usize::try_from(byte % 64).expect("a place in a block");
        let mut bytes = [0; 600];
        stream.fill_bytes(&mut bytes);
        assert_eq!(bytes, blocks[start..start + 600], "{byte}");
        assert_eq!(stream.position(), (place + 600) % (1 << 70));
    }
}

#[test]
fn streams_are_sought() {
    is_sought::<8>();
    is_sought::<12>();
    is_sought::<20>();
}

#[test]
fn groups_are_of_eight_blocks() {
    let mut groups = ChaChaGroups::<20>::at(KEY, NONCE, 5);
    let parts = (groups.key(), groups.nonce(), groups.counter());
    assert_eq!(parts, (KEY, NONCE, 5));
    assert_eq!(groups.to_string(), "ChaCha (20 rounds, by groups)");
    let text = "ChaChaGroups { rounds: 20, counter: 5 }";
    assert_eq!(format!("{groups:?}"), text);
    assert_eq!(format!("{groups:*^+#0200.3?}"), text);
    let (mut blocks, mut bytes) = ([0; 600], [1; 600]);
    ChaCha20::at(KEY, NONCE, 5).fill_bytes(&mut blocks);
    groups.clone().fill_bytes(&mut bytes);
    assert_eq!(bytes, blocks);
    groups.jump_blocks(8);
    assert_eq!(groups, ChaChaGroups::at(KEY, NONCE, 13));
    assert_eq!(groups, ChaChaGroups::at(KEY, NONCE, 5).at_index(13));
    groups.reseed([0; 40]);
    assert_eq!(groups, ChaChaGroups::new_key([0; 32], [0; 8]));
}

#[test]
fn a_sought_stream_goes_on_from_that_byte() {
    let mut whole = vec![0; 3000];
    ChaCha8Stream::new_key(KEY, NONCE).fill_bytes(&mut whole);
    let mut stream = ChaCha8Stream::new_key(KEY, NONCE);
    for start in (0..2000).rev() {
        stream.seek(start as u128);
        assert_eq!(stream.position(), start as u128);
        let mut bytes = [0; 1000];
        stream.fill_bytes(&mut bytes);
        assert_eq!(bytes, whole[start..start + 1000]);
    }
}

/// Whatever was buffered before, even of another stream, a seek to a byte leaves the same state.
#[test]
fn a_seek_forgets_what_was_buffered() {
    let at = |index| ChaCha8Stream::at_block(KEY, NONCE, index);
    let mut reseeded = ChaCha8Stream::new_key([9; 32], [9; 8]);
    reseeded.fill_bytes(&mut [0; 700]);
    reseeded.reseed(
        [KEY.to_vec(), NONCE.to_vec()]
            .concat()
            .try_into()
            .expect("a seed"),
    );
    let mut drawn = at(1);
    drawn.fill_bytes(&mut [0; 5]);
    let lent = BufferedRng::with_rest(at(8).inner().clone(), &[7; 300]).expect("a part of a block");
    for start in [reseeded, drawn, lent, at(0), at(3)] {
        for byte in (0..1100).chain([1 << 20, (1 << 70) - 1]) {
            let (mut sought, mut fresh) = (start.clone(), at(0));
            sought.seek(byte);
            fresh.seek(byte);
            assert_eq!(sought, fresh, "{byte}");
            assert_eq!(sought.buffered(), fresh.buffered(), "{byte}");
            assert_eq!(sought.generate::<u64>(), fresh.generate::<u64>(), "{byte}");
        }
    }
}

#[test]
fn the_first_byte_follows_the_last() {
    let mut stream = ChaCha20Stream::new_key(KEY, NONCE);
    let first: u8 = stream.generate();
    stream.seek((1 << 70) - 1);
    let _: u8 = stream.generate();
    assert_eq!(stream.position(), 0);
    assert_eq!(stream.generate::<u8>(), first);
}
