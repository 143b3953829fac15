//! The functions of `c/include/nanorand.h` with any prefix of their names, which
//! `tests/declarations.py` compares with the header, and the pseudorandom numbers by which the
//! tests choose their calls.
#![allow(dead_code)] // Each test uses a part.

#[derive(Clone, Debug, PartialEq)]
#[repr(C)]
pub struct WyRand {
    pub seed: u64,
}

#[derive(Clone, Debug, PartialEq)]
#[repr(C)]
pub struct Wide {
    pub low: u64,
    pub high: u64,
}

#[derive(Clone, Debug, PartialEq)]
#[repr(C)]
pub struct ChaChaState {
    pub key: [u8; 32],
    pub nonce: [u8; 8],
    pub counter: u64,
}

#[derive(Clone, Debug)]
#[repr(C)]
pub struct Stream {
    pub chacha: ChaChaState,
    pub block: [u8; 64],
    pub buffered: u64,
}

/// Streams are equal if their `chacha` and their buffered bytes are. Delivered bytes do not count.
impl PartialEq for Stream {
    fn eq(&self, other: &Self) -> bool {
        let rest = |stream: &Self| stream.block[64 - stream.buffered as usize..].to_vec();
        self.chacha == other.chacha && rest(self) == rest(other)
    }
}

#[derive(Clone, Debug)]
#[repr(C)]
pub struct GroupStream {
    pub chacha: ChaChaState,
    pub group: [u8; 512],
    pub buffered: u64,
}

impl PartialEq for GroupStream {
    fn eq(&self, other: &Self) -> bool {
        let rest = |stream: &Self| stream.group[512 - stream.buffered as usize..].to_vec();
        self.chacha == other.chacha && rest(self) == rest(other)
    }
}

/// The thirteen calls that every generator has, with its state in C, and `part` if it has that.
pub struct Calls<S> {
    pub u64: fn(&mut S) -> u64,
    pub f64: fn(&mut S) -> f64,
    pub below: fn(&mut S, u64) -> u64,
    pub fill_bytes: fn(&mut S, &mut [u8]),
    pub range_u32: fn(&mut S, u32, u32, &mut u32) -> u32,
    pub range_u64: fn(&mut S, u64, u64, &mut u64) -> u32,
    pub range_i64: fn(&mut S, i64, i64, &mut i64) -> u32,
    pub range_usize: fn(&mut S, usize, usize, &mut usize) -> u32,
    pub shuffle: fn(&mut S, &mut [usize]) -> u32,
    pub shuffle_full: fn(&mut S, &mut [usize]) -> u32,
    pub shuffle_bytes: fn(&mut S, &mut [u8], usize) -> u32,
    pub sample: fn(&mut S, usize, &mut [usize]) -> u32,
    pub extend_sample: fn(&mut S, usize, &mut [usize], usize, &mut [usize]) -> u32,
    pub part: Option<fn(&mut S, u64, u64) -> u32>,
}

/// The thirteen calls of a generator in the library with a prefix.
macro_rules! calls {
    ($prefix:literal, $generator:literal, $state:ty) => {{
        extern "C" {
            #[link_name = concat!($prefix, $generator, "_u64")]
            fn u64(rng: &mut $state) -> u64;
            #[link_name = concat!($prefix, $generator, "_f64")]
            fn f64(rng: &mut $state) -> f64;
            #[link_name = concat!($prefix, $generator, "_below")]
            fn below(rng: &mut $state, n: u64) -> u64;
            #[link_name = concat!($prefix, $generator, "_fill_bytes")]
            fn fill_bytes(rng: &mut $state, buffer: *mut u8, length: usize);
            #[link_name = concat!($prefix, $generator, "_range_u32")]
            fn range_u32(rng: &mut $state, first: u32, last: u32, number: &mut u32) -> u32;
            #[link_name = concat!($prefix, $generator, "_range_u64")]
            fn range_u64(rng: &mut $state, first: u64, last: u64, number: &mut u64) -> u32;
            #[link_name = concat!($prefix, $generator, "_range_i64")]
            fn range_i64(rng: &mut $state, first: i64, last: i64, number: &mut i64) -> u32;
            #[link_name = concat!($prefix, $generator, "_range_usize")]
            fn range_usize(rng: &mut $state, first: usize, last: usize, number: &mut usize) -> u32;
            #[link_name = concat!($prefix, $generator, "_shuffle")]
            fn shuffle(rng: &mut $state, items: *mut usize, length: usize) -> u32;
            #[link_name = concat!($prefix, $generator, "_shuffle_full")]
            fn shuffle_full(rng: &mut $state, items: *mut usize, length: usize) -> u32;
            #[link_name = concat!($prefix, $generator, "_shuffle_bytes")]
            fn shuffle_bytes(rng: &mut $state, items: *mut u8, length: usize, size: usize) -> u32;
            #[link_name = concat!($prefix, $generator, "_sample")]
            fn sample(
                rng: &mut $state,
                population: usize,
                places: *mut usize,
                length: usize,
            ) -> u32;
            #[link_name = concat!($prefix, $generator, "_extend_sample")]
            fn extend_sample(
                rng: &mut $state,
                population: usize,
                places: *mut usize,
                places_length: usize,
                filled: usize,
                table: *mut usize,
                length: usize,
            ) -> u32;
        }
        Calls::<$state> {
            u64: |rng| u64(rng),
            f64: |rng| f64(rng),
            below: |rng, n| below(rng, n),
            fill_bytes: |rng, buffer| fill_bytes(rng, buffer.as_mut_ptr(), buffer.len()),
            range_u32: |rng, first, last, number| range_u32(rng, first, last, number),
            range_u64: |rng, first, last, number| range_u64(rng, first, last, number),
            range_i64: |rng, first, last, number| range_i64(rng, first, last, number),
            range_usize: |rng, first, last, number| range_usize(rng, first, last, number),
            shuffle: |rng, items| shuffle(rng, items.as_mut_ptr(), items.len()),
            shuffle_full: |rng, items| shuffle_full(rng, items.as_mut_ptr(), items.len()),
            shuffle_bytes: |rng, items, size| {
                shuffle_bytes(rng, items.as_mut_ptr(), items.len(), size)
            },
            sample: |rng, population, places| {
                sample(rng, population, places.as_mut_ptr(), places.len())
            },
            extend_sample: |rng, population, places, filled, table| {
                let (slots, items) = (places.len(), table.len());
                let (places, table) = (places.as_mut_ptr(), table.as_mut_ptr());
                extend_sample(rng, population, places, slots, filled, table, items)
            },
            part: None,
        }
    }};
}

/// The call `part` of a generator in the library with a prefix.
macro_rules! part {
    ($prefix:literal, $generator:literal, $state:ty) => {{
        extern "C" {
            #[link_name = concat!($prefix, $generator, "_part")]
            fn part(rng: &mut $state, index: u64, draws: u64) -> u32;
        }
        Some(|rng, index, draws| part(rng, index, draws))
    }};
}

/// A library: the calls of its generators, and its functions of only one generator or of none.
pub struct Library {
    pub wyrand: Calls<WyRand>,
    pub pcg64: Calls<Wide>,
    pub chacha8: Calls<ChaChaState>,
    pub chacha12: Calls<ChaChaState>,
    pub chacha20: Calls<ChaChaState>,
    pub stream: Calls<Stream>,
    pub keystream: Calls<GroupStream>,
    pub new_seed: fn(u64) -> WyRand,
    pub pcg64_new_seed: fn(u64, u64) -> Wide,
    pub chacha_new_key: fn(&[u8; 32], &[u8; 8]) -> ChaChaState,
    pub stream_new_key: fn(&[u8; 32], &[u8; 8]) -> Stream,
    pub keystream_new_key: fn(&[u8; 32], &[u8; 8]) -> GroupStream,
    pub wyrand_seed: fn(&mut WyRand, u64),
    pub pcg64_seed: fn(&mut Wide, u64),
    pub chacha_seeds: [fn(&mut ChaChaState, u64); 3],
    pub stream_seed: fn(&mut Stream, u64),
    pub keystream_seed: fn(&mut GroupStream, u64),
    pub wyrand_jump: fn(&mut WyRand, u64),
    pub pcg64_jump: fn(&mut Wide, &Wide),
    pub wyrand_distance: fn(&WyRand, &WyRand) -> u64,
    pub pcg64_distance: fn(&Wide, &Wide, &mut Wide) -> u32,
    pub blocks: [fn(&mut ChaChaState, &mut [u8; 64]); 3],
    pub digest: fn(&[u8], &mut [u8; 32]),
    pub count: fn(&[u8], &mut usize) -> u32,
    pub draw: fn(&[u8], &mut [usize], usize) -> u32,
    pub version: fn() -> u32,
}

/// The library whose names begin with the prefix.
macro_rules! library {
    ($prefix:literal) => {{
        extern "C" {
            #[link_name = concat!($prefix, "wyrand_new_seed")]
            fn new_seed(seed: u64) -> WyRand;
            #[link_name = concat!($prefix, "pcg64_new_seed")]
            fn pcg64_new_seed(low: u64, high: u64) -> Wide;
            #[link_name = concat!($prefix, "chacha_new_key")]
            fn chacha_new_key(key: &[u8; 32], nonce: &[u8; 8]) -> ChaChaState;
            #[link_name = concat!($prefix, "stream_new_key")]
            fn stream_new_key(key: &[u8; 32], nonce: &[u8; 8]) -> Stream;
            #[link_name = concat!($prefix, "keystream_new_key")]
            fn keystream_new_key(key: &[u8; 32], nonce: &[u8; 8]) -> GroupStream;
            #[link_name = concat!($prefix, "wyrand_seed_from_u64")]
            fn wyrand_seed(rng: &mut WyRand, number: u64);
            #[link_name = concat!($prefix, "pcg64_seed_from_u64")]
            fn pcg64_seed(seed: &mut Wide, number: u64);
            #[link_name = concat!($prefix, "chacha8_seed_from_u64")]
            fn chacha8_seed(state: &mut ChaChaState, number: u64);
            #[link_name = concat!($prefix, "chacha12_seed_from_u64")]
            fn chacha12_seed(state: &mut ChaChaState, number: u64);
            #[link_name = concat!($prefix, "chacha20_seed_from_u64")]
            fn chacha20_seed(state: &mut ChaChaState, number: u64);
            #[link_name = concat!($prefix, "stream_seed_from_u64")]
            fn stream_seed(stream: &mut Stream, number: u64);
            #[link_name = concat!($prefix, "keystream_seed_from_u64")]
            fn keystream_seed(stream: &mut GroupStream, number: u64);
            #[link_name = concat!($prefix, "wyrand_jump")]
            fn wyrand_jump(rng: &mut WyRand, draws: u64);
            #[link_name = concat!($prefix, "pcg64_jump")]
            fn pcg64_jump(seed: &mut Wide, draws: &Wide);
            #[link_name = concat!($prefix, "wyrand_distance")]
            fn wyrand_distance(rng: &WyRand, other: &WyRand) -> u64;
            #[link_name = concat!($prefix, "pcg64_distance")]
            fn pcg64_distance(seed: &Wide, other: &Wide, draws: &mut Wide) -> u32;
            #[link_name = concat!($prefix, "chacha8_block")]
            fn chacha8_block(state: &mut ChaChaState, out: &mut [u8; 64]);
            #[link_name = concat!($prefix, "chacha12_block")]
            fn chacha12_block(state: &mut ChaChaState, out: &mut [u8; 64]);
            #[link_name = concat!($prefix, "chacha20_block")]
            fn chacha20_block(state: &mut ChaChaState, out: &mut [u8; 64]);
            #[link_name = concat!($prefix, "lots_digest")]
            fn digest(text: *const u8, length: usize, digest: &mut [u8; 32]);
            #[link_name = concat!($prefix, "lots_count")]
            fn count(list: *const u8, length: usize, number: &mut usize) -> u32;
            #[link_name = concat!($prefix, "lots_draw")]
            fn draw(
                seed: *const u8,
                seed_length: usize,
                places: *mut usize,
                length: usize,
                wanted: usize,
            ) -> u32;
            #[link_name = concat!($prefix, "version")]
            fn version() -> u32;
        }
        // SAFETY: a pointer and a length are those of one slice.
        unsafe {
            Library {
                wyrand: Calls {
                    part: part!($prefix, "wyrand", WyRand),
                    ..calls!($prefix, "wyrand", WyRand)
                },
                pcg64: Calls {
                    part: part!($prefix, "pcg64", Wide),
                    ..calls!($prefix, "pcg64", Wide)
                },
                chacha8: Calls {
                    part: part!($prefix, "chacha8", ChaChaState),
                    ..calls!($prefix, "chacha8", ChaChaState)
                },
                chacha12: Calls {
                    part: part!($prefix, "chacha12", ChaChaState),
                    ..calls!($prefix, "chacha12", ChaChaState)
                },
                chacha20: Calls {
                    part: part!($prefix, "chacha20", ChaChaState),
                    ..calls!($prefix, "chacha20", ChaChaState)
                },
                stream: calls!($prefix, "stream", Stream),
                keystream: Calls {
                    part: part!($prefix, "keystream", GroupStream),
                    ..calls!($prefix, "keystream", GroupStream)
                },
                new_seed: |seed| new_seed(seed),
                pcg64_new_seed: |low, high| pcg64_new_seed(low, high),
                chacha_new_key: |key, nonce| chacha_new_key(key, nonce),
                stream_new_key: |key, nonce| stream_new_key(key, nonce),
                keystream_new_key: |key, nonce| keystream_new_key(key, nonce),
                wyrand_seed: |rng, number| wyrand_seed(rng, number),
                pcg64_seed: |seed, number| pcg64_seed(seed, number),
                chacha_seeds: [
                    |state, number| chacha8_seed(state, number),
                    |state, number| chacha12_seed(state, number),
                    |state, number| chacha20_seed(state, number),
                ],
                stream_seed: |stream, number| stream_seed(stream, number),
                keystream_seed: |stream, number| keystream_seed(stream, number),
                wyrand_jump: |rng, draws| wyrand_jump(rng, draws),
                pcg64_jump: |seed, draws| pcg64_jump(seed, draws),
                wyrand_distance: |rng, other| wyrand_distance(rng, other),
                pcg64_distance: |seed, other, draws| pcg64_distance(seed, other, draws),
                blocks: [
                    |state, out| chacha8_block(state, out),
                    |state, out| chacha12_block(state, out),
                    |state, out| chacha20_block(state, out),
                ],
                digest: |text, out| digest(text.as_ptr(), text.len(), out),
                count: |list, number| count(list.as_ptr(), list.len(), number),
                draw: |seed, places, wanted| {
                    draw(
                        seed.as_ptr(),
                        seed.len(),
                        places.as_mut_ptr(),
                        places.len(),
                        wanted,
                    )
                },
                version: || version(),
            }
        }
    }};
}

/// The first archive that `build.rs` links: the proved library, or cargo's without the kit.
pub fn one_library() -> Library {
    library!("nanorand_v1_")
}

/// `SplitMix64` by Steele, Lea and Flood (2014), which is not one of the tested generators.
pub struct Chooser(pub u64);

impl Chooser {
    pub fn number(&mut self) -> u64 {
        self.0 = self.0.wrapping_add(0x9e37_79b9_7f4a_7c15);
        let mixed = (self.0 ^ self.0 >> 30).wrapping_mul(0xbf58_476d_1ce4_e5b9);
        let mixed = (mixed ^ mixed >> 27).wrapping_mul(0x94d0_49bb_1331_11eb);
        mixed ^ mixed >> 31
    }

    /// A number below the limit.
    pub fn below(&mut self, limit: usize) -> usize {
        self.number() as usize % limit
    }

    pub fn bytes<const SIZE: usize>(&mut self) -> [u8; SIZE] {
        [(); SIZE].map(|()| self.number() as u8)
    }

    /// A number that is often 0, the maximum or near a power of two. A range whose size is a little
    /// above a power of two rejects nearly half of the words.
    pub fn end(&mut self) -> u64 {
        let power = 1 << (self.number() % 64);
        let ends = [0, u64::MAX, power - 1, power, power + 1];
        let place = self.below(8);
        ends.get(place).copied().unwrap_or_else(|| self.number())
    }
}
