//! The keystream of ChaCha with 20 rounds as one unbroken stream, computed by single blocks or by
//! groups of eight blocks.

use crate::calls::State;
use crate::chacha::ChaChaState;
use nanorand_proved::{BufferedRng, ChaCha20Stream, ChaChaGroups, Parts, PastPeriod, Rng};

/// A generator of groups: its key, its nonce, and the index of the first block of its next group.
#[repr(transparent)]
pub struct Groups(ChaChaState<20>);

impl State<512> for Groups {
    type Generator = ChaChaGroups<20>;

    /// Only the counter is stored back: no call changes the key or the nonce.
    fn call<T>(&mut self, call: impl FnOnce(&mut ChaChaGroups<20>) -> T) -> T {
        let mut rng = ChaChaGroups::at(self.0.key, self.0.nonce, self.0.counter);
        let result = call(&mut rng);
        self.0.counter = rng.counter();
        result
    }
}

/// A stream: its generator, and a block whose last `buffered` bytes are delivered first.
#[repr(C)]
pub struct Gapless<C, const OUTPUT: usize> {
    chacha: C,
    block: [u8; OUTPUT],
    buffered: u64,
}

impl<C, const OUTPUT: usize> Gapless<C, OUTPUT> {
    /// Returns the stream of this generator, with no bytes buffered.
    fn new(chacha: C) -> Self {
        Gapless {
            chacha,
            block: [0; OUTPUT],
            buffered: 0,
        }
    }
}

impl<C: State<OUTPUT>, const OUTPUT: usize> Gapless<C, OUTPUT> {
    /// Returns where the buffered bytes begin. They are always fewer than a block.
    #[allow(clippy::cast_possible_truncation)]
    fn start(&self) -> usize {
        OUTPUT - self.buffered as usize
    }

    /// Fills the buffer as a `BufferedRng` in this state does, and stores the state that it leaves.
    #[inline(never)]
    fn deliver(&mut self, buffer: &mut [u8]) {
        let start = self.start();
        let block = &mut self.block[..];
        self.buffered = self.chacha.call(|rng| {
            let mut rng = BufferedRng::with_rest(rng, &block[start..]).expect("less than a block");
            rng.fill_bytes(buffer);
            let rest = rng.rest();
            block[OUTPUT - rest.len()..].copy_from_slice(rest);
            rest.len() as u64
        });
    }
}

impl<C: State<OUTPUT>, const OUTPUT: usize> Rng<OUTPUT> for Gapless<C, OUTPUT> {
    fn rand(&mut self) -> [u8; OUTPUT] {
        let mut block = [0; OUTPUT];
        self.fill_bytes(&mut block);
        block
    }

    /// If the buffered bytes are enough for the request, no generator is created.
    #[inline]
    fn fill_bytes(&mut self, buffer: &mut [u8]) {
        let rest = &self.block[self.start()..];
        if buffer.len() <= rest.len() {
            buffer.copy_from_slice(&rest[..buffer.len()]);
            self.buffered -= buffer.len() as u64;
        } else {
            self.deliver(buffer);
        }
    }
}

impl<C: State<OUTPUT>, const OUTPUT: usize> State<OUTPUT> for Gapless<C, OUTPUT> {
    type Generator = Self;

    /// A `buffered` count above the greatest that a call can leave, which is `OUTPUT - 1`, is
    /// clamped to it.
    fn call<T>(&mut self, call: impl FnOnce(&mut Self) -> T) -> T {
        self.buffered = self.buffered.min(OUTPUT as u64 - 1);
        call(self)
    }
}

type Stream = Gapless<ChaChaState<20>, 64>;
type GroupStream = Gapless<Groups, 512>;

impl Parts<512> for GroupStream {
    /// The bytes of the block before the buffered ones are left as they are.
    fn part(&self, index: u64, draws: u64) -> Result<Self, PastPeriod> {
        let (chacha, mut block) = (&self.chacha.0, self.block);
        let groups = ChaChaGroups::at(chacha.key, chacha.nonce, chacha.counter);
        let stream = BufferedRng::with_rest(groups, &block[self.start()..]);
        let part: ChaCha20Stream = stream.expect("less than a block").part(index, draws)?;
        let (groups, rest) = (part.inner(), part.rest());
        block[512 - rest.len()..].copy_from_slice(rest);
        Ok(Gapless {
            chacha: Groups(ChaChaState {
                key: groups.key(),
                nonce: groups.nonce(),
                counter: groups.counter(),
            }),
            block,
            buffered: rest.len() as u64,
        })
    }
}

#[no_mangle]
extern "C" fn nanorand_v1_stream_new_key(key: &[u8; 32], nonce: &[u8; 8]) -> Stream {
    Gapless::new(ChaChaState::new_key(*key, *nonce))
}

#[no_mangle]
extern "C" fn nanorand_v1_keystream_new_key(key: &[u8; 32], nonce: &[u8; 8]) -> GroupStream {
    Gapless::new(Groups(ChaChaState::new_key(*key, *nonce)))
}

#[no_mangle]
extern "C" fn nanorand_v1_stream_seed_from_u64(stream: &mut Stream, number: u64) {
    stream.chacha = ChaChaState::seed_from_u64(number);
    stream.buffered = 0;
}

#[no_mangle]
extern "C" fn nanorand_v1_keystream_seed_from_u64(stream: &mut GroupStream, number: u64) {
    stream.chacha = Groups(ChaChaState::seed_from_u64(number));
    stream.buffered = 0;
}

export_calls!("stream", Stream);
export_calls!("keystream", GroupStream);
export_part!("keystream", GroupStream);

#[cfg(test)]
mod tests {
    use super::*;
    use crate::calls;

    #[test]
    fn a_block_is_the_next_bytes() {
        let stream = || Stream::new(ChaChaState::new_key([1; 32], [2; 8]));
        let (mut rng, mut bytes) = (stream(), [0; 70]);
        stream().fill_bytes(&mut bytes);
        rng.fill_bytes(&mut [0; 5]);
        assert_eq!(rng.rand(), bytes[5..69]);
        assert_eq!(rng.generate::<u8>(), bytes[69]);
    }

    #[test]
    fn new_streams_begin_with_the_first_byte() {
        let (key, nonce) = ([1; 32], [2; 8]);
        let mut bytes = [[0; 600]; 3];
        nanorand_v1_stream_new_key(&key, &nonce).fill_bytes(&mut bytes[0]);
        nanorand_v1_keystream_new_key(&key, &nonce).fill_bytes(&mut bytes[1]);
        ChaCha20Stream::new_key(key, nonce).fill_bytes(&mut bytes[2]);
        assert!(bytes[0] == bytes[2] && bytes[1] == bytes[2]);
    }

    #[test]
    fn a_count_above_the_greatest_is_clamped_even_if_nothing_is_drawn() {
        let stream = || Stream {
            buffered: 64,
            ..Stream::new(ChaChaState::new_key([1; 32], [2; 8]))
        };
        let (mut one, mut other, mut number) = (stream(), stream(), 0_u64);
        assert_eq!(calls::below(&mut one, 0), 0);
        assert_eq!(calls::range(&mut other, 2, 1, &mut number), 1);
        assert_eq!((one.buffered, other.buffered), (63, 63));
    }
}
