//! Generators whose bytes are known, and a reader that ends early or fails.
#![allow(dead_code)] // each test file uses a part

pub mod formats;
pub mod kinds;

use kinds::Fault;
use nanorand_proved::rand::fill_by_blocks;
use nanorand_proved::{Rng, SeedableRng};
use std::io::{self, Read};

/// The bytes 0, 1, 2, .. modulo 256, in blocks of `SIZE` bytes.
#[derive(Clone, Debug, Default, PartialEq, Eq)]
pub struct Rising<const SIZE: usize> {
    drawn: u64,
}

/// The same in blocks of eight bytes.
pub type Steps = Rising<8>;

impl<const SIZE: usize> Rising<SIZE> {
    pub fn new() -> Self {
        Self::default()
    }

    /// The number of blocks drawn so far.
    pub fn drawn(&self) -> u64 {
        self.drawn
    }
}

impl<const SIZE: usize> Rng<SIZE> for Rising<SIZE> {
    fn rand(&mut self) -> [u8; SIZE] {
        let size = u64::try_from(SIZE).expect("a small block");
        let first = self.drawn.wrapping_mul(size).to_le_bytes()[0];
        self.drawn = self.drawn.wrapping_add(1);
        let mut next = first;
        [(); SIZE].map(|()| {
            let byte = next;
            next = next.wrapping_add(1);
            byte
        })
    }
}

/// A seed is the number of the next block.
impl<const SIZE: usize> SeedableRng<1, SIZE> for Rising<SIZE> {
    fn reseed(&mut self, seed: [u8; 1]) {
        self.drawn = seed[0].into();
    }
}

/// Bytes that are all equal, in blocks of eight.
#[derive(Clone, Debug, PartialEq, Eq)]
pub struct Constant {
    byte: u8,
    drawn: u64,
}

impl Constant {
    pub fn new(byte: u8) -> Self {
        Constant { byte, drawn: 0 }
    }

    /// The number of blocks drawn so far.
    pub fn drawn(&self) -> u64 {
        self.drawn
    }
}

impl Rng<8> for Constant {
    fn rand(&mut self) -> [u8; 8] {
        self.drawn += 1;
        [self.byte; 8]
    }
}

/// A generator of zeros.
pub fn zeros() -> Constant {
    Constant::new(0)
}

/// Block n is byte n of a list, eight times. After the list come zeros.
#[derive(Clone, Debug, PartialEq, Eq)]
pub struct Script {
    bytes: Vec<u8>,
    drawn: usize,
}

impl Script {
    pub fn new(bytes: &[u8]) -> Self {
        Script {
            bytes: bytes.to_vec(),
            drawn: 0,
        }
    }

    /// The number of blocks drawn so far.
    pub fn drawn(&self) -> usize {
        self.drawn
    }
}

impl Rng<8> for Script {
    fn rand(&mut self) -> [u8; 8] {
        let byte = self.bytes.get(self.drawn).map_or(0, |byte| *byte);
        self.drawn += 1;
        [byte; 8]
    }
}

/// Blocks of one byte: zeros, then the bytes of a list, then zeros again.
#[derive(Clone, Debug, PartialEq, Eq)]
pub struct ByteScript {
    zeros: usize,
    bytes: Vec<u8>,
    drawn: usize,
}

impl ByteScript {
    pub fn new(bytes: &[u8]) -> Self {
        Self::after_zeros(0, bytes)
    }

    pub fn after_zeros(zeros: usize, bytes: &[u8]) -> Self {
        ByteScript {
            zeros,
            bytes: bytes.to_vec(),
            drawn: 0,
        }
    }

    /// The number of bytes drawn so far.
    pub fn drawn(&self) -> usize {
        self.drawn
    }
}

impl Rng<1> for ByteScript {
    fn rand(&mut self) -> [u8; 1] {
        let index = self.drawn.checked_sub(self.zeros);
        let byte = index
            .and_then(|index| self.bytes.get(index))
            .map_or(0, |byte| *byte);
        self.drawn += 1;
        [byte]
    }
}

/// The blocks of `Steps`. A request for any number of bytes but 0 and 8 draws one block more than a
/// plain generator does, and drops it.
#[derive(Clone, Debug, Default, PartialEq, Eq)]
pub struct Waste {
    steps: Steps,
}

impl Waste {
    pub fn new() -> Self {
        Self::default()
    }

    /// The number of blocks drawn so far.
    pub fn drawn(&self) -> u64 {
        self.steps.drawn()
    }
}

impl Rng<8> for Waste {
    fn rand(&mut self) -> [u8; 8] {
        self.steps.rand()
    }

    fn fill_bytes(&mut self, buffer: &mut [u8]) {
        let wasteful = !matches!(buffer.len(), 0 | 8);
        fill_by_blocks(&mut self.steps, buffer);
        if wasteful {
            let _ = self.steps.rand();
        }
    }
}

/// Blocks that alternate the number of the stream and the number of the block. A clone does not
/// equal its original: it is the next stream, at the same block.
#[derive(Debug, PartialEq, Eq)]
pub struct Forking<const SIZE: usize> {
    pub stream: u8,
    pub drawn: u8,
}

impl<const SIZE: usize> Clone for Forking<SIZE> {
    fn clone(&self) -> Self {
        Forking {
            stream: self.stream.wrapping_add(1),
            drawn: self.drawn,
        }
    }
}

impl<const SIZE: usize> Rng<SIZE> for Forking<SIZE> {
    fn rand(&mut self) -> [u8; SIZE] {
        let pair = [self.stream, self.drawn];
        self.drawn = self.drawn.wrapping_add(1);
        std::array::from_fn(|place| pair[place % 2])
    }
}

/// A reader of known bytes, with at most `piece` bytes at a read. One of its reads may fail.
pub struct Pieces<'a> {
    bytes: &'a [u8],
    piece: usize,
    fault: Option<(usize, Fault)>,
    reads: usize,
}

impl<'a> Pieces<'a> {
    pub fn of(bytes: &'a [u8], piece: usize) -> Self {
        Pieces {
            bytes,
            piece,
            fault: None,
            reads: 0,
        }
    }

    /// The same, but the read with this number, from 0, fails.
    pub fn failing(bytes: &'a [u8], piece: usize, read: usize, fault: impl Into<Fault>) -> Self {
        Pieces {
            fault: Some((read, fault.into())),
            ..Pieces::of(bytes, piece)
        }
    }

    /// The number of bytes not yet read.
    pub fn left(&self) -> usize {
        self.bytes.len()
    }

    /// The number of reads so far.
    pub fn reads(&self) -> usize {
        self.reads
    }
}

impl Read for Pieces<'_> {
    fn read(&mut self, out: &mut [u8]) -> io::Result<usize> {
        let read = self.reads;
        self.reads += 1;
        match self.fault {
            Some((number, fault)) if number == read => Err(fault.error()),
            _ => {
                let count = self.piece.min(self.bytes.len()).min(out.len());
                let (given, left) = self.bytes.split_at(count);
                out[..count].copy_from_slice(given);
                self.bytes = left;
                Ok(count)
            }
        }
    }
}

/// The bytes that hexadecimal digits stand for.
pub fn bytes_of(digits: &str) -> Vec<u8> {
    let digits: Vec<u32> = digits
        .chars()
        .map(|digit| digit.to_digit(16).expect("a hexadecimal digit"))
        .collect();
    digits
        .chunks(2)
        .map(|pair| u8::try_from(16 * pair[0] + pair[1]).expect("two digits"))
        .collect()
}

/// The same, as an array.
pub fn array_of<const SIZE: usize>(digits: &str) -> [u8; SIZE] {
    bytes_of(digits).try_into().expect("the array's length")
}

/// The indices 0, 1, 2, ..
pub fn rising(count: usize) -> Vec<usize> {
    (0..count).collect()
}
