//! A generator in both crates, and random calls of it.

use crate::faults::Faults;
use crate::own::State;
use nanorand_proved::{Rng, WyRand};
use std::fmt::Debug;
use std::io::Read;

/// A method for each of the types.
macro_rules! of_types {
    ($method:ident: $($number:ty),+) => { vec![$(Pair::$method::<$number>),+] };
}

/// The calls that are compared, each for several types, of a generator of both crates.
pub struct Calls<P> {
    values: Vec<fn(&mut P)>,
    fills: Vec<fn(&mut P, usize)>,
    ranges: Vec<fn(&mut P, &mut WyRand, &mut Faults)>,
}

impl<New, Old, const SEED: usize, const OUTPUT: usize> Calls<Pair<New, Old, SEED, OUTPUT>>
where
    New: new::SeedableRng<SEED, OUTPUT> + State,
    Old: old::SeedableRng<SEED, OUTPUT> + State,
{
    /// All types. Compiling them takes seconds for each generator.
    pub fn of_all_types() -> Self {
        Self {
            values: of_types!(value: u8, u16, u32, u64, u128, usize, i8, i16, i32, i64, i128, isize, bool, f32, f64),
            fills: of_types!(items: u8, u128, i32, f64, bool),
            ranges: of_types!(number: u8, u16, u32, u64, usize, i8, i16, i32, i64, isize),
        }
    }

    /// A type of each kind.
    pub fn of_few_types() -> Self {
        Self {
            values: of_types!(value: u8, u128, i64, bool, f64),
            fills: of_types!(items: u8, u128),
            ranges: of_types!(number: u8, u64, i32),
        }
    }
}

/// One of the items.
fn any<'a, T>(choices: &mut WyRand, items: &'a [T]) -> &'a T {
    &items[below(choices, items.len())]
}

/// A generator of both crates, in the same state.
#[derive(Clone)]
pub struct Pair<New, Old, const SEED: usize, const OUTPUT: usize> {
    pub new: New,
    pub old: Old,
}

pub type Buffered<New, Old, const SEED: usize, const OUTPUT: usize> =
    Pair<new::BufferedRng<New, OUTPUT>, old::BufferedRng<Old, OUTPUT>, SEED, OUTPUT>;

/// A number below `count`.
pub fn below(choices: &mut WyRand, count: usize) -> usize {
    choices.generate_range(0..count).expect("not empty")
}

fn length(choices: &mut WyRand) -> usize {
    let most = [3, 20, 700][below(choices, 3)];
    below(choices, most)
}

impl<New, Old, const SEED: usize, const OUTPUT: usize> Pair<New, Old, SEED, OUTPUT>
where
    New: new::SeedableRng<SEED, OUTPUT> + State,
    Old: old::SeedableRng<SEED, OUTPUT> + State,
{
    /// Makes `count` random calls, and compares all results and every 16th state or so.
    pub fn agrees(
        &mut self,
        calls: &Calls<Self>,
        count: usize,
        choices: &mut WyRand,
        faults: &mut Faults,
    ) {
        for _ in 0..count {
            match below(choices, 16) {
                0 => assert_eq!(self.new.rand(), self.old.rand()),
                1..=4 => any(choices, &calls.values)(self),
                5 => self.fill_bytes(choices),
                6 => any(choices, &calls.fills)(self, below(choices, 20)),
                7..=11 => any(choices, &calls.ranges)(self, choices, faults),
                12 => self.shuffle(choices),
                13 => self.reseed(choices),
                14 => *self = self.clone(),
                _ => assert_eq!(self.new.state(), self.old.state()),
            }
        }
    }

    fn value<T>(&mut self)
    where
        T: new::RandomGen<New, OUTPUT> + old::RandomGen<Old, OUTPUT> + PartialEq + Debug,
    {
        assert_eq!(self.new.generate::<T>(), self.old.generate::<T>());
    }

    fn fill_bytes(&mut self, choices: &mut WyRand) {
        let (mut new, mut old) = (vec![0; length(choices)], Vec::new());
        old.resize(new.len(), 1);
        self.new.fill_bytes(&mut new);
        self.old.fill_bytes(&mut old);
        assert_eq!(new, old);
    }

    fn items<T>(&mut self, length: usize)
    where
        T: new::RandomGen<New, OUTPUT> + old::RandomGen<Old, OUTPUT>,
        T: Clone + Default + PartialEq + Debug,
    {
        let mut new = vec![T::default(); length];
        let mut old = new.clone();
        self.new.fill(&mut new);
        self.old.fill(&mut old);
        assert_eq!(new, old);
    }

    fn shuffle(&mut self, choices: &mut WyRand) {
        let mut new: Vec<_> = (0..below(choices, 20)).collect();
        let mut old = new.clone();
        self.new.shuffle(&mut new);
        self.old.shuffle(&mut old);
        assert_eq!(new, old);
    }

    fn reseed(&mut self, choices: &mut WyRand) {
        let seed = choices.generate();
        self.new.reseed(seed);
        self.old.reseed(seed);
    }

    /// This pair in buffers.
    pub fn buffered(self) -> Buffered<New, Old, SEED, OUTPUT> {
        Pair {
            new: new::BufferedRng::new(self.new),
            old: old::BufferedRng::new(self.old),
        }
    }
}

impl<New, Old, const SEED: usize, const OUTPUT: usize> Buffered<New, Old, SEED, OUTPUT>
where
    New: new::SeedableRng<SEED, OUTPUT> + State,
    Old: old::SeedableRng<SEED, OUTPUT> + State,
{
    /// Reads from both buffers.
    pub fn reads(&mut self, choices: &mut WyRand) {
        let (mut new, mut old) = (vec![0; length(choices)], Vec::new());
        old.resize(new.len(), 1);
        assert_eq!(self.new.read(&mut new).ok(), self.old.read(&mut old).ok());
        assert_eq!(new, old);
        let counts = [
            self.new.read_to_end(&mut new),
            self.old.read_to_end(&mut old),
        ];
        let [new_count, old_count] = counts.map(Result::ok);
        assert_eq!(new_count, old_count);
        assert_eq!(new, old);
    }
}
