//! A generator of your own: you write only `rand`.

use nanorand_proved::{BufferedRng, RangeError, Rng};

/// Marsaglia's xorshift with the shifts 13, 7 and 17. The state must not be 0.
#[derive(Clone)]
struct XorShift(u64);

impl Rng<8> for XorShift {
    fn rand(&mut self) -> [u8; 8] {
        self.0 ^= self.0 << 13;
        self.0 ^= self.0 >> 7;
        self.0 ^= self.0 << 17;
        self.0.to_le_bytes()
    }
}

fn main() -> Result<(), RangeError> {
    let mut rng = XorShift(1);
    assert_eq!(rng.generate::<u64>(), 0x4082_2041);
    let percent: u8 = rng.generate_range(1..=100)?;
    println!("{percent}");
    assert!((1..=100).contains(&percent));
    let mut letters = ['a', 'b', 'c'];
    rng.shuffle(&mut letters)?;
    let mut buffered = BufferedRng::new(rng);
    assert_ne!(buffered.generate::<u32>(), buffered.generate::<u32>());
    assert_eq!(buffered.buffered(), 0);
    Ok(())
}
