//! Functions and structs over any generator: by a trait object, by a type parameter, and by the size of the blocks.

use nanorand_proved::{
    AnyRng, BufferedRng, ChaCha20Stream, ChaCha8, Pcg64, RangeError, Rng, WyRand,
};

/// The day of the year of a birthday. A trait object has all calls of a generator.
fn birthday(rng: &mut dyn AnyRng) -> u16 {
    rng.range(1..=365)
}

/// A quiz that owns its generator, whatever the size of its blocks.
struct Quiz<R> {
    rng: R,
    questions: Vec<&'static str>,
}

impl<R: AnyRng> Quiz<R> {
    fn next(&mut self) -> Result<&'static str, RangeError> {
        self.rng.rng().choose(&self.questions).copied()
    }
}

/// The hours and minutes of an appointment. With the size of the blocks as a parameter the calls are compiled for the
/// generator, which is fastest.
fn time<R: Rng<OUTPUT>, const OUTPUT: usize>(rng: &mut R) -> (u8, u8) {
    (rng.range(8..18), rng.range(..60))
}

fn main() {
    let key = [5; 32];
    let days = [
        birthday(&mut WyRand::seed_from_u64(5)),
        birthday(&mut Pcg64::seed_from_u64(5)),
        birthday(&mut ChaCha8::new_key(key, [5; 8])),
        birthday(&mut BufferedRng::new(ChaCha8::new_key(key, [5; 8]))),
    ];
    println!("{days:?}");
    assert_eq!(
        days[2], days[3],
        "a buffer begins with its generator's bytes"
    );

    let mut rng = WyRand::seed_from_u64(3);
    let (hours, minutes) = time(&mut rng);
    println!("{hours}:{minutes:02}");
    let mut same = WyRand::seed_from_u64(3);
    same.jump(2);
    assert_eq!(
        rng, same,
        "a range of these sizes seldom draws a second word"
    );

    let mut quiz = Quiz {
        rng: ChaCha20Stream::new_key(key, [5; 8]),
        questions: vec!["Why?", "How?", "When?"],
    };
    println!("{}", quiz.next().expect("there are questions"));
    quiz.questions.clear();
    assert_eq!(quiz.next(), Err(RangeError::Empty));
}
