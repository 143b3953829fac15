//! Writes the stream of a generator to standard output until the reader closes it:
//! `quality STREAM SEED`. The seed is the bytes that `reseed` takes, in hexadecimal digits.

use nanorand_proved::{ChaCha, Pcg64, Rng, SeedableRng, WyRand};
use std::env;
use std::error::Error;
use std::io::{self, ErrorKind, Write};

type Failed = Box<dyn Error>;

const USAGE: &str = "usage: quality STREAM SEED; STREAM is wyrand, pcg64, pcg64-low, pcg64-high, \
                     chacha8, chacha12 or chacha20";

/// The number of bytes of one request.
const FILL: usize = 1 << 16;

fn main() -> Result<(), Failed> {
    let arguments: Vec<String> = env::args().skip(1).collect();
    let [stream, seed] = arguments.as_slice() else {
        return Err(USAGE.into());
    };
    match stream.as_str() {
        "wyrand" => write(seeded(WyRand::new_seed(0), seed)?, <[u8]>::to_vec),
        "pcg64" => write(seeded(Pcg64::new_seed(0), seed)?, <[u8]>::to_vec),
        "pcg64-low" => write(seeded(Pcg64::new_seed(0), seed)?, |bytes| halves(bytes, 0)),
        "pcg64-high" => write(seeded(Pcg64::new_seed(0), seed)?, |bytes| halves(bytes, 4)),
        "chacha8" => write(seeded(chacha::<8>(), seed)?, <[u8]>::to_vec),
        "chacha12" => write(seeded(chacha::<12>(), seed)?, <[u8]>::to_vec),
        "chacha20" => write(seeded(chacha::<20>(), seed)?, <[u8]>::to_vec),
        _ => Err(USAGE.into()),
    }
}

/// `ChaCha` with the key 0 and the nonce 0.
fn chacha<const ROUNDS: u8>() -> ChaCha<ROUNDS> {
    ChaCha::new_key([0; 32], [0; 8])
}

/// The generator, reseeded.
fn seeded<G, const SEED_SIZE: usize, const OUTPUT: usize>(
    mut generator: G,
    seed: &str,
) -> Result<G, Failed>
where
    G: SeedableRng<SEED_SIZE, OUTPUT>,
{
    if seed.len() != 2 * SEED_SIZE || !seed.bytes().all(|digit| digit.is_ascii_hexdigit()) {
        return Err(format!("the seed has {} hexadecimal digits", 2 * SEED_SIZE).into());
    }
    let mut bytes = [0; SEED_SIZE];
    for (byte, digits) in bytes.iter_mut().zip(seed.as_bytes().chunks(2)) {
        *byte = u8::from_str_radix(str::from_utf8(digits)?, 16)?;
    }
    generator.reseed(bytes);
    Ok(generator)
}

/// Writes fill after fill; of each, the part that belongs to the stream.
fn write<const OUTPUT: usize>(
    mut generator: impl Rng<OUTPUT>,
    part: impl Fn(&[u8]) -> Vec<u8>,
) -> Result<(), Failed> {
    let mut out = io::stdout().lock();
    let mut bytes = vec![0; FILL];
    loop {
        generator.fill_bytes(&mut bytes);
        match out.write_all(&part(&bytes)) {
            Err(error) if error.kind() == ErrorKind::BrokenPipe => return Ok(()),
            written => written?,
        }
    }
}

/// Four bytes of each 64-bit word, from its byte `first` on. Byte 0 is the least significant one.
fn halves(bytes: &[u8], first: usize) -> Vec<u8> {
    let (words, _) = bytes.as_chunks::<8>();
    let halves = words.iter().flat_map(|word| &word[first..first + 4]);
    halves.copied().collect()
}
