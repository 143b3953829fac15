//! Parses the command-line arguments into a command.

use crate::error::DrawError;
use crate::hex;
use crate::numbers::read_unsigned;
use crate::requests::call_of;
use nanorand_proved::replay::Call;

/// The generators that the first argument can name.
#[derive(Clone, Copy)]
pub enum Generator {
    WyRand,
    Pcg64,
    ChaCha8,
    ChaCha12,
    ChaCha20,
}

/// A generator and the bytes of its seed: a little-endian number for `WyRand` and `Pcg64`, and a
/// key of 32 bytes followed by a nonce of 8 bytes for ChaCha.
#[derive(Clone, Copy)]
pub enum SeededGenerator {
    WyRand([u8; 8]),
    Pcg64([u8; 16]),
    ChaCha8([u8; 40]),
    ChaCha12([u8; 40]),
    ChaCha20([u8; 40]),
}

/// Whether the draws are buffered. A word is a random integer of N bits. In plain mode each value
/// or word starts with a new block of the generator; in buffered mode it continues where the last
/// one ended.
#[derive(Clone, Copy)]
pub enum Mode {
    Plain,
    Buffered,
}

/// What the arguments ask for: `count` items 0, 1, .., and a list of calls of a generator.
pub struct Command {
    pub generator: SeededGenerator,
    pub mode: Mode,
    pub count: u64,
    pub calls: Vec<Call>,
}

/// The greatest allowed number of items.
const MOST_ITEMS: u64 = 1000;

/// Returns the generator with this name.
fn generator_named(name: &str) -> Option<Generator> {
    match name {
        "wyrand" => Some(Generator::WyRand),
        "pcg64" => Some(Generator::Pcg64),
        "chacha8" => Some(Generator::ChaCha8),
        "chacha12" => Some(Generator::ChaCha12),
        "chacha20" => Some(Generator::ChaCha20),
        _ => None,
    }
}

/// Returns the generator with the seed that the text gives, as two hexadecimal digits for each
/// byte.
fn seeded_generator(generator: Generator, seed: &str) -> Option<SeededGenerator> {
    match generator {
        Generator::WyRand => Some(SeededGenerator::WyRand(hex::bytes_of(seed)?)),
        Generator::Pcg64 => Some(SeededGenerator::Pcg64(hex::bytes_of(seed)?)),
        Generator::ChaCha8 => Some(SeededGenerator::ChaCha8(hex::bytes_of(seed)?)),
        Generator::ChaCha12 => Some(SeededGenerator::ChaCha12(hex::bytes_of(seed)?)),
        Generator::ChaCha20 => Some(SeededGenerator::ChaCha20(hex::bytes_of(seed)?)),
    }
}

/// Returns the mode with this name.
fn mode_of(name: &str) -> Option<Mode> {
    match name {
        "plain" => Some(Mode::Plain),
        "buffered" => Some(Mode::Buffered),
        _ => None,
    }
}

/// Reads the number of items, argument 4, in decimal digits. Returns the error `BadWord` if the
/// text is not a number, or a number above `MOST_ITEMS`.
fn count_of(text: &str) -> Result<u64, DrawError> {
    read_unsigned(text)
        .filter(|count| *count <= MOST_ITEMS)
        .ok_or(DrawError::BadWord(4))
}

/// Reads the requests and returns their calls. The first request is argument 5.
fn calls_of(requests: &[String]) -> Result<Vec<Call>, DrawError> {
    let mut calls = Vec::new();
    for (index, request) in requests.iter().enumerate() {
        let call = if let Some(call) = call_of(request.as_str()) {
            call
        } else {
            return Err(DrawError::BadWord(index + 5));
        };
        calls.try_reserve(1)?;
        calls.push(call);
    }
    Ok(calls)
}

/// Returns the argument at the index, or an empty text if it is missing.
fn argument(arguments: &[String], index: usize) -> &str {
    arguments
        .get(index)
        .map_or("", |argument| argument.as_str())
}

/// Parses the command-line arguments into a command.
///
/// # Errors
///
/// Returns `BadWord` if an argument cannot be read, and `Memory` if an allocation fails.
pub fn read(arguments: &[String]) -> Result<Command, DrawError> {
    let generator = generator_named(argument(arguments, 0)).ok_or(DrawError::BadWord(1))?;
    let seeded =
        seeded_generator(generator, argument(arguments, 1)).ok_or(DrawError::BadWord(2))?;
    let mode = mode_of(argument(arguments, 2)).ok_or(DrawError::BadWord(3))?;
    let count = count_of(argument(arguments, 3))?;
    // An empty COUNT is an error, so there are at least four arguments here.
    let calls = calls_of(&arguments[4..])?;
    Ok(Command {
        generator: seeded,
        mode,
        count,
        calls,
    })
}
