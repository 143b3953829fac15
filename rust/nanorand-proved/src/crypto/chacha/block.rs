//! The rounds of ChaCha and its block function.

use super::lanes::{matrix_of, mix, rows_of};
use super::vectors::Vector;

/// Returns the matrix after `ROUNDS` rounds, without the final addition of the input.
///
/// The rounds come in pairs: one round on the columns, and then one on the diagonals. An odd
/// `ROUNDS` does not compile.
#[must_use]
pub fn chacha_rounds<const ROUNDS: u8>(input: [u32; 16]) -> [u32; 16] {
    let () = crate::layer::Rounds::<ROUNDS>::EVEN;

    matrix_of(mix::<ROUNDS>(rows_of(&input)))
}

/// Returns the block of a state: the matrix after the rounds plus the input, word by word, modulo
/// 2^32.
///
/// With 0 rounds the block is the input plus itself. An odd `ROUNDS` does not compile.
#[must_use]
pub fn chacha_block<const ROUNDS: u8>(input: [u32; 16]) -> [u32; 16] {
    let () = crate::layer::Rounds::<ROUNDS>::EVEN;

    let rows = rows_of(&input);
    let [a, b, c, d] = rows;
    let [p, q, r, s] = mix::<ROUNDS>(rows);
    matrix_of([p.add(a), q.add(b), r.add(c), s.add(d)])
}
