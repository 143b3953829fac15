//! Weighted choices. The weights are integers, and the choice is exact: no floating-point
//! arithmetic is used.

use crate::rand::Rng;
use crate::values::word::draw_below;

/// The reasons why no item was chosen.
#[derive(Clone, Copy, Debug, PartialEq, Eq)]
pub enum WeightError {
    /// There are no weights, or all of them are 0. Nothing was drawn.
    NoWeight,
    /// The sum of the weights is 2^64 or more. Nothing was drawn.
    TooHeavy,
    /// 128 words in a row were rejected. They stay consumed.
    Exhausted,
}

impl core::fmt::Display for WeightError {
    fn fmt(&self, f: &mut core::fmt::Formatter<'_>) -> core::fmt::Result {
        f.write_str(match self {
            WeightError::NoWeight => "no item has a weight",
            WeightError::TooHeavy => "the weights add up to 2^64 or more",
            WeightError::Exhausted => "128 words in a row were rejected",
        })
    }
}

#[cfg(feature = "std")]
impl std::error::Error for WeightError {}

/// Chooses an item by weight, and returns its index: `weights[i]` is the weight of item i.
///
/// A number below the sum of the weights is drawn, from at most 128 words (random integers of 64
/// bits). Item i has `weights[i]` of these numbers, so an item of weight 0 is never chosen.
///
/// Each call takes time O(n) for n weights: it adds up all weights, and then searches for the item
/// from the first one on.
///
/// # Errors
///
/// Returns `NoWeight` if there are no weights or all of them are 0, `TooHeavy` if their sum is 2^64
/// or more, and `Exhausted` if 128 words in a row were rejected. After `Exhausted` exactly 128
/// words were drawn, and they stay consumed. After any other error nothing was drawn.
///
/// # Examples
///
/// ```
/// use nanorand_proved::choices::{choose_weighted, WeightError};
/// use nanorand_proved::WyRand;
///
/// let mut rng = WyRand::seed_from_u64(42);
/// let mut requests = [0; 4];
/// for _ in 0..1600 {
///     requests[choose_weighted(&mut rng, &[5, 0, 1, 10])?] += 1;
/// }
/// assert_eq!(requests, [487, 0, 102, 1011]);
/// assert_eq!(choose_weighted(&mut rng, &[0, 0]), Err(WeightError::NoWeight));
/// # Ok::<(), WeightError>(())
/// ```
pub fn choose_weighted<G: Rng<OUTPUT>, const OUTPUT: usize>(
    rng: &mut G,
    weights: &[u64],
) -> Result<usize, WeightError> {
    let total = total_weight(weights)?;
    match draw_below(rng, u128::from(total), 64) {
        Some(number) => Ok(item_at(weights, number)),
        None => Err(WeightError::Exhausted),
    }
}

// Returns the sum of the weights, or an error if the sum is 0, or 2^64 or more.
fn total_weight(weights: &[u64]) -> Result<u64, WeightError> {
    let mut total: u64 = 0;
    for weight in weights {
        total = total.checked_add(*weight).ok_or(WeightError::TooHeavy)?;
    }
    if total == 0 {
        return Err(WeightError::NoWeight);
    }
    Ok(total)
}

// Returns the index of the item whose share contains the number.
fn item_at(weights: &[u64], number: u64) -> usize {
    let mut left = number;
    for (i, weight) in weights.iter().enumerate() {
        if left < *weight {
            return i;
        }
        left -= *weight;
    }
    unreachable!()
}
