//! The lines that are drawn from a list.

use crate::arguments::Count;
use crate::draws::draw;
use crate::entrants::entrants_of;
use crate::error::LotsError;

/// Draws from the entrants of a list, as the seed determines. Returns all entrants and how many are
/// drawn: these come first, in the order in which they were drawn.
///
/// # Errors
///
/// Returns the errors of `entrants_of` and `draw`.
pub fn draw_lines<'a>(
    seed: &str,
    count: Count,
    list: &'a [u8],
) -> Result<(Vec<&'a [u8]>, usize), LotsError> {
    let mut entrants = entrants_of(list)?;
    let drawn = count.among(entrants.len());
    draw(seed, &mut entrants, drawn)?;
    Ok((entrants, drawn))
}
