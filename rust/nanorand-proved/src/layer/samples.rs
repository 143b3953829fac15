//! The table that lets `sample` run in linear time.

#[cfg(feature = "std")]
use std::vec::Vec;

// The smallest number of slots for which a table saves more time than it costs.
#[cfg(feature = "std")]
const LEAST: usize = 16;

// Returns a table for these slots. It has no items if it would not pay off, or if there is no
// memory for it.
#[cfg(feature = "std")]
pub(crate) fn table(slots: &[usize]) -> Vec<usize> {
    let mut table = Vec::new();
    if slots.len() >= LEAST {
        let items = slots.len() + slots.len().next_power_of_two();
        let _ = table.try_reserve_exact(items);
        table.resize(items.min(table.capacity()), 0);
    }
    table
}

// Without an allocator there is no table.
#[cfg(not(feature = "std"))]
pub(crate) fn table(_slots: &[usize]) -> [usize; 0] {
    []
}

#[cfg(test)]
mod tests {
    use super::*;

    /// A table has at least one chain for each slot. With fewer than 16 slots there is no table.
    #[test]
    fn a_table_has_a_chain_for_each_slot() {
        for (slots, items) in [(0, 0), (1, 0), (15, 0), (16, 32), (17, 49), (1000, 2024)] {
            let made = table(&[0; 1000][..slots]);
            assert_eq!(made.len(), if cfg!(feature = "std") { items } else { 0 });
        }
    }
}
