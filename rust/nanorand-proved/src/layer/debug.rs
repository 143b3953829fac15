//! The debug text of a buffered generator.

use crate::buffer::BufferedRng;
use crate::rand::Rng;
use core::fmt;

/// Shows the text of the inner generator, and how many bytes are buffered. The bytes are not shown.
impl<G: Rng<OUTPUT> + fmt::Debug, const OUTPUT: usize> fmt::Debug for BufferedRng<G, OUTPUT> {
    fn fmt(&self, f: &mut fmt::Formatter<'_>) -> fmt::Result {
        f.debug_struct("BufferedRng")
            .field("inner", self.inner())
            .field("buffered", &self.buffered())
            .finish()
    }
}
