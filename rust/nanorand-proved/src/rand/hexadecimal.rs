use core::fmt;

// A number that is displayed as lower-case hexadecimal digits. It is written as two halves, because
// the contract of std does not say what `{:x}` writes for a 128-bit integer.
pub(crate) struct Hexadecimal(pub(crate) u128);

impl fmt::Display for Hexadecimal {
    fn fmt(&self, f: &mut fmt::Formatter<'_>) -> fmt::Result {
        let high = (self.0 >> 64) as u64;
        let low = (self.0 % (1 << 64)) as u64;
        if high == 0 {
            write!(f, "{low:x}")
        } else {
            write!(f, "{high:x}{low:016x}")
        }
    }
}
