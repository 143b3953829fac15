//! Unsigned numbers: decimal digits with a value that fits the type.

use super::{read_unsigned, ReadNumber};

impl ReadNumber for u8 {
    fn read(text: &str) -> Option<u8> {
        u8::try_from(read_unsigned(text)?).ok()
    }
}

impl ReadNumber for u16 {
    fn read(text: &str) -> Option<u16> {
        u16::try_from(read_unsigned(text)?).ok()
    }
}

impl ReadNumber for u32 {
    fn read(text: &str) -> Option<u32> {
        u32::try_from(read_unsigned(text)?).ok()
    }
}

impl ReadNumber for u64 {
    fn read(text: &str) -> Option<u64> {
        read_unsigned(text)
    }
}

impl ReadNumber for usize {
    fn read(text: &str) -> Option<usize> {
        usize::try_from(read_unsigned(text)?).ok()
    }
}
