//! Signed numbers: decimal digits after at most one minus sign, with a value that fits the type.

use super::{read_signed, ReadNumber};

impl ReadNumber for i8 {
    fn read(text: &str) -> Option<i8> {
        i8::try_from(read_signed(text)?).ok()
    }
}

impl ReadNumber for i16 {
    fn read(text: &str) -> Option<i16> {
        i16::try_from(read_signed(text)?).ok()
    }
}

impl ReadNumber for i32 {
    fn read(text: &str) -> Option<i32> {
        i32::try_from(read_signed(text)?).ok()
    }
}

impl ReadNumber for i64 {
    fn read(text: &str) -> Option<i64> {
        read_signed(text)
    }
}

impl ReadNumber for isize {
    fn read(text: &str) -> Option<isize> {
        isize::try_from(read_signed(text)?).ok()
    }
}
