//! The names of the number types.

use nanorand_proved::replay::Kind;

/// Returns the type with this name.
#[must_use]
pub fn kind_of(name: &str) -> Option<Kind> {
    match name {
        "i8" => Some(Kind::I8),
        "i16" => Some(Kind::I16),
        "i32" => Some(Kind::I32),
        "i64" => Some(Kind::I64),
        "i128" => Some(Kind::I128),
        "isize" => Some(Kind::Isize),
        "u8" => Some(Kind::U8),
        "u16" => Some(Kind::U16),
        "u32" => Some(Kind::U32),
        "u64" => Some(Kind::U64),
        "u128" => Some(Kind::U128),
        "usize" => Some(Kind::Usize),
        "bool" => Some(Kind::Bool),
        _ => None,
    }
}
