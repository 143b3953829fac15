//! Reads to the end of a reader, and returns an error if an allocation fails.

use std::io::{ErrorKind, Read, Result};

/// Appends all bytes of the reader to the list. The reader's own `read_to_end` does the same, but
/// in older versions of std it aborts the process if an allocation fails.
pub fn read_to_end<R: Read>(input: &mut R, list: &mut Vec<u8>) -> Result<usize> {
    let mut piece = [0; 16384];
    let before = list.len();
    loop {
        match input.read(&mut piece) {
            Ok(0) => return Ok(list.len() - before),
            Ok(size) => {
                list.try_reserve(size).map_err(|_| ErrorKind::OutOfMemory)?;
                list.extend_from_slice(&piece[..size]);
            }
            Err(error) if error.kind() == ErrorKind::Interrupted => {}
            Err(error) => return Err(error),
        }
    }
}

#[cfg(test)]
mod tests {
    use super::read_to_end;

    /// The count is that of the bytes read, whatever the list held before.
    #[test]
    fn bytes_are_appended_and_counted() {
        for size in [0, 1, 16_384, 16_385, 50_000] {
            let mut list = vec![1; 3];
            assert_eq!(
                read_to_end(&mut &vec![2; size][..], &mut list).unwrap(),
                size
            );
            assert_eq!(list, [vec![1; 3], vec![2; size]].concat());
        }
    }
}
