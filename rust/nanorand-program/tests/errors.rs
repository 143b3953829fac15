//! Every error number of the system: a stream returns each error, and takes none for the end.
#![cfg(target_os = "linux")]

#[path = "common/failing.rs"]
mod failing;

use failing::answered;
use nanorand_program::{input, output};
use std::io::{Read, Write};

#[test]
fn errors_of_every_number() {
    for number in 1..134 {
        let (mut reader, mut writer) = (input(), output());
        let calls = [
            answered(&[Err(number)], || reader.read(&mut [0; 9])),
            answered(&[Err(number)], || writer.write(b"a")),
        ];
        let errors = calls.map(|call| call.map_err(|error| error.raw_os_error()));
        assert_eq!(errors, [Err(Some(number)); 2]);
    }
}
