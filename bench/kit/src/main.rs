//! Measures nanorand, the kit's generators, and the old Rust crate if `run.sh` is given its folder.
//! Prints the times of this build, or, as `bench table FILE..`, the table for the builds whose
//! times are in the files.

mod calls;
#[cfg(feature = "original")]
mod original;
#[cfg(feature = "original")]
mod original_contexts;
mod row;
mod rows;
mod table;

use std::env;
use std::error::Error;

fn main() -> Result<(), Box<dyn Error>> {
    let mut arguments = env::args().skip(1);
    if arguments.next().is_some_and(|first| first == "table") {
        return table::print(arguments);
    }
    let [here, original] = rows::places();
    println!("{here}\t{original}");
    for mut row in rows::all() {
        println!("{}", row.timed());
    }
    Ok(())
}
