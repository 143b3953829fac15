//! Measures the speed of the library alone: `cargo bench`. The repository's `bench/rust/run.sh`
//! compares it with the old crate, nanorand 0.7.0.
//!
//! Both compile with `opt-level = 3`, `lto = "fat"`, `codegen-units = 1` and the default processor.

// `black_box` is newer than the oldest compiler that the library supports.
#![allow(clippy::incompatible_msrv)]

#[path = "parts/mixing.rs"]
mod mixing;
#[path = "parts/row.rs"]
mod row;

mod here {
    include!("parts/here.rs");
    include!("parts/works.rs");
    include!("parts/samples.rs");

    #[inline(never)]
    fn parts_of<R: library::Parts<OUTPUT>, const OUTPUT: usize>(rng: &R) -> u64 {
        for index in 0..u64::from(black_box(DRAWS)) {
            let _ = black_box(rng.part(index, 1000));
        }
        0
    }

    /// The old crate has no parts of a stream.
    pub fn parts() -> [Work; 4] {
        [
            work("WyRand, a part", 1.05, DRAWS, || parts_of(&wyrand())),
            work("Pcg64, a part", 1.05, DRAWS, || parts_of(&pcg64())),
            work(
                "ChaCha20, a part",
                1.05,
                DRAWS,
                || parts_of(&chacha::<20>()),
            ),
            work("ChaCha20 stream, a part", 1.05, DRAWS, || {
                parts_of(&stream::<20>())
            }),
        ]
    }
}

use row::Row;

fn main() {
    // `cargo test --all-targets` starts benchmarks as well, without this argument.
    if !std::env::args().any(|argument| argument == "--bench") {
        return;
    }
    println!("| Work | ns |");
    println!("|---|---|");
    let samples = here::samples().into_iter().map(|(work, ..)| work);
    for work in here::works()
        .into_iter()
        .chain(here::parts())
        .chain(samples)
    {
        let mut row = Row::new(work, None, Vec::new());
        let times = row.timed();
        println!("| {} | {:.2} |", times.name, times.here);
    }
}
