//! Measures works in the contexts in which programs keep their generators, and compares them with
//! the old Rust crate and the peers, all in one program. `bench/rust/run.sh FOLDER programs` builds
//! and starts it. Prints the times of this build, or, as `programs table FILE..`, the table for the
//! builds whose times are in the files.

#[path = "contexts.rs"]
mod contexts;
#[path = "generators.rs"]
mod generators;
#[path = "../../../rust/nanorand-proved/benches/parts/least.rs"]
mod least;
#[path = "../../../rust/nanorand-proved/benches/parts/mixing.rs"]
mod mixing;
#[path = "../../../rust/nanorand-proved/benches/parts/row.rs"]
mod row;
#[path = "worst.rs"]
mod worst;

use contexts::{draws, wholes, Run, ITEMS};
use generators::any_rng;
use row::{Row, Work};
use std::env;
use std::error::Error;
use works::{Here, Original};

#[cfg(feature = "peers")]
use {
    generators::rng_core,
    rand::rngs::{SmallRng, StdRng},
    works::{Fast, Rand},
};

// A library's name, and its contexts of one work.
type Runs = (&'static str, Vec<Run>);

fn work(name: String, run: Run) -> Work {
    Work {
        name,
        items: ITEMS,
        limit: f64::MAX,
        run,
    }
}

// The rows of one work, one for each context. A library without the last context, `dyn`, has fewer.
fn rows_of(name: &str, here: Vec<Run>, original: Vec<Run>, peers: Vec<Runs>) -> Vec<(String, Row)> {
    let mut original = original.into_iter();
    let mut peers: Vec<_> = peers
        .into_iter()
        .map(|(peer, runs)| (peer, runs.into_iter()))
        .collect();
    let contexts = contexts::BOUNDED.into_iter().chain(contexts::TOLD);
    contexts
        .zip(here)
        .map(|(context, run)| {
            let name = worst::row_name(name, context);
            let original = original.next().map(|run| work(name.clone(), run));
            let peers = peers
                .iter_mut()
                .filter_map(|(peer, runs)| Some(work((*peer).to_string(), runs.next()?)));
            let row = Row::new(work(name.clone(), run), original, peers.collect());
            (name, row)
        })
        .collect()
}

fn with(mut runs: Vec<Run>, last: Run) -> Vec<Run> {
    runs.push(last);
    runs
}

// A work by this library, including the context `dyn`.
macro_rules! here {
    ($generator:ident, $contexts:ident $work:ident<$($value:ty)?>($($argument:expr),+)) => {
        with(
            $contexts::<works::$work<Here $(, $value)?>, nanorand_proved::$generator, _>($($argument),+),
            any_rng::$contexts::<works::$work<Here $(, $value)?>, nanorand_proved::$generator, _>($($argument),+),
        )
    };
}

// A work by a generator of `rand`'s traits, including the context `dyn`.
#[cfg(feature = "peers")]
macro_rules! by_rand {
    ($generator:ty, $contexts:ident $work:ident<$($value:ty)?>($($argument:expr),+)) => {
        with(
            $contexts::<works::$work<Rand $(, $value)?>, $generator, _>($($argument),+),
            rng_core::$contexts::<works::$work<Rand $(, $value)?>, $generator, _>($($argument),+),
        )
    };
}

// The peers for a work of `WyRand`. `fastrand` has no call for bytes, and no trait.
#[cfg(feature = "peers")]
macro_rules! peers_of_wyrand {
    ($contexts:ident Bytes<>($($argument:expr),+)) => {
        vec![
            ("SmallRng", by_rand!(SmallRng, $contexts Bytes<>($($argument),+))),
            ("StdRng", by_rand!(StdRng, $contexts Bytes<>($($argument),+))),
        ]
    };
    ($contexts:ident $work:ident<$($value:ty)?>($($argument:expr),+)) => {
        vec![
            ("fastrand", $contexts::<works::$work<Fast $(, $value)?>, fastrand::Rng, _>($($argument),+)),
            ("SmallRng", by_rand!(SmallRng, $contexts $work<$($value)?>($($argument),+))),
            ("StdRng", by_rand!(StdRng, $contexts $work<$($value)?>($($argument),+))),
        ]
    };
}

#[cfg(feature = "peers")]
macro_rules! peers_of_pcg64 {
    ($($work:tt)+) => {
        vec![("rand_pcg::Pcg64", by_rand!(rand_pcg::Pcg64, $($work)+))]
    };
}

#[cfg(not(feature = "peers"))]
macro_rules! peers_of_wyrand {
    ($($work:tt)+) => {
        Vec::new()
    };
}

#[cfg(not(feature = "peers"))]
macro_rules! peers_of_pcg64 {
    ($($work:tt)+) => {
        Vec::new()
    };
}

macro_rules! named_rows {
    ($generator:ident, $peers:ident: $(
        $name:literal: $contexts:ident $work:ident<$($value:ty)?>($($argument:expr),+);
    )+) => {
        [ $( rows_of(
            concat!(stringify!($generator), ", ", $name),
            here!($generator, $contexts $work<$($value)?>($($argument),+)),
            $contexts::<works::$work<Original $(, $value)?>, nanorand::$generator, _>($($argument),+),
            $peers!($contexts $work<$($value)?>($($argument),+)),
        ) ),+ ]
    };
}

macro_rules! rows {
    ($generator:ident, $peers:ident) => {
        named_rows!($generator, $peers:
            "`u8`": draws Value<u8>(1000, 0);
            "`u32`": draws Value<u32>(1000, 0);
            "`u64`": draws Value<u64>(1000, 0);
            "`f64`": draws Value<f64>(1000, 0.0);
            "`bool`": draws Value<bool>(1000, false);
            "`u8` below 200": draws Below<u8>(1000, 200);
            "`u16` below 1000": draws Below<u16>(1000, 1000);
            "`u32` below 1000": draws Below<u32>(1000, 1000);
            "`u64` below 1000": draws Below<u64>(1000, 1000);
            "`usize` below 10": draws Below<usize>(1000, 10);
            "`i32` of -50..=50": draws Within<>(1000, 0);
            "die: `i32` of 1..=6": draws Die<>(1000, 0);
            "shuffle of 10 `u64`": wholes Shuffle<u64>(10);
            "shuffle of 52 `u8`": wholes Shuffle<u8>(52);
            "shuffle of 1000 `u64`": wholes Shuffle<u64>(1000);
            "fill of 1000 `u16`": wholes Fill<u16>(1000);
            "fill of 1000 `u32`": wholes Fill<u32>(1000);
            "fill of 4096 bytes": wholes Bytes<>(4096);
        )
    };
}

fn main() -> Result<(), Box<dyn Error>> {
    let mut arguments = env::args().skip(1);
    let first = arguments.next();
    if first.as_deref() == Some("table") {
        return worst::print(arguments);
    }
    // An argument selects the rows whose names contain it.
    let text = first.unwrap_or_default();
    let rows = rows!(WyRand, peers_of_wyrand).into_iter();
    for (name, mut row) in rows.chain(rows!(Pcg64, peers_of_pcg64)).flatten() {
        if name.contains(&text) {
            println!("{}", row.timed());
        }
    }
    Ok(())
}
