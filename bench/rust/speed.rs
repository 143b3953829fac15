//! Compares the speed of the library, or of the drop-in, with the old Rust crate and, if they are
//! there, with `rand`, `rand_chacha`, `rand_pcg` and `fastrand`. `bench/rust/run.sh FOLDER` builds
//! and starts it. Prints the times of this build, or, as `speed table FILE..`, the table for the
//! builds whose times are in the files.

#[path = "../../rust/nanorand-proved/benches/parts/least.rs"]
mod least;
#[path = "../../rust/nanorand-proved/benches/parts/mixing.rs"]
mod mixing;
#[path = "../../rust/nanorand-proved/benches/parts/row.rs"]
mod row;
#[path = "../../rust/nanorand-proved/benches/parts/table.rs"]
mod table;

#[cfg(not(feature = "drop_in"))]
mod here {
    include!("../../rust/nanorand-proved/benches/parts/here.rs");
    include!("../../rust/nanorand-proved/benches/parts/works.rs");
    include!("../../rust/nanorand-proved/benches/parts/samples.rs");
}

/// The works, with the old crate's calls.
macro_rules! by_its_calls {
    ($library:ident) => {
        use $library as library;

        fn drawn<T>(number: T) -> T {
            number
        }

        fn seeded() -> WyRand {
            WyRand::new()
        }

        const GROUP: usize = 64;

        fn stream<const ROUNDS: u8>() -> BufferedRng<ChaCha<ROUNDS>, 64> {
            BufferedRng::new(chacha())
        }

        // The old crate's `shuffle` draws from all indices.
        fn shuffle_from_all<R: library::Rng<8>>(rng: &mut R, items: &mut [u64]) {
            rng.shuffle(items);
        }

        include!("../../rust/nanorand-proved/benches/parts/works.rs");
    };
}

#[cfg(feature = "drop_in")]
mod here {
    by_its_calls!(drop_in);
}

mod original {
    by_its_calls!(nanorand);
}

#[cfg(not(feature = "peers"))]
mod peers {
    pub fn of(_row: &str) -> Vec<crate::row::Work> {
        Vec::new()
    }

    #[cfg(not(feature = "drop_in"))]
    pub fn sample(_slots: u32, _count: usize) -> Vec<crate::row::Work> {
        Vec::new()
    }
}

/// What a Rust user would use instead. In these versions the peers use rejection sampling as well,
/// so all their ranges and shuffles are unbiased.
#[cfg(feature = "peers")]
mod peers {
    use crate::here::{BYTES, DRAWS, ITEMS};
    use crate::mixing::{mixed, mixed_items, Mix};
    use crate::row::Work;
    use rand::rngs::{SmallRng, StdRng};
    use rand::seq::SliceRandom;
    use rand::{Rng, RngCore, SeedableRng};
    use rand_chacha::{ChaCha20Rng, ChaCha8Rng};
    use rand_pcg::{Pcg64, Pcg64Mcg};
    use std::hint::black_box;

    fn seeded<R: SeedableRng>() -> R {
        R::seed_from_u64(black_box(42))
    }

    fn fast() -> fastrand::Rng {
        fastrand::Rng::with_seed(black_box(42))
    }

    #[inline(never)]
    fn draws<R, V: Mix>(mut rng: R, draw: impl Fn(&mut R) -> V) -> u64 {
        let mut all = 0;
        for _ in 0..black_box(DRAWS) {
            all = mixed(all, draw(&mut rng));
        }
        all
    }

    #[inline(never)]
    fn again<R, T: Mix + Copy>(
        mut rng: R,
        items: &mut [T],
        times: u32,
        run: impl Fn(&mut R, &mut [T]),
    ) -> u64 {
        for _ in 0..times {
            run(&mut rng, &mut *items);
        }
        mixed_items(items)
    }

    fn work(peer: &str, items: u32, run: impl FnMut() -> u64 + 'static) -> Work {
        Work {
            name: peer.to_string(),
            items,
            limit: f64::MAX,
            run: Box::new(run),
        }
    }

    fn bytes<R: RngCore + SeedableRng + 'static>(peer: &str, length: u32) -> Work {
        let mut bytes = vec![0; length as usize];
        work(peer, BYTES, move || {
            again(
                seeded::<R>(),
                &mut bytes,
                black_box(BYTES / length),
                |rng, bytes| rng.fill_bytes(bytes),
            )
        })
    }

    fn words<R: RngCore + SeedableRng + 'static>(peer: &str) -> Work {
        work(peer, DRAWS, || draws(seeded::<R>(), R::next_u64))
    }

    fn shuffles(length: u32) -> Vec<Work> {
        let times = ITEMS / length;
        let mut items: Vec<u64> = (0..u64::from(length)).collect();
        let mut others = items.clone();
        vec![
            work("SmallRng", ITEMS, move || {
                let run = |rng: &mut SmallRng, items: &mut [u64]| items.shuffle(rng);
                again(seeded(), &mut items, black_box(times), run)
            }),
            work("fastrand", ITEMS, move || {
                let run = |rng: &mut fastrand::Rng, items: &mut [u64]| rng.shuffle(items);
                again(fast(), &mut others, black_box(times), run)
            }),
        ]
    }

    fn words_filled<R: RngCore + SeedableRng + 'static>(peer: &str) -> Work {
        let mut items = vec![0_u32; 1000];
        work(peer, ITEMS, move || {
            let run = |rng: &mut R, items: &mut [u32]| rng.fill(items);
            again(seeded::<R>(), &mut items, black_box(ITEMS / 1000), run)
        })
    }

    // The rows named after types. `fastrand` has a method for each.
    macro_rules! values {
        ($row:ident: $($value:ident),+) => { $(
            if $row == concat!("WyRand, ", stringify!($value)) {
                return vec![
                    work("SmallRng", DRAWS, || draws(seeded(), SmallRng::gen::<$value>)),
                    work("fastrand", DRAWS, || draws(fast(), |rng| rng.$value(..))),
                ];
            }
            if $row == concat!("Pcg64, ", stringify!($value)) {
                return vec![
                    work("Pcg64Mcg", DRAWS, || draws(seeded(), Pcg64Mcg::gen::<$value>)),
                    work("rand_pcg::Pcg64", DRAWS, || draws(seeded(), Pcg64::gen::<$value>)),
                ];
            }
        )+ };
    }

    macro_rules! ranges {
        ($row:ident: $($name:literal $value:ident $end:ident = $number:expr => $range:expr),+ $(,)?) => { $(
            if $row == $name {
                return vec![
                    work("SmallRng", DRAWS, || draws(seeded(), |rng: &mut SmallRng| {
                        let $end = $number;
                        rng.gen_range($range)
                    })),
                    work("fastrand", DRAWS, || draws(fast(), |rng| {
                        let $end = $number;
                        rng.$value($range)
                    })),
                ];
            }
            if $row == concat!($name, ", by a variable") {
                return vec![
                    work("SmallRng", DRAWS, || {
                        let $end = black_box($number);
                        draws(seeded(), move |rng: &mut SmallRng| rng.gen_range($range))
                    }),
                    work("fastrand", DRAWS, || {
                        let $end = black_box($number);
                        draws(fast(), move |rng| rng.$value($range))
                    }),
                ];
            }
        )+ };
    }

    /// The work of the row by each peer that has it.
    pub fn of(row: &str) -> Vec<Work> {
        values!(row: u8, u16, u32, u64, u128, usize, i8, i16, i32, i64, i128, isize);
        ranges!(row:
            "u8 below 200" u8 end = 200_u8 => 0..end,
            "u32 below 1000" u32 end = 1000_u32 => 0..end,
            "u64 below 1000" u64 end = 1000_u64 => 0..end,
            "u64 below 2^63 + 1" u64 end = (1_u64 << 63) + 1 => 0..end,
            "i32 of -50..=50" i32 end = 50_i32 => -50..=end,
            "usize below 10" usize end = 10_usize => 0..end,
        );
        match row {
            "WyRand, f32" => vec![
                work("SmallRng", DRAWS, || draws(seeded(), SmallRng::gen::<f32>)),
                work("fastrand", DRAWS, || draws(fast(), |rng| rng.f32())),
            ],
            "WyRand, f64" => vec![
                work("SmallRng", DRAWS, || draws(seeded(), SmallRng::gen::<f64>)),
                work("fastrand", DRAWS, || draws(fast(), |rng| rng.f64())),
            ],
            "WyRand, bool" => vec![
                work("SmallRng", DRAWS, || draws(seeded(), SmallRng::gen::<bool>)),
                work("fastrand", DRAWS, || draws(fast(), |rng| rng.bool())),
            ],
            "Pcg64, bool" => vec![work("Pcg64Mcg", DRAWS, || {
                draws(seeded(), Pcg64Mcg::gen::<bool>)
            })],
            "shuffle of 10, an item" => shuffles(10),
            "shuffle of 1000, an item" => shuffles(1000),
            "shuffle of 100,000, an item" => shuffles(100_000),
            "WyRand, fill of 1000 u32, an item" => vec![words_filled::<SmallRng>("SmallRng")],
            "Pcg64, fill of 1000 u32, an item" => vec![
                words_filled::<Pcg64Mcg>("Pcg64Mcg"),
                words_filled::<Pcg64>("rand_pcg::Pcg64"),
            ],
            "WyRand, fill of 4096 bytes, a byte" => vec![bytes::<SmallRng>("SmallRng", 4096)],
            "Pcg64, fill of 4096 bytes, a byte" => vec![
                bytes::<Pcg64Mcg>("Pcg64Mcg", 4096),
                bytes::<Pcg64>("rand_pcg::Pcg64", 4096),
            ],
            _ => of_chacha(row),
        }
    }

    #[cfg(not(feature = "drop_in"))]
    pub fn sample(slots: u32, count: usize) -> Vec<Work> {
        vec![work("SmallRng", slots, move || {
            let mut rng: SmallRng = seeded();
            let places = rand::seq::index::sample(&mut rng, black_box(count), slots as usize);
            places.iter().map(|place| place as u64).sum()
        })]
    }

    fn of_chacha(row: &str) -> Vec<Work> {
        let length = match row {
            _ if row.ends_with("stream, u64") => 0,
            _ if row.contains("fill of 64 bytes") => 64,
            _ if row.contains("fill of 256 bytes") => 256,
            _ if row.contains("fill of 4096 bytes") => 4096,
            _ => return Vec::new(),
        };
        let (word, fill): (fn(&str) -> Work, fn(&str, u32) -> Work);
        let peer = if row.starts_with("ChaCha8") {
            (word, fill) = (words::<ChaCha8Rng>, bytes::<ChaCha8Rng>);
            "ChaCha8Rng"
        } else if row.starts_with("ChaCha12") {
            (word, fill) = (words::<StdRng>, bytes::<StdRng>);
            "StdRng"
        } else {
            (word, fill) = (words::<ChaCha20Rng>, bytes::<ChaCha20Rng>);
            "ChaCha20Rng"
        };
        vec![if length == 0 {
            word(peer)
        } else {
            fill(peer, length)
        }]
    }
}

use row::Row;
use std::env;
use std::error::Error;

fn main() -> Result<(), Box<dyn Error>> {
    let mut arguments = env::args().skip(1);
    if arguments.next().map_or(false, |first| first == "table") {
        return table::print(arguments);
    }
    for (here, original) in here::works().into_iter().zip(original::works()) {
        let peers = peers::of(&here.name);
        println!("{}", Row::new(here, Some(original), peers).timed());
    }
    #[cfg(not(feature = "drop_in"))]
    for (here, slots, count) in here::samples() {
        println!(
            "{}",
            Row::new(here, None, peers::sample(slots, count)).timed()
        );
    }
    Ok(())
}
