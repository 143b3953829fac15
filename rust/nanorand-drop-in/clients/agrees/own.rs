//! A user's own generator, and the states of all generators as texts.

use std::fmt::Debug;

/// Blocks of 5 bytes, of which no number type is a multiple. The next `stuck` blocks are zeros.
#[derive(Clone, Debug)]
pub struct Own {
    pub seed: u64,
    pub stuck: u32,
}

impl Own {
    fn block(&mut self) -> [u8; 5] {
        let mut block = [0; 5];
        if self.stuck > 0 {
            self.stuck -= 1;
        } else {
            self.seed = self.seed.wrapping_mul(0x5851_f42d_4c95_7f2d) ^ 0x9e37;
            block.copy_from_slice(&self.seed.to_be_bytes()[..5]);
        }
        block
    }
}

/// What a generator shows of its state.
pub trait State: Clone {
    fn state(&self) -> String;
}

fn texts(state: &impl Debug) -> String {
    format!("{state:?} {state:#?}")
}

impl State for Own {
    fn state(&self) -> String {
        texts(self)
    }
}

macro_rules! of_library {
    ($library:ident) => {
        impl $library::Rng<5> for Own {
            fn rand(&mut self) -> [u8; 5] {
                self.block()
            }
        }

        impl $library::SeedableRng<3, 5> for Own {
            fn reseed(&mut self, seed: [u8; 3]) {
                self.seed =
                    u64::from(seed[0]) << 40 | u64::from(seed[1]) << 20 | u64::from(seed[2]);
            }
        }

        impl State for $library::WyRand {
            fn state(&self) -> String {
                assert_eq!(self.to_string(), format!("WyRand ({self:p})"));
                texts(self)
            }
        }

        impl State for $library::Pcg64 {
            fn state(&self) -> String {
                assert_eq!(self.to_string(), format!("Pcg64 ({self:p})"));
                texts(self)
            }
        }

        impl<const ROUNDS: u8> State for $library::ChaCha<ROUNDS> {
            fn state(&self) -> String {
                let text = format!("ChaCha ({self:p}, {ROUNDS} rounds)");
                assert_eq!(self.to_string(), text);
                texts(self)
            }
        }

        impl<G, const OUTPUT: usize> State for $library::BufferedRng<G, OUTPUT>
        where
            G: $library::Rng<OUTPUT> + State,
        {
            fn state(&self) -> String {
                let inner = self.clone().into_inner();
                format!("{} {}", self.buffered(), inner.state())
            }
        }
    };
}

of_library!(new);
of_library!(old);
