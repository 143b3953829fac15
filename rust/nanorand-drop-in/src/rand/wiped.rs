//! Implements `Zeroize` for the generators, which wipe their state when they are dropped.

macro_rules! wiped {
    ([$($parameters:tt)*] $generator:ty: $($word:ident),+) => {
        impl<$($parameters)*> zeroize::Zeroize for $generator {
            fn zeroize(&mut self) {
                $( zeroize::Zeroize::zeroize(&mut self.$word); )+
            }
        }

        impl<$($parameters)*> Drop for $generator {
            fn drop(&mut self) {
                zeroize::Zeroize::zeroize(self);
            }
        }
    };
}

pub(super) use wiped;

#[cfg(test)]
mod tests {
    use core::cell::Cell;

    struct Word<'a>(&'a Cell<u32>);

    impl zeroize::Zeroize for Word<'_> {
        fn zeroize(&mut self) {
            self.0.set(self.0.get() + 1);
        }
    }

    struct Words<'a> {
        first: Word<'a>,
        second: Word<'a>,
    }

    wiped!(['a] Words<'a>: first, second);

    #[test]
    fn all_words_when_dropped() {
        let (one, other) = (Cell::new(0), Cell::new(0));
        drop(Words {
            first: Word(&one),
            second: Word(&other),
        });
        assert_eq!((one.get(), other.get()), (1, 1));
    }
}
