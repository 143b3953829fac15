//! The functions of the static library. A slice is passed as a pointer and a length.

use std::ptr::NonNull;

macro_rules! words {
    ($($name:ident),+) => { unsafe extern "C" { $(pub safe fn $name(seed: u64, count: u64) -> u64;)+ } };
}

macro_rules! blocks {
    ($($name:ident),+) => { unsafe extern "C" { $(pub safe fn $name(seed: u8, count: u64) -> u64;)+ } };
}

words!(
    nanorand_bench_wyrand_u64,
    nanorand_bench_pcg64_u64,
    nanorand_bench_buffered_wyrand,
    nanorand_bench_pcg64_jump,
    nanorand_bench_pcg64_distance,
    nanorand_bench_kit_pcg64_u64,
    nanorand_bench_kit_pcg64_u8,
    nanorand_bench_kit_pcg64_jump
);
blocks!(
    nanorand_bench_chacha8_blocks,
    nanorand_bench_chacha12_blocks,
    nanorand_bench_chacha20_blocks,
    nanorand_bench_buffered_chacha20,
    nanorand_bench_kit_chacha8_blocks,
    nanorand_bench_kit_chacha12_blocks,
    nanorand_bench_kit_chacha20_blocks,
    nanorand_bench_kit_chacha20_u8
);

unsafe extern "C" {
    pub safe fn nanorand_bench_range_u8(seed: u64, size: u8, count: u64) -> u64;
    pub safe fn nanorand_bench_range_u32(seed: u64, size: u32, count: u64) -> u64;
    pub safe fn nanorand_bench_range_u64(seed: u64, size: u64, count: u64) -> u64;
    pub safe fn nanorand_bench_kit_range_u8(seed: u64, size: u8, count: u64) -> u64;
    pub safe fn nanorand_bench_kit_range_u32(seed: u64, size: u32, count: u64) -> u64;
    pub safe fn nanorand_bench_kit_range_u64(seed: u64, size: u64, count: u64) -> u64;

    fn nanorand_bench_wyrand_fill(seed: u64, out: NonNull<u8>, length: usize, times: u32);
    fn nanorand_bench_pcg64_fill(seed: u64, out: NonNull<u8>, length: usize, times: u32);
    fn nanorand_bench_chacha20_fill(seed: u8, out: NonNull<u8>, length: usize, times: u32);
    fn nanorand_bench_buffered_chacha20_fill(seed: u8, out: NonNull<u8>, length: usize, times: u32);
    fn nanorand_bench_kit_pcg64_fill(seed: u64, out: NonNull<u8>, length: usize, times: u32);
    fn nanorand_bench_kit_chacha20_fill(seed: u8, out: NonNull<u8>, length: usize, times: u32);
    fn nanorand_bench_shuffle(seed: u64, items: NonNull<u64>, length: usize, times: u32);
    fn nanorand_bench_shuffle_full(seed: u64, items: NonNull<u64>, length: usize, times: u32);
    fn nanorand_bench_kit_shuffle(seed: u64, items: NonNull<u64>, length: usize, times: u32);
    fn nanorand_bench_choose(seed: u64, items: NonNull<u64>, length: usize, count: u64) -> u64;
    fn nanorand_bench_kit_choose(seed: u64, items: NonNull<u64>, length: usize, count: u64) -> u64;
    fn nanorand_bench_choose_weighted(
        seed: u64,
        weights: NonNull<u64>,
        length: usize,
        count: u64,
    ) -> u64;
    fn nanorand_bench_sample(
        seed: u64,
        places: NonNull<usize>,
        length: usize,
        count: usize,
        times: u32,
    );
    fn nanorand_bench_partial_shuffle(
        seed: u64,
        items: NonNull<u64>,
        length: usize,
        steps: usize,
        times: u32,
    );
    fn nanorand_bench_kit_partial_shuffle(
        seed: u64,
        items: NonNull<u64>,
        length: usize,
        steps: usize,
        times: u32,
    );
    fn nanorand_bench_words_by_parameter(seed: u64, items: NonNull<u64>, length: usize, times: u32);
    fn nanorand_bench_words_by_field(seed: u64, items: NonNull<u64>, length: usize, times: u32);
    fn nanorand_bench_below_u32_by_parameter(
        seed: u64,
        items: NonNull<u64>,
        length: usize,
        size: u32,
        times: u32,
    );
    fn nanorand_bench_below_u32_by_field(
        seed: u64,
        items: NonNull<u64>,
        length: usize,
        size: u32,
        times: u32,
    );
    fn nanorand_bench_below_u64_by_parameter(
        seed: u64,
        items: NonNull<u64>,
        length: usize,
        size: u64,
        times: u32,
    );
    fn nanorand_bench_below_u64_by_field(
        seed: u64,
        items: NonNull<u64>,
        length: usize,
        size: u64,
        times: u32,
    );
    fn nanorand_bench_shuffle_by_parameter(
        seed: u64,
        items: NonNull<u64>,
        length: usize,
        times: u32,
    );
    fn nanorand_bench_shuffle_by_field(seed: u64, items: NonNull<u64>, length: usize, times: u32);
    fn nanorand_bench_kit_words_by_parameter(
        seed: u64,
        items: NonNull<u64>,
        length: usize,
        times: u32,
    );
    fn nanorand_bench_kit_words_by_field(seed: u64, items: NonNull<u64>, length: usize, times: u32);
    fn nanorand_bench_kit_below_u32_by_parameter(
        seed: u64,
        items: NonNull<u64>,
        length: usize,
        size: u32,
        times: u32,
    );
    fn nanorand_bench_kit_below_u32_by_field(
        seed: u64,
        items: NonNull<u64>,
        length: usize,
        size: u32,
        times: u32,
    );
    fn nanorand_bench_kit_below_u64_by_parameter(
        seed: u64,
        items: NonNull<u64>,
        length: usize,
        size: u64,
        times: u32,
    );
    fn nanorand_bench_kit_below_u64_by_field(
        seed: u64,
        items: NonNull<u64>,
        length: usize,
        size: u64,
        times: u32,
    );
    fn nanorand_bench_kit_shuffle_by_parameter(
        seed: u64,
        items: NonNull<u64>,
        length: usize,
        times: u32,
    );
    fn nanorand_bench_kit_shuffle_by_field(
        seed: u64,
        items: NonNull<u64>,
        length: usize,
        times: u32,
    );
}

macro_rules! slices {
    ($($safe:ident = $name:ident($seed:ty, [$item:ty] $(, $more:ident: $type:ty)*) $(-> $result:ty)?;)+) => { $(
        pub fn $safe(seed: $seed, items: &mut [$item] $(, $more: $type)*) $(-> $result)? {
            // SAFETY: the pointer and the length are those of a slice that is borrowed for the call.
            unsafe { $name(seed, NonNull::from(&mut *items).cast(), items.len() $(, $more)*) }
        }
    )+ };
}

slices! {
    wyrand_fill = nanorand_bench_wyrand_fill(u64, [u8], times: u32);
    pcg64_fill = nanorand_bench_pcg64_fill(u64, [u8], times: u32);
    chacha20_fill = nanorand_bench_chacha20_fill(u8, [u8], times: u32);
    buffered_chacha20_fill = nanorand_bench_buffered_chacha20_fill(u8, [u8], times: u32);
    pcg64_fill_of_the_kit = nanorand_bench_kit_pcg64_fill(u64, [u8], times: u32);
    chacha20_fill_of_the_kit = nanorand_bench_kit_chacha20_fill(u8, [u8], times: u32);
    shuffle = nanorand_bench_shuffle(u64, [u64], times: u32);
    shuffle_full = nanorand_bench_shuffle_full(u64, [u64], times: u32);
    shuffle_of_the_kit = nanorand_bench_kit_shuffle(u64, [u64], times: u32);
    choose = nanorand_bench_choose(u64, [u64], count: u64) -> u64;
    choose_of_the_kit = nanorand_bench_kit_choose(u64, [u64], count: u64) -> u64;
    choose_weighted = nanorand_bench_choose_weighted(u64, [u64], count: u64) -> u64;
    sample = nanorand_bench_sample(u64, [usize], count: usize, times: u32);
    partial_shuffle = nanorand_bench_partial_shuffle(u64, [u64], steps: usize, times: u32);
    partial_shuffle_of_the_kit = nanorand_bench_kit_partial_shuffle(u64, [u64], steps: usize, times: u32);
    words_by_parameter = nanorand_bench_words_by_parameter(u64, [u64], times: u32);
    words_by_field = nanorand_bench_words_by_field(u64, [u64], times: u32);
    below_u32_by_parameter = nanorand_bench_below_u32_by_parameter(u64, [u64], size: u32, times: u32);
    below_u32_by_field = nanorand_bench_below_u32_by_field(u64, [u64], size: u32, times: u32);
    below_u64_by_parameter = nanorand_bench_below_u64_by_parameter(u64, [u64], size: u64, times: u32);
    below_u64_by_field = nanorand_bench_below_u64_by_field(u64, [u64], size: u64, times: u32);
    shuffle_by_parameter = nanorand_bench_shuffle_by_parameter(u64, [u64], times: u32);
    shuffle_by_field = nanorand_bench_shuffle_by_field(u64, [u64], times: u32);
    words_by_parameter_of_the_kit = nanorand_bench_kit_words_by_parameter(u64, [u64], times: u32);
    words_by_field_of_the_kit = nanorand_bench_kit_words_by_field(u64, [u64], times: u32);
    below_u32_by_parameter_of_the_kit = nanorand_bench_kit_below_u32_by_parameter(u64, [u64], size: u32, times: u32);
    below_u32_by_field_of_the_kit = nanorand_bench_kit_below_u32_by_field(u64, [u64], size: u32, times: u32);
    below_u64_by_parameter_of_the_kit = nanorand_bench_kit_below_u64_by_parameter(u64, [u64], size: u64, times: u32);
    below_u64_by_field_of_the_kit = nanorand_bench_kit_below_u64_by_field(u64, [u64], size: u64, times: u32);
    shuffle_by_parameter_of_the_kit = nanorand_bench_kit_shuffle_by_parameter(u64, [u64], times: u32);
    shuffle_by_field_of_the_kit = nanorand_bench_kit_shuffle_by_field(u64, [u64], times: u32);
}
