//! Vectors of four and of eight 32-bit words, with the operations that the proved code uses of
//! `std::simd::u32x4` and `u32x8`, which are not stable.
//!
//! Vectors of four words use SSE2 on x86-64, NEON on little-endian `AArch64`, and scalar code
//! elsewhere. Every processor of these targets has SSE2 or NEON, so nothing is detected at run
//! time. Vectors of eight words use AVX2, and are available only if the processor has it:
//! [`EightLanes::find`] detects this at run time, with and without std. The results are the same
//! everywhere; the tests compare them with scalar code.
//!
//! This is one of the two files with unsafe code; `system.rs` is the other.

// The rounds are fast only if every operation compiles to a single instruction.
#![allow(clippy::inline_always)]

use core::ops::{Add, BitOr, BitXor, Shl, Shr};

#[cfg(not(any(
    all(target_arch = "x86_64", target_feature = "sse2"),
    all(
        target_arch = "aarch64",
        target_feature = "neon",
        target_endian = "little"
    )
)))]
use plain as lanes;

#[cfg(all(target_arch = "x86_64", target_feature = "sse2"))]
use sse2 as lanes;

#[cfg(all(
    target_arch = "aarch64",
    target_feature = "neon",
    target_endian = "little"
))]
use neon as lanes;

/// A vector of four 32-bit words. `+` wraps around in each word.
#[derive(Clone, Copy)]
pub(crate) struct U32x4(lanes::Words);

impl U32x4 {
    #[inline(always)]
    pub(crate) fn splat(word: u32) -> Self {
        Self::from_array([word; 4])
    }

    #[inline(always)]
    pub(crate) fn from_array(words: [u32; 4]) -> Self {
        Self(lanes::from_array(words))
    }

    #[inline(always)]
    pub(crate) fn to_array(self) -> [u32; 4] {
        lanes::to_array(self.0)
    }

    // Returns the number of bits by which all four words are shifted. It is the same for all, since
    // SSE2 has no other shifts. Shifts by 32 and more differ between processors and do not occur.
    #[inline(always)]
    fn shift(self) -> u32 {
        let [bits, ..] = self.to_array();
        debug_assert!(
            self.to_array() == [bits; 4],
            "all words are shifted by one number of bits"
        );
        debug_assert!(bits < 32, "a word is shifted by less than its 32 bits");
        bits
    }
}

impl Add for U32x4 {
    type Output = Self;

    #[inline(always)]
    fn add(self, other: Self) -> Self {
        Self(lanes::add(self.0, other.0))
    }
}

impl BitXor for U32x4 {
    type Output = Self;

    #[inline(always)]
    fn bitxor(self, other: Self) -> Self {
        Self(lanes::xor(self.0, other.0))
    }
}

impl BitOr for U32x4 {
    type Output = Self;

    #[inline(always)]
    fn bitor(self, other: Self) -> Self {
        Self(lanes::or(self.0, other.0))
    }
}

/// Precondition: the words of the right operand are equal, and below 32.
impl Shl for U32x4 {
    type Output = Self;

    #[inline(always)]
    fn shl(self, other: Self) -> Self {
        Self(lanes::left(self.0, other.shift()))
    }
}

/// Precondition: the words of the right operand are equal, and below 32.
impl Shr for U32x4 {
    type Output = Self;

    #[inline(always)]
    fn shr(self, other: Self) -> Self {
        Self(lanes::right(self.0, other.shift()))
    }
}

#[cfg(not(all(target_arch = "x86_64", target_feature = "sse2")))]
use plain_eight as eight;

#[cfg(all(target_arch = "x86_64", target_feature = "sse2"))]
use avx2 as eight;

/// The permission to compute on vectors of eight words. Only `find` grants it, if the processor has
/// AVX2.
#[derive(Clone, Copy)]
pub(crate) struct EightLanes(());

impl EightLanes {
    #[inline]
    pub(crate) fn find() -> Option<Self> {
        eight::is_here().then_some(Self(()))
    }

    #[inline(always)]
    pub(crate) fn splat(self, word: u32) -> U32x8 {
        self.vector([word; 8])
    }

    #[inline(always)]
    pub(crate) fn vector(self, words: [u32; 8]) -> U32x8 {
        let Self(()) = self;
        U32x8(eight::from_array(words))
    }

    /// Calls `fill_eight`, compiled for AVX2.
    #[inline(always)]
    pub(crate) fn run<W: Wide>(self, work: &mut W, out: &mut [u8]) {
        #[cfg(test)]
        tests::count_group();
        eight::run(self, work, out);
    }

    /// Calls `next_eight`, compiled for AVX2.
    #[inline(always)]
    pub(crate) fn next<W: Wide>(self, work: &mut W) -> [u8; 512] {
        #[cfg(test)]
        tests::count_group();
        eight::next(self, work)
    }
}

/// Code that computes on vectors of eight words. `EightLanes::run` and `next` call it, compiled for
/// AVX2. It must be inlined there with everything that it calls: elsewhere, each operation on eight
/// words is a function call.
pub(crate) trait Wide {
    fn fill_eight(&mut self, lanes: EightLanes, out: &mut [u8]);

    /// Does the same, and returns the bytes as a value: they are written directly to the caller's
    /// array, which is not cleared first.
    fn next_eight(&mut self, lanes: EightLanes) -> [u8; 512];
}

/// A vector of eight 32-bit words. `+` wraps around in each word. Only `EightLanes` creates one.
#[derive(Clone, Copy)]
pub(crate) struct U32x8(eight::Words);

impl U32x8 {
    /// Rotates each word to the left by 1 to 31 bits.
    #[inline(always)]
    pub(crate) fn rotate_left(self, bits: u32) -> Self {
        debug_assert!(0 < bits && bits < 32, "a word is rotated by 1 to 31 bits");
        Self(eight::rotate_left(self.0, bits))
    }

    #[inline(always)]
    pub(crate) fn to_array(self) -> [u32; 8] {
        eight::to_array(self.0)
    }

    /// Interleaves the words of both: first words 0, 1, 4 and 5 of each, then the other words.
    #[inline(always)]
    pub(crate) fn woven(self, other: Self) -> (Self, Self) {
        let (front, back) = eight::woven(self.0, other.0);
        (Self(front), Self(back))
    }

    /// Does the same with pairs of words in place of words.
    #[inline(always)]
    pub(crate) fn woven_pairs(self, other: Self) -> (Self, Self) {
        let (front, back) = eight::woven_pairs(self.0, other.0);
        (Self(front), Self(back))
    }

    /// Returns the first halves of both, and then the second halves.
    #[inline(always)]
    pub(crate) fn joined(self, other: Self) -> (Self, Self) {
        let (front, back) = eight::joined(self.0, other.0);
        (Self(front), Self(back))
    }
}

impl Add for U32x8 {
    type Output = Self;

    #[inline(always)]
    fn add(self, other: Self) -> Self {
        Self(eight::add(self.0, other.0))
    }
}

impl BitXor for U32x8 {
    type Output = Self;

    #[inline(always)]
    fn bitxor(self, other: Self) -> Self {
        Self(eight::xor(self.0, other.0))
    }
}

// Every function except `is_here` and `from_words` may be called only if the processor has AVX2.
// Only the methods of `EightLanes` and `U32x8` call them, and a value of these types exists only on
// such a processor:
// - The fields of both types are private to this file. `EightLanes::find` alone makes an
//   `EightLanes`, and only if `is_here` returned true: the processor was asked, by std or by the
//   module `processor`, or the program was compiled for processors with AVX2. The features of a
//   processor do not change.
// - `EightLanes::vector` alone makes a `U32x8` from words. The other functions that return one have
//   been given one.
#[cfg(all(target_arch = "x86_64", target_feature = "sse2"))]
mod avx2 {
    use super::{EightLanes, Wide};
    use core::arch::x86_64::{
        __m256i, _mm256_add_epi32, _mm256_or_si256, _mm256_permute2x128_si256, _mm256_shuffle_epi8,
        _mm256_sll_epi32, _mm256_srl_epi32, _mm256_unpackhi_epi32, _mm256_unpackhi_epi64,
        _mm256_unpacklo_epi32, _mm256_unpacklo_epi64, _mm256_xor_si256, _mm_cvtsi64_si128,
    };
    use core::mem::transmute;
    use core::ptr::read_volatile;

    pub(super) type Words = __m256i;

    // The order of the bytes for rotations by 8 and by 16 bits. They are read as volatile: if the
    // compiler knows which bytes move, it merges two rotations, and then moves the bytes of nearly
    // twice as many vectors.
    static BY_8: Words = in_both_halves([0x0201_0003, 0x0605_0407, 0x0a09_080b, 0x0e0d_0c0f]);
    static BY_16: Words = in_both_halves([0x0100_0302, 0x0504_0706, 0x0908_0b0a, 0x0d0c_0f0e]);

    const fn in_both_halves([a, b, c, d]: [u32; 4]) -> Words {
        from_words([a, b, c, d, a, b, c, d])
    }

    const fn from_words(words: [u32; 8]) -> Words {
        // SAFETY: `transmute` needs bytes that are a value of the new type; the compiler checks
        // that both types have 32 bytes. All 32 bytes of `[u32; 8]` are initialized, as it has no
        // padding, and `__m256i` is 256 bits of which each may be 0 or 1.
        unsafe { transmute(words) }
    }

    #[cfg(feature = "std")]
    #[inline]
    pub(super) fn is_here() -> bool {
        std::is_x86_feature_detected!("avx2")
    }

    // Without std, this file asks the processor itself.
    #[cfg(not(feature = "std"))]
    #[inline]
    pub(super) fn is_here() -> bool {
        cfg!(target_feature = "avx2") || super::processor::has_avx2()
    }

    #[inline(always)]
    pub(super) fn run<W: Wide>(lanes: EightLanes, work: &mut W, out: &mut [u8]) {
        // SAFETY: `with_avx2` needs a processor with AVX2. The caller has an `EightLanes`, so this
        // one has it: see above this module.
        unsafe { with_avx2(lanes, work, out) }
    }

    // Precondition: the processor has AVX2.
    #[target_feature(enable = "avx2")]
    unsafe fn with_avx2<W: Wide>(lanes: EightLanes, work: &mut W, out: &mut [u8]) {
        work.fill_eight(lanes, out);
    }

    #[inline(always)]
    pub(super) fn next<W: Wide>(lanes: EightLanes, work: &mut W) -> [u8; 512] {
        // SAFETY: `next_with_avx2` needs a processor with AVX2. The caller has an `EightLanes`, so
        // this one has it: see above this module.
        unsafe { next_with_avx2(lanes, work) }
    }

    // Precondition: the processor has AVX2.
    #[target_feature(enable = "avx2")]
    unsafe fn next_with_avx2<W: Wide>(lanes: EightLanes, work: &mut W) -> [u8; 512] {
        work.next_eight(lanes)
    }

    #[inline(always)]
    pub(super) fn from_array(words: [u32; 8]) -> Words {
        from_words(words)
    }

    #[inline(always)]
    pub(super) fn to_array(words: Words) -> [u32; 8] {
        // SAFETY: `transmute` needs bytes that are a value of the new type; the compiler checks
        // that both types have 32 bytes. All 32 bytes of `__m256i` are initialized, as it has no
        // padding, and any four bytes are a value of `u32`.
        unsafe { transmute(words) }
    }

    #[inline(always)]
    pub(super) fn woven(a: Words, b: Words) -> (Words, Words) {
        // SAFETY: both unpack instructions need AVX2, and nothing else. The caller has a `U32x8`,
        // so the processor has AVX2: see above this module.
        unsafe { (_mm256_unpacklo_epi32(a, b), _mm256_unpackhi_epi32(a, b)) }
    }

    #[inline(always)]
    pub(super) fn woven_pairs(a: Words, b: Words) -> (Words, Words) {
        // SAFETY: both unpack instructions need AVX2, and nothing else. The caller has a `U32x8`,
        // so the processor has AVX2: see above this module.
        unsafe { (_mm256_unpacklo_epi64(a, b), _mm256_unpackhi_epi64(a, b)) }
    }

    #[inline(always)]
    pub(super) fn joined(a: Words, b: Words) -> (Words, Words) {
        // SAFETY: `_mm256_permute2x128_si256` needs AVX2, and nothing else. The caller has a
        // `U32x8`, so the processor has AVX2: see above this module.
        unsafe {
            (
                _mm256_permute2x128_si256::<0x20>(a, b),
                _mm256_permute2x128_si256::<0x31>(a, b),
            )
        }
    }

    #[inline(always)]
    pub(super) fn add(a: Words, b: Words) -> Words {
        // SAFETY: `_mm256_add_epi32` needs AVX2, and nothing else. The caller has a `U32x8`, so the
        // processor has AVX2: see above this module.
        unsafe { _mm256_add_epi32(a, b) }
    }

    #[inline(always)]
    pub(super) fn xor(a: Words, b: Words) -> Words {
        // SAFETY: `_mm256_xor_si256` needs AVX2, and nothing else. The caller has a `U32x8`, so the
        // processor has AVX2: see above this module.
        unsafe { _mm256_xor_si256(a, b) }
    }

    #[inline(always)]
    pub(super) fn rotate_left(words: Words, bits: u32) -> Words {
        // SAFETY: the instructions need AVX2, or SSE2, which every processor with AVX2 has. The
        // caller has a `U32x8`, so the processor has AVX2: see above this module. `read_volatile`
        // needs a pointer to an aligned and initialized value that nobody writes at the same time.
        // It gets references to two statics that nobody can write, as they are neither `mut` nor a
        // cell.
        unsafe {
            match bits {
                8 => return _mm256_shuffle_epi8(words, read_volatile(&BY_8)),
                16 => return _mm256_shuffle_epi8(words, read_volatile(&BY_16)),
                _ => {}
            }
            let left = _mm256_sll_epi32(words, _mm_cvtsi64_si128(i64::from(bits)));
            let right = _mm256_srl_epi32(words, _mm_cvtsi64_si128(i64::from(32 - bits)));
            _mm256_or_si256(left, right)
        }
    }
}

// Asks the processor for AVX2, as `is_x86_feature_detected!` does, which only std has. The answer
// is kept, since the question takes hundreds of nanoseconds or, in a virtual machine, microseconds.
#[cfg(all(
    any(test, not(feature = "std")),
    target_arch = "x86_64",
    target_feature = "sse2"
))]
mod processor {
    #[cfg(not(any(miri, target_env = "sgx")))]
    use core::arch::x86_64::{__cpuid, __cpuid_count, _xgetbv};
    use core::sync::atomic::{AtomicU8, Ordering};

    const NOT_ASKED: u8 = 0;
    const ABSENT: u8 = 1;
    const PRESENT: u8 = 2;

    // Threads that ask at the same time get the same answer and store it twice. Nothing else
    // depends on it, so the order of the stores does not matter.
    static AVX2: AtomicU8 = AtomicU8::new(NOT_ASKED);

    #[inline]
    pub(super) fn has_avx2() -> bool {
        let mut known = AVX2.load(Ordering::Relaxed);
        if known == NOT_ASKED {
            known = [ABSENT, PRESENT][usize::from(asked())];
            AVX2.store(known, Ordering::Relaxed);
        }
        known == PRESENT
    }

    // Bit 27 of `ecx` in leaf 1 of `cpuid`: the system has turned on `xgetbv`.
    #[cfg(any(test, not(any(miri, target_env = "sgx"))))]
    const XGETBV: u32 = 1 << 27;

    // Whether programs may use AVX2, by the number of the last leaf of `cpuid`, `ecx` of leaf 1,
    // register 0 of `xgetbv`, and `ebx` of leaf 7. Bit 28 of `ecx` says that the processor has AVX.
    // Bits 1 and 2 of the register say that the system saves the vectors of 16 and of 32 bytes when
    // it switches threads. Bit 5 of `ebx` says that the processor has AVX2.
    #[cfg(any(test, not(any(miri, target_env = "sgx"))))]
    pub(super) fn allows_avx2(last_leaf: u32, ecx: u32, register: u64, ebx: u32) -> bool {
        const XGETBV_AND_AVX: u32 = XGETBV | 1 << 28;
        const SAVED: u64 = 1 << 1 | 1 << 2;
        const AVX2: u32 = 1 << 5;
        last_leaf >= 7
            && ecx & XGETBV_AND_AVX == XGETBV_AND_AVX
            && register & SAVED == SAVED
            && ebx & AVX2 == AVX2
    }

    // A leaf after the last one has unspecified numbers, but may be asked for.
    #[cfg(not(any(miri, target_env = "sgx")))]
    #[cold]
    pub(super) fn asked() -> bool {
        // SAFETY: `__cpuid` and `__cpuid_count` need a processor that has the instruction `cpuid`;
        // every x86-64 processor has it, and programs may use it except in SGX, for which this
        // function is not compiled. `_xgetbv` needs that the system has turned it on; it is called
        // only after bit 27 of leaf 1 said so. Register 0 always exists.
        let (last_leaf, ecx, register, ebx) = unsafe {
            let ecx = __cpuid(1).ecx;
            let register = if ecx & XGETBV == 0 { 0 } else { _xgetbv(0) };
            (__cpuid(0).eax, ecx, register, __cpuid_count(7, 0).ebx)
        };
        allows_avx2(last_leaf, ecx, register, ebx)
    }

    // Miri and SGX do not have `cpuid`.
    #[cfg(any(miri, target_env = "sgx"))]
    pub(super) fn asked() -> bool {
        false
    }
}

// Also compiled in tests, which compare AVX2 with it.
#[cfg(any(test, not(all(target_arch = "x86_64", target_feature = "sse2"))))]
mod plain_eight {
    use super::{EightLanes, Wide};

    pub(super) type Words = [u32; 8];

    // Vectors of four words are just as fast here.
    #[inline]
    #[cfg_attr(test, allow(dead_code))]
    pub(super) fn is_here() -> bool {
        false
    }

    #[inline(always)]
    #[cfg_attr(test, allow(dead_code))]
    pub(super) fn run<W: Wide>(lanes: EightLanes, work: &mut W, out: &mut [u8]) {
        work.fill_eight(lanes, out);
    }

    #[inline(always)]
    #[cfg_attr(test, allow(dead_code))]
    pub(super) fn next<W: Wide>(lanes: EightLanes, work: &mut W) -> [u8; 512] {
        work.next_eight(lanes)
    }

    #[inline(always)]
    pub(super) fn from_array(words: [u32; 8]) -> Words {
        words
    }

    #[inline(always)]
    pub(super) fn to_array(words: Words) -> [u32; 8] {
        words
    }

    #[inline(always)]
    pub(super) fn woven(a: Words, b: Words) -> (Words, Words) {
        (
            [a[0], b[0], a[1], b[1], a[4], b[4], a[5], b[5]],
            [a[2], b[2], a[3], b[3], a[6], b[6], a[7], b[7]],
        )
    }

    #[inline(always)]
    pub(super) fn woven_pairs(a: Words, b: Words) -> (Words, Words) {
        (
            [a[0], a[1], b[0], b[1], a[4], a[5], b[4], b[5]],
            [a[2], a[3], b[2], b[3], a[6], a[7], b[6], b[7]],
        )
    }

    #[inline(always)]
    pub(super) fn joined(a: Words, b: Words) -> (Words, Words) {
        (
            [a[0], a[1], a[2], a[3], b[0], b[1], b[2], b[3]],
            [a[4], a[5], a[6], a[7], b[4], b[5], b[6], b[7]],
        )
    }

    #[inline(always)]
    pub(super) fn add(a: Words, b: Words) -> Words {
        by_lane(|lane| a[lane].wrapping_add(b[lane]))
    }

    #[inline(always)]
    pub(super) fn xor(a: Words, b: Words) -> Words {
        by_lane(|lane| a[lane] ^ b[lane])
    }

    #[inline(always)]
    pub(super) fn rotate_left(words: Words, bits: u32) -> Words {
        words.map(|word| word.rotate_left(bits))
    }

    #[inline(always)]
    fn by_lane(word: impl Fn(usize) -> u32) -> Words {
        [0, 1, 2, 3, 4, 5, 6, 7].map(word)
    }
}

#[cfg(all(target_arch = "x86_64", target_feature = "sse2"))]
mod sse2 {
    use core::arch::x86_64::{
        __m128i, _mm_add_epi32, _mm_cvtsi64_si128, _mm_or_si128, _mm_sll_epi32, _mm_srl_epi32,
        _mm_xor_si128,
    };
    use core::mem::transmute;

    pub(super) type Words = __m128i;

    #[inline(always)]
    pub(super) fn from_array(words: [u32; 4]) -> Words {
        // SAFETY: `transmute` needs bytes that are a value of the new type; the compiler checks
        // that both types have 16 bytes. All 16 bytes of `[u32; 4]` are initialized, as it has no
        // padding, and `__m128i` is 128 bits of which each may be 0 or 1.
        unsafe { transmute(words) }
    }

    #[inline(always)]
    pub(super) fn to_array(words: Words) -> [u32; 4] {
        // SAFETY: `transmute` needs bytes that are a value of the new type; the compiler checks
        // that both types have 16 bytes. All 16 bytes of `__m128i` are initialized, as it has no
        // padding, and any four bytes are a value of `u32`.
        unsafe { transmute(words) }
    }

    #[inline(always)]
    pub(super) fn add(a: Words, b: Words) -> Words {
        // SAFETY: `_mm_add_epi32` needs SSE2, and nothing else. This module is compiled only for
        // targets whose every processor has it: its `cfg` asks for `target_feature = "sse2"`.
        unsafe { _mm_add_epi32(a, b) }
    }

    #[inline(always)]
    pub(super) fn xor(a: Words, b: Words) -> Words {
        // SAFETY: `_mm_xor_si128` needs SSE2, and nothing else. This module is compiled only for
        // targets whose every processor has it: its `cfg` asks for `target_feature = "sse2"`.
        unsafe { _mm_xor_si128(a, b) }
    }

    #[inline(always)]
    pub(super) fn or(a: Words, b: Words) -> Words {
        // SAFETY: `_mm_or_si128` needs SSE2, and nothing else. This module is compiled only for
        // targets whose every processor has it: its `cfg` asks for `target_feature = "sse2"`.
        unsafe { _mm_or_si128(a, b) }
    }

    #[inline(always)]
    pub(super) fn left(words: Words, bits: u32) -> Words {
        // SAFETY: the instructions need SSE2, and nothing else. This module is compiled only for
        // targets whose every processor has it: its `cfg` asks for `target_feature = "sse2"`.
        unsafe { _mm_sll_epi32(words, _mm_cvtsi64_si128(i64::from(bits))) }
    }

    #[inline(always)]
    pub(super) fn right(words: Words, bits: u32) -> Words {
        // SAFETY: the instructions need SSE2, and nothing else. This module is compiled only for
        // targets whose every processor has it: its `cfg` asks for `target_feature = "sse2"`.
        unsafe { _mm_srl_epi32(words, _mm_cvtsi64_si128(i64::from(bits))) }
    }
}

// Also compiled in tests on x86-64, with scalar code in place of the NEON instructions.
#[cfg(any(
    all(test, target_arch = "x86_64"),
    all(
        target_arch = "aarch64",
        target_feature = "neon",
        target_endian = "little"
    )
))]
mod neon {
    #[cfg(not(target_arch = "aarch64"))]
    use super::tests::neon_of_plain_words as aarch64;
    #[cfg(target_arch = "aarch64")]
    use core::arch::aarch64;

    use aarch64::{
        uint32x4_t, vaddq_u32, vdupq_n_u32, veorq_u32, vnegq_s32, vorrq_u32, vreinterpretq_s32_u32,
        vshlq_u32,
    };
    use core::mem::transmute;

    pub(super) type Words = uint32x4_t;

    #[inline(always)]
    pub(super) fn from_array(words: [u32; 4]) -> Words {
        // SAFETY: `transmute` needs bytes that are a value of the new type; the compiler checks
        // that both types have 16 bytes. All 16 bytes of `[u32; 4]` are initialized, as it has no
        // padding, and `uint32x4_t` is four words of which each bit may be 0 or 1.
        unsafe { transmute(words) }
    }

    #[inline(always)]
    pub(super) fn to_array(words: Words) -> [u32; 4] {
        // SAFETY: `transmute` needs bytes that are a value of the new type; the compiler checks
        // that both types have 16 bytes. All 16 bytes of `uint32x4_t` are initialized, as it has no
        // padding, and any four bytes are a value of `u32`.
        unsafe { transmute(words) }
    }

    #[inline(always)]
    pub(super) fn add(a: Words, b: Words) -> Words {
        // SAFETY: `vaddq_u32` needs NEON, and nothing else. This module is compiled only for
        // targets whose every processor has it, as its `cfg` asks for `target_feature = "neon"`,
        // and for tests, where these are functions of `tests` that need nothing.
        unsafe { vaddq_u32(a, b) }
    }

    #[inline(always)]
    pub(super) fn xor(a: Words, b: Words) -> Words {
        // SAFETY: `veorq_u32` needs NEON, and nothing else. This module is compiled only for
        // targets whose every processor has it, as its `cfg` asks for `target_feature = "neon"`,
        // and for tests, where these are functions of `tests` that need nothing.
        unsafe { veorq_u32(a, b) }
    }

    #[inline(always)]
    pub(super) fn or(a: Words, b: Words) -> Words {
        // SAFETY: `vorrq_u32` needs NEON, and nothing else. This module is compiled only for
        // targets whose every processor has it, as its `cfg` asks for `target_feature = "neon"`,
        // and for tests, where these are functions of `tests` that need nothing.
        unsafe { vorrq_u32(a, b) }
    }

    #[inline(always)]
    pub(super) fn left(words: Words, bits: u32) -> Words {
        // SAFETY: the instructions need NEON, and nothing else. This module is compiled only for
        // targets whose every processor has it, as its `cfg` asks for `target_feature = "neon"`,
        // and for tests, where these are functions of `tests` that need nothing.
        unsafe { vshlq_u32(words, vreinterpretq_s32_u32(vdupq_n_u32(bits))) }
    }

    // NEON shifts to the right by a negative number of bits.
    #[inline(always)]
    pub(super) fn right(words: Words, bits: u32) -> Words {
        // SAFETY: the instructions need NEON, and nothing else. This module is compiled only for
        // targets whose every processor has it, as its `cfg` asks for `target_feature = "neon"`,
        // and for tests, where these are functions of `tests` that need nothing.
        unsafe { vshlq_u32(words, vnegq_s32(vreinterpretq_s32_u32(vdupq_n_u32(bits)))) }
    }
}

// Also compiled in tests, which compare the others with it.
#[cfg(any(
    test,
    not(any(
        all(target_arch = "x86_64", target_feature = "sse2"),
        all(
            target_arch = "aarch64",
            target_feature = "neon",
            target_endian = "little"
        )
    ))
))]
mod plain {
    pub(super) type Words = [u32; 4];

    #[inline(always)]
    pub(super) fn from_array(words: [u32; 4]) -> Words {
        words
    }

    #[inline(always)]
    pub(super) fn to_array(words: Words) -> [u32; 4] {
        words
    }

    #[inline(always)]
    pub(super) fn add(a: Words, b: Words) -> Words {
        [
            a[0].wrapping_add(b[0]),
            a[1].wrapping_add(b[1]),
            a[2].wrapping_add(b[2]),
            a[3].wrapping_add(b[3]),
        ]
    }

    #[inline(always)]
    pub(super) fn xor(a: Words, b: Words) -> Words {
        [a[0] ^ b[0], a[1] ^ b[1], a[2] ^ b[2], a[3] ^ b[3]]
    }

    #[inline(always)]
    pub(super) fn or(a: Words, b: Words) -> Words {
        [a[0] | b[0], a[1] | b[1], a[2] | b[2], a[3] | b[3]]
    }

    #[inline(always)]
    pub(super) fn left(words: Words, bits: u32) -> Words {
        let [a, b, c, d] = words;
        [a << bits, b << bits, c << bits, d << bits]
    }

    #[inline(always)]
    pub(super) fn right(words: Words, bits: u32) -> Words {
        let [a, b, c, d] = words;
        [a >> bits, b >> bits, c >> bits, d >> bits]
    }
}

#[cfg(test)]
mod tests {
    use super::{lanes, plain, plain_eight, EightLanes, U32x4, U32x8};
    use crate::{ChaCha20, ChaCha20Stream, Rng};
    use core::sync::atomic::{AtomicUsize, Ordering};

    mod blocks;

    use blocks::number_of_states;

    // The number of groups of eight blocks that were computed on vectors of eight words.
    static GROUPS: AtomicUsize = AtomicUsize::new(0);

    pub(super) fn count_group() {
        GROUPS.fetch_add(1, Ordering::Relaxed);
    }

    // Random words for the test cases. The generator is xorshift, so that the tests do not use this
    // library.
    struct Words(u64);

    impl Words {
        fn next(&mut self) -> u32 {
            self.0 ^= self.0 << 13;
            self.0 ^= self.0 >> 7;
            self.0 ^= self.0 << 17;
            u32::try_from(self.0 >> 32).unwrap()
        }

        // Some words are chosen so that carries and lost bits show.
        fn word(&mut self) -> u32 {
            match self.next() % 8 {
                0 => 0,
                1 => u32::MAX,
                2 => 1 << (self.next() % 32),
                _ => self.next(),
            }
        }

        fn four(&mut self) -> [u32; 4] {
            [self.word(), self.word(), self.word(), self.word()]
        }
    }

    // Calls `check` with the words of each case. There are 25 cases for each state, and at most
    // 250,000, which is their number if the environment sets no number of states.
    fn for_cases(check: impl Fn([u32; 4], [u32; 4])) {
        let mut words = Words(0x9e37_79b9_7f4a_7c15);
        for _ in 0..250_000.min(25 * number_of_states()) {
            check(words.four(), words.four());
        }
    }

    #[test]
    fn arrays_come_back() {
        for_cases(|a, b| {
            assert_eq!(U32x4::from_array(a).to_array(), a);
            assert_eq!(U32x4::splat(b[0]).to_array(), [b[0]; 4]);
        });
    }

    #[test]
    fn operations_are_those_of_plain_words() {
        for_cases(|a, b| {
            let (x, y) = (U32x4::from_array(a), U32x4::from_array(b));
            assert_eq!((x + y).to_array(), plain::add(a, b));
            assert_eq!((x ^ y).to_array(), plain::xor(a, b));
            assert_eq!((x | y).to_array(), plain::or(a, b));
            let bits = b[3] % 32;
            assert_eq!((x << U32x4::splat(bits)).to_array(), plain::left(a, bits));
            assert_eq!((x >> U32x4::splat(bits)).to_array(), plain::right(a, bits));
        });
    }

    #[test]
    fn plain_words_are_those_of_each_lane() {
        for_cases(|a, b| {
            let bits = b[0] % 32;
            let sums = plain::to_array(plain::add(plain::from_array(a), plain::from_array(b)));
            for lane in 0..4 {
                assert_eq!(sums[lane], a[lane].wrapping_add(b[lane]));
                assert_eq!(plain::xor(a, b)[lane], a[lane] ^ b[lane]);
                assert_eq!(plain::or(a, b)[lane], a[lane] | b[lane]);
                assert_eq!(plain::left(a, bits)[lane], a[lane] << bits);
                assert_eq!(plain::right(a, bits)[lane], a[lane] >> bits);
            }
        });
    }

    #[test]
    fn every_shift_moves_every_bit() {
        for bits in 0..32 {
            for bit in 0..32 {
                let one = lanes::from_array([1 << bit, 0, 1 << bit, 0]);
                let [a, b, c, d] = lanes::to_array(lanes::left(one, bits));
                assert_eq!([a, b, c, d], [(1 << bit) << bits, 0, a, 0]);
                let [a, b, c, d] = lanes::to_array(lanes::right(one, bits));
                assert_eq!([a, b, c, d], [(1 << bit) >> bits, 0, a, 0]);
            }
        }
    }

    /// The NEON functions that are used, written as ARM describes them.
    #[cfg(target_arch = "x86_64")]
    #[allow(non_camel_case_types)]
    pub(super) mod neon_of_plain_words {
        #[derive(Clone, Copy)]
        #[repr(transparent)]
        pub(crate) struct uint32x4_t([u32; 4]);

        #[derive(Clone, Copy)]
        pub(crate) struct int32x4_t([i32; 4]);

        fn by_lane(lane: impl Fn(usize) -> u32) -> uint32x4_t {
            uint32x4_t([lane(0), lane(1), lane(2), lane(3)])
        }

        pub(crate) unsafe fn vaddq_u32(a: uint32x4_t, b: uint32x4_t) -> uint32x4_t {
            by_lane(|lane| a.0[lane].wrapping_add(b.0[lane]))
        }

        pub(crate) unsafe fn veorq_u32(a: uint32x4_t, b: uint32x4_t) -> uint32x4_t {
            by_lane(|lane| a.0[lane] ^ b.0[lane])
        }

        pub(crate) unsafe fn vorrq_u32(a: uint32x4_t, b: uint32x4_t) -> uint32x4_t {
            by_lane(|lane| a.0[lane] | b.0[lane])
        }

        pub(crate) unsafe fn vdupq_n_u32(word: u32) -> uint32x4_t {
            uint32x4_t([word; 4])
        }

        pub(crate) unsafe fn vreinterpretq_s32_u32(a: uint32x4_t) -> int32x4_t {
            int32x4_t(a.0.map(|word| i32::from_ne_bytes(word.to_ne_bytes())))
        }

        pub(crate) unsafe fn vnegq_s32(a: int32x4_t) -> int32x4_t {
            int32x4_t(a.0.map(i32::wrapping_neg))
        }

        // Shifts each lane to the left by the low byte of `bits`, taken as a signed number.
        pub(crate) unsafe fn vshlq_u32(a: uint32x4_t, bits: int32x4_t) -> uint32x4_t {
            by_lane(|lane| {
                let by = i8::from_ne_bytes([bits.0[lane].to_le_bytes()[0]]);
                let moved = if by < 0 {
                    u32::checked_shr
                } else {
                    u32::checked_shl
                };
                moved(a.0[lane], u32::from(by.unsigned_abs())).unwrap_or(0)
            })
        }
    }

    #[cfg(target_arch = "x86_64")]
    #[test]
    fn neon_is_plain_words() {
        use super::neon::{self, to_array as words};
        for_cases(|a, b| {
            let (x, y) = (neon::from_array(a), neon::from_array(b));
            assert_eq!(words(x), a);
            assert_eq!(words(neon::add(x, y)), plain::add(a, b));
            assert_eq!(words(neon::xor(x, y)), plain::xor(a, b));
            assert_eq!(words(neon::or(x, y)), plain::or(a, b));
            let bits = b[2] % 32;
            assert_eq!(words(neon::left(x, bits)), plain::left(a, bits));
            assert_eq!(words(neon::right(x, bits)), plain::right(a, bits));
        });
    }

    fn for_eight(check: impl Fn([u32; 8], [u32; 8])) {
        for_cases(|a, b| {
            let [a0, a1, a2, a3] = a;
            let [b0, b1, b2, b3] = b;
            check(
                [a0, b0, a1, b1, a2, b2, a3, b3],
                [b3, a3, b2, a2, b1, a1, b0, a0],
            );
        });
    }

    // Runs only if the processor has AVX2. Without it, nothing calls these operations.
    #[test]
    fn eight_words_are_plain_words() {
        if let Some(lanes) = EightLanes::find() {
            operations_on_eight_are_those_of_plain_words(lanes);
        }
    }

    fn operations_on_eight_are_those_of_plain_words(lanes: EightLanes) {
        for_eight(|a, b| {
            let (x, y) = (lanes.vector(a), lanes.vector(b));
            assert_eq!(x.to_array(), a);
            assert_eq!(lanes.splat(b[0]).to_array(), [b[0]; 8]);
            assert_eq!((x + y).to_array(), plain_eight::add(a, b));
            assert_eq!((x ^ y).to_array(), plain_eight::xor(a, b));
            for bits in [7, 8, 12, 16, 1 + b[3] % 31] {
                let rotated = plain_eight::rotate_left(a, bits);
                assert_eq!(x.rotate_left(bits).to_array(), rotated);
            }
            let both = |(front, back): (U32x8, U32x8)| (front.to_array(), back.to_array());
            assert_eq!(both(x.woven(y)), plain_eight::woven(a, b));
            assert_eq!(both(x.woven_pairs(y)), plain_eight::woven_pairs(a, b));
            assert_eq!(both(x.joined(y)), plain_eight::joined(a, b));
        });
    }

    // No other unit test computes groups, so no other test changes the count meanwhile.
    #[test]
    fn eight_words_are_used_where_they_can_be() {
        #[cfg(all(feature = "std", target_arch = "x86_64"))]
        assert_eq!(
            EightLanes::find().is_some(),
            std::is_x86_feature_detected!("avx2")
        );
        let groups_of = |fill: &mut dyn FnMut(&mut [u8]), size: usize| {
            let before = GROUPS.load(Ordering::Relaxed);
            fill(&mut [0; 5000][..size]);
            GROUPS.load(Ordering::Relaxed) - before
        };
        let each = usize::from(EightLanes::find().is_some());
        let mut rng = ChaCha20::new_key([1; 32], [2; 8]);
        for size in [0, 511, 512, 513, 1023, 1024, 4096, 5000] {
            let groups = groups_of(&mut |bytes| rng.fill_bytes(bytes), size);
            assert_eq!(groups, each * (size / 512), "{size}");
        }
        let mut rng = ChaCha20Stream::new_key([1; 32], [2; 8]);
        for size in [1, 512, 511, 3 * 512, 5000] {
            let started = groups_of(&mut |bytes| rng.fill_bytes(bytes), size);
            assert_eq!(started, each * ((size + 511) / 512), "{size}");
            rng = ChaCha20Stream::new_key([1; 32], [2; 8]);
        }
    }

    // Without std, this file finds what std would find.
    #[cfg(all(target_arch = "x86_64", target_feature = "sse2", not(miri)))]
    #[test]
    fn the_processor_answers_as_to_std() {
        use super::processor::{asked, has_avx2};
        extern crate std;
        let here = std::is_x86_feature_detected!("avx2");
        assert_eq!(asked(), here);
        assert_eq!((has_avx2(), has_avx2()), (here, here));
        assert_eq!(EightLanes::find().is_some(), here);
    }

    // On a processor with AVX2, the answers that it gives cannot show that one of them is ignored.
    #[cfg(all(target_arch = "x86_64", target_feature = "sse2"))]
    #[test]
    fn avx2_needs_each_answer_of_the_processor() {
        use super::processor::allows_avx2;
        const ALL: u32 = u32::MAX;
        assert!(allows_avx2(7, 1 << 27 | 1 << 28, 1 << 1 | 1 << 2, 1 << 5));
        for last_leaf in 0..20 {
            let found = allows_avx2(last_leaf, ALL, u64::MAX, ALL);
            assert_eq!(found, last_leaf >= 7, "{last_leaf}");
        }
        for bit in 0..32 {
            let found = allows_avx2(ALL, !(1 << bit), u64::MAX, ALL);
            assert_eq!(found, bit != 27 && bit != 28, "ecx, {bit}");
            let found = allows_avx2(ALL, ALL, u64::MAX, !(1 << bit));
            assert_eq!(found, bit != 5, "ebx, {bit}");
        }
        for bit in 0..64 {
            let found = allows_avx2(ALL, ALL, !(1 << bit), ALL);
            assert_eq!(found, bit != 1 && bit != 2, "register 0, {bit}");
        }
    }

    #[test]
    fn plain_eight_are_those_of_each_lane() {
        for_eight(|a, b| {
            assert_eq!(plain_eight::to_array(plain_eight::from_array(a)), a);
            for lane in 0..8 {
                assert_eq!(plain_eight::add(a, b)[lane], a[lane].wrapping_add(b[lane]));
                assert_eq!(plain_eight::xor(a, b)[lane], a[lane] ^ b[lane]);
                let rotated = a[lane].rotate_left(b[0] % 32);
                assert_eq!(plain_eight::rotate_left(a, b[0] % 32)[lane], rotated);
            }
        });
        let (a, b) = ([0, 1, 2, 3, 4, 5, 6, 7], [10, 11, 12, 13, 14, 15, 16, 17]);
        let turns = ([0, 10, 1, 11, 4, 14, 5, 15], [2, 12, 3, 13, 6, 16, 7, 17]);
        let pairs = ([0, 1, 10, 11, 4, 5, 14, 15], [2, 3, 12, 13, 6, 7, 16, 17]);
        let halves = ([0, 1, 2, 3, 10, 11, 12, 13], [4, 5, 6, 7, 14, 15, 16, 17]);
        assert_eq!(plain_eight::woven(a, b), turns);
        assert_eq!(plain_eight::woven_pairs(a, b), pairs);
        assert_eq!(plain_eight::joined(a, b), halves);
    }

    #[cfg(debug_assertions)]
    mod refused {
        use super::U32x4;

        #[test]
        #[should_panic(expected = "one number of bits")]
        fn shifts_that_differ() {
            let _ = U32x4::splat(1) << U32x4::from_array([1, 1, 2, 1]);
        }

        #[test]
        #[should_panic(expected = "less than its 32 bits")]
        fn shifts_by_all_bits() {
            let _ = U32x4::splat(1) >> U32x4::splat(32);
        }
    }
}
