/// \file
/// nanorand for C++17 or later: seeded random generators, unbiased ranges, shuffles, samples, public draws by lot.
///
///     nanorand::WyRand rng(42);
///     int pips = rng.range(1, 6);
///
/// This header has inline functions over those of nanorand.h, so link the library of C.
///
/// A generator is a value: a copy draws the same numbers again. It is a UniformRandomBitGenerator: std::shuffle,
/// std::sample and the distributions of <random> accept it, and what they compute from it depends on the standard
/// library. The members of the classes below return the same numbers everywhere, which are those of C and of the other
/// languages (except that Rust draws different numbers from a `range` of a type of fewer than 64 bits, unless the type
/// is unsigned and has 32 bits). Threads need no lock if each has its own generator; two threads must not use one
/// generator at the same time.
///
/// There is no default constructor: a program that forgets the seed would draw the same numbers in each run, and nobody
/// would notice. Nothing here asks the operating system for a seed; std::random_device does.
///
/// A word is a random number of 32 or 64 bits. Ranges, shuffles and samples reject words that would cause a bias. After
/// 128 rejected words in a row, which happens with probability below 2^-128, they throw `exhausted`.
///
/// Security. WyRand and Pcg64 are not cryptographically secure: never use them to generate a key, a token or a
/// password. ChaCha is the keystream of a stream cipher, but not a vetted cryptographic generator.
#ifndef NANORAND_HPP
#define NANORAND_HPP

#if __cplusplus < 201703L
#error "nanorand.hpp needs C++17: compile with -std=c++17"
#endif

#include <algorithm>
#include <array>
#include <cstddef>
#include <cstdint>
#include <cstring>
#include <iterator>
#include <limits>
#include <optional>
#include <stdexcept>
#include <string>
#include <string_view>
#include <type_traits>
#include <utility>
#include <vector>

#include "nanorand.h"

namespace nanorand {
/// The version of the interface, as in the symbols of C: so two versions can be linked into one program.
inline namespace v1 {

/// There is nothing to draw: a range or a container is empty, a bound is 0 or negative, or a sample is larger than its
/// population.
/// Nothing was drawn. `what()` says which of these.
class empty_range : public std::invalid_argument {
public:
    using std::invalid_argument::invalid_argument;
};

/// 128 words in a row were rejected. They stay consumed.
class exhausted : public std::runtime_error {
public:
    exhausted() : std::runtime_error("nanorand: 128 words in a row were rejected") {}
};

/// The part ends past the period of the generator.
class past_period : public std::out_of_range {
public:
    past_period() : std::out_of_range("nanorand: the part ends past the period") {}
};

namespace detail {

/// Throws the exception of a status other than NANORAND_OK.
inline void check(nanorand_status status)
{
    switch (status) {
    case NANORAND_OK: return;
    case NANORAND_EMPTY: throw empty_range("nanorand: range: the first number is greater than the last");
    case NANORAND_EXHAUSTED: throw exhausted();
    case NANORAND_PAST_PERIOD: throw past_period();
    case NANORAND_OTHER_CYCLE: break; // only of Pcg64::distance, which does not throw
    }
    throw std::logic_error("nanorand: an unknown status");
}

// The functions of C by names that all generators share.
#define NANORAND_CALL(generator, call) static constexpr auto call = nanorand_##generator##_##call;
#define NANORAND_CALLS(generator, type) \
    using state = type; \
    NANORAND_CALL(generator, seed_from_u64) \
    NANORAND_CALL(generator, u64) \
    NANORAND_CALL(generator, f64) \
    NANORAND_CALL(generator, fill_bytes) \
    NANORAND_CALL(generator, range_u32) \
    NANORAND_CALL(generator, range_u64) \
    NANORAND_CALL(generator, range_i64) \
    NANORAND_CALL(generator, below) \
    NANORAND_CALL(generator, extend_sample)

struct wyrand { NANORAND_CALLS(wyrand, nanorand_wyrand) NANORAND_CALL(wyrand, part) };
struct pcg64 { NANORAND_CALLS(pcg64, nanorand_pcg64) NANORAND_CALL(pcg64, part) };
struct any_chacha { NANORAND_CALL(chacha, new_key) };
struct chacha8 : any_chacha {
    NANORAND_CALLS(chacha8, nanorand_chacha) NANORAND_CALL(chacha8, part) NANORAND_CALL(chacha8, block)
};
struct chacha12 : any_chacha {
    NANORAND_CALLS(chacha12, nanorand_chacha) NANORAND_CALL(chacha12, part) NANORAND_CALL(chacha12, block)
};
struct chacha20 : any_chacha {
    NANORAND_CALLS(chacha20, nanorand_chacha) NANORAND_CALL(chacha20, part) NANORAND_CALL(chacha20, block)
};
struct keystream {
    NANORAND_CALLS(keystream, nanorand_keystream) NANORAND_CALL(keystream, part) NANORAND_CALL(keystream, new_key)
};
struct stream { NANORAND_CALLS(stream, nanorand_stream) NANORAND_CALL(stream, new_key) };

#undef NANORAND_CALLS
#undef NANORAND_CALL

/// Whether two states will draw the same numbers.
[[nodiscard]] inline bool same(const nanorand_wyrand& left, const nanorand_wyrand& right) noexcept
{
    return left.seed == right.seed;
}

[[nodiscard]] inline bool same(const nanorand_pcg64& left, const nanorand_pcg64& right) noexcept
{
    return left.low == right.low && left.high == right.high;
}

[[nodiscard]] inline bool same(const nanorand_chacha& left, const nanorand_chacha& right) noexcept
{
    return std::memcmp(&left, &right, sizeof left) == 0; // the struct has no padding
}

/// The same for streams, whose buffers have `Size` bytes. The next byte of both must be at the same place of the same
/// block. Two different states can be at one place, since the blocks after it may be buffered or not yet computed. So
/// copies draw as many bytes as a buffer holds. What follows these bytes depends only on the place, key and nonce.
template <typename Calls, std::size_t Size>
[[nodiscard]] bool same_stream(typename Calls::state left, typename Calls::state right) noexcept
{
    const auto start = [](const typename Calls::state& state) {
        const std::uint64_t buffered = std::min<std::uint64_t>(state.buffered, Size - 1);
        const std::uint64_t blocks = (buffered + 63) / 64;
        nanorand_chacha result = state.chacha;
        result.counter -= blocks;
        return std::make_pair(result, blocks * 64 - buffered);
    };
    if (!same(start(left).first, start(right).first) || start(left).second != start(right).second) {
        return false;
    }
    std::array<std::uint8_t, Size> some{};
    std::array<std::uint8_t, Size> others{};
    Calls::fill_bytes(&left, some.data(), Size);
    Calls::fill_bytes(&right, others.data(), Size);
    return some == others;
}

[[nodiscard]] inline bool same(const nanorand_keystream& left, const nanorand_keystream& right) noexcept
{
    return same_stream<keystream, sizeof left.group>(left, right);
}

[[nodiscard]] inline bool same(const nanorand_stream& left, const nanorand_stream& right) noexcept
{
    return same_stream<stream, sizeof left.block>(left, right);
}

/// Whether the distance of two of these iterators is found in one step.
template <typename Iterator, typename = void>
inline constexpr bool has_random_access = false;
template <typename Iterator>
inline constexpr bool has_random_access<
    Iterator, std::void_t<decltype(std::declval<Iterator&>() - std::declval<Iterator&>())>> = true;

/// Whether the items of these iterators cannot be assigned: const items, and the bits of a const std::vector<bool>.
template <typename Iterator>
inline constexpr bool has_const_items = std::is_const_v<std::remove_reference_t<decltype(*std::declval<Iterator&>())>>
    || std::is_arithmetic_v<decltype(*std::declval<Iterator&>())>;

/// Whether numbers of this type can be drawn from a range.
template <typename Number>
inline constexpr bool has_ranges =
    std::is_integral_v<Number> && !std::is_same_v<std::remove_cv_t<Number>, bool> && sizeof(Number) <= 8;

/// The members of all generators. `Generator` is the class that derives from this one.
template <typename Generator, typename Calls>
class generator {
public:
    using result_type = std::uint64_t;
    /// The struct of C that holds the state.
    using state_type = typename Calls::state;

    /// Seeds from any 64-bit number, even a small one such as 0, 1, 2, ..: mixes it. Different numbers give different
    /// states.
    /// The generator is the one that `seed_from_u64` makes in other languages.
    explicit generator(std::uint64_t seed) noexcept { Calls::seed_from_u64(&state_, seed); }

    /// Makes a generator with this state. ChaCha8, ChaCha12 and ChaCha20 share a struct, and the number of rounds is
    /// not in it: each of them accepts a state of the others, and draws other numbers from it.
    [[nodiscard]] static Generator from_state(const state_type& state) noexcept
    {
        Generator rng(0);
        rng.state() = state;
        return rng;
    }

    /// The state, for the functions of C, and to save it; `from_state` restores it. The state of ChaCha contains the
    /// key, and not the number of rounds: save which of the three classes it was.
    [[nodiscard]] state_type& state() noexcept { return state_; }
    [[nodiscard]] const state_type& state() const noexcept { return state_; }

    [[nodiscard]] static constexpr result_type min() noexcept { return 0; }
    [[nodiscard]] static constexpr result_type max() noexcept { return std::numeric_limits<result_type>::max(); }

    /// Draws a 64-bit number.
    result_type operator()() noexcept { return Calls::u64(&state_); }

    /// Draws a number from 0 to below 1. It is a multiple of 2^-53, and all of these are equally likely.
    [[nodiscard]] double f64() noexcept { return Calls::f64(&state_); }

    /// Fills `length` bytes, by one request. A length of 0 draws nothing.
    void fill(void* buffer, std::size_t length) noexcept
    {
        Calls::fill_bytes(&state_, static_cast<std::uint8_t*>(buffer), length);
    }

    /// Fills an array of bytes, or a container of contiguous bytes: a std::array, std::vector, std::string, std::span.
    template <typename Bytes>
    void fill(Bytes&& bytes) noexcept
    {
        using byte = std::remove_pointer_t<decltype(std::data(bytes))>;
        static_assert(std::is_same_v<byte, std::byte> || std::is_same_v<byte, unsigned char>
                          || std::is_same_v<byte, signed char> || std::is_same_v<byte, char>,
                      "fill takes bytes that can be written; for other types, pass a pointer and the number of bytes");
        fill(std::data(bytes), std::size(bytes));
    }

    /// Draws a number from `first` to `last`, both included and of the same type, as in `range<std::size_t>(0, n - 1)`.
    /// Throws `empty_range` if `first` is greater than `last`, and `exhausted` after 128 rejected words.
    ///
    /// The type selects the function of C: `range_u32` for unsigned types of 32 bits, `range_u64` for all other
    /// unsigned types, and `range_i64` for all signed types. The last two draw words of 64 bits: `range(1, 6)` and
    /// `range<std::size_t>(1, 6)` draw the same number, and `range(1u, 6u)` draws another one.
    template <typename Integer>
    [[nodiscard]] Integer range(Integer first, Integer last)
    {
        Integer number{};
        check(draw(first, last, number));
        return number;
    }

    /// Draws the number that `range` draws, from `first` to `last`, both included and of the same type. Returns nothing
    /// if `first` is greater than `last`, and then draws nothing, or after 128 rejected words. It throws nothing, but
    /// this header needs a compiler with exceptions, also for this call: it does not compile with -fno-exceptions.
    template <typename Integer>
    [[nodiscard]] std::optional<Integer> try_range(Integer first, Integer last) noexcept
    {
        Integer number{};
        return draw(first, last, number) == NANORAND_OK ? std::optional<Integer>(number) : std::nullopt;
    }

    /// Draws a number below `n`, such as an index; `n` is of any integer type of at most 64 bits. It is the 64-bit
    /// number that `range` draws from 0 to n - 1. Throws `empty_range` if `n` is 0 or negative (the function of C
    /// returns 0 for 0, and takes a negative number for a huge one), and `exhausted` after 128 rejected words.
    template <typename Integer>
    [[nodiscard]] std::uint64_t below(Integer n)
    {
        static_assert(detail::has_ranges<Integer>,
                      "below takes an integer of at most 64 bits; for a floating-point number, use f64()");
        if constexpr (detail::has_ranges<Integer>) {
            if (n < Integer{1}) {
                throw empty_range("nanorand: below: the number is not positive");
            }
            const auto bound = static_cast<std::uint64_t>(n);
            const std::uint64_t number = Calls::below(&state_, bound);
            if (number == bound) {
                throw exhausted();
            }
            return number;
        } else {
            return 0;
        }
    }

    /// Draws an item of an array or a container, and returns a reference to it: for std::vector<bool>, the object that
    /// stands for a bit. Throws `empty_range` if there is none, and `exhausted` after 128 rejected words.
    template <typename Container>
    [[nodiscard]] decltype(auto) choose(Container& items)
    {
        using difference = typename std::iterator_traits<decltype(std::begin(items))>::difference_type;
        if (std::size(items) == 0) {
            throw empty_range("nanorand: choose: the container is empty");
        }
        return *std::next(std::begin(items), static_cast<difference>(below(std::size(items))));
    }

    template <typename Container>
    void choose(const Container&& items) = delete; // an item of a temporary would dangle: give the container a name

    /// Shuffles the items between two random access iterators, by Fisher-Yates. Draws the same words and
    /// makes the same order as `shuffle` of C for the same number of items. Items are swapped, so they need not be
    /// copyable.
    ///
    /// Throws `exhausted` after 128 rejected words, and what a swap throws. The swaps before that stay. So after
    /// `exhausted` every item is still there, in another order.
    template <typename Iterator>
    void shuffle(Iterator first, Iterator last)
    {
        static_assert(detail::has_random_access<Iterator>,
                      "shuffle needs random access: copy the items to a std::vector");
        static_assert(!detail::has_const_items<Iterator>, "shuffle moves the items, so they must not be const");
        if constexpr (detail::has_random_access<Iterator> && !detail::has_const_items<Iterator>) {
            using difference = typename std::iterator_traits<Iterator>::difference_type;
            for (difference place = 0, length = last - first; place < length; ++place) {
                std::iter_swap(first + place, first + range<difference>(place, length - 1));
            }
        }
    }

    /// Shuffles an array, or a container with random access, by Fisher-Yates. Draws the same words and makes the
    /// same order as `shuffle` of C for the same number of items. Items are swapped, so they need not be copyable.
    ///
    /// Throws `exhausted` after 128 rejected words, and what a swap throws. The swaps before that stay. So after
    /// `exhausted` every item is still there, in another order.
    template <typename Container>
    void shuffle(Container&& items)
    {
        shuffle(std::begin(items), std::end(items));
    }

    /// Draws a sample without replacement: `wanted` different numbers below `population`, in expected time O(wanted).
    /// They can be indices of your items. Their order is not uniform: shuffle them if it matters. Throws `empty_range`
    /// if more numbers are wanted than the population has, and `exhausted` after 128 rejected words.
    ///
    /// It allocates memory for 4 * wanted numbers. If there is not enough, it throws what std::vector throws,
    /// std::bad_alloc or std::length_error, before anything is drawn.
    [[nodiscard]] std::vector<std::size_t> sample(std::size_t population, std::size_t wanted)
    {
        if (wanted > population) {
            throw empty_range("nanorand: sample: more numbers are wanted than the population has");
        }
        std::vector<std::size_t> places(wanted);
        std::vector<std::size_t> table(3 * wanted);
        check(Calls::extend_sample(&state_, population, places.data(), wanted, 0, table.data(), table.size()));
        return places;
    }

    /// Returns a new generator at the beginning of part `index`, counted from 0, where each part is `draws` draws long:
    /// `index * draws` draws after the state that this generator has now. This generator does not move. So take all
    /// parts of one stream from the same state: a draw between two calls would shift the later parts.
    ///
    /// Choose an odd length, at least as long as what any task draws: parts do not overlap then. Nothing stops a task
    /// that draws more. The length is odd because draws of WyRand and of Pcg64 are correlated if a large power of two
    /// divides the distance between them. A draw is what `rng()` takes: 8 bytes, or for ChaCha8, ChaCha12 and ChaCha20
    /// a block of 64 bytes. A length of 0 is no error: then all tasks draw the same numbers. Throws `past_period` if
    /// the part ends past the period: 2^64 draws for WyRand and ChaCha, 2^126 for Pcg64, 2^67 for Keystream.
    [[nodiscard]] Generator part(std::uint64_t index, std::uint64_t draws) const
    {
        state_type moved = state_;
        check(Calls::part(&moved, index, draws));
        return from_state(moved);
    }

    /// Whether both will draw the same numbers. What is left of a stream's buffer counts, but no byte already drawn.
    [[nodiscard]] friend bool operator==(const Generator& left, const Generator& right) noexcept
    {
        return same(left.state(), right.state());
    }
    [[nodiscard]] friend bool operator!=(const Generator& left, const Generator& right) noexcept
    {
        return !(left == right);
    }

private:
    template <typename Integer>
    [[nodiscard]] nanorand_status draw(Integer first, Integer last, Integer& number) noexcept
    {
        static_assert(!std::is_floating_point_v<Integer>,
                      "range draws integers of at most 64 bits; for a floating-point number, use f64()");
        static_assert(std::is_floating_point_v<Integer> || detail::has_ranges<Integer>,
                      "range draws integers of at most 64 bits; for a bool or an enum, draw an integer and convert it");
        if constexpr (!detail::has_ranges<Integer>) {
            return NANORAND_EMPTY; // not compiled further, so that the errors above are the only ones
        } else if constexpr (std::is_signed_v<Integer>) {
            return draw_by<std::int64_t>(Calls::range_i64, first, last, number);
        } else if constexpr (sizeof(Integer) == 4) {
            return draw_by<std::uint32_t>(Calls::range_u32, first, last, number);
        } else {
            return draw_by<std::uint64_t>(Calls::range_u64, first, last, number);
        }
    }

    template <typename Number, typename Call, typename Integer>
    [[nodiscard]] nanorand_status draw_by(Call call, Integer first, Integer last, Integer& number) noexcept
    {
        Number drawn{};
        const nanorand_status status = call(&state_, first, last, &drawn);
        number = static_cast<Integer>(drawn);
        return status;
    }

    state_type state_{};
};

/// The members of generators with a key, which are those of ChaCha.
template <typename Generator, typename Calls>
class keyed : public generator<Generator, Calls> {
public:
    using generator<Generator, Calls>::generator;

    /// Makes a generator with this key and this nonce, which starts at the first block.
    [[nodiscard]] static Generator from_key(const std::array<std::uint8_t, 32>& key,
                                            const std::array<std::uint8_t, 8>& nonce = {}) noexcept
    {
        return Generator::from_state(Calls::new_key(key.data(), nonce.data()));
    }
};

/// The members of ChaCha with 8, 12 and 20 rounds.
template <typename Generator, typename Calls>
class chacha : public keyed<Generator, Calls> {
public:
    using keyed<Generator, Calls>::keyed;

    /// Draws a whole block.
    [[nodiscard]] std::array<std::uint8_t, 64> block() noexcept
    {
        std::array<std::uint8_t, 64> bytes{};
        Calls::block(&this->state(), bytes.data());
        return bytes;
    }

    /// Skips this many draws. A draw takes a block, so it adds to the counter.
    void discard(std::uint64_t draws) noexcept { this->state().counter += draws; }
};

/// The text as bytes of C.
[[nodiscard]] inline const std::uint8_t* bytes_of(std::string_view text) noexcept
{
    return reinterpret_cast<const std::uint8_t*>(text.data());
}

} // namespace detail

/// WyRand: 64 bits of state, the fastest generator. Not cryptographically secure.
class WyRand : public detail::generator<WyRand, detail::wyrand> {
public:
    using generator::generator;
    WyRand() = delete; // a seed is needed, such as WyRand rng(42): without one, each run would draw the same

    /// Makes a generator with this seed, which is the state and is not mixed: neighbouring seeds draw correlated
    /// numbers. The constructor mixes.
    [[nodiscard]] static WyRand from_seed(std::uint64_t seed) noexcept
    {
        return from_state(nanorand_wyrand_new_seed(seed));
    }

    /// Skips this many draws, by one multiplication.
    void discard(std::uint64_t draws) noexcept { nanorand_wyrand_jump(&state(), draws); }

    /// Returns how many draws lead from this state to the other one, modulo 2^64: if the other state is earlier, the
    /// number leads around the period of 2^64 draws.
    [[nodiscard]] std::uint64_t distance(const WyRand& other) const noexcept
    {
        return nanorand_wyrand_distance(&state(), &other.state());
    }
};

/// Pcg64: a 128-bit seed. Not cryptographically secure.
class Pcg64 : public detail::generator<Pcg64, detail::pcg64> {
public:
    using generator::generator;
    Pcg64() = delete; // a seed is needed, such as Pcg64 rng(42): without one, each run would draw the same

    /// Makes a generator with the seed `low + 2^64 * high`, which is the state and is not mixed: neighbouring seeds
    /// draw correlated numbers. The constructor mixes.
    [[nodiscard]] static Pcg64 from_seed(std::uint64_t low, std::uint64_t high) noexcept
    {
        return from_state(nanorand_pcg64_new_seed(low, high));
    }

    /// Skips this many draws, in at most 128 steps.
    void discard(std::uint64_t draws) noexcept { discard(nanorand_pcg64{draws, 0}); }

    /// Skips `low + 2^64 * high` draws.
    void discard(const nanorand_pcg64& draws) noexcept { nanorand_pcg64_jump(&state(), &draws); }

    /// Returns how many draws, below 2^126, lead from this state to the other one, as their low and high 64 bits.
    /// Returns nothing if no number of draws does.
    [[nodiscard]] std::optional<nanorand_pcg64> distance(const Pcg64& other) const noexcept
    {
        nanorand_pcg64 draws{};
        const nanorand_status status = nanorand_pcg64_distance(&state(), &other.state(), &draws);
        return status == NANORAND_OK ? std::optional<nanorand_pcg64>(draws) : std::nullopt;
    }
};

/// ChaCha with 8 rounds. Each number takes a block of 64 bytes: for many numbers, use Keystream.
class ChaCha8 : public detail::chacha<ChaCha8, detail::chacha8> {
public:
    using chacha::chacha;
    ChaCha8() = delete; // a seed is needed, such as ChaCha8 rng(42): without one, each run would draw the same
};

/// ChaCha with 12 rounds. Each number takes a block of 64 bytes: for many numbers, use Keystream.
class ChaCha12 : public detail::chacha<ChaCha12, detail::chacha12> {
public:
    using chacha::chacha;
    ChaCha12() = delete; // a seed is needed, such as ChaCha12 rng(42): without one, each run would draw the same
};

/// ChaCha with 20 rounds. Each number takes a block of 64 bytes: for many numbers, use Keystream.
class ChaCha20 : public detail::chacha<ChaCha20, detail::chacha20> {
public:
    using chacha::chacha;
    ChaCha20() = delete; // a seed is needed, such as ChaCha20 rng(42): without one, each run would draw the same
};

/// The keystream of ChaCha with 20 rounds, without gaps, computed eight blocks at once.
class Keystream : public detail::keyed<Keystream, detail::keystream> {
public:
    using keyed::keyed;
    Keystream() = delete; // a seed is needed, such as Keystream rng(42): without one, each run would draw the same

    /// Skips this many draws of 8 bytes, in constant time.
    void discard(std::uint64_t draws) noexcept { *this = part(1, draws); } // the keystream has 2^67 draws
};

/// The same numbers as those of Keystream, computed one block at a time. An object has 120 bytes, in place of 568.
class Stream : public detail::keyed<Stream, detail::stream> {
public:
    using keyed::keyed;
    Stream() = delete; // a seed is needed, such as Stream rng(42): without one, each run would draw the same

    /// Skips this many draws of 8 bytes, one by one. Keystream skips them in constant time.
    void discard(std::uint64_t draws) noexcept
    {
        for (; draws > 0; --draws) {
            (*this)();
        }
    }

    Stream part(std::uint64_t index, std::uint64_t draws) const = delete; // a Stream has no parts: use Keystream
};

/// The public draw by lot.
namespace lots {

/// A seed, a list or a number of places from which no draw can be made, or a draw after 128 rejected words.
class error : public std::runtime_error {
public:
    error(nanorand_lots_status status, const std::string& text) : std::runtime_error(text), status_(status) {}

    /// The status of C, which is the exit status of the program lots.
    [[nodiscard]] nanorand_lots_status status() const noexcept { return status_; }

private:
    nanorand_lots_status status_;
};

/// Returns the SHA-256 of the text.
[[nodiscard]] inline std::array<std::uint8_t, 32> digest(std::string_view text) noexcept
{
    std::array<std::uint8_t, 32> result{};
    nanorand_lots_digest(detail::bytes_of(text), text.size(), result.data());
    return result;
}

/// Counts the entrants of a list, which has one entrant on each line; the last line may lack its line feed. Throws
/// `error` if a line is empty (NANORAND_LOTS_EMPTY_LINE); its text has the number of the first empty line.
[[nodiscard]] inline std::size_t count(std::string_view list)
{
    std::size_t number = 0;
    const nanorand_lots_status status = nanorand_lots_count(detail::bytes_of(list), list.size(), &number);
    if (status != NANORAND_LOTS_OK) {
        throw error(status, "nanorand: line " + std::to_string(number) + " of the list is empty");
    }
    return number;
}

/// Draws `wanted` of the places 0, 1, .. below `population`, as the seed determines, and returns them in the order
/// drawn. Throws `error` if the seed is empty or not valid UTF-8 (NANORAND_LOTS_BAD_SEED), if more places are wanted
/// than there are (NANORAND_LOTS_TOO_FEW), or after 128 rejected words (NANORAND_LOTS_EXHAUSTED).
///
/// It allocates memory for `population` places. If there is not enough, it throws what std::vector throws,
/// std::bad_alloc or std::length_error, before anything is drawn.
[[nodiscard]] inline std::vector<std::size_t> draw(std::string_view seed, std::size_t population, std::size_t wanted)
{
    std::vector<std::size_t> places(population);
    const nanorand_lots_status status =
        nanorand_lots_draw(detail::bytes_of(seed), seed.size(), places.data(), population, wanted);
    if (status == NANORAND_LOTS_BAD_SEED) {
        throw error(status, "nanorand: the seed is empty or not valid UTF-8");
    }
    if (status == NANORAND_LOTS_TOO_FEW) {
        throw error(status, "nanorand: more places are wanted than there are");
    }
    if (status != NANORAND_LOTS_OK) {
        throw error(status, "nanorand: 128 words in a row were rejected");
    }
    places.resize(wanted);
    return places;
}

} // namespace lots
} // namespace v1
} // namespace nanorand

#endif
