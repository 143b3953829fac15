// Tests of nanorand.hpp: every member of every class against the C functions, on a copy of the state.
//
// No state of a real generator is known whose next 128 words are rejected. So what is thrown then is tested
// with a class over functions that return NANORAND_EXHAUSTED.
#include <algorithm>
#include <cmath>
#include <cstdio>
#include <cstring>
#include <deque>
#include <functional>
#include <limits>
#include <list>
#include <memory>
#include <numeric>
#include <random>
#include <sstream>
#include <string>
#include <vector>
#if __cplusplus >= 202002L
#include <span>
#endif

#include "nanorand.hpp"

namespace {

unsigned passed = 0;
unsigned failed = 0;

void check(const char* generator, const char* name, bool holds)
{
    if (holds) {
        passed++;
    } else {
        failed++;
        std::printf("FAILED %s: %s\n", generator, name);
    }
}

// The text of the exception of this type that the call throws. Empty if it throws another one or none.
template <typename Exception, typename Call>
std::string text_of(Call call)
{
    try {
        call();
    } catch (const Exception& exception) {
        return exception.what();
    } catch (...) {
    }
    return "";
}

// Whether the call throws an exception of this type. Its text is that of the standard library, so any will do.
template <typename Exception, typename Call>
bool throws(Call call)
{
    return !text_of<Exception>(call).empty();
}

// Whether the call throws an exception of this type with this text.
template <typename Exception, typename Call>
bool throws(const char* text, Call call)
{
    return text_of<Exception>(call) == text;
}

// Whether the call throws `empty_range` with this text.
template <typename Call>
bool is_empty(const char* text, Call call)
{
    return throws<nanorand::empty_range>(text, call);
}

constexpr const char* turned_around = "nanorand: range: the first number is greater than the last";
constexpr const char* not_positive = "nanorand: below: the number is not positive";
constexpr const char* too_many = "nanorand: sample: more numbers are wanted than the population has";
constexpr const char* rejected = "nanorand: 128 words in a row were rejected";
constexpr const char* past = "nanorand: the part ends past the period";

// The C functions of a generator, and its class.
#define GENERATOR(class_name, name) \
    struct name##_test { \
        using rng = nanorand::class_name; \
        using state = nanorand::class_name::state_type; \
        static constexpr const char* text = #class_name; \
        static constexpr auto seed_from_u64 = nanorand_##name##_seed_from_u64; \
        static constexpr auto u64 = nanorand_##name##_u64; \
        static constexpr auto f64 = nanorand_##name##_f64; \
        static constexpr auto fill_bytes = nanorand_##name##_fill_bytes; \
        static constexpr auto range_u32 = nanorand_##name##_range_u32; \
        static constexpr auto range_u64 = nanorand_##name##_range_u64; \
        static constexpr auto range_i64 = nanorand_##name##_range_i64; \
        static constexpr auto range_usize = nanorand_##name##_range_usize; \
        static constexpr auto below = nanorand_##name##_below; \
        static constexpr auto shuffle = nanorand_##name##_shuffle; \
        static constexpr auto sample = nanorand_##name##_sample; \
    }
GENERATOR(WyRand, wyrand);
GENERATOR(Pcg64, pcg64);
GENERATOR(ChaCha8, chacha8);
GENERATOR(ChaCha12, chacha12);
GENERATOR(ChaCha20, chacha20);
GENERATOR(Keystream, keystream);
GENERATOR(Stream, stream);

using sizes = std::initializer_list<std::size_t>;
constexpr std::uint64_t seeds[] = {0, 1, 42, 0xffff'ffff, UINT64_MAX};

// Whether the generator has this state, byte by byte.
template <typename Rng>
bool has_state(const Rng& rng, const typename Rng::state_type& state)
{
    return std::memcmp(&rng.state(), &state, sizeof state) == 0;
}

template <typename C>
void types()
{
    using rng = typename C::rng;
    static_assert(std::is_same_v<typename rng::result_type, std::uint64_t>);
    static_assert(std::is_same_v<decltype(std::declval<rng&>()()), std::uint64_t>);
    static_assert(rng::min() == 0 && rng::max() == UINT64_MAX);
    static_assert(std::is_trivially_copyable_v<rng> && sizeof(rng) == sizeof(typename C::state));
    static_assert(!std::is_default_constructible_v<rng>);
    static_assert(std::is_constructible_v<rng, std::uint64_t> && !std::is_convertible_v<std::uint64_t, rng>);
    static_assert(std::is_same_v<decltype(std::declval<rng&>().state()), typename C::state&>);
    static_assert(std::is_same_v<decltype(std::declval<const rng&>().state()), const typename C::state&>);
#if __cplusplus >= 202002L
    static_assert(std::uniform_random_bit_generator<rng>);
#endif
}

// Which members throw nothing, whatever happens. Those that some generators lack are in the functions below.
template <typename C>
void what_throws_nothing()
{
    using rng = typename C::rng;
    using state = typename C::state;
    static_assert(std::is_nothrow_constructible_v<rng, std::uint64_t>);
    static_assert(noexcept(rng::from_state(std::declval<const state&>())));
    static_assert(noexcept(std::declval<rng&>().state()) && noexcept(std::declval<const rng&>().state()));
    static_assert(noexcept(rng::min()) && noexcept(rng::max()));
    static_assert(noexcept(std::declval<rng&>()()) && noexcept(std::declval<rng&>().f64()));
    static_assert(noexcept(std::declval<rng&>().fill(nullptr, 0)));
    static_assert(noexcept(std::declval<rng&>().fill(std::declval<std::array<char, 3>&>())));
    static_assert(noexcept(std::declval<rng&>().try_range(1, 6)) && noexcept(std::declval<rng&>().discard(1)));
    static_assert(noexcept(rng(1) == rng(1)) && noexcept(rng(1) != rng(1)));
    static_assert(!noexcept(std::declval<rng&>().range(1, 6)) && !noexcept(std::declval<rng&>().below(6)));
}

// The numbers of each type are those of the function of C that the header names.
template <typename C, typename Integer, typename Number, typename Call>
void one_type(Call call, Integer first, Integer last)
{
    bool holds = true;
    for (const auto seed : seeds) {
        typename C::rng rng(seed);
        auto state = rng.state();
        for (int count = 0; count < 50; count++) {
            Number number{};
            holds = holds && call(&state, Number{first}, Number{last}, &number) == NANORAND_OK
                && rng.range(first, last) == static_cast<Integer>(number) && has_state(rng, state);
            holds = holds && call(&state, Number{first}, Number{last}, &number) == NANORAND_OK
                && rng.try_range(first, last) == static_cast<Integer>(number) && has_state(rng, state);
        }
    }
    check(C::text, "a range of one type", holds);
}

template <typename C, typename Integer, typename Number, typename Call>
void some_ranges(Call call)
{
    using limits = std::numeric_limits<Integer>;
    one_type<C, Integer, Number>(call, Integer{1}, Integer{6});
    one_type<C, Integer, Number>(call, limits::min(), limits::max());
    one_type<C, Integer, Number>(call, limits::min(), static_cast<Integer>(limits::max() / 3 * 2));
    one_type<C, Integer, Number>(call, limits::max(), limits::max());
}

// The types of 32 and of 64 bits.
template <typename C>
void ranges()
{
    some_ranges<C, int, std::int64_t>(C::range_i64);
    some_ranges<C, long, std::int64_t>(C::range_i64);
    some_ranges<C, unsigned, std::uint32_t>(C::range_u32);
    some_ranges<C, std::size_t, std::size_t>(C::range_usize);
    some_ranges<C, std::uint64_t, std::uint64_t>(C::range_u64);
    typename C::rng rng(42);
    typename C::rng other(42);
    check(C::text, "int and size_t agree", rng.range(-3, 9) + 3 == static_cast<int>(other.below(13)) && rng == other);
}

template <typename C>
void ranges_of_other_types()
{
    some_ranges<C, signed char, std::int64_t>(C::range_i64);
    some_ranges<C, short, std::int64_t>(C::range_i64);
    some_ranges<C, long long, std::int64_t>(C::range_i64);
    some_ranges<C, char, std::int64_t>(C::range_i64);
    some_ranges<C, wchar_t, std::int64_t>(C::range_i64);
    some_ranges<C, unsigned char, std::uint64_t>(C::range_u64);
    some_ranges<C, unsigned short, std::uint64_t>(C::range_u64);
    some_ranges<C, char16_t, std::uint64_t>(C::range_u64);
    some_ranges<C, unsigned long long, std::uint64_t>(C::range_u64);
    some_ranges<C, char32_t, std::uint32_t>(C::range_u32);
}

// Bounds of any integer type, of which only the value counts.
template <typename C>
void bounds()
{
    typename C::rng rng(42);
    typename C::rng other(42);
    const std::vector<int> items(97);
    std::uint64_t sum = 0;
    std::uint64_t wanted = 0;
    for (int count = 0; count < 50; count++) {
        sum += rng.below(97) + rng.below(items.size()) + rng.below(static_cast<signed char>(97)) + rng.below('a')
            + rng.below(static_cast<std::uint16_t>(97)) + rng.below(97u) + rng.below(97LL) + rng.below(97ULL)
            + rng.below(INT64_MAX) + rng.below(UINT64_MAX);
        for (int call = 0; call < 8; call++) {
            wanted += other.below(std::uint64_t{97});
        }
        wanted += other.below(std::uint64_t{INT64_MAX}) + other.below(UINT64_MAX);
    }
    check(C::text, "bounds of all types", sum == wanted && rng == other);
    check(C::text, "below 0", is_empty(not_positive, [&] { (void)rng.below(0); }));
    check(C::text, "below 0 of size_t", is_empty(not_positive, [&] { (void)rng.below(std::size_t{0}); }));
    check(C::text, "below -5", is_empty(not_positive, [&] { (void)rng.below(-5); }));
    check(C::text, "below -1 of char", is_empty(not_positive, [&] { (void)rng.below(static_cast<signed char>(-1)); }));
    check(C::text, "below the least", is_empty(not_positive, [&] { (void)rng.below(INT64_MIN); }));
    check(C::text, "none of these drew", rng == other && has_state(rng, other.state()));
}

template <typename C>
void numbers()
{
    bool holds = true;
    for (const auto seed : seeds) {
        typename C::rng rng(seed);
        typename C::state state{};
        C::seed_from_u64(&state, seed);
        holds = holds && has_state(rng, state) && has_state(C::rng::from_state(state), state);
        for (int count = 0; count < 50; count++) {
            holds = holds && rng() == C::u64(&state) && has_state(rng, state);
            const double number = rng.f64();
            holds = holds && std::memcmp(&number, std::array<double, 1>{C::f64(&state)}.data(), sizeof number) == 0
                && has_state(rng, state);
            holds = holds && rng.below(97) == C::below(&state, 97) && rng.below(1) == C::below(&state, 1)
                && rng.below(UINT64_MAX) == C::below(&state, UINT64_MAX) && has_state(rng, state);
        }
    }
    check(C::text, "numbers", holds);
}

template <typename C>
void fills()
{
    typename C::rng rng(42);
    auto state = rng.state();
    std::array<std::uint8_t, 200> wanted{};
    const auto filled = [&](const auto& bytes) {
        C::fill_bytes(&state, wanted.data(), std::size(bytes));
        return (std::size(bytes) == 0 || std::memcmp(std::data(bytes), wanted.data(), std::size(bytes)) == 0)
            && has_state(rng, state);
    };
    std::vector<std::uint8_t> vector(77);
    std::array<std::byte, 64> array{};
    std::string string(31, ' ');
    signed char plain[3] = {};
    std::vector<char> none;
    rng.fill(vector);
    check(C::text, "fill of a vector", filled(vector));
    rng.fill(array);
    check(C::text, "fill of a std::array", filled(array));
    rng.fill(string);
    check(C::text, "fill of a string", filled(string));
    rng.fill(plain);
    check(C::text, "fill of an array", filled(plain));
    rng.fill(none);
    check(C::text, "fill of nothing", filled(none));
    rng.fill(nullptr, 0);
    check(C::text, "fill of no address", filled(none));
    std::array<std::uint32_t, 5> words{};
    rng.fill(words.data(), sizeof words);
    C::fill_bytes(&state, wanted.data(), sizeof words);
    check(C::text, "fill of other types",
          std::memcmp(words.data(), wanted.data(), sizeof words) == 0 && has_state(rng, state));
#if __cplusplus >= 202002L
    rng.fill(std::span(vector).subspan(7));
    check(C::text, "fill of a span", filled(std::span(vector).subspan(7)));
#endif
}

// Items that can be moved and not copied, whose order C shuffles as indices.
template <typename C>
void move_only_items(std::size_t length)
{
    typename C::rng rng(length);
    auto state = rng.state();
    std::vector<std::size_t> order(length);
    std::iota(order.begin(), order.end(), std::size_t{0});
    std::vector<std::unique_ptr<std::size_t>> items;
    for (const auto index : order) {
        items.push_back(std::make_unique<std::size_t>(index));
    }
    bool holds = C::shuffle(&state, order.data(), length) == NANORAND_OK;
    rng.shuffle(items);
    for (std::size_t place = 0; place < length; place++) {
        holds = holds && items[place] != nullptr && *items[place] == order[place];
    }
    // The shuffle of C is one call, which may leave other bytes in the part of a buffer that does not count.
    check(C::text, "items that only move", holds && rng == C::rng::from_state(state));
}

// A container of any type gets the order of a std::vector of its length.
template <typename C, typename Container>
void one_container(const char* name, Container items)
{
    typename C::rng rng(7);
    typename C::rng other(7);
    const std::vector<typename Container::value_type> before(std::begin(items), std::end(items));
    std::vector<std::size_t> order(before.size());
    std::iota(order.begin(), order.end(), std::size_t{0});
    other.shuffle(order.begin(), order.end());
    rng.shuffle(items);
    bool holds = rng == other;
    auto item = std::begin(items);
    for (const auto index : order) {
        holds = holds && *item++ == before[index];
    }
    check(C::text, name, holds);
}

template <typename C>
void shuffles()
{
    for (const auto length : sizes{0, 1, 2, 3, 10, 52, 1000}) {
        move_only_items<C>(length);
    }
}

template <typename C>
void containers()
{
    one_container<C>("a shuffle of bits", std::vector<bool>{true, false, false, true, true, false, true, false});
    one_container<C>("a shuffle of strings", std::vector<std::string>{"Ada", "a name of many letters", "Jun", ""});
    one_container<C>("a shuffle of a deque", std::deque<int>{3, 1, 4, 1, 5, 9, 2, 6});
    one_container<C>("a shuffle of a std::array", std::array<char, 5>{'a', 'b', 'c', 'd', 'e'});
    one_container<C>("a shuffle of a string", std::string("abcdefghij"));
    typename C::rng rng(7);
    int plain[4] = {1, 2, 3, 4};
    rng.shuffle(plain);
    std::vector<int> same{1, 2, 3, 4};
    typename C::rng(7).shuffle(same);
    check(C::text, "a shuffle of an array", std::equal(same.begin(), same.end(), plain));
#if __cplusplus >= 202002L
    typename C::rng(7).shuffle(std::span(plain).first(0));
    check(C::text, "a shuffle of an empty span", std::equal(same.begin(), same.end(), plain));
#endif
}

template <typename C>
void samples()
{
    typename C::rng rng(42);
    auto state = rng.state();
    for (const auto wanted : sizes{0, 1, 2, 10, 99, 100}) {
        std::vector<std::size_t> places(wanted);
        const bool drawn = C::sample(&state, 100, places.data(), wanted) == NANORAND_OK;
        check(C::text, "a sample", drawn && rng.sample(100, wanted) == places && has_state(rng, state));
    }
    check(C::text, "a large population", rng.sample(SIZE_MAX, 3).size() == 3);
    check(C::text, "no population", rng.sample(0, 0).empty());
}

template <typename C>
void choices()
{
    typename C::rng rng(42);
    typename C::rng other(42);
    std::vector<std::string> names{"Ada", "Barbara", "Chidi"};
    const std::list<int> numbers{1, 2, 3, 4, 5};
    std::string& name = rng.choose(names);
    check(C::text, "an item of a vector", &name == &names[other.below(3)] && rng == other);
    const int& number = rng.choose(numbers);
    check(C::text, "an item of a list",
          &number == &*std::next(numbers.begin(), static_cast<std::ptrdiff_t>(other.below(5))) && rng == other);
    std::vector<bool> bits{false};
    rng.choose(bits) = true;
    check(C::text, "an item of vector<bool>", bits[0] && rng.choose("x") != 'y');
}

template <typename C>
void errors()
{
    typename C::rng rng(42);
    const auto before = rng;
    std::vector<int> none;
    check(C::text, "an empty range", is_empty(turned_around, [&] { (void)rng.range(2, 1); }));
    check(C::text, "an empty range of unsigned", is_empty(turned_around, [&] { (void)rng.range(2u, 1u); }));
    check(C::text, "an empty range of size_t",
          is_empty(turned_around, [&] { (void)rng.range(SIZE_MAX, SIZE_MAX - 1); }));
    check(C::text, "an empty range of short", is_empty(turned_around, [&] { (void)rng.template range<short>(1, -1); }));
    check(C::text, "no number to try", !rng.try_range(2, 1) && !rng.try_range(2u, 1u) && !rng.try_range(2ul, 1ul));
    check(C::text, "its base", throws<std::invalid_argument>(not_positive, [&] { (void)rng.below(0); }));
    check(C::text, "no item", is_empty("nanorand: choose: the container is empty", [&] { (void)rng.choose(none); }));
    check(C::text, "a sample too large", is_empty(too_many, [&] { (void)rng.sample(2, 3); }));
    check(C::text, "the largest sample", is_empty(too_many, [&] { (void)rng.sample(SIZE_MAX - 1, SIZE_MAX); }));
    check(C::text, "no memory", throws<std::length_error>([&] { (void)rng.sample(SIZE_MAX, SIZE_MAX); }));
    check(C::text, "nothing was drawn", rng == before && has_state(rng, before.state()));
}

template <typename C>
void comparisons()
{
    typename C::rng rng(42);
    auto copy = rng;
    check(C::text, "a copy is equal", copy == rng && !(copy != rng));
    const auto number = copy();
    check(C::text, "after a draw it is not", copy != rng && !(copy == rng));
    check(C::text, "the same number", rng() == number && rng == copy);
    check(C::text, "other seeds", typename C::rng(1) != typename C::rng(2));
    copy = typename C::rng(1);
    check(C::text, "assignment", copy == typename C::rng(1));
    std::swap(copy, rng);
    check(C::text, "swap", rng == typename C::rng(1));
    check(C::text, "the state is the generator's", &rng.state() == &std::as_const(rng).state());
}

// The bytes of a struct, written to a file and read back as c/README.md says, restore the generator.
template <typename C>
void saved()
{
    typename C::rng rng(42);
    (void)rng.range(1u, 6u);
    std::stringstream file;
    file.write(reinterpret_cast<const char*>(&rng.state()), sizeof rng.state());
    typename C::rng::state_type state{};
    const bool read = !file.read(reinterpret_cast<char*>(&state), sizeof state).fail();
    auto restored = C::rng::from_state(state);
    check(C::text, "saved and restored", read && restored == rng && restored() == rng());
}

template <typename C>
void skipped()
{
    for (const auto draws : sizes{0, 1, 2, 7, 8, 9, 63, 64, 65, 1000}) {
        typename C::rng rng(42);
        rng();
        auto other = rng;
        for (std::uint64_t count = 0; count < draws; count++) {
            other();
        }
        rng.discard(draws);
        check(C::text, "discard", rng == other && rng() == other());
    }
}

template <typename C>
void standard_library()
{
    typename C::rng rng(42);
    std::vector<int> items(100);
    std::iota(items.begin(), items.end(), 0);
    auto shuffled = items;
    std::shuffle(shuffled.begin(), shuffled.end(), rng);
    check(C::text, "std::shuffle",
          shuffled != items && std::is_permutation(items.begin(), items.end(), shuffled.begin()));
    std::vector<int> some;
    std::sample(items.begin(), items.end(), std::back_inserter(some), 5, rng);
    check(C::text, "std::sample", some.size() == 5 && std::adjacent_find(some.begin(), some.end()) == some.end());
    std::array<std::uint64_t, 3> words{};
    auto copied = rng;
    std::generate(words.begin(), words.end(), copied);
    check(C::text, "std::generate copies", copied == rng && words[0] == copied());
    std::generate(words.begin(), words.end(), std::ref(rng));
    check(C::text, "std::generate by std::ref", words[1] == copied() && words[2] == copied() && rng == copied);
    bool holds = true;
    double sum = 0;
    for (int count = 0; count < 1000; count++) {
        const int pips = std::uniform_int_distribution<int>(1, 6)(rng);
        const double real = std::uniform_real_distribution<double>(2, 3)(rng);
        holds = holds && pips >= 1 && pips <= 6 && real >= 2 && real <= 3
            && std::abs(std::normal_distribution<double>()(rng)) < 9;
        sum += std::generate_canonical<double, 53>(rng);
    }
    check(C::text, "distributions", holds && sum > 400 && sum < 600);
#if __cplusplus >= 202002L
    std::ranges::shuffle(items, rng);
    check(C::text, "std::ranges::shuffle", std::ranges::is_permutation(items, shuffled));
#endif
}

template <typename C>
void all()
{
    types<C>();
    what_throws_nothing<C>();
    numbers<C>();
    bounds<C>();
    ranges<C>();
    fills<C>();
    shuffles<C>();
    samples<C>();
    choices<C>();
    errors<C>();
    comparisons<C>();
    saved<C>();
    skipped<C>();
}

// What is the same code for each generator.
template <typename C>
void more()
{
    ranges_of_other_types<C>();
    containers<C>();
    standard_library<C>();
}

template <typename C, typename Call>
void parts(Call call)
{
    const typename C::rng root(42);
    bool holds = true;
    for (const auto index : sizes{0, 1, 2, 1000}) {
        for (const auto draws : sizes{0, 1, 7, 1000001}) {
            auto state = root.state();
            holds = holds && call(&state, index, draws) == NANORAND_OK && has_state(root.part(index, draws), state);
        }
    }
    check(C::text, "parts", holds && root == typename C::rng(42));
    const auto last = [&] { (void)root.part(UINT64_MAX, UINT64_MAX); };
    check(C::text, "past the period", throws<std::out_of_range>(past, last));
    check(C::text, "its type", throws<nanorand::past_period>(past, last));
}

void seeds_and_distances()
{
    using nanorand::Pcg64;
    using nanorand::WyRand;
    static_assert(noexcept(WyRand::from_seed(5)) && noexcept(WyRand(1).distance(WyRand(2))));
    static_assert(noexcept(Pcg64::from_seed(5, 1)) && noexcept(Pcg64(1).distance(Pcg64(2))));
    static_assert(noexcept(std::declval<Pcg64&>().discard({1, 1})));
    check("WyRand", "from_seed", WyRand::from_seed(5).state().seed == 5 && WyRand::from_seed(5) != WyRand(5));
    const auto pcg64 = Pcg64::from_seed(5, 1);
    check("Pcg64", "from_seed", pcg64.state().low == 5 && pcg64.state().high == 1);
    check("Pcg64", "both halves", pcg64 != Pcg64::from_seed(5, 2) && pcg64 != Pcg64::from_seed(6, 1));
    WyRand near(42);
    near.discard(UINT64_MAX - 5);
    check("WyRand", "distance", WyRand(42).distance(near) == UINT64_MAX - 5 && near.distance(WyRand(42)) == 6);
    auto far = pcg64;
    far.discard(UINT64_MAX);
    auto draws = pcg64.distance(far);
    check("Pcg64", "distance", draws && draws->low == UINT64_MAX && draws->high == 0);
    far.discard({1, 1});
    draws = pcg64.distance(far);
    check("Pcg64", "a long distance", draws && draws->low == 0 && draws->high == 2);
    draws = far.distance(pcg64);
    check("Pcg64", "the distance back", draws && draws->low == 0 && draws->high == (std::uint64_t{1} << 62) - 2);
    check("Pcg64", "another cycle", !Pcg64::from_seed(0, 0).distance(Pcg64::from_seed(1, 0)));
}

template <typename C, typename Call>
void blocks(Call call)
{
    static_assert(noexcept(std::declval<typename C::rng&>().block()));
    typename C::rng rng(42);
    auto state = rng.state();
    std::array<std::uint8_t, 64> wanted{};
    call(&state, wanted.data());
    check(C::text, "a block", rng.block() == wanted && has_state(rng, state));
    rng.discard(UINT64_MAX);
    check(C::text, "discard goes around", rng == typename C::rng(42));
}

template <typename C, typename Call>
void keys(Call call)
{
    std::array<std::uint8_t, 32> key{};
    std::array<std::uint8_t, 8> nonce{};
    static_assert(noexcept(C::rng::from_key(key, nonce)) && noexcept(C::rng::from_key(key)));
    const auto zeros = nonce;
    std::iota(key.begin(), key.end(), std::uint8_t{9});
    std::iota(nonce.begin(), nonce.end(), std::uint8_t{77});
    check(C::text, "from_key", has_state(C::rng::from_key(key, nonce), call(key.data(), nonce.data())));
    check(C::text, "no nonce", has_state(C::rng::from_key(key), call(key.data(), zeros.data())));
    check(C::text, "the nonce counts", C::rng::from_key(key) != C::rng::from_key(key, nonce));
}

std::uint8_t* buffer_of(nanorand_stream& state)
{
    return state.block;
}

std::uint8_t* buffer_of(nanorand_keystream& state)
{
    return state.group;
}

// Streams are equal if they will draw the same numbers. Drawn bytes do not count, nor how many blocks are buffered.
template <typename C>
void streams(std::uint64_t size)
{
    const typename C::rng start(42);
    std::vector<std::uint8_t> bytes(2000);
    for (const auto length : sizes{0, 1, 8, 63, 64, 65, 448, 511, 512, 513, 1025}) {
        auto whole = start;
        auto pieces = start;
        whole.fill(bytes.data(), length);
        for (std::size_t count = 0; count < length; count++) {
            pieces.fill(bytes.data(), 1);
        }
        check(C::text, "one fill or many", whole == pieces);
        auto computed = start;
        computed.state().chacha.counter = length / 64;
        computed.fill(bytes.data(), length % 64);
        check(C::text, "more or less computed ahead", whole == computed && computed == whole);
        auto other = whole;
        other.fill(bytes.data(), 1);
        check(C::text, "a byte further", whole != other);
        other = whole;
        other.state().chacha.counter += 1;
        check(C::text, "a block further", whole != other);
        other = whole;
        other.state().chacha.key[31] ^= 1;
        check(C::text, "another key", whole != other);
        other = whole;
        other.state().chacha.nonce[7] ^= 1;
        check(C::text, "another nonce", whole != other);
    }
    auto rng = start;
    (void)rng();
    check(C::text, "what is buffered", rng.state().buffered == size - 8);
    auto other = rng;
    buffer_of(other.state())[7] ^= 1;
    check(C::text, "a byte that was drawn", rng == other);
    buffer_of(other.state())[8] ^= 1;
    check(C::text, "a byte to be drawn", rng != other);
    other = rng;
    buffer_of(other.state())[size - 1] ^= 1;
    check(C::text, "the last byte to be drawn", rng != other);
    other.fill(bytes.data(), size - 8);
    rng.fill(bytes.data(), size - 8);
    check(C::text, "when it is drawn", rng == other);
    rng.state().buffered = size - 1;
    other = rng;
    other.state().buffered = UINT64_MAX;
    check(C::text, "too much buffered", rng == other && rng() == other());
}

// States whose next bytes are zeros, as many as a buffer holds, and after which different bytes follow.
template <typename C>
void streams_of_zeros(std::uint64_t size)
{
    std::vector<typename C::rng> found;
    for (std::uint64_t nonce = 0; found.size() < 2; nonce++) {
        auto rng = C::rng::from_key({});
        std::memcpy(rng.state().chacha.nonce, &nonce, sizeof nonce);
        auto copy = rng;
        std::array<char, 2> begin{};
        copy.fill(begin);
        if (begin[0] == 0 && begin[1] == 0) {
            found.push_back(rng);
            found.back().state().buffered = size - 1;
        }
    }
    check(C::text, "zeros from another nonce", found[0] != found[1]);
    found[1] = found[0];
    found[1].state().buffered = size - 2;
    check(C::text, "zeros at another place", found[0] != found[1]);
}

void far_streams()
{
    nanorand::Keystream rng(42);
    auto other = rng;
    rng.discard(UINT64_MAX);
    other.state().chacha.counter = (std::uint64_t{1} << 61) - 1;
    for (int count = 0; count < 7; count++) {
        other();
    }
    check("Keystream", "the longest discard", rng == other && rng() == other());
    nanorand::Stream stream(42);
    check("Stream", "the numbers of Keystream", stream() == nanorand::Keystream(42)());
}

// Functions whose words are all rejected after some draws: the state is the number of draws that are left.
struct rejecting_calls {
    using state = nanorand_wyrand;
    static void seed_from_u64(state* rng, std::uint64_t number) { rng->seed = number; }
    static std::uint64_t u64(state* rng) { return rng->seed--; }
    static double f64(state*) { return 0; }
    static void fill_bytes(state*, std::uint8_t*, std::size_t) {}
    template <typename Number>
    static nanorand_status range(state* rng, Number last, Number* number)
    {
        if (rng->seed == 0) {
            return NANORAND_EXHAUSTED;
        }
        rng->seed--;
        *number = last;
        return NANORAND_OK;
    }
    static nanorand_status range_u32(state* rng, std::uint32_t, std::uint32_t last, std::uint32_t* number)
    {
        return range(rng, last, number);
    }
    static nanorand_status range_u64(state* rng, std::uint64_t, std::uint64_t last, std::uint64_t* number)
    {
        return range(rng, last, number);
    }
    static nanorand_status range_i64(state* rng, std::int64_t, std::int64_t last, std::int64_t* number)
    {
        return range(rng, last, number);
    }
    static std::uint64_t below(state* rng, std::uint64_t n)
    {
        std::uint64_t number = n;
        return range(rng, n - 1, &number) == NANORAND_OK ? number : n;
    }
    static nanorand_status extend_sample(state*, std::size_t, std::size_t*, std::size_t, std::size_t, std::size_t*,
                                         std::size_t)
    {
        return NANORAND_EXHAUSTED;
    }
    // Returns its argument as a status.
    static nanorand_status part(state*, std::uint64_t index, std::uint64_t)
    {
        return static_cast<nanorand_status>(index);
    }
};

class Rejecting : public nanorand::detail::generator<Rejecting, rejecting_calls> {
public:
    using generator::generator;
};

// Items whose swap throws after some swaps.
struct Fragile {
    int number;
    static inline int swaps = 0;
    friend void swap(Fragile& left, Fragile& right)
    {
        if (swaps-- == 0) {
            throw std::domain_error("no swap");
        }
        std::swap(left.number, right.number);
    }
};

void exhaustion()
{
    const char* name = "Rejecting";
    using nanorand::exhausted;
    Rejecting rng(0);
    std::vector<int> items{1, 2, 3, 4, 5};
    check(name, "range", throws<exhausted>(rejected, [&] { (void)rng.range(1, 6); }));
    check(name, "its base", throws<std::runtime_error>(rejected, [&] { (void)rng.range(1u, 6u); }));
    check(name, "range of size_t", throws<exhausted>(rejected, [&] { (void)rng.range<std::size_t>(1, 6); }));
    check(name, "try_range", !rng.try_range(1, 6) && !rng.try_range(1u, 6u) && !rng.try_range(1ul, 6ul));
    check(name, "below", throws<exhausted>(rejected, [&] { (void)rng.below(6); }));
    check(name, "choose", throws<exhausted>(rejected, [&] { (void)rng.choose(items); }));
    check(name, "sample", throws<exhausted>(rejected, [&] { (void)rng.sample(6, 2); }));
    check(name, "shuffle", throws<exhausted>(rejected, [&] { rng.shuffle(items); }));
    check(name, "no swap", items == std::vector<int>{1, 2, 3, 4, 5});
    rng = Rejecting(2);
    check(name, "shuffle after two swaps", throws<exhausted>(rejected, [&] { rng.shuffle(items); }));
    check(name, "two swaps stay", items == std::vector<int>{5, 1, 3, 4, 2} && rng == Rejecting(0));
    check(name, "an unknown status",
          throws<std::logic_error>("nanorand: an unknown status", [&] { (void)rng.part(4, 0); }));
    check(name, "a part", throws<nanorand::past_period>(past, [&] { (void)rng.part(3, 0); }));
    std::vector<Fragile> fragile{{1}, {2}, {3}};
    Fragile::swaps = 1;
    rng = Rejecting(9);
    check(name, "a swap that throws", throws<std::domain_error>("no swap", [&] { rng.shuffle(fragile); }));
    check(name, "the swaps before it", fragile[0].number == 3 && fragile[1].number == 2 && fragile[2].number == 1);
}

// Whether the call throws the error of lots with this status and this text.
template <typename Call>
bool is_error(nanorand_lots_status status, const char* text, Call call)
{
    try {
        call();
    } catch (const nanorand::lots::error& error) {
        return error.status() == status && std::strcmp(error.what(), text) == 0;
    } catch (...) {
    }
    return false;
}

void lots()
{
    namespace lots = nanorand::lots;
    static_assert(noexcept(lots::digest({})) && noexcept(std::declval<const lots::error&>().status()));
    const std::string seed = "4 1 6 3 3 2 5 6 1 4 2 6 5 3 1 1 6 2 4 5";
    std::array<std::size_t, 12> places{};
    const auto* bytes = reinterpret_cast<const std::uint8_t*>(seed.data());
    const auto drawn = nanorand_lots_draw(bytes, seed.size(), places.data(), places.size(), 3);
    check("lots", "draw", drawn == NANORAND_LOTS_OK && lots::draw(seed, 12, 3) == std::vector(&places[0], &places[3]));
    const auto drawn_all = nanorand_lots_draw(bytes, seed.size(), places.data(), places.size(), 12);
    check("lots", "all",
          drawn_all == NANORAND_LOTS_OK && lots::draw(seed, 12, 12) == std::vector(places.begin(), places.end()));
    check("lots", "none", lots::draw(seed, 0, 0).empty() && lots::draw(seed, 3, 0).empty());
    std::array<std::uint8_t, 32> digest{};
    nanorand_lots_digest(bytes, seed.size(), digest.data());
    check("lots", "digest", lots::digest(seed) == digest && lots::digest("abc")[0] == 0xba);
    check("lots", "the digest of nothing", lots::digest({})[0] == 0xe3);
    check("lots", "count", lots::count("Ada\nJun\n") == 2 && lots::count("Ada\nJun") == 2 && lots::count("") == 0);
    const char* empty_line = "nanorand: line 2 of the list is empty";
    check("lots", "an empty line",
          is_error(NANORAND_LOTS_EMPTY_LINE, empty_line, [] { (void)lots::count("Ada\n\nJun\n"); }));
    check("lots", "its base", throws<std::runtime_error>(empty_line, [] { (void)lots::count("Ada\n\nJun\n"); }));
    const char* bad_seed = "nanorand: the seed is empty or not valid UTF-8";
    check("lots", "no seed", is_error(NANORAND_LOTS_BAD_SEED, bad_seed, [] { (void)lots::draw("", 3, 1); }));
    check("lots", "no text", is_error(NANORAND_LOTS_BAD_SEED, bad_seed, [] { (void)lots::draw("\xff", 3, 1); }));
    check("lots", "no memory", throws<std::length_error>([] { (void)lots::draw("s", SIZE_MAX, 1); }));
    check("lots", "too few", is_error(NANORAND_LOTS_TOO_FEW, "nanorand: more places are wanted than there are",
                                      [] { (void)lots::draw("s", 3, 4); }));
}

} // namespace

int main()
{
    all<wyrand_test>();
    all<pcg64_test>();
    all<chacha8_test>();
    all<chacha12_test>();
    all<chacha20_test>();
    all<keystream_test>();
    all<stream_test>();
    more<wyrand_test>();
    more<stream_test>();
    parts<wyrand_test>(nanorand_wyrand_part);
    parts<pcg64_test>(nanorand_pcg64_part);
    parts<chacha8_test>(nanorand_chacha8_part);
    parts<chacha12_test>(nanorand_chacha12_part);
    parts<chacha20_test>(nanorand_chacha20_part);
    parts<keystream_test>(nanorand_keystream_part);
    seeds_and_distances();
    blocks<chacha8_test>(nanorand_chacha8_block);
    blocks<chacha12_test>(nanorand_chacha12_block);
    blocks<chacha20_test>(nanorand_chacha20_block);
    keys<chacha8_test>(nanorand_chacha_new_key);
    keys<chacha12_test>(nanorand_chacha_new_key);
    keys<chacha20_test>(nanorand_chacha_new_key);
    keys<keystream_test>(nanorand_keystream_new_key);
    keys<stream_test>(nanorand_stream_new_key);
    streams<keystream_test>(512);
    streams<stream_test>(64);
    streams_of_zeros<keystream_test>(512);
    streams_of_zeros<stream_test>(64);
    far_streams();
    exhaustion();
    lots();
    std::printf("%u passed, %u failed\n", passed, failed);
    return failed == 0 ? 0 : 1;
}
