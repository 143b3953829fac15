// Tests that nanorand.hpp passes lengths above 2^32 on as they are, and what each status of lots throws.
// No memory of such a length is needed: what is called here, in place of the library, only notes the length.
#include <cstdio>
#include <string>
#include <string_view>

#include <sys/mman.h>

#include "nanorand.hpp"

namespace {

unsigned passed = 0;
unsigned failed = 0;

void check(const char* name, bool holds)
{
    if (holds) {
        passed++;
    } else {
        failed++;
        std::printf("FAILED %s\n", name);
    }
}

constexpr std::size_t length = (std::size_t{1} << 32) + 5;

// The last length, and the status that a draw by lot returns.
std::size_t noted = 0;
nanorand_lots_status status_of_draws = NANORAND_LOTS_OK;

} // namespace

void nanorand_lots_digest(const std::uint8_t*, std::size_t text_length, std::uint8_t*)
{
    noted = text_length;
}

nanorand_lots_status nanorand_lots_count(const std::uint8_t*, std::size_t list_length, std::size_t* number)
{
    noted = list_length;
    *number = list_length;
    return NANORAND_LOTS_OK;
}

nanorand_lots_status nanorand_lots_draw(const std::uint8_t*, std::size_t seed_length, std::size_t*, std::size_t,
                                        std::size_t)
{
    noted = seed_length;
    return status_of_draws;
}

namespace {

// A generator that notes how many bytes it is to fill, or how many numbers there are to draw from, and then rejects all
// words.
struct noting_calls {
    using state = nanorand_wyrand;
    static void seed_from_u64(state*, std::uint64_t) {}
    static void fill_bytes(state*, std::uint8_t*, std::size_t bytes) { noted = bytes; }
    static nanorand_status range_i64(state*, std::int64_t first, std::int64_t last, std::int64_t*)
    {
        noted = static_cast<std::size_t>(last - first) + 1;
        return NANORAND_EXHAUSTED;
    }
    static std::uint64_t below(state*, std::uint64_t n)
    {
        noted = n;
        return n;
    }
    static nanorand_status extend_sample(state*, std::size_t population, std::size_t*, std::size_t, std::size_t,
                                         std::size_t*, std::size_t)
    {
        noted = population;
        return NANORAND_EXHAUSTED;
    }
};

class Noting : public nanorand::detail::generator<Noting, noting_calls> {
public:
    using generator::generator;
};

// A container of `length` bytes.
struct Bytes {
    char* address;
    char* data() const { return address; }
    char* begin() const { return address; }
    char* end() const { return address + length; }
    std::size_t size() const { return length; }
};

// Whether the call notes the length.
template <typename Call>
bool notes(Call call)
{
    noted = 0;
    try {
        call();
    } catch (const nanorand::exhausted&) {
    }
    return noted == length;
}

// What a draw by lot throws for the status: its text, or an empty one.
std::string text_for(nanorand_lots_status status)
{
    status_of_draws = status;
    try {
        (void)nanorand::lots::draw("seed", 3, 1);
    } catch (const nanorand::lots::error& error) {
        return error.status() == status ? error.what() : "another status";
    }
    return "";
}

void lengths(Bytes bytes)
{
    Noting rng(0);
    const std::string_view text(bytes.address, length);
    check("fill of an address", notes([&] { rng.fill(bytes.address, length); }));
    check("fill of a container", notes([&] { rng.fill(bytes); }));
    check("shuffle of iterators", notes([&] { rng.shuffle(bytes.begin(), bytes.end()); }));
    check("shuffle of a container", notes([&] { rng.shuffle(bytes); }));
    check("choose", notes([&] { (void)rng.choose(bytes); }));
    check("below", notes([&] { (void)rng.below(length); }));
    check("sample", notes([&] { (void)rng.sample(length, 3); }));
    check("digest", notes([&] { (void)nanorand::lots::digest(text); }));
    check("count", notes([&] { (void)nanorand::lots::count(text); }));
    check("the number of entrants", nanorand::lots::count(text) == length);
    check("the length of a seed", notes([&] { (void)nanorand::lots::draw(text, 3, 1); }));
}

void statuses()
{
    check("success", text_for(NANORAND_LOTS_OK).empty());
    check("a bad seed", text_for(NANORAND_LOTS_BAD_SEED) == "nanorand: the seed is empty or not valid UTF-8");
    check("too few", text_for(NANORAND_LOTS_TOO_FEW) == "nanorand: more places are wanted than there are");
    check("exhausted", text_for(NANORAND_LOTS_EXHAUSTED) == "nanorand: 128 words in a row were rejected");
}

} // namespace

int main()
{
    // Addresses without memory.
    void* address = mmap(nullptr, length, PROT_NONE, MAP_PRIVATE | MAP_ANONYMOUS | MAP_NORESERVE, -1, 0);
    if (address == MAP_FAILED) {
        std::perror("mmap");
        return 1;
    }
    lengths(Bytes{static_cast<char*>(address)});
    statuses();
    std::printf("%u passed, %u failed\n", passed, failed);
    return failed == 0 ? 0 : 1;
}
