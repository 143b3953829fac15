/*
 * One program with two releases of the library: this one, and one whose symbols and header have another
 * number. tests/c.sh makes the other one, and compares the addresses of all exports.
 *
 * The file is compiled twice. With OTHER_RELEASE it provides the functions of the other release. Without
 * it, it is the program.
 */
#include <stdio.h>

#include "nanorand.h"

typedef uint32_t version_function(void);
typedef uint64_t word_function(nanorand_wyrand *);
typedef nanorand_status shuffle_function(nanorand_pcg64 *, size_t *, size_t);

struct release {
    version_function *version;
    word_function *word;
    shuffle_function *shuffle;
};

#ifdef OTHER_RELEASE

/* Here the structs of both releases are the same. A real program must not mix them. */
struct release other_release(void);

struct release other_release(void)
{
    const struct release release = {nanorand_version, nanorand_wyrand_u64, nanorand_pcg64_shuffle};
    return release;
}

#else

struct release other_release(void);

static unsigned passed = 0;
static unsigned failed = 0;

static void check(const char *name, int holds)
{
    if (holds) {
        passed++;
    } else {
        failed++;
        printf("FAILED %s\n", name);
    }
}

static void check_answers(const struct release *release)
{
    nanorand_wyrand rng = {42};
    nanorand_pcg64 seed = {42, 0};
    size_t items[3] = {0, 1, 2};
    check("the word", release->word(&rng) == UINT64_C(12558987674375533620));
    check("the shuffle", release->shuffle(&seed, items, 3) == NANORAND_OK);
    check("the items", items[0] + items[1] + items[2] == 3);
}

int main(void)
{
    const struct release ours = {nanorand_version, nanorand_wyrand_u64, nanorand_pcg64_shuffle};
    const struct release other = other_release();
    check("two versions", ours.version != other.version);
    check("two words", ours.word != other.word);
    check("two shuffles", ours.shuffle != other.shuffle);
    check_answers(&ours);
    check_answers(&other);
    printf("%u passed, %u failed\n", passed, failed);
    return failed == 0 ? 0 : 1;
}

#endif
