/* Samples without replacement, of places and of items. */
#include "native.h"

/*
 * What a sample is drawn from and into. For a short sample, the table is that of the library. For a long one, it is a
 * set of the places drawn so far: 1 more than each, or 0, in 2^(64 - `shift`) slots.
 */
typedef struct {
    uint64_t count, length;
    size_t *places, *table, room;
    int shift;
    const uint64_t *sums; /* cumulative counts of the items, or NULL if each occurs once */
    size_t items;
} Sample;

/* ---- Tables. ---- */

/* The smallest length for which a table makes the draw faster. */
enum { LEAST_WITH_TABLE = 16 };

/* Makes the library's table: as many items as places, plus a power of two that is no smaller. */
static int make_short_table(Sample *sample)
{
    if (sample->length >= LEAST_WITH_TABLE) {
        size_t chains = 1;
        while (chains < sample->length) {
            chains *= 2;
        }
        sample->room = sample->length + chains;
    }
    sample->table = new_array(sample->room, sizeof *sample->table);
    return sample->table == NULL ? -1 : 0;
}

/* Makes an empty set, at most half of whose slots will be used. The system provides its zeros as they are needed. */
static int make_set(Sample *sample)
{
    sample->room = 1;
    sample->shift = 64;
    while (sample->room / 2 < sample->length) {
        sample->room *= 2;
        sample->shift--;
    }
    sample->table = PyMem_Calloc(sample->room, sizeof *sample->table);
    if (sample->table == NULL) {
        PyErr_NoMemory();
        return -1;
    }
    return 0;
}

/* Adds a number to the set. Returns whether it was not yet there. */
static int add_number(const Sample *sample, uint64_t number)
{
    /* 2^64 divided by the golden ratio, which spreads numbers that follow one another. */
    size_t slot = (number * 0x9E3779B97F4A7C15u) >> sample->shift;
    while (sample->table[slot] != 0) {
        if (sample->table[slot] == number + 1) {
            return 0;
        }
        slot = (slot + 1) % sample->room;
    }
    sample->table[slot] = number + 1;
    return 1;
}

/* ---- Steps. ---- */

static nanorand_status short_sample(Generator *rng, void *plan, size_t from, size_t end)
{
    const Sample *sample = plan;
    return rng->kind->extend_sample(rng->state, sample->count, sample->places, end, from, sample->table, sample->room);
}

/*
 * Makes steps of the library's sample, which is Robert Floyd's algorithm. The library could continue a sample, too, but
 * would link all places before it again, which takes too long without a check for signals.
 */
static nanorand_status long_sample(Generator *rng, void *plan, size_t from, size_t end)
{
    const Sample *sample = plan;
    nanorand_status status = NANORAND_OK;
    for (size_t i = from; status == NANORAND_OK && i < end; i++) {
        const uint64_t last = sample->count - sample->length + i;
        uint64_t number;
        status = rng->kind->range_u64(rng->state, 0, last, &number);
        if (status == NANORAND_OK) {
            if (!add_number(sample, number)) {
                number = last;
                add_number(sample, last);
            }
            sample->places[i] = number;
        }
    }
    return status;
}

/* Replaces each place among the repeated items by that of its item. */
static nanorand_status find_items(Generator *Py_UNUSED(rng), void *plan, size_t from, size_t end)
{
    const Sample *sample = plan;
    for (size_t i = from; i < end; i++) {
        sample->places[i] = find_share(sample->sums, sample->items, sample->places[i]);
    }
    return NANORAND_OK;
}

/* ---- Draws. ---- */

/* Draws the places in a turn that has begun. Returns 0, or -1 and an exception. */
static int draw_places(Generator *rng, Draw *draw, Sample *sample)
{
    Steps *steps = sample->length <= SHORT ? short_sample : long_sample;
    if (draw_steps(rng, draw, sample->length, steps, sample) < 0) {
        return -1;
    }
    PyMem_Free(sample->table);
    sample->table = NULL;
    return sample->sums == NULL ? 0 : draw_steps(rng, draw, sample->length, find_items, sample);
}

/* Returns a list of the sample's items, or of its places if `items` is NULL. */
static PyObject *list_of_sample(Generator *rng, PyObject *items, Sample *sample)
{
    Draw draw;
    if (begin_draw(rng, sample->length, &draw) < 0) {
        return NULL;
    }
    if (draw_places(rng, &draw, sample) < 0) {
        end_draw(rng, &draw, 0);
        return NULL;
    }
    return end_with_list(rng, &draw, items, sample->places, sample->length);
}

static PyObject *draw_sample(Generator *rng, PyObject *items, Sample *sample)
{
    if (sample->length > sample->count) {
        raise_text("EmptyRange", "no sample of %llu from %llu", (unsigned long long)sample->length,
                   (unsigned long long)sample->count);
        return NULL;
    }
    PyObject *list = NULL;
    sample->places = new_array(sample->length, sizeof *sample->places);
    if (sample->places != NULL && (sample->length <= SHORT ? make_short_table : make_set)(sample) == 0) {
        list = list_of_sample(rng, items, sample);
    }
    PyMem_Free(sample->table);
    PyMem_Free(sample->places);
    return list;
}

static int is_given(PyObject *value)
{
    return value != NULL && value != Py_None;
}

/* Reads the length of a sample, which has two names. The other one may be None. */
static int take_length(const char *call, PyObject *k, PyObject *length, uint64_t *number)
{
    if (k == NULL && length == NULL) {
        PyErr_Format(PyExc_TypeError, "%s() missing required argument 'k'", call);
        return -1;
    }
    if (is_given(k) && is_given(length)) {
        PyErr_Format(PyExc_TypeError, "%s() takes k or length, which is the same, not both", call);
        return -1;
    }
    if (k == NULL || is_given(length)) {
        return take_u64("length", length, UINT64_MAX, number);
    }
    return take_u64("k", k, UINT64_MAX, number);
}

static PyObject *call_sample(PyObject *self, PyObject *const *given, Py_ssize_t placed, PyObject *names)
{
    static const Parameters wanted = {"sample", 1, 2, 4, {"population", "k", "counts", "length"}};
    PyObject *values[4];
    if (take_arguments(&wanted, given, placed, names, values) < 0
        || require_sequence(self, "population", values[0]) < 0) {
        return NULL;
    }
    Py_ssize_t items = PyObject_Size(values[0]);
    Sample sample = {.count = (uint64_t)items, .items = (size_t)items};
    if (items < 0 || take_length("sample", values[1], values[3], &sample.length) < 0) {
        return NULL;
    }
    if (!is_given(values[2])) {
        return draw_sample((Generator *)self, values[0], &sample);
    }
    uint64_t *sums = read_counts(values[2], sample.items);
    if (sums == NULL) {
        return NULL;
    }
    sample.sums = sums;
    sample.count = sample.items == 0 ? 0 : sums[sample.items - 1];
    PyObject *list = draw_sample((Generator *)self, values[0], &sample);
    PyMem_Free(sums);
    return list;
}

static PyObject *call_sample_below(PyObject *self, PyObject *const *given, Py_ssize_t placed, PyObject *names)
{
    static const Parameters wanted = {"sample_below", 1, 2, 3, {"count", "k", "length"}};
    PyObject *values[3];
    Sample sample = {.sums = NULL};
    if (take_arguments(&wanted, given, placed, names, values) < 0
        || take_u64("count", values[0], UINT64_MAX, &sample.count) < 0
        || take_length("sample_below", values[1], values[2], &sample.length) < 0) {
        return NULL;
    }
    return draw_sample((Generator *)self, NULL, &sample);
}

/* ---- The methods. ---- */

PyDoc_STRVAR(sample_doc,
"sample($self, /, population, k=None, *, counts=None, length=None)\n"
"--\n"
"\n"
"Return a list of `k` items of the population, drawn without replacement.\n"
"\n"
"Each set of items (by position) is produced by the same number of lists of words (random integers of\n"
"64 bits). Unlike that of `random.sample`, the order of the sample is not uniform: shuffle it if that\n"
"matters.\n"
"\n"
"Parameters\n"
"----------\n"
"population : sequence\n"
"    The items to draw from. Equal items at different positions are different members.\n"
"k : int\n"
"    Number of items to draw. A `k` of 0 draws nothing.\n"
"counts : iterable of int, optional\n"
"    How often each item occurs: `sample([\"a\", \"b\"], 3, counts=[2, 5])` draws from 2 times \"a\" and\n"
"    then 5 times \"b\". The positions are those of `sample_below` of the sum.\n"
"length : int\n"
"    Another name of `k`. Exactly one of them is required.\n"
"\n"
"Raises\n"
"------\n"
"EmptyRange\n"
"    If the population has fewer than `k` items.\n"
"OutOfBounds\n"
"    If `k` is negative, or 2^64 or more, or if a count is negative, or if the sum of the counts is\n"
"    2^64 or more.\n"
"WrongLength\n"
"    If there are not as many counts as items.\n"
"Exhausted\n"
"    If 128 words in a row were rejected for one item. The words stay consumed.\n"
"\n"
"Notes\n"
"-----\n"
"The expected time is O(k). If `k` is a large part of the population, shuffle a list and take its\n"
"beginning instead. Counts take O(n) for n items, and then O(log n) for each item drawn.\n"
"\n"
"If a signal handler raises an exception, the state of the generator is restored.\n"
"\n"
"Examples\n"
"--------\n"
">>> from nanorand import WyRand\n"
">>> WyRand.seed_from_u64(42).sample(\"abcdefghij\", 3)\n"
"['c', 'h', 'g']\n"
">>> WyRand.seed_from_u64(42).sample([\"red\", \"blue\"], 4, counts=[3, 10**9])\n"
"['blue', 'blue', 'blue', 'blue']\n");

PyDoc_STRVAR(sample_below_doc,
"sample_below($self, /, count, k=None, *, length=None)\n"
"--\n"
"\n"
"Return a list of `k` different integers below `count`, drawn without replacement.\n"
"\n"
"These are the positions of a sample from a population of `count` items. Their order is not uniform.\n"
"The expected time is O(k).\n"
"\n"
"Parameters\n"
"----------\n"
"count : int\n"
"    Size of the population, from 0 to 2^64 - 1.\n"
"k : int\n"
"    Number of integers to draw, from 0 to 2^64 - 1. A `k` of 0 draws nothing.\n"
"length : int\n"
"    Another name of `k`. Exactly one of them is required.\n"
"\n"
"Raises\n"
"------\n"
"EmptyRange\n"
"    If `k` is greater than `count`.\n"
"OutOfBounds\n"
"    If `count` or `k` is negative, or 2^64 or more.\n"
"Exhausted\n"
"    If 128 words (random integers of 64 bits) in a row were rejected for one integer. The words stay\n"
"    consumed.\n"
"\n"
"Notes\n"
"-----\n"
"If a signal handler raises an exception, the state of the generator is restored.\n"
"\n"
"Examples\n"
"--------\n"
">>> from nanorand import WyRand\n"
">>> WyRand.seed_from_u64(42).sample_below(10, 3)\n"
"[2, 7, 6]\n");

PyMethodDef sample_calls[] = {
    {"sample", CALL(call_sample), METH_FASTCALL | METH_KEYWORDS, sample_doc},
    {"sample_below", CALL(call_sample_below), METH_FASTCALL | METH_KEYWORDS, sample_below_doc},
    {NULL, NULL, 0, NULL},
};
