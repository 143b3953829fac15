/* Choices with replacement, by weight. The choice is exact if the weights are integers. */
#include "native.h"

#include <math.h>

/*
 * The cumulative sums of the weights, as integers or as floats. Without weights both are NULL, and all items are
 * equally likely.
 */
typedef struct {
    size_t count;
    uint64_t *whole;
    double *real;
} Shares;

/* ---- Weights. ---- */

/* Adds a weight, or a count, to the sum, or replaces the sum if cumulative sums are given. Errors use the name. */
static int add_whole(const char *name, PyObject *weight, int summed, uint64_t *sum)
{
    uint64_t number;
    if (take_u64(name, weight, UINT64_MAX, &number) < 0) {
        return -1;
    }
    if (summed ? number < *sum : number > UINT64_MAX - *sum) {
        raise_text("OutOfBounds", summed ? "%s has %llu after %llu" : "%s of %llu after %llu leaves 64 bits",
                   summed ? "cum_weights" : name, (unsigned long long)number, (unsigned long long)*sum);
        return -1;
    }
    *sum = summed ? number : *sum + number;
    return 0;
}

static int add_real(PyObject *weight, int summed, double *sum)
{
    double number = PyFloat_AsDouble(weight);
    if (number == -1.0 && PyErr_Occurred()) {
        return -1;
    }
    double next = summed ? number : *sum + number;
    int falls = summed ? next < *sum : number < 0.0;
    if (!isfinite(next) || falls) {
        raise_text("OutOfBounds", "the weight %R leaves no finite sum above that before it", weight);
        return -1;
    }
    *sum = next;
    return 0;
}

static int read_whole(const char *name, PyObject *weights, int summed, Shares *shares)
{
    uint64_t sum = 0;
    shares->whole = new_array(shares->count, sizeof *shares->whole);
    int read = shares->whole == NULL ? -1 : 0;
    for (size_t i = 0; read == 0 && i < shares->count; i++) {
        read = add_whole(name, PyTuple_GET_ITEM(weights, (Py_ssize_t)i), summed, &sum) < 0 ? -1 : check_signals(i);
        shares->whole[i] = sum;
    }
    return read;
}

static int read_real(PyObject *weights, int summed, Shares *shares)
{
    double sum = 0;
    shares->real = new_array(shares->count, sizeof *shares->real);
    int read = shares->real == NULL ? -1 : 0;
    for (size_t i = 0; read == 0 && i < shares->count; i++) {
        read = add_real(PyTuple_GET_ITEM(weights, (Py_ssize_t)i), summed, &sum) < 0 ? -1 : check_signals(i);
        shares->real[i] = sum;
    }
    return read;
}

static int are_whole(PyObject *weights)
{
    for (Py_ssize_t i = 0; i < PyTuple_GET_SIZE(weights); i++) {
        if (!PyIndex_Check(PyTuple_GET_ITEM(weights, i))) {
            return 0;
        }
    }
    return 1;
}

/* Returns the values of an iterable as a tuple, of which there has to be one for each item. */
static PyObject *listed_for(const char *name, PyObject *values, size_t items)
{
    PyObject *listed = PySequence_Tuple(values);
    if (listed != NULL && (size_t)PyTuple_GET_SIZE(listed) != items) {
        raise_text("WrongLength", "%s has %zd items, not %zu", name, PyTuple_GET_SIZE(listed), items);
        Py_CLEAR(listed);
    }
    return listed;
}

/* Reads the shares from the weights or from their cumulative sums; both may be None. */
static int read_shares(PyObject *weights, PyObject *sums, Shares *shares)
{
    int summed = sums != Py_None;
    if (summed && weights != Py_None) {
        PyErr_SetString(PyExc_TypeError, "choices() takes weights or cum_weights, not both");
        return -1;
    }
    PyObject *given = summed ? sums : weights;
    if (given == Py_None) {
        return 0;
    }
    PyObject *listed = listed_for(summed ? "cum_weights" : "weights", given, shares->count);
    if (listed == NULL) {
        return -1;
    }
    int read = are_whole(listed) ? read_whole("a weight", listed, summed, shares)
                                 : read_real(listed, summed, shares);
    Py_DECREF(listed);
    return read;
}

uint64_t *read_counts(PyObject *counts, size_t items)
{
    Shares shares = {items, NULL, NULL};
    PyObject *listed = listed_for("counts", counts, items);
    if (listed == NULL || read_whole("a count", listed, 0, &shares) < 0) {
        PyMem_Free(shares.whole);
        shares.whole = NULL;
    }
    Py_XDECREF(listed);
    return shares.whole;
}

static int have_none(const Shares *shares)
{
    size_t last = shares->count - 1;
    return shares->count == 0 || (shares->whole != NULL && shares->whole[last] == 0)
           || (shares->real != NULL && shares->real[last] == 0);
}

/* ---- Draws. ---- */

size_t find_share(const uint64_t *sums, size_t items, uint64_t number)
{
    size_t low = 0, high = items - 1;
    while (low < high) {
        size_t middle = low + (high - low) / 2;
        if (sums[middle] > number) {
            high = middle;
        } else {
            low = middle + 1;
        }
    }
    return low;
}

/* Does the same as find_share for floats. A number that was rounded up to the last sum is treated as if it were just below it. */
static size_t find_real(const Shares *shares, double number)
{
    size_t low = 0, high = shares->count - 1;
    const double total = shares->real[high];
    while (low < high) {
        size_t middle = low + (high - low) / 2;
        if (shares->real[middle] > number || shares->real[middle] == total) {
            high = middle;
        } else {
            low = middle + 1;
        }
    }
    return low;
}

static nanorand_status draw_place(Generator *rng, const Shares *shares, size_t *place)
{
    const size_t last = shares->count - 1;
    if (shares->real != NULL) {
        *place = find_real(shares, unit_of(rng->kind->u64(rng->state)) * shares->real[last]);
        return NANORAND_OK;
    }
    const uint64_t greatest = shares->whole == NULL ? last : shares->whole[last] - 1;
    uint64_t number;
    nanorand_status status = rng->kind->range_u64(rng->state, 0, greatest, &number);
    if (status == NANORAND_OK) {
        *place = shares->whole == NULL ? number : find_share(shares->whole, shares->count, number);
    }
    return status;
}

/* The shares of the items, and the places to be drawn. */
typedef struct {
    const Shares *shares;
    size_t *places;
} Choices;

static nanorand_status choose(Generator *rng, void *plan, size_t from, size_t end)
{
    const Choices *choices = plan;
    nanorand_status status = NANORAND_OK;
    for (size_t i = from; status == NANORAND_OK && i < end; i++) {
        status = draw_place(rng, choices->shares, &choices->places[i]);
    }
    return status;
}

/* Returns a list of the items drawn. */
static PyObject *list_of_choices(Generator *rng, PyObject *population, Choices *choices, size_t count)
{
    Draw draw;
    if (begin_draw(rng, count, &draw) < 0) {
        return NULL;
    }
    if (draw_steps(rng, &draw, count, choose, choices) < 0) {
        end_draw(rng, &draw, 0);
        return NULL;
    }
    return end_with_list(rng, &draw, population, choices->places, count);
}

static PyObject *draw_items(Generator *rng, PyObject *population, const Shares *shares, size_t count)
{
    if (count > 0 && have_none(shares)) {
        raise_text("EmptyRange", shares->count == 0 ? "population is empty" : "no item has a weight");
        return NULL;
    }
    Choices choices = {shares, new_array(count, sizeof *choices.places)};
    PyObject *list = choices.places == NULL ? NULL : list_of_choices(rng, population, &choices, count);
    PyMem_Free(choices.places);
    return list;
}

static PyObject *call_choices(PyObject *self, PyObject *const *given, Py_ssize_t placed, PyObject *names)
{
    static const Parameters wanted = {"choices", 1, 2, 4, {"population", "weights", "cum_weights", "k"}};
    PyObject *values[4];
    uint64_t count = 1;
    if (take_arguments(&wanted, given, placed, names, values) < 0 || require_sequence(self, "population", values[0]) < 0
        || (values[3] != NULL && take_u64("k", values[3], PY_SSIZE_T_MAX, &count) < 0)) {
        return NULL;
    }
    Py_ssize_t length = PyObject_Size(values[0]);
    if (length < 0) {
        return NULL;
    }
    Shares shares = {(size_t)length, NULL, NULL};
    PyObject *weights = values[1] == NULL ? Py_None : values[1], *sums = values[2] == NULL ? Py_None : values[2];
    PyObject *drawn = NULL;
    if (read_shares(weights, sums, &shares) == 0) {
        drawn = draw_items((Generator *)self, values[0], &shares, count);
    }
    PyMem_Free(shares.whole);
    PyMem_Free(shares.real);
    return drawn;
}

/* ---- The methods. ---- */

PyDoc_STRVAR(choices_doc,
"choices($self, /, population, weights=None, *, cum_weights=None, k=1)\n"
"--\n"
"\n"
"Return a list of `k` items drawn with replacement, as `random.choices` does.\n"
"\n"
"Without weights, each item is equally likely, as in `choice`. If all weights are integers, the\n"
"choice is exact: it takes a number below their sum, as `below` draws it. Otherwise the weights are\n"
"added as floats, and the choice takes `random()` times their sum, which is nearly exact. An item of\n"
"weight 0 is never drawn.\n"
"\n"
"Parameters\n"
"----------\n"
"population : sequence\n"
"    The items to draw from.\n"
"weights : iterable of numbers, optional\n"
"    One weight for each item.\n"
"cum_weights : iterable of numbers, optional\n"
"    The cumulative sums of the weights, in place of `weights`.\n"
"k : int, optional\n"
"    Number of items to draw. A `k` of 0 draws nothing.\n"
"\n"
"Raises\n"
"------\n"
"EmptyRange\n"
"    If there is no item, or no weight above 0.\n"
"OutOfBounds\n"
"    If a weight or `k` is negative, if the cumulative sums decrease, or if a sum is not finite, or\n"
"    is 2^64 or more for integers.\n"
"WrongLength\n"
"    If there are not as many weights as items.\n"
"Exhausted\n"
"    If 128 words (random integers of 64 bits) in a row were rejected. The words stay consumed.\n"
"\n"
"Notes\n"
"-----\n"
"Each call reads and adds all n weights, which takes O(n), and then O(log n) for each of the `k`\n"
"items. Draw many items by one call.\n"
"\n"
"If the population or a signal handler raises an exception, the state of the generator is restored.\n"
"\n"
"Examples\n"
"--------\n"
">>> from nanorand import WyRand\n"
">>> WyRand.seed_from_u64(6).choices([\"red\", \"green\", \"blue\"], [5, 0, 1], k=6)\n"
"['red', 'red', 'blue', 'red', 'blue', 'red']\n"
">>> WyRand.seed_from_u64(42).choices(\"ab\", [0, 0])\n"
"Traceback (most recent call last):\n"
"nanorand.errors.EmptyRange: no item has a weight\n");

PyMethodDef choices_calls[] = {
    {"choices", CALL(call_choices), METH_FASTCALL | METH_KEYWORDS, choices_doc},
    {NULL, NULL, 0, NULL},
};
