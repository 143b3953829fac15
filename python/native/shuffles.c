/* Shuffles of lists and of other mutable sequences. */
#include "native.h"

/* ---- Steps. ---- */

/* The numbers that are shuffled, and whether it is the shuffle of nanorand 0.7.0. */
typedef struct {
    size_t *numbers, count;
    int full;
} Shuffle;

/* The library's shuffle. */
static nanorand_status permute(Generator *rng, int full, size_t *numbers, size_t count)
{
    return (full ? rng->kind->shuffle_full : rng->kind->shuffle)(rng->state, numbers, count);
}

/* How many places are drawn before their numbers are swapped, so that the numbers are in the cache by then. */
enum { AHEAD = 32 };

/* Draws the places with which `count` places from `first` on are swapped. Sets how many were drawn. */
static nanorand_status draw_others(Generator *rng, const Shuffle *shuffle, size_t first, size_t count, uint64_t *others,
                           size_t *drawn)
{
    nanorand_status status = NANORAND_OK;
    for (*drawn = 0; *drawn < count; ++*drawn) {
        uint64_t least = shuffle->full ? 0 : first + *drawn;
        status = rng->kind->range_u64(rng->state, least, shuffle->count - 1, &others[*drawn]);
        if (status != NANORAND_OK) {
            break;
        }
        __builtin_prefetch(&shuffle->numbers[others[*drawn]], 1);
    }
    return status;
}

/* Makes some steps of the library's shuffle, which itself makes all of them at once. */
static nanorand_status long_shuffle(Generator *rng, void *plan, size_t from, size_t end)
{
    const Shuffle *shuffle = plan;
    size_t *numbers = shuffle->numbers, drawn;
    uint64_t others[AHEAD];
    nanorand_status status = NANORAND_OK;
    for (size_t place = from; status == NANORAND_OK && place < end; place += drawn) {
        size_t count = end - place < AHEAD ? end - place : AHEAD;
        status = draw_others(rng, shuffle, place, count, others, &drawn);
        for (size_t i = 0; i < drawn; i++) {
            size_t moved = numbers[place + i];
            numbers[place + i] = numbers[others[i]];
            numbers[others[i]] = moved;
        }
    }
    return status;
}

/* Makes all steps in one call of the library, which is faster, but ends only after them. */
static nanorand_status short_shuffle(Generator *rng, void *plan, size_t Py_UNUSED(from), size_t Py_UNUSED(end))
{
    const Shuffle *shuffle = plan;
    return permute(rng, shuffle->full, shuffle->numbers, shuffle->count);
}

/* The most numbers that the library shuffles in a few hundredths of a second. */
enum { MOST_AT_ONCE = 1 << 17 };

/* Shuffles the numbers. Returns a status, or -1 and an exception. */
static int shuffle_numbers(Generator *rng, Draw *draw, Shuffle *shuffle)
{
    if (shuffle->count <= MOST_AT_ONCE) {
        return make_steps(rng, draw, 1, short_shuffle, shuffle);
    }
    return make_steps(rng, draw, shuffle->count, long_shuffle, shuffle);
}

/* Writes the numbers from `from` to before `end`, each at its own place. */
static nanorand_status number_steps(Generator *Py_UNUSED(rng), void *plan, size_t from, size_t end)
{
    const Shuffle *shuffle = plan;
    for (size_t place = from; place < end; place++) {
        shuffle->numbers[place] = place;
    }
    return NANORAND_OK;
}

/* ---- Lists. A short list is shuffled where it is, and a long one as a copy, which then replaces the items. ---- */

static int is_changed(PyObject *list, size_t length)
{
    if ((size_t)PyList_GET_SIZE(list) == length) {
        return 0;
    }
    PyErr_SetString(PyExc_ValueError, "list modified during shuffle");
    return 1;
}

static PyObject **items_of(PyObject *list)
{
    return ((PyListObject *)list)->ob_item;
}

/* Does not call into Python, so the shuffle is atomic. */
static nanorand_status shuffle_in_place(Generator *rng, PyObject *list, int full)
{
    return permute(rng, full, (size_t *)items_of(list), (size_t)PyList_GET_SIZE(list));
}

/* Copies the addresses of the items twice. Signal handlers may change the list meanwhile, which is noticed later. */
static int copy_items(PyObject *list, size_t length, size_t *before, size_t *numbers)
{
    for (size_t i = 0; i < length; i++) {
        before[i] = numbers[i] = (size_t)PyList_GET_ITEM(list, (Py_ssize_t)i);
        if (check_signals(i) < 0 || is_changed(list, length)) {
            return -1;
        }
    }
    return 0;
}

static int is_same(PyObject *list, const size_t *before, size_t length)
{
    PyObject *const *items = items_of(list);
    for (size_t i = 0; i < length; i++) {
        if ((size_t)items[i] != before[i]) {
            return 0;
        }
    }
    return 1;
}

/*
 * Replaces the items of a list by their shuffled copy, in one moment. If an item was replaced after it was copied, the
 * shuffle is repeated in the list, from the same state. Returns the status of the shuffle.
 */
static int put_numbers(Generator *rng, PyObject *list, const Draw *draw, const Shuffle *shuffle, const size_t *before,
                       int status)
{
    if (!is_same(list, before, shuffle->count)) {
        restore_state(rng, &draw->before);
        return shuffle_in_place(rng, list, shuffle->full);
    }
    PyObject **items = items_of(list);
    for (size_t i = 0; i < shuffle->count; i++) {
        items[i] = (PyObject *)shuffle->numbers[i];
    }
    return status;
}

/* Shuffles a long list in its turn. Returns a status, or -1 and an exception. */
static int permute_long(Generator *rng, PyObject *list, Draw *draw, Shuffle *shuffle, size_t *before)
{
    if (copy_items(list, shuffle->count, before, shuffle->numbers) < 0) {
        return -1;
    }
    int status = shuffle_numbers(rng, draw, shuffle);
    if (status < 0 || is_changed(list, shuffle->count)) {
        return -1;
    }
    return put_numbers(rng, list, draw, shuffle, before, status);
}

static PyObject *permute_list(Generator *rng, PyObject *list, int full)
{
    Draw draw;
    if (begin_draw(rng, (size_t)PyList_GET_SIZE(list), &draw) < 0) {
        return NULL;
    }
    if (!draw.turn.held) {
        return none_of(shuffle_in_place(rng, list, full));
    }
    Shuffle shuffle = {.count = (size_t)PyList_GET_SIZE(list), .full = full};
    shuffle.numbers = new_array(shuffle.count, sizeof *shuffle.numbers);
    size_t *before = shuffle.numbers == NULL ? NULL : new_array(shuffle.count, sizeof *before);
    int status = before == NULL ? -1 : permute_long(rng, list, &draw, &shuffle, before);
    end_draw(rng, &draw, status < 0);
    PyMem_Free(shuffle.numbers);
    PyMem_Free(before);
    return status < 0 ? NULL : none_of((nanorand_status)status);
}

/* ---- Other sequences: their places are shuffled, and then items are assigned to the places. ---- */

/* Returns whether the items are objects of their own. A row of a matrix is a new view at each reading. */
static int is_owned(PyObject *items)
{
    PyObject *one = item_at(items, 0);
    if (one == NULL) {
        return -1;
    }
    int owned = 1, mutable = is_mutable(one);
    if (mutable != 0) {
        PyObject *again = mutable < 0 ? NULL : item_at(items, 0);
        owned = again == NULL ? -1 : again == one;
        Py_XDECREF(again);
    }
    Py_DECREF(one);
    return owned;
}

static int require_owned(PyObject *self, const char *name, PyObject *items)
{
    if (require_mutable(self, name, items) < 0) {
        return -1;
    }
    Py_ssize_t length = PyObject_Size(items);
    if (length < 2) {
        return length < 0 ? -1 : 0;
    }
    int owned = is_owned(items);
    if (owned == 0) {
        PyErr_Format(PyExc_TypeError, "%s is a %s, whose items are views of it: shuffle the indices instead", name,
                     type_name(items));
    }
    return owned == 1 ? 0 : -1;
}

static int put_item(PyObject *items, size_t place, PyObject *item)
{
    const PySequenceMethods *calls = Py_TYPE(items)->tp_as_sequence;
    if (is_built_in(items) && calls->sq_ass_item != NULL) {
        return PySequence_SetItem(items, (Py_ssize_t)place, item);
    }
    PyObject *index = PyLong_FromSize_t(place);
    int put = index == NULL ? -1 : PyObject_SetItem(items, index, item);
    Py_XDECREF(index);
    return put;
}

/* Assigns the first items as they were before, wherever that does not fail. The exception that is set remains. */
static void put_back(PyObject *items, PyObject *before, size_t count)
{
    PyObject *type, *value, *trace;
    PyErr_Fetch(&type, &value, &trace);
    for (size_t place = 0; place < count; place++) {
        if (put_item(items, place, PyTuple_GET_ITEM(before, (Py_ssize_t)place)) < 0) {
            PyErr_Clear();
        }
    }
    PyErr_Restore(type, value, trace);
}

/* Assigns the items in the order of the places, or puts all of them back if that fails. */
static int put_items(PyObject *items, PyObject *before, const Shuffle *shuffle)
{
    for (size_t place = 0; place < shuffle->count; place++) {
        PyObject *item = PyTuple_GET_ITEM(before, (Py_ssize_t)shuffle->numbers[place]);
        if (put_item(items, place, item) < 0 || check_signals(place) < 0) {
            put_back(items, before, place + 1);
            return -1;
        }
    }
    return 0;
}

/* Shuffles the places in a turn, and then moves the items. After Exhausted, it moves those swapped so far. */
static PyObject *permute_places(Generator *rng, PyObject *items, PyObject *before, Shuffle *shuffle)
{
    Draw draw;
    if (begin_draw(rng, shuffle->count, &draw) < 0) {
        return NULL;
    }
    int numbered = make_steps(rng, &draw, shuffle->count, number_steps, shuffle);
    int status = numbered < 0 ? -1 : shuffle_numbers(rng, &draw, shuffle);
    if (!is_built_in(items)) {
        end_turn(rng, &draw.turn);
    }
    if (status >= 0 && put_items(items, before, shuffle) < 0) {
        status = -1;
    }
    end_draw(rng, &draw, status < 0);
    return status < 0 ? NULL : none_of((nanorand_status)status);
}

/* Returns the items as a tuple, which no other code can change. */
static PyObject *items_before(PyObject *items, size_t count)
{
    PyObject *list = first_items(items, count);
    PyObject *tuple = list == NULL ? NULL : PyList_AsTuple(list);
    Py_XDECREF(list);
    return tuple;
}

static PyObject *permute_items(Generator *rng, PyObject *items, int full)
{
    Py_ssize_t length = require_owned((PyObject *)rng, "items", items) < 0 ? -1 : PyObject_Size(items);
    PyObject *before = length < 0 ? NULL : items_before(items, (size_t)length);
    if (before == NULL) {
        return NULL;
    }
    Shuffle shuffle = {.count = (size_t)length, .full = full};
    shuffle.numbers = new_array(shuffle.count, sizeof *shuffle.numbers);
    PyObject *done = shuffle.numbers == NULL ? NULL : permute_places(rng, items, before, &shuffle);
    PyMem_Free(shuffle.numbers);
    Py_DECREF(before);
    return done;
}

/* ---- The methods. ---- */

static PyObject *call_shuffle(PyObject *self, PyObject *const *given, Py_ssize_t placed, PyObject *names)
{
    static const Parameters wanted = {"shuffle", 1, 1, 1, {"items"}};
    PyObject *items;
    if (take_arguments(&wanted, given, placed, names, &items) < 0) {
        return NULL;
    }
    return (PyList_CheckExact(items) ? permute_list : permute_items)((Generator *)self, items, 0);
}

static PyObject *call_shuffle_full(PyObject *self, PyObject *const *given, Py_ssize_t placed, PyObject *names)
{
    static const Parameters wanted = {"shuffle_full", 1, 1, 1, {"items"}};
    PyObject *items;
    if (take_arguments(&wanted, given, placed, names, &items) < 0) {
        return NULL;
    }
    return (PyList_CheckExact(items) ? permute_list : permute_items)((Generator *)self, items, 1);
}

PyDoc_STRVAR(shuffle_doc,
"shuffle($self, /, items)\n"
"--\n"
"\n"
"Shuffle a list, or another mutable sequence, in place. An empty list draws nothing.\n"
"\n"
"Each permutation is produced by the same number of lists of words (random integers of 64 bits).\n"
"\n"
"Raises\n"
"------\n"
"Exhausted\n"
"    If 128 words in a row were rejected for one item. The swaps before that stay, and the words stay\n"
"    consumed.\n"
"TypeError\n"
"    If the items are views of the sequence, such as the rows of a matrix: shuffle the indices\n"
"    instead.\n"
"ValueError\n"
"    If another thread or a signal handler changes the length of a list meanwhile. This can only\n"
"    happen to a list of more than 8,192 items. The shuffle has no effect then.\n"
"\n"
"Notes\n"
"-----\n"
"If the sequence raises an exception when an item is assigned, or if a signal handler raises one, the\n"
"items are put back, the state of the generator is restored, and the exception propagates. A place\n"
"keeps what is there if the sequence raises another exception when its item is put back.\n"
"\n"
"Examples\n"
"--------\n"
">>> from nanorand import WyRand\n"
">>> digits = list(range(10))\n"
">>> WyRand.seed_from_u64(42).shuffle(digits)\n"
">>> digits\n"
"[3, 8, 7, 0, 2, 5, 9, 1, 4, 6]\n");

PyDoc_STRVAR(shuffle_full_doc,
"shuffle_full($self, /, items)\n"
"--\n"
"\n"
"Shuffle a list in place as the Rust crate nanorand 0.7.0 does. This is biased for three or more\n"
"items.\n"
"\n"
"Raises\n"
"------\n"
"Exhausted\n"
"    If 128 words (random integers of 64 bits) in a row were rejected for one item. The swaps before\n"
"    that stay, and the words stay consumed.\n"
"TypeError, ValueError\n"
"    As for `shuffle`.\n"
"\n"
"Notes\n"
"-----\n"
"After an exception of the sequence or of a signal handler, everything is unchanged, as for\n"
"`shuffle`.\n"
"\n"
"Examples\n"
"--------\n"
">>> from nanorand import WyRand\n"
">>> digits = list(range(10))\n"
">>> WyRand.seed_from_u64(42).shuffle_full(digits)\n"
">>> digits\n"
"[4, 5, 6, 3, 7, 8, 1, 9, 0, 2]\n");

PyMethodDef shuffle_calls[] = {
    {"shuffle", CALL(call_shuffle), METH_FASTCALL | METH_KEYWORDS, shuffle_doc},
    {"shuffle_full", CALL(call_shuffle_full), METH_FASTCALL | METH_KEYWORDS, shuffle_full_doc},
    {NULL, NULL, 0, NULL},
};
