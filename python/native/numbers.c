/* The methods that draw one number, or bytes. */
#include "native.h"

/* ---- Words and bytes. ---- */

static PyObject *call_u64(PyObject *self, PyObject *Py_UNUSED(nothing))
{
    Generator *rng = (Generator *)self;
    return ready(rng) < 0 ? NULL : PyLong_FromUnsignedLongLong(rng->kind->u64(rng->state));
}

static PyObject *call_random(PyObject *self, PyObject *Py_UNUSED(nothing))
{
    Generator *rng = (Generator *)self;
    return ready(rng) < 0 ? NULL : PyFloat_FromDouble(unit_of(rng->kind->u64(rng->state)));
}

PyObject *draw_bytes(Generator *rng, uint64_t length)
{
    if (length > PY_SSIZE_T_MAX / 2) {
        return PyErr_NoMemory();
    }
    PyObject *drawn = PyBytes_FromStringAndSize(NULL, (Py_ssize_t)length);
    Turn turn;
    if (drawn == NULL || begin_turn(rng, length, &turn) < 0) {
        Py_XDECREF(drawn);
        return NULL;
    }
    rng->kind->fill_bytes(rng->state, (uint8_t *)PyBytes_AS_STRING(drawn), length);
    end_turn(rng, &turn);
    return drawn;
}

static PyObject *call_bytes(PyObject *self, PyObject *const *given, Py_ssize_t placed, PyObject *names)
{
    static const Parameters wanted = {"bytes", 1, 1, 1, {"length"}};
    PyObject *value;
    uint64_t length;
    if (take_arguments(&wanted, given, placed, names, &value) < 0
        || take_u64("length", value, PY_SSIZE_T_MAX, &length) < 0) {
        return NULL;
    }
    return draw_bytes((Generator *)self, length);
}

/* ---- Numbers from a range. ---- */

static PyObject *draw_u64(Generator *rng, uint64_t first, uint64_t last)
{
    uint64_t number;
    if (ready(rng) < 0) {
        return NULL;
    }
    nanorand_status status = rng->kind->range_u64(rng->state, first, last, &number);
    if (status != NANORAND_OK) {
        raise_status(status);
        return NULL;
    }
    return PyLong_FromUnsignedLongLong(number);
}

static PyObject *draw_i64(Generator *rng, int64_t first, int64_t last)
{
    int64_t number;
    if (ready(rng) < 0) {
        return NULL;
    }
    nanorand_status status = rng->kind->range_i64(rng->state, first, last, &number);
    if (status != NANORAND_OK) {
        raise_status(status);
        return NULL;
    }
    return PyLong_FromLongLong(number);
}

/* Sets the greatest number below `end`, where `end` is at most 2^64. */
static int last_below(PyObject *end, uint64_t *last)
{
    Whole whole;
    nanorand_pcg64 wide;
    int fits = fits_whole(end, &whole);
    if (fits && !whole.negative && whole.bits != 0) {
        *last = whole.bits - 1;
        return 0;
    }
    if (fits) {
        raise_text("EmptyRange", "no number below %lld", (long long)whole.bits);
        return -1;
    }
    fits = halves_of(end, &wide);
    if (fits == 1 && wide.high == 1 && wide.low == 0) {
        *last = UINT64_MAX;
        return 0;
    }
    if (fits >= 0) {
        raise_out_of_bounds("end", end, "-9223372036854775808..=18446744073709551616");
    }
    return -1;
}

static PyObject *call_below(PyObject *self, PyObject *const *given, Py_ssize_t placed, PyObject *names)
{
    static const Parameters wanted = {"below", 1, 1, 1, {"end"}};
    PyObject *value;
    if (take_arguments(&wanted, given, placed, names, &value) < 0) {
        return NULL;
    }
    PyObject *end = take_index("end", value);
    uint64_t last;
    int taken = end == NULL ? -1 : last_below(end, &last);
    Py_XDECREF(end);
    return taken < 0 ? NULL : draw_u64((Generator *)self, 0, last);
}

/* Reads both bounds of a range, and checks that the range is not empty. */
static int take_bounds(const Parameters *wanted, PyObject *const *values, Whole *first, Whole *last)
{
    if (take_whole(wanted->names[0], values[0], INT64_MIN, UINT64_MAX, first) < 0
        || take_whole(wanted->names[1], values[1], INT64_MIN, UINT64_MAX, last) < 0) {
        return -1;
    }
    if (is_above(*first, *last)) {
        raise_empty(*first, *last);
        return -1;
    }
    if (first->negative && !last->negative && last->bits > INT64_MAX) {
        raise_text("OutOfBounds", "%s is %llu, not in -9223372036854775808..=9223372036854775807, as %s is negative",
                   wanted->names[1], (unsigned long long)last->bits, wanted->names[0]);
        return -1;
    }
    return 0;
}

static PyObject *draw_between(PyObject *self, const Parameters *wanted, PyObject *const *values)
{
    Whole first, last;
    if (take_bounds(wanted, values, &first, &last) < 0) {
        return NULL;
    }
    if (first.negative) {
        return draw_i64((Generator *)self, (int64_t)first.bits, (int64_t)last.bits);
    }
    return draw_u64((Generator *)self, first.bits, last.bits);
}

static PyObject *call_range(PyObject *self, PyObject *const *given, Py_ssize_t placed, PyObject *names)
{
    static const Parameters wanted = {"range", 2, 2, 2, {"first", "last"}};
    PyObject *values[2];
    return take_arguments(&wanted, given, placed, names, values) < 0 ? NULL : draw_between(self, &wanted, values);
}

static PyObject *call_randint(PyObject *self, PyObject *const *given, Py_ssize_t placed, PyObject *names)
{
    static const Parameters wanted = {"randint", 2, 2, 2, {"a", "b"}};
    PyObject *values[2];
    return take_arguments(&wanted, given, placed, names, values) < 0 ? NULL : draw_between(self, &wanted, values);
}

static PyObject *call_range32(PyObject *self, PyObject *const *given, Py_ssize_t placed, PyObject *names)
{
    static const Parameters wanted = {"range32", 2, 2, 2, {"first", "last"}};
    Generator *rng = (Generator *)self;
    PyObject *values[2];
    Whole first, last;
    if (take_arguments(&wanted, given, placed, names, values) < 0
        || take_whole("first", values[0], 0, UINT32_MAX, &first) < 0
        || take_whole("last", values[1], 0, UINT32_MAX, &last) < 0) {
        return NULL;
    }
    if (is_above(first, last)) {
        raise_empty(first, last);
        return NULL;
    }
    uint32_t number;
    if (ready(rng) < 0) {
        return NULL;
    }
    nanorand_status status = rng->kind->range_u32(rng->state, (uint32_t)first.bits, (uint32_t)last.bits, &number);
    if (status != NANORAND_OK) {
        raise_status(status);
        return NULL;
    }
    return PyLong_FromUnsignedLong(number);
}

/* ---- Numbers between two floats. ---- */

/* Returns `a` + (`b` - `a`) * `unit`, as Python computes it: ints are subtracted exactly. */
static PyObject *between(PyObject *a, PyObject *width, double unit)
{
    PyObject *part = PyFloat_FromDouble(unit);
    PyObject *distance = part == NULL ? NULL : PyNumber_Multiply(width, part);
    PyObject *number = distance == NULL ? NULL : PyNumber_Add(a, distance);
    Py_XDECREF(part);
    Py_XDECREF(distance);
    return number;
}

static PyObject *call_uniform(PyObject *self, PyObject *const *given, Py_ssize_t placed, PyObject *names)
{
    static const Parameters wanted = {"uniform", 2, 2, 2, {"a", "b"}};
    Generator *rng = (Generator *)self;
    PyObject *values[2];
    if (take_arguments(&wanted, given, placed, names, values) < 0) {
        return NULL;
    }
    PyObject *width = PyNumber_Subtract(values[1], values[0]);
    if (width == NULL || ready(rng) < 0) {
        Py_XDECREF(width);
        return NULL;
    }
    Saved before;
    keep_state(rng, &before);
    PyObject *number = between(values[0], width, unit_of(rng->kind->u64(rng->state)));
    Py_DECREF(width);
    if (number == NULL) {
        restore_state(rng, &before);
    }
    return number;
}

/* ---- The methods. ---- */

PyDoc_STRVAR(u64_doc,
"u64($self, /)\n"
"--\n"
"\n"
"Return a random integer of 64 bits, from 0 to 2^64 - 1.\n"
"\n"
"Examples\n"
"--------\n"
">>> from nanorand import WyRand\n"
">>> WyRand.seed_from_u64(42).u64()\n"
"6327169416285365978\n");

PyDoc_STRVAR(random_doc,
"random($self, /)\n"
"--\n"
"\n"
"Return a random float in [0.0, 1.0): the upper 53 bits of the next `u64`, times 2^-53.\n"
"\n"
"Examples\n"
"--------\n"
">>> from nanorand import WyRand\n"
">>> WyRand.seed_from_u64(42).random()\n"
"0.34299654134102164\n");

PyDoc_STRVAR(bytes_doc,
"bytes($self, /, length)\n"
"--\n"
"\n"
"Return the next `length` bytes, by one request (one read from the generator).\n"
"\n"
"Parameters\n"
"----------\n"
"length : int\n"
"    Number of bytes. A length of 0 draws nothing.\n"
"\n"
"Raises\n"
"------\n"
"OutOfBounds\n"
"    If `length` is negative, or greater than `sys.maxsize`.\n"
"\n"
"Examples\n"
"--------\n"
">>> from nanorand import Stream\n"
">>> Stream(bytes(32)).bytes(4).hex()\n"
"'76b8e0ad'\n");

PyDoc_STRVAR(below_doc,
"below($self, /, end)\n"
"--\n"
"\n"
"Return a random integer from 0 to `end` - 1.\n"
"\n"
"Parameters\n"
"----------\n"
"end : int\n"
"    Upper bound, excluded; at most 2^64.\n"
"\n"
"Raises\n"
"------\n"
"EmptyRange\n"
"    If `end` is 0 or less. Nothing was drawn.\n"
"OutOfBounds\n"
"    If `end` is less than -2^63 or greater than 2^64. Nothing was drawn.\n"
"Exhausted\n"
"    If 128 words (random integers of 64 bits) in a row were rejected. They stay consumed.\n"
"\n"
"Examples\n"
"--------\n"
">>> from nanorand import WyRand\n"
">>> WyRand.seed_from_u64(42).below(100)\n"
"34\n");

PyDoc_STRVAR(range_doc,
"range($self, /, first, last)\n"
"--\n"
"\n"
"Return a random integer from `first` to `last`, both included, as in `random.randint`.\n"
"\n"
"Parameters\n"
"----------\n"
"first, last : int\n"
"    Bounds, at least -2^63 and less than 2^64. If `first` is negative, both are less than 2^63.\n"
"\n"
"Raises\n"
"------\n"
"EmptyRange\n"
"    If `first` is greater than `last`. Nothing was drawn.\n"
"OutOfBounds\n"
"    If a bound is not within these limits. Nothing was drawn.\n"
"Exhausted\n"
"    If 128 words (random integers of 64 bits) in a row were rejected. They stay consumed.\n"
"\n"
"Examples\n"
"--------\n"
">>> from nanorand import WyRand\n"
">>> WyRand.seed_from_u64(42).range(1, 100), WyRand.seed_from_u64(42).range(-50, 49)\n"
"(35, -16)\n"
">>> WyRand.seed_from_u64(42).range(6, 1)\n"
"Traceback (most recent call last):\n"
"nanorand.errors.EmptyRange: no number from 6 to 1\n");

PyDoc_STRVAR(randint_doc,
"randint($self, /, a, b)\n"
"--\n"
"\n"
"Return a random integer from `a` to `b`, both included. This is `range` under the name that it has\n"
"in `random`.\n"
"\n"
"Parameters\n"
"----------\n"
"a, b : int\n"
"    Bounds, as for `range`.\n"
"\n"
"Raises\n"
"------\n"
"EmptyRange\n"
"    If `a` is greater than `b`. Nothing was drawn.\n"
"OutOfBounds\n"
"    If a bound is not within the limits of `range`. Nothing was drawn.\n"
"Exhausted\n"
"    If 128 words (random integers of 64 bits) in a row were rejected. They stay consumed.\n"
"\n"
"Examples\n"
"--------\n"
">>> from nanorand import WyRand\n"
">>> WyRand.seed_from_u64(42).randint(1, 100)\n"
"35\n"
">>> WyRand.seed_from_u64(42).randint(1, 2**64)\n"
"Traceback (most recent call last):\n"
"nanorand.errors.OutOfBounds: b is 18446744073709551616, not in -9223372036854775808..=18446744073709551615\n");

PyDoc_STRVAR(range32_doc,
"range32($self, /, first, last)\n"
"--\n"
"\n"
"Return a random integer from `first` to `last`, both included, drawn from words of 32 bits.\n"
"\n"
"This is the range of the type `u32` in other languages. It returns other numbers than `range`.\n"
"\n"
"Parameters\n"
"----------\n"
"first, last : int\n"
"    Bounds, from 0 to 2^32 - 1.\n"
"\n"
"Raises\n"
"------\n"
"EmptyRange\n"
"    If `first` is greater than `last`. Nothing was drawn.\n"
"OutOfBounds\n"
"    If a bound is negative, or 2^32 or more. Nothing was drawn.\n"
"Exhausted\n"
"    If 128 words (random integers of 32 bits) in a row were rejected. They stay consumed.\n"
"\n"
"Examples\n"
"--------\n"
">>> from nanorand import WyRand\n"
">>> WyRand.seed_from_u64(42).range32(1, 6)\n"
"5\n");

PyDoc_STRVAR(uniform_doc,
"uniform($self, /, a, b)\n"
"--\n"
"\n"
"Return `a` + (`b` - `a`) * `random()`, as `random.uniform` does. Because of rounding, the result may\n"
"be `b` itself.\n"
"\n"
"Examples\n"
"--------\n"
">>> from nanorand import WyRand\n"
">>> WyRand.seed_from_u64(42).uniform(-1, 1)\n"
"-0.3140069173179567\n");

PyMethodDef number_calls[] = {
    {"u64", call_u64, METH_NOARGS, u64_doc},
    {"random", call_random, METH_NOARGS, random_doc},
    {"bytes", CALL(call_bytes), METH_FASTCALL | METH_KEYWORDS, bytes_doc},
    {"below", CALL(call_below), METH_FASTCALL | METH_KEYWORDS, below_doc},
    {"range", CALL(call_range), METH_FASTCALL | METH_KEYWORDS, range_doc},
    {"randint", CALL(call_randint), METH_FASTCALL | METH_KEYWORDS, randint_doc},
    {"range32", CALL(call_range32), METH_FASTCALL | METH_KEYWORDS, range32_doc},
    {"uniform", CALL(call_uniform), METH_FASTCALL | METH_KEYWORDS, uniform_doc},
    {NULL, NULL, 0, NULL},
};
