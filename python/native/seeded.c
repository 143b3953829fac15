/* The generators whose state is their seed, in little-endian order: WyRand and Pcg64. */
#include "native.h"

#include <string.h>

static int take_seed(PyObject *self, PyObject *placed, PyObject *named, PyObject **seed)
{
    static char *names[] = {"seed", NULL};
    return take_constructor(self, placed, named, "O", names, seed);
}

static int start_wyrand(PyObject *self, PyObject *placed, PyObject *named)
{
    PyObject *seed;
    nanorand_wyrand state;
    if (take_seed(self, placed, named, &seed) < 0 || take_u64("seed", seed, UINT64_MAX, &state.seed) < 0) {
        return -1;
    }
    return set_state((Generator *)self, &state);
}

static int start_pcg64(PyObject *self, PyObject *placed, PyObject *named)
{
    PyObject *seed;
    nanorand_pcg64 state;
    if (take_seed(self, placed, named, &seed) < 0 || take_u128("seed", seed, &state) < 0) {
        return -1;
    }
    return set_state((Generator *)self, &state);
}

static PyObject *get_seed(PyObject *self, void *Py_UNUSED(closure))
{
    uint8_t bytes[LONGEST_STATE] = {0};
    nanorand_pcg64 seed;
    if (read_state((Generator *)self, bytes) < 0) {
        return NULL;
    }
    memcpy(&seed, bytes, sizeof seed);
    return number_of_halves(seed.high, seed.low);
}

static PyObject *show(PyObject *self)
{
    PyObject *seed = get_seed(self, NULL);
    PyObject *digits = seed == NULL ? NULL : PyNumber_ToBase(seed, 16);
    PyObject *text = digits == NULL ? NULL : PyUnicode_FromFormat("%s(%U)", type_name(self), digits);
    Py_XDECREF(seed);
    Py_XDECREF(digits);
    return text;
}

/* ---- Jumps. ---- */

static PyObject *call_jump_wyrand(PyObject *self, PyObject *const *given, Py_ssize_t placed, PyObject *names)
{
    PyObject *value;
    uint64_t draws;
    if (take_arguments(&jump_parameters, given, placed, names, &value) < 0
        || take_u64("draws", value, UINT64_MAX, &draws) < 0 || ready((Generator *)self) < 0) {
        return NULL;
    }
    nanorand_wyrand_jump((nanorand_wyrand *)((Generator *)self)->state, draws);
    Py_RETURN_NONE;
}

static PyObject *call_jump_pcg64(PyObject *self, PyObject *const *given, Py_ssize_t placed, PyObject *names)
{
    PyObject *value;
    nanorand_pcg64 draws;
    if (take_arguments(&jump_parameters, given, placed, names, &value) < 0 || take_u128("draws", value, &draws) < 0
        || ready((Generator *)self) < 0) {
        return NULL;
    }
    nanorand_pcg64_jump((nanorand_pcg64 *)((Generator *)self)->state, &draws);
    Py_RETURN_NONE;
}

/* ---- Distances. ---- */

/* Reads this state and that of the argument `other`, a generator of the same kind. */
static int read_both(PyObject *self, PyObject *const *given, Py_ssize_t placed, PyObject *names, uint8_t *start,
                     uint8_t *end)
{
    static const Parameters wanted = {"distance", 1, 1, 1, {"other"}};
    Generator *rng = (Generator *)self;
    PyObject *value;
    Generator *other = take_arguments(&wanted, given, placed, names, &value) < 0 ? NULL : take_generator("other", value);
    if (other == NULL) {
        return -1;
    }
    if (other->kind != rng->kind) {
        PyErr_Format(PyExc_TypeError, "other is a %s, not a %s", type_name(value), rng->kind->name);
        return -1;
    }
    return read_state(rng, start) < 0 || read_state(other, end) < 0 ? -1 : 0;
}

static PyObject *call_distance_wyrand(PyObject *self, PyObject *const *given, Py_ssize_t placed, PyObject *names)
{
    uint8_t start[LONGEST_STATE], end[LONGEST_STATE];
    nanorand_wyrand rng, other;
    if (read_both(self, given, placed, names, start, end) < 0) {
        return NULL;
    }
    memcpy(&rng, start, sizeof rng);
    memcpy(&other, end, sizeof other);
    return PyLong_FromUnsignedLongLong(nanorand_wyrand_distance(&rng, &other));
}

static PyObject *call_distance_pcg64(PyObject *self, PyObject *const *given, Py_ssize_t placed, PyObject *names)
{
    uint8_t start[LONGEST_STATE], end[LONGEST_STATE];
    nanorand_pcg64 rng, other, draws;
    if (read_both(self, given, placed, names, start, end) < 0) {
        return NULL;
    }
    memcpy(&rng, start, sizeof rng);
    memcpy(&other, end, sizeof other);
    if (nanorand_pcg64_distance(&rng, &other, &draws) != NANORAND_OK) {
        Py_RETURN_NONE;
    }
    return number_of_halves(draws.high, draws.low);
}

/* ---- The types. ---- */

PyDoc_STRVAR(seed_doc,
"The seed, which is the state: a generator with this seed is equal to this one.\n"
"\n"
"Examples\n"
"--------\n"
">>> from nanorand import WyRand\n"
">>> rng = WyRand.seed_from_u64(42)\n"
">>> WyRand(rng.seed) == rng\n"
"True\n");

static PyGetSetDef parts[] = {
    {"seed", get_seed, NULL, seed_doc, NULL},
    {NULL, NULL, NULL, NULL, NULL},
};

PyDoc_STRVAR(wyrand_doc,
"WyRand(seed)\n"
"--\n"
"\n"
"Wang Yi's wyrand, with a seed of 64 bits.\n"
"\n"
"It is not cryptographically secure: never use it to generate a key, a token or a password.\n"
"\n"
"The seed is the state itself, and is not mixed: generators with neighbouring seeds, such as 0, 1, 2,\n"
".., draw correlated numbers. For such numbers, use `seed_from_u64`. If you need many generators, use\n"
"parts of one stream (`part`), or mixed seeds: numbers that another generator drew, or the first 8\n"
"bytes of the SHA-256 of a name.\n"
"\n"
"Parameters\n"
"----------\n"
"seed : int\n"
"    From 0 to 2^64 - 1.\n"
"\n"
"Raises\n"
"------\n"
"OutOfBounds\n"
"    If the seed is negative, or 2^64 or more.\n"
"\n"
"Examples\n"
"--------\n"
">>> from nanorand import WyRand\n"
">>> rng = WyRand.seed_from_u64(42)\n"
">>> rng.range(1, 100), rng.range(1, 100)\n"
"(35, 82)\n");

PyDoc_STRVAR(jump_wyrand_doc,
"jump($self, /, draws)\n"
"--\n"
"\n"
"Jump ahead by `draws` draws, in constant time.\n"
"\n"
"Parameters\n"
"----------\n"
"draws : int\n"
"    Number of draws, from 0 to 2^64 - 1.\n"
"\n"
"Raises\n"
"------\n"
"OutOfBounds\n"
"    If `draws` is negative, or 2^64 or more.\n"
"\n"
"Examples\n"
"--------\n"
">>> from nanorand import WyRand\n"
">>> rng = WyRand.seed_from_u64(42)\n"
">>> rng.jump(1000)\n"
">>> rng.u64()\n"
"4435970483277311118\n");

PyDoc_STRVAR(distance_wyrand_doc,
"distance($self, /, other)\n"
"--\n"
"\n"
"Return the number of draws, below 2^64, that lead from this state to the state of another `WyRand`.\n"
"\n"
"There is exactly one such number. From the state before a task to the state after it, this is the\n"
"number of draws that the task made. A draw is what `u64` takes.\n"
"\n"
"Examples\n"
"--------\n"
">>> from nanorand import WyRand\n"
">>> start = WyRand.seed_from_u64(42)\n"
">>> rng = start.copy()\n"
">>> rng.shuffle(list(range(1000)))\n"
">>> start.distance(rng)\n"
"1000\n");

static PyMethodDef wyrand_calls[] = {
    {"jump", CALL(call_jump_wyrand), METH_FASTCALL | METH_KEYWORDS, jump_wyrand_doc},
    {"distance", CALL(call_distance_wyrand), METH_FASTCALL | METH_KEYWORDS, distance_wyrand_doc},
    {NULL, NULL, 0, NULL},
};

GENERATOR_CLASS(wyrand, "WyRand", nanorand_wyrand, start_wyrand, show, parts, wyrand_calls)

PyDoc_STRVAR(pcg64_doc,
"Pcg64(seed)\n"
"--\n"
"\n"
"The library's Pcg64, with a seed of 128 bits.\n"
"\n"
"It is not cryptographically secure: never use it to generate a key, a token or a password.\n"
"\n"
"The seed is the state itself, and is not mixed: generators with neighbouring seeds, such as 0, 1, 2,\n"
".., draw correlated numbers. For such numbers, use `seed_from_u64`. If two seeds differ by a\n"
"multiple of 2^k, for k above 64, all words of their streams agree in the low k - 64 bits. If you\n"
"need many generators, use parts of one stream (`part`), or mixed seeds: numbers that another\n"
"generator drew, or the first 16 bytes of the SHA-256 of a name.\n"
"\n"
"Parameters\n"
"----------\n"
"seed : int\n"
"    From 0 to 2^128 - 1.\n"
"\n"
"Raises\n"
"------\n"
"OutOfBounds\n"
"    If the seed is negative, or 2^128 or more.\n"
"\n"
"Examples\n"
"--------\n"
">>> from nanorand import Pcg64\n"
">>> Pcg64.seed_from_u64(42).range(1, 100)\n"
"48\n");

PyDoc_STRVAR(jump_pcg64_doc,
"jump($self, /, draws)\n"
"--\n"
"\n"
"Jump ahead by `draws` draws, in at most 128 steps.\n"
"\n"
"Parameters\n"
"----------\n"
"draws : int\n"
"    Number of draws, from 0 to 2^128 - 1.\n"
"\n"
"Raises\n"
"------\n"
"OutOfBounds\n"
"    If `draws` is negative, or 2^128 or more.\n"
"\n"
"Examples\n"
"--------\n"
">>> from nanorand import Pcg64\n"
">>> rng = Pcg64.seed_from_u64(42)\n"
">>> rng.jump(1000)\n"
">>> hex(rng.seed)\n"
"'0x2a12d4e158f64dd6a4b03e149d4df5'\n");

PyDoc_STRVAR(distance_pcg64_doc,
"distance($self, /, other)\n"
"--\n"
"\n"
"Return the number of draws, below 2^126, that lead from this state to the state of another `Pcg64`,\n"
"or None if no number of draws does.\n"
"\n"
"There is at most one such number, and there is one for two generators that were made from the same\n"
"one by draws, jumps, copies and parts. From the state before a task to the state after it, this is\n"
"the number of draws that the task made. A draw is what `u64` takes.\n"
"\n"
"Examples\n"
"--------\n"
">>> from nanorand import Pcg64\n"
">>> start = Pcg64.seed_from_u64(42)\n"
">>> start.distance(start.part(3, 10**9 + 1))\n"
"3000000003\n"
">>> print(Pcg64(5).distance(Pcg64(6)))\n"
"None\n");

static PyMethodDef pcg64_calls[] = {
    {"jump", CALL(call_jump_pcg64), METH_FASTCALL | METH_KEYWORDS, jump_pcg64_doc},
    {"distance", CALL(call_distance_pcg64), METH_FASTCALL | METH_KEYWORDS, distance_pcg64_doc},
    {NULL, NULL, 0, NULL},
};

GENERATOR_CLASS(pcg64, "Pcg64", nanorand_pcg64, start_pcg64, show, parts, pcg64_calls)
