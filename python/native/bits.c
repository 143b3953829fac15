/*
 * Bit generators for NumPy: the capsule of a numpy.random.BitGenerator draws 64-bit words from a generator.
 *
 * NumPy draws without Python's lock. A caller that draws, or that calls a function defined in this file, must hold the
 * lock of the bit generator. Words are drawn ahead, many by one request.
 */
#include "native.h"

#include <string.h>

/* The structure that a capsule points to, as numpy/random/bitgen.h defines it for bit generators outside NumPy. */
typedef struct {
    void *state;
    uint64_t (*next_uint64)(void *state);
    uint32_t (*next_uint32)(void *state);
    double (*next_double)(void *state);
    uint64_t (*next_raw)(void *state);
} BitGenerator;

static const char *const capsule_name = "BitGenerator";

enum { HALVES = 1024 };

/*
 * Words as their 32-bit halves, the low half first. The halves from `begin` to before `next` are drawn; `next` is odd
 * if only one half of a word is. `start` is the generator before the word at `begin`, and `ahead` its state after the
 * last word.
 */
typedef struct {
    size_t begin, next;
    uint32_t halves[HALVES];
    Generator *start;
    uint64_t ahead[sizeof(nanorand_keystream) / sizeof(uint64_t)];
} Words;

/* Not inlined, which keeps the code short for the usual case, in which a word is already drawn. */
__attribute__((cold, noinline)) static void draw_ahead(Words *words)
{
    const Kind *kind = words->start->kind;
    memcpy(words->start->state, words->ahead, kind->size);
    kind->fill_bytes(words->ahead, (uint8_t *)words->halves, sizeof words->halves);
    words->begin = words->next = 0;
}

static uint64_t next_uint64(void *state)
{
    Words *words = state;
    uint64_t word;
    if (words->next % 2 == 1) {
        words->next += 1;
    }
    if (words->next == HALVES) {
        draw_ahead(words);
    }
    memcpy(&word, words->halves + words->next, sizeof word);
    words->next += 2;
    return word;
}

static uint32_t next_uint32(void *state)
{
    Words *words = state;
    if (words->next == HALVES) {
        draw_ahead(words);
    }
    return words->halves[words->next++];
}

static double next_double(void *state)
{
    return unit_of(next_uint64(state));
}

/*
 * Begins at the state of a generator, after waiting for a thread that draws from it. `half` is the half of a word that
 * is drawn first, or None.
 */
static int begin_at(Words *words, Generator *rng, PyObject *half)
{
    size_t next = HALVES;
    uint64_t number = 0;
    if (half != Py_None) {
        if (take_u64("half", half, UINT32_MAX, &number) < 0) {
            return -1;
        }
        next = HALVES - 1;
    }
    Saved state;
    if (ready(rng) < 0) {
        return -1;
    }
    keep_state(rng, &state);
    set_state(words->start, state.bytes);
    memcpy(words->ahead, state.bytes, rng->kind->size);
    words->halves[HALVES - 1] = (uint32_t)number;
    words->begin = HALVES;
    words->next = next;
    return 0;
}

static void free_words(Words *words)
{
    Py_DECREF(words->start);
    PyMem_Free(words);
}

static void free_capsule(PyObject *capsule)
{
    free_words(PyCapsule_GetContext(capsule));
}

static Words *new_words(Generator *rng)
{
    Words *words = new_array(1, sizeof *words);
    if (words == NULL) {
        return NULL;
    }
    words->start = (Generator *)make_generator(Py_TYPE(rng), rng->kind);
    if (words->start == NULL) {
        PyMem_Free(words);
        return NULL;
    }
    if (begin_at(words, rng, Py_None) < 0) {
        free_words(words);
        return NULL;
    }
    return words;
}

/* attach(capsule, generator): makes the capsule draw from a copy of the generator, which the capsule owns. */
static PyObject *attach(PyObject *Py_UNUSED(module), PyObject *arguments)
{
    PyObject *capsule, *given;
    if (!PyArg_ParseTuple(arguments, "OO:attach", &capsule, &given)) {
        return NULL;
    }
    BitGenerator *bits = PyCapsule_GetPointer(capsule, capsule_name);
    Generator *rng = bits == NULL ? NULL : take_generator("generator", given);
    if (rng == NULL) {
        return NULL;
    }
    if (bits->state != NULL) {
        PyErr_SetString(PyExc_TypeError, "the capsule has words already");
        return NULL;
    }
    Words *words = new_words(rng);
    if (words == NULL) {
        return NULL;
    }
    if (PyCapsule_SetContext(capsule, words) < 0 || PyCapsule_SetDestructor(capsule, free_capsule) < 0) {
        free_words(words); /* GCOVR_EXCL_LINE: neither fails for a capsule that has a pointer. */
        return NULL; /* GCOVR_EXCL_LINE */
    }
    *bits = (BitGenerator){words, next_uint64, next_uint32, next_double, next_uint64};
    Py_RETURN_NONE;
}

/* Returns the words of a capsule, or NULL and an exception if it is not one of ours. */
static Words *take_words(PyObject *capsule)
{
    BitGenerator *bits = PyCapsule_GetPointer(capsule, capsule_name);
    if (bits == NULL) {
        return NULL;
    }
    if (bits->next_uint64 != next_uint64) {
        PyErr_SetString(PyExc_TypeError, "the capsule is not of a bit generator of nanorand");
        return NULL;
    }
    return bits->state;
}

/* drawn(capsule): returns a generator, how many words were drawn since, and the half to be drawn next, or None. */
static PyObject *drawn(PyObject *Py_UNUSED(module), PyObject *capsule)
{
    Words *words = take_words(capsule);
    if (words == NULL) {
        return NULL;
    }
    Py_ssize_t count = (Py_ssize_t)(words->next + 1 - words->begin) / 2;
    if (words->next % 2 == 0) {
        return Py_BuildValue("OnO", words->start, count, Py_None);
    }
    return Py_BuildValue("Onk", words->start, count, (unsigned long)words->halves[words->next]);
}

/* restart(capsule, generator, half): continues with `half`, if it is not None, and then from the generator's state. */
static PyObject *restart(PyObject *Py_UNUSED(module), PyObject *arguments)
{
    PyObject *capsule, *given, *half;
    if (!PyArg_ParseTuple(arguments, "OOO:restart", &capsule, &given, &half)) {
        return NULL;
    }
    Words *words = take_words(capsule);
    Generator *rng = words == NULL ? NULL : take_generator("generator", given);
    if (rng == NULL) {
        return NULL;
    }
    if (rng->kind != words->start->kind) {
        PyErr_SetString(PyExc_TypeError, "the generator is of another kind");
        return NULL;
    }
    if (begin_at(words, rng, half) < 0) {
        return NULL;
    }
    Py_RETURN_NONE;
}

/* bounded(name, value, last): returns the value as an int from 0 to `last`. Errors use the name. */
static PyObject *bounded(PyObject *Py_UNUSED(module), PyObject *arguments)
{
    const char *name;
    PyObject *value;
    unsigned long long last;
    uint64_t number;
    if (!PyArg_ParseTuple(arguments, "sOK:bounded", &name, &value, &last) || take_u64(name, value, last, &number) < 0) {
        return NULL;
    }
    return PyLong_FromUnsignedLongLong(number);
}

static PyMethodDef bits_calls[] = {
    {"attach", attach, METH_VARARGS, NULL},
    {"bounded", bounded, METH_VARARGS, NULL},
    {"drawn", drawn, METH_O, NULL},
    {"restart", restart, METH_VARARGS, NULL},
    {NULL, NULL, 0, NULL},
};

int nanorand_add_bits(PyObject *module)
{
    return PyModule_AddFunctions(module, bits_calls);
}
