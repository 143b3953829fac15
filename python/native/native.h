/*
 * The declarations that the files of the extension module share.
 *
 * A generator is a Python object that holds a state of nanorand.h. Its kind says which functions draw from this
 * state, so that each method is written once for all generators. Functions that can fail return -1 or NULL with a
 * Python exception set, and 0 or an object otherwise.
 */
#ifndef NATIVE_H
#define NATIVE_H

#define PY_SSIZE_T_CLEAN
#include <Python.h>

#include <stddef.h>
#include <stdint.h>

#include "nanorand.h"

#if PY_BIG_ENDIAN
#error "the bytes of a state are those of its structure, least byte first"
#endif

/* Converts a function to the type that a table of methods or of slots holds. */
#define CALL(function) ((PyCFunction)(void (*)(void))(function))
#define SLOT(function) __extension__((void *)(function))

/* ---- kinds.c: the differences between the generators. ---- */

typedef nanorand_status Permutation(void *state, size_t *items, size_t length);

typedef struct {
    const char *name;         /* of its class, which a saved state has */
    size_t size;              /* of the state's structure, in bytes */
    size_t shortest, longest; /* lengths of the state as bytes */
    size_t entropy;           /* bytes of a state that the system provides; zeros follow */
    size_t block_length;      /* bytes that each request takes a multiple of; 0 if requests join without a break */
    int correlated;           /* whether draws are correlated if a large power of two divides their distance */
    void (*seed)(void *state, uint64_t number);
    uint64_t (*u64)(void *state);
    void (*fill_bytes)(void *state, uint8_t *buffer, size_t length);
    nanorand_status (*range_u32)(void *state, uint32_t first, uint32_t last, uint32_t *number);
    nanorand_status (*range_u64)(void *state, uint64_t first, uint64_t last, uint64_t *number);
    nanorand_status (*range_i64)(void *state, int64_t first, int64_t last, int64_t *number);
    Permutation *shuffle, *shuffle_full;
    nanorand_status (*extend_sample)(void *state, size_t population, size_t *places, size_t wanted, size_t filled,
                                     size_t *table, size_t room);
    nanorand_status (*part)(void *state, uint64_t index, uint64_t draws);
    void (*block)(void *state, uint8_t *block); /* ChaCha only */
    /* `save` writes the state as bytes and returns their number. `load` reads a state from a valid number of bytes. */
    size_t (*save)(const void *state, size_t size, uint8_t *bytes);
    void (*load)(void *state, const uint8_t *bytes, size_t length);
} Kind;

enum { LONGEST_STATE = 48 + 63 };

extern const Kind wyrand_kind, pcg64_kind, chacha8_kind, chacha12_kind, chacha20_kind, stream_kind;

/* The upper 53 bits of a 64-bit word, as a float in [0.0, 1.0). */
static inline double unit_of(uint64_t word)
{
    return (double)(word >> 11) * 0x1p-53;
}

/* ---- errors.c: raises the errors of nanorand.errors, by name. ---- */

/* raise_text formats the message of the error. raise_made builds the error's arguments as Py_BuildValue does. */
void raise_text(const char *error, const char *format, ...);
void raise_made(const char *error, const char *format, ...);
/* Raises the error of a status other than 0. The caller has already checked the range and the length of the draw. */
void raise_status(nanorand_status status);
/* Returns None, or raises the error of a status. */
PyObject *none_of(nanorand_status status);
/* The name of a type, as `__name__` is, and the name of a value's type. */
const char *name_of(PyTypeObject *type);
const char *type_name(PyObject *value);

/* ---- arguments.c: the arguments of a call. ---- */

enum { MOST_PARAMETERS = 4 };

/* The parameters of a call: the first `required` are mandatory, and the first `placed` may be positional. */
typedef struct {
    const char *call;
    int required, placed, count;
    const char *names[MOST_PARAMETERS];
} Parameters;

extern const Parameters jump_parameters;

/* Sets the value of each parameter from the arguments of a call, or NULL if it is missing. Borrowed references. */
int take_arguments(const Parameters *wanted, PyObject *const *given, Py_ssize_t placed, PyObject *names,
                   PyObject **values);
/* Parses the arguments of a constructor as PyArg_ParseTupleAndKeywords does. Errors name the class. */
int take_constructor(PyObject *self, PyObject *placed, PyObject *named, const char *letters, char **names, ...);

/* An integer from -2^63 to 2^64 - 1, as its 64 bits. */
typedef struct {
    int negative;
    uint64_t bits;
} Whole;

/* Returns the value as an int, or raises a TypeError. */
PyObject *take_index(const char *name, PyObject *value);
/* Sets the 64 bits of an int and returns 1 if it is from -2^63 to 2^64 - 1, and returns 0 otherwise. */
int fits_whole(PyObject *whole, Whole *number);
int is_above(Whole one, Whole other);
/* Reads an int from `first` to `last`. Any other int raises OutOfBounds. */
int take_whole(const char *name, PyObject *value, int64_t first, uint64_t last, Whole *number);
int take_u64(const char *name, PyObject *value, uint64_t last, uint64_t *number);
/* Raises EmptyRange for a range whose first number is greater than its last. */
void raise_empty(Whole first, Whole last);
/* Sets both halves of an int. Returns 1, or 0 if it is negative or has more than 128 bits, or -1 on an exception. */
int halves_of(PyObject *whole, nanorand_pcg64 *number);
int take_u128(const char *name, PyObject *value, nanorand_pcg64 *number);
/* The same for an int whose high half is at most `highest`. Errors show the bounds. */
int take_wide(const char *name, PyObject *value, uint64_t highest, const char *bounds, nanorand_pcg64 *number);
/* Returns the number with these 64-bit halves. */
PyObject *number_of_halves(uint64_t high, uint64_t low);
/* Raises OutOfBounds for a number. The message gives only the length of a long number. */
void raise_out_of_bounds(const char *name, PyObject *whole, const char *bounds);
/* Returns a new bytes object with the contents of a bytes, bytearray or memoryview. */
PyObject *take_octets(const char *name, PyObject *value);
/* The same. The message of an error names the types that are wanted. */
PyObject *take_octets_or(const char *name, PyObject *value, const char *wanted);
int take_octets_of(const char *name, PyObject *value, size_t length, uint8_t *octets);

/* ---- generator.c: the object of a generator. ---- */

/* READY to draw; UNMADE if no state was set yet; AWAY while a thread has a long turn. */
enum { READY, UNMADE, AWAY };

typedef struct {
    PyObject_HEAD
    PyObject *weak_references;
    const Kind *kind;
    PyThread_type_lock lock; /* created and held by a thread that has a long turn */
    unsigned long owner;     /* the thread of the last long turn */
    int condition;
    uint64_t state[]; /* a structure of nanorand.h */
} Generator;

/* Returns a generator without a state. */
PyObject *make_generator(PyTypeObject *type, const Kind *kind);
/* Returns the value as a generator, or NULL and a TypeError if it is none. */
Generator *take_generator(const char *name, PyObject *value);

int await_state(Generator *rng);

/*
 * Returns when the state may be read and changed. This holds until Python's lock is released, which any call into
 * Python and the next call of this function may do. Python objects may change while it waits. Returns -1 and an
 * exception if there is no state, if this thread has the turn itself (a signal handler runs in the middle of a call),
 * or if a signal handler raised an exception meanwhile.
 */
static inline int ready(Generator *rng)
{
    return rng->condition == READY ? 0 : await_state(rng);
}

/* A draw of more bytes than this releases Python's lock, so that other threads can run. */
enum { LONG = 1 << 16 };

/* The turn of one draw. Other threads that need the generator wait until a long turn ends. */
typedef struct {
    PyThreadState *apart; /* while Python's lock is released */
    int held;             /* whether the turn is long, and has not ended */
} Turn;

/* Both wait for the generator. For a draw of more than LONG bytes, begin_turn also releases Python's lock. */
int hold_turn(Generator *rng, size_t bytes, Turn *turn);
int begin_turn(Generator *rng, size_t bytes, Turn *turn);
/* Takes Python's lock again if it is released. Does nothing if the turn has ended. */
void end_turn(Generator *rng, Turn *turn);

/* A copy of a state, which is restored if a call into Python fails after a draw. */
typedef struct {
    uint8_t bytes[sizeof(nanorand_keystream)];
} Saved;

void keep_state(const Generator *rng, Saved *saved);
/* Waits for another thread's turn to end, but for no signal: an exception is already set. */
void restore_state(Generator *rng, const Saved *saved);
/* Sets a state, after waiting as `ready` does. Returns -1 on an exception. */
int set_state(Generator *rng, const void *state);
/* Reads the state as bytes, atomically. */
Py_ssize_t read_state(Generator *rng, uint8_t bytes[LONGEST_STATE]);

/* ---- numbers.c ---- */

PyObject *draw_bytes(Generator *rng, uint64_t length);

/* ---- turns.c: draws of many places, which signals can interrupt. ---- */

/* The most places that are drawn by one call of the library, with Python's lock. A long draw makes steps of its own. */
enum { SHORT = LONG / sizeof(uint64_t) };

/* A turn, and the state before it. */
typedef struct {
    Turn turn;
    Saved before;
} Draw;

/* Makes the steps from `from` to before `end` of a plan, without Python objects. Returns a status of the library. */
typedef nanorand_status Steps(Generator *rng, void *plan, size_t from, size_t end);

/* Begins a draw of `count` places. Python's lock stays held. */
int begin_draw(Generator *rng, size_t count, Draw *draw);
/*
 * Makes `count` steps, and returns a status. A long draw releases Python's lock meanwhile, and checks for signals
 * several times a second. If a signal handler raised an exception, restores the state and returns -1.
 */
int make_steps(Generator *rng, Draw *draw, size_t count, Steps *steps, void *plan);
/* Does the same, but returns 0, or -1 and an exception. */
int draw_steps(Generator *rng, Draw *draw, size_t count, Steps *steps, void *plan);
/* Ends a draw. If it failed, restores the state first. */
void end_draw(Generator *rng, Draw *draw, int failed);

/* ---- sequences.c: items by their positions. ---- */

/* Whether the value is a built-in sequence. Reading and assigning its items runs no Python code. */
int is_built_in(PyObject *value);
/* Returns whether items of the value can be replaced: its type has `__setitem__`. Returns -1 on an exception. */
int is_mutable(PyObject *value);
/* Raises a TypeError unless the value has a length and items by index. `self` is a generator or the module. */
int require_sequence(PyObject *self, const char *name, PyObject *value);
/* Also requires that items can be assigned. */
int require_mutable(PyObject *self, const char *name, PyObject *value);
/* Allocates memory for `count` values of a size, to be freed by PyMem_Free, or returns NULL and a MemoryError. */
void *new_array(uint64_t count, size_t size);
/* Raises the exception of a signal handler, if one raised it. Called for item number i, it checks now and then. */
static inline int check_signals(size_t i)
{
    enum { CHECKED = 1 << 10 };
    return i % CHECKED == CHECKED - 1 ? PyErr_CheckSignals() : 0;
}
PyObject *item_at(PyObject *items, size_t place);
/* These return a list: of the first `count` items, and of the numbers. */
PyObject *first_items(PyObject *items, size_t count);
PyObject *numbers_of(const size_t *numbers, size_t count);
/*
 * Ends a draw with a list of the items at these places, or of the places themselves if `items` is NULL. If the list
 * cannot be made, restores the state and returns NULL.
 */
PyObject *end_with_list(Generator *rng, Draw *draw, PyObject *items, const size_t *places, size_t count);

/* ---- choices.c: shares of items. ---- */

/* Returns the cumulative sums of the counts of some items, as a new array, or NULL and an exception. */
uint64_t *read_counts(PyObject *counts, size_t items);
/* Returns the first of some items whose cumulative sum is above the number, which is below the last sum. */
size_t find_share(const uint64_t *sums, size_t items, uint64_t number);

/* ---- module.c ---- */

/* Returns whether the value is a set or a mapping, by the classes of collections.abc, or -1 on an exception. */
int is_unordered(PyObject *self, PyObject *value);

/* ---- The parts of the module. ---- */

extern PyMethodDef number_calls[], sequence_calls[], shuffle_calls[], sample_calls[], choices_calls[], fill_calls[];
extern PyType_Spec generator_spec, wyrand_spec, pcg64_spec, chacha8_spec, chacha12_spec, chacha20_spec, stream_spec;

/* Defines the class of a kind of generator as KIND_spec. Its docstring is KIND_doc. */
#define GENERATOR_CLASS(kind, name, structure, start, show, parts, calls)                                     \
    static PyObject *make_##kind(PyTypeObject *type, PyObject *Py_UNUSED(placed), PyObject *Py_UNUSED(named)) \
    {                                                                                                         \
        return make_generator(type, &kind##_kind);                                                            \
    }                                                                                                         \
    static PyType_Slot kind##_slots[] = {                                                                     \
        {Py_tp_doc, SLOT(kind##_doc)},                                                                        \
        {Py_tp_new, SLOT(make_##kind)},                                                                       \
        {Py_tp_init, SLOT(start)},                                                                            \
        {Py_tp_repr, SLOT(show)},                                                                             \
        {Py_tp_getset, parts},                                                                                \
        {Py_tp_methods, calls},                                                                               \
        {0, NULL},                                                                                            \
    };                                                                                                        \
    PyType_Spec kind##_spec = {                                                                               \
        "nanorand.generators." name, sizeof(Generator) + sizeof(structure), 0,                                \
        Py_TPFLAGS_DEFAULT | Py_TPFLAGS_BASETYPE, kind##_slots,                                               \
    };

/* Creates a class from its specification, and adds it to the module. */
PyObject *add_class(PyObject *module, PyType_Spec *spec, PyObject *bases);

int nanorand_add_generators(PyObject *module);
int nanorand_add_lots(PyObject *module);
int nanorand_add_bits(PyObject *module);
int nanorand_add_randoms(PyObject *module);

#endif
